//! What a command was asked, and whether it was asked rightly.

use bench::names;
use copy::answer::{EXACT, NEWER};

/// Why a command did not do what was asked: it was asked wrongly, or it failed.
pub enum Trouble {
    Misuse(String),
    Failure(String),
}

impl From<String> for Trouble {
    fn from(why: String) -> Trouble {
        Trouble::Failure(why)
    }
}

pub type Done = Result<(), Trouble>;

pub fn misuse<T>(why: impl Into<String>) -> Result<T, Trouble> {
    Err(Trouble::Misuse(why.into()))
}

/// Exactly so many arguments.
pub fn exactly<'a, const N: usize>(words: &[&'a str]) -> Result<[&'a str; N], Trouble> {
    let arguments = if N == 1 { "argument is" } else { "arguments are" };
    words.try_into().or_else(|_| misuse(format!("{N} {arguments} wanted and {} given", words.len())))
}

/// A number within what its command can do.
pub fn number(name: &str, text: &str, least: u64, most: u64) -> Result<u64, Trouble> {
    let value = text.parse().ok().filter(|value| (least..=most).contains(value));
    value.map_or_else(|| misuse(format!("{name} is a number from {least} to {most}, not {text}")), Ok)
}

pub fn lines(text: &str) -> Result<usize, Trouble> {
    const MOST: u64 = 100_000_000; // so many still fit into memory
    number("LINES", text, 1, MOST).map(|lines| lines as usize)
}

pub fn seed(text: &str) -> Result<u64, Trouble> {
    number("SEED", text, 0, u64::MAX)
}

pub fn any_mark(text: &str) -> Result<u32, Trouble> {
    number("MARK", text, NEWER.into(), EXACT.into()).map(|mark| mark as u32)
}

pub fn listed_code(text: &str) -> Result<u32, Trouble> {
    let listed = || names::CODES.map(|(code, _)| code.to_string()).join(", ");
    let code = text.parse().ok().filter(|&code| names::code_name(code).is_some());
    code.map_or_else(|| misuse(format!("CODE is one of {}, not {text}", listed())), Ok)
}
