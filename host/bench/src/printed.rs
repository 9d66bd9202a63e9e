//! An answer as a program prints it: seven numbers, and the code says which of them are filled.

use crate::names;
use copy::answer::{EXACT, READ_ENDED, WRITE_ENDED, WRITE_SPENT};
use copy::Tag;

/// One printed line.
#[derive(Clone, Copy, PartialEq, Eq, Debug)]
pub struct Printed {
    pub line: usize,
    pub code: u32,
    pub client: u32,
    pub tag: Tag,
    pub word: u32,
    pub mark: u32,
}

impl Printed {
    /// An answer without its LF.
    pub fn parse(text: &[u8]) -> Option<Printed> {
        Printed::read(text).ok()
    }

    /// The answer to the line of this number, or why no program may print it.
    pub fn answer(number: usize, raw: &[u8]) -> Result<Printed, String> {
        let text = raw.strip_suffix(b"\n").ok_or_else(|| format!("answer {number} has no LF at its end"))?;
        let unreadable = |why| format!("answer {number} is not readable: {why} in \"{}\"", names::line_text(text));
        let printed = Printed::read(text).map_err(unreadable)?;
        if printed.line != number {
            return Err(format!("answer {number} has the number {}", printed.line));
        }
        printed.as_listed().map_err(|why| format!("line {number}: {why}"))?;
        Ok(printed)
    }

    fn read(text: &[u8]) -> Result<Printed, String> {
        let mut fields = text.split(|&byte| byte == b' ');
        let mut field = |most| decimal(fields.next().ok_or("fewer than seven numbers")?, most);
        let line = field(usize::MAX as u64)? as usize;
        let mut word = || field(u64::from(u32::MAX)).map(|value| value as u32);
        let (code, client, tag) = (word()?, word()?, Tag::new(word()?, word()?));
        let (word, mark) = (word()?, word()?);
        match fields.next() {
            None => Ok(Printed { line, code, client, tag, word, mark }),
            Some(_) => Err("more than seven numbers".to_string()),
        }
    }

    /// A listed code, and nothing filled that the code leaves at zero.
    fn as_listed(&self) -> Result<(), String> {
        let Printed { code, client, tag, word, mark, .. } = *self;
        names::code_name(code).ok_or_else(|| names::code(code))?;
        let tagged = code == READ_ENDED || code == WRITE_ENDED;
        let filled = if client != 0 && !tagged && code != WRITE_SPENT {
            format!("the client {client}")
        } else if tag != Tag::FIRST && !tagged {
            format!("the tag {}", names::tag(tag))
        } else if word != 0 && code != READ_ENDED {
            format!("the page word {word}")
        } else if mark != 0 && code != READ_ENDED {
            format!("the mark {mark}")
        } else if mark > EXACT {
            return Err(format!("{mark} is no mark: 1 is for the tag asked for, 0 for a newer one"));
        } else if (tag.number == 0) != (tag.client == 0) {
            return Err(format!("{} is no tag: its number is 0 exactly when its client is 0", names::tag(tag)));
        } else {
            return Ok(());
        };
        Err(format!("{} has {filled}, where 0 is listed", names::code(code)))
    }
}

/// Digits alone, none of them a leading zero, and at most so much.
fn decimal(field: &[u8], most: u64) -> Result<u64, String> {
    let wrong = |why: &str| Err(format!("\"{}\" {why}", names::line_text(field)));
    let digits = std::str::from_utf8(field).ok().filter(|text| text.bytes().all(|byte| byte.is_ascii_digit()));
    match digits {
        None | Some("") => wrong("is no number"),
        Some(digits) if digits.len() > 1 && digits.starts_with('0') => wrong("has a leading zero"),
        Some(digits) => match digits.parse() {
            Ok(value) if value <= most => Ok(value),
            _ => wrong(&format!("is above {most}")),
        },
    }
}
