//! The commands: what each takes, what it says of itself, and what it does.

use crate::asking::{any_mark, exactly, lines, listed_code, misuse, number, seed, Done};
use crate::saying::{note, print, print_all, rewrite};
use bench::compare::{compare_one, copy_output};
use bench::files::{open, read, write};
use bench::history::raw_lines;
use bench::tally::counted;
use bench::{draw, external, night, order, page, schedule, shrink, soak, tell, why};
use std::path::Path;
use std::time::{Duration, Instant};

pub struct Command {
    name: &'static str,
    arguments: &'static str,
    what: &'static str,
    pub run: fn(&[&str]) -> Done,
}

#[rustfmt::skip] // a table
const COMMANDS: [Command; 12] = [
    Command { name: "generate", arguments: "SEED LINES", what: "prints a schedule, the same for the same seed", run: generate },
    Command { name: "night", arguments: "LINES", what: "prints the night rehearsal, a schedule for timing", run: night_of },
    Command { name: "run", arguments: "FILE", what: "prints the proved program's answers to a schedule", run: run_proved },
    Command { name: "rehearse", arguments: "FILE", what: "prints the copy's answers to a schedule", run: rehearse },
    Command { name: "compare", arguments: "FILE", what: "compares the two on a schedule: equal, or the first line that differs", run: compare },
    Command { name: "shrink", arguments: "FILE [--code CODE | --mark MARK]", what: "prints the smallest schedule found that still differs, or still has the code or a read with the mark", run: shrink_file },
    Command { name: "check", arguments: "FILE ANSWERS", what: "checks any program's answers and sets the operations in one line", run: check },
    Command { name: "tell", arguments: "FILE [LINE]", what: "tells a schedule in words, or the whole machine after a line", run: tell_file },
    Command { name: "draw", arguments: "FILE OUT", what: "draws a schedule: OUT.svg is a picture, OUT.html a page to step through", run: draw_file },
    Command { name: "why", arguments: "FILE", what: "says what holds up each operation that is open at the end", run: explain },
    Command { name: "soak", arguments: "MINUTES [SEED]", what: "compares the two on ever new schedules", run: soak_for },
    Command { name: "help", arguments: "[COMMAND]", what: "prints these lines, or one of them", run: help },
];

impl Command {
    fn usage(&self) -> String {
        format!("bench {} {}", self.name, self.arguments)
    }
}

pub fn find(name: &str) -> Option<&'static Command> {
    COMMANDS.iter().find(|command| command.name == name)
}

pub fn line_of(command: &Command) -> String {
    format!("{}  {}\n", command.usage(), command.what)
}

pub fn lines_of_all() -> String {
    let widest = COMMANDS.iter().map(|command| command.usage().len()).max().unwrap_or(0);
    COMMANDS.iter().map(|command| format!("{:widest$}  {}\n", command.usage(), command.what)).collect()
}

pub fn help(words: &[&str]) -> Done {
    match words {
        [] => Ok(print(lines_of_all().as_bytes())?),
        [name] => match find(name) {
            Some(command) => Ok(print(line_of(command).as_bytes())?),
            None => misuse(format!("there is no command {name}")),
        },
        _ => misuse("COMMAND is wanted, or nothing"),
    }
}

fn generate(words: &[&str]) -> Done {
    let [from, count] = exactly(words)?;
    Ok(print(&schedule(seed(from)?, lines(count)?))?)
}

fn night_of(words: &[&str]) -> Done {
    let [count] = exactly(words)?;
    Ok(print(&night::night(lines(count)?))?)
}

/// As `rehearse < FILE`, with a status.
fn run_proved(words: &[&str]) -> Done {
    let [file] = exactly(words)?;
    Ok(external::pass(&external::program()?, open(file)?)?)
}

fn rehearse(words: &[&str]) -> Done {
    let [file] = exactly(words)?;
    Ok(print(&copy_output(&read(file)?))?)
}

fn compare(words: &[&str]) -> Done {
    let [file] = exactly(words)?;
    let equal = compare_one(&external::program()?, &read(file)?)?;
    Ok(print(format!("equal: {}\n", counted(equal as u64, "line")).as_bytes())?)
}

fn shrink_file(words: &[&str]) -> Done {
    let shrunk = match words {
        [file, "--code", code] | ["--code", code, file] => {
            let code = listed_code(code)?;
            shrink::to_code(&read(file)?, code)?
        }
        [file, "--mark", mark] | ["--mark", mark, file] => {
            let mark = any_mark(mark)?;
            shrink::to_mark(&read(file)?, mark)?
        }
        [file] if !["--code", "--mark"].contains(file) => {
            let input = read(file)?;
            shrink::to_difference(&external::program()?, &input)?
        }
        _ => return misuse("FILE is wanted, and nothing else but --code CODE or --mark MARK"),
    };
    print(&shrunk.schedule)?;
    note(&format!("{shrunk}\n"));
    Ok(())
}

fn check(words: &[&str]) -> Done {
    let [file, answers] = exactly(words)?;
    let checked = order::check(&read(file)?, &read(answers)?)?;
    Ok(print(format!("{checked}\n").as_bytes())?)
}

fn tell_file(words: &[&str]) -> Done {
    match words {
        [file] => {
            let (input, mut teller) = (read(file)?, tell::Teller::new());
            Ok(print_all(raw_lines(&input).map(|raw| teller.take(raw)))?)
        }
        [file, line] => {
            let line = number("LINE", line, 1, u64::MAX)?;
            Ok(print(tell::machine_after(&read(file)?, line as usize)?.as_bytes())?)
        }
        _ => misuse("FILE is wanted, and nothing else but a LINE"),
    }
}

/// The ending of OUT says what is drawn.
fn draw_file(words: &[&str]) -> Done {
    let [file, out] = exactly(words)?;
    let text = match Path::new(out).extension().and_then(|ending| ending.to_str()) {
        Some("svg") => draw::draw(&read(file)?)?,
        Some("html") => page::page(&title(file), &read(file)?)?,
        _ => return misuse(format!("OUT ends in .svg or .html, not so {out}")),
    };
    Ok(write(out, &text)?)
}

/// A page is called after its schedule's file, wherever that lies.
fn title(file: &str) -> String {
    Path::new(file).file_name().map_or(file.to_string(), |name| name.to_string_lossy().into_owned())
}

/// An operation that is open and ours is a failure.
fn explain(words: &[&str]) -> Done {
    let [file] = exactly(words)?;
    let told = why::why(&read(file)?);
    print(told.text.as_bytes())?;
    Ok(told.status()?)
}

/// The seed is said first, so that the run can be repeated.
fn soak_for(words: &[&str]) -> Done {
    let (minutes, from) = match words {
        [minutes] => (minutes, soak::any_seed()),
        [minutes, from] => (minutes, seed(from)?),
        _ => return misuse("MINUTES is wanted, and nothing else but a SEED"),
    };
    let minutes = number("MINUTES", minutes, 1, 525_600)?;
    let program = external::program()?;
    print(format!("seed {from}\n").as_bytes())?;
    let (begin, time) = (Instant::now(), Duration::from_secs(60 * minutes));
    let compared = soak::soak(&program, from, |tally| {
        let left = time.saturating_sub(begin.elapsed());
        rewrite(&soak::so_far(tally, left));
        !left.is_zero()
    });
    rewrite("");
    let tally = compared.map_err(|difference| difference.to_string())?;
    Ok(print(format!("{}\n", soak::told(from, &tally, minutes)).as_bytes())?)
}
