//! One HTML file for a schedule: the picture, and the words of `tell` at the line chosen.
//! The page holds what each line changes in the words; its script does the changes in order.

use crate::draw::picture;
use crate::history::raw_lines;
use crate::json;
use crate::story::{story, Story};
use crate::svg::escaped;
use crate::tell::{Line, Teller};
use crate::words::{self, Sentence};
use std::collections::HashMap;

const PAGE: &str = include_str!("page/page.html");
const STYLE: &str = include_str!("page/page.css");
const SCRIPT: &str = include_str!("page/page.js");

/// A browser must be able to open the page.
pub const MOST_LINES: usize = 10_000;

/// What a line does to the sentence of a subject: no text means that it is gone.
#[derive(Clone, PartialEq, Eq, Debug)]
pub struct Change {
    pub subject: String,
    pub text: Option<String>,
    /// Its place among the sentences after the line.
    pub place: usize,
}

pub fn page(title: &str, input: &[u8]) -> Result<String, String> {
    let count = raw_lines(input).count();
    if count > MOST_LINES {
        return Err(format!(
            "the schedule has {count} lines, and a page that a browser opens at most {MOST_LINES}: \
             draw a picture (.svg), or the page of a part"
        ));
    }
    let story = story(input)?;
    Ok(filled(|name| match name {
        "title" => escaped(title),
        "style" => STYLE.to_string(),
        "picture" => picture(&story),
        "schedule" => data(input, &story),
        "script" => SCRIPT.to_string(),
        _ => String::new(),
    }))
}

/// Names stand between two @@ in the page; what is filled in is not looked at again.
fn filled(text_of: impl Fn(&str) -> String) -> String {
    let parts = PAGE.split("@@").enumerate();
    parts.map(|(index, part)| if index % 2 == 1 { text_of(part) } else { part.to_string() }).collect()
}

/// Every line, told, with its column and its changes.
fn data(input: &[u8], story: &Story) -> String {
    let mut teller = Teller::new();
    let mut before = Vec::new();
    let lines = raw_lines(input).map(|raw| {
        let line = teller.take(raw);
        let after = words::machine(teller.words());
        let changes = changes(&before, &after);
        before = after;
        told(&line, story.column(line.number), &changes)
    });
    json::list(lines.map(|line| line + "\n"))
}

/// What makes the sentences before a line those after it: first the subjects that are gone,
/// then, by place, those that are new or say something else.
pub fn changes(before: &[Sentence], after: &[Sentence]) -> Vec<Change> {
    let kept = if keeps_order(before, after) { by_subject(before) } else { HashMap::new() };
    let new = by_subject(after);
    let stays = |sentence: &Sentence| {
        let subject = sentence.subject.as_str();
        new.contains_key(subject) && kept.contains_key(subject)
    };
    let gone = before.iter().filter(|sentence| !stays(sentence));
    let gone = gone.map(|sentence| Change { subject: sentence.subject.clone(), text: None, place: 0 });
    let differs = |sentence: &Sentence| kept.get(sentence.subject.as_str()) != Some(&sentence.text.as_str());
    let said = after.iter().enumerate().filter(|(_, sentence)| differs(sentence));
    let said = said.map(|(place, Sentence { subject, text })| Change {
        subject: subject.clone(),
        text: Some(text.clone()),
        place,
    });
    gone.chain(said).collect()
}

/// Whether the subjects that stay keep their order. They do not where a new machine has other
/// columns: then all is said anew.
fn keeps_order(before: &[Sentence], after: &[Sentence]) -> bool {
    let (old, new) = (by_subject(before), by_subject(after));
    let stays = |sentence: &&Sentence| {
        old.contains_key(sentence.subject.as_str()) && new.contains_key(sentence.subject.as_str())
    };
    before.iter().filter(stays).map(|one| &one.subject).eq(after.iter().filter(stays).map(|one| &one.subject))
}

fn by_subject(sentences: &[Sentence]) -> HashMap<&str, &str> {
    sentences.iter().map(|Sentence { subject, text }| (subject.as_str(), text.as_str())).collect()
}

fn told(line: &Line, column: Option<usize>, changes: &[Change]) -> String {
    format!(
        r#"{{"text":{},"code":{},"meaning":{},"column":{},"details":{},"changes":{}}}"#,
        json::string(&line.text),
        line.code,
        json::string(&line.meaning),
        column.map_or("null".to_string(), |column| column.to_string()),
        json::list(line.details.iter().map(|detail| json::string(detail))),
        json::list(changes.iter().map(changed)),
    )
}

/// `["slot 5",null]` or `["client 1","idle, message number 3",2]`.
fn changed(change: &Change) -> String {
    let subject = json::string(&change.subject);
    match &change.text {
        None => format!("[{subject},null]"),
        Some(text) => format!("[{subject},{},{}]", json::string(text), change.place),
    }
}
