//! What stands under a picture: the line of operations of each machine, and the refused lines.

use crate::draw::{bar_text, explained, Picture, PLAIN_TEXT, READ_FILL, WRITE_FILL};
use crate::history::{History, Kind, Operation};
use crate::names;
use crate::order;
use crate::rows::{text_width, WIDTH};
use crate::story::Machine;
use crate::svg::Svg;
use copy::answer::NEWER;

const MARGIN: f64 = 12.0;
const BOX: (f64, f64) = (104.0, 40.0);
/// Where a line below the last one in a box would stand.
const LINES: f64 = 48.0;
const BOX_STEP: (f64, f64) = (118.0, 50.0);
const BOXES: usize = ((WIDTH - 2.0 * MARGIN) / BOX_STEP.0) as usize;
const CENTRE_TEXT: &str = r##"fill="#222" text-anchor="middle""##;
const LIST_TEXT: &str = r##"fill="#444" font-family="monospace" xml:space="preserve""##;
const LIST_SIZE: f64 = 10.5;
const LIST_STEP: f64 = 16.0;

impl Picture<'_> {
    pub fn below(&mut self) {
        let y = if self.story.calls.is_empty() { self.nothing_accepted() } else { self.lines_of_operations() };
        self.svg.height = self.refused(y);
    }

    fn nothing_accepted(&mut self) -> f64 {
        self.svg.text((MARGIN, 24.0), 12.0, PLAIN_TEXT, "No call of this schedule is accepted.");
        34.0
    }

    /// Gives back where the next may begin, as all of these do.
    fn lines_of_operations(&mut self) -> f64 {
        let story = self.story;
        let mut y = self.rows.bottom();
        for (machine, history) in story.machines.iter().zip(&story.histories) {
            self.svg.text((MARGIN, y + 20.0), 12.0, PLAIN_TEXT, &self.title(machine));
            y = match order::line_of(history) {
                Ok(line) => self.boxes(history, &line, y + 30.0),
                Err(why) => self.no_line(&why, y + 30.0),
            };
        }
        y
    }

    fn title(&self, machine: &Machine) -> String {
        let set_up = &self.story.calls[machine.column];
        format!("The operations after line {}, {}, in one line:", set_up.line, set_up.text)
    }

    fn no_line(&mut self, why: &str, y: f64) -> f64 {
        self.svg.text((MARGIN, y + 14.0), 12.0, r##"fill="#c62828""##, &format!("There is none: {why}"));
        y + 28.0
    }

    /// The first page and then each operation, left to right.
    fn boxes(&mut self, history: &History, line: &[Operation], y: f64) -> f64 {
        let white = r##"fill="#fff" stroke="#888""##;
        single(&mut self.svg, 0, y, white, &["first page".to_string(), history.first_word.to_string()]);
        for (index, operation) in line.iter().enumerate() {
            let fill = if operation.kind == Kind::Write { WRITE_FILL } else { READ_FILL };
            let newer = self.story.newer(operation);
            let mut lines = vec![bar_text(operation), box_text(operation)];
            lines.extend(newer.map(|_| names::mark(NEWER).to_string()));
            explained(&mut self.svg, newer, |svg| single(svg, index + 1, y, fill, &lines));
        }
        y + (line.len() / BOXES + 1) as f64 * BOX_STEP.1
    }

    /// In as many columns as the longest entry lets fit, read across.
    fn refused(&mut self, y: f64) -> f64 {
        let texts = self.story.refused.texts();
        let longest = texts.iter().map(|text| text_width(text, LIST_SIZE)).fold(0.0, f64::max);
        if texts.is_empty() {
            return y + 6.0;
        }
        let across = (((WIDTH - 2.0 * MARGIN) / (longest + 24.0)) as usize).clamp(1, texts.len());
        let step = (WIDTH - 2.0 * MARGIN) / across as f64;
        self.svg.text((MARGIN, y + 20.0), 12.0, PLAIN_TEXT, &counted(self.story.refused.count()));
        for (index, text) in texts.iter().enumerate() {
            let at = (MARGIN + (index % across) as f64 * step, y + 40.0 + (index / across) as f64 * LIST_STEP);
            self.svg.text(at, LIST_SIZE, LIST_TEXT, text);
        }
        y + 40.0 + texts.len().div_ceil(across) as f64 * LIST_STEP
    }
}

/// One box, with two lines in it or three.
fn single(svg: &mut Svg, index: usize, top: f64, fill: &str, lines: &[String]) {
    let x = MARGIN + (index % BOXES) as f64 * BOX_STEP.0;
    let y = top + (index / BOXES) as f64 * BOX_STEP.1;
    let centre = (x + BOX.0 / 2.0, y + BOX.1 / 2.0);
    svg.rect(x, y, BOX.0, BOX.1, &format!(r#"{fill} rx="4""#));
    for (at, (line, size)) in (1..).zip(lines.iter().zip([11.0, 10.5, 9.5])) {
        let below = f64::from(at) * LINES / (lines.len() + 1) as f64;
        svg.text((centre.0, y + below), size, CENTRE_TEXT, line);
    }
    if !index.is_multiple_of(BOXES) {
        svg.line((x - 13.0, centre.1), (x - 1.0, centre.1), r##"stroke="#555""##);
    }
}

fn counted(lines: usize) -> String {
    match lines {
        1 => "1 line is refused:".to_string(),
        _ => format!("{lines} lines are refused:"),
    }
}

fn box_text(operation: &Operation) -> String {
    format!("client {}  {}", operation.client, names::tag(operation.tag.unwrap_or_default()))
}
