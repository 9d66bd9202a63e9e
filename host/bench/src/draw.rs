//! A space-time picture: a lane for each party, a column for each accepted call, cut into
//! rows that fit a page; under it the line of operations and the refused lines.

use crate::columns::{party_at, place_of};
use crate::history::{Kind, Operation};
use crate::names::{self, party_name};
use crate::rows::{fitting, moment, Point, Rows, PER_ROW, WIDTH};
use crate::story::{story, Mark, Story};
use crate::svg::Svg;
use crate::underway::Fate;
use crate::view;
use crate::words;
use copy::answer::NEWER;
use copy::layout::Party;
use copy::Numbers;

const LEGEND: f64 = 34.0;
const BAR: f64 = 20.0;
/// A head's height for each of its characters.
const STEEP: f64 = 6.0;

pub const WRITE_FILL: &str = r##"fill="#cfe0f7" stroke="#3a6cb0""##;
pub const READ_FILL: &str = r##"fill="#d3efd2" stroke="#3b8a3f""##;
const OPEN_ENDED: &str = r#"stroke-dasharray="4 3" fill-opacity="0.5""#;
pub const PLAIN_TEXT: &str = r##"fill="#222""##;
/// Around a text that stands among strokes.
pub const HALO: &str = r##"paint-order="stroke" stroke="#fdfdfb" stroke-width="2.5""##;
pub const RED: &str = r##"stroke="#c62828" stroke-width="2.5""##;
pub const GOSSIP_COLOUR: &str = "#9a5bb5";

/// The picture of a schedule as one SVG text.
pub fn draw(input: &[u8]) -> Result<String, String> {
    Ok(picture(&story(input)?))
}

pub fn picture(story: &Story) -> String {
    let mut picture = Picture::new(story);
    if !story.calls.is_empty() {
        picture.legend();
        picture.columns();
        picture.lanes();
        picture.bars();
        picture.arrows();
        picture.marks();
    }
    picture.below();
    picture.svg.finish()
}

pub struct Picture<'a> {
    pub story: &'a Story,
    pub rows: Rows,
    pub svg: Svg,
}

impl<'a> Picture<'a> {
    fn new(story: &'a Story) -> Picture<'a> {
        let most = |count: fn(&Numbers) -> u32| story.machines.iter().map(|one| count(&one.numbers)).max().unwrap_or(0);
        let heads = (0..story.calls.len()).map(|column| head(story, column).len()).max().unwrap_or(0);
        let rows = Rows {
            columns: story.calls.len(),
            clients: most(|n| n.nc),
            directories: most(|n| n.nd),
            replicas: most(|n| n.nr),
            top: if heads == 0 { 0.0 } else { LEGEND },
            heads: STEEP * heads as f64 + 12.0,
        };
        Picture { story, rows, svg: Svg::new(WIDTH) }
    }

    fn legend(&mut self) {
        let strokes = [
            ("to or from a directory", colour(Party::Directory), ""),
            ("to or from a replica", colour(Party::Replica), ""),
            ("gossip, notice", GOSSIP_COLOUR, ""),
            ("stale", "#999", r#" stroke-dasharray="3 3""#),
        ];
        let (mut x, y, svg) = (12.0, 16.0, &mut self.svg);
        for (text, colour, dashes) in strokes {
            svg.line((x, y), (x + 26.0, y), &format!(r#"stroke="{colour}" stroke-width="1.6"{dashes}"#));
            svg.text((x + 32.0, y + 4.0), 11.0, PLAIN_TEXT, text);
            x += 54.0 + 5.6 * text.len() as f64;
        }
        svg.cross((x + 4.0, y), 4.0, RED);
        svg.text((x + 14.0, y + 4.0), 11.0, PLAIN_TEXT, "dropped; on a lane: crash");
        svg.circle((x + 172.0, y), 3.5, r##"fill="none" stroke="#999""##);
        svg.text((x + 182.0, y + 4.0), 11.0, PLAIN_TEXT, "still waiting");
        if self.story.arrows.iter().any(|arrow| arrow.fate == Fate::Lost) {
            svg.bar((x + 276.0, y), RED);
            svg.text((x + 288.0, y + 4.0), 11.0, PLAIN_TEXT, "lost on its way");
        }
    }

    /// Row by row, so that a page can find a row as a whole.
    fn columns(&mut self) {
        let all: Vec<usize> = (0..self.story.calls.len()).collect();
        for row in all.chunks(PER_ROW) {
            self.svg.open(r#"class="row""#);
            row.iter().for_each(|&column| self.column(column));
            self.svg.close();
        }
    }

    /// Number and text of a call over its column, and a wall where a machine is set up.
    fn column(&mut self, column: usize) {
        let from = self.rows.point((moment(column), 0.0));
        let to = self.rows.point((moment(column), self.rows.lanes()));
        self.svg.open(r#"class="column""#);
        self.svg.line(from, to, r##"class="guide" stroke="#f0efe9""##);
        if is_set_up(self.story, column) {
            self.svg.line(from, to, r##"stroke="#555" stroke-width="3" stroke-opacity="0.35""##);
        }
        self.svg.steep((from.0 + 2.0, from.1 - 4.0), 11.0, &head(self.story, column));
        self.svg.close();
    }

    /// Each machine has lanes for its own parties; their names stand before every row.
    fn lanes(&mut self) {
        let Rows { clients: nc, directories: nd, replicas: nr, .. } = self.rows;
        let all = Numbers { nc, nd, nr, f: 0, rq: 0, wq: 0, top: 0, columns: 0 };
        for (party, place) in words::rows(&all) {
            self.lane(party, place);
        }
        self.brackets();
    }

    fn lane(&mut self, party: Party, place: u32) {
        let story = self.story;
        let height = self.rows.height_of(party, place);
        let mut named = None;
        for machine in story.machines.iter().filter(|one| place <= view::count_of(party, &one.numbers)) {
            let id = party_at(&machine.numbers, party, place);
            let end = story.end_of(machine.column) as f64;
            for piece in self.rows.pieces((moment(machine.column), height), (end, height)) {
                let name = format!("{} {id}", party_name(party));
                match named.replace((piece.row, id)) {
                    Some((row, other)) if row == piece.row && other == id => (),
                    Some((row, _)) if row == piece.row => self.name_again(piece.from, &name),
                    _ => self.svg.text((10.0, piece.from.1 + 4.0), 12.0, PLAIN_TEXT, &name),
                }
                self.svg.line(piece.from, piece.to, r##"stroke="#b9b7ae""##);
            }
        }
    }

    /// Inside a row, where a machine with other columns begins: its lanes are in another order.
    fn name_again(&mut self, (x, y): Point, name: &str) {
        self.svg.text((fitting(x + 10.0, name, 8.5), y - 4.0), 8.5, &format!("{PLAIN_TEXT} {HALO}"), name);
    }

    /// The height of a party's lane in the machine at a column.
    pub fn height_at(&self, column: usize, party: Party, id: u32) -> f64 {
        self.rows.height_of(party, place_of(self.story.numbers_at(column), party, id))
    }

    fn bars(&mut self) {
        let story = self.story;
        for (machine, history) in story.machines.iter().zip(&story.histories) {
            let end = story.end_of(machine.column) as f64;
            history.operations.iter().for_each(|operation| self.bar(operation, end));
        }
    }

    fn bar(&mut self, operation: &Operation, machine_end: f64) {
        let at = |line| moment(self.story.column(line).unwrap_or(0));
        let height = self.rows.height_of(Party::Client, operation.client) - BAR / 2.0;
        let (from, to) = (at(operation.start), operation.end.map_or(machine_end, at));
        let fill = if operation.kind == Kind::Write { WRITE_FILL } else { READ_FILL };
        let open = if operation.end.is_none() { OPEN_ENDED } else { "" };
        let newer = self.story.newer(operation);
        let text = bar_text(operation) + &newer.map_or(String::new(), |_| format!(", {}", names::mark(NEWER)));
        let pieces = self.rows.pieces((from, height), (to, height));
        explained(&mut self.svg, newer, |svg| {
            for piece in pieces {
                let (x, y) = piece.from;
                svg.rect(x, y, piece.to.0 - x, BAR, &format!(r#"{fill} {open} rx="4""#));
                svg.text((fitting(x + 5.0, &text, 10.5), y - 3.0), 10.5, PLAIN_TEXT, &text);
            }
        });
    }

    fn marks(&mut self) {
        let story = self.story;
        for mark in &story.crashes {
            let at = self.spot(mark);
            let end = (story.end_of(mark.column) as f64, at.1);
            for piece in self.rows.pieces(at, end) {
                self.svg.line(piece.from, piece.to, r##"stroke="#fdfdfb" stroke-width="3" stroke-dasharray="5 5""##);
            }
            self.svg.cross(self.rows.point(at), 7.0, RED);
        }
        for mark in &story.tidied {
            let (x, y) = self.rows.point(self.spot(mark));
            self.svg.rect(x - 5.0, y - 5.0, 10.0, 10.0, r##"fill="#fff" stroke="#555""##);
            self.svg.text((x + 8.0, y - 4.0), 8.5, PLAIN_TEXT, "tidy");
        }
    }

    /// Moment and height of a mark.
    fn spot(&self, mark: &Mark) -> (f64, f64) {
        (moment(mark.column), self.height_at(mark.column, mark.party, mark.id))
    }
}

fn is_set_up(story: &Story, column: usize) -> bool {
    story.machines.binary_search_by_key(&column, |machine| machine.column).is_ok()
}

/// "12 D 3"; a set-up's numbers stand with its operations.
fn head(story: &Story, column: usize) -> String {
    let call = &story.calls[column];
    let text = if is_set_up(story, column) { "set-up" } else { &call.text };
    format!("{} {text}", call.line)
}

/// The shapes of an operation: those of a newer read are a group that says what it got.
pub fn explained(svg: &mut Svg, newer: Option<&str>, shapes: impl FnOnce(&mut Svg)) {
    let Some(said) = newer else { return shapes(svg) };
    svg.open(r#"class="newer""#);
    svg.title(said);
    shapes(svg);
    svg.close();
}

pub fn bar_text(operation: &Operation) -> String {
    match (operation.kind, operation.end.is_some()) {
        (Kind::Write, _) if operation.spent => format!("write {} spent", operation.word),
        (Kind::Write, true) => format!("write {}", operation.word),
        (Kind::Write, false) => format!("write {} …", operation.word),
        (Kind::Read, true) => format!("read: {}", operation.word),
        (Kind::Read, false) => "read …".to_string(),
    }
}

pub fn colour(party: Party) -> &'static str {
    match party {
        Party::Replica => "#c2701d",
        _ => "#2f6f9f",
    }
}
