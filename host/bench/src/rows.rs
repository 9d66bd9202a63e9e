//! Where things stand in a picture that is cut into rows. A moment is a column and a part of
//! one, counted through all rows; a height is counted from the first lane of a row.

use copy::layout::Party;

pub const LEFT: f64 = 96.0;
pub const RIGHT: f64 = 40.0;
pub const COLUMN: f64 = 30.0;
pub const PER_ROW: usize = 30;
/// The whole page.
pub const WIDTH: f64 = LEFT + PER_ROW as f64 * COLUMN + RIGHT;

const LANE: f64 = 46.0;
const GROUP_GAP: f64 = 22.0;
const BETWEEN_ROWS: f64 = 14.0;

pub type Point = (f64, f64);

/// A straight stroke inside one row, in the picture's coordinates.
#[derive(Clone, Copy, PartialEq, Debug)]
pub struct Piece {
    pub row: usize,
    pub from: Point,
    pub to: Point,
}

pub struct Rows {
    pub columns: usize,
    pub clients: u32,
    pub directories: u32,
    pub replicas: u32,
    /// Where the first row begins, and how high its heads are.
    pub top: f64,
    pub heads: f64,
}

/// The moment of a column's call.
pub fn moment(column: usize) -> f64 {
    column as f64 + 0.5
}

/// How wide a text is, about: enough to keep it on the page.
pub fn text_width(text: &str, size: f64) -> f64 {
    0.6 * size * text.chars().count() as f64
}

/// The place at or left of `x` where a text still ends on the page.
pub fn fitting(x: f64, text: &str, size: f64) -> f64 {
    x.min(WIDTH - 4.0 - text_width(text, size))
}

impl Rows {
    pub fn count(&self) -> usize {
        self.columns.div_ceil(PER_ROW)
    }

    /// From the first lane's upper edge to the last one's lower.
    pub fn lanes(&self) -> f64 {
        f64::from(self.clients + self.directories + self.replicas) * LANE + 2.0 * GROUP_GAP
    }

    /// The height of the lane at a place among those of its sort, counted from 1.
    pub fn height_of(&self, party: Party, place: u32) -> f64 {
        let (lane, group) = match party {
            Party::Client => (place - 1, 0.0),
            Party::Directory => (self.clients + place - 1, 1.0),
            Party::Replica => (self.clients + self.directories + place - 1, 2.0),
        };
        (f64::from(lane) + 0.5) * LANE + group * GROUP_GAP
    }

    pub fn bottom(&self) -> f64 {
        self.top + self.count() as f64 * self.step()
    }

    fn step(&self) -> f64 {
        self.heads + self.lanes() + BETWEEN_ROWS
    }

    pub fn row_of(&self, moment: f64) -> usize {
        (moment / PER_ROW as f64) as usize
    }

    /// A point of a row; a moment at a row's border belongs to either side.
    pub fn place(&self, row: usize, (moment, height): Point) -> Point {
        let x = LEFT + (moment - (row * PER_ROW) as f64) * COLUMN;
        (x, self.top + row as f64 * self.step() + self.heads + height)
    }

    pub fn point(&self, at: Point) -> Point {
        self.place(self.row_of(at.0), at)
    }

    /// A straight stroke, cut at the borders of the rows; each piece goes on where the last was cut.
    pub fn pieces(&self, from: Point, to: Point) -> Vec<Piece> {
        let (first, end) = (self.row_of(from.0), (to.0 / PER_ROW as f64).ceil() as usize);
        let last = end.saturating_sub(1).max(first);
        let piece = |row: usize| {
            let begin = if row == first { from } else { between(from, to, (row * PER_ROW) as f64) };
            let stop = if row == last { to } else { between(from, to, ((row + 1) * PER_ROW) as f64) };
            Piece { row, from: self.place(row, begin), to: self.place(row, stop) }
        };
        (first..=last).map(piece).collect()
    }
}

/// The point of a stroke at a moment.
fn between(from: Point, to: Point, moment: f64) -> Point {
    let part = (moment - from.0) / (to.0 - from.0);
    (moment, from.1 + (to.1 - from.1) * part)
}
