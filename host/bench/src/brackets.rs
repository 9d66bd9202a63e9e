//! The columns of a picture: a bracket before the lanes of the directories of each.

use crate::columns::height;
use crate::draw::{Picture, HALO};
use crate::rows::{moment, Point, PER_ROW};
use crate::story::Machine;
use copy::layout::Party;

/// Where the brackets stand before a row, and behind the wall of a machine that begins inside of one.
const BEFORE_ROW: f64 = 4.0;
const BEHIND_WALL: f64 = 4.0;
const STROKE: &str = r##"stroke="#777""##;

impl Picture<'_> {
    pub fn brackets(&mut self) {
        let story = self.story;
        for machine in story.machines.iter().filter(|machine| machine.numbers.columns > 0) {
            let end = story.end_of(machine.column) as f64;
            for piece in self.rows.pieces((moment(machine.column), 0.0), (end, 0.0)) {
                let begins_inside = machine.column > piece.row * PER_ROW;
                let x = if begins_inside { piece.from.0 + BEHIND_WALL } else { BEFORE_ROW };
                self.brackets_at((x, piece.from.1), machine);
            }
        }
    }

    /// At the upper left of a machine's lanes.
    fn brackets_at(&mut self, (x, y): Point, machine: &Machine) {
        let high = height(&machine.numbers);
        for column in 0..machine.numbers.columns {
            let lane = |place| y + self.rows.height_of(Party::Directory, place);
            let (first, last) = (lane(column * high + 1), lane((column + 1) * high));
            self.bracket(x, (first - 18.0, last + 9.0), &format!("column {column}"));
        }
    }

    fn bracket(&mut self, x: f64, (top, bottom): (f64, f64), name: &str) {
        self.svg.open(r#"class="bracket""#);
        self.svg.line((x, top), (x, bottom), STROKE);
        self.svg.line((x, top), (x + 4.0, top), STROKE);
        self.svg.line((x, bottom), (x + 4.0, bottom), STROKE);
        self.svg.text((x + 6.0, top + 6.0), 8.5, &format!(r##"fill="#777" {HALO}"##), name);
        self.svg.close();
    }
}
