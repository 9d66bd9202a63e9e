//! The messages of a picture. Each is a group that names the columns of its sending and its end.

use crate::draw::{colour, Picture, GOSSIP_COLOUR, HALO, RED};
use crate::names::kind_name;
use crate::rows::{fitting, moment, Piece, Point};
use crate::story::ends_of;
use crate::underway::{Arrow, Fate};
use crate::words;
use copy::layout::{bit, Party};

/// How far a lost message is drawn towards its receiver.
const LOST_AT: f64 = 0.8;

impl Picture<'_> {
    pub fn arrows(&mut self) {
        let story = self.story;
        for arrow in &story.arrows {
            let Arrow { sent, until, fate, .. } = arrow;
            let group =
                format!(r#"class="message" data-sent="{sent}" data-until="{until}" data-fate="{}""#, name(*fate));
            self.svg.open(&group);
            self.svg.title(&words::sent(&arrow.message, bit(arrow.message.to)));
            self.arrow(arrow);
            self.svg.close();
        }
    }

    fn arrow(&mut self, arrow: &Arrow) {
        let ((from, sender), (to, receiver)) = ends_of(&arrow.message);
        let start = (moment(arrow.sent), self.height_at(arrow.sent, from, sender));
        let aim = (moment(arrow.until), self.height_at(arrow.sent, to, receiver));
        match arrow.fate {
            Fate::Waiting => self.stub(arrow, self.rows.point(start), (aim.1 - start.1).signum()),
            Fate::Lost => self.flight(arrow, start, (aim.0, start.1 + LOST_AT * (aim.1 - start.1))),
            _ => self.flight(arrow, start, aim),
        }
    }

    fn flight(&mut self, arrow: &Arrow, start: Point, aim: Point) {
        let colour = arrow_colour(arrow);
        let dashes = if arrow.fate == Fate::Taken { "" } else { r#" stroke-dasharray="3 3""# };
        let pieces = self.rows.pieces(start, aim);
        for piece in &pieces {
            self.svg.line(piece.from, piece.to, &format!(r#"stroke="{colour}" stroke-width="1.3"{dashes}"#));
        }
        let Some(last) = pieces.last() else { return };
        match arrow.fate {
            Fate::Dropped => self.svg.cross(last.to, 4.0, RED),
            Fate::Lost => self.svg.bar(last.to, RED),
            _ => self.tip(last, colour),
        }
        self.label(arrow, start, aim);
    }

    /// Two short strokes at the end.
    fn tip(&mut self, last: &Piece, colour: &str) {
        let (from, to) = (last.from, last.to);
        let angle = (to.1 - from.1).atan2(to.0 - from.0);
        for turn in [2.7, -2.7] {
            let back = (to.0 + 7.0 * (angle + turn).cos(), to.1 + 7.0 * (angle + turn).sin());
            self.svg.line(to, back, &format!(r#"stroke="{colour}" stroke-width="1.3""#));
        }
    }

    /// The kind, nearer the tip, where arrows of one step have parted; receivers differ in height.
    fn label(&mut self, arrow: &Arrow, start: Point, aim: Point) {
        let part = 0.56 + 0.1 * f64::from(arrow.message.to % 4);
        let (x, y) = self.rows.point((start.0 + (aim.0 - start.0) * part, start.1 + (aim.1 - start.1) * part));
        self.kind(arrow, (x + 3.0, y - 2.0));
    }

    fn kind(&mut self, arrow: &Arrow, (x, y): Point) {
        let (text, style) = (kind_name(arrow.message.kind), format!(r#"fill="{}" {HALO}"#, arrow_colour(arrow)));
        self.svg.text((fitting(x, text, 8.5), y), 8.5, &style, text);
    }

    /// A message that is never delivered: a short stroke towards its receiver, and not the
    /// same for all of one step.
    fn stub(&mut self, arrow: &Arrow, start: Point, towards: f64) {
        let length = 14.0 + 9.0 * f64::from((arrow.message.to + 3) % 4);
        let end = (start.0 + 9.0, start.1 + length * towards);
        self.svg.line(start, end, r##"stroke="#999" stroke-dasharray="2 2""##);
        self.svg.circle(end, 2.5, r##"fill="none" stroke="#999""##);
        self.kind(arrow, (end.0 + 5.0, end.1 + 3.0));
    }
}

fn name(fate: Fate) -> &'static str {
    match fate {
        Fate::Taken => "taken",
        Fate::Stale => "stale",
        Fate::Dropped => "dropped",
        Fate::Lost => "lost",
        Fate::Waiting => "waiting",
    }
}

fn arrow_colour(arrow: &Arrow) -> &'static str {
    let ((from, _), (to, _)) = ends_of(&arrow.message);
    match (arrow.fate, from, to) {
        (Fate::Stale | Fate::Waiting, ..) => "#999",
        (_, Party::Client, other) | (_, other, Party::Client) => colour(other),
        _ => GOSSIP_COLOUR,
    }
}
