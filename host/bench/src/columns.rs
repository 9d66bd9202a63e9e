//! Directories in columns: the order in which they are shown, column by column, and the name of
//! a column. Columns count from 0, as directory d stands in column (d - 1) mod columns.

use crate::names::parties;
use copy::layout::Party;
use copy::Numbers;

/// Each column with its directories; none where quorums are counts.
pub fn columns(n: &Numbers) -> impl Iterator<Item = (u32, u32)> {
    (0..).zip(n.column_sets())
}

pub fn column_of(n: &Numbers, directory: u32) -> u32 {
    (directory - 1) % n.columns
}

pub fn height(n: &Numbers) -> u32 {
    n.nd / n.columns
}

/// Where a party is shown among those of its sort, counted from 1.
pub fn place_of(n: &Numbers, party: Party, id: u32) -> u32 {
    match party {
        Party::Directory if n.columns > 0 => column_of(n, id) * height(n) + (id - 1) / n.columns + 1,
        _ => id,
    }
}

/// The party that is shown at a place.
pub fn party_at(n: &Numbers, party: Party, place: u32) -> u32 {
    match party {
        Party::Directory if n.columns > 0 => (place - 1) % height(n) * n.columns + (place - 1) / height(n) + 1,
        _ => place,
    }
}

/// "column 2 lacks directories 3 and 9".
pub fn lacks(column: u32, lacking: u32) -> String {
    format!("column {column} lacks {}", parties(Party::Directory, lacking))
}
