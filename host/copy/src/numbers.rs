//! The eight numbers of a machine, and when a set of directories is enough.

use crate::layout::{bit, Layout, Words, CLIENTS, REPLICAS};

#[derive(Clone, Copy, PartialEq, Eq, Debug)]
pub struct Numbers {
    pub nc: u32,
    pub nd: u32,
    pub nr: u32,
    pub f: u32,
    pub rq: u32,
    pub wq: u32,
    pub top: u32,
    /// 0 where rq and wq count.
    pub columns: u32,
}

impl Numbers {
    pub fn read(m: &Words) -> Numbers {
        Numbers { nc: m[0], nd: m[1], nr: m[2], f: m[3], rq: m[4], wq: m[5], top: m[6], columns: m[7] }
    }

    pub fn write(&self, m: &mut Words) {
        let row = [self.nc, self.nd, self.nr, self.f, self.rq, self.wq, self.top, self.columns];
        m[..row.len()].copy_from_slice(&row);
    }

    /// The one layout that they can be in range of.
    pub fn layout(&self) -> Layout {
        match self.columns {
            0 => Layout::Base,
            _ => Layout::Wide,
        }
    }

    pub fn in_range(&self, layout: Layout) -> bool {
        within(self.nc, CLIENTS as u32)
            && within(self.nd, layout.directories() as u32)
            && within(self.nr, REPLICAS as u32)
            && self.f <= 3
            && 2 * self.f < self.nr
            && self.top >= 3
            && match layout {
                Layout::Base => self.columns == 0 && self.counts_in_range(),
                Layout::Wide => self.rq == 0 && self.wq == 0 && self.nd >= 2 && self.columns_in_range(),
            }
    }

    fn counts_in_range(&self) -> bool {
        within(self.rq, self.nd) && within(self.wq, self.nd) && self.rq + self.wq > self.nd
    }

    fn columns_in_range(&self) -> bool {
        within(self.columns, self.nd) && self.nd.is_multiple_of(self.columns)
    }

    /// rq directories or more; in columns, one whole column.
    pub fn enough_to_read(&self, set: u32) -> bool {
        match self.columns {
            0 => set.count_ones() >= self.rq,
            _ => self.column_sets().any(|column| set & column == column),
        }
    }

    /// wq directories or more; in columns, a member in every column.
    pub fn enough_to_write(&self, set: u32) -> bool {
        match self.columns {
            0 => set.count_ones() >= self.wq,
            _ => self.column_sets().all(|column| set & column != 0),
        }
    }

    /// The columns as sets: directory d stands in column (d - 1) mod columns.
    pub fn column_sets(&self) -> impl Iterator<Item = u32> {
        let Numbers { nd, columns, .. } = *self;
        let column = move |j| (1..=nd).filter(|d| (d - 1) % columns == j).map(bit).sum();
        (0..columns).map(column)
    }
}

/// Whether `id` counts one of `count` things.
pub fn within(id: u32, count: u32) -> bool {
    id >= 1 && id <= count
}
