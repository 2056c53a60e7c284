//! A whole job: its numbers, and a group of records each as rows of numbers, in the job text's group order.
use crate::cases::Random;

/// How many numbers a record has, in each group.
pub const WIDTHS: [usize; 12] = [3, 2, 9, 2, 1, 2, 1, 2, 2, 3, 2, 4];

pub const BLOCKS: usize = 0;
pub const EDGES: usize = 1;
pub const INSTS: usize = 2;
pub const OPERANDS: usize = 3;
pub const CROSSINGS: usize = 4;
pub const LOCALS: usize = 5;
pub const SLOTS: usize = 6;
pub const ADDRESSES: usize = 7;
pub const ENDS: usize = 8;
pub const PIECES: usize = 9;
pub const ASSIGNED: usize = 10;
pub const MOVES: usize = 11;

#[derive(Clone, Debug, Default, PartialEq)]
pub struct Job {
    pub points: u32,
    pub v: u32,
    pub budget: u32,
    pub groups: [Vec<u32>; 12],
}

impl Job {
    pub fn rows(&self, group: usize) -> std::slice::Chunks<'_, u32> {
        self.groups[group].chunks(WIDTHS[group])
    }

    pub fn count(&self, group: usize) -> usize {
        self.groups[group].len() / WIDTHS[group]
    }

    pub fn items(&self) -> usize {
        self.count(LOCALS) + self.count(SLOTS)
    }

    /// The records of these groups alone, and V where that is lent too.
    pub fn only(mut self, groups: &[usize], registers: bool) -> Self {
        (0..12).filter(|group| !groups.contains(group)).for_each(|group| self.groups[group].clear());
        Self { v: if registers { self.v } else { 0 }, budget: 0, ..self }
    }

    /// The same job with all points later by as many.
    pub fn later(mut self, by: u32) -> Self {
        self.points += by;
        for (group, places) in [(BLOCKS, [1, 2]), (INSTS, [2, 3]), (PIECES, [1, 2])] {
            for row in self.groups[group].chunks_mut(WIDTHS[group]) {
                for at in places {
                    row[at] = row[at].saturating_add(by);
                }
            }
        }
        self
    }
}

/// The lengths of the lists that are lent for the answer, in numbers, and of the work space in words.
#[derive(Clone, Copy, Debug, PartialEq)]
pub struct Lent {
    pub cells: usize,
    pub items: usize,
    pub areas: usize,
    pub offsets: usize,
    pub counts: usize,
    pub work: usize,
}

/// W of an entry that is lent these records and an area list of that many numbers: each term counts what is lent.
pub fn space(job: &Job, areas: usize) -> usize {
    let records: usize = (0..12).map(|group| job.count(group)).sum();
    let rows = job.count(BLOCKS) * job.count(LOCALS).div_ceil(64);
    8 * (records + rows + areas / 2 + (job.v as usize).div_ceil(64))
}

/// Lists with exactly the room for all items and that many ranges.
pub fn exact(job: &Job, ranges: usize) -> Lent {
    let items = job.items();
    Lent { cells: 2 * items, items: 4 * items, areas: 2 * ranges, offsets: items, counts: 3, work: space(job, 2 * ranges) }
}

/// Lists that a job with that many ranges is planned in, but for one in ten with one range too few: each exactly full, or longer by some rows.
pub fn lent(r: &mut Random, job: &Job, ranges: usize) -> Lent {
    let more = |r: &mut Random| if r.one_in(2) { 0 } else { r.below(4) as usize };
    let ranges = if ranges > 0 && r.one_in(10) { ranges - 1 } else { ranges + more(r) };
    let mut lent = exact(job, ranges);
    lent.cells += 2 * more(r);
    lent.items += 4 * more(r);
    lent.offsets += more(r);
    lent.work += more(r);
    lent.counts = if r.one_in(20) { r.below(3) as usize } else { 3 + more(r) };
    lent
}
