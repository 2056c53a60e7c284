//! The refusals of a job's records and lists, as document 01's table has them: a number and the index of the first offending record. slots.rs has none.
use crate::job::*;

/// The most records of each group.
pub const LIMITS: [usize; 12] = [4096, 16384, 65536, 262_144, 65536, 2048, 2048, 65536, 65536, 65536, 65536, 65536];
pub const REGISTERS: u32 = 65535;
pub const RANGES: usize = 65536;
pub const BUDGET: u32 = 1_048_576;

/// The first record that is refused.
fn first<T>(records: impl IntoIterator<Item = T>, bad: impl Fn(usize, T) -> bool) -> Option<u32> {
    records.into_iter().enumerate().find_map(|(i, record)| bad(i, record).then_some(i as u32))
}

/// A count or the budget outside its limits, rows that are cut, operand counts that do not add up.
fn count(job: &Job) -> bool {
    let cut = (0..12).any(|group| job.groups[group].len() % WIDTHS[group] != 0);
    let over = (0..12).any(|group| job.count(group) > LIMITS[group]) || job.v > REGISTERS || job.budget > BUDGET;
    cut || over || job.rows(INSTS).map(|row| u64::from(row[8])).sum::<u64>() != job.count(OPERANDS) as u64
}

/// An area list of that many numbers is cut, or has more ranges than it may.
pub fn area_list(numbers: usize) -> bool {
    numbers % 2 != 0 || numbers / 2 > RANGES
}

fn line(job: &Job) -> Option<u32> {
    let blocks: Vec<&[u32]> = job.rows(BLOCKS).collect();
    let mut met = vec![false; blocks.len()];
    let fresh: Vec<bool> = blocks.iter().map(|b| met.get_mut(b[0] as usize).is_some_and(|met| !std::mem::replace(met, true))).collect();
    first(&blocks, |i, b| {
        let apart = i > 0 && u64::from(b[1]) != u64::from(blocks[i - 1][2]) + 1;
        !fresh[i] || b[1] > b[2] || apart || (i + 1 == blocks.len() && b[2] > job.points)
    })
}

fn inst(job: &Job) -> Option<u32> {
    let count = job.count(BLOCKS);
    let mut spans = vec![(0, 0); count];
    for b in job.rows(BLOCKS) {
        spans[b[0] as usize] = (b[1], b[2]);
    }
    let register = |r: u32| u64::from(r) >= u64::from(job.v) + 256;
    let mut operands = job.rows(OPERANDS);
    let own: Vec<Vec<&[u32]>> = job.rows(INSTS).map(|row| operands.by_ref().take(row[8] as usize).collect()).collect();
    first(job.rows(INSTS), |i, row| {
        let [placed, block, early, late, lea, mem, base, index] = row[..8] else { unreachable!() };
        let outside = placed == 1 && spans.get(block as usize).map_or(true, |&(start, end)| early < start || late > end);
        placed > 1 || outside || early > late || lea > 1 || mem > 1 || base > 256 || index > 256 || own[i].iter().any(|o| o[0] > 1 || register(o[1]))
    })
    .or_else(|| first(&job.groups[CROSSINGS], |_, &r| register(r)))
}

fn stray(job: &Job) -> Option<u32> {
    let (blocks, insts) = (job.count(BLOCKS) as u32, job.count(INSTS) as u32);
    let unplaced = |i: u32| i >= insts || job.groups[INSTS][9 * i as usize] == 0;
    let at = |m: &[u32]| match m[0] {
        0 | 1 => unplaced(m[1]),
        2 | 3 => m[1] >= blocks,
        _ => true,
    };
    first(job.rows(ADDRESSES), |_, a| unplaced(a[0]))
        .or_else(|| first(job.rows(ENDS), |_, k| k[0] >= insts))
        .or_else(|| first(job.rows(MOVES), |_, m| at(m)))
}

fn piece(job: &Job) -> Option<u32> {
    let blocks = &job.groups[BLOCKS];
    let (low, high) = (blocks[1], blocks[blocks.len() - 1]);
    first(job.rows(PIECES), |_, p| p[0] >= job.v || p[1] > p[2] || p[1] < low || p[2] > high).or_else(|| first(job.rows(ASSIGNED), |_, a| a[0] >= job.v))
}

/// Numbers 1 to 6 of an entry that is lent these records, and no others; `lists`: whether it has an answer list that is refused with 1. Of the lowest number the first record.
pub fn records(job: &Job, lists: bool) -> Option<(u32, u32)> {
    if lists || count(job) || job.count(BLOCKS) == 0 {
        return Some((1, 0));
    }
    let blocks = job.count(BLOCKS) as u32;
    let at = |number: u32, index: Option<u32>| index.map(|index| (number, index));
    at(2, line(job))
        .or_else(|| at(3, first(job.rows(EDGES), |_, e| e[0] >= blocks || e[1] >= blocks)))
        .or_else(|| at(4, inst(job)))
        .or_else(|| at(5, stray(job)))
        .or_else(|| at(6, piece(job)))
}

/// Numbers 1 and 6 of assignments that are lent without blocks.
pub fn assignments(job: &Job, lists: bool) -> Option<(u32, u32)> {
    if lists || count(job) { Some((1, 0)) } else { first(job.rows(ASSIGNED), |_, a| a[0] >= job.v).map(|index| (6, index)) }
}

/// Number 7, where any of these is so.
pub fn space(short: &[bool]) -> Option<(u32, u32)> {
    short.contains(&true).then_some((7, 0))
}

/// Numbers 1 to 7 of a whole job, lowest first. A list of offsets has no rows, so none is cut; it is asked to have one for each item.
pub fn refusal(job: &Job, lent: &Lent) -> Option<(u32, u32)> {
    let cut = lent.cells % 2 != 0 || lent.items % 4 != 0 || area_list(lent.areas);
    let items = job.items();
    let short = [lent.work < crate::job::space(job, lent.areas), lent.cells / 2 < items, lent.items / 4 < items, lent.offsets < items, lent.counts < 3];
    records(job, cut).or_else(|| space(&short))
}
