//! Cells at the limits of the layout, with the offsets that document 02 and its readings' examples give: as jobs, as wants and as texts.
//! No item has an area, so each has a cell of its own, and the items stand in cell order: alignment falling, size falling.
use crate::calls::refused;
use crate::cases::Random;
use crate::fits;
use crate::grammar::write;
use crate::job::*;
use crate::layout::{laid, Layout};
use crate::refusals::{BUDGET, LIMITS};
use crate::texts::entry;
use crate::whole::{any_lists, hold, Tally};

/// Cells by size and alignment; their offsets, or the number and the cell.
struct Case {
    cells: Vec<(u32, u32)>,
    wanted: Result<Vec<i32>, (u32, u32)>,
}

/// The greatest depth, a half and the whole of one more than it.
const DEEPEST: u32 = 2_147_483_647;
const HALF: u32 = 1 << 30;
const WHOLE: u32 = 1 << 31;
/// So many cells there may be, and such a part of `WHOLE` has each.
const MOST: i32 = 4096;
const PART: u32 = 524_288;

fn at(cells: &[(u32, u32)], offsets: &[i32]) -> Case {
    Case { cells: cells.to_vec(), wanted: Ok(offsets.to_vec()) }
}

fn no(cells: &[(u32, u32)], number: u32, cell: u32) -> Case {
    Case { cells: cells.to_vec(), wanted: Err((number, cell)) }
}

/// Padding, sizes 0, and depths at the limit and past it.
fn accepted() -> Vec<Case> {
    let low = -2_147_483_647;
    vec![
        at(&[], &[]),
        at(&[(12, 8)], &[-16]),
        at(&[(8, 8), (8, 4), (4, 4)], &[-8, -16, -20]),
        at(&[(1, 16), (3, 8), (2, 4), (5, 1)], &[-16, -24, -28, -33]),
        at(&[(0, 8)], &[0]),
        at(&[(0, 8), (0, 1)], &[0, 0]),
        at(&[(5, 8), (0, 4), (3, 1), (0, 1)], &[-8, -8, -11, -11]),
        at(&[(0, 1)], &[0]),
        at(&[(0, WHOLE)], &[0]),
        at(&[(0, WHOLE), (DEEPEST, 1)], &[0, low]),
        at(&[(1, HALF)], &[-1_073_741_824]),
        at(&[(HALF, HALF), (HALF - 1, 1)], &[-1_073_741_824, low]),
        at(&[(HALF, HALF), (HALF - 2, 2)], &[-1_073_741_824, -2_147_483_646]),
        at(&[(DEEPEST, 1)], &[low]),
        at(&[(DEEPEST, 1), (0, 1)], &[low, low]),
        at(&[(DEEPEST - 1, 1), (1, 1)], &[-2_147_483_646, low]),
        at(&[(DEEPEST - 7, 8)], &[-2_147_483_640]),
    ]
}

fn too_deep() -> Vec<Case> {
    vec![
        no(&[(DEEPEST, 1), (1, 1)], 13, 1),
        no(&[(DEEPEST, 1), (1, 1), (1, 1)], 13, 1),
        no(&[(WHOLE, 1)], 13, 0),
        no(&[(u32::MAX, 1)], 13, 0),
        no(&[(u32::MAX, 1), (u32::MAX, 1)], 13, 0),
        no(&[(1, WHOLE)], 13, 0),
        no(&[(WHOLE, WHOLE)], 13, 0),
        no(&[(u32::MAX, WHOLE)], 13, 0),
        no(&[(0, WHOLE), (WHOLE, 1)], 13, 1),
        // it is the padding that is too deep
        no(&[(DEEPEST, 2)], 13, 0),
        no(&[(DEEPEST - 6, 8)], 13, 0),
        no(&[(HALF, HALF), (1, HALF)], 13, 1),
        no(&[(HALF, HALF), (HALF - 1, 2)], 13, 1),
        no(&[(HALF, HALF), (HALF, HALF)], 13, 1),
    ]
}

/// 12 of any cell comes before 13 of any.
fn no_powers() -> Vec<Case> {
    vec![
        no(&[(8, 3)], 12, 0),
        no(&[(8, 0)], 12, 0),
        no(&[(0, 0)], 12, 0),
        no(&[(3, 3)], 12, 0),
        no(&[(1, u32::MAX)], 12, 0),
        no(&[(1, WHOLE + 1)], 12, 0),
        no(&[(1, DEEPEST)], 12, 0),
        no(&[(8, 8), (8, 6), (8, 5), (8, 4)], 12, 1),
        no(&[(8, 8), (8, 4), (0, 0)], 12, 2),
        no(&[(WHOLE, 4), (8, 3)], 12, 1),
        no(&[(u32::MAX, WHOLE), (u32::MAX, 1), (1, 0)], 12, 2),
        no(&[(u32::MAX, u32::MAX)], 12, 0),
    ]
}

/// As many cells as there may be, a half slots: the last one ends at the greatest depth, or past it, or has no alignment.
fn most() -> Vec<Case> {
    let half = MOST as usize / 2;
    let with = |last: (u32, u32)| -> Vec<(u32, u32)> {
        let mut cells = [vec![(PART, PART); half], vec![(PART, 1); half]].concat();
        cells[MOST as usize - 1] = last;
        cells
    };
    let offsets = |last: i32| -> Vec<i32> { (1..MOST).map(|k| -k * PART as i32).chain([last]).collect() };
    let padded = [vec![(PART, PART); half], vec![(1, PART); half]].concat();
    let last = MOST as u32 - 1;
    vec![
        at(&with((PART - 1, 1)), &offsets(-2_147_483_647)),
        at(&with((0, 1)), &offsets(-2_146_959_360)),
        no(&with((PART, 1)), 13, last),
        no(&padded, 13, last),
        no(&with((1, 0)), 12, last),
        no(&[vec![(WHOLE, WHOLE); half], vec![(u32::MAX, 1); half]].concat(), 13, 0),
    ]
}

/// Each with what the plain model gives, which must be that. Document 02's own example is no plan's: alignments never rise.
fn cases() -> Vec<Case> {
    assert_eq!(laid(&[(8, 8), (4, 4), (8, 8)]), Ok(Layout { depth: 24, offsets: vec![-8, -12, -24] }));
    let all: Vec<Case> = [accepted(), too_deep(), no_powers(), most()].into_iter().flatten().collect();
    for case in &all {
        assert_eq!(laid(&case.cells).map(|layout| layout.offsets), case.wanted, "cells {:?}", case.cells);
    }
    all
}

/// The number that a case is refused with, or 0.
fn number(case: &Case) -> usize {
    case.wanted.as_ref().err().map_or(0, |verdict| verdict.0 as usize)
}

/// A job of one point. Of the cells whose size is their alignment a slot is made, or of none.
fn job(cells: &[(u32, u32)], slots: bool) -> Job {
    let mut job = Job { budget: BUDGET, ..Job::default() };
    job.groups[BLOCKS] = vec![0, 0, 0];
    for &(size, align) in cells {
        if slots && size == align {
            job.groups[SLOTS].push(size);
        } else {
            job.groups[LOCALS].extend([size, align]);
        }
    }
    job
}

/// The jobs of all cases that have not too many locals.
fn all() -> Vec<(Job, usize)> {
    let cases = cases();
    let both = cases.iter().flat_map(|case| [false, true].map(|slots| (job(&case.cells, slots), number(case))));
    both.filter(|(job, _)| job.count(LOCALS) <= LIMITS[LOCALS]).collect()
}

/// Lengths of an offset list for so many items: exact, longer, and one short, which is number 7.
fn lengths(items: usize) -> Vec<usize> {
    [Some(items), Some(items + 1), Some(items + 9), items.checked_sub(1)].into_iter().flatten().collect()
}

pub fn jobs() {
    let mut tally = Tally::default();
    for (seed, (job, number)) in all().iter().enumerate() {
        let items = job.items();
        for offsets in lengths(items) {
            let wanted = if offsets < items { 7 } else { *number };
            let before = tally.0[wanted];
            hold(job, &Lent { offsets, ..exact(job, 1) }, seed as u64, None, &mut tally);
            assert_eq!(tally.0[wanted], before + 1, "expected {wanted} of {job:?}");
        }
    }
    tally.say("cells at the limits of the layout, offset lists exactly full, longer and one short");
    let mut tally = [0; 14];
    for (job, wanted) in texts() {
        let given = entry(write(&job).as_bytes(), |length| vec![b'?'; length]);
        assert_eq!(given, wanted, "the text of {job:?}");
        tally[given] += 1;
    }
    println!("their texts by print_text: {}, no difference; {} plans, refusals {}", tally.iter().sum::<usize>(), tally[0], refused(&tally));
}

/// The same as wants without an area, a half of them locals.
pub fn wants() {
    let (mut r, mut tally) = (Random::seeded(3), [0; 14]);
    for case in cases() {
        let items = case.cells.len();
        let rows = case.cells.iter().flat_map(|&(size, align)| [size, align, 0, 0, 0]).collect();
        let w = fits::Wants { rows, areas: Vec::new(), locals: items as u32 / 2, budget: BUDGET };
        for offsets in lengths(items) {
            let lent = Lent { offsets, ..fits::lent(&w, 0) };
            let before = any_lists(&mut r, &lent);
            let given = fits::hold(&w, &lent, &before);
            assert_eq!(given, if offsets < items { 7 } else { number(&case) }, "cells {:?}", case.cells);
            tally[given] += 1;
        }
    }
    println!("fitting alone, cells at the limits of the layout, offset lists exactly full, longer and one short: {}, no difference; {} plans, refusals {}", tally.iter().sum::<usize>(), tally[0], refused(&tally));
}

/// The jobs that the planning program takes, and the number that each is refused with, or 0.
pub fn texts() -> Vec<(Job, usize)> {
    all().into_iter().filter(|(job, _)| job.items() <= 64).collect()
}
