//! Random whole jobs that slots.rs takes, and damage to them.
use crate::carry::Code;
use crate::cases::Random;
use crate::job::*;
use crate::refusals::BUDGET;
use crate::sizes::Sizes;
use crate::spills::moves;

fn budget(r: &mut Random) -> u32 {
    match r.below(6) {
        0 => r.below(2),
        1 | 2 => r.below(12),
        _ => BUDGET,
    }
}

/// Numbers of an unplaced instruction that nothing may read: any block, any points in order.
fn wander(r: &mut Random, insts: &mut [u32]) {
    for row in insts.chunks_mut(9).filter(|row| row[0] == 0) {
        if r.one_in(3) {
            let (one, two) = (r.number(), r.below(40));
            row[1..4].copy_from_slice(&[r.number(), one.min(two), one.max(two)]);
        }
    }
}

/// Up to 5 locals, now and then more than a word has bits, and up to 3 slots over up to `most` blocks.
pub fn random(r: &mut Random, most: u32) -> Job {
    let mut code = Code::random(r, most);
    if r.one_in(20) {
        // the locals of before are the last ones
        for row in code.addresses.chunks_mut(2).chain(code.ends.chunks_mut(2)) {
            row[1] += 62;
        }
        code.locals += 62;
    }
    wander(r, &mut code.insts);
    let count = code.blocks.len() as u32 / 3;
    let most_edges = if code.calm { count } else { 2 * count };
    let edges: Vec<u32> = (0..r.below(most_edges + 1)).flat_map(|_| [r.below(count), r.below(count)]).collect();
    let sizes = Sizes::of(r);
    let slots: Vec<u32> = (0..r.below(4)).map(|_| sizes.align(r)).collect();
    let (low, high) = (code.blocks[1], code.blocks[code.blocks.len() - 1]);
    let mut pieces: Vec<u32> = (0..r.below(10)).flat_map(|_| {
        let (_, start, end) = r.spot(&code.blocks);
        let end = if r.one_in(4) { end + r.below(high - end + 1) } else { end };
        [r.below(code.v), if r.one_in(8) { low } else { start }, end]
    }).collect();
    let mut assigned: Vec<u32> = (0..r.below(5)).flat_map(|_| [r.below(code.v), r.below(slots.len() as u32 + 1)]).collect();
    let moves = moves(r, &code.placed(), count);
    if r.one_in(40) {
        // all registers physical
        code.v = 0;
        code.operands.iter_mut().skip(1).step_by(2).chain(&mut code.crossings).for_each(|register| *register %= 256);
        pieces.clear();
        assigned.clear();
    }
    let locals: Vec<u32> = (0..code.locals).flat_map(|_| [sizes.size(r), sizes.align(r)]).collect();
    let groups = [code.blocks, edges, code.insts, code.operands, code.crossings, locals, slots, code.addresses, code.ends, pieces, assigned, moves];
    let job = Job { points: code.points, v: code.v, budget: budget(r), groups };
    let top = u32::MAX - job.points;
    if r.one_in(12) { job.later(top) } else { job }
}

/// A number that stands at the border of something, or any.
fn border(r: &mut Random, job: &Job) -> u32 {
    let (blocks, insts) = (job.count(BLOCKS) as u32, job.count(INSTS) as u32);
    let near = [0, 2, 4, 256, blocks, insts, job.v, job.v.saturating_add(256), job.points, job.groups[BLOCKS].get(1).copied().unwrap_or(0)];
    match r.below(8) {
        0 => r.number(),
        1 => u32::MAX,
        _ => near[r.below(near.len() as u32) as usize].wrapping_add(r.below(3)).wrapping_sub(1),
    }
}

/// One change: a field, two fields or rows exchanged, a row left out or doubled, numbers cut off, a head number, a list that is short or cut.
fn damage(r: &mut Random, job: &mut Job, lent: &mut Lent) {
    let filled: Vec<usize> = (0..12).filter(|&group| job.count(group) > 0).collect();
    let group = if filled.is_empty() { 0 } else { filled[r.below(filled.len() as u32) as usize] };
    let (width, count) = (WIDTHS[group], job.count(group) as u32);
    if count == 0 {
        job.points = r.below(20);
        return;
    }
    let (one, two) = (r.below(count) as usize, r.below(count) as usize);
    let (field, other) = (r.below(width as u32) as usize, r.below(width as u32) as usize);
    let list = &mut job.groups[group];
    match r.below(20) {
        0..=6 => {
            let x = border(r, job);
            job.groups[group][width * one + field] = x;
        }
        7 | 8 => {
            let at = width * one + field;
            list[at] = if r.one_in(2) { list[at].wrapping_add(1) } else { list[at].wrapping_sub(1) };
        }
        9 | 10 => list.swap(width * one + field, width * two + other),
        11 => (0..width).for_each(|k| list.swap(width * one + k, width * two + k)),
        12 => drop(list.drain(width * one..width * (one + 1))),
        13 => {
            let row = list[width * one..width * (one + 1)].to_vec();
            list.splice(width * two..width * two, row);
        }
        14 => list.truncate(list.len() - 1 - r.below(width as u32) as usize),
        15 => {
            let x = border(r, job);
            job.points = if r.one_in(2) { job.points.wrapping_sub(1) } else { x };
        }
        16 => job.v = if r.one_in(2) { border(r, job) % 70_000 } else { job.v.saturating_sub(1 + r.below(3)) },
        17 => job.budget = if r.one_in(2) { BUDGET + 1 + r.below(3) } else { r.number() },
        18 => match r.below(5) {
            0 => lent.cells = lent.cells.saturating_sub(1 + r.below(3) as usize),
            1 => lent.items = lent.items.saturating_sub(1 + r.below(5) as usize),
            2 => lent.counts = r.below(3) as usize,
            3 => lent.offsets = lent.offsets.saturating_sub(1 + r.below(3) as usize),
            _ => lent.areas = lent.areas.saturating_sub(1 + r.below(3) as usize),
        },
        _ => lent.work = lent.work.saturating_sub(1 + if r.one_in(2) { 0 } else { r.below(40) as usize }),
    }
}

/// The records of a random job that an entry is lent, in two of five cases with one to three changes.
pub fn records(r: &mut Random, most: u32, groups: &[usize], registers: bool) -> Job {
    let mut job = random(r, most).only(groups, registers);
    if r.below(5) < 2 {
        let mut lent = exact(&job, 0);
        (0..1 + r.below(3)).for_each(|_| damage(r, &mut job, &mut lent));
    }
    job.only(groups, registers)
}

/// One to three changes. A work space that is not the damage's is as large as the damaged job needs it, or a word more.
pub fn damaged(r: &mut Random, mut job: Job, mut lent: Lent) -> (Job, Lent) {
    let short = lent.work;
    for _ in 0..1 + r.below(3) {
        damage(r, &mut job, &mut lent);
    }
    let needed = space(&job, lent.areas);
    lent.work = if lent.work < short { needed.saturating_sub(1) } else { needed + r.below(2) as usize };
    (job, lent)
}

/// Any lengths of the lists, the work space as large as it must be.
pub fn any_lent(r: &mut Random, job: &Job) -> Lent {
    let items = job.items();
    let mut lent = Lent { cells: 2 * items + 2, items: 4 * items, areas: 2 * r.below(40) as usize, offsets: items + r.below(3) as usize, counts: 3, work: 0 };
    lent.work = space(job, lent.areas);
    lent
}
