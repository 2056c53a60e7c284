//! Large jobs, up to document 01's limits.
use crate::cases::Random;
use crate::job::*;
use crate::plans::{areas, ranges, Areas};
use crate::refusals::{BUDGET, LIMITS, RANGES};
use crate::whole::{hold, Tally};
use std::time::{Duration, Instant};

/// How one job is made: how many records of each group, how far an edge and a local reach, how many of 100,000 readers escape, and how many in a thousand moves name a slot.
struct Shape {
    counts: [u32; 12],
    v: u32,
    edge: u32,
    reach: u32,
    escape: u32,
    slot: u32,
}

fn some(r: &mut Random, limit: u32) -> u32 {
    match r.below(4) {
        0 => 1 + r.below(limit),
        1 => limit - r.below(limit / 16 + 1),
        _ => limit,
    }
}

fn shape(r: &mut Random) -> Shape {
    let counts = std::array::from_fn(|group| some(r, LIMITS[group] as u32));
    let one = |r: &mut Random, of: &[u32]| of[r.below(of.len() as u32) as usize];
    Shape { counts, v: some(r, 65535), edge: one(r, &[2, 8, 64, 4096]), reach: one(r, &[2, 8, 32, 4096]), escape: one(r, &[0, 10, 50, 10_000]), slot: one(r, &[2, 2, 10, 1000]) }
}

/// A place near another one, mostly after it.
fn near(r: &mut Random, at: u32, far: u32, count: u32) -> u32 {
    let to = if r.one_in(8) { at.saturating_sub(r.below(far)) } else { at + r.below(far) };
    to.min(count - 1)
}

/// Blocks of 1 to 40 points, any numbers: the rows, and each place's row.
fn line(r: &mut Random, count: u32) -> Vec<u32> {
    let mut numbers: Vec<u32> = (0..count).collect();
    for k in (1..count).rev() {
        numbers.swap(k as usize, r.below(k + 1) as usize);
    }
    let mut start = r.below(3);
    numbers.into_iter().flat_map(|number| {
        let first = start;
        start += 1 + r.below(40);
        [number, first, start - 1]
    }).collect()
}

fn within(r: &mut Random, block: &[u32]) -> (u32, u32) {
    let start = block[1] + r.below(block[2] - block[1] + 1);
    (start, start + r.below((block[2] - start + 1).min(3)))
}

/// A local's home is a place in the line; its instructions stand near it. Instruction i belongs to local i mod locals. Half of them are `lea`, with a register of their own; the
/// others read a register of the same local, as a base or, now and then, in a way that escapes.
fn random(r: &mut Random) -> Job {
    let s = shape(r);
    let [b, e, i, o, x, l, t, a, k, p, n, m] = s.counts;
    let mut job = Job { v: s.v, budget: BUDGET, ..Job::default() };
    if r.one_in(4) {
        job.budget = r.below(BUDGET);
    }
    let g = &mut job.groups;
    g[BLOCKS] = line(r, b);
    let blocks = g[BLOCKS].clone();
    let block = |at: u32| &blocks[3 * at as usize..][..3];
    job.points = blocks[blocks.len() - 1] + r.below(3);
    for _ in 0..e {
        let from = r.below(b);
        let to = near(r, from, s.edge, b);
        g[EDGES].extend([block(from)[0], block(to)[0]]);
    }
    let home: Vec<u32> = (0..l).map(|_| r.below(b)).collect();
    let mut left = o;
    for own in 0..i {
        let at = block(near(r, home[(own % l) as usize], s.reach, b));
        let (early, late) = within(r, at);
        let lea = own % 2 == 0;
        let of = own % l + l * r.below(1 + (i - own % l - 1) / l);
        let (read, strange) = (of % s.v, r.below(100_000) < s.escape);
        let mut operands = Vec::new();
        if lea {
            operands.extend([1, own % s.v]);
        }
        operands.extend([0, if own % 4 == 0 { s.v + r.below(256) } else { read }]);
        if r.one_in(2) {
            operands.extend([0, if strange { read } else { s.v + 1 }]);
        }
        if own == i - 1 {
            // what is left are uses of a physical register
            operands.extend([0, s.v].repeat(left as usize));
        }
        operands.truncate(2 * left as usize);
        let count = operands.len() as u32 / 2;
        left -= count;
        g[OPERANDS].extend(operands);
        g[INSTS].extend([u32::from(own == 0 || !r.one_in(50)), at[0], early, late, u32::from(lea), 1, u32::from(lea), 256, count]);
    }
    let insts = g[INSTS].len() as u32 / 9;
    let placed: Vec<u32> = (0..insts).filter(|&i| g[INSTS][9 * i as usize] == 1).collect();
    let any = |r: &mut Random| placed[r.below(placed.len() as u32) as usize];
    g[CROSSINGS] = (0..x).map(|_| if r.below(100_000) < s.escape { r.below(s.v) } else { s.v + r.below(256) }).collect();
    let size = |r: &mut Random| 1 << r.below(6);
    g[LOCALS] = (0..l).flat_map(|_| [size(r), size(r)]).collect();
    g[SLOTS] = (0..t).map(|_| size(r)).collect();
    g[ADDRESSES] = (0..a).flat_map(|_| { let own = any(r); [own, own % l] }).collect();
    g[ENDS] = (0..k).flat_map(|_| { let own = r.below(insts); [own, own % l] }).collect();
    for own in 0..p {
        let register = own % s.v;
        let at = near(r, home[(register % l) as usize], s.reach, b);
        let (start, end) = within(r, block(at));
        let end = if r.one_in(16) { block(near(r, at, s.reach, b).max(at))[2] } else { end };
        g[PIECES].extend([register, start, end]);
    }
    g[ASSIGNED] = (0..n).flat_map(|_| [r.below(s.v), r.below(t + 1)]).collect();
    let slot = |r: &mut Random| if r.below(1000) < s.slot { r.below(t) } else { u32::MAX };
    g[MOVES] = (0..m).flat_map(|_| {
        let kind = r.below(4);
        [kind, if kind < 2 { any(r) } else { r.below(b) }, slot(r), slot(r)]
    }).collect();
    job
}

/// A large job of a seed, its areas, and lists: one in four has a range too few. Of the jobs with more ranges than an area list may have, one in four is taken.
pub fn large(seed: u64) -> (Job, Areas, Lent) {
    let mut r = Random::seeded(seed);
    loop {
        let job = random(&mut r);
        let areas = areas(&job);
        let n = ranges(&areas);
        if n <= RANGES || r.one_in(4) {
            let lent = exact(&job, if r.one_in(4) { n.saturating_sub(1) } else { n + r.below(2) as usize }.min(RANGES));
            return (job, areas, lent);
        }
    }
}

/// Jobs from a seed on until so many seconds have passed.
pub fn compare(seconds: u64, seed: u64) {
    let (mut tally, start, mut own, mut records, mut most) = (Tally::default(), Instant::now(), seed, 0, 0);
    while start.elapsed() < Duration::from_secs(seconds) {
        let (job, areas, lent) = large(own);
        records += (0..12).map(|group| job.count(group)).sum::<usize>();
        most = most.max(ranges(&areas));
        hold(&job, &lent, own, Some(&areas), &mut tally);
        own += 1;
    }
    tally.say(&format!("large jobs, {seconds} s, seeds {seed} to {}, {} records a job, up to {most} ranges", own - 1, records / tally.all().max(1)));
}
