//! Each count and depth at its limit and one past it, lists and work space exactly full and one short.
use crate::cases::Random;
use crate::depths;
use crate::job::*;
use crate::plans::{areas, ranges};
use crate::refusals::*;
use crate::whole::{hold, Tally};

/// A job with that many records of one group, and of the others what these name.
fn full(group: usize, count: usize) -> Job {
    let mut job = Job { points: 4095, v: 1, budget: BUDGET, ..Job::default() };
    let n = count as u32;
    let g = &mut job.groups;
    g[BLOCKS] = vec![0, 0, 4095];
    g[INSTS] = vec![1, 0, 2, 3, 0, 0, 256, 256, 0];
    g[LOCALS] = vec![8, 8];
    g[SLOTS] = vec![4];
    g[ADDRESSES] = vec![0, 0];
    let row: Vec<u32> = match group {
        BLOCKS => Vec::new(),
        EDGES => vec![0, 0],
        INSTS => g[INSTS].clone(),
        OPERANDS => vec![0, 256],
        CROSSINGS => vec![256],
        LOCALS => vec![8, 4],
        SLOTS => vec![8],
        PIECES => vec![0, 7, 9],
        ASSIGNED => vec![0, 0],
        MOVES => vec![2, 0, 0, 1],
        _ => vec![0, 0],
    };
    g[group] = row.repeat(count);
    match group {
        BLOCKS => {
            job.points = job.points.max(n);
            job.groups[BLOCKS] = (0..n).flat_map(|k| [n - 1 - k, k, k]).collect();
            job.groups[INSTS][1..4].copy_from_slice(&[0, n - 1, n - 1]);
        }
        OPERANDS => job.groups[INSTS][8] = n,
        _ => (),
    }
    job
}

fn each_count(tally: &mut Tally, seed: &mut u64) {
    let mut hold = |job: &Job, ranges: usize, wanted: usize| {
        *seed += 1;
        let before = tally.0[wanted];
        hold(job, &exact(job, ranges), *seed, None, tally);
        assert_eq!(tally.0[wanted], before + 1, "seed {seed}: expected {wanted}");
    };
    for (group, &limit) in LIMITS.iter().enumerate() {
        hold(&full(group, limit), 70, 0);
        hold(&full(group, limit + 1), 70, 1);
    }
    let job = full(EDGES, 1);
    hold(&Job { v: REGISTERS, ..job.clone() }, 70, 0);
    hold(&Job { v: REGISTERS + 1, ..job.clone() }, 70, 1);
    hold(&Job { budget: BUDGET + 1, ..job.clone() }, 70, 1);
    hold(&Job { budget: 0, ..job.clone() }, 70, 0);
    hold(&job, RANGES, 0);
    hold(&job, RANGES + 1, 1);
    hold(&full(BLOCKS, 0), 70, 1);
}

/// Each list and the work space exactly full, and short by each of some numbers.
fn each_list(r: &mut Random, seed: u64, tally: &mut Tally) {
    let job = crate::random::random(r, 6);
    let areas = areas(&job);
    let whole = exact(&job, ranges(&areas));
    hold(&job, &whole, seed, Some(&areas), tally);
    for short in 1..=4 {
        let mut lists = [whole; 5];
        lists[0].cells = whole.cells.saturating_sub(short);
        lists[1].items = whole.items.saturating_sub(short);
        lists[2].areas = whole.areas.saturating_sub(short);
        lists[3].work = whole.work.saturating_sub(short);
        lists[4].offsets = whole.offsets.saturating_sub(short);
        for lent in lists {
            hold(&job, &lent, seed, Some(&areas), tally);
        }
    }
    for group in 0..12 {
        let mut cut = job.clone();
        if cut.groups[group].pop().is_some() {
            hold(&cut, &whole, seed, None, tally);
        }
    }
}

pub fn compare(jobs: u64) {
    let (mut tally, mut seed) = (Tally::default(), 0);
    each_count(&mut tally, &mut seed);
    tally.say("each count at its limit and one past it");
    depths::jobs();
    let mut tally = Tally::default();
    for seed in 1..=jobs {
        each_list(&mut Random::seeded(seed), seed, &mut tally);
    }
    tally.say(&format!("each list and the work space exactly full and short by 1 to 4, each group cut by a number, {jobs} jobs"));
}
