//! All graphs of up to three blocks of two points each, with all sets of one or two touches and all sets of ends: a local each.
use crate::cases::Random;
use crate::job::*;
use crate::refusals::{BUDGET, LIMITS};
use crate::whole::{hold, Tally};

/// Every set of one or two ranges of these points.
fn touch_sets(points: u32) -> Vec<Vec<(u32, u32)>> {
    let ranges: Vec<(u32, u32)> = (0..points).flat_map(|start| (start..points).map(move |end| (start, end))).collect();
    let pairs = (0..ranges.len()).flat_map(|i| (i + 1..ranges.len()).map(move |j| (i, j)));
    let pairs: Vec<Vec<(u32, u32)>> = pairs.map(|(i, j)| vec![ranges[i], ranges[j]]).collect();
    ranges.iter().map(|&range| vec![range]).chain(pairs).collect()
}

/// What all jobs of one number of blocks share. Instruction p stands at point p, and then comes a `lea` for each set of touches, at the first point of the set, that
/// defines a register whose live pieces are the set. The registers cross where the locals are to be ending ones.
struct Small {
    points: u32,
    insts: Vec<u32>,
    operands: Vec<u32>,
    pieces: Vec<u32>,
    sets: u32,
}

fn small(blocks: u32) -> Small {
    let points = 2 * blocks;
    let sets = touch_sets(points);
    let mut s = Small { points, insts: Vec::new(), operands: Vec::new(), pieces: Vec::new(), sets: sets.len() as u32 };
    for p in 0..points {
        s.insts.extend([1, p / 2, p, p, 0, 0, 256, 256, 0]);
    }
    for (register, set) in sets.iter().enumerate() {
        let at = set[0].0;
        s.insts.extend([1, at / 2, at, at, 1, 0, 256, 256, 1]);
        s.operands.extend([1, register as u32]);
        s.pieces.extend(set.iter().flat_map(|&(start, end)| [register as u32, start, end]));
    }
    s
}

impl Small {
    /// The job of one graph and these locals, each a set of touches and a set of ends; blocks numbered as `numbers` says.
    fn job(&self, numbers: &[u32], edges: &[u32], locals: &[(u32, u32)], ending: bool, budget: u32) -> Job {
        let mut job = Job { points: self.points, v: self.sets, budget, ..Job::default() };
        let g = &mut job.groups;
        g[BLOCKS] = numbers.iter().enumerate().flat_map(|(at, &number)| [number, 2 * at as u32, 2 * at as u32 + 1]).collect();
        g[EDGES] = edges.to_vec();
        g[INSTS] = self.insts.clone();
        g[INSTS].chunks_mut(9).for_each(|row| row[1] = numbers[row[1] as usize]);
        g[OPERANDS] = self.operands.clone();
        g[CROSSINGS] = if ending { (0..self.sets).collect() } else { Vec::new() };
        for (local, &(set, ends)) in locals.iter().enumerate() {
            g[LOCALS].extend([8, 8]);
            g[ADDRESSES].extend([self.points + set, local as u32]);
            g[ENDS].extend((0..self.points).filter(|p| ends >> p & 1 == 1).flat_map(|p| [p, local as u32]));
        }
        g[PIECES] = self.pieces.clone();
        job
    }
}

/// An area of so few points has at most as many ranges.
fn hold_one(job: &Job, most: u32, seed: u64, tally: &mut Tally) {
    let lent = exact(job, (job.items() * most as usize).min(65536));
    hold(job, &lent, seed, None, tally);
}

pub fn compare() {
    let (mut tally, mut locals, mut graphs) = (Tally::default(), 0, 0u64);
    for blocks in 1..=3u32 {
        let s = small(blocks);
        let sets = s.sets;
        let ending: Vec<(u32, u32)> = (1..1 << s.points).flat_map(|ends| (0..sets).map(move |set| (set, ends))).collect();
        let plain: Vec<(u32, u32)> = (0..sets).map(|set| (set, 0)).collect();
        for graph in 0..1u32 << (blocks * blocks) {
            let mut r = Random::seeded(graphs);
            graphs += 1;
            let mut numbers: Vec<u32> = (0..blocks).collect();
            numbers.rotate_left(r.below(blocks) as usize);
            if r.one_in(2) {
                numbers.reverse();
            }
            let edges: Vec<u32> = (0..blocks * blocks).filter(|e| graph >> e & 1 == 1).flat_map(|e| [e / blocks, e % blocks]).collect();
            hold_one(&s.job(&numbers, &edges, &plain, false, BUDGET), s.points, graphs, &mut tally);
            locals += plain.len();
            for part in ending.chunks(LIMITS[LOCALS]) {
                let budget = if r.one_in(8) { BUDGET } else { r.below(3000) };
                hold_one(&s.job(&numbers, &edges, part, true, budget), s.points, graphs, &mut tally);
                locals += part.len();
            }
        }
    }
    tally.say(&format!("all {graphs} graphs of up to 3 blocks of 2 points, {locals} locals: one or two touches, any ends"));
}
