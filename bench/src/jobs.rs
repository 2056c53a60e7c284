//! Whole jobs: made-up functions with the counts and the shapes that compilers meet, and two that they don't: all slots live at once, and every count at its limit.
use crate::functions::{function, Flow, Shape, NONE, NOWHERE};
use crate::timing::Random;

/// A job as the component is lent it: each list is rows of numbers.
#[derive(Default)]
pub struct Job {
    pub name: &'static str,
    pub points: u32,
    pub v: u32,
    pub budget: u32,
    pub blocks: Vec<u32>,
    pub edges: Vec<u32>,
    pub insts: Vec<u32>,
    pub operands: Vec<u32>,
    pub crossings: Vec<u32>,
    pub locals: Vec<u32>,
    pub slots: Vec<u32>,
    pub addresses: Vec<u32>,
    pub ends: Vec<u32>,
    pub pieces: Vec<u32>,
    pub assigned: Vec<u32>,
    pub moves: Vec<u32>,
    /// The fewest ranges that the area list has room for.
    pub ranges: usize,
}

impl Job {
    /// The words of work space that the job needs, with room for so many ranges.
    pub fn space(&self, ranges: usize) -> usize {
        let records = self.blocks.len() / 3 + self.edges.len() / 2 + self.insts.len() / 9 + self.operands.len() / 2 + self.crossings.len() + self.locals.len() / 2
            + self.slots.len() + self.addresses.len() / 2 + self.ends.len() / 2 + self.pieces.len() / 3 + self.assigned.len() / 2 + self.moves.len() / 4;
        let rows = self.blocks.len() / 3 * (self.locals.len() / 2).div_ceil(64);
        8 * (records + rows + ranges + self.v.div_ceil(64) as usize)
    }
}

/// 2,048 slots that are all live nearly everywhere.
fn clash() -> Job {
    let base = function(Shape { name: "all clash", flow: Flow::Line, blocks: 200, edges: 0, insts: 12, locals: 20, ending: 2, slots: 0, others: 1500, reach: 8, uses: 2 });
    let mut job = Job { slots: vec![8; 2048], v: base.v + 2048, ..base };
    for slot in 0..2048 {
        let register = base.v + slot;
        job.assigned.extend([register, slot]);
        job.pieces.extend([register, slot / 2, job.points - 1100 + slot / 2]);
        job.moves.extend([1, slot / 8, slot, NONE]);
    }
    job
}

/// A function near the limits, and what is missing of each list: rows that change no area.
fn limits() -> Job {
    let mut job = function(Shape { name: "at the limits", flow: Flow::Line, blocks: 4096, edges: 16_384, insts: 15, locals: 2048, ending: 3, slots: 2048, others: 45_000, reach: 6, uses: 4 });
    let mut r = Random(0x2545_f491_4f6c_dd1d);
    let last = job.points - 1;
    let mut rise = |list: &mut Vec<u32>, width: usize, most: usize, row: &dyn Fn(&mut Random) -> Vec<u32>| {
        assert!(list.len() / width <= most);
        while list.len() / width < most {
            list.extend(row(&mut r));
        }
    };
    let count = job.insts.len() / 9;
    // unplaced instructions with the operands that are left
    let (free, left) = (65_536 - count, 262_144 - job.operands.len() / 2);
    rise(&mut job.insts, 9, 65_536, &|_| vec![0, 0, 0, 0, 0, 0, NOWHERE, NOWHERE, (left / free) as u32]);
    job.insts[9 * 65_536 - 1] += (left % free) as u32;
    rise(&mut job.operands, 2, 262_144, &|r| vec![0, r.below(45_000) as u32]);
    let register = |r: &mut Random| r.below(45_000) as u32;
    let v = 65_535;
    job.v = v;
    job.ranges = 65_536;
    rise(&mut job.crossings, 1, 65_536, &|r| vec![register(r)]);
    rise(&mut job.addresses, 2, 65_536, &|r| vec![r.below(count as u64) as u32, 2048]);
    rise(&mut job.ends, 2, 65_536, &|r| vec![r.below(65_536) as u32, 2048]);
    rise(&mut job.assigned, 2, 65_536, &|r| vec![register(r), 2048]);
    rise(&mut job.moves, 4, 65_536, &|r| vec![r.below(2) as u32, r.below(count as u64) as u32, NONE, NONE]);
    rise(&mut job.pieces, 3, 65_536, &|r| {
        let start = r.below(u64::from(last)) as u32;
        vec![v - 1, start, start]
    });
    job
}

pub fn all() -> Vec<Job> {
    let shape = |name, flow, blocks, insts, locals, ending, slots, others, reach| function(Shape { name, flow, blocks, edges: 0, insts, locals, ending, slots, others, reach, uses: 2 });
    vec![
        shape("tiny", Flow::Line, 3, 3, 2, 0, 1, 6, 2),
        shape("typical", Flow::Line, 20, 8, 8, 2, 12, 120, 4),
        shape("large", Flow::Line, 400, 10, 60, 3, 150, 3000, 8),
        shape("lua-like", Flow::Dispatch, 900, 16, 12, 3, 2040, 10_000, 13),
        shape("quickjs-like", Flow::Dispatch, 2600, 12, 1500, 5, 300, 15_000, 12),
        limits(),
        clash(),
        shape("chain against its edges", Flow::Against, 4096, 6, 500, 3, 100, 10_000, 8),
    ]
}
