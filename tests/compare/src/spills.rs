//! `spill_tests`: the register of each slot, and what the moves of one slot cover.
use crate::cases::{list, reg, Case, Random, Records};
use crate::job::*;
use reference::slots::probe;
use rucc_mir::{Block, Inst};
use rucc_regalloc::assign::{Assignment, Place};
use rucc_regalloc::rewrite::{At, Edit, Move};
use rucc_regalloc::Allocation;

pub fn assignment(v: u32, rows: &[u32]) -> Assignment {
    Assignment(rows.chunks(2).map(|a| (reg(v, a[0]), Place::Slot(a[1]))).collect())
}

pub fn edits(rows: &[u32]) -> Vec<Edit> {
    let at = |m: &[u32]| match m[0] {
        0 => At::Before(Inst(m[1])),
        1 => At::After(Inst(m[1])),
        2 => At::StartOf(Block(m[1])),
        _ => At::EndOf(Block(m[1])),
    };
    rows.chunks(4).map(|m| Edit { at: at(m), mov: Move { to: Place::Slot(m[2]), from: Place::Slot(m[3]) } }).collect()
}

/// The register of each slot, V where it has none.
pub fn held(job: &Job, slots: usize) -> Vec<u32> {
    let held = probe::spilled(&Allocation { assignment: assignment(job.v, &job.groups[ASSIGNED]), ..Allocation::default() }, slots);
    held.iter().map(|r| r.map_or(job.v, |r| r.number().unwrap())).collect()
}

/// What the moves of a slot cover, as rows. slots.rs has as many lists as slots, so this slot is its first and any other one past the end.
pub fn covered(job: &Job, slot: u32) -> Vec<u32> {
    let g = &job.groups;
    let records = Records { v: job.v, points: job.points, blocks: &g[BLOCKS], edges: &[], insts: &g[INSTS], operands: &g[OPERANDS], crossings: &[] };
    let own: Vec<u32> = job.rows(MOVES).flat_map(|m| [m[0], m[1], u32::from(m[2] != slot), u32::from(m[3] != slot)]).collect();
    let moved = &probe::moved(&Allocation { order: records.order(), edits: edits(&own), ..Allocation::default() }, 1)[0];
    moved.iter().flat_map(|r| [r.start, r.end]).collect()
}

/// The groups of each.
pub const MOVED: [usize; 4] = [BLOCKS, INSTS, OPERANDS, MOVES];
pub const SPILLED: [usize; 1] = [ASSIGNED];

/// The records of a case, behind its head.
fn job(c: &[Vec<u32>], groups: &[usize], points: u32, v: u32) -> Job {
    let mut job = Job { points, v, ..Job::default() };
    groups.iter().zip(&c[1..]).for_each(|(&group, column)| job.groups[group] = column.clone());
    job
}

fn spilled(c: &[Vec<u32>]) -> String {
    let (job, slots) = (job(c, &SPILLED, 0, c[0][0]), c[0][1] as usize);
    format!("spilled {slots}:{} | {}", list(&held(&job, slots), c[0][2] as usize), space(&job, 0))
}

fn moved(c: &[Vec<u32>]) -> String {
    let job = job(c, &MOVED, c[0][0], c[0][1]);
    let ranges = covered(&job, c[0][2]);
    format!("moved {}:{} | {}", ranges.len() / 2, list(&ranges, c[0][3] as usize), space(&job, 0))
}

pub fn lines(case: &Case) -> Vec<Option<String>> {
    vec![Some(if case.name == "spilled" { spilled(&case.columns) } else { moved(&case.columns) })]
}

/// A move's slot, or a register in place of one: a number past all slots.
fn place(r: &mut Random) -> u32 {
    if r.one_in(3) { 4_294_967_295 } else { r.below(3) }
}

/// Up to 7 moves at one of these instructions or at a block.
pub fn moves(r: &mut Random, placed: &[u32], blocks: u32) -> Vec<u32> {
    (0..r.below(8)).flat_map(|_| {
        let kind = if placed.is_empty() { 2 + r.below(2) } else { r.below(4) };
        let number = if kind < 2 { placed[r.below(placed.len() as u32) as usize] } else { r.below(blocks) };
        [kind, number, place(r), place(r)]
    }).collect()
}

pub fn random(r: &mut Random) -> String {
    if r.one_in(2) {
        let (v, slots) = (1 + r.below(6), r.below(7));
        let assigned = (0..r.below(8)).flat_map(|_| [r.below(v), r.below(slots + 2)]).collect();
        let mut columns = vec![vec![v, slots, slots + r.below(3), 0], assigned];
        columns[0][3] = space(&job(&columns, &SPILLED, 0, v), 0) as u32 + 1;
        return Case::write("spilled", &columns);
    }
    let (blocks, points) = r.line(3);
    let insts: Vec<u32> = (0..r.below(5)).flat_map(|_| {
        let (block, early, late) = r.spot(&blocks);
        [1, block, early, late, 0, 0, 256, 256, 0]
    }).collect();
    let placed: Vec<u32> = (0..insts.len() as u32 / 9).collect();
    let moves = moves(r, &placed, blocks.len() as u32 / 3);
    let mut columns = vec![vec![points, 4, r.below(4), moves.len() as u32 + 2, 0], blocks, insts, Vec::new(), moves];
    columns[0][4] = space(&job(&columns, &MOVED, points, 4), 0) as u32 + 1;
    Case::write("moved", &columns)
}
