//! What a plan shows, counted so that a run in which nothing is shared, or no budget spent, is told.
use crate::carry::kinds;
use crate::job::*;
use crate::layout::Layout;
use crate::plans::{plan, Areas, Plan};
use crate::refusals::BUDGET;
use crate::touching::touching_joined;

/// How many things a plan may show.
pub const THINGS: usize = 7;

pub const SHOWN: [&str; THINGS] = ["share a cell", "have other cells with the largest budget", "have an ending local", "have an area in a row's second word", "have a slot with moves", "have ranges that slots.rs lists as two that touch", "have padding"];

pub type Shown = [bool; THINGS];

pub fn shown(job: &Job, areas: &Areas, own: &Plan, layout: &Layout) -> Shown {
    let (locals, slots) = (job.count(LOCALS), job.count(SLOTS));
    let spent = own.counts[1] == u64::from(job.budget) && plan(&Job { budget: BUDGET, ..job.clone() }, areas).counts[0] != own.counts[0];
    let moved = |slot: u32| (slot as usize) < slots && areas[locals + slot as usize].is_some();
    [
        (own.counts[0] as usize) < job.items(),
        spent,
        kinds(job).contains(&2),
        areas[..locals].iter().skip(64).any(Option::is_some),
        job.rows(MOVES).any(|m| moved(m[2]) || moved(m[3])),
        areas.iter().flatten().any(|area| touching_joined(area).len() < area.len()),
        layout.depth > own.cells.iter().step_by(2).map(|&size| u64::from(size)).sum::<u64>(),
    ]
}
