//! The plan of a whole job that is not refused, by slots.rs; what it does not tell by plain models: probes by one of fitting, depth and offsets by one of the layout.
use crate::carry::mentions;
use crate::cases::Records;
use crate::job::*;
use crate::layout::{laid, Laid};
use crate::spills::{assignment, edits};
use crate::touching::touching_joined;
use reference::frame::Local;
use reference::slots::{probe, reach, wanted, Slots};
use rucc_base::Interner;
use rucc_regalloc::live::{Area, Live, Range};
use rucc_regalloc::Allocation;
use rucc_target::FrameInsts;
use std::cmp::Reverse;

pub type Areas = Vec<Option<Vec<Range>>>;

/// The answer lists of document 01, cells and probes, and the layout, for which a plan that slots.rs has may still be refused.
#[derive(Clone, Debug, PartialEq)]
pub struct Plan {
    pub cells: Vec<u32>,
    pub items: Vec<u32>,
    pub areas: Vec<u32>,
    pub counts: [u64; 2],
    pub laid: Laid,
}

fn live(job: &Job) -> Live {
    let mut live = Live(vec![Area::default(); job.v as usize]);
    for piece in job.rows(PIECES) {
        live.0[piece[0] as usize].0.push(Range { start: piece[1], end: piece[2] });
    }
    live
}

fn locals(job: &Job) -> Vec<Local> {
    job.rows(LOCALS).map(|l| Local { size: l[0], align: l[1] }).collect()
}

/// The area of each item, as slots.rs lists it. A crossing's stand-in edge is lent where addresses are followed, and not where areas flow.
pub fn areas(job: &Job) -> Areas {
    let g = &job.groups;
    let mut records =
        Records { v: job.v, points: job.points, blocks: &g[BLOCKS], edges: &g[EDGES], insts: &g[INSTS], operands: &g[OPERANDS], crossings: &g[CROSSINGS] };
    let locals = locals(job);
    let reached = reach(&records.func(), &mentions(&g[ADDRESSES]), &mentions(&g[ENDS]), locals.len(), &FrameInsts::default(), &mut Interner);
    records.crossings = &[];
    let allocation = Allocation { live: live(job), order: records.order(), assignment: assignment(job.v, &g[ASSIGNED]), edits: edits(&g[MOVES]) };
    wanted(&records.func(), Some(&reached), &allocation, &locals, &g[SLOTS])
}

/// How many ranges the component lists.
pub fn ranges(areas: &Areas) -> usize {
    areas.iter().flatten().map(|area| touching_joined(area).len()).sum()
}

/// The area list, and of each item whether it has an area and its part of the list.
pub fn rows(areas: &Areas) -> [Vec<u32>; 2] {
    let (mut ranges, mut items) = (Vec::new(), Vec::new());
    for area in areas.iter().map(|area| area.as_deref().map(touching_joined)) {
        items.extend(area.as_ref().map_or([0, 0, 0], |area| [1, ranges.len() as u32 / 2, area.len() as u32]));
        ranges.extend(area.iter().flatten().flat_map(|r| [r.start, r.end]));
    }
    [ranges, items]
}

/// Size and alignment of each item.
fn sizes(job: &Job) -> Vec<(u32, u32)> {
    job.rows(LOCALS).map(|l| (l[0], l[1])).chain(job.groups[SLOTS].iter().map(|&width| (width, width))).collect()
}

fn common(one: &[Range], two: &[Range]) -> bool {
    let (mut i, mut j) = (0, 0);
    while i < one.len() && j < two.len() {
        if one[i].end < two[j].start {
            i += 1;
        } else if two[j].end < one[i].start {
            j += 1;
        } else {
            return true;
        }
    }
    false
}

struct Cell {
    size: u32,
    align: u32,
    area: Option<Vec<Range>>,
    members: usize,
}

/// Fitting as document 01 says it: the cells, each item's cell, the probes.
fn fitted(sizes: &[(u32, u32)], areas: &Areas, budget: u32) -> (Vec<Cell>, Vec<usize>, u64) {
    let mut order: Vec<usize> = (0..sizes.len()).collect();
    order.sort_by_key(|&i| (Reverse(sizes[i].1), Reverse(sizes[i].0), i));
    let (mut cells, mut of, mut left): (Vec<Cell>, _, _) = (Vec::new(), vec![0; sizes.len()], budget);
    for i in order {
        let (size, align) = sizes[i];
        let mut into = None;
        if let Some(area) = &areas[i] {
            for (c, cell) in cells.iter().enumerate() {
                if left == 0 {
                    break;
                }
                left -= 1;
                if cell.area.as_ref().is_some_and(|held| !common(held, area)) {
                    into = Some(c);
                    break;
                }
            }
        }
        match into {
            Some(c) => {
                let cell = &mut cells[c];
                cell.size = cell.size.max(size);
                cell.align = cell.align.max(align);
                cell.members += 1;
                let held = cell.area.as_mut().unwrap();
                held.extend(areas[i].as_ref().unwrap());
                held.sort_by_key(|r| r.start);
                of[i] = c;
            }
            None => {
                of[i] = cells.len();
                cells.push(Cell { size, align, area: areas[i].clone(), members: 1 });
            }
        }
    }
    (cells, of, u64::from(budget - left))
}

/// Cells as rows, the cell of each item, cells and probes, the layout; and slots.rs's plan.
pub struct Fit {
    pub cells: Vec<u32>,
    pub of: Vec<usize>,
    pub counts: [u64; 2],
    pub laid: Laid,
    pub slots: Slots,
}

/// What the items of those sizes are fitted to, by the plain model, which is held to slots.rs: cells, the cell of each item, the shared areas, crowded slots, cells saved.
pub fn fit(sizes: &[(u32, u32)], areas: &Areas, locals: usize, budget: u32) -> Fit {
    let (cells, of, probes) = fitted(sizes, areas, budget);
    let wants = sizes.iter().zip(areas).map(|(&(size, align), area)| (size, align, area.clone())).collect();
    let plan = probe::fit(wants, locals, budget as usize);
    assert!(cells.iter().map(|c| (c.size, c.align)).eq(plan.cells().iter().map(|c| (c.size, c.align))), "the model's cells are not slots.rs's");
    for (i, &cell) in of.iter().enumerate() {
        let own = if i < locals { plan.local(i) } else { plan.slot((i - locals) as u32) };
        assert_eq!(own, Some(cell), "the model's cell of item {i} is not slots.rs's");
        if i < locals {
            let shared = areas[i].as_deref().filter(|_| cells[cell].members > 1);
            assert_eq!(plan.shared(i), shared, "the model's shared area of local {i} is not slots.rs's");
        }
    }
    let mut crowded: Vec<u32> = plan.crowded().into_iter().collect();
    crowded.sort_unstable();
    assert!((locals..of.len()).filter(|&i| cells[of[i]].members > 1).map(|i| (i - locals) as u32).eq(crowded), "the model's crowded slots are not slots.rs's");
    assert_eq!(plan.saved(), of.len() - cells.len());
    let laid = laid(&cells.iter().map(|c| (c.size, c.align)).collect::<Vec<_>>());
    Fit { cells: cells.iter().flat_map(|c| [c.size, c.align]).collect(), of, counts: [cells.len() as u64, probes], laid, slots: plan }
}

/// The plan, and slots.rs's, which has its own areas: cells are the same, since clashing is by points.
pub fn planned(job: &Job, areas: &Areas) -> (Plan, Slots) {
    let fit = fit(&sizes(job), areas, job.count(LOCALS), job.budget);
    let [ranges, parts] = rows(areas);
    let items = fit.of.iter().zip(parts.chunks(3)).flat_map(|(&cell, part)| [cell as u32, part[0], part[1], part[2]]).collect();
    (Plan { cells: fit.cells, items, areas: ranges, counts: fit.counts, laid: fit.laid }, fit.slots)
}

pub fn plan(job: &Job, areas: &Areas) -> Plan {
    planned(job, areas).0
}
