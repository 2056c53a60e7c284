//! Whole jobs, from the records to the plan: `slots_share` and slots.rs's `reach` and `Slots::share`.
use crate::cases::Records;
use crate::jobs::{self, Job};
use crate::layout::{laid, Layout};
use crate::timing::{compared, timed};
use crate::touching::touching_joined;
use crate::{carry, entries, spills};
use reference::frame::Local;
use reference::slots::{reach, wanted, Reach, Slots};
use rucc_base::Interner;
use rucc_mir::{Func, Inst};
use rucc_regalloc::live::{Area, Live, Range};
use rucc_regalloc::Allocation;
use rucc_target::FrameInsts;

/// What slots.rs is lent. A crossing's stand-in edge is lent where addresses are followed, and not where areas flow.
struct Lent {
    crossed: Func,
    func: Func,
    addresses: Vec<(Inst, usize)>,
    ends: Vec<(Inst, usize)>,
    allocation: Allocation,
    locals: Vec<Local>,
}

impl Lent {
    fn new(job: &Job) -> Self {
        let mut records =
            Records { v: job.v, points: job.points, blocks: &job.blocks, edges: &job.edges, insts: &job.insts, operands: &job.operands, crossings: &job.crossings };
        let crossed = records.func();
        records.crossings = &[];
        let mut live = Live(vec![Area::default(); job.v as usize]);
        for piece in job.pieces.chunks(3) {
            live.0[piece[0] as usize].0.push(Range { start: piece[1], end: piece[2] });
        }
        let assignment = spills::assignment(job.v, &job.assigned);
        Self {
            crossed,
            func: records.func(),
            addresses: carry::mentions(&job.addresses),
            ends: carry::mentions(&job.ends),
            allocation: Allocation { live, order: records.order(), assignment, edits: spills::edits(&job.moves) },
            locals: job.locals.chunks(2).map(|l| Local { size: l[0], align: l[1] }).collect(),
        }
    }

    fn reached(&self) -> Reach {
        reach(&self.crossed, &self.addresses, &self.ends, self.locals.len(), &FrameInsts::default(), &mut Interner)
    }

    fn plan(&self, slots: &[u32]) -> Slots {
        Slots::share(&self.func, Some(&self.reached()), &self.allocation, &self.locals, slots)
    }
}

/// The answer lists and the work space that the component is lent.
pub struct Lists {
    pub cells: Vec<u32>,
    pub items: Vec<u32>,
    pub areas: Vec<u32>,
    pub offsets: Vec<i32>,
    pub counts: [u64; 3],
    pub work: Vec<u64>,
}

impl Lists {
    /// With room for so many items and ranges.
    pub fn new(items: usize, ranges: usize, work: usize) -> Self {
        Self { cells: vec![0; 2 * items], items: vec![0; 4 * items], areas: vec![0; 2 * ranges], offsets: vec![0; items], counts: [0; 3], work: vec![0; work] }
    }

    /// The cells are slots.rs's, and lie where the plain model lays them out; gives how many they are.
    pub fn hold_cells(&self, plan: &Slots, name: &str) -> usize {
        let cells: Vec<(u32, u32)> = plan.cells().iter().map(|c| (c.size, c.align)).collect();
        assert_eq!(self.counts[0] as usize, cells.len(), "{name}: cells");
        assert!(self.cells.chunks(2).map(|c| (c[0], c[1])).take(cells.len()).eq(cells.iter().copied()), "{name}: sizes and alignments");
        let own = Layout { depth: self.counts[2], offsets: self.offsets[..cells.len()].to_vec() };
        assert_eq!(Ok(own), laid(&cells), "{name}: depth and offsets");
        cells.len()
    }
}

/// Both sides' cells, the cell of each item, and the areas of all items, slots.rs's with the ranges that touch joined, are the same; gives how many cells.
fn agree(job: &Job, lists: &Lists, plan: &Slots, areas: &[Option<Vec<Range>>]) -> usize {
    let cells = lists.hold_cells(plan, job.name);
    let locals = job.locals.len() / 2;
    for (i, (item, area)) in lists.items.chunks(4).zip(areas).enumerate() {
        let cell = if i < locals { plan.local(i) } else { plan.slot((i - locals) as u32) };
        assert_eq!(Some(item[0] as usize), cell, "{}: the cell of item {i}", job.name);
        let part = &lists.areas[2 * item[2] as usize..][..2 * item[3] as usize];
        let own: Vec<Range> = part.chunks(2).map(|r| Range { start: r[0], end: r[1] }).collect();
        assert_eq!((item[1] == 1).then_some(own), area.as_deref().map(touching_joined), "{}: the area of item {i}", job.name);
    }
    cells
}

/// Compares, then times: the answers of a job, and a line of the table.
fn time(job: &Job) -> String {
    let lent = Lent::new(job);
    let areas = wanted(&lent.func, Some(&lent.reached()), &lent.allocation, &lent.locals, &job.slots);
    let ranges: usize = areas.iter().flatten().map(Vec::len).sum();
    let items = areas.len();
    let room = (2 * ranges).max(job.ranges).clamp(64, 65_536);
    let mut lists = Lists::new(items, room, job.space(room));
    let answer = entries::share(job, &mut lists);
    assert_eq!(answer, 0, "{}: refused with number {}, index {}", job.name, answer >> 32, answer & 0xffff_ffff);
    let cells = agree(job, &lists, &lent.plan(&job.slots), &areas);
    let (source, component) = compared(&mut || timed(|| lent.plan(&job.slots)), &mut || timed(|| entries::share(job, &mut lists)));
    let line = format!(
        "| {} | {} | {} | {} | {} | {} | {cells} | {source:.1} | {component:.1} | {:.2} |",
        job.name, job.blocks.len() / 3, job.insts.len() / 9, job.pieces.len() / 3, job.locals.len() / 2, job.slots.len(), component / source
    );
    println!("{line}");
    line
}

const HEAD: &str = "| job | blocks | instructions | live pieces | locals | slots | cells | slots.rs, µs | component, µs | ratio |\n|---|---|---|---|---|---|---|---|---|---|";

/// Times every job, or the one of that name, and gives the table.
pub fn run(only: Option<&str>) -> String {
    println!("{HEAD}");
    let lines: Vec<String> = jobs::all().iter().filter(|job| only.is_none_or(|name| name == job.name)).map(time).collect();
    format!("{HEAD}\n{}\n", lines.join("\n"))
}
