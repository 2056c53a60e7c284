//! Plans and their queries: what the queries answer is held to the plan's rows, on many jobs.
use slots::*;

/// Numbers that look random and are the same in each run.
struct Numbers(u64);

impl Numbers {
    fn below(&mut self, n: u32) -> u32 {
        self.0 ^= self.0 << 13;
        self.0 ^= self.0 >> 7;
        self.0 ^= self.0 << 17;
        (self.0 >> 11) as u32 % n
    }
}

fn random_job(seed: u64) -> Job {
    let mut numbers = Numbers(seed.wrapping_mul(0x9e37_79b9_7f4a_7c15) | 1);
    let n = &mut numbers;
    let (blocks, v) = (1 + n.below(12), 1 + n.below(8));
    let mut job = Job::new(blocks * 10 - 1, v);
    job.budget = [0, 5, MOST_BUDGET, MOST_BUDGET][n.below(4) as usize];
    for k in 0..blocks {
        job.block(k, k * 10, k * 10 + 9);
    }
    for _ in 0..n.below(2 * blocks) {
        job.edge(n.below(blocks), n.below(blocks));
    }
    let insts = 1 + n.below(12);
    for _ in 0..insts {
        let (block, at) = (n.below(blocks), n.below(9));
        let inst = Inst::at(block, block * 10 + at, block * 10 + at + 1);
        match n.below(3) {
            0 => {
                job.inst(inst.lea());
                job.operand(true, n.below(v));
            }
            1 => {
                job.inst(inst.memory(Some(0), None));
                job.operand(false, n.below(v));
            }
            _ => {
                job.inst(inst);
            }
        }
    }
    for _ in 0..n.below(9) {
        let (size, align) = (1 + n.below(64), 1 << n.below(5));
        job.local(size, align);
    }
    for _ in 0..n.below(9) {
        job.slot(4 << n.below(3));
    }
    for _ in 0..n.below(12) {
        job.address(n.below(insts), n.below(9));
    }
    for _ in 0..n.below(4) {
        job.end(n.below(insts), n.below(9));
    }
    for _ in 0..n.below(12) {
        let start = n.below(blocks * 10);
        job.piece(n.below(v), start, start + n.below((blocks * 10 - start).min(5)));
    }
    for _ in 0..n.below(12) {
        job.assign(n.below(v), n.below(9));
    }
    for _ in 0..n.below(12) {
        let place = match n.below(4) {
            0 => Place::Before(n.below(insts)),
            1 => Place::After(n.below(insts)),
            2 => Place::Start(n.below(blocks)),
            _ => Place::End(n.below(blocks)),
        };
        let (to, from) = (n.below(12), n.below(12));
        job.moved(place, (to < 9).then_some(to), (from < 9).then_some(from));
    }
    job
}

fn members(plan: &Plan, cell: u32) -> usize {
    plan.items().iter().filter(|item| item.cell == cell).count()
}

#[test]
fn star_1() {
    let mut job = Job::new(20, 0);
    job.block(0, 0, 19);
    let (first, second) = (job.inst(Inst::at(0, 2, 3)), job.inst(Inst::at(0, 6, 7)));
    let (a, b) = (job.local(8, 8), job.local(4, 4));
    job.address(first, a);
    job.address(second, b);
    assert_eq!(job.work_words(64), 576);
    let plan = job.share().unwrap();
    assert_eq!(plan.cells(), [Cell { size: 8, align: 8 }]);
    assert_eq!((plan.local(a), plan.local(b), plan.local(2), plan.slot(0)), (Some(0), Some(0), None, None));
    assert_eq!((plan.shared(a), plan.shared(b)), (Some(&[Range::new(2, 3)][..]), Some(&[Range::new(6, 7)][..])));
    assert_eq!((plan.saved(), plan.probes(), plan.depth()), (1, 1, 8));
    assert_eq!(plan.offsets(), [-8]);
}

#[test]
fn queries_are_the_rows() {
    let (mut plans, mut shared_cells, mut padding) = (0, 0, 0);
    for seed in 1..2_000 {
        let job = random_job(seed);
        let plan = job.share().unwrap();
        plans += 1;
        let (locals, slots) = (job.locals.len(), job.slots.len());
        assert_eq!(plan.items().len(), locals + slots);
        assert_eq!(plan.saved(), locals + slots - plan.cells().len());
        for i in 0..locals as u32 + 2 {
            let row = plan.items()[..locals].get(i as usize);
            assert_eq!(plan.local(i), row.map(|item| item.cell as usize));
            let shared = row.filter(|item| members(&plan, item.cell) > 1).and_then(|_| plan.area(i as usize));
            assert_eq!(plan.shared(i), shared);
        }
        for i in 0..slots as u32 + 2 {
            assert_eq!(plan.slot(i), plan.items().get(locals + i as usize).map(|item| item.cell as usize));
        }
        let crowded: Vec<u32> = (0..slots as u32).filter(|&i| members(&plan, plan.items()[locals + i as usize].cell) > 1).collect();
        assert_eq!(plan.crowded(), crowded);
        shared_cells += plan.saved();
        members_fit_and_do_not_meet(&job, &plan);
        padding += cells_lie_below_one_another(&plan);
    }
    assert_eq!(plans, 1_999);
    assert!(shared_cells > 1_000, "the jobs share too little to show anything: {shared_cells}");
    assert!(padding > 1_000, "the cells need too little padding to show anything: {padding}");
}

/// A cell has room for its members, and no two members' areas have a common point.
fn members_fit_and_do_not_meet(job: &Job, plan: &Plan) {
    let size = |i: usize| match job.locals.get(i) {
        Some(local) => (local.size, local.align),
        None => (job.slots[i - job.locals.len()], job.slots[i - job.locals.len()]),
    };
    for (i, item) in plan.items().iter().enumerate() {
        let cell = plan.cells()[item.cell as usize];
        assert!(size(i).0 <= cell.size && size(i).1 <= cell.align);
        for (j, other) in plan.items().iter().enumerate().skip(i + 1) {
            if other.cell == item.cell {
                let (one, two) = (plan.area(i).unwrap(), plan.area(j).unwrap());
                assert_eq!(ranges::clashes(one, two), Ok(false));
                assert!(!one.iter().any(|r| two.iter().any(|s| r.overlaps(*s))));
            }
        }
    }
}

/// Each cell ends at or below where the one before it starts, starts at a multiple of its alignment, and has less padding above it than its alignment; the last
/// one's start is the depth. How much padding there is.
fn cells_lie_below_one_another(plan: &Plan) -> i64 {
    let (mut depth, mut padding) = (0, 0);
    assert_eq!(plan.offsets().len(), plan.cells().len());
    for (cell, &offset) in plan.cells().iter().zip(plan.offsets()) {
        let (offset, size, align) = (i64::from(offset), i64::from(cell.size), i64::from(cell.align));
        let above = -depth - (offset + size);
        assert!(offset % align == 0 && 0 <= above && above < align);
        depth = -offset;
        padding += above;
    }
    assert_eq!(plan.depth() as i64, depth);
    padding
}

/// Locals without areas, so that each has a cell of its own.
fn alone(locals: &[(u32, u32)]) -> Result<Plan, Refusal> {
    let mut job = Job::new(0, 0);
    job.block(0, 0, 0);
    for &(size, align) in locals {
        job.local(size, align);
    }
    job.share()
}

#[test]
fn offsets() {
    let laid = |locals: &[(u32, u32)]| alone(locals).map(|plan| (plan.offsets().to_vec(), plan.depth()));
    assert_eq!(laid(&[]), Ok((vec![], 0)));
    assert_eq!(laid(&[(8, 8), (4, 4), (8, 8)]), Ok((vec![-8, -16, -20], 20))); // cell 1 is local 2's: alignments fall
    assert_eq!(laid(&[(20, 16), (8, 8)]), Ok((vec![-32, -40], 40))); // 12 bytes of padding
    assert_eq!(laid(&[(12, 8)]), Ok((vec![-16], 16)));
    assert_eq!(laid(&[(0, 8)]), Ok((vec![0], 0))); // no bytes, at the base
    assert_eq!(laid(&[(4, 8), (0, 8), (1, 1)]), Ok((vec![-8, -8, -9], 9))); // one without bytes where another lies
    assert_eq!(laid(&[(2_147_483_647, 1)]), Ok((vec![-2_147_483_647], 2_147_483_647)));
    assert_eq!(laid(&[(0, 2_147_483_648)]), Ok((vec![0], 0)));
}

#[test]
fn offsets_of_fitting_alone() {
    // the second's alignment is no power of two: it may join a cell, and may not open one
    let wants = [Want { size: 8, align: 8, present: 1, first: 0, count: 1 }, Want { size: 20, align: 3, present: 1, first: 1, count: 1 }];
    let areas = [Range::new(0, 0), Range::new(2, 2)];
    let plan = Plan::fit(&wants, &areas, 1, 1).unwrap();
    assert_eq!((plan.cells(), plan.offsets(), plan.depth()), (&[Cell { size: 20, align: 8 }][..], &[-24][..], 24));
    assert_eq!(Plan::fit(&wants, &areas, 1, 0), Err(Refusal { kind: Kind::Align, index: 1 }));
}

#[test]
fn cap_moves_no_cell() {
    let mut plan = alone(&[(12, 16), (8, 8), (4, 4)]).unwrap();
    assert_eq!(plan.offsets(), [-16, -24, -28]);
    plan.cap(8);
    assert_eq!((plan.offsets(), plan.depth()), (&[-16, -24, -28][..], 28));
    assert!(plan.cells().iter().zip(plan.offsets()).all(|(cell, offset)| cell.align <= 8 && offset % cell.align as i32 == 0));
}

#[test]
fn cap_lowers_alignments() {
    let mut plan = Plan::apart(&[Local { size: 24, align: 16 }, Local { size: 3, align: 1 }], &[8, 4]).unwrap();
    assert_eq!((plan.saved(), plan.depth(), plan.crowded(), plan.shared(0)), (0, 39, vec![], None));
    assert_eq!((plan.local(1), plan.slot(1), plan.offsets().len()), (Some(1), Some(3), 0));
    plan.cap(4);
    assert_eq!(plan.cells().iter().map(|cell| (cell.size, cell.align)).collect::<Vec<_>>(), [(24, 4), (3, 1), (8, 4), (4, 4)]);
}

#[test]
fn fitting_alone_by_budget() {
    // three wants whose areas don't clash
    let areas = [Range::new(0, 1), Range::new(2, 3), Range::new(4, 5)];
    let wants: Vec<Want> = (0..3).map(|first| Want { size: 8, align: 8, present: 1, first, count: 1 }).collect();
    let cells = |budget| Plan::fit(&wants, &areas, 0, budget).map(|plan| (plan.cells().len(), plan.probes()));
    assert_eq!((cells(MOST_BUDGET), cells(1), cells(0)), (Ok((1, 2)), Ok((2, 1)), Ok((3, 0))));
}

#[test]
fn an_area_list_grows() {
    // a register that is live in many pieces, kept in a slot: more ranges than the first guess has
    let mut job = Job::new(9_999, 1);
    job.block(0, 0, 9_999);
    for k in 0..2_000 {
        job.piece(0, 5 * k, 5 * k + 1);
    }
    for _ in 0..4 {
        let slot = job.slot(8);
        job.assign(0, slot);
    }
    let plan = job.share().unwrap();
    assert_eq!(plan.areas().len(), 8_000);
    assert_eq!(plan.cells().len(), 4);
    assert_eq!(job.share_within(7_999), Err(Refusal { kind: Kind::List, index: 0 }));
    assert_eq!(job.share_within(8_000), Ok(plan));
}
