//! Each refusal that a job, a lent plan or a list of ranges can get, and that it changes nothing.
use slots::*;

/// Two locals and two slots, all records in order.
fn sound() -> Job {
    let mut job = Job::new(39, 3);
    job.block(1, 0, 19);
    job.block(0, 20, 39);
    job.edge(1, 0);
    let first = job.inst(Inst::at(1, 2, 3));
    let second = job.inst(Inst::at(0, 24, 25).lea());
    job.operand(true, 0);
    job.inst(Inst::at(0, 26, 27).memory(Some(0), None));
    job.operand(false, 0);
    job.inst(Inst::unplaced());
    job.crossing(2);
    let (a, b) = (job.local(8, 8), job.local(4, 4));
    let (s, t) = (job.slot(8), job.slot(4));
    job.address(first, a);
    job.address(second, b);
    job.end(second, a);
    job.piece(0, 25, 30);
    job.piece(1, 4, 6);
    job.assign(1, s);
    job.moved(Place::After(first), Some(s), None);
    job.moved(Place::End(0), None, Some(t));
    job
}

/// What a change makes of the sound job: its refusal, with the answer lists as they were, and the work space too unless the areas were measured.
fn refused(kind: Kind, index: u32, change: impl Fn(&mut Job)) {
    let mut job = sound();
    change(&mut job);
    let rows = job.items() + 1;
    refused_in(&job, kind, index, [rows; 3], 64, job.work_words(64) as usize + 3);
    assert_eq!(job.share().map(drop), Err(Refusal { kind, index }));
}

/// The same of a job in room for so many cells, items and offsets, ranges and words.
fn refused_in(job: &Job, kind: Kind, index: u32, [cells, items, offsets]: [usize; 3], ranges: usize, words: usize) {
    let (cell, item, range) = (Cell { size: 7, align: 8 }, Item { cell: 9, present: 10, first: 11, count: 12 }, Range { start: 13, end: 14 });
    let (mut cells, mut items, mut areas, mut work) = (vec![cell; cells], vec![item; items], vec![range; ranges], vec![15; words]);
    let mut offsets = vec![16; offsets];
    let answer = job.share_into(&mut cells, &mut items, &mut areas, &mut offsets, &mut work);
    assert_eq!(answer, Err(Refusal { kind, index }));
    assert!(cells.iter().all(|c| *c == cell) && items.iter().all(|i| *i == item) && areas.iter().all(|r| *r == range) && offsets.iter().all(|o| *o == 16));
    let zero = if [Kind::List, Kind::Align, Kind::Depth].contains(&kind) { job.work_words(ranges) as usize } else { 0 };
    assert!(work[..zero].iter().all(|w| *w == 0) && work[zero..].iter().all(|w| *w == 15));
}

#[test]
fn the_sound_job_has_a_plan() {
    let plan = sound().share().unwrap();
    assert_eq!(plan.items().len(), 4);
}

#[test]
fn offsets_past_the_cells_stay_as_they_were() {
    let job = sound();
    let (mut cells, mut items, mut areas, mut offsets) = ([Cell::default(); 4], [Item::default(); 4], [Range::default(); 64], [16; 5]);
    let counts = job.share_into(&mut cells, &mut items, &mut areas, &mut offsets, &mut vec![15; job.work_words(64) as usize]);
    assert_eq!(counts.map(|counts| (counts.cells, counts.depth)), Ok((2, 16)));
    assert_eq!(offsets, [-8, -16, 16, 16, 16]);
}

#[test]
fn count() {
    refused(Kind::Count, 0, |job| job.blocks.clear());
    refused(Kind::Count, 0, |job| job.budget = MOST_BUDGET + 1);
    refused(Kind::Count, 0, |job| job.v = 65_536);
    refused(Kind::Count, 0, |job| job.locals.resize(2_049, Local::default()));
    refused(Kind::Count, 0, |job| job.insts[3].operands = 1);
    refused(Kind::Count, 0, |job| job.blocks.resize(4_097, Block::default()));
}

#[test]
fn line() {
    refused(Kind::Line, 1, |job| job.blocks[1].number = 1);
    refused(Kind::Line, 0, |job| job.blocks[0].number = 2);
    refused(Kind::Line, 1, |job| job.blocks[1].start = 21);
    refused(Kind::Line, 1, |job| job.blocks[1].end = 40);
}

#[test]
fn edge() {
    refused(Kind::Edge, 0, |job| job.edges[0].to = 2);
}

#[test]
fn inst() {
    refused(Kind::Inst, 0, |job| job.insts[0].late = 1);
    refused(Kind::Inst, 1, |job| job.insts[1].block = 7);
    refused(Kind::Inst, 2, |job| job.insts[2].base = 257);
    refused(Kind::Inst, 1, |job| job.operands[0].register = 3 + 256);
    refused(Kind::Inst, 0, |job| job.crossings[0] = 3 + 256);
}

#[test]
fn stray() {
    refused(Kind::Stray, 1, |job| job.addresses[1].inst = 3);
    refused(Kind::Stray, 0, |job| job.ends[0].inst = 4);
    refused(Kind::Stray, 1, |job| job.moves[1].kind = 4);
    refused(Kind::Stray, 1, |job| job.moves[1].number = 2);
}

#[test]
fn piece() {
    refused(Kind::Piece, 0, |job| job.pieces[0].register = 3);
    refused(Kind::Piece, 1, |job| job.pieces[1].end = 3);
    refused(Kind::Piece, 0, |job| job.assigned[0].register = 3);
}

#[test]
fn space() {
    let job = sound();
    let words = job.work_words(64) as usize;
    refused_in(&job, Kind::Space, 0, [4, 4, 4], 64, words - 1);
    refused_in(&job, Kind::Space, 0, [3, 4, 4], 64, words);
    refused_in(&job, Kind::Space, 0, [4, 3, 4], 64, words);
    refused_in(&job, Kind::Space, 0, [4, 4, 3], 64, words); // the plan has two cells, and there are four items
}

#[test]
fn list() {
    let job = sound();
    refused_in(&job, Kind::List, 0, [4, 4, 4], 1, job.work_words(1) as usize + 1);
    assert_eq!(job.share_within(1), Err(Refusal { kind: Kind::List, index: 0 }));
}

#[test]
fn align() {
    refused(Kind::Align, 0, |job| job.locals[0].align = 12);
    // with no budget each item has a cell, the largest alignment first
    refused(Kind::Align, 3, |job| (job.budget, job.slots[1]) = (0, 3));
    refused(Kind::Align, 3, |job| (job.budget, job.locals[1].align) = (0, 0));
    let mut job = sound();
    job.slots[1] = 3; // it joins a cell of alignment 8
    assert_eq!(job.share().map(|plan| (plan.slot(1), plan.cells()[0].align)), Ok((Some(0), 8)));
    job.locals[0].align = 12; // after 9
    refused_in(&job, Kind::List, 0, [4, 4, 4], 1, job.work_words(1) as usize);
}

#[test]
fn depth() {
    refused(Kind::Depth, 0, |job| job.locals[0].size = 1 << 31);
    refused(Kind::Depth, 1, |job| job.locals[0].size = (1 << 31) - 8);
    refused(Kind::Depth, 0, |job| job.locals[0].align = 1 << 31); // rounded up
    let mut job = sound();
    job.locals[0].size = (1 << 31) - 16;
    assert_eq!(job.share().map(|plan| plan.offsets().to_vec()), Ok(vec![-(i32::MAX - 15), -(i32::MAX - 7)]));
    // 12 of any cell comes before 13 of any
    refused(Kind::Align, 3, |job| (job.budget, job.locals[0].size, job.slots[1]) = (0, 1 << 31, 3));
}

#[test]
fn want_of_a_lent_plan() {
    let plan = sound().share().unwrap();
    let mut items = plan.items().to_vec();
    items[2].cell = plan.cells().len() as u32;
    let lent = Lent { items: &items, ..plan.lent() };
    let refusal = Refusal { kind: Kind::Want, index: 2 };
    assert_eq!(lent.local(0), Err(refusal));
    assert_eq!(lent.slot(0), Err(refusal));
    assert_eq!(lent.shared(0), Err(refusal));
    assert_eq!(lent.crowded(), Err(refusal));
    assert_eq!(lent.saved(), Err(refusal));
    let cells = [Cell::default(); 5];
    assert_eq!(Lent { cells: &cells, ..plan.lent() }.saved(), Err(Refusal { kind: Kind::Want, index: 4 }));
    assert_eq!(Lent { areas: &[], ..plan.lent() }.shared(0).map(drop), Err(Refusal { kind: Kind::Want, index: 0 }));
    assert_eq!(Lent { locals: 5, ..plan.lent() }.saved(), Err(Refusal { kind: Kind::Count, index: 0 }));
}

#[test]
fn want_of_fitting_alone() {
    let wants = [Want { size: 8, align: 8, present: 0, first: 0, count: 0 }, Want { size: 8, align: 8, present: 1, first: 0, count: 2 }];
    assert_eq!(Plan::fit(&wants, &[Range::new(1, 2)], 0, 9), Err(Refusal { kind: Kind::Want, index: 1 }));
    assert_eq!(Plan::fit(&wants, &[Range::new(3, 4), Range::new(1, 2)], 0, 9), Err(Refusal { kind: Kind::Want, index: 1 }));
    assert_eq!(Plan::fit(&wants, &[], 3, 9), Err(Refusal { kind: Kind::Count, index: 0 }));
}

#[test]
fn want_of_ranges() {
    let (up, down) = (Range::new(1, 2), Range::new(2, 1));
    assert_eq!(ranges::merged(&[up, down]), Err(Refusal { kind: Kind::Want, index: 1 }));
    assert_eq!(ranges::joined(&[up], down), Err(Refusal { kind: Kind::Want, index: 1 }));
    assert_eq!(ranges::union(&[up], &[up, up]), Err(Refusal { kind: Kind::Want, index: 2 }));
    assert_eq!(ranges::clashes(&[down], &[]), Err(Refusal { kind: Kind::Want, index: 0 }));
    assert_eq!(ranges::merged(&vec![up; 65_537]), Err(Refusal { kind: Kind::Count, index: 0 }));
}

#[test]
fn said_in_words() {
    let mut job = sound();
    job.edges[0].from = 9;
    let refusal = job.share().unwrap_err();
    assert_eq!((refusal.number(), refusal.word(), refusal.index), (3, "edge", 0));
    assert_eq!(refusal.to_string(), "refusal 3 (edge) at 0: an edge names no block");
    let deep = Refusal { kind: Kind::Depth, index: 1 };
    assert_eq!(deep.to_string(), "refusal 13 (depth) at 1: a cell's depth, padding counted, is over 2,147,483,647");
    let error: Box<dyn std::error::Error> = refusal.into();
    assert!(error.source().is_none());
}
