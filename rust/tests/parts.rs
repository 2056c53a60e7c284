//! The parts of a job, each by itself: what it answers, and what it refuses.
use slots::*;

/// Three blocks in a line; with the edges given.
fn line(edges: &[(u32, u32)]) -> Job {
    let mut job = Job::new(29, 0);
    for k in 0..3 {
        job.block(k, 10 * k, 10 * k + 9);
    }
    for &(from, to) in edges {
        job.edge(from, to);
    }
    job
}

/// Local 0 is held by register 0, local 1 by none, and local 2 by register 1, which escapes; it ends.
fn held() -> Job {
    let mut job = Job::new(20, 2);
    job.block(0, 0, 19);
    let first = job.inst(Inst::at(0, 2, 3).lea());
    job.operand(true, 0);
    let read = job.inst(Inst::at(0, 4, 5).memory(Some(0), None));
    job.operand(false, 0);
    let second = job.inst(Inst::at(0, 6, 7).lea());
    job.operand(true, 1);
    job.inst(Inst::at(0, 8, 9));
    job.operand(false, 1);
    let last = job.inst(Inst::at(0, 12, 13));
    let locals = [job.local(8, 8), job.local(8, 8), job.local(4, 4)];
    let slots = [job.slot(8), job.slot(8)];
    job.address(first, locals[0]);
    job.address(second, locals[2]);
    job.end(last, locals[2]);
    job.assign(0, slots[1]);
    job.assign(1, slots[1]);
    job.moved(Place::Before(read), Some(slots[0]), None);
    job.moved(Place::End(0), None, Some(slots[0]));
    job
}

#[test]
fn graphs() {
    let job = line(&[(0, 1), (1, 1), (1, 2)]);
    assert_eq!(job.graph().components(), Ok(Components { count: 3, which: vec![2, 1, 0] }));
    assert_eq!(job.graph().settling(), Ok(vec![0, 1, 2]));
    assert_eq!(job.graph().flowed(Over::Predecessors, &[1, 2, 0], 1), Ok(vec![0, 3, 3]));
    assert_eq!(job.graph().flowed(Over::Successors, &[1, 2, 0], 1), Ok(vec![2, 2, 0]));
    assert_eq!(job.graph().spread(&[1, 2, 0], &[0, 0, 0], 1), Ok(vec![0, 3, 2]));
    let loop_job = line(&[(0, 1), (1, 0), (1, 2)]);
    let components = loop_job.graph().components().unwrap();
    assert_eq!((components.count, components.which), (2, vec![1, 1, 0]));
}

#[test]
fn graphs_refused() {
    let job = line(&[(0, 3)]);
    let refusal = Refusal { kind: Kind::Edge, index: 0 };
    assert_eq!(job.graph().components(), Err(refusal));
    assert_eq!(job.graph().settling(), Err(refusal));
    assert_eq!(job.graph().flowed(Over::Successors, &[0, 0], 1), Err(Refusal { kind: Kind::Count, index: 0 }));
    assert_eq!(Job::new(0, 0).graph().components(), Err(Refusal { kind: Kind::Count, index: 0 }));
}

#[test]
fn carried_addresses() {
    let job = held();
    assert_eq!(job.reach(), Ok(vec![Followed::Plain, Followed::No, Followed::Ending]));
    let carried: Vec<_> = (0..4).map(|local| job.carried(local).unwrap()).collect();
    assert_eq!(carried, [Some(vec![0]), Some(vec![]), Some(vec![1]), None]);
    let mut stray = held();
    stray.addresses[1].inst = 5;
    assert_eq!(stray.reach(), Err(Refusal { kind: Kind::Stray, index: 1 }));
    assert_eq!(stray.carried(0), Err(Refusal { kind: Kind::Stray, index: 1 }));
}

#[test]
fn slots_and_their_moves() {
    let job = held();
    assert_eq!(job.move_ranges(0), Ok(vec![Range::new(3, 5), Range::new(18, 20)]));
    assert_eq!(job.move_ranges(1), Ok(vec![]));
    assert_eq!(job.spilled(), Ok(vec![None, Some(1)]));
    let mut bad = held();
    bad.assigned[0].register = 2;
    bad.moves[1].kind = 4;
    assert_eq!(bad.spilled(), Err(Refusal { kind: Kind::Piece, index: 0 }));
    assert_eq!(bad.move_ranges(0), Err(Refusal { kind: Kind::Stray, index: 1 }));
}

#[test]
fn areas_are_the_plan_s() {
    let job = held();
    let (areas, plan) = (job.item_areas().unwrap(), job.share().unwrap());
    assert_eq!(areas.items.len(), 5);
    for item in 0..6 {
        assert_eq!(areas.area(item), plan.area(item));
    }
}

#[test]
fn areas_of_locals() {
    let job = line(&[(0, 1), (1, 2)]);
    let area = |followed, end| {
        let touches = [Touch { local: 0, start: 12, end: 13 }];
        let areas = job.graph().local_areas(&[followed], &touches, &[LocalEnd { local: 0, point: end }]).unwrap();
        areas.area(0).map(<[Range]>::to_vec)
    };
    assert_eq!(area(Followed::Plain, 15), Some(vec![Range::new(12, 13)]));
    assert_eq!(area(Followed::Ending, 15), Some(vec![Range::new(12, 15)]));
    assert_eq!(area(Followed::Ending, 12), Some(vec![Range::new(12, 29)]));
    assert_eq!(area(Followed::No, 15), None);
    for (start, end) in [(2, 1), (28, 30)] {
        let touches = [Touch { local: 0, start: 2, end: 3 }, Touch { local: 7, start, end }];
        assert_eq!(job.graph().local_areas(&[Followed::Plain], &touches, &[]).map(drop), Err(Refusal { kind: Kind::Piece, index: 1 }));
    }
}
