//! The entries of areas: `local_areas` over touches and ends that are lent by themselves, `item_areas` over a job's records.
use crate::areas::{some, Lent, ENDS, KINDS, TOUCHES, WIDTHS};
use crate::calls::{about, about_rows, Called, Room, Wanted};
use crate::cases::Random;
use crate::job::{space, Job, BLOCKS, EDGES};
use crate::plans::{areas, ranges, rows, Areas};
use crate::random::records;
use crate::refusals;

extern "C" {
    fn slots_local_areas(
        blocks: *const u32, blocks_len: usize, edges: *const u32, edges_len: usize, points: u32, kinds: *const u32, kinds_len: usize,
        touches: *const u32, touches_len: usize, ends: *const u32, ends_len: usize, areas: *mut u32, areas_len: usize, items: *mut u32, items_len: usize,
        work: *mut u64, work_len: usize,
    ) -> u64;
    fn slots_item_areas(
        points: u32, v: u32, blocks: *const u32, blocks_len: usize, edges: *const u32, edges_len: usize, insts: *const u32, insts_len: usize,
        operands: *const u32, operands_len: usize, crossings: *const u32, crossings_len: usize, locals: *const u32, locals_len: usize,
        slots: *const u32, slots_len: usize, addresses: *const u32, addresses_len: usize, ends: *const u32, ends_len: usize,
        pieces: *const u32, pieces_len: usize, assigned: *const u32, assigned_len: usize, moves: *const u32, moves_len: usize,
        areas: *mut u32, areas_len: usize, items: *mut u32, items_len: usize, work: *mut u64, work_len: usize,
    ) -> u64;
}

/// What is answered where the records are not refused: 9 where the areas exceed their list.
fn answer(areas: &Areas, room: usize) -> Wanted {
    if ranges(areas) > room / 2 {
        return Wanted::Refused(9, 0);
    }
    let lists: [Vec<u32>; 2] = rows(areas);
    Wanted::Given(ranges(areas) as u64, lists.to_vec(), Vec::new())
}

/// The most that `local_areas` may be lent of kinds, touches and ends.
const LIMITS: [(usize, usize); 3] = [(KINDS, 2048), (TOUCHES, 65536), (ENDS, 65536)];

/// Number 6: the first touch that is reversed or has a point in no block, whoever's it is: one has none where as many of its points lie in blocks as it has.
fn outside(lent: &Lent) -> Option<(u32, u32)> {
    let shared = |b: &[u32], touch: &[u32]| (u64::from(b[2].min(touch[2])) + 1).saturating_sub(u64::from(b[1].max(touch[1])));
    let within = |touch: &[u32]| touch[1] <= touch[2] && lent.rows(BLOCKS).map(|b| shared(b, touch)).sum::<u64>() == u64::from(touch[2] - touch[1]) + 1;
    lent.rows(TOUCHES).position(|touch| !within(touch)).map(|touch| (6, touch as u32))
}

/// Numbers 1 to 7: 2 and 3 by the blocks and edges, 4 a kind over 2, at its local, 6 a touch, at that touch.
fn refused(lent: &Lent, lists: [usize; 2], work: usize) -> Option<(u32, u32)> {
    let mut graph = Job { points: lent.points, ..Job::default() };
    [BLOCKS, EDGES].into_iter().for_each(|group| graph.groups[group] = lent.groups[group].clone());
    let cut = (0..5).any(|group| lent.groups[group].len() % WIDTHS[group] != 0) || lists[1] % 3 != 0 || refusals::area_list(lists[0]);
    let over = LIMITS.iter().any(|&(group, most)| lent.count(group) > most);
    let kind = || lent.groups[KINDS].iter().position(|&kind| kind > 2).map(|local| (4, local as u32));
    let short = [work < lent.space(lists[0]), lists[1] / 3 < lent.locals()];
    refusals::records(&graph, cut || over).or_else(kind).or_else(|| outside(lent)).or_else(|| refusals::space(&short))
}

/// One touch reversed by a point or two, or moved to the first or the last point of the blocks, or past it.
fn stray(r: &mut Random, lent: &mut Lent) {
    let (low, high) = (lent.groups[BLOCKS][1], lent.groups[BLOCKS][lent.groups[BLOCKS].len() - 1]);
    let count = lent.count(TOUCHES) as u32;
    if count == 0 {
        return;
    }
    let at = 3 * r.below(count) as usize;
    let touch = &mut lent.groups[TOUCHES][at..at + 3];
    match r.below(3) {
        0 => touch[1] = touch[2].saturating_add(1 + r.below(2)),
        1 => touch[1] = low.wrapping_sub(r.below(3)),
        _ => touch[2] = high.saturating_add(r.below(3)),
    }
}

fn damage(r: &mut Random, lent: &mut Lent) {
    let group = r.below(5) as usize;
    let list = &mut lent.groups[group];
    let any = |r: &mut Random| match r.below(6) {
        0 => r.number(),
        1 => u32::MAX,
        2 => 3,
        _ => r.below(40),
    };
    if list.is_empty() || r.one_in(8) {
        lent.points = any(r);
        return;
    }
    let at = r.below(list.len() as u32) as usize;
    match r.below(6) {
        0..=2 => list[at] = any(r),
        3 => list[at] = list[at].wrapping_add(1),
        4 => list.swap(at, 0),
        _ => drop(list.pop()),
    }
}

pub fn local_areas(r: &mut Random) -> usize {
    let mut lent = some(r);
    if r.one_in(4) {
        stray(r, &mut lent);
    }
    if r.below(5) < 2 {
        (0..1 + r.below(3)).for_each(|_| damage(r, &mut lent));
    }
    let items = about_rows(r, lent.locals(), 3);
    let wide = if r.one_in(8) { r.below(4) as usize } else { 30 + r.below(20) as usize };
    let list = about_rows(r, wide, 2);
    let w = lent.space(list);
    let work = about(r, w);
    let [b, e, k, t, n] = &lent.groups;
    let refused = refused(&lent, [list, items], work);
    // SAFETY: here and below each pointer is a slice's, with that slice's length.
    let called = Called::new(Room::any(r, &[list, items], 0, work), |l| unsafe {
        let [areas, items] = &mut l.lists[..] else { unreachable!() };
        slots_local_areas(
            b.as_ptr(), b.len(), e.as_ptr(), e.len(), lent.points, k.as_ptr(), k.len(), t.as_ptr(), t.len(), n.as_ptr(), n.len(),
            areas.as_mut_ptr(), areas.len(), items.as_mut_ptr(), items.len(), l.work.as_mut_ptr(), l.work.len(),
        )
    });
    let wanted = match refused {
        Some((number, index)) => Wanted::Refused(number, index),
        None => answer(&lent.areas(), list),
    };
    called.hold(wanted, w, &lent)
}

pub fn item_areas(r: &mut Random) -> usize {
    let job = records(r, 6, &std::array::from_fn::<usize, 12, _>(|group| group), true);
    let items = about_rows(r, job.items(), 3);
    let wide = if r.one_in(8) { r.below(4) as usize } else { 40 + r.below(20) as usize };
    let list = about_rows(r, wide, 2);
    let w = space(&job, list);
    let work = about(r, w);
    let g = &job.groups;
    let called = Called::new(Room::any(r, &[list, items], 0, work), |l| unsafe {
        let [areas, items] = &mut l.lists[..] else { unreachable!() };
        slots_item_areas(
            job.points, job.v, g[0].as_ptr(), g[0].len(), g[1].as_ptr(), g[1].len(), g[2].as_ptr(), g[2].len(), g[3].as_ptr(), g[3].len(),
            g[4].as_ptr(), g[4].len(), g[5].as_ptr(), g[5].len(), g[6].as_ptr(), g[6].len(), g[7].as_ptr(), g[7].len(), g[8].as_ptr(), g[8].len(),
            g[9].as_ptr(), g[9].len(), g[10].as_ptr(), g[10].len(), g[11].as_ptr(), g[11].len(),
            areas.as_mut_ptr(), areas.len(), items.as_mut_ptr(), items.len(), l.work.as_mut_ptr(), l.work.len(),
        )
    });
    let short = [work < w, items / 3 < job.items()];
    let wanted = match refusals::records(&job, items % 3 != 0 || refusals::area_list(list)).or_else(|| refusals::space(&short)) {
        Some((number, index)) => Wanted::Refused(number, index),
        None => answer(&areas(&job), list),
    };
    called.hold(wanted, w, &job)
}
