//! The entries of spill slots: `moved` and `spilled`.
use crate::calls::{about, about_rows, Called, Room, Wanted};
use crate::cases::Random;
use crate::job::*;
use crate::random::records;
use crate::refusals;
use crate::spills::{covered, held, MOVED};

extern "C" {
    fn slots_moved(
        points: u32, v: u32, blocks: *const u32, blocks_len: usize, insts: *const u32, insts_len: usize, operands: *const u32, operands_len: usize,
        moves: *const u32, moves_len: usize, slot: u32, out: *mut u32, out_len: usize, work: *mut u64, work_len: usize,
    ) -> u64;
    fn slots_spilled(
        v: u32, slots: u32, assigned: *const u32, assigned_len: usize, registers: *mut u32, registers_len: usize, work: *mut u64, work_len: usize,
    ) -> u64;
}

fn refused((number, index): (u32, u32)) -> Wanted {
    Wanted::Refused(number, index)
}

/// A move covers a range for each of its two slots, so there are no more than twice as many ranges as moves.
pub fn moved(r: &mut Random) -> usize {
    let job = records(r, 6, &MOVED, true);
    let slot = if r.one_in(10) { u32::MAX - r.below(2) } else { r.below(4) };
    let most = 2 * job.count(MOVES);
    let (list, w) = (about_rows(r, most, 2), space(&job, 0));
    let work = about(r, w);
    let short = [list / 2 < most, work < w];
    let g = &job.groups;
    // SAFETY: here and below each pointer is a slice's, with that slice's length.
    let called = Called::new(Room::any(r, &[list], 0, work), |l| unsafe {
        slots_moved(
            job.points, job.v, g[BLOCKS].as_ptr(), g[BLOCKS].len(), g[INSTS].as_ptr(), g[INSTS].len(), g[OPERANDS].as_ptr(), g[OPERANDS].len(),
            g[MOVES].as_ptr(), g[MOVES].len(), slot, l.lists[0].as_mut_ptr(), l.lists[0].len(), l.work.as_mut_ptr(), l.work.len(),
        )
    });
    let wanted = refusals::records(&job, list % 2 != 0).or_else(|| refusals::space(&short)).map_or_else(
        || {
            let ranges = covered(&job, slot);
            Wanted::Given(ranges.len() as u64 / 2, vec![ranges], Vec::new())
        },
        refused,
    );
    called.hold(wanted, w, &(&job, slot))
}

pub fn spilled(r: &mut Random) -> usize {
    let mut job = records(r, 6, &[ASSIGNED, SLOTS], true);
    let slots = if r.one_in(20) { [2048, 2049, u32::MAX][r.below(3) as usize] } else { job.groups[SLOTS].len() as u32 + r.below(3) };
    job.groups[SLOTS].clear();
    let count = slots as usize;
    let (list, w) = (about(r, count.min(4000)), space(&job, 0));
    let work = about(r, w);
    let a = &job.groups[ASSIGNED];
    let called = Called::new(Room::any(r, &[list], 0, work), |l| unsafe {
        slots_spilled(job.v, slots, a.as_ptr(), a.len(), l.lists[0].as_mut_ptr(), l.lists[0].len(), l.work.as_mut_ptr(), l.work.len())
    });
    let wanted = refusals::assignments(&job, count > refusals::LIMITS[SLOTS])
        .or_else(|| refusals::space(&[list < count, work < w]))
        .map_or_else(|| Wanted::Given(count as u64, vec![held(&job, count)], Vec::new()), refused);
    called.hold(wanted, w, &(&job, slots))
}
