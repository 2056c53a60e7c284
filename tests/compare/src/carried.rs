//! The entries that follow addresses: `reach` and `carried`.
use crate::calls::{about, Called, Room, Wanted};
use crate::carry::{kinds, registers, GROUPS};
use crate::cases::Random;
use crate::job::*;
use crate::random::records;
use crate::refusals;

extern "C" {
    fn slots_reach(
        points: u32, v: u32, blocks: *const u32, blocks_len: usize, insts: *const u32, insts_len: usize, operands: *const u32, operands_len: usize,
        crossings: *const u32, crossings_len: usize, locals: *const u32, locals_len: usize, addresses: *const u32, addresses_len: usize,
        ends: *const u32, ends_len: usize, kinds: *mut u32, kinds_len: usize, work: *mut u64, work_len: usize,
    ) -> u64;
    fn slots_carried(
        points: u32, v: u32, blocks: *const u32, blocks_len: usize, insts: *const u32, insts_len: usize, operands: *const u32, operands_len: usize,
        crossings: *const u32, crossings_len: usize, locals: *const u32, locals_len: usize, addresses: *const u32, addresses_len: usize,
        ends: *const u32, ends_len: usize, local: u32, registers: *mut u32, registers_len: usize, work: *mut u64, work_len: usize,
    ) -> u64;
}

/// The refusals of both: numbers 1, 2, 4 and 5, then 7 where the answer list is shorter than what it must have room for.
fn refused(job: &Job, room: &Room, most: usize) -> Option<Wanted> {
    let short = [room.lists[0].len() < most, room.work.len() < space(job, 0)];
    refusals::records(job, false).or_else(|| refusals::space(&short)).map(|(number, index)| Wanted::Refused(number, index))
}

fn room(r: &mut Random, job: &Job, most: usize) -> Room {
    let (list, work) = (about(r, most), about(r, space(job, 0)));
    Room::any(r, &[list], 0, work)
}

pub fn reach(r: &mut Random) -> usize {
    let job = records(r, 6, &GROUPS, true);
    let room = room(r, &job, job.count(LOCALS));
    let refused = refused(&job, &room, job.count(LOCALS));
    let g = &job.groups;
    // SAFETY: here and below each pointer is a slice's, with that slice's length.
    let called = Called::new(room, |l| unsafe {
        slots_reach(
            job.points, job.v, g[BLOCKS].as_ptr(), g[BLOCKS].len(), g[INSTS].as_ptr(), g[INSTS].len(), g[OPERANDS].as_ptr(), g[OPERANDS].len(),
            g[CROSSINGS].as_ptr(), g[CROSSINGS].len(), g[LOCALS].as_ptr(), g[LOCALS].len(), g[ADDRESSES].as_ptr(), g[ADDRESSES].len(),
            g[ENDS].as_ptr(), g[ENDS].len(), l.lists[0].as_mut_ptr(), l.lists[0].len(), l.work.as_mut_ptr(), l.work.len(),
        )
    });
    let wanted = refused.unwrap_or_else(|| Wanted::Given(job.count(LOCALS) as u64, vec![kinds(&job)], Vec::new()));
    called.hold(wanted, space(&job, 0), &job)
}

/// A register carries an address because an instruction defines it, so there are no more than registers, and no more than instructions.
pub fn carried(r: &mut Random) -> usize {
    let job = records(r, 6, &GROUPS, true);
    let most = (job.v as usize).min(job.count(INSTS));
    let room = room(r, &job, most);
    let refused = refused(&job, &room, most);
    let locals = job.count(LOCALS);
    let local = if r.one_in(40) { r.number() | 1 << 31 } else { r.below(locals as u32 + 2) };
    let g = &job.groups;
    let called = Called::new(room, |l| unsafe {
        slots_carried(
            job.points, job.v, g[BLOCKS].as_ptr(), g[BLOCKS].len(), g[INSTS].as_ptr(), g[INSTS].len(), g[OPERANDS].as_ptr(), g[OPERANDS].len(),
            g[CROSSINGS].as_ptr(), g[CROSSINGS].len(), g[LOCALS].as_ptr(), g[LOCALS].len(), g[ADDRESSES].as_ptr(), g[ADDRESSES].len(),
            g[ENDS].as_ptr(), g[ENDS].len(), local, l.lists[0].as_mut_ptr(), l.lists[0].len(), l.work.as_mut_ptr(), l.work.len(),
        )
    });
    let wanted = refused.unwrap_or_else(|| {
        if local as usize >= locals {
            return Wanted::Absent;
        }
        // of a local that is lost slots.rs says nothing: then only that they rise and are registers
        let numbers = registers(&job)[local as usize].clone().unwrap_or_else(|| {
            let given = called.after.front(0, (called.answer as usize).min(most));
            assert!(given.windows(2).all(|two| two[0] < two[1]) && given.iter().all(|&n| n < job.v), "local {local}: {given:?} on {job:?}");
            given
        });
        Wanted::Given(numbers.len() as u64, vec![numbers], Vec::new())
    });
    called.hold(wanted, space(&job, 0), &(&job, local))
}
