//! The component's entries: a slice is a pointer and then its length.
use crate::jobs::Job;
use crate::whole::Lists;

extern "C" {
    fn slots_flowed(
        over: u32, blocks: *const u32, blocks_len: usize, edges: *const u32, edges_len: usize, points: u32,
        touched: *const u64, touched_len: usize, words: usize, out: *mut u64, out_len: usize, work: *mut u64, work_len: usize,
    ) -> u64;
    fn slots_spread(
        blocks: *const u32, blocks_len: usize, edges: *const u32, edges_len: usize, points: u32, leaves: *const u64, leaves_len: usize,
        passes: *const u64, passes_len: usize, words: usize, out: *mut u64, out_len: usize, work: *mut u64, work_len: usize,
    ) -> u64;
    fn slots_fit_wants(
        wants: *const u32, wants_len: usize, areas: *const u32, areas_len: usize, locals: u32, budget: u32, cells: *mut u32, cells_len: usize,
        items: *mut u32, items_len: usize, offsets: *mut i32, offsets_len: usize, counts: *mut u64, counts_len: usize, work: *mut u64, work_len: usize,
    ) -> u64;
    fn slots_share(
        points: u32, v: u32, budget: u32, blocks: *const u32, blocks_len: usize, edges: *const u32, edges_len: usize, insts: *const u32, insts_len: usize,
        operands: *const u32, operands_len: usize, crossings: *const u32, crossings_len: usize, locals: *const u32, locals_len: usize,
        slots: *const u32, slots_len: usize, addresses: *const u32, addresses_len: usize, ends: *const u32, ends_len: usize,
        pieces: *const u32, pieces_len: usize, assigned: *const u32, assigned_len: usize, moves: *const u32, moves_len: usize,
        cells: *mut u32, cells_len: usize, items: *mut u32, items_len: usize, areas: *mut u32, areas_len: usize,
        offsets: *mut i32, offsets_len: usize, counts: *mut u64, counts_len: usize, work: *mut u64, work_len: usize,
    ) -> u64;
}

pub fn flowed(over: u32, blocks: &[u32], edges: &[u32], points: u32, touched: &[u64], words: usize, out: &mut [u64], work: &mut [u64]) -> u64 {
    // SAFETY: each pointer is a slice's, with that slice's length.
    unsafe {
        slots_flowed(
            over, blocks.as_ptr(), blocks.len(), edges.as_ptr(), edges.len(), points, touched.as_ptr(), touched.len(), words,
            out.as_mut_ptr(), out.len(), work.as_mut_ptr(), work.len(),
        )
    }
}

#[allow(clippy::too_many_arguments)]
pub fn spread(blocks: &[u32], edges: &[u32], points: u32, leaves: &[u64], passes: &[u64], words: usize, out: &mut [u64], work: &mut [u64]) -> u64 {
    // SAFETY: as above.
    unsafe {
        slots_spread(
            blocks.as_ptr(), blocks.len(), edges.as_ptr(), edges.len(), points, leaves.as_ptr(), leaves.len(), passes.as_ptr(), passes.len(),
            words, out.as_mut_ptr(), out.len(), work.as_mut_ptr(), work.len(),
        )
    }
}

/// Fitting alone, which is lent its areas: `areas` of the lists is not.
pub fn fit_wants(wants: &[u32], areas: &[u32], locals: u32, budget: u32, l: &mut Lists) -> u64 {
    // SAFETY: as above.
    unsafe {
        slots_fit_wants(
            wants.as_ptr(), wants.len(), areas.as_ptr(), areas.len(), locals, budget, l.cells.as_mut_ptr(), l.cells.len(), l.items.as_mut_ptr(), l.items.len(),
            l.offsets.as_mut_ptr(), l.offsets.len(), l.counts.as_mut_ptr(), l.counts.len(), l.work.as_mut_ptr(), l.work.len(),
        )
    }
}

pub fn share(job: &Job, lists: &mut Lists) -> u64 {
    // SAFETY: as above.
    unsafe {
        slots_share(
            job.points, job.v, job.budget, job.blocks.as_ptr(), job.blocks.len(), job.edges.as_ptr(), job.edges.len(), job.insts.as_ptr(), job.insts.len(),
            job.operands.as_ptr(), job.operands.len(), job.crossings.as_ptr(), job.crossings.len(), job.locals.as_ptr(), job.locals.len(),
            job.slots.as_ptr(), job.slots.len(), job.addresses.as_ptr(), job.addresses.len(), job.ends.as_ptr(), job.ends.len(),
            job.pieces.as_ptr(), job.pieces.len(), job.assigned.as_ptr(), job.assigned.len(), job.moves.as_ptr(), job.moves.len(),
            lists.cells.as_mut_ptr(), lists.cells.len(), lists.items.as_mut_ptr(), lists.items.len(), lists.areas.as_mut_ptr(), lists.areas.len(),
            lists.offsets.as_mut_ptr(), lists.offsets.len(), lists.counts.as_mut_ptr(), lists.counts.len(), lists.work.as_mut_ptr(), lists.work.len(),
        )
    }
}
