//! The component's entries for whole jobs and for fitting alone, through the static library: a slice is a pointer and then its length.
use crate::job::*;

extern "C" {
    fn slots_share(
        points: u32, v: u32, budget: u32,
        blocks: *const u32, blocks_len: usize, edges: *const u32, edges_len: usize, insts: *const u32, insts_len: usize,
        operands: *const u32, operands_len: usize, crossings: *const u32, crossings_len: usize, locals: *const u32, locals_len: usize,
        slots: *const u32, slots_len: usize, addresses: *const u32, addresses_len: usize, ends: *const u32, ends_len: usize,
        pieces: *const u32, pieces_len: usize, assigned: *const u32, assigned_len: usize, moves: *const u32, moves_len: usize,
        cells: *mut u32, cells_len: usize, items: *mut u32, items_len: usize, areas: *mut u32, areas_len: usize,
        offsets: *mut i32, offsets_len: usize, counts: *mut u64, counts_len: usize, work: *mut u64, work_len: usize,
    ) -> u64;
    fn slots_fit_wants(
        wants: *const u32, wants_len: usize, areas: *const u32, areas_len: usize, locals: u32, budget: u32, cells: *mut u32, cells_len: usize,
        items: *mut u32, items_len: usize, offsets: *mut i32, offsets_len: usize, counts: *mut u64, counts_len: usize, work: *mut u64, work_len: usize,
    ) -> u64;
}

/// The lists that are lent for the answer, and the work space.
#[derive(Clone, Debug, PartialEq)]
pub struct Lists {
    pub cells: Vec<u32>,
    pub items: Vec<u32>,
    pub areas: Vec<u32>,
    pub offsets: Vec<i32>,
    pub counts: Vec<u64>,
    pub work: Vec<u64>,
}

/// 0 for a plan, or a refusal's number times 2 to the 32 plus its index.
pub fn share(job: &Job, l: &mut Lists) -> u64 {
    let g = &job.groups;
    // SAFETY: each pointer is a slice's, with that slice's length.
    unsafe {
        slots_share(
            job.points, job.v, job.budget,
            g[0].as_ptr(), g[0].len(), g[1].as_ptr(), g[1].len(), g[2].as_ptr(), g[2].len(), g[3].as_ptr(), g[3].len(),
            g[4].as_ptr(), g[4].len(), g[5].as_ptr(), g[5].len(), g[6].as_ptr(), g[6].len(), g[7].as_ptr(), g[7].len(),
            g[8].as_ptr(), g[8].len(), g[9].as_ptr(), g[9].len(), g[10].as_ptr(), g[10].len(), g[11].as_ptr(), g[11].len(),
            l.cells.as_mut_ptr(), l.cells.len(), l.items.as_mut_ptr(), l.items.len(), l.areas.as_mut_ptr(), l.areas.len(),
            l.offsets.as_mut_ptr(), l.offsets.len(), l.counts.as_mut_ptr(), l.counts.len(), l.work.as_mut_ptr(), l.work.len(),
        )
    }
}

/// Fitting alone, which is lent its areas: `areas` of the lists is not.
pub fn fit_wants(wants: &[u32], areas: &[u32], locals: u32, budget: u32, l: &mut Lists) -> u64 {
    // SAFETY: as above.
    unsafe {
        slots_fit_wants(
            wants.as_ptr(), wants.len(), areas.as_ptr(), areas.len(), locals, budget, l.cells.as_mut_ptr(), l.cells.len(),
            l.items.as_mut_ptr(), l.items.len(), l.offsets.as_mut_ptr(), l.offsets.len(), l.counts.as_mut_ptr(), l.counts.len(),
            l.work.as_mut_ptr(), l.work.len(),
        )
    }
}
