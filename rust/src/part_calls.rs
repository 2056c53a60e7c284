//! The component's functions for the parts of a job. As in `calls`, each call passes pointers of slices, each with that slice's length in numbers; slices lent
//! for writing are exclusive.
use crate::calls::*;
use crate::records::{Area, LocalEnd, Range, Touch};
use crate::{Graph, Job, Refusal};

pub(crate) fn components(graph: Graph, which: &mut [u32], work: &mut [u64]) -> Result<u64, Refusal> {
    let (blocks, blocks_len) = lent(graph.blocks);
    let (edges, edges_len) = lent(graph.edges);
    // SAFETY: slices with their lengths, exclusive where they are written.
    answer(unsafe { slots_components(blocks, blocks_len, edges, edges_len, graph.points, which.as_mut_ptr(), which.len(), work.as_mut_ptr(), work.len()) })
}

pub(crate) fn settling(graph: Graph, order: &mut [u32], work: &mut [u64]) -> Result<(), Refusal> {
    let (blocks, blocks_len) = lent(graph.blocks);
    let (edges, edges_len) = lent(graph.edges);
    // SAFETY: slices with their lengths, exclusive where they are written.
    answer(unsafe { slots_settling(blocks, blocks_len, edges, edges_len, graph.points, order.as_mut_ptr(), order.len(), work.as_mut_ptr(), work.len()) }).map(drop)
}

pub(crate) fn flowed(graph: Graph, over: u32, touched: &[u64], words: usize, out: &mut [u64], work: &mut [u64]) -> Result<(), Refusal> {
    let (blocks, blocks_len) = lent(graph.blocks);
    let (edges, edges_len) = lent(graph.edges);
    // SAFETY: slices with their lengths, exclusive where they are written.
    let code = unsafe {
        slots_flowed(
            over, blocks, blocks_len, edges, edges_len, graph.points, touched.as_ptr(), touched.len(), words,
            out.as_mut_ptr(), out.len(), work.as_mut_ptr(), work.len(),
        )
    };
    answer(code).map(drop)
}

pub(crate) fn spread(graph: Graph, leaves: &[u64], passes: &[u64], words: usize, out: &mut [u64], work: &mut [u64]) -> Result<(), Refusal> {
    let (blocks, blocks_len) = lent(graph.blocks);
    let (edges, edges_len) = lent(graph.edges);
    // SAFETY: slices with their lengths, exclusive where they are written.
    let code = unsafe {
        slots_spread(
            blocks, blocks_len, edges, edges_len, graph.points, leaves.as_ptr(), leaves.len(), passes.as_ptr(), passes.len(), words,
            out.as_mut_ptr(), out.len(), work.as_mut_ptr(), work.len(),
        )
    };
    answer(code).map(drop)
}

pub(crate) fn graph_words(blocks: usize, edges: usize, words: usize) -> u64 {
    // SAFETY: numbers alone are passed.
    unsafe { slots_graph_words(count(blocks), count(edges), count(words)) }
}

pub(crate) fn reach(job: &Job, kinds: &mut [u32], work: &mut [u64]) -> Result<u64, Refusal> {
    let (blocks, blocks_len) = lent(&job.blocks);
    let (insts, insts_len) = lent(&job.insts);
    let (operands, operands_len) = lent(&job.operands);
    let (crossings, crossings_len) = lent(&job.crossings);
    let (locals, locals_len) = lent(&job.locals);
    let (addresses, addresses_len) = lent(&job.addresses);
    let (ends, ends_len) = lent(&job.ends);
    // SAFETY: slices with their lengths, exclusive where they are written.
    answer(unsafe {
        slots_reach(
            job.points, job.v, blocks, blocks_len, insts, insts_len, operands, operands_len, crossings, crossings_len, locals, locals_len,
            addresses, addresses_len, ends, ends_len, kinds.as_mut_ptr(), kinds.len(), work.as_mut_ptr(), work.len(),
        )
    })
}

pub(crate) fn carried(job: &Job, local: u32, registers: &mut [u32], work: &mut [u64]) -> Result<Option<u64>, Refusal> {
    let (blocks, blocks_len) = lent(&job.blocks);
    let (insts, insts_len) = lent(&job.insts);
    let (operands, operands_len) = lent(&job.operands);
    let (crossings, crossings_len) = lent(&job.crossings);
    let (locals, locals_len) = lent(&job.locals);
    let (addresses, addresses_len) = lent(&job.addresses);
    let (ends, ends_len) = lent(&job.ends);
    // SAFETY: slices with their lengths, exclusive where they are written.
    answer_or_none(unsafe {
        slots_carried(
            job.points, job.v, blocks, blocks_len, insts, insts_len, operands, operands_len, crossings, crossings_len, locals, locals_len,
            addresses, addresses_len, ends, ends_len, local, registers.as_mut_ptr(), registers.len(), work.as_mut_ptr(), work.len(),
        )
    })
}

pub(crate) fn moved(job: &Job, slot: u32, out: &mut [Range], work: &mut [u64]) -> Result<u64, Refusal> {
    let (blocks, blocks_len) = lent(&job.blocks);
    let (insts, insts_len) = lent(&job.insts);
    let (operands, operands_len) = lent(&job.operands);
    let (moves, moves_len) = lent(&job.moves);
    let (out, out_len) = lent_mut(out);
    // SAFETY: slices with their lengths, exclusive where they are written.
    answer(unsafe {
        slots_moved(
            job.points, job.v, blocks, blocks_len, insts, insts_len, operands, operands_len, moves, moves_len, slot, out, out_len,
            work.as_mut_ptr(), work.len(),
        )
    })
}

pub(crate) fn reach_words(job: &Job) -> u64 {
    // SAFETY: numbers alone are passed.
    unsafe {
        slots_reach_words(
            job.v, count(job.blocks.len()), count(job.insts.len()), count(job.operands.len()), count(job.crossings.len()), count(job.locals.len()),
            count(job.addresses.len()), count(job.ends.len()),
        )
    }
}

pub(crate) fn moved_words(job: &Job) -> u64 {
    // SAFETY: numbers alone are passed.
    unsafe { slots_moved_words(job.v, count(job.blocks.len()), count(job.insts.len()), count(job.operands.len()), count(job.moves.len())) }
}

pub(crate) fn spilled(job: &Job, registers: &mut [u32], work: &mut [u64]) -> Result<u64, Refusal> {
    let (assigned, assigned_len) = lent(&job.assigned);
    // SAFETY: slices with their lengths, exclusive where they are written.
    answer(unsafe {
        slots_spilled(
            job.v, count(job.slots.len()), assigned, assigned_len, registers.as_mut_ptr(), registers.len(), work.as_mut_ptr(), work.len(),
        )
    })
}

pub(crate) fn spilled_words(job: &Job) -> u64 {
    // SAFETY: numbers alone are passed.
    unsafe { slots_spilled_words(job.v, count(job.assigned.len())) }
}

pub(crate) fn local_areas(
    graph: Graph, kinds: &[u32], touches: &[Touch], ends: &[LocalEnd], areas: &mut [Range], items: &mut [Area], work: &mut [u64],
) -> Result<u64, Refusal> {
    let (blocks, blocks_len) = lent(graph.blocks);
    let (edges, edges_len) = lent(graph.edges);
    let (touches, touches_len) = lent(touches);
    let (ends, ends_len) = lent(ends);
    let (areas, areas_len) = lent_mut(areas);
    let (items, items_len) = lent_mut(items);
    // SAFETY: slices with their lengths, exclusive where they are written.
    answer(unsafe {
        slots_local_areas(
            blocks, blocks_len, edges, edges_len, graph.points, kinds.as_ptr(), kinds.len(), touches, touches_len, ends, ends_len,
            areas, areas_len, items, items_len, work.as_mut_ptr(), work.len(),
        )
    })
}

pub(crate) fn area_words(graph: Graph, locals: usize, touches: usize, ends: usize, ranges: usize) -> u64 {
    // SAFETY: numbers alone are passed.
    unsafe { slots_area_words(count(graph.blocks.len()), count(graph.edges.len()), count(locals), count(touches), count(ends), count(ranges)) }
}

pub(crate) fn item_areas(job: &Job, areas: &mut [Range], items: &mut [Area], work: &mut [u64]) -> Result<u64, Refusal> {
    let (blocks, blocks_len) = lent(&job.blocks);
    let (edges, edges_len) = lent(&job.edges);
    let (insts, insts_len) = lent(&job.insts);
    let (operands, operands_len) = lent(&job.operands);
    let (crossings, crossings_len) = lent(&job.crossings);
    let (locals, locals_len) = lent(&job.locals);
    let (slots, slots_len) = lent(&job.slots);
    let (addresses, addresses_len) = lent(&job.addresses);
    let (ends, ends_len) = lent(&job.ends);
    let (pieces, pieces_len) = lent(&job.pieces);
    let (assigned, assigned_len) = lent(&job.assigned);
    let (moves, moves_len) = lent(&job.moves);
    let (areas, areas_len) = lent_mut(areas);
    let (items, items_len) = lent_mut(items);
    // SAFETY: slices with their lengths, exclusive where they are written.
    answer(unsafe {
        slots_item_areas(
            job.points, job.v, blocks, blocks_len, edges, edges_len, insts, insts_len, operands, operands_len, crossings, crossings_len,
            locals, locals_len, slots, slots_len, addresses, addresses_len, ends, ends_len, pieces, pieces_len, assigned, assigned_len,
            moves, moves_len, areas, areas_len, items, items_len, work.as_mut_ptr(), work.len(),
        )
    })
}
