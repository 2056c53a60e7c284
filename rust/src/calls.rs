//! The component's functions: a list is passed as a pointer and then its length in numbers. Unsafe code stands here, in `part_calls`, and where `Row` is declared.
use crate::records::{Cell, Item, Local, Range, Row, Want};
use crate::{Job, Refusal};

extern "C" {
    fn slots_share(
        points: u32, v: u32, budget: u32,
        blocks: *const u32, blocks_len: usize,
        edges: *const u32, edges_len: usize,
        insts: *const u32, insts_len: usize,
        operands: *const u32, operands_len: usize,
        crossings: *const u32, crossings_len: usize,
        locals: *const u32, locals_len: usize,
        slots: *const u32, slots_len: usize,
        addresses: *const u32, addresses_len: usize,
        ends: *const u32, ends_len: usize,
        pieces: *const u32, pieces_len: usize,
        assigned: *const u32, assigned_len: usize,
        moves: *const u32, moves_len: usize,
        cells: *mut u32, cells_len: usize, items: *mut u32, items_len: usize, areas: *mut u32, areas_len: usize, offsets: *mut i32, offsets_len: usize,
        counts: *mut u64, counts_len: usize, work: *mut u64, work_len: usize,
    ) -> u64;
    fn slots_work_words(
        v: u32, blocks: u32, edges: u32, insts: u32, operands: u32, crossings: u32, locals: u32, slots: u32,
        addresses: u32, ends: u32, pieces: u32, assigned: u32, moves: u32, ranges: u32,
    ) -> u64;
    fn slots_fit_wants(
        wants: *const u32, wants_len: usize, areas: *const u32, areas_len: usize, locals: u32, budget: u32, cells: *mut u32, cells_len: usize,
        items: *mut u32, items_len: usize, offsets: *mut i32, offsets_len: usize, counts: *mut u64, counts_len: usize, work: *mut u64, work_len: usize,
    ) -> u64;
    fn slots_fit_words(wants: u32, ranges: u32) -> u64;
    fn slots_local(cells: *const u32, cells_len: usize, items: *const u32, items_len: usize, locals: u32, i: u32) -> u64;
    fn slots_slot(cells: *const u32, cells_len: usize, items: *const u32, items_len: usize, locals: u32, i: u32) -> u64;
    fn slots_shared(
        cells: *const u32, cells_len: usize, items: *const u32, items_len: usize, areas: *const u32, areas_len: usize,
        locals: u32, i: u32, part: *mut u64, part_len: usize,
    ) -> u64;
    fn slots_crowded(cells: *const u32, cells_len: usize, items: *const u32, items_len: usize, locals: u32, out: *mut u32, out_len: usize) -> u64;
    fn slots_saved(cells: *const u32, cells_len: usize, items: *const u32, items_len: usize, locals: u32) -> u64;
    fn slots_cap(cells: *mut u32, cells_len: usize, count: u32, most: u32) -> u64;
    fn slots_apart(
        locals: *const u32, locals_len: usize, slots: *const u32, slots_len: usize,
        cells: *mut u32, cells_len: usize, items: *mut u32, items_len: usize,
    ) -> u64;
    fn slots_overlaps(start: u32, end: u32, other_start: u32, other_end: u32) -> u64;
    fn slots_merged(
        start: *const u32, start_len: usize, end: *const u32, end_len: usize,
        out_start: *mut u32, out_start_len: usize, out_end: *mut u32, out_end_len: usize,
    ) -> u64;
    fn slots_joined(
        start: *const u32, start_len: usize, end: *const u32, end_len: usize, new_start: u32, new_end: u32,
        out_start: *mut u32, out_start_len: usize, out_end: *mut u32, out_end_len: usize,
    ) -> u64;
    fn slots_union(
        start: *const u32, start_len: usize, end: *const u32, end_len: usize,
        other_start: *const u32, other_start_len: usize, other_end: *const u32, other_end_len: usize,
        out_start: *mut u32, out_start_len: usize, out_end: *mut u32, out_end_len: usize,
    ) -> u64;
    fn slots_print_text(text: *const u8, text_len: usize, out: *mut u8, out_len: usize) -> u64;
    fn slots_clashes(
        start: *const u32, start_len: usize, end: *const u32, end_len: usize,
        other_start: *const u32, other_start_len: usize, other_end: *const u32, other_end_len: usize,
    ) -> u64;
    pub(crate) fn slots_components(
        blocks: *const u32, blocks_len: usize, edges: *const u32, edges_len: usize, points: u32, which: *mut u32, which_len: usize,
        work: *mut u64, work_len: usize,
    ) -> u64;
    pub(crate) fn slots_settling(
        blocks: *const u32, blocks_len: usize, edges: *const u32, edges_len: usize, points: u32, order: *mut u32, order_len: usize,
        work: *mut u64, work_len: usize,
    ) -> u64;
    pub(crate) fn slots_flowed(
        over: u32, blocks: *const u32, blocks_len: usize, edges: *const u32, edges_len: usize, points: u32,
        touched: *const u64, touched_len: usize, words: usize, out: *mut u64, out_len: usize, work: *mut u64, work_len: usize,
    ) -> u64;
    pub(crate) fn slots_spread(
        blocks: *const u32, blocks_len: usize, edges: *const u32, edges_len: usize, points: u32, leaves: *const u64, leaves_len: usize,
        passes: *const u64, passes_len: usize, words: usize, out: *mut u64, out_len: usize, work: *mut u64, work_len: usize,
    ) -> u64;
    pub(crate) fn slots_graph_words(blocks: u32, edges: u32, words: u32) -> u64;
    pub(crate) fn slots_reach(
        points: u32, v: u32, blocks: *const u32, blocks_len: usize, insts: *const u32, insts_len: usize,
        operands: *const u32, operands_len: usize, crossings: *const u32, crossings_len: usize, locals: *const u32, locals_len: usize,
        addresses: *const u32, addresses_len: usize, ends: *const u32, ends_len: usize, kinds: *mut u32, kinds_len: usize,
        work: *mut u64, work_len: usize,
    ) -> u64;
    pub(crate) fn slots_carried(
        points: u32, v: u32, blocks: *const u32, blocks_len: usize, insts: *const u32, insts_len: usize,
        operands: *const u32, operands_len: usize, crossings: *const u32, crossings_len: usize, locals: *const u32, locals_len: usize,
        addresses: *const u32, addresses_len: usize, ends: *const u32, ends_len: usize, local: u32, registers: *mut u32, registers_len: usize,
        work: *mut u64, work_len: usize,
    ) -> u64;
    pub(crate) fn slots_moved(
        points: u32, v: u32, blocks: *const u32, blocks_len: usize, insts: *const u32, insts_len: usize,
        operands: *const u32, operands_len: usize, moves: *const u32, moves_len: usize, slot: u32, out: *mut u32, out_len: usize,
        work: *mut u64, work_len: usize,
    ) -> u64;
    pub(crate) fn slots_reach_words(
        v: u32, blocks: u32, insts: u32, operands: u32, crossings: u32, locals: u32, addresses: u32, ends: u32,
    ) -> u64;
    pub(crate) fn slots_moved_words(v: u32, blocks: u32, insts: u32, operands: u32, moves: u32) -> u64;
    pub(crate) fn slots_spilled(
        v: u32, slots: u32, assigned: *const u32, assigned_len: usize, registers: *mut u32, registers_len: usize, work: *mut u64, work_len: usize,
    ) -> u64;
    pub(crate) fn slots_spilled_words(v: u32, assigned: u32) -> u64;
    pub(crate) fn slots_local_areas(
        blocks: *const u32, blocks_len: usize, edges: *const u32, edges_len: usize, points: u32, kinds: *const u32, kinds_len: usize,
        touches: *const u32, touches_len: usize, ends: *const u32, ends_len: usize,
        areas: *mut u32, areas_len: usize, items: *mut u32, items_len: usize, work: *mut u64, work_len: usize,
    ) -> u64;
    pub(crate) fn slots_area_words(blocks: u32, edges: u32, locals: u32, touches: u32, ends: u32, ranges: u32) -> u64;
    pub(crate) fn slots_item_areas(
        points: u32, v: u32, blocks: *const u32, blocks_len: usize, edges: *const u32, edges_len: usize,
        insts: *const u32, insts_len: usize, operands: *const u32, operands_len: usize, crossings: *const u32, crossings_len: usize,
        locals: *const u32, locals_len: usize, slots: *const u32, slots_len: usize, addresses: *const u32, addresses_len: usize,
        ends: *const u32, ends_len: usize, pieces: *const u32, pieces_len: usize, assigned: *const u32, assigned_len: usize,
        moves: *const u32, moves_len: usize, areas: *mut u32, areas_len: usize, items: *mut u32, items_len: usize, work: *mut u64, work_len: usize,
    ) -> u64;
}

/// There is none: no such item, or no shared area.
const ABSENT: u64 = u64::MAX;

/// A list of rows, as the component takes it.
pub(crate) fn lent<T: Row>(rows: &[T]) -> (*const u32, usize) {
    (rows.as_ptr().cast(), rows.len() * T::NUMBERS)
}

pub(crate) fn lent_mut<T: Row>(rows: &mut [T]) -> (*mut u32, usize) {
    (rows.as_mut_ptr().cast(), rows.len() * T::NUMBERS)
}

/// An answer, or a refusal.
pub(crate) fn answer(code: u64) -> Result<u64, Refusal> {
    if code < 1 << 32 {
        return Ok(code);
    }
    Err(Refusal::of(code))
}

/// An answer or none, or a refusal.
pub(crate) fn answer_or_none(code: u64) -> Result<Option<u64>, Refusal> {
    if code == ABSENT {
        return Ok(None);
    }
    answer(code).map(Some)
}

pub(crate) fn count(n: usize) -> u32 {
    u32::try_from(n).unwrap_or(u32::MAX)
}

// Each call below passes pointers of slices, of rows of 32-bit numbers or of numbers, each with that slice's length in numbers; slices lent for writing are
// exclusive. The component asks nothing more.

pub(crate) fn share(
    job: &Job, cells: &mut [Cell], items: &mut [Item], areas: &mut [Range], offsets: &mut [i32], counts: &mut [u64; 3], work: &mut [u64],
) -> Result<(), Refusal> {
    let (blocks, blocks_len) = lent(&job.blocks);
    let (edges, edges_len) = lent(&job.edges);
    let (insts, insts_len) = lent(&job.insts);
    let (operands, operands_len) = lent(&job.operands);
    let (crossings, crossings_len) = lent(&job.crossings);
    let (locals, locals_len) = lent(&job.locals);
    let (slots, slots_len) = lent(&job.slots);
    let (addresses, addresses_len) = lent(&job.addresses);
    let (ends, ends_len) = lent(&job.ends);
    let (pieces, pieces_len) = lent(&job.pieces);
    let (assigned, assigned_len) = lent(&job.assigned);
    let (moves, moves_len) = lent(&job.moves);
    let (cells, cells_len) = lent_mut(cells);
    let (items, items_len) = lent_mut(items);
    let (areas, areas_len) = lent_mut(areas);
    // SAFETY: slices with their lengths, exclusive where they are written.
    let code = unsafe {
        slots_share(
            job.points, job.v, job.budget,
            blocks, blocks_len, edges, edges_len, insts, insts_len, operands, operands_len,
            crossings, crossings_len, locals, locals_len, slots, slots_len, addresses, addresses_len,
            ends, ends_len, pieces, pieces_len, assigned, assigned_len, moves, moves_len,
            cells, cells_len, items, items_len, areas, areas_len, offsets.as_mut_ptr(), offsets.len(),
            counts.as_mut_ptr(), counts.len(), work.as_mut_ptr(), work.len(),
        )
    };
    answer(code).map(drop)
}

pub(crate) fn work_words(job: &Job, ranges: usize) -> u64 {
    // SAFETY: numbers alone are passed.
    unsafe {
        slots_work_words(
            job.v, count(job.blocks.len()), count(job.edges.len()), count(job.insts.len()), count(job.operands.len()), count(job.crossings.len()), count(job.locals.len()),
            count(job.slots.len()), count(job.addresses.len()), count(job.ends.len()), count(job.pieces.len()), count(job.assigned.len()), count(job.moves.len()), count(ranges),
        )
    }
}

#[allow(clippy::too_many_arguments)]
pub(crate) fn fit_wants(
    wants: &[Want], areas: &[Range], locals: u32, budget: u32, cells: &mut [Cell], items: &mut [Item], offsets: &mut [i32], counts: &mut [u64; 3],
    work: &mut [u64],
) -> Result<(), Refusal> {
    let (wants, wants_len) = lent(wants);
    let (areas, areas_len) = lent(areas);
    let (cells, cells_len) = lent_mut(cells);
    let (items, items_len) = lent_mut(items);
    // SAFETY: slices with their lengths, exclusive where they are written.
    let code = unsafe {
        slots_fit_wants(
            wants, wants_len, areas, areas_len, locals, budget, cells, cells_len, items, items_len, offsets.as_mut_ptr(), offsets.len(),
            counts.as_mut_ptr(), counts.len(), work.as_mut_ptr(), work.len(),
        )
    };
    answer(code).map(drop)
}

pub(crate) fn fit_words(wants: usize, ranges: usize) -> u64 {
    // SAFETY: numbers alone are passed.
    unsafe { slots_fit_words(count(wants), count(ranges)) }
}

pub(crate) fn local(cells: &[Cell], items: &[Item], locals: u32, i: u32) -> Result<Option<u64>, Refusal> {
    let (cells, cells_len) = lent(cells);
    let (items, items_len) = lent(items);
    // SAFETY: slices with their lengths, exclusive where they are written.
    answer_or_none(unsafe { slots_local(cells, cells_len, items, items_len, locals, i) })
}

pub(crate) fn slot(cells: &[Cell], items: &[Item], locals: u32, i: u32) -> Result<Option<u64>, Refusal> {
    let (cells, cells_len) = lent(cells);
    let (items, items_len) = lent(items);
    // SAFETY: slices with their lengths, exclusive where they are written.
    answer_or_none(unsafe { slots_slot(cells, cells_len, items, items_len, locals, i) })
}

pub(crate) fn shared(cells: &[Cell], items: &[Item], areas: &[Range], locals: u32, i: u32) -> Result<Option<(usize, usize)>, Refusal> {
    let (cells, cells_len) = lent(cells);
    let (items, items_len) = lent(items);
    let (areas, areas_len) = lent(areas);
    let mut part = [0u64; 2];
    // SAFETY: slices with their lengths, exclusive where they are written.
    let code = unsafe { slots_shared(cells, cells_len, items, items_len, areas, areas_len, locals, i, part.as_mut_ptr(), part.len()) };
    Ok(answer_or_none(code)?.map(|_| (part[0] as usize, part[1] as usize)))
}

pub(crate) fn crowded(cells: &[Cell], items: &[Item], locals: u32, out: &mut [u32]) -> Result<u64, Refusal> {
    let (cells, cells_len) = lent(cells);
    let (items, items_len) = lent(items);
    // SAFETY: slices with their lengths, exclusive where they are written.
    answer(unsafe { slots_crowded(cells, cells_len, items, items_len, locals, out.as_mut_ptr(), out.len()) })
}

pub(crate) fn saved(cells: &[Cell], items: &[Item], locals: u32) -> Result<u64, Refusal> {
    let (cells, cells_len) = lent(cells);
    let (items, items_len) = lent(items);
    // SAFETY: slices with their lengths, exclusive where they are written.
    answer(unsafe { slots_saved(cells, cells_len, items, items_len, locals) })
}

pub(crate) fn cap(cells: &mut [Cell], most: u32) -> Result<(), Refusal> {
    let many = count(cells.len());
    let (cells, cells_len) = lent_mut(cells);
    // SAFETY: slices with their lengths, exclusive where they are written.
    answer(unsafe { slots_cap(cells, cells_len, many, most) }).map(drop)
}

pub(crate) fn apart(locals: &[Local], slots: &[u32], cells: &mut [Cell], items: &mut [Item]) -> Result<(), Refusal> {
    let (locals, locals_len) = lent(locals);
    let (cells, cells_len) = lent_mut(cells);
    let (items, items_len) = lent_mut(items);
    // SAFETY: slices with their lengths, exclusive where they are written.
    answer(unsafe { slots_apart(locals, locals_len, slots.as_ptr(), slots.len(), cells, cells_len, items, items_len) }).map(drop)
}

pub(crate) fn overlaps(one: Range, other: Range) -> bool {
    // SAFETY: numbers alone are passed.
    unsafe { slots_overlaps(one.start, one.end, other.start, other.end) != 0 }
}

/// A list of ranges as two columns.
pub(crate) struct Columns {
    pub(crate) start: Vec<u32>,
    pub(crate) end: Vec<u32>,
}

pub(crate) fn merged(one: &Columns, out: &mut Columns) -> Result<u64, Refusal> {
    // SAFETY: slices with their lengths, exclusive where they are written.
    answer(unsafe {
        slots_merged(
            one.start.as_ptr(), one.start.len(), one.end.as_ptr(), one.end.len(),
            out.start.as_mut_ptr(), out.start.len(), out.end.as_mut_ptr(), out.end.len(),
        )
    })
}

pub(crate) fn joined(one: &Columns, new: Range, out: &mut Columns) -> Result<u64, Refusal> {
    // SAFETY: slices with their lengths, exclusive where they are written.
    answer(unsafe {
        slots_joined(
            one.start.as_ptr(), one.start.len(), one.end.as_ptr(), one.end.len(), new.start, new.end,
            out.start.as_mut_ptr(), out.start.len(), out.end.as_mut_ptr(), out.end.len(),
        )
    })
}

pub(crate) fn union(one: &Columns, other: &Columns, out: &mut Columns) -> Result<u64, Refusal> {
    // SAFETY: slices with their lengths, exclusive where they are written.
    answer(unsafe {
        slots_union(
            one.start.as_ptr(), one.start.len(), one.end.as_ptr(), one.end.len(),
            other.start.as_ptr(), other.start.len(), other.end.as_ptr(), other.end.len(),
            out.start.as_mut_ptr(), out.start.len(), out.end.as_mut_ptr(), out.end.len(),
        )
    })
}

pub(crate) fn clashes(one: &Columns, other: &Columns) -> Result<bool, Refusal> {
    // SAFETY: slices with their lengths, exclusive where they are written.
    let code = unsafe {
        slots_clashes(
            one.start.as_ptr(), one.start.len(), one.end.as_ptr(), one.end.len(),
            other.start.as_ptr(), other.start.len(), other.end.as_ptr(), other.end.len(),
        )
    };
    Ok(answer(code)? != 0)
}

pub(crate) fn print_text(text: &[u8], out: &mut [u8]) -> Result<u64, Refusal> {
    // SAFETY: slices with their lengths, the second exclusive.
    answer(unsafe { slots_print_text(text.as_ptr(), text.len(), out.as_mut_ptr(), out.len()) })
}
