/* Frame sharing, proved: which locals and spill slots of a function may use the same bytes of its stack frame.
 * The functions of libslots.a, for C99 and later and for C++.
 *
 * A list is passed as a pointer and then its length, in numbers (not in bytes, not in rows). A list of records is a list of numbers, a
 * row of so many for each record; the structs below have exactly the layout of a row, so an array of n structs of k numbers is a list of
 * n * k numbers. A list that a function only reads is const. Every function is safe for any lengths and any contents: it asks only that
 *   - each pointer points to as many numbers as its length says, aligned as their type is, and is not NULL, also where the length is 0
 *     (the inline functions at the end pass a valid pointer for NULL where a length is 0);
 *   - a list that is not const overlaps no other list of the same call.
 * No function keeps a pointer, allocates, prints, or uses anything but its arguments; calls on different lists may run at the same time.
 *
 * Each function answers in one number:
 *   - below 2^32: the answer. 0 where it says no more than that all is done;
 *   - SLOTS_ABSENT, of slots_local, slots_slot, slots_shared and slots_carried only: there is none, as for an index past the end;
 *   - otherwise a refusal: its number times 2^32 plus the index of the first offending record, counted from 0 in its list.
 * That every answer is below 2^32 and every index whole is proved. The functions that count words of work space, whose names end in _words, are
 * no such answers: they refuse nothing, and what they count can be 2^32 or more.
 * A refusal changes no answer list. Entries of an answer list past the answer stay as they were. The first W words of a work space are zero after
 * an answer, and as they were after a refusal with 1 to 7, 10 or 11; after 9, 12 and 13 they are zero. The words past them never change. */
#ifndef SLOTS_H
#define SLOTS_H

#include <stddef.h>
#include <stdint.h>

#ifdef __cplusplus
extern "C" {
#endif

/* ---- refusals ---- */

/* The numbers. Checks are made in the order of the numbers, so the lowest that applies is given. The index is 0 where none is named. */
enum slots_refusal {
    SLOTS_COUNT = 1,    /* a count or the budget outside its limits, or a list that is no whole rows */
    SLOTS_LINE = 2,     /* index: the block. Its number is repeated or too large, it is reversed, it does not start at the last end plus 1, or it ends past points */
    SLOTS_EDGE = 3,     /* index: the edge. It names no block */
    SLOTS_INST = 4,     /* index: the instruction, the crossing, or the local whose kind is lent. A block, point, flag, position, register or kind out of range */
    SLOTS_STRAY = 5,    /* index: the address, the end or the move. At an absent instruction or block, or of a kind over 3; an address or move at an unplaced instruction */
    SLOTS_PIECE = 6,    /* index: the live piece, the assignment, or the touch that is lent. Reversed, not wholly in the blocks, or of a register that is not numbered */
    SLOTS_SPACE = 7,    /* work space under W, or an answer list too short */
    /* 8 is retired: no function gives it, and it is not given out again */
    SLOTS_LIST = 9,     /* all areas together exceed the area list */
    SLOTS_WANT = 10,    /* index: the range, the want, or the item. A range or a lent plan that is not as it has to be */
    SLOTS_TEXT = 11,    /* index: the line. Malformed; slots_print_text says so in its text, and none of the functions below gives it */
    SLOTS_ALIGN = 12,   /* index: the cell. Its alignment is no power of two; 0 is none */
    SLOTS_DEPTH = 13    /* index: the cell. The first whose depth, padding counted, is over 2,147,483,647 */
};

/* There is no such local or slot, or no shared area. No refusal and no answer is this number. */
#define SLOTS_ABSENT UINT64_MAX

/* A code that is a refusal's; its number; its index. */
static inline int slots_is_refusal(uint64_t code) { return code >= (uint64_t)1 << 32 && code != SLOTS_ABSENT; }
static inline uint32_t slots_number(uint64_t code) { return (uint32_t)(code >> 32); }
static inline uint32_t slots_index(uint64_t code) { return (uint32_t)(code & 0xffffffffu); }

/* ---- limits ---- */

#define SLOTS_MOST_BLOCKS 4096u
#define SLOTS_MOST_EDGES 16384u
#define SLOTS_MOST_OPERANDS 262144u
#define SLOTS_MOST_REGISTERS 65535u
#define SLOTS_MOST_ITEMS 2048u    /* of locals, and of slots */
#define SLOTS_MOST_RECORDS 65536u /* of each other group, and of the ranges of an area list */
#define SLOTS_MOST_BUDGET 1048576u

/* ---- records: each struct is a row ---- */

/* A block: its number, 0 to the blocks less 1, in any order; its first and its last point. Blocks stand in line order, without gaps. */
typedef struct slots_block { uint32_t number, start, end; } slots_block;
/* An edge, by block numbers. */
typedef struct slots_edge { uint32_t from, to; } slots_edge;
/* An instruction. placed: 1, or 0 for one that stands in no block. Its block's number, its early and its late point. lea, mem: 0 or 1.
 * base, index: the position of an operand, or SLOTS_NONE. operands: how many rows of the operand list are its own; they follow one another. */
typedef struct slots_inst { uint32_t placed, block, early, late, lea, mem, base, index, operands; } slots_inst;
#define SLOTS_NONE 256u
/* An operand. def: 1 if it defines its register, else 0. Registers below v are numbered, v to v + 255 physical. */
typedef struct slots_operand { uint32_t def, reg; } slots_operand;
/* A local: the bytes it takes and its alignment. A slot is one number, its width, which is both. */
typedef struct slots_local_size { uint32_t size, align; } slots_local_size;
/* An instruction that holds the address of a local; an instruction at whose early point a local ends. */
typedef struct slots_address { uint32_t inst, local; } slots_address;
typedef struct slots_end { uint32_t inst, local; } slots_end;
/* A register is live from start to end, both included. */
typedef struct slots_piece { uint32_t reg, start, end; } slots_piece;
/* A register is kept in a slot; a slot's last one counts. */
typedef struct slots_assigned { uint32_t reg, slot; } slots_assigned;
/* A move to and from slots, or SLOTS_NO_SLOT. kind 0: before instruction `number`, 1: after it, 2: at the start of block `number`, 3: at its end. */
typedef struct slots_move { uint32_t kind, number, to, from; } slots_move;
#define SLOTS_NO_SLOT UINT32_MAX
/* A range of points, both ends included. */
typedef struct slots_range { uint32_t start, end; } slots_range;
/* A cell of the frame that items share: its members' largest size and largest alignment. */
typedef struct slots_cell { uint32_t size, align; } slots_cell;
/* An item, the locals first and then the slots: its cell, whether it has an area (0 or 1), and which part of the area list that is. */
typedef struct slots_item { uint32_t cell, present, first, count; } slots_item;
/* For fitting alone: an item's size and alignment, and its part of the area list. present: 0 for no area. */
typedef struct slots_want { uint32_t size, align, present, first, count; } slots_want;

/* An item's area, where it stands by itself: whether it has one (0 or 1), and which part of the area list that is. */
typedef struct slots_area { uint32_t present, first, count; } slots_area;
/* A touch of a local, from start to end; and a point at which a local ends. */
typedef struct slots_touch { uint32_t local, start, end; } slots_touch;
typedef struct slots_local_end { uint32_t local, point; } slots_local_end;
/* The kinds of locals: without an area, plain, and ending. */
#define SLOTS_UNFOLLOWED 0u
#define SLOTS_PLAIN 1u
#define SLOTS_ENDING 2u

/* A row is its numbers and nothing else. */
typedef char slots_rows_are_packed[sizeof(slots_block) == 12 && sizeof(slots_edge) == 8 && sizeof(slots_inst) == 36 &&
    sizeof(slots_operand) == 8 && sizeof(slots_local_size) == 8 && sizeof(slots_address) == 8 && sizeof(slots_end) == 8 &&
    sizeof(slots_piece) == 12 && sizeof(slots_assigned) == 8 && sizeof(slots_move) == 16 && sizeof(slots_range) == 8 &&
    sizeof(slots_cell) == 8 && sizeof(slots_item) == 16 && sizeof(slots_want) == 20 &&
    sizeof(slots_area) == 12 && sizeof(slots_touch) == 12 && sizeof(slots_local_end) == 8 ? 1 : -1];

/* ---- the whole job ---- */

/* Which items of a job may share a cell, and where each cell lies. Rather than this, call slots_plan_job below, which takes the lists by name.
 * Reads: points, the last point there is; v, how many registers are numbered; budget, how many cells may be probed; and the records.
 * On 0: cells has the plan's cells, items a row for each local and then for each slot, areas the ranges of all items' areas in item order
 * (each area's in order, with at least one point between any two), offsets a number for each cell, counts the number of cells, the probes
 * spent and the depth.
 * Cells lie below the frame base in cell order. A cell's depth is the depth before it plus its size, rounded up to its alignment; its offset is
 * minus that depth. So each offset is a multiple of its cell's alignment, and the cell's bytes, offset to offset + size - 1, are no other cell's.
 * The depth of counts is the last cell's, with all padding; 0 without cells.
 * Cells and items need room for as many rows as there are locals and slots, offsets for as many numbers, counts for its three numbers, work for
 * W words. Refuses with 1 to 7, 9, 12 and 13. */
uint64_t slots_share(
    uint32_t points, uint32_t v, uint32_t budget,
    const uint32_t *blocks, size_t blocks_len, const uint32_t *edges, size_t edges_len, const uint32_t *insts, size_t insts_len,
    const uint32_t *operands, size_t operands_len, const uint32_t *crossings, size_t crossings_len, const uint32_t *locals, size_t locals_len,
    const uint32_t *slots, size_t slots_len, const uint32_t *addresses, size_t addresses_len, const uint32_t *ends, size_t ends_len,
    const uint32_t *pieces, size_t pieces_len, const uint32_t *assigned, size_t assigned_len, const uint32_t *moves, size_t moves_len,
    uint32_t *cells, size_t cells_len, uint32_t *items, size_t items_len, uint32_t *areas, size_t areas_len, int32_t *offsets, size_t offsets_len,
    uint64_t *counts, size_t counts_len, uint64_t *work, size_t work_len);

/* W of a job, in 64-bit words, by the numbers of its records (not of their numbers), the ranges of its area list and v:
 * 8 * (all records + blocks * ceil(locals / 64) + ranges + ceil(v / 64)). Exact for any numbers, 2^32 and more included. */
uint64_t slots_work_words(
    uint32_t v, uint32_t blocks, uint32_t edges, uint32_t insts, uint32_t operands, uint32_t crossings, uint32_t locals, uint32_t slots,
    uint32_t addresses, uint32_t ends, uint32_t pieces, uint32_t assigned, uint32_t moves, uint32_t ranges);

/* ---- fitting alone ---- */

/* Fits given wants, the first `locals` of them locals. areas: rows of slots_range. The answer lists and counts are those of slots_share;
 * an item's row is its cell, then the want's part, or 0, 0, 0 without an area. Refuses with 1, 7, 10 (an area outside its list,
 * reversed, unsorted or overlapping itself), 12 and 13. */
uint64_t slots_fit_wants(
    const uint32_t *wants, size_t wants_len, const uint32_t *areas, size_t areas_len, uint32_t locals, uint32_t budget,
    uint32_t *cells, size_t cells_len, uint32_t *items, size_t items_len, int32_t *offsets, size_t offsets_len,
    uint64_t *counts, size_t counts_len, uint64_t *work, size_t work_len);

/* W of fitting alone: 8 * (wants + ranges). Exact for any numbers, 2^32 and more included. */
uint64_t slots_fit_words(uint32_t wants, uint32_t ranges);

/* ---- queries of a plan ---- */

/* They take the plan's cells and its items, no rows more: as many cells as counts said. `locals` is how many of the items are locals.
 * They refuse with 1, and with 10 an item that names no cell (index: the item) or more cells than items (index: the items). */

/* The cell of local i, or of slot i; or SLOTS_ABSENT. */
uint64_t slots_local(const uint32_t *cells, size_t cells_len, const uint32_t *items, size_t items_len, uint32_t locals, uint32_t i);
uint64_t slots_slot(const uint32_t *cells, size_t cells_len, const uint32_t *items, size_t items_len, uint32_t locals, uint32_t i);
/* The area of local i, if its cell has two or more members: 0, and part has the first of its ranges in areas and how many they are, the
 * numbers of the item's row. Else SLOTS_ABSENT, and part is as it was. Refuses a part list under 2 numbers (7), also where there is no
 * area to tell, and a part outside the area list (10). */
uint64_t slots_shared(
    const uint32_t *cells, size_t cells_len, const uint32_t *items, size_t items_len, const uint32_t *areas, size_t areas_len,
    uint32_t locals, uint32_t i, uint64_t *part, size_t part_len);
/* How many slots are in a cell with two or more members; out has them, rising. Refuses an out under the slots (7). */
uint64_t slots_crowded(
    const uint32_t *cells, size_t cells_len, const uint32_t *items, size_t items_len, uint32_t locals, uint32_t *out, size_t out_len);
/* Items less cells. */
uint64_t slots_saved(const uint32_t *cells, size_t cells_len, const uint32_t *items, size_t items_len, uint32_t locals);
/* Lowers the alignment of the first `count` cells to `most`. Refuses with 1 a list that is no whole rows or has fewer cells, and a count over 4,096.
 * No cell moves: where `most` is a power of two, a plan's offsets stay multiples of its cells' alignments. */
uint64_t slots_cap(uint32_t *cells, size_t cells_len, uint32_t count, uint32_t most);
/* The plan in which nothing is shared: a cell for each item, in order, no areas and no offsets. Refuses with 1 and 7. */
uint64_t slots_apart(
    const uint32_t *locals, size_t locals_len, const uint32_t *slots, size_t slots_len,
    uint32_t *cells, size_t cells_len, uint32_t *items, size_t items_len);

/* ---- ranges ---- */

/* A list of ranges is two columns here: the starts, and the ends. Refusals: 1 (columns of different lengths, more than 65,536 ranges), 7
 * (an answer shorter than the ranges lent), 10 (index: the range, the second list's counted on from the first). */

/* 1 if each range starts no later than the other ends, else 0. It refuses nothing. */
uint64_t slots_overlaps(uint32_t start, uint32_t end, uint32_t other_start, uint32_t other_end);
/* The ranges sorted, those joined that share a point or touch (1-4 and 5-6): how many; out has them. 10: a reversed range.
 * Takes 512 KiB of stack for more than 256 ranges. */
uint64_t slots_merged(
    const uint32_t *start, size_t start_len, const uint32_t *end, size_t end_len,
    uint32_t *out_start, size_t out_start_len, uint32_t *out_end, size_t out_end_len);
/* The list with one range more: the last one lengthened if the new one starts on the point after its end, else the new one at the end. */
uint64_t slots_joined(
    const uint32_t *start, size_t start_len, const uint32_t *end, size_t end_len, uint32_t new_start, uint32_t new_end,
    uint32_t *out_start, size_t out_start_len, uint32_t *out_end, size_t out_end_len);
/* What slots_merged makes of two lists together. 10: a range that is reversed, or that starts no later than the one before it ends. */
uint64_t slots_union(
    const uint32_t *start, size_t start_len, const uint32_t *end, size_t end_len,
    const uint32_t *other_start, size_t other_start_len, const uint32_t *other_end, size_t other_end_len,
    uint32_t *out_start, size_t out_start_len, uint32_t *out_end, size_t out_end_len);
/* 1 if some point is in both lists, else 0. Refuses as slots_union does, but for 7. */
uint64_t slots_clashes(
    const uint32_t *start, size_t start_len, const uint32_t *end, size_t end_len,
    const uint32_t *other_start, size_t other_start_len, const uint32_t *other_end, size_t other_end_len);

/* ---- the parts of a job ---- */

/* Over a graph: blocks and edges, the last point there is. Places are those of the line, from 0 on. They refuse with 1, 2, 3 and 7.
 * W is slots_graph_words(blocks, edges, words), of components and settling without words. */

/* How many components there are: places are in one exactly when each reaches the other. which has a number for each place, that of its component, below
 * the answer; an edge that leaves a component enters a lower-numbered one. */
uint64_t slots_components(
    const uint32_t *blocks, size_t blocks_len, const uint32_t *edges, size_t edges_len, uint32_t points, uint32_t *which, size_t which_len,
    uint64_t *work, size_t work_len);
/* order has every place once: a place with an edge to one that does not reach it stands before that one. */
uint64_t slots_settling(
    const uint32_t *blocks, size_t blocks_len, const uint32_t *edges, size_t edges_len, uint32_t points, uint32_t *order, size_t order_len,
    uint64_t *work, size_t work_len);
/* Rows of `words` 64-bit words, one to a block, in line order.
 * slots_flowed: a bit of a block's row in out is set exactly when a block with that bit in touched is reached from it over one or more edges
 * (over other than 0), or it is reached from one (over 0). slots_spread: what arrives at a block is what leaves a predecessor, or arrives
 * there and passes it. */
uint64_t slots_flowed(
    uint32_t over, const uint32_t *blocks, size_t blocks_len, const uint32_t *edges, size_t edges_len, uint32_t points,
    const uint64_t *touched, size_t touched_len, size_t words, uint64_t *out, size_t out_len, uint64_t *work, size_t work_len);
uint64_t slots_spread(
    const uint32_t *blocks, size_t blocks_len, const uint32_t *edges, size_t edges_len, uint32_t points,
    const uint64_t *leaves, size_t leaves_len, const uint64_t *passes, size_t passes_len, size_t words,
    uint64_t *out, size_t out_len, uint64_t *work, size_t work_len);
/* W of the four: 8 * (blocks + edges + blocks * words), 2^32 and more included; UINT64_MAX where it is more than that. */
uint64_t slots_graph_words(uint32_t blocks, uint32_t edges, uint32_t words);

/* Carried addresses, by a job's records. They refuse with 1, 2, 4, 5 and 7. */

/* How many locals there are; kinds has a number for each: SLOTS_UNFOLLOWED, SLOTS_PLAIN or SLOTS_ENDING. */
uint64_t slots_reach(
    uint32_t points, uint32_t v, const uint32_t *blocks, size_t blocks_len, const uint32_t *insts, size_t insts_len,
    const uint32_t *operands, size_t operands_len, const uint32_t *crossings, size_t crossings_len, const uint32_t *locals, size_t locals_len,
    const uint32_t *addresses, size_t addresses_len, const uint32_t *ends, size_t ends_len, uint32_t *kinds, size_t kinds_len,
    uint64_t *work, size_t work_len);
/* How many registers carry the address of a local; registers has them, rising. SLOTS_ABSENT for a local past the end. registers needs room for v numbers, or
 * for as many as there are instructions where these are fewer. */
uint64_t slots_carried(
    uint32_t points, uint32_t v, const uint32_t *blocks, size_t blocks_len, const uint32_t *insts, size_t insts_len,
    const uint32_t *operands, size_t operands_len, const uint32_t *crossings, size_t crossings_len, const uint32_t *locals, size_t locals_len,
    const uint32_t *addresses, size_t addresses_len, const uint32_t *ends, size_t ends_len, uint32_t local, uint32_t *registers, size_t registers_len,
    uint64_t *work, size_t work_len);

/* W of slots_reach and slots_carried, by v and the numbers of records:
 * 8 * (all records + blocks * ceil(locals / 64) + ceil(v / 64)). Exact for any numbers, 2^32 and more included. */
uint64_t slots_reach_words(
    uint32_t v, uint32_t blocks, uint32_t insts, uint32_t operands, uint32_t crossings, uint32_t locals, uint32_t addresses, uint32_t ends);

/* How many ranges the moves of a slot cover, in the moves' order: out has them, rows of slots_range. out needs room for two ranges to a move.
 * Refuses with 1, 2, 4, 5 and 7. */
uint64_t slots_moved(
    uint32_t points, uint32_t v, const uint32_t *blocks, size_t blocks_len, const uint32_t *insts, size_t insts_len,
    const uint32_t *operands, size_t operands_len, const uint32_t *moves, size_t moves_len, uint32_t slot, uint32_t *out, size_t out_len,
    uint64_t *work, size_t work_len);

/* W of slots_moved: 8 * (all records + ceil(v / 64)). Exact for any numbers, 2^32 and more included. */
uint64_t slots_moved_words(uint32_t v, uint32_t blocks, uint32_t insts, uint32_t operands, uint32_t moves);
/* How many slots there are, as said; registers has a number for each: the last register that is assigned to it, or v for none.
 * Refuses with 1, 6 and 7. */
uint64_t slots_spilled(
    uint32_t v, uint32_t slots, const uint32_t *assigned, size_t assigned_len, uint32_t *registers, size_t registers_len, uint64_t *work, size_t work_len);
/* W of slots_spilled: 8 * (assigned + ceil(v / 64)). Exact for any numbers, 2^32 and more included. */
uint64_t slots_spilled_words(uint32_t v, uint32_t assigned);

/* The areas of all items of a job: how many ranges; areas has them, rows of slots_range in item order, items a row of slots_area for each local and then
 * for each slot. W is slots_work_words. Refuses with 1 to 7 and 9. */
uint64_t slots_item_areas(
    uint32_t points, uint32_t v, const uint32_t *blocks, size_t blocks_len, const uint32_t *edges, size_t edges_len,
    const uint32_t *insts, size_t insts_len, const uint32_t *operands, size_t operands_len, const uint32_t *crossings, size_t crossings_len,
    const uint32_t *locals, size_t locals_len, const uint32_t *slots, size_t slots_len, const uint32_t *addresses, size_t addresses_len,
    const uint32_t *ends, size_t ends_len, const uint32_t *pieces, size_t pieces_len, const uint32_t *assigned, size_t assigned_len,
    const uint32_t *moves, size_t moves_len, uint32_t *areas, size_t areas_len, uint32_t *items, size_t items_len, uint64_t *work, size_t work_len);

/* The areas of locals by their kinds, as slots_reach numbers them, by touches (rows of slots_touch) and ends (rows of slots_local_end) that are lent by
 * themselves; the answer and the answer lists are those of slots_item_areas. An unfollowed local has no area, and its touches and ends count for nobody, as
 * those of a local past the end. Refuses with 1, 2, 3, 4 (index: a local whose kind is over 2), 6 (index: a touch that is reversed or not wholly in the
 * blocks, whoever's it is), 7 and 9. */
uint64_t slots_local_areas(
    const uint32_t *blocks, size_t blocks_len, const uint32_t *edges, size_t edges_len, uint32_t points, const uint32_t *kinds, size_t kinds_len,
    const uint32_t *touches, size_t touches_len, const uint32_t *ends, size_t ends_len,
    uint32_t *areas, size_t areas_len, uint32_t *items, size_t items_len, uint64_t *work, size_t work_len);
/* W of slots_local_areas: 8 * (blocks + edges + locals + touches + ends + blocks * ceil(locals / 64) + ranges). Exact for any numbers, 2^32 and more
 * included. */
uint64_t slots_area_words(uint32_t blocks, uint32_t edges, uint32_t locals, uint32_t touches, uint32_t ends, uint32_t ranges);

/* ---- a job's text ---- */

/* A job as text in, its plan as text out: how many bytes; out has them, without a zero behind them. The text of a job that is refused, or that has a
 * malformed line, is `N,number,index` on a line of its own, and that too is an answer. A list is counted in bytes here. SLOTS_TEXT_ROOM bytes are enough
 * for any text. Refuses only an out that is shorter than the text it would hold (7), and leaves it as it was. Needs no work space; takes some 80 KiB of stack. */
uint64_t slots_print_text(const uint8_t *text, size_t text_len, uint8_t *out, size_t out_len);
#define SLOTS_TEXT_ROOM 65536u

/* ---- a job by name ---- */

/* A job. Each list has its number of records beside it; a list of none may be NULL. With all fields 0 it is a job without records. */
typedef struct slots_job {
    uint32_t points; /* the last point there is */
    uint32_t v;      /* how many registers are numbered */
    uint32_t budget; /* how many cells may be probed, SLOTS_MOST_BUDGET at most */
    const slots_block *blocks; size_t blocks_count;
    const slots_edge *edges; size_t edges_count;
    const slots_inst *insts; size_t insts_count;
    const slots_operand *operands; size_t operands_count;
    const uint32_t *crossings; size_t crossings_count; /* registers of block parameters and edge arguments */
    const slots_local_size *locals; size_t locals_count;
    const uint32_t *slots; size_t slots_count; /* widths */
    const slots_address *addresses; size_t addresses_count;
    const slots_end *ends; size_t ends_count;
    const slots_piece *pieces; size_t pieces_count;
    const slots_assigned *assigned; size_t assigned_count;
    const slots_move *moves; size_t moves_count;
} slots_job;

/* Room for a plan, and the plan: the room is lent (counted in structs, and in words of work space), the rest is told. */
typedef struct slots_plan {
    slots_cell *cells; size_t cells_room;   /* at least the items */
    slots_item *items; size_t items_room;   /* at least the items */
    slots_range *areas; size_t areas_room;  /* as many ranges as all areas have, else SLOTS_LIST */
    int32_t *offsets; size_t offsets_room;  /* at least the items; a number for each cell, from the frame base */
    uint64_t *work; size_t work_room;       /* at least slots_job_words(job, areas_room) */
    uint32_t cells_used;                    /* told: how many cells the plan has */
    uint64_t probes, depth;                 /* told: probes spent, and the last cell's depth, with all padding */
} slots_plan;

static inline uint32_t slots_at_most_32_bits(size_t n) { return n > UINT32_MAX ? UINT32_MAX : (uint32_t)n; }

/* How many items a job has: its locals and its slots. */
static inline size_t slots_job_items(const slots_job *job) { return job->locals_count + job->slots_count; }

/* W of a job with an area list of so many ranges. */
static inline uint64_t slots_job_words(const slots_job *job, size_t ranges) {
    return slots_work_words(job->v, slots_at_most_32_bits(job->blocks_count), slots_at_most_32_bits(job->edges_count),
        slots_at_most_32_bits(job->insts_count), slots_at_most_32_bits(job->operands_count), slots_at_most_32_bits(job->crossings_count),
        slots_at_most_32_bits(job->locals_count), slots_at_most_32_bits(job->slots_count), slots_at_most_32_bits(job->addresses_count),
        slots_at_most_32_bits(job->ends_count), slots_at_most_32_bits(job->pieces_count), slots_at_most_32_bits(job->assigned_count),
        slots_at_most_32_bits(job->moves_count), slots_at_most_32_bits(ranges));
}

/* slots_share by name: 0 and the plan is in the lent lists, the told fields are set; or a refusal's code, and all is as it was. */
static inline uint64_t slots_plan_job(const slots_job *job, slots_plan *plan) {
    const uint32_t none = 0;
    uint32_t no_cell = 0, no_item = 0, no_area = 0;
    int32_t no_offset = 0;
    uint64_t no_word = 0, counts[3] = {0, 0, 0};
    const uint64_t code = slots_share(job->points, job->v, job->budget,
        job->blocks_count ? (const uint32_t *)job->blocks : &none, job->blocks_count * 3,
        job->edges_count ? (const uint32_t *)job->edges : &none, job->edges_count * 2,
        job->insts_count ? (const uint32_t *)job->insts : &none, job->insts_count * 9,
        job->operands_count ? (const uint32_t *)job->operands : &none, job->operands_count * 2,
        job->crossings_count ? job->crossings : &none, job->crossings_count,
        job->locals_count ? (const uint32_t *)job->locals : &none, job->locals_count * 2,
        job->slots_count ? job->slots : &none, job->slots_count,
        job->addresses_count ? (const uint32_t *)job->addresses : &none, job->addresses_count * 2,
        job->ends_count ? (const uint32_t *)job->ends : &none, job->ends_count * 2,
        job->pieces_count ? (const uint32_t *)job->pieces : &none, job->pieces_count * 3,
        job->assigned_count ? (const uint32_t *)job->assigned : &none, job->assigned_count * 2,
        job->moves_count ? (const uint32_t *)job->moves : &none, job->moves_count * 4,
        plan->cells_room ? (uint32_t *)plan->cells : &no_cell, plan->cells_room * 2,
        plan->items_room ? (uint32_t *)plan->items : &no_item, plan->items_room * 4,
        plan->areas_room ? (uint32_t *)plan->areas : &no_area, plan->areas_room * 2,
        plan->offsets_room ? plan->offsets : &no_offset, plan->offsets_room,
        counts, 3, plan->work_room ? plan->work : &no_word, plan->work_room);
    if (code == 0) {
        plan->cells_used = (uint32_t)counts[0];
        plan->probes = counts[1];
        plan->depth = counts[2];
    }
    return code;
}

#ifdef __cplusplus
}
#endif

#endif
