/* Calls every function of slots.h from C: what it answers, what it leaves in its lists, and that a refusal leaves them as they were. */
#include <stdio.h>
#include <stdlib.h>
#include <string.h>

#include "slots.h"

static int failed;

#define HOLDS(fact) \
    do { \
        if (!(fact)) { fprintf(stderr, "calls.c:%d: not so: %s\n", __LINE__, #fact); failed = 1; } \
    } while (0)

#define REFUSED(code, number, index) HOLDS((code) == ((uint64_t)(number) << 32 | (index)))

static int all_are(const void *list, size_t bytes, unsigned char byte) {
    const unsigned char *p = list;
    for (size_t i = 0; i < bytes; i++)
        if (p[i] != byte) return 0;
    return 1;
}

/* One block, two instructions, two locals whose addresses they hold: document 01's first example. */
static const slots_block line[] = {{0, 0, 19}};
static const slots_inst code[] = {{1, 0, 2, 3, 0, 0, SLOTS_NONE, SLOTS_NONE, 0}, {1, 0, 6, 7, 0, 0, SLOTS_NONE, SLOTS_NONE, 0}};
static const slots_local_size sizes[] = {{8, 8}, {4, 4}};
static const slots_address held[] = {{0, 0}, {1, 1}};

static slots_job first_job(void) {
    slots_job job;
    memset(&job, 0, sizeof job);
    job.points = 20;
    job.budget = SLOTS_MOST_BUDGET;
    job.blocks = line, job.blocks_count = 1;
    job.insts = code, job.insts_count = 2;
    job.locals = sizes, job.locals_count = 2;
    job.addresses = held, job.addresses_count = 2;
    return job;
}

/* Lists of the heap, each exactly as long as it is said to be, so that a sanitizer sees a step past an end. */
static slots_plan room_for(size_t cells, size_t items, size_t areas, size_t offsets, size_t work) {
    slots_plan plan;
    memset(&plan, 0, sizeof plan);
    plan.cells = malloc(cells * sizeof *plan.cells), plan.cells_room = cells;
    plan.items = malloc(items * sizeof *plan.items), plan.items_room = items;
    plan.areas = malloc(areas * sizeof *plan.areas), plan.areas_room = areas;
    plan.offsets = malloc(offsets ? offsets * sizeof *plan.offsets : 1), plan.offsets_room = offsets;
    plan.work = malloc(work * sizeof *plan.work), plan.work_room = work;
    memset(plan.cells, 0x5a, cells * sizeof *plan.cells);
    memset(plan.items, 0x5a, items * sizeof *plan.items);
    memset(plan.areas, 0x5a, areas * sizeof *plan.areas);
    memset(plan.offsets, 0x5a, offsets * sizeof *plan.offsets);
    memset(plan.work, 0x5a, work * sizeof *plan.work);
    return plan;
}

static void done_with(slots_plan *plan) {
    free(plan->cells), free(plan->items), free(plan->areas), free(plan->offsets), free(plan->work);
}

static int lists_unchanged(const slots_plan *plan) {
    return all_are(plan->cells, plan->cells_room * sizeof *plan->cells, 0x5a) && all_are(plan->items, plan->items_room * sizeof *plan->items, 0x5a)
        && all_are(plan->areas, plan->areas_room * sizeof *plan->areas, 0x5a) && all_are(plan->offsets, plan->offsets_room * sizeof *plan->offsets, 0x5a)
        && plan->cells_used == 0 && plan->probes == 0 && plan->depth == 0;
}

static void the_first_job(void) {
    const slots_job job = first_job();
    const size_t words = (size_t)slots_job_words(&job, 64);
    HOLDS(words == 576);
    slots_plan plan = room_for(3, 3, 64, 3, words + 1);
    HOLDS(slots_plan_job(&job, &plan) == 0);
    HOLDS(plan.cells_used == 1 && plan.probes == 1 && plan.depth == 8);
    HOLDS(plan.cells[0].size == 8 && plan.cells[0].align == 8);
    HOLDS(plan.items[0].cell == 0 && plan.items[0].present == 1 && plan.items[0].first == 0 && plan.items[0].count == 1);
    HOLDS(plan.items[1].cell == 0 && plan.items[1].present == 1 && plan.items[1].first == 1 && plan.items[1].count == 1);
    HOLDS(plan.areas[0].start == 2 && plan.areas[0].end == 3 && plan.areas[1].start == 6 && plan.areas[1].end == 7);
    HOLDS(all_are(plan.cells + 1, 2 * sizeof *plan.cells, 0x5a) && all_are(plan.items + 2, sizeof *plan.items, 0x5a));
    HOLDS(all_are(plan.areas + 2, 62 * sizeof *plan.areas, 0x5a));
    HOLDS(plan.offsets[0] == -8 && all_are(plan.offsets + 1, 2 * sizeof *plan.offsets, 0x5a));
    HOLDS(all_are(plan.work, words * 8, 0) && all_are(plan.work + words, 8, 0x5a));
    done_with(&plan);
}

static void refused(const slots_job *job, uint32_t number, uint32_t index) {
    slots_plan plan = room_for(2, 2, 64, 2, (size_t)slots_job_words(job, 64));
    REFUSED(slots_plan_job(job, &plan), number, index);
    HOLDS(lists_unchanged(&plan) && all_are(plan.work, plan.work_room * 8, 0x5a));
    done_with(&plan);
}

static void refusals_of_a_job(void) {
    slots_job job;
    memset(&job, 0, sizeof job);
    slots_plan none;
    memset(&none, 0, sizeof none);
    REFUSED(slots_plan_job(&job, &none), SLOTS_COUNT, 0); /* no block, and every list NULL */
    job = first_job(), job.budget++;
    refused(&job, SLOTS_COUNT, 0);
    const slots_block reversed[] = {{0, 5, 4}};
    job = first_job(), job.blocks = reversed;
    refused(&job, SLOTS_LINE, 0);
    const slots_edge nowhere[] = {{0, 0}, {0, 1}};
    job = first_job(), job.edges = nowhere, job.edges_count = 2;
    refused(&job, SLOTS_EDGE, 1);
    const uint32_t crossing[] = {256};
    job = first_job(), job.crossings = crossing, job.crossings_count = 1;
    refused(&job, SLOTS_INST, 0);
    const slots_end end[] = {{2, 0}};
    job = first_job(), job.ends = end, job.ends_count = 1;
    refused(&job, SLOTS_STRAY, 0);
    const slots_piece piece[] = {{0, 1, 2}};
    job = first_job(), job.pieces = piece, job.pieces_count = 1;
    refused(&job, SLOTS_PIECE, 0);

    job = first_job();
    slots_plan plan = room_for(1, 2, 64, 2, 576);
    REFUSED(slots_plan_job(&job, &plan), SLOTS_SPACE, 0);
    HOLDS(lists_unchanged(&plan) && all_are(plan.work, 576 * 8, 0x5a));
    done_with(&plan);
    plan = room_for(2, 2, 64, 2, 575);
    REFUSED(slots_plan_job(&job, &plan), SLOTS_SPACE, 0);
    done_with(&plan);
    const size_t words = (size_t)slots_job_words(&job, 1);
    plan = room_for(2, 2, 1, 2, words + 1);
    REFUSED(slots_plan_job(&job, &plan), SLOTS_LIST, 0);
    HOLDS(lists_unchanged(&plan) && all_are(plan.work, words * 8, 0) && all_are(plan.work + words, 8, 0x5a));
    done_with(&plan);
}

/* The first job with other locals and no budget, so with a cell for each of the two: where they lie. */
static void laid_out(const slots_local_size *two, int32_t first, int32_t second) {
    slots_job job = first_job();
    job.locals = two, job.budget = 0;
    slots_plan plan = room_for(2, 2, 2, 3, (size_t)slots_job_words(&job, 2));
    HOLDS(slots_plan_job(&job, &plan) == 0 && plan.cells_used == 2);
    HOLDS(plan.offsets[0] == first && plan.offsets[1] == second && all_are(plan.offsets + 2, sizeof *plan.offsets, 0x5a));
    HOLDS(plan.depth == (uint64_t)-(int64_t)second);
    done_with(&plan);
}

/* Or its refusal, which comes after fitting: the work space is zero, the answer lists are as they were. */
static void not_laid_out(const slots_local_size *two, uint32_t number, uint32_t index) {
    slots_job job = first_job();
    job.locals = two, job.budget = 0;
    const size_t words = (size_t)slots_job_words(&job, 2);
    slots_plan plan = room_for(2, 2, 2, 2, words + 1);
    REFUSED(slots_plan_job(&job, &plan), number, index);
    HOLDS(lists_unchanged(&plan) && all_are(plan.work, words * 8, 0) && all_are(plan.work + words, 8, 0x5a));
    done_with(&plan);
}

static void offsets_of_a_job(void) {
    laid_out((const slots_local_size[]){{8, 8}, {4, 4}}, -8, -12);
    laid_out((const slots_local_size[]){{20, 16}, {12, 8}}, -32, -48); /* 12 bytes of padding, then 4 */
    laid_out((const slots_local_size[]){{0, 8}, {1, 1}}, 0, -1);       /* a cell without bytes */
    laid_out((const slots_local_size[]){{4, 8}, {0, 8}}, -8, -8);
    laid_out((const slots_local_size[]){{0, 0x80000000u}, {0, 1}}, 0, 0);
    laid_out((const slots_local_size[]){{0x7ffffffeu, 1}, {1, 1}}, -0x7ffffffe, -0x7fffffff);
    not_laid_out((const slots_local_size[]){{8, 12}, {4, 4}}, SLOTS_ALIGN, 0);
    not_laid_out((const slots_local_size[]){{8, 8}, {4, 3}}, SLOTS_ALIGN, 1);
    not_laid_out((const slots_local_size[]){{8, 8}, {4, 0}}, SLOTS_ALIGN, 1);
    not_laid_out((const slots_local_size[]){{0x80000000u, 8}, {4, 4}}, SLOTS_DEPTH, 0);
    not_laid_out((const slots_local_size[]){{1, 0x80000000u}, {4, 4}}, SLOTS_DEPTH, 0); /* rounded up */
    not_laid_out((const slots_local_size[]){{0x7fffffffu, 1}, {1, 1}}, SLOTS_DEPTH, 1);
    not_laid_out((const slots_local_size[]){{0x80000000u, 8}, {4, 3}}, SLOTS_ALIGN, 1); /* cell 0 is too deep, but 12 comes first */
}

/* slots_share itself on the first job, with room for so many counts; the other lists are `plan`'s. */
static uint64_t share_with(uint32_t budget, uint64_t *counts, size_t room, slots_plan *plan) {
    const uint32_t none = 0;
    return slots_share(20, 0, budget, (const uint32_t *)line, 3, &none, 0, (const uint32_t *)code, 18, &none, 0, &none, 0, (const uint32_t *)sizes, 4, &none, 0,
        (const uint32_t *)held, 4, &none, 0, &none, 0, &none, 0, &none, 0, (uint32_t *)plan->cells, 2 * plan->cells_room, (uint32_t *)plan->items, 4 * plan->items_room,
        (uint32_t *)plan->areas, 2 * plan->areas_room, plan->offsets, plan->offsets_room, counts, room, plan->work, plan->work_room);
}

/* Offsets under the items are refused with 7, also where there are as many as cells: after 1, before 9, and nothing is written. */
static void offsets_in_less_room(void) {
    for (size_t room = 0; room <= 3; room++) {
        uint64_t counts[3] = {77, 77, 77};
        slots_plan plan = room_for(2, 2, 64, room, 576), narrow = room_for(2, 2, 1, room, 72);
        if (room < 2) {
            REFUSED(share_with(9, counts, 3, &plan), SLOTS_SPACE, 0);
            REFUSED(share_with(9, counts, 3, &narrow), SLOTS_SPACE, 0);
            REFUSED(share_with(SLOTS_MOST_BUDGET + 1, counts, 3, &plan), SLOTS_COUNT, 0);
            HOLDS(lists_unchanged(&plan) && lists_unchanged(&narrow) && all_are(plan.work, 576 * 8, 0x5a) && counts[0] == 77);
        } else {
            HOLDS(share_with(9, counts, 3, &plan) == 0 && counts[0] == 1 && plan.offsets[0] == -8);
            HOLDS(all_are(plan.offsets + 1, (room - 1) * sizeof *plan.offsets, 0x5a));
        }
        done_with(&plan);
        done_with(&narrow);
    }
}

/* Counts under three numbers are refused with 7: after 1, before 9, and nothing is written. */
static void counts_in_less_room(void) {
    for (size_t room = 0; room <= 4; room++) {
        uint64_t *counts = malloc(room ? room * 8 : 1);
        memset(counts, 0x5a, room * 8);
        slots_plan plan = room_for(2, 2, 64, 2, 576), narrow = room_for(2, 2, 1, 2, 72);
        if (room < 3) {
            REFUSED(share_with(9, counts, room, &plan), SLOTS_SPACE, 0);
            REFUSED(share_with(9, counts, room, &narrow), SLOTS_SPACE, 0);
            REFUSED(share_with(SLOTS_MOST_BUDGET + 1, counts, room, &plan), SLOTS_COUNT, 0);
            HOLDS(lists_unchanged(&plan) && lists_unchanged(&narrow) && all_are(plan.work, 576 * 8, 0x5a) && all_are(counts, room * 8, 0x5a));
        } else {
            HOLDS(share_with(9, counts, room, &plan) == 0);
            const uint64_t told[] = {1, 1, 8, 0x5a5a5a5a5a5a5a5aULL};
            HOLDS(memcmp(counts, told, room * 8) == 0);
        }
        free(counts);
        done_with(&plan);
        done_with(&narrow);
    }
}

static void words_needed(void) {
    HOLDS(slots_work_words(0, 0, 0, 0, 0, 0, 0, 0, 0, 0, 0, 0, 0, 0) == 0);
    HOLDS(slots_work_words(65, 3, 1, 1, 1, 1, 129, 1, 1, 1, 1, 1, 1, 7) == 8 * (3 + 129 + 10 + 3 * 3 + 7 + 2));
    const uint64_t most = UINT32_MAX, words = (most + 63) / 64;
    HOLDS(slots_work_words(UINT32_MAX, UINT32_MAX, UINT32_MAX, UINT32_MAX, UINT32_MAX, UINT32_MAX, UINT32_MAX, UINT32_MAX, UINT32_MAX, UINT32_MAX,
        UINT32_MAX, UINT32_MAX, UINT32_MAX, UINT32_MAX) == 8 * (12 * most + most * words + most + words));
    HOLDS(slots_fit_words(3, 4) == 56 && slots_fit_words(UINT32_MAX, UINT32_MAX) == 16 * most);
    HOLDS(slots_graph_words(3, 2, 0) == 40 && slots_graph_words(3, 2, 5) == 160 && slots_graph_words(0, 0, UINT32_MAX) == 0);
    HOLDS(slots_graph_words(1u << 29, 0, UINT32_MAX) == UINT64_MAX && slots_graph_words(1u << 29, 0, UINT32_MAX - 1) == UINT64_MAX - ((uint64_t)1 << 32) + 1);
    HOLDS(slots_graph_words(UINT32_MAX, UINT32_MAX, UINT32_MAX) == UINT64_MAX);
    HOLDS(slots_reach_words(65, 3, 1, 1, 1, 129, 1, 1) == 8 * (3 + 5 + 129 + 3 * 3 + 2) && slots_reach_words(0, 1, 0, 0, 0, 1, 0, 0) == 24);
    HOLDS(slots_reach_words(UINT32_MAX, UINT32_MAX, UINT32_MAX, UINT32_MAX, UINT32_MAX, UINT32_MAX, UINT32_MAX, UINT32_MAX) == 8 * (7 * most + most * words + words));
    HOLDS(slots_moved_words(1, 1, 0, 0, 0) == 16 && slots_moved_words(UINT32_MAX, UINT32_MAX, UINT32_MAX, UINT32_MAX, UINT32_MAX) == 8 * (4 * most + words));
    HOLDS(slots_spilled_words(65, 3) == 40 && slots_spilled_words(UINT32_MAX, UINT32_MAX) == 8 * (most + words));
    HOLDS(slots_area_words(3, 2, 65, 4, 5, 6) == 8 * (3 + 2 + 65 + 4 + 5 + 3 * 2 + 6));
    HOLDS(slots_area_words(UINT32_MAX, UINT32_MAX, UINT32_MAX, UINT32_MAX, UINT32_MAX, UINT32_MAX) == 8 * (6 * most + most * words));
}

static void fitting_alone(void) {
    const slots_want wants[] = {{8, 8, 1, 0, 1}, {8, 8, 1, 1, 1}, {4, 4, 1, 2, 1}, {2, 2, 0, 9, 9}};
    const slots_range areas[] = {{0, 1}, {2, 3}, {4, 5}};
    slots_cell cells[4];
    slots_item items[4];
    int32_t offsets[5];
    uint64_t counts[3], work[57];
    memset(offsets, 0x5a, sizeof offsets), memset(work, 0x5a, sizeof work);
    HOLDS(slots_fit_wants((const uint32_t *)wants, 20, (const uint32_t *)areas, 6, 2, 1, (uint32_t *)cells, 8, (uint32_t *)items, 16, offsets, 5, counts, 3, work, 56) == 0);
    HOLDS(counts[0] == 3 && counts[1] == 1 && counts[2] == 14);
    HOLDS(offsets[0] == -8 && offsets[1] == -12 && offsets[2] == -14 && all_are(offsets + 3, 2 * sizeof *offsets, 0x5a));
    HOLDS(items[0].cell == 0 && items[1].cell == 0 && items[2].cell == 1 && items[3].cell == 2);
    HOLDS(items[3].present == 0 && items[3].first == 0 && items[3].count == 0 && all_are(work, 56 * 8, 0) && all_are(work + 56, 8, 0x5a));
    memset(items, 0x5a, sizeof items), memset(offsets, 0x5a, sizeof offsets), memset(work, 0x5a, sizeof work);
    REFUSED(slots_fit_wants((const uint32_t *)wants, 20, (const uint32_t *)areas, 4, 2, 1, (uint32_t *)cells, 8, (uint32_t *)items, 16, offsets, 4, counts, 3, work, 56), SLOTS_WANT, 2);
    REFUSED(slots_fit_wants((const uint32_t *)wants, 20, (const uint32_t *)areas, 6, 2, 1, (uint32_t *)cells, 8, (uint32_t *)items, 16, offsets, 4, counts, 3, work, 55), SLOTS_SPACE, 0);
    REFUSED(slots_fit_wants((const uint32_t *)wants, 20, (const uint32_t *)areas, 4, 2, 1, (uint32_t *)cells, 8, (uint32_t *)items, 16, offsets, 3, counts, 3, work, 56), SLOTS_SPACE, 0);
    REFUSED(slots_fit_wants((const uint32_t *)wants, 19, (const uint32_t *)areas, 6, 2, 1, (uint32_t *)cells, 8, (uint32_t *)items, 16, offsets, 3, counts, 3, work, 56), SLOTS_COUNT, 0);
    for (size_t room = 0; room < 3; room++) { /* before 10, and after 1; also where no word of work space is needed */
        REFUSED(slots_fit_wants((const uint32_t *)wants, 20, (const uint32_t *)areas, 4, 2, 1, (uint32_t *)cells, 8, (uint32_t *)items, 16, offsets, 4, counts, room, work, 56), SLOTS_SPACE, 0);
        REFUSED(slots_fit_wants((const uint32_t *)wants, 19, (const uint32_t *)areas, 6, 2, 1, (uint32_t *)cells, 8, (uint32_t *)items, 16, offsets, 4, counts, room, work, 56), SLOTS_COUNT, 0);
        REFUSED(slots_fit_wants((const uint32_t *)wants, 0, (const uint32_t *)areas, 0, 0, 1, (uint32_t *)cells, 8, (uint32_t *)items, 16, offsets, 4, counts, room, work, 56), SLOTS_SPACE, 0);
    }
    HOLDS(all_are(items, sizeof items, 0x5a) && all_are(offsets, sizeof offsets, 0x5a) && all_are(work, sizeof work, 0x5a));
    HOLDS(counts[0] == 3 && counts[1] == 1 && counts[2] == 14);
}

/* Two wants that may share: the second's alignment is no power of two, so it may join a cell and not open one. */
static void offsets_of_fitting_alone(void) {
    const slots_want odd[] = {{8, 8, 1, 0, 1}, {20, 3, 1, 1, 1}}, deep[] = {{0x80000000u, 4, 0, 0, 0}, {20, 3, 1, 1, 1}};
    const slots_range areas[] = {{0, 0}, {2, 2}}, reversed[] = {{0, 0}, {2, 1}};
    uint32_t cells[4], items[8];
    int32_t offsets[3];
    uint64_t counts[3] = {77, 77, 77}, work[33];
    memset(cells, 0x5a, sizeof cells), memset(items, 0x5a, sizeof items), memset(offsets, 0x5a, sizeof offsets), memset(work, 0x5a, sizeof work);
    REFUSED(slots_fit_wants((const uint32_t *)odd, 10, (const uint32_t *)reversed, 4, 1, 0, cells, 4, items, 8, offsets, 2, counts, 3, work, 32), SLOTS_WANT, 1);
    HOLDS(all_are(work, sizeof work, 0x5a));
    REFUSED(slots_fit_wants((const uint32_t *)odd, 10, (const uint32_t *)areas, 4, 1, 0, cells, 4, items, 8, offsets, 2, counts, 3, work, 32), SLOTS_ALIGN, 1);
    HOLDS(all_are(work, 32 * 8, 0) && all_are(work + 32, 8, 0x5a));
    REFUSED(slots_fit_wants((const uint32_t *)deep, 10, (const uint32_t *)areas, 4, 1, 9, cells, 4, items, 8, offsets, 2, counts, 3, work, 32), SLOTS_ALIGN, 1);
    memset(work, 0x5a, sizeof work);
    REFUSED(slots_fit_wants((const uint32_t *)deep, 5, (const uint32_t *)areas, 4, 1, 9, cells, 4, items, 8, offsets, 2, counts, 3, work, 33), SLOTS_DEPTH, 0);
    HOLDS(all_are(work, 24 * 8, 0) && all_are(work + 24, 9 * 8, 0x5a));
    HOLDS(all_are(cells, sizeof cells, 0x5a) && all_are(items, sizeof items, 0x5a) && all_are(offsets, sizeof offsets, 0x5a) && counts[0] == 77 && counts[2] == 77);
    HOLDS(slots_fit_wants((const uint32_t *)odd, 10, (const uint32_t *)areas, 4, 1, 1, cells, 4, items, 8, offsets, 3, counts, 3, work, 32) == 0);
    HOLDS(counts[0] == 1 && counts[1] == 1 && counts[2] == 24 && offsets[0] == -24 && all_are(offsets + 1, 2 * sizeof *offsets, 0x5a));
}

/* A plan of two locals and three slots in three cells: local 0 with slot 0, local 1 alone, slots 1 and 2. */
static void queries(void) {
    const slots_cell plan_cells[] = {{8, 8}, {16, 16}, {4, 4}};
    const slots_item plan_items[] = {{0, 1, 0, 2}, {1, 1, 2, 1}, {0, 1, 3, 0}, {2, 0, 0, 0}, {2, 0, 0, 0}};
    const uint32_t *cells = (const uint32_t *)plan_cells, *items = (const uint32_t *)plan_items;
    const uint32_t areas[] = {0, 1, 4, 5, 8, 9};
    HOLDS(slots_local(cells, 6, items, 20, 2, 0) == 0 && slots_local(cells, 6, items, 20, 2, 1) == 1);
    HOLDS(slots_local(cells, 6, items, 20, 2, 2) == SLOTS_ABSENT && slots_local(cells, 6, items, 20, 2, UINT32_MAX) == SLOTS_ABSENT);
    HOLDS(slots_slot(cells, 6, items, 20, 2, 0) == 0 && slots_slot(cells, 6, items, 20, 2, 2) == 2);
    HOLDS(slots_slot(cells, 6, items, 20, 2, 3) == SLOTS_ABSENT && slots_slot(cells, 6, items, 20, 2, UINT32_MAX) == SLOTS_ABSENT);
    HOLDS(slots_saved(cells, 6, items, 20, 2) == 2);
    HOLDS(!slots_is_refusal(SLOTS_ABSENT) && !slots_is_refusal(UINT32_MAX));

    uint64_t part[3] = {77, 77, 77};
    HOLDS(slots_shared(cells, 6, items, 20, areas, 6, 2, 1, part, 3) == SLOTS_ABSENT && part[0] == 77 && part[1] == 77);
    REFUSED(slots_shared(cells, 6, items, 20, areas, 6, 2, 0, part, 1), SLOTS_SPACE, 0);
    REFUSED(slots_shared(cells, 6, items, 20, areas, 6, 2, 1, part, 0), SLOTS_SPACE, 0);
    HOLDS(part[0] == 77 && part[1] == 77);
    HOLDS(slots_shared(cells, 6, items, 20, areas, 6, 2, 0, part, 3) == 0 && part[0] == 0 && part[1] == 2 && part[2] == 77);
    REFUSED(slots_shared(cells, 6, items, 20, areas, 4, 2, 0, part, 3), SLOTS_WANT, 1);
    REFUSED(slots_shared(cells, 6, items, 20, areas, 4, 2, 0, part, 1), SLOTS_SPACE, 0);
    REFUSED(slots_shared(cells, 5, items, 20, areas, 4, 2, 0, part, 1), SLOTS_COUNT, 0);

    uint32_t out[4] = {77, 77, 77, 77};
    HOLDS(slots_crowded(cells, 6, items, 20, 2, out, 4) == 3 && out[0] == 0 && out[1] == 1 && out[2] == 2 && out[3] == 77);
    out[0] = 77;
    REFUSED(slots_crowded(cells, 6, items, 20, 2, out, 2), SLOTS_SPACE, 0);
    REFUSED(slots_crowded(cells, 4, items, 20, 2, out, 4), SLOTS_WANT, 3);
    HOLDS(out[0] == 77);

    REFUSED(slots_local(cells, 5, items, 20, 2, 0), SLOTS_COUNT, 0);
    REFUSED(slots_slot(cells, 6, items, 20, 6, 0), SLOTS_COUNT, 0);
    REFUSED(slots_saved(cells, 6, items, 8, 2), SLOTS_WANT, 2);
    REFUSED(slots_saved(cells, 2, items, 20, 2), SLOTS_WANT, 1);

    uint32_t capped[6] = {8, 8, 16, 16, 4, 4};
    HOLDS(slots_cap(capped, 6, 2, 4) == 0 && capped[1] == 4 && capped[2] == 16 && capped[3] == 4 && capped[5] == 4);
    REFUSED(slots_cap(capped, 6, 4, 1), SLOTS_COUNT, 0);
    HOLDS(capped[1] == 4);

    const uint32_t widths[] = {8};
    uint32_t own_cells[8], own_items[14];
    memset(own_cells, 0x5a, sizeof own_cells);
    memset(own_items, 0x5a, sizeof own_items);
    REFUSED(slots_apart((const uint32_t *)sizes, 4, widths, 1, own_cells, 8, own_items, 14), SLOTS_COUNT, 0);
    REFUSED(slots_apart((const uint32_t *)sizes, 4, widths, 1, own_cells, 4, own_items, 12), SLOTS_SPACE, 0);
    HOLDS(all_are(own_cells, sizeof own_cells, 0x5a) && all_are(own_items, sizeof own_items, 0x5a));
    HOLDS(slots_apart((const uint32_t *)sizes, 4, widths, 1, own_cells, 8, own_items, 12) == 0);
    const uint32_t six[] = {8, 8, 4, 4, 8, 8}, twelve[] = {0, 0, 0, 0, 1, 0, 0, 0, 2, 0, 0, 0};
    HOLDS(memcmp(own_cells, six, sizeof six) == 0 && memcmp(own_items, twelve, sizeof twelve) == 0 && own_cells[6] == 0x5a5a5a5a);
}

static void ranges(void) {
    const uint32_t start[] = {5, 1, 10}, end[] = {9, 5, 12};
    uint32_t out_start[4] = {77, 77, 77, 77}, out_end[4] = {77, 77, 77, 77};
    HOLDS(slots_overlaps(1, 4, 4, 6) == 1 && slots_overlaps(1, 4, 5, 6) == 0);
    HOLDS(slots_merged(start, 3, end, 3, out_start, 4, out_end, 4) == 1);
    HOLDS(out_start[0] == 1 && out_end[0] == 12 && out_start[1] == 77 && out_end[1] == 77);
    REFUSED(slots_merged(start, 3, end, 2, out_start, 4, out_end, 4), SLOTS_COUNT, 0);
    REFUSED(slots_merged(start, 3, end, 3, out_start, 2, out_end, 2), SLOTS_SPACE, 0);
    REFUSED(slots_merged(end, 2, start, 2, out_start, 4, out_end, 4), SLOTS_WANT, 0);
    HOLDS(slots_joined(start + 1, 1, end + 1, 1, 6, 7, out_start, 2, out_end, 2) == 1 && out_start[0] == 1 && out_end[0] == 7);
    HOLDS(slots_joined(start + 1, 1, end + 1, 1, 7, 8, out_start, 2, out_end, 2) == 2 && out_start[1] == 7 && out_end[1] == 8);
    REFUSED(slots_joined(start + 1, 1, end + 1, 1, 8, 7, out_start, 2, out_end, 2), SLOTS_WANT, 1);
    const uint32_t a_start[] = {1, 8}, a_end[] = {4, 9}, b_start[] = {4, 20}, b_end[] = {6, 21};
    HOLDS(slots_union(a_start, 2, a_end, 2, b_start, 2, b_end, 2, out_start, 4, out_end, 4) == 3);
    HOLDS(out_start[0] == 1 && out_end[0] == 6 && out_start[1] == 8 && out_end[1] == 9 && out_start[2] == 20 && out_end[2] == 21);
    const uint32_t last[] = {UINT32_MAX - 1, UINT32_MAX};
    HOLDS(slots_union(last, 2, last, 2, start, 0, end, 0, out_start, 4, out_end, 4) == 1 && out_start[0] == last[0] && out_end[0] == last[1]);
    REFUSED(slots_union(a_start, 2, a_end, 2, b_end, 2, b_start, 2, out_start, 4, out_end, 4), SLOTS_WANT, 2);
    HOLDS(slots_clashes(a_start, 2, a_end, 2, b_start, 2, b_end, 2) == 1 && slots_clashes(a_start, 1, a_end, 1, b_start + 1, 1, b_end + 1, 1) == 0);
    REFUSED(slots_clashes(start, 2, end, 2, b_start, 2, b_end, 2), SLOTS_WANT, 1);
}

/* Three blocks in a line, and a loop on the second. */
static void rows_of_bits(void) {
    const uint32_t blocks[] = {0, 0, 9, 1, 10, 19, 2, 20, 29}, edges[] = {0, 1, 1, 1, 1, 2};
    const uint64_t touched[] = {1, 2, 0}, passes[] = {0, 0, 0};
    uint64_t out[3], work[72];
    HOLDS(slots_flowed(0, blocks, 9, edges, 6, 29, touched, 3, 1, out, 3, work, 72) == 0 && out[0] == 0 && out[1] == 3 && out[2] == 3);
    HOLDS(slots_flowed(1, blocks, 9, edges, 6, 29, touched, 3, 1, out, 3, work, 72) == 0 && out[0] == 2 && out[1] == 2 && out[2] == 0);
    HOLDS(slots_spread(blocks, 9, edges, 6, 29, touched, 3, passes, 3, 1, out, 3, work, 72) == 0 && out[0] == 0 && out[1] == 3 && out[2] == 2);
    REFUSED(slots_spread(blocks, 9, edges, 6, 28, touched, 3, passes, 3, 1, out, 3, work, 72), SLOTS_LINE, 2);
    REFUSED(slots_flowed(0, blocks, 9, edges, 6, 29, touched, 3, 1, out, 3, work, 71), SLOTS_SPACE, 0);
    HOLDS(out[1] == 3 && out[2] == 2);
}

static void components_and_order(void) {
    const uint32_t blocks[] = {0, 0, 9, 1, 10, 19, 2, 20, 29}, edges[] = {0, 1, 1, 0, 1, 2};
    uint32_t which[4] = {77, 77, 77, 77}, order[4] = {77, 77, 77, 77};
    uint64_t work[49];
    memset(work, 0x5a, sizeof work);
    HOLDS(slots_graph_words(3, 3, 0) == 48);
    HOLDS(slots_components(blocks, 9, edges, 6, 29, which, 4, work, 49) == 2 && which[0] == 1 && which[1] == 1 && which[2] == 0 && which[3] == 77);
    HOLDS(all_are(work, 48 * 8, 0) && all_are(work + 48, 8, 0x5a));
    HOLDS(slots_settling(blocks, 9, edges, 6, 29, order, 4, work, 48) == 0 && order[2] == 2 && order[0] + order[1] == 1 && order[3] == 77);
    which[0] = order[0] = 77;
    REFUSED(slots_components(blocks, 9, edges, 6, 29, which, 2, work, 48), SLOTS_SPACE, 0);
    REFUSED(slots_settling(blocks, 9, edges, 6, 29, order, 3, work, 47), SLOTS_SPACE, 0);
    REFUSED(slots_components(blocks, 8, edges, 6, 29, which, 3, work, 48), SLOTS_COUNT, 0);
    const uint32_t nowhere[] = {0, 1, 1, 3};
    REFUSED(slots_settling(blocks, 9, nowhere, 4, 29, order, 3, work, 48), SLOTS_EDGE, 1);
    HOLDS(which[0] == 77 && order[0] == 77);
}

/* Local 0 is held by register 0, local 1 by none, and local 2 by register 1, which escapes; it ends. */
static const slots_inst five[] = {{1, 0, 2, 3, 1, 0, SLOTS_NONE, SLOTS_NONE, 1}, {1, 0, 4, 5, 0, 1, 0, SLOTS_NONE, 1}, {1, 0, 6, 7, 1, 0, SLOTS_NONE, SLOTS_NONE, 1},
    {1, 0, 8, 9, 0, 0, SLOTS_NONE, SLOTS_NONE, 1}, {1, 0, 12, 13, 0, 0, SLOTS_NONE, SLOTS_NONE, 0}};
static const slots_operand four[] = {{1, 0}, {0, 0}, {1, 1}, {0, 1}};

static void carried_addresses(void) {
    const uint32_t none = 0, three[] = {8, 8, 8, 8, 4, 4}, addresses[] = {0, 0, 2, 2}, ends[] = {4, 2}, stray[] = {5, 2};
    uint32_t kinds[4] = {77, 77, 77, 77}, registers[2] = {77, 77};
    uint64_t work[145];
    memset(work, 0x5a, sizeof work);
    HOLDS(slots_reach_words(2, 1, 5, 4, 0, 3, 2, 1) == 144);
    HOLDS(slots_reach(20, 2, (const uint32_t *)line, 3, (const uint32_t *)five, 45, (const uint32_t *)four, 8, &none, 0, three, 6, addresses, 4, ends, 2, kinds, 4, work, 145) == 3);
    HOLDS(kinds[0] == SLOTS_PLAIN && kinds[1] == SLOTS_UNFOLLOWED && kinds[2] == SLOTS_ENDING && kinds[3] == 77);
    HOLDS(all_are(work, 144 * 8, 0) && all_are(work + 144, 8, 0x5a));
    REFUSED(slots_reach(20, 2, (const uint32_t *)line, 3, (const uint32_t *)five, 45, (const uint32_t *)four, 8, &none, 0, three, 6, addresses, 4, stray, 2, kinds, 4, work, 145), SLOTS_STRAY, 0);
    REFUSED(slots_reach(20, 2, (const uint32_t *)line, 3, (const uint32_t *)five, 45, (const uint32_t *)four, 8, &none, 0, three, 6, addresses, 4, ends, 2, kinds, 4, work, 143), SLOTS_SPACE, 0);
    for (uint32_t local = 0; local < 4; local++) {
        const uint64_t told[] = {1, 0, 1, SLOTS_ABSENT};
        HOLDS(slots_carried(20, 2, (const uint32_t *)line, 3, (const uint32_t *)five, 45, (const uint32_t *)four, 8, &none, 0, three, 6, addresses, 4, ends, 2, local, registers, 2, work, 144) == told[local]);
        HOLDS(registers[0] == (local == 0 ? 0 : local == 1 ? 0 : 1) && registers[1] == 77);
    }
    REFUSED(slots_carried(20, 2, (const uint32_t *)line, 3, (const uint32_t *)five, 45, (const uint32_t *)four, 8, &none, 0, three, 6, addresses, 4, ends, 2, 0, registers, 1, work, 144), SLOTS_SPACE, 0);
}

static void slots_and_moves(void) {
    const slots_move moves[] = {{0, 1, 0, SLOTS_NO_SLOT}, {3, 0, SLOTS_NO_SLOT, 0}}, strays[] = {{0, 1, 0, 1}, {4, 0, 0, 1}};
    slots_range out[4];
    uint64_t work[104];
    memset(out, 0x5a, sizeof out);
    HOLDS(slots_moved_words(2, 1, 5, 4, 2) == 104);
    HOLDS(slots_moved(20, 2, (const uint32_t *)line, 3, (const uint32_t *)five, 45, (const uint32_t *)four, 8, (const uint32_t *)moves, 8, 0, (uint32_t *)out, 8, work, 104) == 2);
    HOLDS(out[0].start == 3 && out[0].end == 5 && out[1].start == 18 && out[1].end == 20 && all_are(out + 2, 2 * sizeof *out, 0x5a));
    HOLDS(slots_moved(20, 2, (const uint32_t *)line, 3, (const uint32_t *)five, 45, (const uint32_t *)four, 8, (const uint32_t *)moves, 8, 1, (uint32_t *)out, 8, work, 104) == 0);
    REFUSED(slots_moved(20, 2, (const uint32_t *)line, 3, (const uint32_t *)five, 45, (const uint32_t *)four, 8, (const uint32_t *)strays, 8, 0, (uint32_t *)out, 8, work, 104), SLOTS_STRAY, 1);
    REFUSED(slots_moved(20, 2, (const uint32_t *)line, 3, (const uint32_t *)five, 45, (const uint32_t *)four, 8, (const uint32_t *)moves, 8, 0, (uint32_t *)out, 7, work, 104), SLOTS_COUNT, 0);
    REFUSED(slots_moved(20, 2, (const uint32_t *)line, 3, (const uint32_t *)five, 45, (const uint32_t *)four, 8, (const uint32_t *)moves, 8, 0, (uint32_t *)out, 6, work, 104), SLOTS_SPACE, 0);
    HOLDS(out[0].start == 3);

    const slots_assigned assigned[] = {{0, 1}, {1, 1}, {0, 9}};
    uint32_t registers[3] = {77, 77, 77};
    HOLDS(slots_spilled_words(2, 3) == 32);
    HOLDS(slots_spilled(2, 2, (const uint32_t *)assigned, 6, registers, 3, work, 32) == 2 && registers[0] == 2 && registers[1] == 1 && registers[2] == 77);
    REFUSED(slots_spilled(1, 2, (const uint32_t *)assigned, 6, registers, 3, work, 32), SLOTS_PIECE, 1);
    REFUSED(slots_spilled(2, 2, (const uint32_t *)assigned, 6, registers, 3, work, 31), SLOTS_SPACE, 0);
    REFUSED(slots_spilled(2, 2049, (const uint32_t *)assigned, 6, registers, 3, work, 32), SLOTS_COUNT, 0);
}

static void areas_of_items(void) {
    const uint32_t none = 0;
    slots_range areas[3];
    slots_area items[3];
    uint64_t work[90];
    memset(areas, 0x5a, sizeof areas), memset(items, 0x5a, sizeof items);
    const size_t words = (size_t)slots_work_words(0, 1, 0, 2, 0, 0, 2, 0, 2, 0, 0, 0, 0, 3);
    HOLDS(slots_item_areas(20, 0, (const uint32_t *)line, 3, &none, 0, (const uint32_t *)code, 18, &none, 0, &none, 0, (const uint32_t *)sizes, 4, &none, 0, (const uint32_t *)held, 4,
        &none, 0, &none, 0, &none, 0, &none, 0, (uint32_t *)areas, 6, (uint32_t *)items, 9, work, words) == 2);
    HOLDS(areas[0].start == 2 && areas[0].end == 3 && areas[1].start == 6 && areas[1].end == 7 && all_are(areas + 2, sizeof *areas, 0x5a));
    HOLDS(items[0].present == 1 && items[0].first == 0 && items[0].count == 1 && items[1].first == 1 && items[1].count == 1 && all_are(items + 2, sizeof *items, 0x5a));
    REFUSED(slots_item_areas(20, 0, (const uint32_t *)line, 3, &none, 0, (const uint32_t *)code, 18, &none, 0, &none, 0, (const uint32_t *)sizes, 4, &none, 0, (const uint32_t *)held, 4,
        &none, 0, &none, 0, &none, 0, &none, 0, (uint32_t *)areas, 2, (uint32_t *)items, 9, work, words), SLOTS_LIST, 0);

    const uint32_t blocks[] = {0, 0, 9, 1, 10, 19, 2, 20, 29}, edges[] = {0, 1, 1, 2};
    const uint32_t touches[] = {0, 12, 13, 1, 12, 13, 2, 12, 13, 9, 1, 3}, ends[] = {1, 15}, kinds[] = {SLOTS_PLAIN, SLOTS_ENDING, SLOTS_UNFOLLOWED}, over[] = {0, 3, 0};
    slots_range ranges[4];
    uint64_t room[200];
    const size_t needed = (size_t)slots_area_words(3, 2, 3, 4, 1, 4);
    memset(ranges, 0x5a, sizeof ranges);
    HOLDS(slots_local_areas(blocks, 9, edges, 4, 29, kinds, 3, touches, 12, ends, 2, (uint32_t *)ranges, 8, (uint32_t *)items, 9, room, needed) == 2);
    HOLDS(ranges[0].start == 12 && ranges[0].end == 13 && ranges[1].start == 12 && ranges[1].end == 15 && all_are(ranges + 2, 2 * sizeof *ranges, 0x5a));
    HOLDS(items[0].present == 1 && items[1].present == 1 && items[1].first == 1 && items[1].count == 1 && items[2].present == 0 && items[2].first == 0 && items[2].count == 0);
    REFUSED(slots_local_areas(blocks, 9, edges, 4, 29, over, 3, touches, 12, ends, 2, (uint32_t *)ranges, 8, (uint32_t *)items, 9, room, needed), SLOTS_INST, 1);
    REFUSED(slots_local_areas(blocks, 9, edges, 4, 29, kinds, 3, touches, 12, ends, 2, (uint32_t *)ranges, 8, (uint32_t *)items, 9, room, needed - 1), SLOTS_SPACE, 0);
    const uint32_t reversed[] = {0, 13, 12};
    REFUSED(slots_local_areas(blocks, 9, edges, 4, 29, kinds, 3, reversed, 3, ends, 2, (uint32_t *)ranges, 8, (uint32_t *)items, 9, room, needed), SLOTS_PIECE, 0);
    const uint32_t outside[] = {0, 12, 13, 9, 28, 30};
    REFUSED(slots_local_areas(blocks, 9, edges, 4, 29, kinds, 3, outside, 6, ends, 2, (uint32_t *)ranges, 8, (uint32_t *)items, 9, room, 0), SLOTS_PIECE, 1);
    HOLDS(ranges[1].end == 15);
}

/* out is exactly as long as the text, one byte short, and longer; the heap's, so that a sanitizer sees a step past an end. */
static void text_in_text_out(const char *job, const char *wanted) {
    const size_t n = strlen(wanted);
    for (size_t room = n - 1; room <= n + 1; room++) {
        uint8_t *text = malloc(strlen(job) + 1), *out = malloc(room);
        memcpy(text, job, strlen(job));
        memset(out, 0x5a, room);
        const uint64_t code = slots_print_text(text, strlen(job), out, room);
        if (room < n) {
            REFUSED(code, SLOTS_SPACE, 0);
            HOLDS(all_are(out, room, 0x5a));
        } else {
            HOLDS(code == n && memcmp(out, wanted, n) == 0 && all_are(out + n, room - n, 0x5a));
        }
        HOLDS(memcmp(text, job, strlen(job)) == 0);
        free(text), free(out);
    }
    uint8_t none = 0x5a;
    REFUSED(slots_print_text((const uint8_t *)job, strlen(job), &none, 0), SLOTS_SPACE, 0);
    HOLDS(none == 0x5a);
}

static void texts(void) {
    text_in_text_out("H,20,0,1048576\nB,0,0,19\nI,0,2,3,0,0,-,-\nI,0,6,7,0,0,-,-\nL,8,8\nL,4,4\nA,0,0\nA,1,1\n",
        "C,0,8,8\nL,0,0\nL,1,0\nG,0,2,3\nG,1,6,7\nT,1,1,1,8\n");
    text_in_text_out("H,20,0,1\nB,0,0,19\nE,0,0\nE,0,1\n", "N,3,1\n"); /* the second edge names no block */
    text_in_text_out("H,20,0,1048577\nB,0,0,19\n", "N,1,0\n");
    text_in_text_out("H,20,0,1\nB,0,0\n", "N,11,1\n"); /* a malformed line */
    text_in_text_out("H,0,0,0\nB,0,0,0\nL,12,8\n", "C,0,12,8\nL,0,0\nT,1,0,0,16\n"); /* padding counts */
    text_in_text_out("H,0,0,0\nB,0,0,0\nL,8,3\n", "N,12,0\n");
    text_in_text_out("H,0,0,0\nB,0,0,0\nL,2147483647,1\nL,1,1\n", "N,13,1\n");
}

int main(void) {
    the_first_job();
    refusals_of_a_job();
    offsets_of_a_job();
    offsets_in_less_room();
    counts_in_less_room();
    words_needed();
    fitting_alone();
    offsets_of_fitting_alone();
    queries();
    ranges();
    rows_of_bits();
    components_and_order();
    carried_addresses();
    slots_and_moves();
    areas_of_items();
    texts();
    return failed;
}
