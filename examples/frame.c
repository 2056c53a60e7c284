/* Lays out the frame of examples/frame.job, three locals of which two share a cell: where each local lies, from the frame base, and how many bytes
 * the frame takes on a stack that is kept aligned to 16. */
#include <inttypes.h>
#include <stdio.h>
#include <stdlib.h>

#include "slots.h"

#define COUNT(list) (sizeof(list) / sizeof((list)[0]))
#define STACK_ALIGN 16u

static const slots_block blocks[] = {{0, 0, 19}};
/* placed, block, early, late, lea, mem, base, index, operands */
static const slots_inst insts[] = {
    {1, 0, 2, 3, 0, 0, SLOTS_NONE, SLOTS_NONE, 0},
    {1, 0, 6, 7, 0, 0, SLOTS_NONE, SLOTS_NONE, 0},
};
static const slots_local_size locals[] = {{8, 8}, {4, 4}, {20, 16}};
static const slots_address addresses[] = {{0, 0}, {1, 1}, {0, 2}, {1, 2}};

int main(void) {
    slots_job job = {0};
    job.points = 20;
    job.budget = SLOTS_MOST_BUDGET;
    job.blocks = blocks, job.blocks_count = COUNT(blocks);
    job.insts = insts, job.insts_count = COUNT(insts);
    job.locals = locals, job.locals_count = COUNT(locals);
    job.addresses = addresses, job.addresses_count = COUNT(addresses);

    slots_cell cells[COUNT(locals)];
    slots_item items[COUNT(locals)];
    slots_range areas[64];
    int32_t offsets[COUNT(locals)];
    slots_plan plan = {0};
    plan.cells = cells, plan.cells_room = COUNT(cells);
    plan.items = items, plan.items_room = COUNT(items);
    plan.areas = areas, plan.areas_room = COUNT(areas);
    plan.offsets = offsets, plan.offsets_room = COUNT(offsets);
    plan.work_room = (size_t)slots_job_words(&job, plan.areas_room);
    plan.work = malloc(plan.work_room * sizeof *plan.work);
    if (plan.work == NULL) return 1;

    const uint64_t code = slots_plan_job(&job, &plan);
    free(plan.work);
    if (slots_is_refusal(code)) {
        printf("N,%" PRIu32 ",%" PRIu32 "\n", slots_number(code), slots_index(code));
        return 1;
    }
    for (uint32_t i = 0; i < COUNT(locals); i++) printf("local %" PRIu32 " at %" PRId32 "\n", i, offsets[items[i].cell]);
    /* the depth has the padding between cells; rounding up the frame is left to the caller */
    const uint64_t frame = (plan.depth + STACK_ALIGN - 1) / STACK_ALIGN * STACK_ALIGN;
    printf("depth %" PRIu64 ", frame %" PRIu64 "\n", plan.depth, frame);
    return 0;
}
