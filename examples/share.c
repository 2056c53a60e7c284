/* Plans the job of examples/loop.job and prints what the planning program prints of it: a loop whose body uses one local, and two more
 * before and after it. */
#include <inttypes.h>
#include <stdio.h>
#include <stdlib.h>

#include "slots.h"

#define COUNT(list) (sizeof(list) / sizeof((list)[0]))

static const slots_block blocks[] = {{0, 0, 9}, {1, 10, 19}, {2, 20, 29}, {3, 30, 39}};
static const slots_edge edges[] = {{0, 1}, {1, 2}, {2, 1}, {2, 3}};
/* placed, block, early, late, lea, mem, base, index, operands */
static const slots_inst insts[] = {
    {1, 0, 2, 3, 0, 0, SLOTS_NONE, SLOTS_NONE, 0},
    {1, 1, 12, 13, 0, 0, SLOTS_NONE, SLOTS_NONE, 0},
    {1, 2, 24, 25, 0, 0, SLOTS_NONE, SLOTS_NONE, 0},
    {1, 3, 32, 33, 0, 0, SLOTS_NONE, SLOTS_NONE, 0},
};
static const slots_local_size locals[] = {{8, 8}, {16, 8}, {4, 4}};
static const slots_address addresses[] = {{1, 0}, {0, 1}, {3, 2}};

int main(void) {
    slots_job job = {0};
    job.points = 39;
    job.v = 2;
    job.budget = SLOTS_MOST_BUDGET;
    job.blocks = blocks, job.blocks_count = COUNT(blocks);
    job.edges = edges, job.edges_count = COUNT(edges);
    job.insts = insts, job.insts_count = COUNT(insts);
    job.locals = locals, job.locals_count = COUNT(locals);
    job.addresses = addresses, job.addresses_count = COUNT(addresses);

    slots_cell cells[COUNT(locals)];
    slots_item items[COUNT(locals)];
    slots_range areas[64];
    int32_t offsets[COUNT(locals)];
    slots_plan plan = {0};
    plan.cells = cells, plan.cells_room = COUNT(cells);
    plan.items = items, plan.items_room = COUNT(items);
    plan.areas = areas, plan.areas_room = COUNT(areas);
    plan.offsets = offsets, plan.offsets_room = COUNT(offsets);
    plan.work_room = (size_t)slots_job_words(&job, plan.areas_room);
    plan.work = malloc(plan.work_room * sizeof *plan.work);
    if (plan.work == NULL) return 1;

    const uint64_t code = slots_plan_job(&job, &plan);
    free(plan.work);
    if (slots_is_refusal(code)) {
        printf("N,%" PRIu32 ",%" PRIu32 "\n", slots_number(code), slots_index(code));
        return 1;
    }
    for (uint32_t k = 0; k < plan.cells_used; k++) printf("C,%" PRIu32 ",%" PRIu32 ",%" PRIu32 "\n", k, cells[k].size, cells[k].align);
    for (uint32_t i = 0; i < COUNT(locals); i++) printf("L,%" PRIu32 ",%" PRIu32 "\n", i, items[i].cell);
    /* the area of each local whose cell it shares */
    for (uint32_t i = 0; i < COUNT(locals); i++) {
        uint64_t part[2];
        if (slots_shared((const uint32_t *)cells, plan.cells_used * 2u, (const uint32_t *)items, COUNT(items) * 4, (const uint32_t *)areas,
                COUNT(areas) * 2, COUNT(locals), i, part, 2) != 0) continue;
        for (uint64_t k = part[0]; k < part[0] + part[1]; k++)
            printf("G,%" PRIu32 ",%" PRIu32 ",%" PRIu32 "\n", i, areas[k].start, areas[k].end);
    }
    printf("T,%" PRIu32 ",%zu,%" PRIu64 ",%" PRIu64 "\n", plan.cells_used, COUNT(items) - plan.cells_used, plan.probes, plan.depth);
    return 0;
}
