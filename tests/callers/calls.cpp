// Calls every function of slots.h from C++: a job by vectors, its plan, its queries and its parts, on jobs of many sizes.
#include <algorithm>
#include <cstdio>
#include <string>
#include <vector>

#include "slots.h"

namespace {

struct Planned {
    uint64_t code;
    slots_plan plan;
    std::vector<slots_cell> cells;
    std::vector<slots_item> items;
    std::vector<slots_range> areas;
    std::vector<int32_t> offsets;
};

const uint32_t none = 0;

// The numbers of rows; a valid pointer also where there are none.
template <class T> const uint32_t *numbers(const std::vector<T> &rows) { return rows.empty() ? &none : reinterpret_cast<const uint32_t *>(rows.data()); }

template <class T> void lend(const T *&list, size_t &count, const std::vector<T> &rows) {
    list = rows.data();
    count = rows.size();
}

Planned plan_of(const slots_job &job, size_t ranges) {
    Planned p = {0, slots_plan(), std::vector<slots_cell>(slots_job_items(&job)), std::vector<slots_item>(slots_job_items(&job)), std::vector<slots_range>(ranges),
        std::vector<int32_t>(slots_job_items(&job))};
    std::vector<uint64_t> work(slots_job_words(&job, ranges));
    p.plan.cells = p.cells.data(), p.plan.cells_room = p.cells.size();
    p.plan.items = p.items.data(), p.plan.items_room = p.items.size();
    p.plan.areas = p.areas.data(), p.plan.areas_room = p.areas.size();
    p.plan.offsets = p.offsets.data(), p.plan.offsets_room = p.offsets.size();
    p.plan.work = work.data(), p.plan.work_room = work.size();
    p.code = slots_plan_job(&job, &p.plan);
    return p;
}

int failed = 0;

void holds(bool fact, const char *what) {
    if (!fact) std::fprintf(stderr, "calls.cpp: not so: %s\n", what), failed = 1;
}

// A list of rows for writing.
template <class T> uint32_t *numbers(std::vector<T> &rows) { return reinterpret_cast<uint32_t *>(rows.data()); }

// slots_share by vectors, and what the parts say of the same job: the areas, the kinds, what carries an address, what moves cover and what is spilled.
void by_parts(const slots_job &job, const Planned &plan, const std::vector<slots_block> &blocks, const std::vector<slots_inst> &insts,
    const std::vector<slots_local_size> &locals, const std::vector<slots_address> &addresses, const std::vector<uint32_t> &widths,
    const std::vector<slots_piece> &pieces, const std::vector<slots_assigned> &assigned) {
    const size_t items = locals.size() + widths.size(), ranges = plan.areas.size();
    const uint32_t v = job.v, b = uint32_t(blocks.size()), l = uint32_t(locals.size());
    std::vector<uint64_t> work(size_t(slots_work_words(v, b, 0, uint32_t(insts.size()), 0, 0, l, uint32_t(widths.size()), uint32_t(addresses.size()), 0,
        uint32_t(pieces.size()), uint32_t(assigned.size()), 0, uint32_t(ranges))));
    std::vector<slots_cell> cells(items + 1);
    std::vector<slots_item> rows(items + 1);
    std::vector<slots_range> areas(ranges + 1);
    std::vector<int32_t> offsets(items + 1, 77);
    uint64_t counts[3] = {0, 0, 0};
    holds(slots_share(job.points, v, job.budget, numbers(blocks), 3 * blocks.size(), &none, 0, numbers(insts), 9 * insts.size(), &none, 0, &none, 0,
        numbers(locals), 2 * locals.size(), numbers(widths), widths.size(), numbers(addresses), 2 * addresses.size(), &none, 0, numbers(pieces), 3 * pieces.size(),
        numbers(assigned), 2 * assigned.size(), &none, 0, numbers(cells), 2 * items, numbers(rows), 4 * items, numbers(areas), 2 * ranges,
        offsets.data(), items, counts, 3, work.data(), work.size()) == plan.code
        && counts[0] == plan.plan.cells_used && counts[2] == plan.plan.depth && std::equal(offsets.begin(), offsets.begin() + counts[0], plan.offsets.begin())
        && offsets[size_t(counts[0])] == 77, "the same job by vectors");
    std::vector<slots_area> own(items + 1);
    holds(slots_item_areas(job.points, v, numbers(blocks), 3 * blocks.size(), &none, 0, numbers(insts), 9 * insts.size(), &none, 0, &none, 0,
        numbers(locals), 2 * locals.size(), numbers(widths), widths.size(), numbers(addresses), 2 * addresses.size(), &none, 0, numbers(pieces), 3 * pieces.size(),
        numbers(assigned), 2 * assigned.size(), &none, 0, numbers(areas), 2 * ranges, numbers(own), 3 * items, work.data(), work.size()) == ranges, "as many ranges as the areas have");
    for (size_t i = 0; i < items; i++)
        holds(own[i].present == plan.items[i].present && own[i].first == plan.items[i].first && own[i].count == plan.items[i].count, "the plan's areas");
    std::vector<uint32_t> kinds(l + 1, 77), registers(widths.size() + insts.size() + 1, 77);
    std::vector<uint64_t> carrying(size_t(slots_reach_words(v, b, uint32_t(insts.size()), 0, 0, l, uint32_t(addresses.size()), 0)));
    holds(slots_reach(job.points, v, numbers(blocks), 3 * blocks.size(), numbers(insts), 9 * insts.size(), &none, 0, &none, 0, numbers(locals), 2 * locals.size(),
        numbers(addresses), 2 * addresses.size(), &none, 0, kinds.data(), kinds.size(), carrying.data(), carrying.size()) == l && kinds[l] == 77, "a kind for each local");
    holds(slots_carried(job.points, v, numbers(blocks), 3 * blocks.size(), numbers(insts), 9 * insts.size(), &none, 0, &none, 0, numbers(locals), 2 * locals.size(),
        numbers(addresses), 2 * addresses.size(), &none, 0, 0, registers.data(), registers.size(), carrying.data(), carrying.size()) == (l ? 0 : SLOTS_ABSENT), "nothing carries it");
    std::vector<uint64_t> moving(size_t(slots_moved_words(v, b, uint32_t(insts.size()), 0, 0)));
    holds(slots_moved(job.points, v, numbers(blocks), 3 * blocks.size(), numbers(insts), 9 * insts.size(), &none, 0, &none, 0, 0, numbers(areas), 0,
        moving.data(), moving.size()) == 0, "no moves");
    std::vector<uint64_t> spilling(size_t(slots_spilled_words(v, uint32_t(assigned.size())) + 1));
    holds(slots_spilled(v, uint32_t(widths.size()), numbers(assigned), 2 * assigned.size(), registers.data(), registers.size(), spilling.data(), spilling.size()) == widths.size(), "each slot");
    for (uint32_t i = 0; i < widths.size(); i++) holds(registers[i] == i, "its register");
}

// n blocks in a ring, or in a line: one component or n.
void over_graphs(uint32_t n) {
    std::vector<slots_block> blocks;
    std::vector<slots_edge> edges;
    for (uint32_t i = 0; i < n; i++) {
        blocks.push_back({i, 2 * i, 2 * i + 1});
        edges.push_back({i, (i + 1) % n});
    }
    std::vector<uint32_t> which(n), order(n);
    std::vector<uint64_t> work(size_t(slots_graph_words(n, n, 1))), touched(n), out(n);
    touched[0] = 1;
    for (size_t e : {n, n - 1}) {
        holds(slots_components(numbers(blocks), 3 * n, numbers(edges), 2 * e, 2 * n, which.data(), n, work.data(), work.size()) == (e == n ? 1 : n), "components");
        holds(slots_settling(numbers(blocks), 3 * n, numbers(edges), 2 * e, 2 * n, order.data(), n, work.data(), work.size()) == 0, "settling");
        if (e < n) for (uint32_t i = 0; i < n; i++) holds(which[i] == n - 1 - i && order[i] == i, "a line's components and order");
        holds(slots_flowed(0, numbers(blocks), 3 * n, numbers(edges), 2 * e, 2 * n, touched.data(), n, 1, out.data(), n, work.data(), work.size()) == 0, "flowed");
        for (uint32_t i = 0; i < n; i++) holds(out[i] == (e == n || i > 0 ? 1u : 0u), "reached from the first");
        holds(slots_spread(numbers(blocks), 3 * n, numbers(edges), 2 * e, 2 * n, touched.data(), n, std::vector<uint64_t>(n).data(), n, 1, out.data(), n, work.data(), work.size()) == 0, "spread");
        for (uint32_t i = 0; i < n; i++) holds(out[i] == (i == 1 % n && (e == n || n > 1) ? 1u : 0u), "arrives at the next");
    }
    const std::vector<uint32_t> kinds = {SLOTS_PLAIN};
    const std::vector<slots_touch> touches = {{0, 0, 0}, {0, 2 * n - 1, 2 * n - 1}};
    std::vector<slots_range> ranges(n + 2);
    std::vector<slots_area> areas(1);
    std::vector<uint64_t> space(size_t(slots_area_words(n, n, 1, 2, 0, n + 2)));
    holds(slots_local_areas(numbers(blocks), 3 * n, numbers(edges), 2 * n, 2 * n, kinds.data(), 1, numbers(touches), 6, &none, 0, numbers(ranges), 2 * ranges.size(),
        numbers(areas), 3, space.data(), space.size()) == 1 && ranges[0].start == 0 && ranges[0].end == 2 * n - 1, "a ring is all one area");
}

// Wants one after another, their plan and its queries; the plan in which nothing is shared.
void wants_and_ranges(uint32_t n) {
    std::vector<slots_want> wants;
    std::vector<slots_range> areas;
    std::vector<uint32_t> start, end;
    for (uint32_t i = 0; i < n; i++) {
        wants.push_back({8, 8, 1, i, 1});
        areas.push_back({3 * i, 3 * i + 1});
        start.push_back(3 * (n - 1 - i)), end.push_back(3 * (n - 1 - i) + 1);
    }
    std::vector<slots_cell> cells(n + 1);
    std::vector<slots_item> items(n + 1);
    std::vector<int32_t> offsets(n + 1, 77);
    std::vector<uint64_t> work(size_t(slots_fit_words(n, n)) + 1);
    uint64_t counts[3], part[2] = {77, 77};
    holds(slots_fit_wants(numbers(wants), 5 * n, numbers(areas), 2 * n, n, SLOTS_MOST_BUDGET, numbers(cells), 2 * n, numbers(items), 4 * n,
        offsets.data(), n, counts, 3, work.data(), work.size()) == 0
        && counts[0] == (n ? 1u : 0u) && offsets[0] == (n ? -8 : 77), "wants that do not meet share one cell");
    const std::vector<slots_cell> &told = cells;
    const std::vector<slots_item> &rows = items;
    holds(slots_local(numbers(told), 2 * counts[0], numbers(rows), 4 * n, n, 0) == (n ? 0 : SLOTS_ABSENT), "a local's cell");
    holds(slots_shared(numbers(told), 2 * counts[0], numbers(rows), 4 * n, numbers(areas), 2 * n, n, 1, part, 2) == (n > 1 ? 0 : SLOTS_ABSENT) && part[0] == (n > 1 ? 1u : 77u), "its area");
    holds(slots_cap(numbers(cells), 2 * n, uint32_t(counts[0]), 4) == 0 && (n == 0 || cells[0].align == 4), "cap");
    const std::vector<uint32_t> widths(n, 8);
    holds(slots_apart(&none, 0, numbers(widths), n, numbers(cells), 2 * n, numbers(items), 4 * n) == 0 && (n == 0 || items[n - 1].cell == n - 1), "apart");
    std::vector<uint32_t> out_start(2 * n + 1), out_end(2 * n + 1), sorted_start, sorted_end;
    holds(slots_merged(numbers(start), n, numbers(end), n, out_start.data(), n + 1, out_end.data(), n + 1) == n && (n == 0 || out_start[0] == 0), "merged");
    sorted_start.assign(out_start.begin(), out_start.begin() + n), sorted_end.assign(out_end.begin(), out_end.begin() + n);
    holds(slots_joined(numbers(sorted_start), n, numbers(sorted_end), n, 3 * n - 1, 3 * n, out_start.data(), n + 1, out_end.data(), n + 1) == (n ? n : 1) || n == 0, "joined");
    holds(slots_union(numbers(sorted_start), n, numbers(sorted_end), n, numbers(sorted_start), n, numbers(sorted_end), n, out_start.data(), 2 * n, out_end.data(), 2 * n) == n, "union");
    holds(slots_clashes(numbers(sorted_start), n, numbers(sorted_end), n, numbers(sorted_start), n, numbers(sorted_end), n) == (n ? 1u : 0u), "clashes");
    holds(slots_overlaps(n, n + 1, n + 1, n + 2) == 1 && slots_overlaps(n, n, n + 1, n + 1) == 0, "overlaps");
}

// n locals, each held by an instruction of its own, one after another in one block: all in one cell.
void in_a_row(uint32_t n) {
    std::vector<slots_inst> insts;
    std::vector<slots_local_size> locals;
    std::vector<slots_address> addresses;
    for (uint32_t i = 0; i < n; i++) {
        insts.push_back({1, 0, 2 * i, 2 * i + 1, 0, 0, SLOTS_NONE, SLOTS_NONE, 0});
        locals.push_back({8, 8});
        addresses.push_back({i, i});
    }
    const std::vector<slots_block> blocks = {{0, 0, 2 * n}};
    slots_job job = slots_job();
    job.points = 2 * n, job.budget = SLOTS_MOST_BUDGET;
    lend(job.blocks, job.blocks_count, blocks);
    lend(job.insts, job.insts_count, insts);
    lend(job.locals, job.locals_count, locals);
    lend(job.addresses, job.addresses_count, addresses);
    const Planned p = plan_of(job, n);
    holds(p.code == 0 && p.plan.cells_used == (n ? 1u : 0u) && p.plan.depth == (n ? 8u : 0u), "items that follow one another share one cell");
    for (uint32_t i = 0; i < n; i++) holds(p.areas[i].start == 2 * i && p.areas[i].end == 2 * i + 1, "the areas are in item order");
    const uint64_t saved = slots_saved(numbers(p.cells), 2 * p.plan.cells_used, numbers(p.items), 4 * p.items.size(), n);
    holds(saved == (n ? n - 1 : 0), "items less cells");
    if (n > 0) holds(plan_of(job, n - 1).code == (uint64_t)SLOTS_LIST << 32, "one range too few");
    by_parts(job, p, blocks, insts, locals, addresses, {}, {}, {});
}

// n slots that are all live at once: a cell for each.
void at_once(uint32_t n) {
    const std::vector<slots_block> blocks = {{0, 0, 9}};
    std::vector<slots_piece> pieces;
    std::vector<slots_assigned> assigned;
    std::vector<uint32_t> widths;
    for (uint32_t i = 0; i < n; i++) {
        pieces.push_back({i, 2, 3});
        assigned.push_back({i, i});
        widths.push_back(8);
    }
    slots_job job = slots_job();
    job.points = 9, job.v = n, job.budget = SLOTS_MOST_BUDGET;
    lend(job.blocks, job.blocks_count, blocks);
    lend(job.slots, job.slots_count, widths);
    lend(job.pieces, job.pieces_count, pieces);
    lend(job.assigned, job.assigned_count, assigned);
    const Planned p = plan_of(job, n);
    holds(p.code == 0 && p.plan.cells_used == n && p.plan.depth == 8u * n, "items that meet have a cell each");
    for (uint32_t i = 0; i < n; i++) holds(p.offsets[i] == -8 * (int32_t(i) + 1), "cells lie below one another");
    std::vector<uint32_t> out(n + 1, 77);
    holds(slots_crowded(numbers(p.cells), 2 * p.plan.cells_used, numbers(p.items), 4 * p.items.size(), 0, out.data(), out.size()) == 0 && out[0] == 77, "none is crowded");
    for (uint32_t i = 0; i <= n; i++)
        holds(slots_slot(numbers(p.cells), 2 * p.plan.cells_used, numbers(p.items), 4 * p.items.size(), 0, i) == (i < n ? p.items[i].cell : SLOTS_ABSENT), "a slot's cell");
    by_parts(job, p, blocks, {}, {}, {}, widths, pieces, assigned);
}

// n locals without areas, all of one size and alignment: each cell reaches down to the next multiple of the alignment. Sizes that are none leave padding.
void laid_out(uint32_t n, uint32_t size, uint32_t align) {
    const std::vector<slots_block> blocks = {{0, 0, 0}};
    const std::vector<slots_local_size> locals(n, {size, align});
    slots_job job = slots_job();
    lend(job.blocks, job.blocks_count, blocks);
    lend(job.locals, job.locals_count, locals);
    const Planned p = plan_of(job, 0);
    const uint64_t step = (uint64_t(size) + align - 1) / align * align, fit = step ? INT32_MAX / step : n;
    if (n > fit) {
        holds(p.code == ((uint64_t)SLOTS_DEPTH << 32 | fit), "the first cell that lies too deep");
    } else {
        holds(p.code == 0 && p.plan.depth == n * step, "the depth has its padding");
        for (uint32_t i = 0; i < n; i++) holds(p.offsets[i] == -int64_t((i + 1) * step), "a cell's offset");
    }
}

// n locals as text, each held by an instruction of its own, with room for any text; then with as much as it took, and with a byte less.
void by_text(uint32_t n) {
    std::string job = "H," + std::to_string(2 * n) + ",0,1048576\nB,0,0," + std::to_string(2 * n) + "\n", locals, held, wanted = n ? "C,0,8,8\n" : "", areas;
    for (uint32_t i = 0; i < n; i++) {
        const std::string k = std::to_string(i), at = std::to_string(2 * i) + "," + std::to_string(2 * i + 1);
        job += "I,0," + at + ",0,0,-,-\n";
        locals += "L,8,8\n", held += "A," + k + "," + k + "\n";
        wanted += "L," + k + ",0\n";
        if (n > 1) areas += "G," + k + "," + at + "\n";
    }
    job += locals + held;
    wanted += areas + (n ? "T,1," + std::to_string(n - 1) + "," + std::to_string(n - 1) + ",8\n" : "T,0,0,0,0\n");
    std::vector<uint8_t> text(job.begin(), job.end()), out(SLOTS_TEXT_ROOM, 77);
    const uint64_t bytes = slots_print_text(text.data(), text.size(), out.data(), out.size());
    holds(bytes == wanted.size() && std::equal(wanted.begin(), wanted.end(), out.begin()) && out[wanted.size()] == 77, "a plan as text");
    std::vector<uint8_t> exact(wanted.size(), 77), less(wanted.size() - 1, 77);
    holds(slots_print_text(text.data(), text.size(), exact.data(), exact.size()) == bytes && std::equal(exact.begin(), exact.end(), wanted.begin()), "a list as long as the text");
    holds(slots_print_text(text.data(), text.size(), less.data(), less.size()) == (uint64_t)SLOTS_SPACE << 32 && less == std::vector<uint8_t>(less.size(), 77), "a byte less");
    text[0] = 'h';
    holds(slots_print_text(text.data(), text.size(), out.data(), out.size()) == 7 && std::string(out.begin(), out.begin() + 7) == "N,11,0\n", "a malformed line");
}

} // namespace

int main() {
    for (uint32_t n : {0, 1, 2, 3}) by_text(n);
    for (uint32_t n : {0, 1, 2, 63, 64, 65, 300, 2048}) {
        in_a_row(n);
        at_once(n);
        wants_and_ranges(n);
        if (n > 0) over_graphs(n);
        for (uint32_t size : {0u, 1u, 8u, 20u, 1048575u, 1048576u, 0x7fffffffu, 0x80000000u, UINT32_MAX})
            for (uint32_t align = 1; align; align *= 2) laid_out(n, size, align);
    }
    slots_job more = slots_job();
    const std::vector<slots_local_size> locals(2049);
    lend(more.locals, more.locals_count, locals);
    holds(plan_of(more, 0).code == (uint64_t)SLOTS_COUNT << 32, "more locals than the limit");
    return failed;
}
