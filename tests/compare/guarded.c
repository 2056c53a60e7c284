/* Jobs from standard input, as `compare emit` writes them, through the entry of the static library. Each list is lent with exactly its own bytes: from the heap of a
 * sanitized program; then up to a page that may not be touched; then from the end of such a page on. The answer and every list afterwards must be what stands with the job. */
#include <stdint.h>
#include <stdio.h>
#include <stdlib.h>
#include <string.h>
#include <sys/mman.h>
#include <unistd.h>

uint64_t slots_share(uint32_t points, uint32_t v, uint32_t budget, const uint32_t *blocks, size_t blocks_len, const uint32_t *edges, size_t edges_len,
    const uint32_t *insts, size_t insts_len, const uint32_t *operands, size_t operands_len, const uint32_t *crossings, size_t crossings_len,
    const uint32_t *locals, size_t locals_len, const uint32_t *slots, size_t slots_len, const uint32_t *addresses, size_t addresses_len,
    const uint32_t *ends, size_t ends_len, const uint32_t *pieces, size_t pieces_len, const uint32_t *assigned, size_t assigned_len,
    const uint32_t *moves, size_t moves_len, uint32_t *cells, size_t cells_len, uint32_t *items, size_t items_len, uint32_t *areas, size_t areas_len,
    int32_t *offsets, size_t offsets_len, uint64_t *counts, size_t counts_len, uint64_t *work, size_t work_len);

/* The last two lists are of 64-bit words, the others of 32-bit ones. */
enum { GROUPS = 12, ANSWERS = 6, LISTS = GROUPS + ANSWERS, LONG = LISTS - 2, WAYS = 3 };

/* A list: its bytes, and what was mapped for it. */
struct list {
    void *at;
    void *mapped;
    size_t size;
};

static void fail(const char *what) {
    fprintf(stderr, "%s\n", what);
    exit(1);
}

static int get(void *to, size_t bytes) {
    return fread(to, 1, bytes, stdin) == bytes;
}

static struct list lend(int way, const void *bytes, size_t count) {
    struct list l = {NULL, NULL, 0};
    size_t page = (size_t)sysconf(_SC_PAGESIZE), room = (count + page - 1) / page * page;
    if (way == 0) {
        l.at = malloc(count);
        if (l.at == NULL) fail("no memory");
    } else {
        l.size = room + page;
        l.mapped = mmap(NULL, l.size, PROT_READ | PROT_WRITE, MAP_PRIVATE | MAP_ANONYMOUS, -1, 0);
        if (l.mapped == MAP_FAILED) fail("no memory");
        char *base = l.mapped;
        if (mprotect(way == 1 ? base + room : base, page, PROT_NONE) != 0) fail("no guard");
        l.at = way == 1 ? base + room - count : base + page;
    }
    if (count > 0) memcpy(l.at, bytes, count);
    return l;
}

static void give_back(struct list *l) {
    if (l->mapped == NULL) free(l->at);
    else munmap(l->mapped, l->size);
}

/* Runs one job in one way; the lists are lent in the order of the parameters. */
static void run(int way, const uint32_t head[3], const uint32_t lengths[LISTS], const size_t sizes[LISTS], void *const before[LISTS], void *const after[ANSWERS],
    uint64_t expected) {
    struct list l[LISTS];
    for (int k = 0; k < LISTS; k++) l[k] = lend(way, before[k], sizes[k]);
#define IN(k) (const uint32_t *)l[k].at, lengths[k]
#define OUT(k, word) (word *)l[k].at, lengths[k]
    uint64_t answer = slots_share(head[0], head[1], head[2], IN(0), IN(1), IN(2), IN(3), IN(4), IN(5), IN(6), IN(7), IN(8), IN(9), IN(10), IN(11),
        OUT(12, uint32_t), OUT(13, uint32_t), OUT(14, uint32_t), OUT(15, int32_t), OUT(16, uint64_t), OUT(17, uint64_t));
    if (answer != expected) fail("another answer");
    for (int k = 0; k < LISTS; k++) {
        const void *must = k < GROUPS ? before[k] : after[k - GROUPS];
        if (sizes[k] > 0 && memcmp(l[k].at, must, sizes[k]) != 0) fail("another list");
        give_back(&l[k]);
    }
}

int main(void) {
    uint32_t head[3], lengths[LISTS];
    unsigned long jobs = 0, plans = 0;
    while (get(head, sizeof head)) {
        size_t sizes[LISTS];
        void *before[LISTS], *after[ANSWERS];
        uint64_t expected;
        if (!get(lengths, sizeof lengths)) fail("a job is cut off");
        for (int k = 0; k < LISTS + ANSWERS; k++) {
            int list = k < LISTS ? k : k - ANSWERS;
            sizes[list] = lengths[list] * (list < LONG ? sizeof(uint32_t) : sizeof(uint64_t));
            void *bytes = malloc(sizes[list]);
            if (bytes == NULL || !get(bytes, sizes[list])) fail("a job is cut off");
            if (k < LISTS) before[k] = bytes;
            else after[k - LISTS] = bytes;
        }
        if (!get(&expected, sizeof expected)) fail("a job is cut off");
        for (int way = 0; way < WAYS; way++) run(way, head, lengths, sizes, before, after, expected);
        for (int k = 0; k < LISTS; k++) free(before[k]);
        for (int k = 0; k < ANSWERS; k++) free(after[k]);
        jobs++;
        plans += expected == 0;
    }
    printf("C, sanitized, lists exactly sized: %lu jobs three ways each, no difference; %lu plans\n", jobs, plans);
    return jobs == 0;
}
