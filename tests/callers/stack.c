/* Range functions on a thread with little stack: lists of up to 256 ranges, and every refusal, take a small frame. Without an argument on 64 KiB.
 * And a job's text on a thread of 128 KiB. */
#define _POSIX_C_SOURCE 200809L
#include <pthread.h>
#include <stdint.h>
#include <stdio.h>
#include <stdlib.h>

#include "slots.h"

#define FEW 256u
#define MOST 65536u

static uint32_t start[MOST + 1], end[MOST + 1], out_start[MOST + 1], out_end[MOST + 1];
static int failed;

static void expect(const char *what, uint64_t is, uint64_t wanted) {
    if (is != wanted) {
        printf("%s: %llu, not %llu\n", what, (unsigned long long)is, (unsigned long long)wanted);
        failed = 1;
    }
}

static uint64_t refusal(uint64_t number, uint64_t index) { return number << 32 | index; }

/* each call's frame stands on this thread's stack */
static void *calls(void *unused) {
    (void)unused;
    expect("one range", slots_merged(start, 1, end, 1, out_start, 1, out_end, 1), 1);
    expect("256 ranges", slots_merged(start, FEW, end, FEW, out_start, FEW, out_end, FEW), FEW);
    expect("columns of different lengths", slots_merged(start, 1, end, 2, out_start, 2, out_end, 2), refusal(SLOTS_COUNT, 0));
    expect("65,537 ranges", slots_merged(start, MOST + 1, end, MOST + 1, out_start, MOST + 1, out_end, MOST + 1), refusal(SLOTS_COUNT, 0));
    expect("no room", slots_merged(start, MOST, end, MOST, out_start, 1, out_end, 1), refusal(SLOTS_SPACE, 0));
    expect("a reversed range", slots_merged(end + 1, 1, start, 1, out_start, 1, out_end, 1), refusal(SLOTS_WANT, 0));
    return NULL;
}

static void *a_text(void *unused) {
    static const char job[] = "H,20,0,1048576\nB,0,0,19\nI,0,2,3,0,0,-,-\nI,0,6,7,0,0,-,-\nL,8,8\nL,4,4\nA,0,0\nA,1,1\n";
    static uint8_t out[SLOTS_TEXT_ROOM];
    (void)unused;
    expect("a job's text", slots_print_text((const uint8_t *)job, sizeof job - 1, out, sizeof out), 46);
    return NULL;
}

static int on_a_thread(size_t bytes, void *(*function)(void *)) {
    pthread_attr_t attributes;
    pthread_t thread;
    return pthread_attr_init(&attributes) || pthread_attr_setstacksize(&attributes, bytes) || pthread_create(&thread, &attributes, function, NULL) || pthread_join(thread, NULL);
}

int main(int count, char **arguments) {
    size_t bytes = count > 1 ? (size_t)strtoul(arguments[1], NULL, 10) * 1024 : 64 * 1024;
    for (uint32_t i = 0; i <= MOST; i++) {
        start[i] = 4 * i;
        end[i] = 4 * i + 1;
    }
    if (on_a_thread(bytes, calls) || on_a_thread(128 * 1024, a_text)) {
        printf("no thread\n");
        return 1;
    }
    /* a long list, on the stack that the process has */
    expect("65,536 ranges", slots_merged(start, MOST, end, MOST, out_start, MOST, out_end, MOST), MOST);
    return failed;
}
