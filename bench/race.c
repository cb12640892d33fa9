#define _GNU_SOURCE
#include "race.h"

#include <immintrin.h>
#include <stdio.h>
#include <stdlib.h>
#include <string.h>
#include <sys/mman.h>
#include <time.h>
#include <unistd.h>

enum { CALLS_MAX = 4096 };
#define MB ((size_t)1 << 20)

int hot;
uint64_t turn, sink;

/* of this thread, so that time given to other programs does not count */
double thread_ns(void) {
    struct timespec t;
    clock_gettime(CLOCK_THREAD_CPUTIME_ID, &t);
    return (double)t.tv_sec * 1e9 + (double)t.tv_nsec;
}

static double timed(const contestant *c, uint32_t calls) {
    if (c->before && !hot) {
        uint64_t first = turn;
        c->before->run(c->before, calls);
        turn = first;
    }
    double from = thread_ns();
    c->run(c, calls);
    return (thread_ns() - from) / calls;
}

static int by_size(const void *a, const void *b) {
    double x = *(const double *)a, y = *(const double *)b;
    return (x > y) - (x < y);
}

/* one round: its figure is the median of its batches, so that neither a disturbed batch counts nor one that found its bytes in a
 * cache; returns what all contestants took together */
static double run_round(contestant *all, int n, int r, int batches, uint32_t calls) {
    for (int b = 0; b < batches; b++)
        for (int z = 0; z < n; z++) {
            contestant *c = &all[(z + b + r) % n];
            c->took[b] = timed(c, calls);
        }
    double together = 0;
    for (int z = 0; z < n; z++) {
        contestant *c = &all[z];
        qsort(c->took, (size_t)batches, sizeof c->took[0], by_size);
        together += c->middle = c->took[batches / 2];
    }
    return together;
}

/* Rounds of batches, the contestants in turn within each batch. The race's figures are those of its quietest round, in which all
 * contestants together took the least: a ratio is then of one round. */
void race(const char *call, contestant *all, int n, double seconds) {
    double turn_ns = 0, slowest = 0, least = 0;
    for (int c = 0; c < n; c++) {
        timed(&all[c], 1);
        double from = thread_ns(), t = timed(&all[c], 1);
        turn_ns += thread_ns() - from;
        if (t > slowest) slowest = t;
    }
    uint32_t calls = 3e5 / slowest > CALLS_MAX ? CALLS_MAX : 3e5 / slowest < 1 ? 1 : (uint32_t)(3e5 / slowest);
    double fit = seconds * 1e9 / (ROUNDS * turn_ns * calls);
    int batches = fit > BATCHES_MAX ? BATCHES_MAX : fit < 1 ? 1 : (int)fit;
    for (int r = 0; r < ROUNDS; r++) {
        double together = run_round(all, n, r, batches, calls);
        if (r > 0 && together >= least) continue;
        least = together;
        for (int z = 0; z < n; z++) all[z].best = all[z].middle;
    }
    for (int z = 0; z < n; z++) printf("%s %s %s %.2f\n", call, hot ? "hot" : "memory", all[z].name, all[z].best);
    fflush(stdout);
}

/* on huge pages, where the kernel gives them: on small ones the figures of scattered units change with the pages' places */
uint8_t *room_for(size_t size) {
    size = (size + HUGE_PAGE - 1) / HUGE_PAGE * HUGE_PAGE;
    uint8_t *room = aligned_alloc(HUGE_PAGE, size);
    if (room) madvise(room, size, MADV_HUGEPAGE);
    if (!room) {
        fprintf(stderr, "bench: no memory for %zu bytes\n", size);
        exit(1);
    }
    memset(room, 0, size);
    return room;
}

/* clflush does the same, where clflushopt is not known, but a line at a time */
__attribute__((target("clflushopt"))) void flush_bytes(const uint8_t *p, size_t n) {
    int fast = __builtin_cpu_supports("clflushopt");
    for (size_t i = 0; i < n; i += 64)
        if (fast) _mm_clflushopt((void *)(uintptr_t)(p + i));
        else _mm_clflush(p + i);
}

void flush_pages(void) {
    static uint8_t *elsewhere;
    if (!elsewhere) {
        elsewhere = room_for((size_t)PAGES * PAGE);
        madvise(elsewhere, (size_t)PAGES * PAGE, MADV_NOHUGEPAGE);
        madvise(elsewhere, (size_t)PAGES * PAGE, MADV_DONTNEED); /* what it holds next lies on small pages */
    }
    for (size_t page = 0; page < PAGES; page++) sink += elsewhere[page * PAGE];
}

void fill_random(uint8_t *p, size_t n, uint64_t seed) {
    for (size_t i = 0; i < n; i += 8) {
        uint64_t x = (i + 1 + (seed << 40)) * 0x9E3779B97F4A7C15u;
        x = (x ^ x >> 31) * 0xBF58476D1CE4E5B9u;
        memcpy(p + i, &x, 8);
    }
}

uint32_t scattered(uint64_t x) {
    return (uint32_t)(x * 0x9E3779B97F4A7C15u >> 33);
}

size_t cache(int name) {
    long size = sysconf(name);
    return size > 0 ? (size_t)size : 0;
}

/* a last cache keeps part of what is not much larger than it */
size_t beyond_caches(void) {
    size_t last = cache(_SC_LEVEL3_CACHE_SIZE);
    return 3 * last > 256 * MB ? 3 * last : 256 * MB;
}
