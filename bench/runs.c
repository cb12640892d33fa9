/* Reading in many runs at once: rows of 512 bytes, one of every run, as the labels of a tuple lie at v = 91, k = 10, g = 11. From
 * memory, by fused C.
 * usage: runs
 * Prints lines "runs memory COUNT ns", ns of one byte: the quickest of some rounds over all of the memory. */
#include <stdio.h>

#include "race.h"

enum { SET = 11, UNIT = 512, ROWS = 11, PARTS = 10, ROUNDS_OF_ALL = 5 };

static const uint32_t counts[] = {11, 22, 44, 55, 66, 88, 110, 132};
static const size_t run = (size_t)ROWS * UNIT, disk = (size_t)PARTS * ROWS * UNIT;

/* the rows of one part of `count` disks, a set of eleven disks after the other */
static void read_part(const uint8_t *disks, uint32_t count, size_t part) {
    size_t starts[SET];
    for (size_t row = 0; row < ROWS; row++)
        for (uint32_t first = 0; first < count; first += SET) {
            for (size_t t = 0; t < SET; t++) starts[t] = (first + t) * disk + part * run + row * UNIT;
            sink += (uint64_t)fused_differ(disks, starts, SET, UNIT);
        }
}

/* every byte of the pool's whole arrays of `count` disks, in ns for each */
static double read_pool(const uint8_t *pool, size_t size, uint32_t count) {
    size_t array = count * disk, arrays = size / array;
    double from = thread_ns();
    for (size_t part = 0; part < PARTS; part++)
        for (size_t a = 0; a < arrays; a++) read_part(pool + a * array, count, part);
    return (thread_ns() - from) / (double)(arrays * array);
}

int main(void) {
    size_t size = beyond_caches();
    const uint8_t *pool = room_for(size);
    double best[COUNT(counts)];
    for (int r = 0; r < ROUNDS_OF_ALL; r++)
        for (int c = 0; c < COUNT(counts); c++) {
            double took = read_pool(pool, size, counts[c]);
            if (r == 0 || took < best[c]) best[c] = took;
        }
    for (int c = 0; c < COUNT(counts); c++) printf("runs memory %u %.4f\n", (unsigned)counts[c], best[c]);
    return sink != 0;
}
