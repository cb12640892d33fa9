/* The byte work of the calls in C, for the benchmark: given the places, with no check. */
#ifndef CONTEST_H
#define CONTEST_H

#include <stddef.h>
#include <stdint.h>

enum { LIST_MAX = 8190, UNIT_MAX = 4096, SOURCES_MAX = 13, CELLS_MAX = 10 * 13 * 13 };

/* A design and a geometry with what follows from them; `part` has the part number of each entry of the list. */
typedef struct {
    uint32_t v, k, g, u, tuples, users, disks;
    size_t length, disk_bytes, bytes;
    uint16_t design[LIST_MAX];
    uint16_t part[LIST_MAX];
} shape;

/* the four units of a user unit: data, outer parity, inner parity of each */
typedef struct {
    size_t at[4];
    uint32_t disk[4];
} places;

typedef struct {
    uint32_t bad, lowest;
} found;

/* the units restored, and the lowest tuple that stays incomplete, or else the number of tuples */
typedef struct {
    uint32_t count, incomplete;
} rebuilt;

/* writes n bytes over the unit at[0] and keeps the sums of the three others */
typedef void writer(uint8_t *array, const size_t at[4], const uint8_t *bytes, size_t n);
/* whether the XOR of the units is anything but zero */
typedef int tester(const uint8_t *array, const size_t *starts, size_t count, size_t u);
/* makes the unit at `target` the XOR of the sources */
typedef void restorer(uint8_t *array, size_t target, const size_t *sources, size_t count, size_t u);

places places_of(const shape *s, uint32_t user);
/* the sets tuple by tuple, of each by number, or the inner ones first */
found walk(const shape *s, const uint8_t *array, tester *differs, int inner_first);
/* In two phases: whether every tuple completes, from the marks alone; then, tuple by tuple, the bytes, by a log of the passes. */
rebuilt rebuild(const shape *s, uint8_t *array, uint8_t *marks, restorer *restores);
/* makes every parity unit what its set asks */
void make_consistent(const shape *s, uint8_t *array, restorer *restores);

/* one source a pass, through a buffer: difference and four XORs; clear, an XOR for each source, OR */
writer passes_write;
tester passes_differ;
/* one source a pass, into the unit itself: a copy of the first, an XOR for each other */
restorer passes_restore, copied_restore;
/* the same, with a copy of the first source in place of a clear and an XOR */
tester copied_differ;
/* all units in one loop */
writer fused_write;
tester fused_differ;
restorer fused_restore;
/* ISA-L, where it is installed */
writer isal_write;
tester isal_differ;
restorer isal_restore;
const char *isal_version(void);

/* a copy by registers of 16 bytes, and one by those of 64, where the processor has them */
void copy_pass(uint8_t *restrict to, const uint8_t *restrict from, size_t n);
void wide_pass(uint8_t *restrict to, const uint8_t *restrict from, size_t n);
int has_wide(void);

/* every byte once, for the limit of reading */
uint64_t read_all(const uint8_t *array, size_t n);

#endif
