#include "arrays.h"

#include <immintrin.h>
#include <inttypes.h>
#include <stdio.h>
#include <stdlib.h>
#include <string.h>

/* document 000, equation 1 */
static const uint16_t F[21] = {0, 2, 6, 0, 1, 3, 1, 2, 4, 2, 3, 5, 3, 4, 6, 0, 4, 5, 1, 5, 6};

shape s;
uint8_t *pool;
size_t arrays;
uint8_t marks[91 * 13];
uint8_t bytes[UNIT_MAX] __attribute__((aligned(64)));
loss losses[LOSSES] = {{"one", 1, {0}}, {"three", 3, {0}}, {"2+1", 3, {0}}};
const loss *lost = losses;

void fail(const char *what) {
    fprintf(stderr, "bench: v = %" PRIu32 ", k = %" PRIu32 ", g = %" PRIu32 ", u = %" PRIu32 ": %s\n", s.v, s.k, s.g, s.u, what);
    exit(1);
}

#define GEOMETRY s.v, s.k, s.g, s.u, s.design, s.length

uint32_t call_format(uint8_t *array) {
    return himzolven_format(GEOMETRY, array, s.bytes, marks, s.disks).refusal;
}

uint32_t call_read(const uint8_t *array, uint32_t user) {
    return himzolven_read(GEOMETRY, array, s.bytes, marks, s.disks, user, 0, bytes, s.u).refusal;
}

uint32_t call_write(uint8_t *array, uint32_t user) {
    return himzolven_write(GEOMETRY, array, s.bytes, marks, s.disks, user, 0, bytes, s.u).refusal;
}

himzolven_audit_answer call_audit(const uint8_t *array, size_t length) {
    return himzolven_audit(GEOMETRY, array, length);
}

himzolven_count_answer call_rebuild(uint8_t *array) {
    return himzolven_rebuild(GEOMETRY, array, s.bytes, marks, s.disks);
}

himzolven_map_answer call_map(uint32_t user) {
    return himzolven_map(GEOMETRY, user);
}

himzolven_count_answer call_plan(uint32_t disk, uint32_t *list, size_t length) {
    return himzolven_plan(GEOMETRY, disk, list, length);
}

static void read_design(const char *file) {
    FILE *f = fopen(file, "r");
    if (!f) fail("the design's file can't be read");
    unsigned group;
    for (s.length = 0; fscanf(f, "%u", &group) == 1; s.length++) {
        if (s.length == LIST_MAX || group > UINT16_MAX) fail("the design is too large");
        s.design[s.length] = (uint16_t)group;
    }
    fclose(f);
}

static void hold_design(void) {
    s.length = (size_t)s.v * s.k;
    if (s.v == 7) memcpy(s.design, F, sizeof F);
    else if (himzolven_fill(s.v, s.design, s.length).refusal != 0) fail("no such design is held");
}

/* the lost disks: the first of a group in the middle */
static void place_losses(void) {
    uint32_t first = s.v / 2 * s.g;
    for (int c = 0; c < LOSSES; c++)
        for (uint32_t z = 0; z < losses[c].count; z++) losses[c].disk[z] = first + z;
    losses[2].disk[2] = first + s.g; /* of the next group */
}

void make_shape(char **words, const char *file) {
    s.v = (uint32_t)atoi(words[0]), s.k = (uint32_t)atoi(words[1]);
    s.g = (uint32_t)atoi(words[2]), s.u = (uint32_t)atoi(words[3]);
    if (file) read_design(file);
    else hold_design();
    himzolven_sizes_answer a = himzolven_sizes(GEOMETRY);
    if (a.refusal != 0) fail("the sizes are refused");
    s.tuples = a.tuples, s.users = a.user_units, s.disks = a.disks, s.bytes = a.bytes;
    s.disk_bytes = (size_t)a.units * s.u;
    uint16_t seen[91] = {0};
    for (size_t e = 0; e < s.length; e++) s.part[e] = seen[s.design[e]]++;
    place_losses();
}

void make_pool(size_t at_least, size_t count) {
    arrays = at_least / s.bytes + 1 > count ? at_least / s.bytes + 1 : count;
    pool = room_for(arrays * s.bytes);
}

uint8_t *next_array(void) {
    turn++;
    return pool + (hot ? 0 : turn % arrays) * s.bytes;
}

uint32_t next_user(void) {
    uint32_t round = (uint32_t)(turn / arrays % s.users);
    return hot ? s.users / 2 : (scattered(turn % arrays + 1) % s.users + round * 7919) % s.users;
}

void mark_lost(void) {
    for (uint32_t z = 0; z < lost->count; z++) marks[lost->disk[z]] = 1;
}

void fill_lost(uint8_t *array, uint64_t seed) {
    for (uint32_t z = 0; z < lost->count; z++) fill_random(array + lost->disk[z] * s.disk_bytes, s.disk_bytes, seed + z);
}

int all_zero(const uint8_t *p, size_t n) {
    return n == 0 || (p[0] == 0 && memcmp(p, p + 1, n - 1) == 0);
}

static uint8_t *noted; /* one flag a unit of the array */

static void note_restore(uint8_t *array, size_t target, const size_t *sources, size_t count, size_t u) {
    (void)array, (void)target;
    for (size_t t = 0; t < count; t++) noted[sources[t] / u] = 1;
}

size_t moved(int print) {
    size_t units = s.bytes / s.u, read = 0;
    noted = calloc(units, 1);
    if (!noted) fail("no memory for the flags");
    mark_lost();
    size_t written = rebuild(&s, pool, marks, note_restore).count;
    mark_lost();
    for (size_t n = 0; n < units; n++) read += noted[n] && !marks[n * s.u / s.disk_bytes];
    memset(marks, 0, s.disks);
    free(noted);
    if (print) printf("moved %s read %zu\nmoved %s written %zu\n", lost->name, read * s.u, lost->name, written * s.u);
    return (read + written) * s.u;
}

void run_write(const contestant *me, uint32_t calls) {
    for (uint32_t i = 0; i < calls; i++) {
        uint8_t *array = next_array();
        uint32_t user = next_user();
        places p = places_of(&s, user);
        marks[p.disk[3]] = (uint8_t)me->refuse;
        if (call_write(array, user) != (me->refuse ? 12u : 0u)) fail("a write is answered wrongly");
        marks[p.disk[3]] = 0;
        if (me->writes) me->writes(array, p.at, bytes, s.u);
    }
}

void run_audit(const contestant *me, uint32_t calls) {
    for (uint32_t i = 0; i < calls; i++) {
        const uint8_t *array = next_array();
        if (me->idle) {
            sink += walk(&s, array, me->differs, me->inner_first).bad;
            continue;
        }
        himzolven_audit_answer a = call_audit(array, s.bytes - (size_t)me->refuse);
        if (a.refusal != (me->refuse ? 7u : 0u) || a.bad != 0) fail("an audit is answered wrongly");
    }
}

void run_rebuild(const contestant *me, uint32_t calls) {
    for (uint32_t i = 0; i < calls; i++) {
        uint8_t *array = next_array();
        mark_lost();
        if (me->restores) {
            sink += rebuild(&s, array, marks, me->restores).count;
            continue;
        }
        marks[s.disks - 1] = me->refuse ? 2 : 0;
        if (call_rebuild(array).refusal != (me->refuse ? 8u : 0u)) fail("a rebuild is answered wrongly");
        marks[s.disks - 1] = 0;
    }
}

static void flush_restore(uint8_t *array, size_t target, const size_t *sources, size_t count, size_t u) {
    flush_bytes(array + target, u);
    for (size_t t = 0; t < count; t++) flush_bytes(array + sources[t], u);
    _mm_mfence();
}

static void run_flush(const contestant *me, uint32_t calls) {
    run_rebuild(me, calls);
    flush_pages();
}

const contestant flush = {.name = "flush", .run = run_flush, .restores = flush_restore};
