#include "contest.h"

#include <string.h>

/* gcc inlines a pass into something slower, so none is inlined */
#define PASS __attribute__((noinline, noclone))

places places_of(const shape *s, uint32_t n) {
    uint32_t g = s->g, w = s->k - 1, c = n % g, i = n / g % (g - 1), l = n / g / (g - 1) % w, t = n / g / (g - 1) / w;
    uint32_t x = (c + i * l) % g, y = (c + i * w) % g;
    size_t e = (size_t)t * s->k + l, f = (size_t)t * s->k + w;
    uint32_t column[4] = {x, y, (x + g - 1 - i) % g, (y + g - 1 - i) % g};
    places r;
    for (int z = 0; z < 4; z++) {
        size_t entry = z % 2 == 0 ? e : f;
        r.disk[z] = s->design[entry] * g + column[z];
        r.at[z] = r.disk[z] * s->disk_bytes + ((size_t)s->part[entry] * g + (z < 2 ? i : g - 1)) * s->u;
    }
    return r;
}

static inline uint32_t turned(uint32_t column, uint32_t by, uint32_t g) {
    return column + by < g ? column + by : column + by - g;
}

/* where each region of a tuple begins, taken once for the tuple */
static void region_starts(const shape *s, uint32_t t, size_t *region) {
    for (uint32_t l = 0; l < s->k; l++) {
        size_t e = (size_t)t * s->k + l;
        region[l] = s->design[e] * (size_t)s->g * s->disk_bytes + (size_t)s->part[e] * s->g * s->u;
    }
}

/* the units of label (i, c), by position */
static inline void label_starts(const shape *s, const size_t *region, uint32_t i, uint32_t c, size_t *starts) {
    for (uint32_t l = 0, column = c; l < s->k; l++, column = turned(column, i, s->g))
        starts[l] = region[l] + column * s->disk_bytes + (size_t)i * s->u;
}

/* the units of diagonal j, by row */
static inline void diagonal_starts(const shape *s, size_t region, uint32_t j, size_t *starts) {
    for (uint32_t i = 0, column = j == 0 ? 0 : s->g - j; i < s->g; i++, column = turned(column, 1, s->g))
        starts[i] = region + column * s->disk_bytes + (size_t)i * s->u;
}

/* the labels of a tuple, from set `number` on */
static found walk_labels(const shape *s, const uint8_t *array, const size_t *region, uint32_t number, tester *differs) {
    found r = {0, 0};
    size_t starts[SOURCES_MAX];
    for (uint32_t i = 0; i + 1 < s->g; i++)
        for (uint32_t c = 0; c < s->g; c++, number++) {
            label_starts(s, region, i, c, starts);
            if (differs(array, starts, s->k, s->u) && r.bad++ == 0) r.lowest = number;
        }
    return r;
}

/* its diagonals */
static found walk_diagonals(const shape *s, const uint8_t *array, const size_t *region, uint32_t number, tester *differs) {
    found r = {0, 0};
    size_t starts[SOURCES_MAX];
    for (uint32_t l = 0; l < s->k; l++)
        for (uint32_t j = 0; j < s->g; j++, number++) {
            diagonal_starts(s, region[l], j, starts);
            if (differs(array, starts, s->g, s->u) && r.bad++ == 0) r.lowest = number;
        }
    return r;
}

static found after(found earlier, found later) {
    found r = {earlier.bad + later.bad, earlier.bad ? earlier.lowest : later.lowest};
    return r;
}

found walk(const shape *s, const uint8_t *array, tester *differs, int inner_first) {
    found r = {0, 0}, inner = {0, 0};
    uint32_t labels = (s->g - 1) * s->g, sets = labels + s->k * s->g, number = 0;
    size_t region[SOURCES_MAX];
    for (uint32_t t = 0; t < s->tuples; t++, number += sets) {
        region_starts(s, t, region);
        if (inner_first) inner = walk_diagonals(s, array, region, number + labels, differs);
        found outer = walk_labels(s, array, region, number, differs);
        if (!inner_first) inner = walk_diagonals(s, array, region, number + labels, differs);
        r = after(after(r, outer), inner);
    }
    return r;
}

/* the unit starts[own] from the others */
static inline void restore_own(uint8_t *array, size_t *starts, uint32_t count, uint32_t own, size_t u, restorer *restores) {
    size_t target = starts[own];
    for (uint32_t q = own; q + 1 < count; q++) starts[q] = starts[q + 1];
    restores(array, target, starts, count - 1, u);
}

void make_consistent(const shape *s, uint8_t *array, restorer *restores) {
    size_t region[SOURCES_MAX], starts[SOURCES_MAX];
    for (uint32_t t = 0; t < s->tuples; t++) {
        region_starts(s, t, region);
        for (uint32_t i = 0; i + 1 < s->g; i++)
            for (uint32_t c = 0; c < s->g; c++) {
                label_starts(s, region, i, c, starts);
                restore_own(array, starts, s->k, s->k - 1, s->u, restores);
            }
        for (uint32_t l = 0; l < s->k; l++)
            for (uint32_t j = 0; j < s->g; j++) {
                diagonal_starts(s, region[l], j, starts);
                restore_own(array, starts, s->g, s->g - 1, s->u, restores);
            }
    }
}

/* The passes over a tuple: one flag a cell, by position, row and column, and a log of 2*cell + (0 outer, 1 inner). */
typedef struct {
    uint8_t here[CELLS_MAX];
    uint16_t log[CELLS_MAX];
    uint32_t missing, count;
} passes;

/* whether a set lacks only its unit `own`; unit q is the cell base + q*step + column, the columns turning */
static inline int lacks_only(const passes *p, uint32_t size, uint32_t own, uint32_t base, uint32_t step, uint32_t column,
                             uint32_t turn, uint32_t g) {
    for (uint32_t q = 0; q < size; q++, base += step, column = turned(column, turn, g))
        if (q != own && !p->here[base + column]) return 0;
    return 1;
}

/* 0: from the outer set, 1: from the inner, 2: from neither */
static inline uint32_t kind_of(const shape *s, const passes *p, uint32_t l, uint32_t i, uint32_t x) {
    uint32_t g = s->g;
    if (i + 1 < g && lacks_only(p, s->k, l, i * g, g * g, (x + i * (g - l)) % g, i, g)) return 0;
    return lacks_only(p, g, i, l * g * g, g, turned(x, g - i, g), 1, g) ? 1 : 2;
}

static void sweep(const shape *s, passes *p) {
    uint32_t k = s->k, g = s->g, n = 0, count = p->count;
    for (uint32_t l = 0; l < k; l++)
        for (uint32_t i = 0; i < g; i++)
            for (uint32_t x = 0; x < g; x++, n++) {
                uint32_t kind = p->here[n] ? 2 : kind_of(s, p, l, i, x);
                if (kind == 2) continue;
                p->here[n] = 1;
                p->log[count++] = (uint16_t)(2 * n + kind);
            }
    p->count = count;
}

/* the flags of a tuple from the marks; the rows of a region are all on the same disks */
static void start_flags(const shape *s, const uint8_t *restrict marks, uint32_t t, passes *restrict p) {
    uint32_t k = s->k, g = s->g;
    uint8_t *here = p->here;
    for (uint32_t l = 0; l < k; l++) {
        const uint8_t *disks = marks + s->design[(size_t)t * k + l] * g;
        uint32_t lost = 0;
        for (uint32_t x = 0; x < g; x++) {
            here[x] = !disks[x];
            lost += disks[x];
        }
        for (uint32_t i = 1; i < g; i++) memcpy(here + i * g, here, g);
        p->missing += lost * g;
        here += g * g;
    }
}

static int touched(const shape *s, const uint8_t *marks, uint32_t t) {
    for (uint32_t l = 0; l < s->k; l++)
        for (uint32_t x = 0; x < s->g; x++)
            if (marks[s->design[(size_t)t * s->k + l] * s->g + x]) return 1;
    return 0;
}

/* the passes until one restores nothing; whether the tuple completes */
static int reach(const shape *s, const uint8_t *marks, uint32_t t, passes *p) {
    p->missing = p->count = 0;
    if (!touched(s, marks, t)) return 1;
    start_flags(s, marks, t, p);
    for (uint32_t before = UINT32_MAX; p->count != before;) {
        before = p->count;
        sweep(s, p);
    }
    return p->count == p->missing;
}

static void replay(const shape *s, uint8_t *array, uint32_t t, const passes *p, restorer *restores) {
    size_t region[SOURCES_MAX], starts[SOURCES_MAX];
    uint32_t g = s->g;
    region_starts(s, t, region);
    for (uint32_t e = 0; e < p->count; e++) {
        uint32_t n = p->log[e] / 2, x = n % g, i = n / g % g, l = n / g / g;
        if (p->log[e] % 2 == 0) {
            label_starts(s, region, i, (x + i * (g - l)) % g, starts);
            restore_own(array, starts, s->k, l, s->u, restores);
        } else {
            diagonal_starts(s, region[l], (i + g - x) % g, starts);
            restore_own(array, starts, g, i, s->u, restores);
        }
    }
}

rebuilt rebuild(const shape *s, uint8_t *array, uint8_t *marks, restorer *restores) {
    static passes p;
    rebuilt r = {0, s->tuples};
    for (uint32_t t = 0; t < s->tuples; t++)
        if (!reach(s, marks, t, &p)) {
            r.incomplete = t;
            return r;
        }
    for (uint32_t t = 0; t < s->tuples; t++) {
        reach(s, marks, t, &p);
        if (p.count) replay(s, array, t, &p, restores);
        r.count += p.count;
    }
    memset(marks, 0, s->disks);
    return r;
}

PASS static void xor_pass(uint8_t *restrict dst, const uint8_t *restrict src, size_t n) {
    for (size_t i = 0; i < n; i++) dst[i] ^= src[i];
}

PASS static void difference_pass(uint8_t *restrict out, const uint8_t *restrict old, const uint8_t *restrict new, size_t n) {
    for (size_t i = 0; i < n; i++) out[i] = old[i] ^ new[i];
}

PASS static uint8_t or_pass(const uint8_t *src, size_t n) {
    uint8_t any = 0;
    for (size_t i = 0; i < n; i++) any |= src[i];
    return any;
}

void passes_write(uint8_t *array, const size_t at[4], const uint8_t *bytes, size_t n) {
    static uint8_t room[UNIT_MAX] __attribute__((aligned(64)));
    difference_pass(room, array + at[0], bytes, n);
    for (int z = 0; z < 4; z++) xor_pass(array + at[z], room, n);
}

int passes_differ(const uint8_t *array, const size_t *starts, size_t count, size_t u) {
    static uint8_t room[UNIT_MAX] __attribute__((aligned(64)));
    memset(room, 0, u);
    for (size_t t = 0; t < count; t++) xor_pass(room, array + starts[t], u);
    return or_pass(room, u) != 0;
}

int copied_differ(const uint8_t *array, const size_t *starts, size_t count, size_t u) {
    static uint8_t room[UNIT_MAX] __attribute__((aligned(64)));
    memcpy(room, array + starts[0], u);
    for (size_t t = 1; t < count; t++) xor_pass(room, array + starts[t], u);
    return or_pass(room, u) != 0;
}

void passes_restore(uint8_t *array, size_t target, const size_t *sources, size_t count, size_t u) {
    memset(array + target, 0, u);
    for (size_t t = 0; t < count; t++) xor_pass(array + target, array + sources[t], u);
}

void copied_restore(uint8_t *array, size_t target, const size_t *sources, size_t count, size_t u) {
    memcpy(array + target, array + sources[0], u);
    for (size_t t = 1; t < count; t++) xor_pass(array + target, array + sources[t], u);
}

PASS static void four_pass(uint8_t *restrict data, uint8_t *restrict outer, uint8_t *restrict inner, uint8_t *restrict both,
                           const uint8_t *restrict new, size_t n) {
    for (size_t i = 0; i < n; i++) {
        uint8_t d = data[i] ^ new[i];
        data[i] = new[i];
        outer[i] ^= d;
        inner[i] ^= d;
        both[i] ^= d;
    }
}

void fused_write(uint8_t *array, const size_t at[4], const uint8_t *bytes, size_t n) {
    four_pass(array + at[0], array + at[1], array + at[2], array + at[3], bytes, n);
}

typedef uint8_t block __attribute__((vector_size(16), aligned(1), may_alias));

/* 64 bytes of every source, in four registers */
typedef struct {
    block a, b, c, d;
} blocks;

static inline blocks sum_blocks(const uint8_t *array, const size_t *starts, size_t count, size_t i) {
    blocks s = {{0}, {0}, {0}, {0}};
    for (size_t t = 0; t < count; t++) {
        const block *p = (const block *)(array + starts[t] + i);
        s.a ^= p[0];
        s.b ^= p[1];
        s.c ^= p[2];
        s.d ^= p[3];
    }
    return s;
}

static inline uint8_t sum_byte(const uint8_t *array, const size_t *starts, size_t count, size_t i) {
    uint8_t x = 0;
    for (size_t t = 0; t < count; t++) x ^= array[starts[t] + i];
    return x;
}

PASS int fused_differ(const uint8_t *array, const size_t *starts, size_t count, size_t u) {
    block any = {0};
    size_t i = 0;
    for (; i + 64 <= u; i += 64) {
        blocks s = sum_blocks(array, starts, count, i);
        any |= (s.a | s.b) | (s.c | s.d);
    }
    uint8_t rest = 0;
    for (; i < u; i++) rest |= sum_byte(array, starts, count, i);
    for (int z = 0; z < 16; z++) rest |= any[z];
    return rest != 0;
}

PASS void fused_restore(uint8_t *array, size_t target, const size_t *sources, size_t count, size_t u) {
    size_t i = 0;
    for (; i + 64 <= u; i += 64) {
        blocks s = sum_blocks(array, sources, count, i);
        block *p = (block *)(array + target + i);
        p[0] = s.a;
        p[1] = s.b;
        p[2] = s.c;
        p[3] = s.d;
    }
    for (; i < u; i++) array[target + i] = sum_byte(array, sources, count, i);
}

typedef uint8_t wide_block __attribute__((vector_size(64), aligned(1), may_alias));

/* four registers a turn */
#define COPY_BY(type, name) \
    void name(uint8_t *restrict to, const uint8_t *restrict from, size_t n) { \
        size_t i = 0; \
        for (; i + 4 * sizeof(type) <= n; i += 4 * sizeof(type)) { \
            const type *p = (const type *)(from + i); \
            type *q = (type *)(to + i); \
            q[0] = p[0]; \
            q[1] = p[1]; \
            q[2] = p[2]; \
            q[3] = p[3]; \
        } \
        for (; i < n; i++) to[i] = from[i]; \
    }

PASS COPY_BY(block, copy_pass)
PASS __attribute__((target("avx512f"))) COPY_BY(wide_block, wide_pass)

int has_wide(void) {
    return __builtin_cpu_supports("avx512f") != 0;
}

PASS uint64_t read_all(const uint8_t *array, size_t n) {
    uint64_t sum = 0;
    const uint64_t *p = (const uint64_t *)(const void *)array;
    for (size_t i = 0; i < n / 8; i++) sum += p[i];
    return sum;
}
