#include "cases.h"

#include <stdio.h>
#include <stdlib.h>
#include <string.h>

/* F's size, the least, one with odd units, the most disks and tuples, one row, the most held, units of 4096 bytes */
const struct geometry geometries[GEOMETRIES] = {
    {7, 3, 3, 5}, {2, 2, 2, 1}, {13, 4, 5, 63}, {91, 2, 2, 1}, {10, 10, 11, 65}, {91, 10, 11, 1}, {7, 3, 3, 4096},
};

/* a held design is a plane: v is k*(k-1)+1 */
bool fits(enum call call, struct geometry at) {
    return call != FILL || at.v == at.k * (at.k - 1) + 1;
}

enum { SLACK = 64 }; /* before and behind each list, so that a fault planted in a copy does no harm elsewhere */

uint64_t next_number(uint64_t *state) {
    uint64_t z = *state += 0x9E3779B97F4A7C15u;
    z = (z ^ (z >> 30)) * 0xBF58476D1CE4E5B9u;
    z = (z ^ (z >> 27)) * 0x94D049BB133111EBu;
    return z ^ (z >> 31);
}

static struct part part_of(size_t length, size_t element) {
    uint8_t *room = malloc(length * element + 2 * SLACK);
    if (room == NULL) abort();
    return (struct part){room + SLACK, length};
}

/* Any bytes, which the length settles. */
static struct part filled(size_t length, size_t element) {
    struct part part = part_of(length, element);
    uint8_t *at = part.at;
    uint64_t state = length;
    for (size_t i = 0; i < length * element; i++) at[i] = (uint8_t)next_number(&state);
    return part;
}

static void give_back(struct part part) {
    free((uint8_t *)part.at - SLACK);
}

/* The design of a geometry: held, one row, or the complete graph. */
static void design_of(struct geometry at, uint16_t *design, size_t length) {
    if (himzolven_fill(at.v, design, length).refusal == HIMZOLVEN_ACCEPTED) return;
    if (at.k == at.v) {
        for (uint32_t i = 0; i < at.k; i++) design[i] = (uint16_t)i;
        return;
    }
    size_t next = 0;
    for (uint32_t a = 0; a < at.v; a++)
        for (uint32_t b = a + 1; b < at.v; b++) design[next++] = (uint16_t)a, design[next++] = (uint16_t)b;
}

/* The marks of a valid call: some disks for format and rebuild, which take any three; none for read and write. */
static void mark(enum call call, struct lent *l) {
    uint8_t *marks = l->parts[MARKS].at;
    memset(marks, 0, l->parts[MARKS].length);
    if (call == FORMAT || call == REBUILD) marks[0] = marks[1] = marks[l->parts[MARKS].length - 1] = 1;
}

struct lent valid(enum call call, struct geometry at) {
    size_t tuples = (size_t)at.v * (at.v - 1) / (at.k * (at.k - 1)), parts = (at.v - 1) / (at.k - 1);
    struct lent l = {.v = at.v, .k = at.k, .g = at.g, .u = at.u};
    l.parts[DESIGN] = filled(tuples * at.k, list_elements[DESIGN]);
    design_of(at, l.parts[DESIGN].at, l.parts[DESIGN].length);
    himzolven_sizes_answer sizes = himzolven_sizes(at.v, at.k, at.g, at.u, l.parts[DESIGN].at, l.parts[DESIGN].length);
    if (sizes.refusal != HIMZOLVEN_ACCEPTED) {
        fprintf(stderr, "boundary: the geometry %u %u %u %u is refused\n", at.v, at.k, at.g, at.u);
        exit(1);
    }
    l.parts[ARRAY] = filled((size_t)sizes.bytes, 1);
    l.parts[MARKS] = filled(sizes.disks, 1);
    l.parts[BYTES] = filled((at.u + 1) / 2, 1);
    l.parts[LIST] = filled(3 * parts * (at.g - 1) * at.k, list_elements[LIST]);
    l.user_unit = sizes.user_units - 1, l.disk = sizes.disks - 1, l.unit = sizes.units - 1;
    l.offset = at.u - l.parts[BYTES].length;
    mark(call, &l);
    return l;
}

struct lent copied(const struct lent *from) {
    struct lent l = *from;
    for (enum list i = 0; i < LISTS; i++) {
        l.parts[i] = part_of(from->parts[i].length, list_elements[i]);
        memcpy(l.parts[i].at, from->parts[i].at, bytes_of(from, i));
    }
    return l;
}

void release(struct lent *l) {
    for (enum list i = 0; i < LISTS; i++) give_back(l->parts[i]);
}

static void lose(enum call call, struct lent *l) {
    const struct part d = l->parts[DESIGN];
    himzolven_map_answer four = himzolven_map(l->v, l->k, l->g, l->u, d.at, d.length, l->user_unit);
    ((uint8_t *)l->parts[MARKS].at)[call == READ ? four.data_disk : four.both_disk] = 1;
}

bool spoil(enum call call, uint32_t refusal, struct lent *l) {
    uint16_t *design = l->parts[DESIGN].at;
    uint8_t *marks = l->parts[MARKS].at;
    switch (refusal) {
    case 1: l->v = 8; return true;
    case 2: l->k = 1; return true;
    case 3: l->parts[DESIGN].length--; return true;
    case 4: design[0] = (uint16_t)l->v; return true;
    case 5: /* the second row becomes the first; one row alone has every pair */
        memcpy(design + l->k, design, l->k < l->v ? l->k * sizeof *design : 0);
        return l->k < l->v;
    case 6: l->g = 9; return true;
    case 7: l->parts[ARRAY].length--; return true;
    case 8: marks[l->parts[MARKS].length - 1] = 2; return true;
    case 9: l->disk++; return true;
    case 10: l->user_unit++; return true;
    case 11: l->offset++; return true;
    case 12: lose(call, l); return true;
    case 13: memset(marks, 1, l->parts[MARKS].length); return true;
    case 14: l->parts[LIST].length--; return true;
    default: return false;
    }
}
