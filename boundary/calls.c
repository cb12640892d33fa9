#include "calls.h"

#include <string.h>

#define BIT(n) (1u << (n))
#define DESIGN_RULES (BIT(2) | BIT(3) | BIT(4) | BIT(5))
#define SIZES_RULES (DESIGN_RULES | BIT(6))
#define ARRAY_RULES (SIZES_RULES | BIT(7) | BIT(8))
#define RANGE_RULES (ARRAY_RULES | BIT(10) | BIT(11) | BIT(12))
#define SHELF (BIT(DESIGN) | BIT(ARRAY) | BIT(MARKS))

const struct shape shapes[CALLS] = {
    [FILL] = {"fill", BIT(DESIGN), BIT(DESIGN), BIT(1) | BIT(3)},
    [CHECK] = {"check", BIT(DESIGN), 0, DESIGN_RULES},
    [SIZES] = {"sizes", BIT(DESIGN), 0, SIZES_RULES},
    [MAP] = {"map", BIT(DESIGN), 0, SIZES_RULES | BIT(10)},
    [ROLE] = {"role", BIT(DESIGN), 0, SIZES_RULES | BIT(9)},
    [FORMAT] = {"format", SHELF, BIT(ARRAY) | BIT(MARKS), ARRAY_RULES},
    [READ] = {"read", SHELF | BIT(BYTES), BIT(BYTES), RANGE_RULES},
    [WRITE] = {"write", SHELF | BIT(BYTES), BIT(ARRAY), RANGE_RULES},
    [AUDIT] = {"audit", BIT(DESIGN) | BIT(ARRAY), 0, SIZES_RULES | BIT(7)},
    [REBUILD] = {"rebuild", SHELF, BIT(ARRAY) | BIT(MARKS), ARRAY_RULES | BIT(13)},
    [PLAN] = {"plan", BIT(DESIGN) | BIT(LIST), BIT(LIST), SIZES_RULES | BIT(9) | BIT(14)},
};

const char *const list_names[LISTS] = {"design", "array", "marks", "bytes", "list"};
const size_t list_elements[LISTS] = {sizeof(uint16_t), 1, 1, 1, sizeof(uint32_t)};

_Static_assert(sizeof(union told) == sizeof(himzolven_map_answer), "numbers hold every answer");

size_t bytes_of(const struct lent *lent, enum list list) {
    return lent->parts[list].length * list_elements[list];
}

bool same(union told one, union told other) {
    return memcmp(one.numbers, other.numbers, sizeof one.numbers) == 0;
}

union told ask(enum call call, const struct lent *l) {
    union told told = {.numbers = {0}};
    uint32_t v = l->v, k = l->k, g = l->g, u = l->u;
    const struct part d = l->parts[DESIGN], a = l->parts[ARRAY], m = l->parts[MARKS], b = l->parts[BYTES], p = l->parts[LIST];
    switch (call) {
    case FILL: told.answer = himzolven_fill(v, d.at, d.length); break;
    case CHECK: told.answer = himzolven_check(v, k, d.at, d.length); break;
    case SIZES: told.sizes = himzolven_sizes(v, k, g, u, d.at, d.length); break;
    case MAP: told.map = himzolven_map(v, k, g, u, d.at, d.length, l->user_unit); break;
    case ROLE: told.role = himzolven_role(v, k, g, u, d.at, d.length, l->disk, l->unit); break;
    case FORMAT: told.answer = himzolven_format(v, k, g, u, d.at, d.length, a.at, a.length, m.at, m.length); break;
    case READ:
        told.answer = himzolven_read(
            v, k, g, u, d.at, d.length, a.at, a.length, m.at, m.length, l->user_unit, l->offset, b.at, b.length);
        break;
    case WRITE:
        told.answer = himzolven_write(
            v, k, g, u, d.at, d.length, a.at, a.length, m.at, m.length, l->user_unit, l->offset, b.at, b.length);
        break;
    case AUDIT: told.audit = himzolven_audit(v, k, g, u, d.at, d.length, a.at, a.length); break;
    case REBUILD: told.count = himzolven_rebuild(v, k, g, u, d.at, d.length, a.at, a.length, m.at, m.length); break;
    case PLAN: told.count = himzolven_plan(v, k, g, u, d.at, d.length, l->disk, p.at, p.length); break;
    case CALLS: break;
    }
    return told;
}
