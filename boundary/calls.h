/* The calls behind one function, so that a test can go through them all: which lists each takes and which it may change. */
#ifndef CALLS_H
#define CALLS_H

#include <stdbool.h>
#include <stddef.h>
#include <stdint.h>

#include "himzolven.h"

enum call { FILL, CHECK, SIZES, MAP, ROLE, FORMAT, READ, WRITE, AUDIT, REBUILD, PLAN, CALLS };
enum list { DESIGN, ARRAY, MARKS, BYTES, LIST, LISTS };
enum { REFUSALS = HIMZOLVEN_SHORT_LIST + 1 };

/* Lists and refusals are sets of bits. */
struct shape {
    const char *name;
    unsigned takes;    /* its lists */
    unsigned changes;  /* those that are not const */
    unsigned refusals; /* those of the header */
};

/* A list where it lies; the length is in elements. */
struct part {
    void *at;
    size_t length;
};

/* What a call is given; it takes those that are its own. */
struct lent {
    uint32_t v, k, g, u, user_unit, disk, unit;
    uint64_t offset;
    struct part parts[LISTS];
};

/* What a call answers. Each answer begins with refusal and place and has no padding; numbers that it has not are 0. */
union told {
    himzolven_answer answer;
    himzolven_sizes_answer sizes;
    himzolven_map_answer map;
    himzolven_role_answer role;
    himzolven_audit_answer audit;
    himzolven_count_answer count;
    uint32_t numbers[sizeof(himzolven_map_answer) / sizeof(uint32_t)];
};

extern const struct shape shapes[CALLS];
extern const char *const list_names[LISTS];
extern const size_t list_elements[LISTS]; /* bytes of one element */

union told ask(enum call call, const struct lent *lent);
bool same(union told one, union told other);
size_t bytes_of(const struct lent *lent, enum list list);

#endif
