#include "cut.h"

#include <inttypes.h>
#include <stdio.h>
#include <string.h>

#include "cases.h"
#include "rooms.h"

enum { WRITES = 8, TRIALS = 64, UNITS = 4 };

static uint64_t state = 1;

static void accepted(union told told, const char *what) {
    if (told.answer.refusal != HIMZOLVEN_ACCEPTED) fail("%s is refused with %" PRIu32, what, told.answer.refusal);
}

/* A range of any length, with any bytes, of any user unit. */
static void draw(struct lent *l, uint32_t user_units) {
    uint8_t *bytes = l->parts[BYTES].at;
    l->user_unit = (uint32_t)(next_number(&state) % user_units);
    l->offset = next_number(&state) % (l->u - l->parts[BYTES].length + 1);
    for (size_t i = 0; i < l->parts[BYTES].length; i++) bytes[i] = (uint8_t)next_number(&state);
}

/* The write, cut off: each byte of the four ranges is as it was or as it will be. Where the ranges begin. */
static void write_cut_off(struct lent *l, const himzolven_sizes_answer *sizes, const himzolven_map_answer *four, size_t *starts) {
    struct lent done = copied(l);
    accepted(ask(WRITE, &done), "write");
    uint8_t *array = l->parts[ARRAY].at, *whole = done.parts[ARRAY].at;
    const uint32_t disks[] = {four->data_disk, four->outer_disk, four->inner_disk, four->both_disk};
    const uint32_t units[] = {four->data_unit, four->outer_unit, four->inner_unit, four->both_unit};
    for (size_t n = 0; n < UNITS; n++) {
        starts[n] = ((size_t)disks[n] * sizes->units + units[n]) * l->u + (size_t)l->offset;
        for (size_t i = 0; i < l->parts[BYTES].length; i++)
            if (next_number(&state) % 2 == 0) array[starts[n] + i] = whole[starts[n] + i];
    }
    release(&done);
}

/* Marks the disks of the three parity units and rebuilds: no set is bad, the data range stays, and so does all else. */
static void mend(struct lent *l, const himzolven_map_answer *four, const size_t *starts) {
    struct lent torn = copied(l);
    uint8_t *marks = l->parts[MARKS].at, *array = l->parts[ARRAY].at, *before = torn.parts[ARRAY].at;
    marks[four->outer_disk] = marks[four->inner_disk] = marks[four->both_disk] = 1;
    accepted(ask(REBUILD, l), "rebuild");
    if (ask(AUDIT, l).audit.bad != 0) fail("a set is bad after the rebuild");
    for (size_t n = 1; n < UNITS; n++) memcpy(before + starts[n], array + starts[n], l->parts[BYTES].length);
    if (memcmp(array, before, l->parts[ARRAY].length) != 0) fail("the rebuild changes more than the three parity ranges");
    release(&torn);
}

void cut(void) {
    size_t trials = 0, bad = 0;
    for (size_t at = 0; at < GEOMETRIES; at++) {
        struct lent l = valid(WRITE, geometries[at]);
        himzolven_sizes_answer sizes = ask(SIZES, &l).sizes;
        doing = (struct doing){"cut", "a write that is cut off", l, 0};
        accepted(ask(FORMAT, &l), "format");
        for (size_t i = 0; i < WRITES; i++) draw(&l, sizes.user_units), accepted(ask(WRITE, &l), "write");
        for (size_t i = 0; i < TRIALS; i++, trials++) {
            size_t starts[UNITS];
            draw(&l, sizes.user_units);
            himzolven_map_answer four = ask(MAP, &l).map;
            write_cut_off(&l, &sizes, &four, starts);
            uint32_t sets = ask(AUDIT, &l).audit.bad;
            if (sets > 3) fail("%" PRIu32 " sets are bad", sets);
            mend(&l, &four, starts), bad += sets > 0;
        }
        release(&l);
    }
    if (bad * 2 < trials) fail("only %zu of %zu arrays had bad sets", bad, trials);
    printf("cut: %zu writes cut off, %zu with one to three bad sets; the parity disks rebuilt: no bad set, no other change\n",
           trials, bad);
}
