/* Prints the role of every unit of design F with g = 3, and the four places of one user unit, as the proved library answers.
 *
 * usage: roles USER_UNIT
 *
 * A line for each unit: disk, unit, kind and its three numbers, as include/himzolven.h has them. Then a line of the user unit's
 * places: disk and unit of the data, its outer parity, and the inner parity of each. A refusal ends the program with status 1. */
#include <inttypes.h>
#include <stdio.h>
#include <stdlib.h>

#include "design_f.h"
#include "himzolven.h"

static void accepted(uint32_t refusal) {
    if (refusal != HIMZOLVEN_ACCEPTED) {
        fprintf(stderr, "roles: refused with %" PRIu32 "\n", refusal);
        exit(1);
    }
}

int main(int count, char **words) {
    if (count != 2) {
        fputs("usage: roles USER_UNIT\n", stderr);
        return 2;
    }
    for (uint32_t disk = 0; disk < DISKS; disk++) {
        for (uint32_t unit = 0; unit < UNITS; unit++) {
            const himzolven_role_answer r = himzolven_role(V, K, G, U, design, DESIGN, disk, unit);
            accepted(r.refusal);
            printf("%" PRIu32 " %" PRIu32 " %" PRIu32, disk, unit, r.kind);
            printf(" %" PRIu32 " %" PRIu32 " %" PRIu32 "\n", r.a, r.b, r.c);
        }
    }
    const himzolven_map_answer m = himzolven_map(V, K, G, U, design, DESIGN, (uint32_t)strtoul(words[1], NULL, 10));
    accepted(m.refusal);
    printf("%" PRIu32 " %" PRIu32 " %" PRIu32 " %" PRIu32 " ", m.data_disk, m.data_unit, m.outer_disk, m.outer_unit);
    printf("%" PRIu32 " %" PRIu32 " %" PRIu32 " %" PRIu32 "\n", m.inner_disk, m.inner_unit, m.both_disk, m.both_unit);
    return 0;
}
