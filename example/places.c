/* Prints where user units of design F (document 000, equation 1) lie, and what the units there are for. */
#include <inttypes.h>
#include <stdio.h>

#include "himzolven.h"

static const uint16_t F[] = {0, 2, 6, 0, 1, 3, 1, 2, 4, 2, 3, 5, 3, 4, 6, 0, 4, 5, 1, 5, 6};

enum { V = 7, K = 3, G = 3, U = 1, LENGTH = sizeof F / sizeof F[0] };

static void role(uint32_t disk, uint32_t unit) {
    static const char *const kinds[] = {"user", "outer", "inner"};
    himzolven_role_answer r = himzolven_role(V, K, G, U, F, LENGTH, disk, unit);
    if (r.refusal != HIMZOLVEN_ACCEPTED || r.kind > HIMZOLVEN_INNER) {
        printf(" refused %" PRIu32, r.refusal);
    } else if (r.kind == HIMZOLVEN_USER) {
        printf(" %" PRIu32 "/%" PRIu32 " %s %" PRIu32, disk, unit, kinds[r.kind], r.a);
    } else {
        printf(" %" PRIu32 "/%" PRIu32 " %s %" PRIu32 ",%" PRIu32 ",%" PRIu32, disk, unit, kinds[r.kind], r.a, r.b, r.c);
    }
}

int main(void) {
    himzolven_answer design = himzolven_check(V, K, F, LENGTH);
    himzolven_sizes_answer sizes = himzolven_sizes(V, K, G, U, F, LENGTH);
    if (design.refusal != HIMZOLVEN_ACCEPTED || sizes.refusal != HIMZOLVEN_ACCEPTED) {
        printf("refused %" PRIu32 " place %" PRIu32 "\n", sizes.refusal, sizes.place);
        return 1;
    }
    printf("F: %" PRIu32 " disks of %" PRIu32 " units, %" PRIu32 " user units, %" PRIu32 " sets\n", sizes.disks, sizes.units, sizes.user_units, sizes.sets);
    const uint32_t shown[] = {0, 4, 11, 83, 84};
    for (size_t i = 0; i < sizeof shown / sizeof shown[0]; i++) {
        himzolven_map_answer m = himzolven_map(V, K, G, U, F, LENGTH, shown[i]);
        printf("user %" PRIu32 ":", shown[i]);
        if (m.refusal != HIMZOLVEN_ACCEPTED) {
            printf(" refused %" PRIu32 " place %" PRIu32 "\n", m.refusal, m.place);
            continue;
        }
        role(m.data_disk, m.data_unit);
        role(m.outer_disk, m.outer_unit);
        role(m.inner_disk, m.inner_unit);
        role(m.both_disk, m.both_unit);
        printf("\n");
    }
    uint16_t held[21];
    himzolven_answer filled = himzolven_fill(7, held, 21);
    himzolven_answer none = himzolven_fill(8, NULL, 0);
    himzolven_answer empty = himzolven_check(7, 3, NULL, 0);
    printf("held 7: %" PRIu32 ", first row %u %u %u; held 8: refused %" PRIu32 "; empty list: refused %" PRIu32 "\n", filled.refusal, (unsigned)held[0], (unsigned)held[1], (unsigned)held[2], none.refusal, empty.refusal);
    return 0;
}
