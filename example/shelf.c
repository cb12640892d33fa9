/* Writes to a small shelf and reads back: design F of the paper's equation 1, g = 3, units of 512 bytes, 21 disks. */
#include <inttypes.h>
#include <stdio.h>
#include <stdlib.h>

#include "himzolven.h"

enum { V = 7, K = 3, G = 3, U = 512, DESIGN = 21 };

static const uint16_t design[DESIGN] = {0, 2, 6, 0, 1, 3, 1, 2, 4, 2, 3, 5, 3, 4, 6, 0, 4, 5, 1, 5, 6};

static void tell(const char *what, himzolven_answer answer) {
    if (answer.refusal == HIMZOLVEN_ACCEPTED) {
        printf("%s: accepted\n", what);
    } else {
        printf("%s: refused %" PRIu32 ", place %" PRIu32 "\n", what, answer.refusal, answer.place);
    }
}

static void audit(const uint8_t *array, size_t bytes) {
    himzolven_audit_answer found = himzolven_audit(V, K, G, U, design, DESIGN, array, bytes);
    if (found.refusal == HIMZOLVEN_ACCEPTED) {
        printf("audit: %" PRIu32 " bad sets, lowest %" PRIu32 "\n", found.bad, found.lowest);
    } else {
        printf("audit: refused %" PRIu32 ", place %" PRIu32 "\n", found.refusal, found.place);
    }
}

int main(void) {
    himzolven_sizes_answer sizes = himzolven_sizes(V, K, G, U, design, DESIGN);
    if (sizes.refusal != HIMZOLVEN_ACCEPTED) {
        return 1;
    }
    size_t bytes = (size_t)sizes.bytes, disks = sizes.disks;
    uint8_t *array = (uint8_t *)malloc(bytes), *marks = (uint8_t *)calloc(disks, 1); /* with casts, so that it is C++ too */
    if (array == NULL || marks == NULL) {
        return 1;
    }
    printf("%" PRIu32 " disks of %" PRIu32 " units, %" PRIu32 " user units, %" PRIu64 " bytes\n", sizes.disks, sizes.units,
           sizes.user_units, sizes.bytes);

    tell("format", himzolven_format(V, K, G, U, design, DESIGN, array, bytes, marks, disks));
    audit(array, bytes);

    const uint8_t record[] = "shot record 83";
    uint8_t back[sizeof record];
    tell("write user unit 83, offset 100",
         himzolven_write(V, K, G, U, design, DESIGN, array, bytes, marks, disks, 83, 100, record, sizeof record));
    tell("read it back",
         himzolven_read(V, K, G, U, design, DESIGN, array, bytes, marks, disks, 83, 100, back, sizeof back));
    printf("read: %s\n", (const char *)back);
    audit(array, bytes);

    /* user unit 83 lies at 15/7, its outer parity at 19/7, their inner parities at 16/8 and 20/8 */
    marks[20] = 1;
    tell("read with disk 20 lost",
         himzolven_read(V, K, G, U, design, DESIGN, array, bytes, marks, disks, 83, 100, back, sizeof back));
    tell("write with disk 20 lost",
         himzolven_write(V, K, G, U, design, DESIGN, array, bytes, marks, disks, 83, 100, record, sizeof record));
    marks[20] = 0;

    /* one byte changed behind the library's back: its two sets no longer XOR to zero */
    array[((size_t)15 * sizes.units + 7) * U + 100] ^= 1;
    audit(array, bytes);

    tell("write past the unit's end",
         himzolven_write(V, K, G, U, design, DESIGN, array, bytes, marks, disks, 83, U - 3, record, sizeof record));
    tell("write to user unit 84",
         himzolven_write(V, K, G, U, design, DESIGN, array, bytes, marks, disks, 84, 0, record, sizeof record));
    tell("format of a shorter array",
         himzolven_format(V, K, G, U, design, DESIGN, array, bytes - 1, marks, disks));

    free(array);
    free(marks);
    return 0;
}
