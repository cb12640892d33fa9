/* Which losses of design F (v = 7, k = 3, g = 3) does the proved library rebuild? One byte a loss (losses.h).
 *
 * usage: survival > ANSWERS
 *
 * The array is made consistent by writes once; each call gets a copy of it in which the lost disks hold other bytes. An accepted
 * rebuild has to give every byte back and count the lost units; a refused one has to be number 13. Anything else ends the program
 * with status 1. */
#include <inttypes.h>
#include <stdio.h>
#include <stdlib.h>
#include <string.h>

#include "himzolven.h"
#include "losses.h"

enum { ARRAY = DISKS * UNITS };

static const uint8_t none[DISKS];
static uint8_t whole[ARRAY];

static void fail(const char *what, uint32_t loss) {
    fprintf(stderr, "survival: %s, loss %06" PRIx32 "\n", what, loss);
    exit(1);
}

/* Writes to all user units, until one is too high. */
static void make_whole(void) {
    himzolven_answer w = {0};
    for (uint32_t n = 0; w.refusal == HIMZOLVEN_ACCEPTED; n++) {
        const uint8_t byte = (uint8_t)(n * 151 + 29);
        w = himzolven_write(V, K, G, U, design, DESIGN, whole, ARRAY, none, DISKS, n, 0, &byte, 1);
    }
    if (w.refusal != HIMZOLVEN_USER_TOO_HIGH) {
        fail("a write is refused", 0);
    }
}

static int rebuilt(uint32_t loss) {
    uint8_t array[ARRAY];
    uint8_t marks[DISKS];
    uint32_t lost = 0;
    memcpy(array, whole, ARRAY);
    for (uint32_t disk = 0; disk < DISKS; disk++) {
        marks[disk] = loss >> disk & 1;
        lost += marks[disk];
        for (uint32_t unit = 0; marks[disk] != 0 && unit < UNITS; unit++) {
            array[disk * UNITS + unit] ^= 0xa5;
        }
    }
    const himzolven_count_answer answer = himzolven_rebuild(V, K, G, U, design, DESIGN, array, ARRAY, marks, DISKS);
    if (answer.refusal == HIMZOLVEN_INCOMPLETE) {
        return 0;
    }
    if (answer.refusal != HIMZOLVEN_ACCEPTED || answer.count != lost * UNITS) {
        fail("a rebuild is neither refused with 13 nor counts the lost units", loss);
    }
    if (memcmp(array, whole, ARRAY) != 0 || memcmp(marks, none, DISKS) != 0) {
        fail("a rebuild leaves other bytes or a mark", loss);
    }
    return 1;
}

int main(void) {
    make_whole();
    print_losses(rebuilt);
    return 0;
}
