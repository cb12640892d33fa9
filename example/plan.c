/* Prints what is read to restore disk 9 of a shelf: the held design of 7, g = 3, 21 disks. */
#include <inttypes.h>
#include <stdio.h>

#include "himzolven.h"

enum { V = 7, K = 3, G = 3, U = 1, DESIGN = 21, NUMBERS = 54 };

static uint16_t design[DESIGN];
static uint32_t list[NUMBERS + 2]; /* longer than needed: its last two numbers stay */

static void plan(uint32_t disk, size_t length) {
    himzolven_count_answer answer = himzolven_plan(V, K, G, U, design, DESIGN, disk, list, length);
    if (answer.refusal != HIMZOLVEN_ACCEPTED) {
        printf("plan of disk %" PRIu32 ", list of %zu: refused %" PRIu32 ", place %" PRIu32 "\n", disk, length, answer.refusal, answer.place);
        return;
    }
    printf("plan of disk %" PRIu32 ", list of %zu: %" PRIu32 " triples\n", disk, length, answer.count);
    for (const uint32_t *triple = list; triple < list + 3 * answer.count; triple += 3) {
        printf("%" PRIu32 " %" PRIu32 " %" PRIu32 "\n", triple[0], triple[1], triple[2]);
    }
}

int main(void) {
    if (himzolven_fill(V, design, DESIGN).refusal != HIMZOLVEN_ACCEPTED) {
        return 1;
    }
    list[NUMBERS] = 1000;
    list[NUMBERS + 1] = 1001;
    plan(9, NUMBERS + 2);
    printf("rest of the list: %" PRIu32 " %" PRIu32 "\n", list[NUMBERS], list[NUMBERS + 1]);
    plan(9, NUMBERS - 1);
    plan(21, NUMBERS);
    printf("plan into no list: refused %" PRIu32 "\n", himzolven_plan(V, K, G, U, design, DESIGN, 9, NULL, 0).refusal);
    return 0;
}
