/* The loss of the request on a small shelf: every user unit is written, the three disks of one group are lost and overwritten with
 * noise, rebuilt, and every byte is compared; then a loss that is refused. Design F of the paper's equation 1, g = 3, units of 4096
 * bytes, 21 disks. Ends with status 1 if anything is not as it must be. */
#include <inttypes.h>
#include <stdbool.h>
#include <stdio.h>
#include <stdlib.h>
#include <string.h>

#include "himzolven.h"

enum { V = 7, K = 3, G = 3, U = 4096, DESIGN = 21 };

static const uint16_t design[DESIGN] = {0, 2, 6, 0, 1, 3, 1, 2, 4, 2, 3, 5, 3, 4, 6, 0, 4, 5, 1, 5, 6};

/* The shelf, and what this program remembers of it by itself. */
typedef struct {
    size_t bytes, disks, disk_bytes;
    uint32_t user_units;
    uint8_t *array, *marks;
    uint8_t *written;                     /* what each user unit was written, unit after unit */
    uint8_t *array_before, *marks_before; /* what array and marks held when `remember` was called */
} shelf;

static bool wrong = false;

static void must(bool holds, const char *what) {
    if (!holds) {
        printf("WRONG: %s\n", what);
        wrong = true;
    }
}

/* The same bytes in each run (xorshift). */
static void noise(uint8_t *bytes, size_t length) {
    static uint64_t state = 83;
    for (size_t i = 0; i < length; i++) {
        state ^= state << 13;
        state ^= state >> 7;
        state ^= state << 17;
        bytes[i] = (uint8_t)(state >> 56);
    }
}

static size_t differ(const uint8_t *one, const uint8_t *other, size_t length) {
    size_t count = 0;
    for (size_t i = 0; i < length; i++) {
        count += one[i] != other[i];
    }
    return count;
}

static void remember(shelf *s) {
    memcpy(s->array_before, s->array, s->bytes);
    memcpy(s->marks_before, s->marks, s->disks);
}

static bool make(shelf *s) {
    himzolven_sizes_answer sizes = himzolven_sizes(V, K, G, U, design, DESIGN);
    if (sizes.refusal != HIMZOLVEN_ACCEPTED) {
        return false;
    }
    s->bytes = (size_t)sizes.bytes;
    s->disks = sizes.disks;
    s->disk_bytes = (size_t)sizes.units * U;
    s->user_units = sizes.user_units;
    s->array = malloc(s->bytes);
    s->marks = calloc(s->disks, 1);
    s->written = malloc((size_t)s->user_units * U);
    s->array_before = malloc(s->bytes);
    s->marks_before = malloc(s->disks);
    printf("shelf: %" PRIu32 " disks in %d groups, %" PRIu32 " units of %d bytes a disk; ", sizes.disks, V, sizes.units, U);
    printf("%" PRIu32 " user units, %" PRIu32 " sets\n", sizes.user_units, sizes.sets);
    return s->array != NULL && s->marks != NULL && s->written != NULL && s->array_before != NULL && s->marks_before != NULL;
}

static void format(shelf *s) {
    noise(s->array, s->bytes); /* so that the format has something to do */
    himzolven_answer answer = himzolven_format(V, K, G, U, design, DESIGN, s->array, s->bytes, s->marks, s->disks);
    must(answer.refusal == HIMZOLVEN_ACCEPTED, "the format is refused");
    size_t zeros = 0;
    for (size_t i = 0; i < s->bytes; i++) {
        zeros += s->array[i] == 0;
    }
    must(zeros == s->bytes, "a byte is not 0 after the format");
    printf("format: %zu of %zu bytes are 0\n", zeros, s->bytes);
}

static void write_all(shelf *s) {
    uint32_t count = 0;
    noise(s->written, (size_t)s->user_units * U);
    for (uint32_t n = 0; n < s->user_units; n++) {
        const uint8_t *bytes = s->written + (size_t)n * U;
        himzolven_answer answer =
            himzolven_write(V, K, G, U, design, DESIGN, s->array, s->bytes, s->marks, s->disks, n, 0, bytes, U);
        count += answer.refusal == HIMZOLVEN_ACCEPTED;
    }
    must(count == s->user_units, "a write is refused");
    printf("write: %" PRIu32 " user units\n", count);
}

/* Reads every user unit: those on a lost disk must be refused, the others must be what was written. */
static void read_all(const shelf *s) {
    uint32_t same = 0, lost = 0;
    for (uint32_t n = 0; n < s->user_units; n++) {
        uint8_t back[U] = {0};
        uint32_t disk = himzolven_map(V, K, G, U, design, DESIGN, n).data_disk;
        himzolven_answer answer =
            himzolven_read(V, K, G, U, design, DESIGN, s->array, s->bytes, s->marks, s->disks, n, 0, back, U);
        if (answer.refusal == HIMZOLVEN_ACCEPTED) {
            must(s->marks[disk] == 0, "a read from a lost disk is accepted");
            same += memcmp(back, s->written + (size_t)n * U, U) == 0;
        } else {
            must(answer.refusal == HIMZOLVEN_LOST && answer.place == disk && s->marks[disk] == 1, "a read is refused wrongly");
            lost++;
        }
    }
    must(same + lost == s->user_units, "a user unit is not what was written");
    printf("read: %" PRIu32 " user units as written", same);
    if (lost != 0) {
        printf(", %" PRIu32 " on lost disks refused with number %d", lost, HIMZOLVEN_LOST);
    }
    printf("\n");
}

static void audit(const shelf *s, bool good) {
    himzolven_audit_answer answer = himzolven_audit(V, K, G, U, design, DESIGN, s->array, s->bytes);
    must(answer.refusal == HIMZOLVEN_ACCEPTED && (answer.bad == 0) == good, "the audit finds something else");
    printf("audit: %" PRIu32 " bad sets\n", answer.bad);
}

static void lose(shelf *s, const size_t *lost, size_t count) {
    size_t changed = 0;
    printf("loss: disks");
    for (size_t i = 0; i < count; i++) {
        size_t at = lost[i] * s->disk_bytes;
        noise(s->array + at, s->disk_bytes);
        s->marks[lost[i]] = 1;
        changed += differ(s->array + at, s->array_before + at, s->disk_bytes);
        printf(" %zu", lost[i]);
    }
    must(changed != 0, "the noise changes nothing");
    printf("; noise over their %zu bytes, %zu of them changed\n", count * s->disk_bytes, changed);
}

static himzolven_count_answer rebuild(shelf *s) {
    size_t units = 0;
    for (size_t disk = 0; disk < s->disks; disk++) {
        units += s->marks[disk] * (s->disk_bytes / U);
    }
    himzolven_count_answer answer = himzolven_rebuild(V, K, G, U, design, DESIGN, s->array, s->bytes, s->marks, s->disks);
    if (answer.refusal == HIMZOLVEN_ACCEPTED) {
        must(answer.count == units, "the count is not that of the units on lost disks");
        printf("rebuild: %" PRIu32 " units restored\n", answer.count);
    } else {
        printf("rebuild: refused with number %" PRIu32 ", place %" PRIu32 "\n", answer.refusal, answer.place);
    }
    return answer;
}

static void compare(const shelf *s, const char *event) {
    size_t bytes = differ(s->array, s->array_before, s->bytes), marks = differ(s->marks, s->marks_before, s->disks);
    must(bytes == 0 && marks == 0, "array and marks are not as they were");
    printf("compare: %zu of %zu bytes and %zu of %zu marks differ from before the %s\n", bytes, s->bytes, marks, s->disks, event);
}

int main(void) {
    const size_t group[] = {0, 1, 2}, too_many[] = {0, 1, 3, 4};
    shelf s;
    if (!make(&s)) {
        return 1;
    }
    format(&s);
    write_all(&s);
    read_all(&s);
    audit(&s, true);

    remember(&s);
    lose(&s, group, 3);
    read_all(&s);
    audit(&s, false);
    must(rebuild(&s).refusal == HIMZOLVEN_ACCEPTED, "the rebuild of three disks is refused");
    audit(&s, true);
    compare(&s, "loss");
    read_all(&s);

    lose(&s, too_many, 4);
    remember(&s);
    himzolven_count_answer answer = rebuild(&s);
    must(answer.refusal == HIMZOLVEN_INCOMPLETE && answer.place == 1, "the loss of disks 0, 1, 3 and 4 is not refused at tuple 1");
    compare(&s, "rebuild");

    free(s.array);
    free(s.marks);
    free(s.written);
    free(s.array_before);
    free(s.marks_before);
    return wrong ? 1 : 0;
}
