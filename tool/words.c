#include "words.h"

#include <inttypes.h>
#include <stdarg.h>
#include <stdbool.h>

#include "array.h"
#include "exits.h"

enum { REFUSALS = 14 };

static const struct {
    const char *when, *place;
} table[REFUSALS + 1] = {
    [HIMZOLVEN_NOT_HELD] = {"no set is held for this number of groups", "-"},
    [HIMZOLVEN_BEYOND_LIMITS] = {"groups not 2 to 91, a row not of 2 to 10 groups, or a row of more groups than there are", "-"},
    [HIMZOLVEN_NOT_WHOLE] = {"the design can't come out whole, or its list has another length", "-"},
    [HIMZOLVEN_BAD_ROW] = {"a row names a group that is not there, or does not ascend", "the first such row"},
    [HIMZOLVEN_BAD_PAIR] = {"a pair of groups a<b does not stand in exactly one row", "a times groups, plus b"},
    [HIMZOLVEN_BAD_SIZE] = {"disks in a group not a prime of 2 to 13 or fewer than groups in a row, or a unit not of 1 to 4096",
                            "-"},
    [HIMZOLVEN_BAD_LENGTH] = {"array or marks of another length, or an array above 1,073,741,824 bytes", "-"},
    [HIMZOLVEN_BAD_MARK] = {"a mark is neither 0 nor 1", "the lowest such disk"},
    [HIMZOLVEN_DISK_TOO_HIGH] = {"there is no such disk or unit", "-"},
    [HIMZOLVEN_USER_TOO_HIGH] = {"there is no such user unit", "-"},
    [HIMZOLVEN_BAD_RANGE] = {"the bytes leave the unit", "-"},
    [HIMZOLVEN_LOST] = {"a read's disk, or one of a write's four disks, is marked as lost", "the first such disk"},
    [HIMZOLVEN_INCOMPLETE] = {"the lost disks can't all be rebuilt", "the lowest tuple that stays incomplete"},
    [HIMZOLVEN_SHORT_LIST] = {"the list for a plan is too short", "-"},
};

void complain(const char *format, ...) {
    va_list words;
    fputs("himzolven: ", stderr);
    va_start(words, format);
    vfprintf(stderr, format, words);
    va_end(words);
    fputc('\n', stderr);
}

void print_refusals(void) {
    for (size_t number = 1; number <= REFUSALS; number++) {
        printf("%2zu  %s\n", number, table[number].when);
        if (table[number].place[0] != '-') {
            printf("    place: %s\n", table[number].place);
        }
    }
}

void print_marked(FILE *to, const uint8_t *marks, uint32_t disks) {
    uint32_t count = 0;
    for (uint32_t disk = 0; disk < disks; disk++) {
        count += marks[disk] != 0;
    }
    fputs(count == 0 ? "no disk" : count == 1 ? "disk" : "disks", to);
    for (uint32_t disk = 0; disk < disks; disk++) {
        if (marks[disk] != 0) {
            fprintf(to, " %" PRIu32, disk);
        }
    }
}

void print_row(FILE *to, const geometry *of, uint32_t row) {
    for (size_t i = (size_t)row * of->k; i < ((size_t)row + 1) * of->k; i++) {
        fprintf(to, i % of->k == 0 ? "%u" : " %u", of->design[i]);
    }
}

static void say_held(FILE *to, const geometry *of) {
    fprintf(to, "no set is held for %" PRIu32 " groups, only for", of->v);
    for (uint32_t v = 0; v <= V_MAX; v++) {
        if (himzolven_fill(v, NULL, 0).refusal != HIMZOLVEN_NOT_HELD) {
            fprintf(to, " %" PRIu32, v);
        }
    }
    fputs("; --design FILE takes another design", to);
}

static void say_limits(FILE *to, const geometry *of) {
    fprintf(to, "%" PRIu32 " groups in rows of %" PRIu32 "; ", of->v, of->k);
    fprintf(to, "allowed are 2 to %d groups in rows of 2 to %d, no more than there are groups", V_MAX, K_MAX);
}

static void say_whole(FILE *to, const geometry *of) {
    uint32_t pairs = of->v * (of->v - 1), in_a_row = of->k * (of->k - 1);
    if ((of->v - 1) % (of->k - 1) != 0 || pairs % in_a_row != 0) {
        fprintf(to, "%" PRIu32 " groups can't stand in rows of %" PRIu32 " so that each pair stands once", of->v, of->k);
        return;
    }
    fprintf(to, "%" PRIu32 " groups in rows of %" PRIu32 " need %" PRIu32 " rows, and the list has %zu numbers, not %" PRIu32,
            of->v, of->k, pairs / in_a_row, of->design_length, pairs / in_a_row * of->k);
}

static void say_row(FILE *to, const geometry *of, uint32_t row) {
    fprintf(to, "row %" PRIu32 " (", row);
    print_row(to, of, row);
    fprintf(to, ") does not ascend within the groups 0 to %" PRIu32, of->v - 1);
}

static bool names(const geometry *of, size_t row, uint32_t group) {
    for (size_t i = row * of->k; i < (row + 1) * of->k; i++) {
        if (of->design[i] == group) {
            return true;
        }
    }
    return false;
}

static void say_pair(FILE *to, const geometry *of, uint32_t place) {
    uint32_t a = place / of->v, b = place % of->v, rows = 0;
    for (size_t row = 0; row < of->design_length / of->k; row++) {
        rows += names(of, row, a) && names(of, row, b);
    }
    fprintf(to, "the pair of groups %" PRIu32 " and %" PRIu32 " stands in %" PRIu32 " rows, not in exactly one", a, b, rows);
}

static void say_size(FILE *to, const geometry *of) {
    geometry small = *of;
    small.u = 1;
    if (ask_sizes(&small).refusal == HIMZOLVEN_ACCEPTED) {
        fprintf(to, "a unit of %" PRIu32 " bytes; allowed are 1 to 4096", of->u);
        return;
    }
    fprintf(to, "%" PRIu32 " disks in a group; allowed is a prime from 2 to 13 that is at least %" PRIu32 ", the groups in a row",
            of->g, of->k);
}

static void say_length(FILE *to, const geometry *of) {
    fprintf(to, "the disks would have %" PRIu64 " bytes; at most 1,073,741,824 are allowed", ask_sizes(of).bytes);
}

static void say_lost(FILE *to, const geometry *of, uint32_t user_unit, uint32_t disk) {
    himzolven_map_answer at = ask_map(of, user_unit);
    const char *what = disk == at.data_disk    ? "user unit"
                       : disk == at.outer_disk ? "the outer parity of user unit"
                       : disk == at.inner_disk ? "the inner parity of user unit"
                                               : "the inner parity of the outer parity of user unit";
    fprintf(to, "disk %" PRIu32 " holds %s %" PRIu32 " and is marked as lost; rebuild it first", disk, what, user_unit);
}

static void say_incomplete(FILE *to, const geometry *of, const question *asked, uint32_t tuple) {
    fprintf(to, "tuple %" PRIu32 " (groups ", tuple);
    print_row(to, of, tuple);
    fputs(") can't be completed from the present disks; lost: ", to);
    print_marked(to, asked->marks, ask_sizes(of).disks);
}

/* The refusals that speak of the design and the sizes. */
static bool say_geometry(FILE *to, const geometry *of, uint32_t refusal, uint32_t place) {
    switch (refusal) {
    case HIMZOLVEN_NOT_HELD: say_held(to, of); return true;
    case HIMZOLVEN_BEYOND_LIMITS: say_limits(to, of); return true;
    case HIMZOLVEN_NOT_WHOLE: say_whole(to, of); return true;
    case HIMZOLVEN_BAD_ROW: say_row(to, of, place); return true;
    case HIMZOLVEN_BAD_PAIR: say_pair(to, of, place); return true;
    case HIMZOLVEN_BAD_SIZE: say_size(to, of); return true;
    case HIMZOLVEN_BAD_LENGTH: say_length(to, of); return true;
    default: return false;
    }
}

/* The refusals that speak of what was asked. */
static void say_asked(FILE *to, const geometry *of, const question *asked, uint32_t refusal, uint32_t place) {
    himzolven_sizes_answer sizes = ask_sizes(of);
    switch (refusal) {
    case HIMZOLVEN_BAD_MARK: fprintf(to, "the mark of disk %" PRIu32 " is neither 0 nor 1", place); break;
    case HIMZOLVEN_DISK_TOO_HIGH:
        fprintf(to, "there is no disk %" PRIu32 "; disks are 0 to %" PRIu32, asked->disk, sizes.disks - 1);
        break;
    case HIMZOLVEN_USER_TOO_HIGH:
        fprintf(to, "there is no user unit %" PRIu32 "; user units are 0 to %" PRIu32, asked->user_unit, sizes.user_units - 1);
        break;
    case HIMZOLVEN_BAD_RANGE:
        fprintf(to, "%" PRIu64 " bytes%s from offset %" PRIu64 " leave the unit of %" PRIu32 " bytes; --at goes over several units",
                asked->length, asked->or_more ? " or more" : "", asked->offset, of->u);
        break;
    case HIMZOLVEN_LOST: say_lost(to, of, asked->user_unit, place); break;
    case HIMZOLVEN_INCOMPLETE: say_incomplete(to, of, asked, place); break;
    default: fputs(refusal <= REFUSALS ? table[refusal].when : "a number that this tool does not know", to); break;
    }
}

void print_refusal(FILE *to, const geometry *of, const question *asked, uint32_t refusal, uint32_t place) {
    fprintf(to, "refused, number %" PRIu32 ", place %" PRIu32 ": ", refusal, place);
    if (!say_geometry(to, of, refusal, place)) {
        say_asked(to, of, asked, refusal, place);
    }
    fputc('\n', to);
}

int tell_refusal(const geometry *of, const question *asked, uint32_t refusal, uint32_t place) {
    fputs("himzolven: ", stderr);
    print_refusal(stderr, of, asked, refusal, place);
    return EXIT_REFUSED;
}
