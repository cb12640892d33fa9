#include "cutoff.h"

#include <inttypes.h>
#include <string.h>

#include "array.h"
#include "exits.h"

enum { PLACES = 4 };

void print_cut_off(FILE *to, const image *opened) {
    const record *was = &opened->state.under_way;
    if (was->call == CALL_WRITE) {
        himzolven_map_answer at = ask_map(&opened->geometry, was->user_unit);
        fprintf(to, "a write of %" PRIu32 " bytes from offset %" PRIu32 " of user unit %" PRIu32, was->length, was->offset,
                was->user_unit);
        fprintf(to, " (disk %" PRIu32 ", parities on disks %" PRIu32 " %" PRIu32 " %" PRIu32 ") was cut off", at.data_disk,
                at.outer_disk, at.inner_disk, at.both_disk);
    } else if (was->call == CALL_REBUILD) {
        fputs("a rebuild was cut off", to);
    }
}

void warn_cut_off(const image *opened) {
    if (opened->state.under_way.call != CALL_NONE) {
        fputs("himzolven: ", stderr);
        print_cut_off(stderr, opened);
        fprintf(stderr, "; `himzolven recover %s` makes it whole\n", opened->path);
    }
}

int open_whole(image *opened, const char *path) {
    int code = image_open(opened, path, TO_STORE);
    if (code == EXIT_DONE && opened->state.under_way.call != CALL_NONE) {
        warn_cut_off(opened);
        image_close(opened);
        code = EXIT_HELD_BACK;
    }
    return code;
}

/* Tries to rebuild with these marks and three of a write's four disks lost, all but the kept one. */
static bool try_keeping(const image *opened, size_t kept, const uint8_t *marks, uint8_t *chosen, himzolven_count_answer *answer) {
    himzolven_map_answer at = ask_map(&opened->geometry, opened->state.under_way.user_unit);
    const uint32_t disks[PLACES] = {at.data_disk, at.outer_disk, at.inner_disk, at.both_disk};
    memcpy(chosen, marks, MARKS_MAX);
    for (size_t i = 0; i < PLACES; i++) {
        if (i != kept) {
            chosen[disks[i]] = 1;
        }
    }
    return try_rebuild(opened, chosen, answer);
}

bool choose_marks(const image *opened, const uint8_t *marks, uint8_t *chosen, himzolven_count_answer *answer) {
    if (opened->state.under_way.call != CALL_WRITE) {
        memcpy(chosen, marks, MARKS_MAX);
        return try_rebuild(opened, chosen, answer);
    }
    for (size_t kept = 0; kept < PLACES; kept++) {
        if (!try_keeping(opened, kept, marks, chosen, answer)) {
            return false;
        }
        if (answer->refusal == HIMZOLVEN_ACCEPTED) {
            return true;
        }
    }
    return try_keeping(opened, 0, marks, chosen, answer);
}
