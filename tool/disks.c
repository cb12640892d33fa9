/* The commands fail, rebuild and recover: disks are lost and come back. */
#include <errno.h>
#include <inttypes.h>
#include <stdio.h>
#include <string.h>

#include "array.h"
#include "commands.h"
#include "cutoff.h"
#include "exits.h"
#include "options.h"
#include "words.h"
#include "work.h"

static int no_memory(void) {
    complain("%s", strerror(ENOMEM));
    return EXIT_IMAGE;
}

static int refused(const image *opened, const uint8_t *marks, himzolven_count_answer answer) {
    return tell_refusal(&opened->geometry, &(question){.marks = marks}, answer.refusal, answer.place);
}

/* A signal to end came before anything was stored. */
static int interrupted(const image *opened) {
    complain("%s: stopped by a signal; nothing is changed", opened->path);
    return EXIT_INTERRUPTED;
}

/* Which disks the words name. */
static int read_disks(const image *opened, char **words, uint8_t *hit) {
    for (; *words != NULL; words++) {
        uint32_t disk;
        if (!number_read("DISK", *words, NUMBER, &disk)) {
            return EXIT_USAGE;
        }
        himzolven_role_answer answer = ask_role(&opened->geometry, disk, 0);
        if (answer.refusal != HIMZOLVEN_ACCEPTED) {
            return tell_refusal(&opened->geometry, &(question){.disk = disk}, answer.refusal, answer.place);
        }
        hit[disk] = 1;
    }
    return EXIT_DONE;
}

/* splitmix64: noise that looks like data and can be had again from its seed. */
static uint8_t noise(uint64_t *seed) {
    uint64_t mixed = *seed += UINT64_C(0x9E3779B97F4A7C15);
    mixed = (mixed ^ mixed >> 30) * UINT64_C(0xBF58476D1CE4E5B9);
    mixed = (mixed ^ mixed >> 27) * UINT64_C(0x94D049BB133111EB);
    return (uint8_t)(mixed ^ mixed >> 31);
}

/* Noise over the disks that are hit. They are marked already, so what they hold does not count. */
static int spoil(const image *opened, const uint8_t *hit, uint64_t seed) {
    size_t disk_bytes = image_array_bytes(opened) / opened->sizes.disks;
    work_begin(opened->sizes.disks, "noise over disks of %zu bytes", disk_bytes);
    for (uint32_t disk = 0; disk < opened->sizes.disks; disk++) {
        uint8_t *bytes = image_array(opened) + disk * disk_bytes;
        for (size_t i = 0; hit[disk] != 0 && i < disk_bytes; i++) {
            bytes[i] = noise(&seed);
        }
        work_at(disk);
    }
    int code = image_settle(opened);
    work_end();
    return code;
}

/* Whether the disks come back; the marks with which they would are not kept. */
static int foresee(const image *opened, const uint8_t *marks, bool force) {
    uint8_t chosen[MARKS_MAX];
    himzolven_count_answer answer;
    if (!choose_marks(opened, marks, chosen, &answer)) {
        return no_memory();
    }
    if (answer.refusal == HIMZOLVEN_ACCEPTED || force) {
        return EXIT_DONE;
    }
    complain("with these disks lost a rebuild would be refused; nothing is done, --force loses them all the same");
    return refused(opened, chosen, answer);
}

/* The marks are on the disk before the noise begins. */
static int fail_disks(image *opened, char **words, uint64_t seed, bool force) {
    uint8_t hit[MARKS_MAX] = {0}, marks[MARKS_MAX];
    int code = read_disks(opened, words, hit);
    for (size_t disk = 0; disk < MARKS_MAX; disk++) {
        marks[disk] = opened->state.marks[disk] | hit[disk];
    }
    code = code != EXIT_DONE ? code : foresee(opened, marks, force);
    if (code != EXIT_DONE || work_stopped()) {
        return code != EXIT_DONE ? code : interrupted(opened);
    }
    memcpy(opened->state.marks, marks, sizeof marks);
    code = image_commit(opened);
    code = code != EXIT_DONE ? code : spoil(opened, hit, seed);
    if (code == EXIT_DONE) {
        printf("lost: ");
        print_marked(stdout, marks, opened->sizes.disks);
        printf("\n");
    }
    return code;
}

int run_fail(char **words) {
    enum { SEED, FORCE, OPTIONS };
    option options[OPTIONS] = {OPTION("--seed", NUMBER), OPTION("--force", FLAG)};
    if (!options_take(words, options, OPTIONS)) {
        return EXIT_USAGE;
    }
    if (words[0] == NULL || words[1] == NULL) {
        complain("an IMAGE and one DISK or more are expected, like shelf.img 0 1 2");
        return EXIT_USAGE;
    }
    image opened;
    int code = image_open(&opened, words[0], TO_STORE);
    if (code != EXIT_DONE) {
        return code;
    }
    warn_cut_off(&opened);
    code = fail_disks(&opened, words + 1, options[SEED].number, options[FORCE].given);
    image_close(&opened);
    return code;
}

/* Rebuilds the disks with these marks. Marks and record are on the disk before the call; until all is back they stay. */
static int rebuild(image *opened, const uint8_t *marks, uint32_t units) {
    memcpy(opened->state.marks, marks, MARKS_MAX);
    opened->state.under_way = (record){CALL_REBUILD, 0, 0, 0};
    int code = image_commit(opened);
    if (code != EXIT_DONE) {
        return code;
    }
    work_begin(0, "rebuilding %" PRIu32 " units of %" PRIu32 " bytes", units, opened->geometry.u);
    himzolven_count_answer answer = array_rebuild(opened);
    code = answer.refusal != HIMZOLVEN_ACCEPTED ? refused(opened, marks, answer) : image_end(opened);
    work_end();
    if (code == EXIT_DONE) {
        printf("rebuilt: ");
        print_marked(stdout, marks, opened->sizes.disks);
        printf(", %" PRIu32 " units restored\n", answer.count);
    }
    return code;
}

/* The library's answer on the marks, and then the rebuild. */
static int choose_and_rebuild(image *opened) {
    uint8_t chosen[MARKS_MAX];
    himzolven_count_answer answer;
    if (!choose_marks(opened, opened->state.marks, chosen, &answer)) {
        return no_memory();
    }
    if (answer.refusal != HIMZOLVEN_ACCEPTED) {
        return refused(opened, chosen, answer);
    }
    return work_stopped() ? interrupted(opened) : rebuild(opened, chosen, answer.count);
}

int run_rebuild(char **words) {
    image opened;
    if (!options_take(words, NULL, 0) || !words_are(words, 1, "one IMAGE")) {
        return EXIT_USAGE;
    }
    int code = open_whole(&opened, words[0]);
    if (code == EXIT_DONE) {
        code = choose_and_rebuild(&opened);
        image_close(&opened);
    }
    return code;
}

static int recover(image *opened) {
    if (opened->state.under_way.call == CALL_NONE) {
        printf("nothing was cut off\n");
        return EXIT_DONE;
    }
    print_cut_off(stdout, opened);
    printf("\n");
    int code = choose_and_rebuild(opened);
    if (code == EXIT_REFUSED) {
        complain("no way to recover with these disks lost; nothing is changed, units on present disks can still be read");
    }
    return code;
}

int run_recover(char **words) {
    image opened;
    if (!options_take(words, NULL, 0) || !words_are(words, 1, "one IMAGE")) {
        return EXIT_USAGE;
    }
    int code = image_open(&opened, words[0], TO_STORE);
    if (code == EXIT_DONE) {
        code = recover(&opened);
        image_close(&opened);
    }
    return code;
}
