/* The commands status, plan, audit and refusals: they change nothing. */
#include <inttypes.h>
#include <stdio.h>
#include <stdlib.h>
#include <string.h>

#include "array.h"
#include "commands.h"
#include "cutoff.h"
#include "exits.h"
#include "options.h"
#include "words.h"
#include "work.h"

/* Opens the one image that a command without options looks at. */
static int open_only(image *opened, char **words) {
    if (!options_take(words, NULL, 0) || !words_are(words, 1, "one IMAGE")) {
        return EXIT_USAGE;
    }
    return image_open(opened, words[0], TO_READ);
}

static void print_lost(const image *opened) {
    uint8_t chosen[MARKS_MAX];
    himzolven_count_answer answer;
    printf("lost     ");
    print_marked(stdout, opened->state.marks, opened->sizes.disks);
    printf("\n");
    if (!choose_marks(opened, opened->state.marks, chosen, &answer)) {
        return;
    }
    if (answer.refusal != HIMZOLVEN_ACCEPTED) {
        printf("         %s is ", opened->state.under_way.call == CALL_NONE ? "rebuild" : "recover");
        print_refusal(stdout, &opened->geometry, &(question){.marks = chosen}, answer.refusal, answer.place);
    } else if (answer.count != 0 && opened->state.under_way.call == CALL_NONE) {
        printf("         run: himzolven rebuild %s\n", opened->path);
    }
}

static void print_status(const image *opened) {
    const geometry *of = &opened->geometry;
    const himzolven_sizes_answer *sizes = &opened->sizes;
    printf("design   %" PRIu32 " groups in %" PRIu32 " tuples of %" PRIu32 "\n", of->v, sizes->tuples, of->k);
    printf("disks    %" PRIu32 ", %" PRIu32 " in a group, ", sizes->disks, of->g);
    printf("each with %" PRIu32 " parts of %" PRIu32 " units of %" PRIu32 " bytes\n", sizes->parts, of->g, of->u);
    printf("bytes    %" PRIu64 " on all disks, %" PRIu64 " for the user in %" PRIu32 " user units\n", sizes->bytes,
           image_user_bytes(opened), sizes->user_units);
    print_lost(opened);
    printf("cut off  ");
    if (opened->state.under_way.call == CALL_NONE) {
        printf("nothing\n");
        return;
    }
    print_cut_off(stdout, opened);
    printf("\n         run: himzolven recover %s\n", opened->path);
}

int run_status(char **words) {
    image opened;
    int code = open_only(&opened, words);
    if (code == EXIT_DONE) {
        print_status(&opened);
        image_close(&opened);
    }
    return code;
}

/* The triples: unit restored, disk and unit to read. In lines as they are, else those of one unit in a line. */
static void print_plan(const uint32_t *list, uint32_t triples, bool lines) {
    for (uint32_t i = 0; i < triples; i++) {
        const uint32_t *triple = list + (size_t)3 * i;
        bool first = i == 0 || triple[0] != triple[-3];
        if (lines) {
            printf("%" PRIu32 " %" PRIu32 " %" PRIu32 "\n", triple[0], triple[1], triple[2]);
            continue;
        }
        if (first) {
            printf(i == 0 ? "unit %" PRIu32 " is the XOR of" : "\nunit %" PRIu32 " is the XOR of", triple[0]);
        }
        printf(first ? " disk %" PRIu32 " unit %" PRIu32 : ", disk %" PRIu32 " unit %" PRIu32, triple[1], triple[2]);
    }
    printf(lines ? "" : "\n");
}

static int plan(const image *opened, uint32_t disk, bool lines) {
    const geometry *of = &opened->geometry;
    size_t length = (size_t)3 * opened->sizes.parts * (of->g - 1) * of->k;
    uint32_t *list = calloc(length, sizeof *list);
    if (list == NULL) {
        complain("no memory for the plan");
        return EXIT_IMAGE;
    }
    himzolven_count_answer answer = ask_plan(of, disk, list, length);
    int code = EXIT_DONE;
    if (answer.refusal != HIMZOLVEN_ACCEPTED) {
        code = tell_refusal(of, &(question){.disk = disk}, answer.refusal, answer.place);
    } else {
        print_plan(list, answer.count, lines);
    }
    free(list);
    return code;
}

int run_plan(char **words) {
    option lines = OPTION("--lines", FLAG);
    uint32_t disk;
    if (!options_take(words, &lines, 1) || !words_are(words, 2, "an IMAGE and one DISK") ||
        !number_read("DISK", words[1], NUMBER, &disk)) {
        return EXIT_USAGE;
    }
    image opened;
    int code = image_open(&opened, words[0], TO_READ);
    if (code == EXIT_DONE) {
        code = plan(&opened, disk, lines.given);
        image_close(&opened);
    }
    return code;
}

/* Which set has this number: the rules number those of a tuple together, outer ones first. */
static void print_set(const geometry *of, uint32_t number) {
    uint32_t outer = (of->g - 1) * of->g, tuple_sets = outer + of->k * of->g;
    uint32_t tuple = number / tuple_sets, in_tuple = number % tuple_sets;
    if (in_tuple < outer) {
        printf("the outer set of label (%" PRIu32 ",%" PRIu32 ") of tuple %" PRIu32, in_tuple / of->g, in_tuple % of->g, tuple);
        return;
    }
    uint32_t position = (in_tuple - outer) / of->g, diagonal = (in_tuple - outer) % of->g;
    printf("the inner set of diagonal %" PRIu32 " of group %u in tuple %" PRIu32, diagonal,
           of->design[(size_t)tuple * of->k + position], tuple);
}

static int audit(const image *opened) {
    work_begin(0, "audit of %" PRIu64 " bytes", opened->sizes.bytes);
    himzolven_audit_answer answer = array_audit(opened);
    work_end();
    if (answer.refusal != HIMZOLVEN_ACCEPTED) {
        return tell_refusal(&opened->geometry, &(question){0}, answer.refusal, answer.place);
    }
    printf("%" PRIu32 " sets, %" PRIu32 " bad", opened->sizes.sets, answer.bad);
    if (answer.bad == 0) {
        printf("\n");
        return EXIT_DONE;
    }
    printf("; the lowest is set %" PRIu32 ", ", answer.lowest);
    print_set(&opened->geometry, answer.lowest);
    printf("\nthe audit reads lost disks too; marked as lost: ");
    print_marked(stdout, opened->state.marks, opened->sizes.disks);
    printf("\n");
    return EXIT_BAD_SETS;
}

int run_audit(char **words) {
    image opened;
    int code = open_only(&opened, words);
    if (code == EXIT_DONE) {
        warn_cut_off(&opened);
        code = audit(&opened);
        image_close(&opened);
    }
    return code;
}

int run_refusals(char **words) {
    if (!options_take(words, NULL, 0) || !words_are(words, 0, "nothing")) {
        return EXIT_USAGE;
    }
    print_refusals();
    return EXIT_DONE;
}
