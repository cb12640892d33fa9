#include "design.h"

#include <ctype.h>
#include <errno.h>
#include <stdio.h>
#include <stdlib.h>
#include <string.h>

#include "exits.h"
#include "words.h"

enum { LINE_BYTES = 256 };

/* The held design. The library knows how long its rows are, so each length is tried. */
static int fill(geometry *to) {
    himzolven_answer answer = himzolven_fill(to->v, NULL, 0);
    for (to->k = 2; answer.refusal == HIMZOLVEN_NOT_WHOLE && to->k <= K_MAX; to->k++) {
        to->design_length = (size_t)to->v * to->k;
        answer = himzolven_fill(to->v, to->design, to->design_length);
        if (answer.refusal == HIMZOLVEN_ACCEPTED) {
            return EXIT_DONE;
        }
    }
    return tell_refusal(to, &(question){0}, answer.refusal, answer.place);
}

static int unread(const char *file, size_t line, const char *wanted) {
    complain("%s, line %zu: %s", file, line, wanted);
    return EXIT_USAGE;
}

/* One row: group numbers with blanks between; what follows # does not count. `count`: how many there are. */
static int read_row(geometry *to, char *line, const char *file, size_t number, uint32_t *count) {
    line[strcspn(line, "#\n")] = '\0';
    for (char *word = strtok(line, " \t\r,"); word != NULL; word = strtok(NULL, " \t\r,")) {
        char *end;
        unsigned long group = strtoul(word, &end, 10);
        if (!isdigit((unsigned char)*word) || *end != '\0' || group > UINT16_MAX) {
            return unread(file, number, "a row of group numbers like '0 1 3' is expected");
        }
        if (to->design_length == DESIGN_MAX) {
            return unread(file, number, "no design has so many numbers");
        }
        to->design[to->design_length++] = (uint16_t)group;
        ++*count;
    }
    return EXIT_DONE;
}

/* All rows. The first one's length is k. */
static int read_rows(geometry *to, FILE *from, const char *file) {
    char line[LINE_BYTES];
    for (size_t number = 1; fgets(line, sizeof line, from) != NULL; number++) {
        uint32_t count = 0;
        if (strchr(line, '\n') == NULL && !feof(from)) {
            return unread(file, number, "the line is too long for a row");
        }
        int code = read_row(to, line, file, number, &count);
        if (code != EXIT_DONE) {
            return code;
        }
        to->k = to->k == 0 ? count : to->k;
        if (count != 0 && count != to->k) {
            return unread(file, number, "the row has another length than the first");
        }
    }
    return EXIT_DONE;
}

static int read_file(geometry *to, const char *file) {
    FILE *from = fopen(file, "r");
    if (from == NULL) {
        complain("%s: %s", file, strerror(errno));
        return EXIT_USAGE;
    }
    int code = read_rows(to, from, file);
    if (code == EXIT_DONE && ferror(from)) {
        complain("%s: can't be read", file);
        code = EXIT_USAGE;
    }
    fclose(from);
    return code;
}

int design_make(geometry *to, const char *file) {
    to->design = calloc(DESIGN_MAX, sizeof *to->design);
    if (to->design == NULL) {
        complain("%s", strerror(errno));
        return EXIT_IMAGE;
    }
    return file == NULL ? fill(to) : read_file(to, file);
}
