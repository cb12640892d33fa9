/* The commands read and write: bytes of one user unit, or a stream over consecutive user units. */
#include <errno.h>
#include <inttypes.h>
#include <stdio.h>
#include <stdlib.h>
#include <string.h>
#include <sys/stat.h>
#include <unistd.h>

#include "array.h"
#include "commands.h"
#include "cutoff.h"
#include "exits.h"
#include "options.h"
#include "words.h"
#include "work.h"

enum { CHUNK_UNITS = 64 }; /* so many units are taken from the input, then stored; signals to end wait for the chunk */

/* The bytes of a stream that lie in one user unit. */
typedef struct {
    uint32_t user_unit;
    uint64_t offset;
    uint64_t length;
} piece;

/* The first piece of a stream of `left` bytes from user byte `at` on. A number that is no unit's stays one. */
static piece piece_at(const image *opened, uint64_t at, uint64_t left) {
    uint64_t unit = at / opened->geometry.u, offset = at % opened->geometry.u, room = opened->geometry.u - offset;
    return (piece){unit > UINT32_MAX ? UINT32_MAX : (uint32_t)unit, offset, left < room ? left : room};
}

static int refused_of(const image *opened, piece asked, bool or_more, himzolven_answer answer) {
    question words = {.user_unit = asked.user_unit, .offset = asked.offset, .length = asked.length, .or_more = or_more,
                      .marks = opened->state.marks};
    return tell_refusal(&opened->geometry, &words, answer.refusal, answer.place);
}

static int refused(const image *opened, piece asked, himzolven_answer answer) {
    return refused_of(opened, asked, false, answer);
}

/* Whether the library would take the whole stream; nothing is stored. A signal to end leaves the rest unasked. */
static int try_stream(image *opened, enum access access, uint64_t at, uint64_t length) {
    himzolven_answer answer = {HIMZOLVEN_ACCEPTED, 0};
    piece next = {0, 0, 0};
    work_begin(length, "asking about user bytes from %" PRIu64 " on", at);
    for (uint64_t done = 0; answer.refusal == HIMZOLVEN_ACCEPTED && done < length && !work_stopped(); done += next.length) {
        work_at(done);
        next = piece_at(opened, at + done, length - done);
        answer = access == TO_STORE ? try_write(opened, next.user_unit, next.offset, next.length)
                                    : try_read(opened, next.user_unit, next.offset, next.length);
    }
    work_end();
    return answer.refusal != HIMZOLVEN_ACCEPTED ? refused(opened, next, answer) : EXIT_DONE;
}

/* Fills the buffer from stdin, up to its end or the input's. -1: an error, or a signal to end. */
static ssize_t take(uint8_t *bytes, size_t length) {
    size_t done = 0;
    while (done < length && !work_stopped()) {
        ssize_t count = read(STDIN_FILENO, bytes + done, length - done);
        if (count == 0) {
            break;
        }
        if (count < 0 && errno != EINTR) {
            complain("standard input: %s", strerror(errno));
            return -1;
        }
        done += count < 0 ? 0 : (size_t)count;
    }
    return work_stopped() ? -1 : (ssize_t)done;
}

static int give(const uint8_t *bytes, size_t length) {
    while (length != 0) {
        ssize_t count = write(STDOUT_FILENO, bytes, length);
        if (count < 0 && (errno != EINTR || work_stopped())) {
            complain("standard output: %s", strerror(errno));
            return work_stopped() ? EXIT_INTERRUPTED : EXIT_IMAGE;
        }
        bytes += count < 0 ? 0 : count;
        length -= count < 0 ? 0 : (size_t)count;
    }
    return EXIT_DONE;
}

/* One write: the library's answer, then the record on the disk, then the call, then the array on the disk. */
static int store(image *opened, piece to, const uint8_t *bytes) {
    himzolven_answer answer = try_write(opened, to.user_unit, to.offset, to.length);
    if (answer.refusal != HIMZOLVEN_ACCEPTED) {
        return refused(opened, to, answer);
    }
    opened->state.under_way = (record){CALL_WRITE, to.user_unit, (uint32_t)to.offset, (uint32_t)to.length};
    int code = image_commit(opened);
    if (code != EXIT_DONE) {
        return code;
    }
    answer = array_write(opened, to.user_unit, to.offset, bytes, (size_t)to.length);
    return answer.refusal != HIMZOLVEN_ACCEPTED ? refused(opened, to, answer) : image_settle(opened);
}

/* Stores what was taken, unit after unit, and clears the record. `done` goes up with each unit that is stored. */
static int store_chunk(image *opened, uint64_t at, const uint8_t *bytes, size_t length, uint64_t *done) {
    int code = EXIT_DONE;
    size_t used = 0;
    while (code == EXIT_DONE && used < length) {
        piece next = piece_at(opened, at + used, length - used);
        code = store(opened, next, bytes + used);
        used += (size_t)next.length;
        *done += code == EXIT_DONE ? next.length : 0;
    }
    if (code == EXIT_IMAGE || opened->state.under_way.call == CALL_NONE) {
        return code;
    }
    int ended = image_end(opened);
    return code != EXIT_DONE ? code : ended;
}

/* The input's length where it is a file, else 0: a pipe's is not known. */
static uint64_t input_length(void) {
    struct stat is;
    off_t at = lseek(STDIN_FILENO, 0, SEEK_CUR);
    bool known = fstat(STDIN_FILENO, &is) == 0 && S_ISREG(is.st_mode) && at >= 0 && is.st_size > at;
    return known ? (uint64_t)(is.st_size - at) : 0;
}

static int store_stream(image *opened, uint64_t at, uint8_t *buffer, uint64_t *done) {
    uint64_t length = input_length();
    size_t room = (size_t)CHUNK_UNITS * opened->geometry.u;
    int code = try_stream(opened, TO_STORE, at, length);
    work_begin(length, "writing user bytes from %" PRIu64 " on", at);
    while (code == EXIT_DONE) {
        ssize_t count = take(buffer, room);
        if (count <= 0) {
            code = count == 0 ? EXIT_DONE : EXIT_IMAGE;
            break;
        }
        code = store_chunk(opened, at + *done, buffer, (size_t)count, done);
        work_at(*done);
    }
    work_end();
    return code;
}

static int write_stream(image *opened, uint64_t at, uint64_t *done) {
    uint8_t *buffer = malloc((size_t)CHUNK_UNITS * opened->geometry.u);
    if (buffer == NULL) {
        complain("%s", strerror(errno));
        return EXIT_IMAGE;
    }
    int code = store_stream(opened, at, buffer, done);
    free(buffer);
    if (work_stopped()) {
        complain("stopped by a signal");
        code = EXIT_INTERRUPTED;
    }
    if (code != EXIT_DONE) {
        complain("%" PRIu64 " bytes were written before, from %" PRIu64 " on", *done, at);
    }
    return code;
}

/* One byte more than a unit is taken, so that a range that is too long is seen. */
static int write_unit(image *opened, uint32_t user_unit, uint64_t offset, uint64_t *done) {
    uint8_t bytes[U_MAX + 1];
    ssize_t count = take(bytes, (size_t)opened->geometry.u + 1);
    if (count < 0) {
        return work_stopped() ? EXIT_INTERRUPTED : EXIT_IMAGE;
    }
    piece all = {user_unit, offset, (uint64_t)count};
    himzolven_answer answer = try_write(opened, user_unit, offset, all.length);
    if (answer.refusal != HIMZOLVEN_ACCEPTED) {
        return refused_of(opened, all, all.length > opened->geometry.u, answer);
    }
    return store_chunk(opened, (uint64_t)user_unit * opened->geometry.u + offset, bytes, (size_t)count, done);
}

enum { UNIT, OFFSET, AT, LAST, OPTIONS };

/* Either --unit, with --offset, or --at. */
static bool one_way(const option *options) {
    if (options[UNIT].given == options[AT].given) {
        complain("either --unit N or --at BYTE is expected");
        return false;
    }
    if (options[AT].given && options[OFFSET].given) {
        complain("--offset goes with --unit; --at counts user bytes from 0");
        return false;
    }
    return true;
}

int run_write(char **words) {
    option options[OPTIONS] = {OPTION("--unit", NUMBER), OPTION("--offset", BYTES), OPTION("--at", BYTES),
                               OPTION("--no-sync", FLAG)};
    if (!options_take(words, options, OPTIONS) || !words_are(words, 1, "one IMAGE") || !one_way(options)) {
        return EXIT_USAGE;
    }
    image opened;
    int code = open_whole(&opened, words[0]);
    if (code != EXIT_DONE) {
        return code;
    }
    opened.sync = !options[LAST].given;
    uint64_t done = 0;
    code = options[AT].given ? write_stream(&opened, options[AT].number, &done)
                             : write_unit(&opened, options[UNIT].number, options[OFFSET].number, &done);
    opened.sync = true;
    int flushed = options[LAST].given ? image_flush(&opened) : EXIT_DONE;
    image_close(&opened);
    code = code != EXIT_DONE ? code : flushed;
    if (code == EXIT_DONE) {
        printf("written: %" PRIu64 " bytes\n", done);
    }
    return code;
}

static int read_stream(image *opened, uint64_t at, uint64_t length) {
    uint8_t bytes[U_MAX];
    uint64_t done = 0;
    int code = try_stream(opened, TO_READ, at, length);
    work_begin(length, "reading %" PRIu64 " user bytes from %" PRIu64 " on", length, at);
    while (code == EXIT_DONE && done < length && !work_stopped()) {
        piece next = piece_at(opened, at + done, length - done);
        himzolven_answer answer = array_read(opened, next.user_unit, next.offset, bytes, (size_t)next.length);
        code = answer.refusal != HIMZOLVEN_ACCEPTED ? refused(opened, next, answer) : give(bytes, (size_t)next.length);
        done += next.length;
        work_at(done);
    }
    work_end();
    if (code == EXIT_DONE && done < length) {
        complain("stopped by a signal");
        code = EXIT_INTERRUPTED;
    }
    return code;
}

/* A range of one unit is asked as it came, then read as the stream that it is. */
static int read_unit(image *opened, uint32_t user_unit, uint64_t offset, uint64_t length) {
    himzolven_answer answer = try_read(opened, user_unit, offset, length);
    if (answer.refusal != HIMZOLVEN_ACCEPTED) {
        return refused(opened, (piece){user_unit, offset, length}, answer);
    }
    return read_stream(opened, (uint64_t)user_unit * opened->geometry.u + offset, length);
}

/* The length that was asked for, or what is left of `all`. */
static uint64_t length_asked(const option *length, uint64_t all, uint64_t from) {
    return length->given ? length->number : from < all ? all - from : 0;
}

int run_read(char **words) {
    option options[OPTIONS] = {OPTION("--unit", NUMBER), OPTION("--offset", BYTES), OPTION("--at", BYTES),
                               OPTION("--length", BYTES)};
    if (!options_take(words, options, OPTIONS) || !words_are(words, 1, "one IMAGE") || !one_way(options)) {
        return EXIT_USAGE;
    }
    image opened;
    int code = image_open(&opened, words[0], TO_READ);
    if (code != EXIT_DONE) {
        return code;
    }
    warn_cut_off(&opened);
    uint64_t at = options[AT].number, offset = options[OFFSET].number, end = image_user_bytes(&opened);
    if (at > end && !options[LAST].given) {
        end = at + 1; /* a byte that is not there: the library says so */
    }
    code = options[AT].given ? read_stream(&opened, at, length_asked(&options[LAST], end, at))
                             : read_unit(&opened, options[UNIT].number, offset,
                                         length_asked(&options[LAST], opened.geometry.u, offset));
    image_close(&opened);
    return code;
}
