/* Tests of what the library does to memory that it is lent, and to none else. usage: boundary [TEST] ; a line for each test */
#include <inttypes.h>
#include <stdio.h>
#include <string.h>

#include "cases.h"
#include "cut.h"
#include "rooms.h"
#include "threads.h"

enum { SHIFTS = 64 };

/* Where the lists of a call lie. */
struct stay {
    bool upper;
    size_t shift[LISTS];
    unsigned null; /* lists of length 0 that are passed as NULL */
};

#define EACH(kind, name, count) for (kind name = 0; name < (count); name++)

static bool among(unsigned set, unsigned bit) {
    return (set >> bit & 1) != 0;
}

/* Every lent byte is as wanted; of a refused call also as before. */
static void compare_lists(enum call call, const struct lent *got, const struct lent *want, const struct lent *before) {
    EACH(enum list, i, LISTS) {
        if (!among(shapes[call].takes, i) || bytes_of(got, i) == 0) continue;
        if (memcmp(got->parts[i].at, want->parts[i].at, bytes_of(got, i)) != 0)
            fail("leaves other bytes in `%s` than in ordinary memory", list_names[i]);
        if (doing.refusal != 0 && memcmp(got->parts[i].at, before->parts[i].at, bytes_of(got, i)) != 0)
            fail("is refused and changes `%s`", list_names[i]);
    }
}

/* Makes the call in ordinary memory and in rooms: same answer, same bytes, no other byte touched. A list that has to stay,
 * because it is const or the call is refused, can't be written meanwhile. */
static void trial(const char *test, enum call call, const struct lent *before, struct stay stay, uint32_t due) {
    doing = (struct doing){test, shapes[call].name, *before, due};
    struct lent want = copied(before), got = *before;
    union told wanted = ask(call, &want);
    if (wanted.answer.refusal != due) fail("refused with %" PRIu32 ", not with %" PRIu32, wanted.answer.refusal, due);
    EACH(enum list, i, LISTS) {
        if (!among(shapes[call].takes, i)) continue;
        void *at = open_room(i, before->parts[i].at, bytes_of(before, i), stay.upper, stay.shift[i]);
        got.parts[i].at = among(stay.null, i) ? NULL : at;
        if (due != 0 || !among(shapes[call].changes, i)) only_read(i);
    }
    union told told = ask(call, &got);
    if (!same(told, wanted)) fail("another answer here than in ordinary memory");
    compare_lists(call, &got, &want, before);
    EACH(enum list, i, LISTS) if (among(shapes[call].takes, i)) close_room(i);
    release(&want);
}

/* Accepted calls, each list flush against a guard page below it, then above it. */
static void guards(void) {
    size_t trials = 0;
    EACH(enum call, call, CALLS) EACH(size_t, at, GEOMETRIES) {
        if (!fits(call, geometries[at])) continue;
        struct lent before = valid(call, geometries[at]);
        EACH(int, upper, 2) trial("guards", call, &before, (struct stay){.upper = upper != 0}, 0), trials++;
        release(&before);
    }
    printf("guards: %zu accepted calls of %d kinds, each list flush against a page that can't be touched, const ones read-only\n",
           trials, CALLS);
}

/* Each refusal of each call: no list can be written. */
static void refused(void) {
    size_t trials = 0, pairs = 0;
    EACH(enum call, call, CALLS) EACH(uint32_t, number, REFUSALS) {
        size_t met = 0;
        EACH(size_t, at, GEOMETRIES) {
            if (!among(shapes[call].refusals, number) || !fits(call, geometries[at])) continue;
            struct lent before = valid(call, geometries[at]), spoiled = copied(&before);
            if (spoil(call, number, &spoiled)) {
                EACH(int, upper, 2) trial("refused", call, &spoiled, (struct stay){.upper = upper != 0}, number), met++;
            }
            release(&spoiled), release(&before);
        }
        if (among(shapes[call].refusals, number) && met == 0) fail("never refused with %" PRIu32, number);
        trials += met, pairs += met > 0;
    }
    printf("refused: %zu refused calls, all %zu pairs of a call and its refusal, with every list read-only\n", trials, pairs);
}

/* The refusal that is due when these lists are empty. */
static uint32_t due_if_empty(unsigned lists) {
    if (among(lists, DESIGN)) return HIMZOLVEN_NOT_WHOLE;
    if (among(lists, ARRAY) || among(lists, MARKS)) return HIMZOLVEN_BAD_LENGTH;
    return among(lists, LIST) ? HIMZOLVEN_SHORT_LIST : HIMZOLVEN_ACCEPTED;
}

/* Some lists of length 0, passed as NULL and as a pointer that can't be followed. */
static void empty(void) {
    size_t trials = 0;
    EACH(enum call, call, CALLS) EACH(unsigned, lists, 1u << LISTS) {
        if (lists == 0 || (lists & ~shapes[call].takes) != 0) continue;
        struct lent before = valid(call, geometries[0]), cut = before;
        EACH(enum list, i, LISTS) if (among(lists, i)) cut.parts[i].length = 0;
        trial("empty", call, &cut, (struct stay){.null = lists}, due_if_empty(lists));
        trial("empty", call, &cut, (struct stay){.null = 0}, due_if_empty(lists));
        release(&before), trials += 2;
    }
    printf("empty: %zu calls with lists of length 0, NULL or a pointer that can't be followed\n", trials);
}

/* Bytes at every offset 0..63 from a page, the lists of wider numbers at every multiple of their size. */
static void alignment(void) {
    size_t trials = 0;
    EACH(enum call, call, CALLS) EACH(size_t, at, GEOMETRIES) {
        if (!fits(call, geometries[at])) continue;
        struct lent before = valid(call, geometries[at]);
        EACH(size_t, s, SHIFTS) {
            struct stay stay = {.shift = {2 * s % SHIFTS, s, (7 * s + 3) % SHIFTS, (5 * s + 1) % SHIFTS, 4 * s % SHIFTS}};
            trial("alignment", call, &before, stay, 0), trials++;
        }
        release(&before);
    }
    printf("alignment: %zu calls, bytes at offsets 0 to %d, `design` at multiples of 2, `list` of 4\n", trials, SHIFTS - 1);
}

static const struct {
    const char *name;
    void (*run)(void);
} tests[] = {{"guards", guards}, {"refused", refused}, {"empty", empty}, {"alignment", alignment}, {"threads", threads},
             {"cut", cut}};

int main(int argc, char **argv) {
    size_t ran = 0;
    watch_rooms();
    EACH(size_t, i, sizeof tests / sizeof *tests) {
        if (argc == 2 && strcmp(argv[1], tests[i].name) != 0) continue;
        tests[i].run(), ran++;
    }
    if (ran == 0 || argc > 2) {
        fprintf(stderr, "usage: boundary [guards|refused|empty|alignment|threads|cut]\n");
        return 2;
    }
    return 0;
}
