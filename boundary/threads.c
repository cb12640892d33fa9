#define _GNU_SOURCE
#include "threads.h"

#include <inttypes.h>
#include <pthread.h>
#include <stdio.h>
#include <stdlib.h>
#include <string.h>

#include "cases.h"
#include "rooms.h"

enum { TURNS = 20000, WORKERS = 2 };

/* A thread's work: its seed settles the calls, `traces` gets a number for each that all it was told and lent goes into. */
struct work {
    uint64_t seed;
    unsigned common; /* lists that the other thread is lent, too: none of them may change */
    struct lent lent;
    const struct lent *last; /* the highest numbers that are not refused */
    pthread_barrier_t *start;
    uint64_t *traces;
    size_t accepted;
};

static uint64_t mixed(uint64_t sum, const void *from, size_t bytes) {
    const uint8_t *at = from;
    for (uint64_t word; bytes >= sizeof word; bytes -= sizeof word, at += sizeof word) {
        memcpy(&word, at, sizeof word);
        sum = (sum ^ word) * 0x9E3779B97F4A7C15u;
        sum ^= sum >> 29;
    }
    for (; bytes > 0; bytes--) sum = (sum ^ *at++) * 0x100000001B3u;
    return sum;
}

/* The next call and its numbers, some of them one too high; marks are set now and then, and rebuilt. */
static enum call choose(struct work *w, uint64_t *state) {
    uint64_t drawn = next_number(state);
    enum call call = (enum call)(drawn % CALLS);
    if ((shapes[call].changes & w->common) != 0) call = AUDIT;
    struct lent *l = &w->lent;
    l->user_unit = (uint32_t)(drawn >> 8) % (w->last->user_unit + 2);
    l->disk = (uint32_t)(drawn >> 16) % (w->last->disk + 2);
    l->unit = (uint32_t)(drawn >> 24) % (w->last->unit + 2);
    l->offset = (drawn >> 32) % (w->last->offset + 2);
    uint8_t *bytes = l->parts[BYTES].at;
    for (size_t i = 0; i < l->parts[BYTES].length; i++) bytes[i] = (uint8_t)(drawn >> i % 56);
    if ((w->common >> MARKS & 1) == 0 && drawn >> 58 == 0) ((uint8_t *)l->parts[MARKS].at)[l->disk % l->parts[MARKS].length] ^= 1;
    return call;
}

static void *work(void *given) {
    struct work *w = given;
    uint64_t state = w->seed;
    if (w->start != NULL) pthread_barrier_wait(w->start);
    for (size_t turn = 0; turn < TURNS; turn++) {
        enum call call = choose(w, &state);
        union told told = ask(call, &w->lent);
        uint64_t sum = mixed(call, told.numbers, sizeof told.numbers);
        for (enum list i = 0; i < LISTS; i++) sum = mixed(sum, w->lent.parts[i].at, bytes_of(&w->lent, i));
        w->traces[turn] = sum, w->accepted += told.answer.refusal == HIMZOLVEN_ACCEPTED;
    }
    return NULL;
}

static struct work prepared(unsigned common, const struct lent *first, size_t number, pthread_barrier_t *start) {
    struct work w = {.seed = number + 1, .common = common, .lent = copied(first), .last = first, .start = start};
    w.traces = calloc(TURNS, sizeof *w.traces);
    if (w.traces == NULL) abort();
    return w;
}

static void discard(struct work *w) {
    release(&w->lent);
    free(w->traces);
}

/* Both at a time; what they have in common lies on pages that can't be written. */
static void run_both(struct work *both, unsigned common, const struct lent *first) {
    pthread_t ids[WORKERS];
    struct lent own[WORKERS];
    for (size_t n = 0; n < WORKERS; n++) own[n] = both[n].lent;
    for (enum list i = 0; i < LISTS; i++) {
        if ((common >> i & 1) == 0) continue;
        void *at = open_room(i, first->parts[i].at, bytes_of(first, i), true, 0);
        only_read(i);
        for (size_t n = 0; n < WORKERS; n++) both[n].lent.parts[i].at = at;
    }
    for (size_t n = 0; n < WORKERS; n++)
        if (pthread_create(&ids[n], NULL, work, &both[n]) != 0) fail("no thread");
    for (size_t n = 0; n < WORKERS; n++) pthread_join(ids[n], NULL), both[n].lent = own[n];
    for (enum list i = 0; i < LISTS; i++)
        if ((common >> i & 1) != 0) close_room(i);
}

/* Each worker alone, then both at a time from the same beginning; how many calls were accepted. */
static size_t compare_workers(unsigned common, const struct lent *first) {
    struct work alone[WORKERS], both[WORKERS];
    pthread_barrier_t start;
    pthread_barrier_init(&start, NULL, WORKERS);
    size_t accepted = 0;
    for (size_t n = 0; n < WORKERS; n++) {
        alone[n] = prepared(common, first, n, NULL), both[n] = prepared(common, first, n, &start);
        work(&alone[n]);
    }
    run_both(both, common, first);
    for (size_t n = 0; n < WORKERS; n++) {
        for (size_t turn = 0; turn < TURNS; turn++)
            if (alone[n].traces[turn] != both[n].traces[turn]) fail("call %zu of thread %zu is not as alone", turn, n);
        accepted += both[n].accepted;
        discard(&alone[n]), discard(&both[n]);
    }
    pthread_barrier_destroy(&start);
    return accepted;
}

void threads(void) {
    static const struct {
        const char *name;
        unsigned lists;
    } common[] = {
        {"nothing in common", 0}, {"one design", 1u << DESIGN}, {"one shelf", 1u << DESIGN | 1u << ARRAY | 1u << MARKS}};
    struct lent first = valid(WRITE, (struct geometry){7, 3, 3, 16});
    size_t accepted = 0;
    for (size_t i = 0; i < sizeof common / sizeof *common; i++) {
        doing = (struct doing){"threads", common[i].name, first, 0};
        accepted += compare_workers(common[i].lists, &first);
    }
    release(&first);
    printf("threads: %d at a time, %d calls each (%zu accepted in all), with nothing, the design or all that is read in common:"
           " each as alone\n", WORKERS, TURNS, accepted);
}
