/* Races: several ways of one piece of work, timed in turn within one run, from memory or out of the caches. */
#ifndef RACE_H
#define RACE_H

#include "contest.h"

enum { BATCHES_MAX = 400, PAGE = 4096, PAGES = 4096, HUGE_PAGE = 2 << 20 };

/* One contestant of a race: `refuse` makes the library's call one that is refused, `idle` leaves it out; other work comes after,
 * by `writes`, `differs` (with `inner_first` a tuple's inner sets first), `restores` or `codes`. `before` runs on the same arrays
 * first, and is not timed. */
typedef struct contestant {
    const char *name;
    void (*run)(const struct contestant *, uint32_t calls);
    int refuse, idle, inner_first;
    writer *writes;
    tester *differs;
    restorer *restores;
    struct code *codes; /* of peers.c */
    const struct contestant *before;
    double middle, best; /* the median of this round's batches, and that of the quietest round */
    double took[BATCHES_MAX];
} contestant;

extern int hot;       /* out of the second cache, not from memory */
extern uint64_t turn; /* how many calls were made: what comes next follows from it */
extern uint64_t sink; /* takes results, so that no work is dropped */

#define COUNT(all) (int)(sizeof all / sizeof all[0])
#define RACE(call, all, seconds) race(call, all, COUNT(all), seconds)

/* time of this thread */
double thread_ns(void);
/* prints "call memory|hot contestant ns" of one call for each contestant */
void race(const char *call, contestant *all, int n, double seconds);

/* memory of whole huge pages, set to zero */
uint8_t *room_for(size_t size);
/* puts bytes out of all caches; a fence has to follow */
void flush_bytes(const uint8_t *p, size_t n);
/* other pages take the place of those translated */
void flush_pages(void);
/* n is a multiple of 8 */
void fill_random(uint8_t *p, size_t n, uint64_t seed);
uint32_t scattered(uint64_t x);
/* the size of a cache, 0 where it is not told */
size_t cache(int name);
/* bytes that no cache holds */
size_t beyond_caches(void);

#endif
