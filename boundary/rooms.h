/* Rooms for lent lists: pages of their own between two pages that can't be touched. */
#ifndef ROOMS_H
#define ROOMS_H

#include "calls.h"

/* What is being done; named when something fails. */
struct doing {
    const char *test;
    const char *call;
    struct lent lent;
    uint32_t refusal;
};
extern struct doing doing;

/* Prints what was being done and the message, and ends the program with status 1. */
_Noreturn void fail(const char *format, ...) __attribute__((format(printf, 1, 2)));

/* From now on a touch of a page that is not lent so ends the program by `fail`. */
void watch_rooms(void);

/* Copies a list into its room, flush against the upper guard page, or `shift` bytes from the lower one. The rest is painted. */
void *open_room(enum list list, const void *from, size_t bytes, bool upper, size_t shift);
void only_read(enum list list);
/* Fails if paint beside the list is gone; then the room is no more. */
void close_room(enum list list);

#endif
