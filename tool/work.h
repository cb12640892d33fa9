/* Work that takes long, and signals. A signal to end is only noted: the tool looks at it between two calls of the library. */
#ifndef WORK_H
#define WORK_H

#include <stdbool.h>
#include <stdint.h>

/* Notes SIGINT, SIGTERM and SIGHUP, turns off SIGPIPE and SIGXFSZ (what they tell comes back as an error, too), and ends with
 * words when the disk under the map fails (SIGBUS). */
void work_signals(void);

/* A signal to end has come. */
bool work_stopped(void);

/* Begins work named by the words. If it takes a second it is named on stderr; on a terminal a line then tells the seconds, and
 * the share done where `total` is not 0. */
void work_begin(uint64_t total, const char *format, ...) __attribute__((format(printf, 2, 3)));
void work_at(uint64_t done);

/* Ends it; says how long it took if it was named. */
void work_end(void);

#endif
