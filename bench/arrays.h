/* Arrays of one geometry side by side, the library's calls on one of them, and the losses that are rebuilt. */
#ifndef ARRAYS_H
#define ARRAYS_H

#include "himzolven.h"
#include "race.h"

/* a loss that is rebuilt again and again */
typedef struct {
    const char *name;
    uint32_t count, disk[3];
} loss;

enum { LOSSES = 3 };

extern shape s;
extern uint8_t *pool; /* the arrays, visited in turn */
extern size_t arrays;
extern uint8_t marks[91 * 13];
extern uint8_t bytes[UNIT_MAX];
extern loss losses[LOSSES]; /* one disk, three of one group, two of one group and one of another */
extern const loss *lost;

_Noreturn void fail(const char *what);

/* v, k, g and u in decimal; then the design is the held one, F for v = 7, or it is read from a file of group numbers */
void make_shape(char **words, const char *file);
/* so many bytes of arrays, and at least `count` of them */
void make_pool(size_t at_least, size_t count);

/* the next array in turn, and at each round through them another of its user units, from a scattered start */
uint8_t *next_array(void);
uint32_t next_user(void);

uint32_t call_format(uint8_t *array);
uint32_t call_read(const uint8_t *array, uint32_t user);
uint32_t call_write(uint8_t *array, uint32_t user);
himzolven_audit_answer call_audit(const uint8_t *array, size_t length);
himzolven_count_answer call_rebuild(uint8_t *array);
himzolven_map_answer call_map(uint32_t user);
himzolven_count_answer call_plan(uint32_t disk, uint32_t *list, size_t length);

void mark_lost(void);
void fill_lost(uint8_t *array, uint64_t seed);
int all_zero(const uint8_t *p, size_t n);
/* The bytes of present disks that the loss needs, each counted once, with those that it restores. Prints both where it is told
 * to: "moved loss read|written bytes" */
size_t moved(int print);

/* Contestants. A write or a read is refused by the mark of the last of its disks: the design check and the map are in both, and
 * cancel. A rebuild restores the same bytes each time that its disks are marked again. */
void run_write(const contestant *me, uint32_t calls);
void run_audit(const contestant *me, uint32_t calls);
void run_rebuild(const contestant *me, uint32_t calls);
/* A rebuild touches a small part of an array, and the same one each time: before it is timed, what it will touch is put out of
 * all caches, and pages of other memory take the place of its own among the translated ones. */
extern const contestant flush;

#endif
