/* The calls without bytes, proved and plain: run under callgrind to count instructions, or alone to compare plans or to be timed.
 * usage: calls count V K G U COUNT [LIST], or calls plans|time V K G U [LIST]
 * The design is the held one, or is read from the file LIST; the fill is called where v's held rows have K groups. `count` makes
 * each call COUNT times, of the plan a tenth of that, proved and plain, and compares the answers. `time` prints lines
 * "call hot library|plain ns", ns of one call. */
#include <inttypes.h>
#include <stdio.h>
#include <stdlib.h>
#include <string.h>

#include "arrays.h"
#include "plain.h"

enum { PLAN_MAX = 10800 }; /* numbers that are lent to a plan, more than any has */

#define DESIGN s.v, s.k, s.design, s.length
#define GEOMETRY s.v, s.k, s.g, s.u, s.design, s.length

/* of two answers of one type, or two lists */
#define SAME(a, b, what) \
    if (memcmp(&(a), &(b), sizeof(a)) != 0) fail(what)

static uint32_t ours[PLAN_MAX], other[PLAN_MAX];
static uint16_t filled[LIST_MAX], filled_other[LIST_MAX];

/* whether the fill gives a list of this geometry's k */
static int is_held(void) {
    return himzolven_fill(s.v, filled, s.length).refusal == 0;
}

static void count_fill(void) {
    memset(filled, 0xA5, sizeof filled);
    memset(filled_other, 0xA5, sizeof filled_other);
    himzolven_answer a = himzolven_fill(s.v, filled, s.length), b = plain_fill(s.v, filled_other, s.length);
    SAME(a, b, "the fills' answers differ");
    SAME(filled, filled_other, "the fills differ");
}

static void count_plan(uint32_t disk) {
    himzolven_count_answer a = himzolven_plan(GEOMETRY, disk, ours, PLAN_MAX), b = plain_plan(GEOMETRY, disk, other, PLAN_MAX);
    SAME(a, b, "the plans' answers differ");
    SAME(ours, other, "the plans differ");
}

/* callgrind takes what these calls cost by the name of this function */
__attribute__((noinline)) static void count_calls(uint32_t count, int held) {
    for (uint32_t i = 0; i < count; i++) {
        uint32_t user = i * 7919 % s.users, unit = i * 104729 % (uint32_t)(s.disk_bytes / s.u);
        uint32_t disk = (2 * i + 1) * s.disks / (2 * count);
        if (held) count_fill();
        himzolven_answer c = himzolven_check(DESIGN), d = plain_check(DESIGN);
        SAME(c, d, "the checks differ");
        himzolven_sizes_answer y = himzolven_sizes(GEOMETRY), z = plain_sizes(GEOMETRY);
        SAME(y, z, "the sizes differ");
        himzolven_map_answer m = himzolven_map(GEOMETRY, user), n = plain_map(GEOMETRY, user);
        SAME(m, n, "the maps differ");
        himzolven_role_answer q = himzolven_role(GEOMETRY, disk, unit), r = plain_role(GEOMETRY, disk, unit);
        SAME(q, r, "the roles differ");
        if (i % 10 == 0) count_plan(disk);
    }
}

static void compare_plans(void) {
    for (uint32_t disk = 0; disk <= s.disks; disk++) count_plan(disk);
}

/* one of `end` numbers, another each turn */
static uint32_t stepped(uint32_t by, uint32_t end) {
    return (uint32_t)turn * by % end;
}

/* the library's calls, or where it is idle plain C's */
#define RUN(call, ...) \
    static void run_##call(const contestant *me, uint32_t calls) { \
        for (uint32_t i = 0; i < calls; i++, turn++) \
            sink += me->idle ? plain_##call(__VA_ARGS__).refusal : himzolven_##call(__VA_ARGS__).refusal; \
    }

RUN(fill, s.v, filled, s.length)
RUN(check, DESIGN)
RUN(sizes, GEOMETRY)
RUN(map, GEOMETRY, stepped(7919, s.users))
RUN(role, GEOMETRY, stepped(7919, s.disks), stepped(104729, (uint32_t)(s.disk_bytes / s.u)))
RUN(plan, GEOMETRY, stepped(7919, s.disks), ours, PLAN_MAX)

static void time_call(const char *name, void (*run)(const contestant *, uint32_t)) {
    static contestant both[] = {{.name = "library"}, {.name = "plain", .idle = 1}};
    both[0].run = both[1].run = run;
    RACE(name, both, 0.3);
    if (sink != 0) fail("a call is refused");
}

/* these calls touch no array: all that they read is in the caches */
static void time_calls(void) {
    hot = 1;
    if (is_held()) time_call("fill", run_fill);
    time_call("check", run_check);
    time_call("sizes", run_sizes);
    time_call("map", run_map);
    time_call("role", run_role);
    time_call("plan", run_plan);
}

int main(int argc, char **argv) {
    int count = argc >= 7 && strcmp(argv[1], "count") == 0, plans = argc >= 6 && strcmp(argv[1], "plans") == 0;
    int timed = argc >= 6 && strcmp(argv[1], "time") == 0, last = count ? 7 : 6;
    if (!(count || plans || timed) || argc > last + 1) {
        fprintf(stderr, "usage: calls count V K G U COUNT [LIST], or calls plans|time V K G U [LIST]\n");
        return 2;
    }
    make_shape(argv + 2, argc > last ? argv[last] : NULL);
    if (count) count_calls((uint32_t)atoi(argv[6]), is_held());
    else if (plans) compare_plans();
    else time_calls();
    return 0;
}
