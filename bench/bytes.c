/* The byte calls: format, read, write, audit and rebuild, timed beside C (contest.c), alone as the sizes grow, or run once
 * under callgrind.
 * usage: bytes time V K G U, bytes growth V K G U LIST, bytes once format|read|write|audit|rebuild V K G U, or bytes isal
 * `time` prints lines "call memory|hot contestant ns", ns of one call.
 * `growth` takes the design from the file LIST and times write, audit and, beside fused C, the rebuild of one disk, from memory.
 * Lines "moved loss read|written bytes" tell what a rebuild must read of present disks, and what it restores. */
#include <stdio.h>
#include <stdlib.h>
#include <string.h>
#include <unistd.h>

#include "arrays.h"

enum { WRITES = 200, FLIPS = 40 };

static void run_read(const contestant *me, uint32_t calls) {
    for (uint32_t i = 0; i < calls; i++) {
        const uint8_t *array = next_array();
        uint32_t user = next_user();
        places p = places_of(&s, user);
        marks[p.disk[0]] = (uint8_t)me->refuse;
        if (call_read(array, user) != (me->refuse ? 12u : 0u)) fail("a read is answered wrongly");
        marks[p.disk[0]] = 0;
        if (me->writes) me->writes((uint8_t *)(uintptr_t)array, p.at, bytes, s.u);
    }
}

static void copy_unit(uint8_t *array, const size_t at[4], const uint8_t *unused, size_t n) {
    (void)unused;
    memcpy(bytes, array + at[0], n);
}

static void narrow_unit(uint8_t *array, const size_t at[4], const uint8_t *unused, size_t n) {
    (void)unused;
    copy_pass(bytes, array + at[0], n);
}

static void wide_unit(uint8_t *array, const size_t at[4], const uint8_t *unused, size_t n) {
    (void)unused;
    wide_pass(bytes, array + at[0], n);
}

static void run_format(const contestant *me, uint32_t calls) {
    for (uint32_t i = 0; i < calls; i++) {
        uint8_t *array = next_array();
        if (me->idle) {
            memset(array, 0, s.bytes);
            memset(marks, 0, s.disks);
            continue;
        }
        marks[s.disks - 1] = me->refuse ? 2 : 0;
        if (call_format(array) != (me->refuse ? 8u : 0u)) fail("a format is answered wrongly");
        marks[s.disks - 1] = 0;
    }
}

static void run_memcpy(const contestant *me, uint32_t calls) {
    (void)me;
    for (uint32_t i = 0; i < calls; i++) {
        uint8_t *array = next_array();
        memcpy(array + s.bytes / 2, array, s.bytes / 2);
    }
}

static void run_memset(const contestant *me, uint32_t calls) {
    (void)me;
    for (uint32_t i = 0; i < calls; i++) memset(next_array(), 0, s.bytes);
}

static void run_sum(const contestant *me, uint32_t calls) {
    (void)me;
    for (uint32_t i = 0; i < calls; i++) sink += read_all(next_array(), s.bytes);
}

#ifdef WITH_ISAL
#define ISAL_WRITE {.name = "isal", .run = run_write, .refuse = 1, .writes = isal_write},
#define ISAL_AUDIT {.name = "isal", .run = run_audit, .idle = 1, .differs = isal_differ},
#define ISAL_REBUILD {.name = "isal", .run = run_rebuild, .restores = isal_restore, .before = &flush},
#define ISAL_TOLD isal_version()
#else
#define ISAL_WRITE
#define ISAL_AUDIT
#define ISAL_REBUILD
#define ISAL_TOLD "not installed"
#endif

static contestant write_race[] = {
    {.name = "refused", .run = run_write, .refuse = 1},
    {.name = "library", .run = run_write},
    {.name = "passes", .run = run_write, .refuse = 1, .writes = passes_write},
    {.name = "fused", .run = run_write, .refuse = 1, .writes = fused_write},
    ISAL_WRITE
};
static contestant read_race[] = {
    {.name = "refused", .run = run_read, .refuse = 1},
    {.name = "library", .run = run_read},
    {.name = "memcpy", .run = run_read, .refuse = 1, .writes = copy_unit},
    {.name = "narrow", .run = run_read, .refuse = 1, .writes = narrow_unit},
    {.name = "wide", .run = run_read, .refuse = 1, .writes = wide_unit}, /* the last, since not every processor has it */
};
static contestant format_race[] = {
    {.name = "refused", .run = run_format, .refuse = 1},
    {.name = "library", .run = run_format},
    {.name = "memset", .run = run_format, .idle = 1},
};
static contestant audit_race[] = {
    {.name = "refused", .run = run_audit, .refuse = 1},
    {.name = "library", .run = run_audit},
    {.name = "passes", .run = run_audit, .idle = 1, .differs = passes_differ},
    {.name = "inner", .run = run_audit, .idle = 1, .differs = passes_differ, .inner_first = 1},
    {.name = "copied", .run = run_audit, .idle = 1, .differs = copied_differ},
    {.name = "fused", .run = run_audit, .idle = 1, .differs = fused_differ},
    ISAL_AUDIT
};
static contestant rebuild_race[] = {
    {.name = "refused", .run = run_rebuild, .refuse = 1},
    {.name = "library", .run = run_rebuild, .before = &flush},
    {.name = "fused", .run = run_rebuild, .restores = fused_restore, .before = &flush},
    {.name = "passes", .run = run_rebuild, .restores = passes_restore, .before = &flush},
    {.name = "copied", .run = run_rebuild, .restores = copied_restore, .before = &flush},
    ISAL_REBUILD
};
static contestant limit_race[] = {
    {.name = "memcpy", .run = run_memcpy},
    {.name = "memset", .run = run_memset},
    {.name = "read", .run = run_sum},
};

/* the same writes by the library into the first array and by C into the second: equal byte by byte, and no set is bad */
static void same_writes(writer *writes) {
    uint8_t *ours = pool, *other = pool + s.bytes;
    memset(pool, 0, 2 * s.bytes);
    for (uint32_t i = 0; i < WRITES; i++) {
        uint32_t user = scattered(i + 1) % s.users;
        for (uint32_t x = 0; x < s.u; x++) bytes[x] = (uint8_t)scattered((uint64_t)i * s.u + x);
        if (call_write(ours, user) != 0) fail("a write is refused");
        writes(other, places_of(&s, user).at, bytes, s.u);
    }
    if (all_zero(ours, s.bytes) || memcmp(ours, other, s.bytes) != 0) fail("the arrays differ after the same writes");
    himzolven_audit_answer a = call_audit(ours, s.bytes);
    if (a.refusal != 0 || a.bad != 0) fail("a set is bad after the writes");
}

/* after some flipped bytes the counts and the lowest set agree */
static void same_audits(tester *differs) {
    for (uint32_t i = 0; i < FLIPS; i++) pool[scattered(i + 1) % s.bytes] ^= 1;
    himzolven_audit_answer a = call_audit(pool, s.bytes);
    for (int inner_first = 0; inner_first < 2; inner_first++) {
        found f = walk(&s, pool, differs, inner_first);
        if (a.refusal != 0 || a.bad == 0 || a.bad != f.bad || a.lowest != f.lowest) fail("the audits differ");
    }
}

static restorer *const restorers[] = {passes_restore, copied_restore, fused_restore,
#ifdef WITH_ISAL
    isal_restore,
#endif
};

/* One loss in two equal arrays, the lost disks full of anything: the library restores them in the first and C in the second. */
static void same_rebuilds(void) {
    uint8_t *ours = pool, *other = pool + s.bytes;
    uint32_t units = (uint32_t)(lost->count * (s.disk_bytes / s.u));
    fill_lost(ours, 1);
    mark_lost();
    himzolven_count_answer a = call_rebuild(ours);
    if (a.refusal != 0 || a.count != units || !all_zero(marks, s.disks)) fail("a rebuild is answered wrongly");
    for (int c = 0; c < COUNT(restorers); c++) {
        fill_lost(other, 7 + (uint64_t)c);
        mark_lost();
        rebuilt r = rebuild(&s, other, marks, restorers[c]);
        if (r.count != units || r.incomplete != s.tuples || !all_zero(marks, s.disks)) fail("C's rebuild is answered wrongly");
        if (memcmp(ours, other, s.bytes) != 0) fail("the arrays differ after the same loss");
    }
}

/* two whole groups: refused, at the tuple that C finds, and nothing is changed */
static void same_refusals(void) {
    uint8_t *ours = pool, *other = pool + s.bytes;
    memset(marks + s.disks - 2 * s.g, 1, 2 * s.g);
    himzolven_count_answer a = call_rebuild(ours);
    if (a.refusal != 13 || a.place != rebuild(&s, other, marks, fused_restore).incomplete) fail("a refusal differs");
    if (memcmp(ours, other, s.bytes) != 0 || marks[s.disks - 1] != 1) fail("a refused rebuild changes bytes");
    memset(marks, 0, s.disks);
}

/* every loss, in arrays of any bytes and in ones whose sets are all good: these stay good */
static void same_losses(void) {
    fill_random(pool, s.bytes, 0);
    for (int good = 0; good < 2; good++) {
        if (good) make_consistent(&s, pool, fused_restore);
        memcpy(pool + s.bytes, pool, s.bytes);
        for (int z = 0; z < LOSSES; z++) {
            lost = &losses[z];
            same_rebuilds();
        }
        himzolven_audit_answer a = call_audit(pool, s.bytes);
        if (a.refusal != 0 || (a.bad == 0) != good) fail("the sets are not as they were before the rebuilds");
    }
    same_refusals();
}

/* the last user unit, by the library and by each copy */
static void same_reads(void) {
    uint32_t user = s.users - 1;
    places p = places_of(&s, user);
    writer *copies[] = {copy_unit, narrow_unit, wide_unit};
    if (all_zero(pool + p.at[0], s.u)) memset(pool + p.at[0], 0xA5, s.u);
    if (call_read(pool, user) != 0 || memcmp(bytes, pool + p.at[0], s.u) != 0) fail("a read differs");
    for (int c = 0; c < COUNT(copies) - !has_wide(); c++) {
        memset(bytes, 0, s.u);
        copies[c](pool, p.at, bytes, s.u);
        if (memcmp(bytes, pool + p.at[0], s.u) != 0) fail("a copy differs");
    }
}

static void same_calls(void) {
    for (uint32_t i = 0; i < WRITES; i++) {
        uint32_t user = scattered(i + 1) % s.users;
        himzolven_map_answer m = call_map(user);
        places p = places_of(&s, user);
        uint32_t disk[4] = {m.data_disk, m.outer_disk, m.inner_disk, m.both_disk};
        uint32_t unit[4] = {m.data_unit, m.outer_unit, m.inner_unit, m.both_unit};
        for (int z = 0; z < 4; z++)
            if (m.refusal != 0 || p.disk[z] != disk[z] || p.at[z] != disk[z] * s.disk_bytes + (size_t)unit[z] * s.u)
                fail("the places differ");
    }
    memset(pool, 0xA5, s.bytes);
    memset(marks, 1, s.disks);
    if (call_format(pool) != 0 || !all_zero(pool, s.bytes) || !all_zero(marks, s.disks)) fail("a format leaves bytes");
    writer *writers[] = {passes_write, passes_write, fused_write,
#ifdef WITH_ISAL
        isal_write,
#endif
    };
    tester *testers[] = {passes_differ, copied_differ, fused_differ,
#ifdef WITH_ISAL
        isal_differ,
#endif
    };
    for (size_t i = 0; i < sizeof writers / sizeof writers[0]; i++) {
        same_writes(writers[i]);
        same_audits(testers[i]);
    }
    same_reads();
}

static void race_rebuilds(void) {
    for (int z = 0; z < LOSSES; z++) {
        lost = &losses[z];
        if (moved(!hot) <= cache(_SC_LEVEL2_CACHE_SIZE) || !hot) RACE(lost->name, rebuild_race, hot ? 0.3 : 1.2);
        memset(marks, 0, s.disks);
    }
}

static void prepare(size_t count) {
    make_pool(beyond_caches(), count);
    printf("arrays - - %zu\nbytes - - %zu\n", arrays, s.bytes);
}

static int run_time(void) {
    prepare(2);
    same_calls();
    same_losses();
    for (hot = 0; hot < 2; hot++) {
        RACE("write", write_race, hot ? 1.0 : 2.5);
        race("read", read_race, COUNT(read_race) - !has_wide(), hot ? 0.5 : 1.5);
        race_rebuilds();
        if (hot && s.bytes > cache(_SC_LEVEL2_CACHE_SIZE)) continue;
        RACE("format", format_race, hot ? 0.4 : 1.0);
        memset(pool, 0, arrays * s.bytes); /* an audit that finds nothing stops nowhere */
        RACE("audit", audit_race, hot ? 0.6 : 2.0);
        RACE("limit", limit_race, hot ? 0.4 : 1.0);
    }
    return sink == 1;
}

/* a consistent array: the lost disk comes back as it was, and no set is bad */
static void same_disk(void) {
    uint8_t *disk = pool + lost->disk[0] * s.disk_bytes, *kept = room_for(s.disk_bytes);
    fill_random(pool, s.bytes / 8 * 8, 0);
    make_consistent(&s, pool, fused_restore);
    memcpy(kept, disk, s.disk_bytes);
    fill_lost(pool, 1);
    mark_lost();
    if (call_rebuild(pool).refusal != 0 || memcmp(kept, disk, s.disk_bytes) != 0) fail("the lost disk is not restored");
    himzolven_audit_answer a = call_audit(pool, s.bytes);
    if (a.refusal != 0 || a.bad != 0) fail("a set is bad after the rebuild");
    free(kept);
}

/* the first two of a race are the refused call and the library's; of the rebuild fused C is the third */
static int run_growth(void) {
    prepare(1);
    same_disk();
    moved(1);
    race("one", rebuild_race, 3, 0.6);
    memset(marks, 0, s.disks);
    race("write", write_race, 2, 0.5);
    race("audit", audit_race, 2, 0.5);
    return sink == 1;
}

static void one_format(void) { sink += call_format(pool); }
static void one_read(void) { sink += call_read(pool, s.users - 1); }
static void one_write(void) { sink += call_write(pool, s.users - 1); }
static void one_audit(void) { sink += call_audit(pool, s.bytes).refusal; }
static void one_rebuild(void) {
    lost = &losses[LOSSES - 1];
    mark_lost();
    sink += call_rebuild(pool).refusal;
}

static const struct {
    const char *name;
    void (*call)(void);
} calls[] = {
    {"format", one_format}, {"read", one_read}, {"write", one_write}, {"audit", one_audit}, {"rebuild", one_rebuild},
};

int main(int argc, char **argv) {
    if (argc == 6 && strcmp(argv[1], "time") == 0) {
        make_shape(argv + 2, NULL);
        return run_time();
    }
    if (argc == 7 && strcmp(argv[1], "growth") == 0) {
        make_shape(argv + 2, argv[6]);
        return run_growth();
    }
    if (argc == 7 && strcmp(argv[1], "once") == 0) {
        make_shape(argv + 3, NULL);
        make_pool(0, 1);
        for (int c = 0; c < COUNT(calls); c++)
            if (strcmp(calls[c].name, argv[2]) == 0) calls[c].call();
        return sink != 0;
    }
    if (argc == 2 && strcmp(argv[1], "isal") == 0) {
        printf("%s\n", ISAL_TOLD);
        return 0;
    }
    fprintf(stderr, "usage: bytes time V K G U, bytes growth V K G U LIST,\n"
                    "       bytes once format|read|write|audit|rebuild V K G U, or bytes isal\n");
    return 2;
}
