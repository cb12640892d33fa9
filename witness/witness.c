/* The store witness: shows to which bytes the machine code of a write stores. "The compiler took the last parity buffer for
 * dead, because only the disk controller reads it, and dropped the store": no proof of the source sees that, a page fault does.
 *
 * usage: witness [--sites FILE] [--unit U]
 *
 * The array lies in pages that may only be read. Each store faults; the handler notes its address, opens the page and sets the
 * trap flag, so that after that one instruction the next handler notes which bytes it changed and shuts the page again. The
 * written bytes differ from the old ones everywhere, so each byte of the four ranges must change, and none may be stored to
 * elsewhere, whether it changes or not. So that no store can reach over the end of a range unseen, the writes of the first and
 * the last user unit are repeated with the array moved until a page begins, then ends, where a range does. At u = 4096 the
 * pages stored to are held against the four units' pages. Design, marks and source may only be read too. The places are
 * computed here, from document 01 alone, and held against himzolven_map.
 *
 * FILE gets a line for each instruction that stored: its address, the unit (0 to 3), how often, and the most bytes at once. With
 * --unit, only units of U bytes are tried.
 * x86-64 Linux; no privilege is needed. */
#ifndef _GNU_SOURCE
#define _GNU_SOURCE
#endif
#include "himzolven.h"

#include <signal.h>
#include <stdarg.h>
#include <stdatomic.h>
#include <stdbool.h>
#include <stdio.h>
#include <stdlib.h>
#include <string.h>
#include <sys/mman.h>
#include <ucontext.h>
#include <unistd.h>

#ifdef WITNESS_WRITE /* another write than the library's: witness/doctored.c */
himzolven_answer WITNESS_WRITE(uint32_t v, uint32_t k, uint32_t g, uint32_t u, const uint16_t *design, size_t design_length,
                               uint8_t *array, size_t array_length, const uint8_t *marks, size_t marks_length, uint32_t user_unit,
                               uint64_t offset, const uint8_t *bytes, size_t bytes_length);
#else
#define WITNESS_WRITE himzolven_write
#endif

enum { PAGE = 4096, UNITS = 4, OPEN = 4, SITES = 512, TRAP_FLAG = 0x100, STARTS = 2 * UNITS + 1 };

static const char *const NAME[UNITS] = {"data unit", "outer parity", "inner parity of the data",
                                        "inner parity of the outer parity"};

/* -- The layout, from document 01 -- */

typedef struct {
    const char *name;
    uint32_t v, k, g, u;
    uint32_t rows, parts; /* b and r */
} shape;

typedef struct {
    uint32_t disk, unit;
} place;

static uint32_t user_units(const shape *s) { return s->rows * (s->k - 1) * (s->g - 1) * s->g; }

static size_t array_bytes(const shape *s) { return (size_t)s->v * s->g * s->parts * s->g * s->u; }

static size_t start_of(const shape *s, place p) { return ((size_t)p.disk * s->parts * s->g + p.unit) * s->u; }

/* Row i, column c of the region at position l of tuple t: "a group's part p belongs to the p-th row of the design, from 0, that
 * names it". */
static place at_region(const shape *s, const uint16_t *design, uint32_t t, uint32_t l, uint32_t i, uint32_t c) {
    uint32_t group = design[t * s->k + l], part = 0;
    for (uint32_t m = 0; m < t * s->k; m++) part += design[m] == group;
    return (place){group * s->g + c, part * s->g + i};
}

/* "Row g-1 holds its parity, in column g-1-j", for the diagonal j with (i - j) mod g = c. */
static place inner_parity(const shape *s, const uint16_t *design, uint32_t t, uint32_t l, uint32_t i, uint32_t c) {
    uint32_t j = (i + s->g - c) % s->g;
    return at_region(s, design, t, l, s->g - 1, s->g - 1 - j);
}

/* "n = ((t·(k-1) + l)·(g-1) + i)·g + c"; "label (i,c) stands in the region at position l in column (c + i·l) mod g". */
static void four_places(const shape *s, const uint16_t *design, uint32_t n, place four[UNITS]) {
    uint32_t c = n % s->g, i = n / s->g % (s->g - 1), tl = n / s->g / (s->g - 1);
    uint32_t l = tl % (s->k - 1), t = tl / (s->k - 1), last = s->k - 1;
    uint32_t data = (c + i * l) % s->g, outer = (c + i * last) % s->g;
    four[0] = at_region(s, design, t, l, i, data);
    four[1] = at_region(s, design, t, last, i, outer);
    four[2] = inner_parity(s, design, t, l, i, data);
    four[3] = inner_parity(s, design, t, last, i, outer);
}

/* -- One write -- */

typedef struct {
    const shape *s;
    uint32_t n;
    size_t offset, length;
    size_t shift; /* of the array's start in its first page */
    bool same;    /* the bytes already there */
    uint32_t refusal, place;
} trial;

/* What is lent to be read alone: pages of their own. */
typedef struct {
    const char *name;
    uint8_t *bytes;
    size_t size;
} lent;

static lent design_lent = {"design", NULL, PAGE}, marks_lent = {"marks", NULL, PAGE}, source_lent = {"source", NULL, 2 * PAGE};

typedef struct {
    uintptr_t at;
    size_t stores[UNITS], most[UNITS];
} site;

static struct {
    uint8_t *pages, *before, *seen; /* those around the array; their bytes before the instruction; 1: a store changed the byte */
    size_t size, start[UNITS], length; /* of the pages; the four ranges, from the first page on */
    uintptr_t by; /* the instruction under way: the pages it opened, where it faulted, what it touched and changed */
    uint8_t *open[OPEN];
    size_t opened, faults[OPEN], changed[UNITS];
    bool touched[UNITS];
    bool on;    /* the call is under way */
    bool stray; /* a store outside the four ranges: where, and by which instruction */
    size_t stray_at;
    uintptr_t stray_by;
    size_t stores[UNITS], pages_hit, page_hit[UNITS + 1];
} watch;

static site sites[SITES];
static size_t site_count, total[UNITS], writes, refused, unchanged, none;
static const trial *now;
static uint64_t seed = 88172645463325252u;

static uint8_t any_byte(void) {
    seed ^= seed << 13, seed ^= seed >> 7, seed ^= seed << 17;
    return (uint8_t)(seed >> 32);
}

static void fail(const char *format, ...) {
    va_list rest;
    if (now)
        fprintf(stderr, "witness: %s, u = %u, user unit %u, offset %zu, length %zu, array at byte %zu of a page:\n  ",
                now->s->name, now->s->u, now->n, now->offset, now->length, now->shift);
    else
        fprintf(stderr, "witness: ");
    va_start(rest, format);
    vfprintf(stderr, format, rest);
    va_end(rest);
    fputc('\n', stderr);
    fflush(stderr);
    _exit(1);
}

static void *pages(size_t size) {
    void *p = mmap(NULL, size, PROT_READ | PROT_WRITE, MAP_PRIVATE | MAP_ANONYMOUS, -1, 0);
    if (p == MAP_FAILED) fail("no memory");
    return p;
}

static void allow(void *at, size_t size, int how) {
    if (mprotect(at, size, how)) fail("mprotect failed");
}

static uint16_t *design_of(void) { return (uint16_t *)(void *)design_lent.bytes; }

/* -- The two handlers -- */

static int unit_at(size_t at) {
    for (int w = 0; w < UNITS; w++)
        if (at >= watch.start[w] && at - watch.start[w] < watch.length) return w;
    return -1;
}

static void note(size_t at, bool changed) {
    int w = unit_at(at);
    if (w >= 0) {
        watch.touched[w] = true;
        watch.changed[w] += changed;
        watch.seen[at] |= changed;
    } else if (!watch.stray) {
        watch.stray = true, watch.stray_at = at, watch.stray_by = watch.by;
    }
}

static void count_store(void) {
    size_t i = 0;
    while (i < site_count && sites[i].at != watch.by) i++;
    if (i == SITES) fail("more than %d instructions store", SITES);
    if (i == site_count) sites[site_count++] = (site){watch.by, {0}, {0}};
    for (int w = 0; w < UNITS; w++) {
        if (!watch.touched[w]) continue;
        watch.stores[w]++, sites[i].stores[w]++;
        if (watch.changed[w] > sites[i].most[w]) sites[i].most[w] = watch.changed[w];
        watch.touched[w] = false, watch.changed[w] = 0;
    }
}

static void on_fault(int number, siginfo_t *info, void *context) {
    (void)number;
    greg_t *registers = ((ucontext_t *)context)->uc_mcontext.gregs;
    uint8_t *at = info->si_addr;
    uintptr_t by = (uintptr_t)registers[REG_RIP];
    const lent *all[] = {&design_lent, &marks_lent, &source_lent};
    for (size_t i = 0; i < 3; i++)
        if (at >= all[i]->bytes && at < all[i]->bytes + all[i]->size)
            fail("a store to byte %zu of the %s, which is lent to be read (instruction at %#lx)", (size_t)(at - all[i]->bytes),
                 all[i]->name, (unsigned long)by);
    if (!watch.on || at < watch.pages || at >= watch.pages + watch.size)
        fail("a fault at %p, outside everything lent (instruction at %#lx)", (void *)at, (unsigned long)by);
    if (watch.opened && watch.by != by)
        fail("no trap came after the store at %#lx: the trap flag does not work here", (unsigned long)watch.by);
    if (watch.opened == OPEN) fail("one instruction faults at more than %d pages", OPEN);
    size_t offset = (size_t)(at - watch.pages);
    watch.by = by;
    watch.faults[watch.opened] = offset;
    watch.open[watch.opened++] = watch.pages + offset / PAGE * PAGE;
    allow(watch.pages + offset / PAGE * PAGE, PAGE, PROT_READ | PROT_WRITE);
    registers[REG_EFL] |= TRAP_FLAG;
}

static void page_is_hit(size_t page) {
    for (size_t i = 0; i < watch.pages_hit; i++)
        if (watch.page_hit[i] == page) return;
    if (watch.pages_hit <= UNITS) watch.page_hit[watch.pages_hit++] = page;
}

static void on_step(int number, siginfo_t *info, void *context) {
    (void)number, (void)info;
    if (!watch.opened) fail("a trap that was not asked for");
    for (size_t p = 0; p < watch.opened; p++) {
        size_t from = (size_t)(watch.open[p] - watch.pages);
        page_is_hit(from / PAGE);
        note(watch.faults[p], false);
        for (size_t at = from; at < from + PAGE; at += 8) {
            if (!memcmp(watch.pages + at, watch.before + at, 8)) continue;
            for (size_t b = at; b < at + 8; b++)
                if (watch.pages[b] != watch.before[b]) note(b, true);
            memcpy(watch.before + at, watch.pages + at, 8);
        }
        allow(watch.open[p], PAGE, PROT_READ);
    }
    count_store();
    watch.opened = 0;
    ((ucontext_t *)context)->uc_mcontext.gregs[REG_EFL] &= ~(greg_t)TRAP_FLAG;
}

static void handle(int number, void (*handler)(int, siginfo_t *, void *)) {
    struct sigaction how;
    memset(&how, 0, sizeof how);
    how.sa_sigaction = handler;
    how.sa_flags = SA_SIGINFO | SA_ONSTACK;
    sigemptyset(&how.sa_mask);
    if (sigaction(number, &how, NULL)) fail("sigaction failed");
}

static void set_handlers(void) {
    stack_t own = {.ss_sp = pages(16 * PAGE), .ss_size = 16 * PAGE};
    if (sigaltstack(&own, NULL)) fail("sigaltstack failed");
    handle(SIGSEGV, on_fault);
    handle(SIGTRAP, on_step);
}

/* One store of the witness's own over the edge of two pages, then one more: without faults and traps it would see nothing. */
static void probe(void) {
    typedef uint64_t word __attribute__((aligned(1), may_alias));
    watch.size = 2 * PAGE, watch.start[0] = PAGE - 5, watch.length = 8;
    watch.pages = pages(watch.size), watch.before = pages(watch.size), watch.seen = pages(watch.size);
    watch.start[1] = watch.start[2] = watch.start[3] = watch.size;
    allow(watch.pages, watch.size, PROT_READ);
    watch.on = true;
    atomic_signal_fence(memory_order_seq_cst); /* the handlers read and change what the compiler holds for its own */
    *(volatile word *)(watch.pages + PAGE - 5) = UINT64_MAX;
    *(volatile uint8_t *)(watch.pages + PAGE - 5) = UINT8_MAX;
    atomic_signal_fence(memory_order_seq_cst);
    watch.on = false;
    for (size_t b = 0; b < watch.size; b++)
        if (watch.seen[b] != (b >= PAGE - 5 && b < PAGE + 3)) fail("faults and traps do not tell a store of the witness's own");
    if (watch.stores[0] != 2 || watch.pages_hit != 2 || watch.stray)
        fail("faults and traps do not count the witness's own stores");
    munmap(watch.pages, watch.size), munmap(watch.before, watch.size), munmap(watch.seen, watch.size);
    site_count = 0;
}

/* -- What a write must have stored -- */

static void tell_stray(const shape *s, size_t first) {
    const char *what = now->refusal ? "a refused write stores" : "a store outside the four ranges,";
    if (watch.stray_at < first || watch.stray_at - first >= array_bytes(s))
        fail("%s outside the array, at byte %zd from its start (instruction at %#lx)", what,
             (ssize_t)watch.stray_at - (ssize_t)first, (unsigned long)watch.stray_by);
    size_t at = watch.stray_at - first, unit = at / s->u, units = (size_t)s->parts * s->g;
    fail("%s to byte %zu of disk %zu, unit %zu (instruction at %#lx)", what, at % s->u, unit / units, unit % units,
         (unsigned long)watch.stray_by);
}

static void want_pages(const place four[UNITS]) {
    for (int w = 0; w < UNITS; w++) {
        size_t i = 0;
        while (i < watch.pages_hit && watch.page_hit[i] != watch.start[w] / PAGE) i++;
        if (i == watch.pages_hit)
            fail("the %s (disk %u, unit %u) is not stored: its page is never faulted", NAME[w], four[w].disk, four[w].unit);
    }
    if (watch.pages_hit != UNITS) fail("stores to more than the four units' pages");
}

static void want_bytes(const place four[UNITS]) {
    for (int w = 0; w < UNITS; w++) {
        size_t changed = 0, first = watch.length;
        for (size_t b = watch.length; b-- > 0;) {
            if (watch.seen[watch.start[w] + b])
                changed++;
            else
                first = b;
        }
        if (now->same || changed == watch.length) continue;
        if (changed == 0 && watch.stores[w])
            fail("the %s (disk %u, unit %u) is stored with its old bytes", NAME[w], four[w].disk, four[w].unit);
        if (changed == 0) fail("the %s (disk %u, unit %u) is not stored", NAME[w], four[w].disk, four[w].unit);
        fail("the %s (disk %u, unit %u) is not stored at %zu of %zu bytes, first at byte %zu of the range", NAME[w], four[w].disk,
             four[w].unit, watch.length - changed, watch.length, first);
    }
}

static void want_array(const shape *s, const uint8_t *array, const uint8_t *image, size_t first, const place four[UNITS]) {
    if (!memcmp(array, image, array_bytes(s))) return;
    size_t at = 0;
    while (array[at] == image[at]) at++;
    int w = unit_at(first + at);
    if (w >= 0)
        fail("the %s (disk %u, unit %u) holds a wrong byte at %zu of the range", NAME[w], four[w].disk, four[w].unit,
             first + at - watch.start[w]);
    fail("byte %zu of the array is wrong at return", at);
}

/* -- The call, watched -- */

/* The array as it must be: image holds it before the write and gets the difference at the four ranges. */
static void expect(const shape *s, uint8_t *image, const place four[UNITS], const uint8_t *difference) {
    for (int w = 0; w < UNITS; w++)
        for (size_t b = 0; b < now->length; b++) image[start_of(s, four[w]) + now->offset + b] ^= difference[b];
}

static void watched_call(const shape *s, uint8_t *array, const uint8_t *source) {
    lent *all[] = {&design_lent, &marks_lent, &source_lent};
    for (size_t i = 0; i < 3; i++) allow(all[i]->bytes, all[i]->size, PROT_READ);
    allow(watch.pages, watch.size, PROT_READ);
    watch.on = true;
    himzolven_answer a = WITNESS_WRITE(s->v, s->k, s->g, s->u, design_of(), (size_t)s->rows * s->k, array, array_bytes(s),
                                       marks_lent.bytes, (size_t)s->v * s->g, now->n, now->offset, source, now->length);
    watch.on = false;
    if (watch.opened) fail("no trap came after the store at %#lx", (unsigned long)watch.by);
    allow(watch.pages, watch.size, PROT_READ | PROT_WRITE);
    for (size_t i = 0; i < 3; i++) allow(all[i]->bytes, all[i]->size, PROT_READ | PROT_WRITE);
    if (a.refusal != now->refusal || a.place != now->place)
        fail("the answer is refusal %u, place %u; %u and %u are due", a.refusal, a.place, now->refusal, now->place);
}

static void try_write(const trial *t, uint8_t *image) {
    const shape *s = t->s;
    size_t first = PAGE + t->shift, bytes = array_bytes(s);
    uint8_t *array = watch.pages + first, *source = source_lent.bytes + t->n % 16;
    static uint8_t difference[PAGE];
    place four[UNITS];
    now = t;
    four_places(s, design_of(), t->refusal == 10 ? 0 : t->n, four);
    watch.length = t->refusal ? 0 : t->length;
    for (int w = 0; w < UNITS; w++) {
        watch.start[w] = first + start_of(s, four[w]) + t->offset;
        watch.stores[w] = 0;
        if (watch.length) memset(watch.seen + watch.start[w], 0, watch.length);
    }
    watch.stray = false, watch.pages_hit = 0;
    memcpy(array, image, bytes);
    memcpy(watch.before, watch.pages, watch.size);
    for (size_t b = 0; b < t->length && b < PAGE; b++) {
        difference[b] = t->same ? 0 : (uint8_t)(any_byte() % 255 + 1);
        source[b] = difference[b] ^ (t->refusal ? 0 : image[start_of(s, four[0]) + t->offset + b]);
    }
    watched_call(s, array, source);
    if (watch.stray) tell_stray(s, first);
    if (s->u == PAGE && t->shift == 0 && watch.length && !t->same) want_pages(four);
    want_bytes(four);
    if (!t->refusal) expect(s, image, four, difference);
    want_array(s, array, image, first, four);
    for (int w = 0; w < UNITS; w++) total[w] += watch.stores[w];
    *(t->refusal ? &refused : t->same ? &unchanged : t->length ? &writes : &none) += 1;
    now = NULL;
}

/* -- The cases -- */

/* The array's starts in a page: a page's own, and those for which a page begins, or ends, where one of the ranges does. */
static size_t shifts_of(const trial *t, size_t shifts[STARTS]) {
    place four[UNITS];
    size_t count_of = 1;
    shifts[0] = 0;
    if (!t->length) return 1;
    four_places(t->s, design_of(), t->n, four);
    for (int w = 0; w < 2 * UNITS; w++) {
        size_t edge = start_of(t->s, four[w / 2]) + t->offset + (w % 2 ? t->length : 0);
        size_t shift = (PAGE - edge % PAGE) % PAGE, i = 0;
        while (i < count_of && shifts[i] != shift) i++;
        if (i == count_of) shifts[count_of++] = shift;
    }
    return count_of;
}

static void at_edges(trial t, bool edges, uint8_t *image) {
    size_t shifts[STARTS], n = shifts_of(&t, shifts);
    for (size_t i = 0; i < (edges ? n : 1); i++) {
        t.shift = shifts[i];
        try_write(&t, image);
    }
}

/* Full and partial ranges: those of the table that lie inside a unit, where 0 stands for u less the offset. */
static void ranges(const shape *s, uint32_t n, bool edges, uint8_t *image) {
    static const size_t RANGE[][2] = {{0, 0},   {1, 0},    {3, 1},     {7, 2},      {5, 3},   {9, 4},  {1, 15},
                                      {11, 31}, {1, 36},   {1, 63},    {5, 64},     {17, 65}, {3, 67}, {33, 127},
                                      {9, 129}, {63, 130}, {129, 191}, {513, 1000}, {0, 1},   {0, 64}};
    for (size_t i = 0; i < sizeof RANGE / sizeof *RANGE; i++) {
        size_t offset = RANGE[i][0], length = RANGE[i][1];
        if (offset >= s->u || length > s->u - offset) continue;
        at_edges((trial){.s = s, .n = n, .offset = offset, .length = length ? length : s->u - offset}, edges, image);
    }
    at_edges((trial){.s = s, .n = n, .offset = s->u - 1, .length = 1}, edges, image);
    try_write(&(trial){.s = s, .n = n, .offset = 0, .length = 0}, image);
    try_write(&(trial){.s = s, .n = n, .offset = s->u, .length = 0}, image);
    try_write(&(trial){.s = s, .n = n, .offset = s->u / 3, .length = s->u - s->u / 3, .same = true}, image);
}

/* Every length once, so that every way through a block's rest is taken. */
static void lengths(const shape *s, uint32_t n, uint8_t *image) {
    for (size_t length = 1; length < s->u && length < 130; length++)
        try_write(&(trial){.s = s, .n = n, .offset = 1, .length = length, .shift = 8 * length}, image);
}

/* Refusals 10, 11 and 12: not one store. A mark on a fifth disk refuses nothing. */
static void refusals(const shape *s, uint32_t n, uint8_t *image) {
    place four[UNITS];
    uint32_t fifth = 0;
    four_places(s, design_of(), n, four);
    for (int w = 0; w < UNITS; w++) {
        marks_lent.bytes[four[w].disk] = 1;
        try_write(&(trial){.s = s, .n = n, .length = s->u, .refusal = 12, .place = four[w].disk}, image);
        marks_lent.bytes[four[w].disk] = 0;
    }
    try_write(&(trial){.s = s, .n = n, .offset = 1, .length = s->u, .refusal = 11}, image);
    try_write(&(trial){.s = s, .n = user_units(s), .length = s->u, .refusal = 10}, image);
    for (int w = 0; w < UNITS; w++)
        if (four[w].disk == fifth) fifth++, w = -1;
    marks_lent.bytes[fifth] = 1;
    try_write(&(trial){.s = s, .n = n, .length = s->u}, image);
    marks_lent.bytes[fifth] = 0;
}

static void same_places(const shape *s, uint32_t n) {
    place four[UNITS];
    const uint16_t *design = design_of();
    four_places(s, design, n, four);
    himzolven_map_answer m = himzolven_map(s->v, s->k, s->g, s->u, design, (size_t)s->rows * s->k, n);
    const place mapped[UNITS] = {
        {m.data_disk, m.data_unit}, {m.outer_disk, m.outer_unit}, {m.inner_disk, m.inner_unit}, {m.both_disk, m.both_unit}};
    for (int w = 0; w < UNITS; w++)
        if (m.refusal || mapped[w].disk != four[w].disk || mapped[w].unit != four[w].unit)
            fail("%s, user unit %u: himzolven_map and document 01 differ over the %s", s->name, n, NAME[w]);
}

/* Format by the library: every byte zero, every mark 0. */
static void format(const shape *s, uint8_t *image) {
    size_t bytes = array_bytes(s), disks = (size_t)s->v * s->g;
    memset(marks_lent.bytes, 1, disks);
    himzolven_answer a =
        himzolven_format(s->v, s->k, s->g, s->u, design_of(), (size_t)s->rows * s->k, image, bytes, marks_lent.bytes, disks);
    if (a.refusal) fail("%s, u = %u: format is refused by %u", s->name, s->u, a.refusal);
    for (size_t b = 0; b < bytes; b++)
        if (image[b]) fail("%s, u = %u: byte %zu is not zero after format", s->name, s->u, b);
    for (size_t d = 0; d < disks; d++)
        if (marks_lent.bytes[d]) fail("%s, u = %u: mark %zu is not 0 after format", s->name, s->u, d);
}

/* The first user units on the formatted array, the others on one of any bytes: a write asks for no consistency. */
static void cases(const shape *s) {
    size_t bytes = array_bytes(s);
    uint32_t all = user_units(s);
    const uint32_t chosen[] = {0, all - 1, 4, 11, all / 2, all - 2};
    size_t many = s->u >= 512 ? 4 : 6;
    uint8_t *image = pages(bytes);
    watch.size = (bytes + 3 * PAGE - 1) / PAGE * PAGE + PAGE;
    watch.pages = pages(watch.size), watch.before = pages(watch.size), watch.seen = pages(watch.size);
    memset(image, 0xa5, bytes);
    format(s, image);
    for (uint32_t n = 0; n < all; n++) same_places(s, n);
    for (size_t i = 0; i < many; i++) {
        if (i == 2)
            for (size_t b = 0; b < bytes; b++) image[b] = any_byte();
        ranges(s, chosen[i], i < 2, image);
    }
    lengths(s, chosen[1], image);
    refusals(s, chosen[2], image);
    munmap(watch.pages, watch.size), munmap(watch.before, watch.size), munmap(watch.seen, watch.size);
    munmap(image, bytes);
}

/* Design F (document 000, equation 1), the held design of 13 groups, the complete graph on 5. */
static void designs(uint32_t u) {
    static const uint16_t F[21] = {0, 2, 6, 0, 1, 3, 1, 2, 4, 2, 3, 5, 3, 4, 6, 0, 4, 5, 1, 5, 6};
    uint16_t *design = design_of();
    memcpy(design, F, sizeof F);
    cases(&(shape){"design F, g = 3", 7, 3, 3, u, 7, 3});
    if (himzolven_fill(13, design, 52).refusal) fail("no held design of 13 groups");
    cases(&(shape){"held design of 13 groups, g = 5", 13, 4, 5, u, 13, 4});
    for (uint16_t a = 0, at = 0; a < 5; a++)
        for (uint16_t b = (uint16_t)(a + 1); b < 5; b++) design[at++] = a, design[at++] = b;
    cases(&(shape){"complete graph on 5 groups, g = 3", 5, 2, 3, u, 10, 4});
}

static void print_sites(const char *path) {
    FILE *out = fopen(path, "w");
    if (!out) fail("%s can't be written", path);
    for (size_t i = 0; i < site_count; i++)
        for (int w = 0; w < UNITS; w++)
            if (sites[i].stores[w])
                fprintf(out, "%#lx %d %zu %zu\n", (unsigned long)sites[i].at, w, sites[i].stores[w], sites[i].most[w]);
    if (fclose(out)) fail("%s can't be written", path);
}

int main(int words, char **word) {
    static const uint32_t U[] = {100, 64, 37, 1, 512, PAGE};
    const char *listed = NULL;
    uint32_t only = 0;
    for (int i = 1; i < words; i += 2) {
        if (i + 1 < words && !strcmp(word[i], "--sites"))
            listed = word[i + 1];
        else if (i + 1 < words && !strcmp(word[i], "--unit"))
            only = (uint32_t)strtoul(word[i + 1], NULL, 10);
        else
            return fprintf(stderr, "usage: witness [--sites FILE] [--unit U]\n"), 2;
    }
    if (sysconf(_SC_PAGESIZE) != PAGE) fail("a page is not 4096 bytes");
    design_lent.bytes = pages(design_lent.size), marks_lent.bytes = pages(marks_lent.size);
    source_lent.bytes = pages(source_lent.size);
    set_handlers();
    probe();
    for (size_t i = 0; i < sizeof U / sizeof *U; i++)
        if (!only || only == U[i]) designs(U[i]);
    if (!writes) fail("no unit size of %u", only);
    if (listed) print_sites(listed);
    printf("witness: 3 designs, %s: %zu writes of new bytes: each byte of the four ranges stored, no other\n",
           only ? "one unit size" : "6 unit sizes", writes);
    printf("witness: %zu writes of the bytes already there: nothing changed; %zu empty and %zu refused writes: no store\n",
           unchanged, none, refused);
    printf("witness: %zu stores by %zu instructions: data %zu, outer %zu, inner of data %zu, inner of outer %zu\n",
           total[0] + total[1] + total[2] + total[3], site_count, total[0], total[1], total[2], total[3]);
    return 0;
}
