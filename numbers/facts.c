/* Counts what the proved library says of a geometry: roles of all units, places of all writes, plans of all disks.
 *
 * usage: facts < GEOMETRIES
 *
 * A line of GEOMETRIES is `v k g`, then the design's numbers; none for the held design of v. For each a line of numbers:
 *   disks units parts user outer inner   disks, units and parts of one disk, then how many units have each role
 *   written                              disks that a write touches
 *   lost coded                           units on one lost disk, and those of them that the outer layer encodes
 *   read read_coded                      units that the plan reads to restore the lost units, the coded ones
 *   most most_coded                      the most that one surviving disk gives for them
 *   own others idle                      what a surviving disk of the lost one's group gives; the most that one of another
 *                                        group gives; disks of each other group that give none
 * Counts of a write or a lost disk are made for each user unit and each disk. If two differ, or a unit is read twice, or the
 * library refuses, the program says so and ends with status 1. */
#include <inttypes.h>
#include <stdarg.h>
#include <stdio.h>
#include <stdlib.h>
#include <string.h>

#include "himzolven.h"

/* The largest of all sizes that the library takes; the longest plans and designs have k = 2. */
enum { U = 1, DESIGN_MOST = 91 * 90, DISKS_MOST = 91 * 13, UNITS_MOST = 90 * 13, PLAN_MOST = 3 * 90 * 12 * 2 };

typedef struct {
    uint32_t v, k, g;
    uint16_t design[DESIGN_MOST];
    size_t length;
} geometry;

typedef struct {
    uint32_t lost, coded, read, read_coded, most, most_coded, own, others, idle;
} shares;

static uint32_t list[PLAN_MOST];

static void fail(const char *form, ...) {
    va_list rest;
    va_start(rest, form);
    fputs("facts: ", stderr);
    vfprintf(stderr, form, rest);
    fputc('\n', stderr);
    va_end(rest);
    exit(1);
}

/* What a geometry is called in a message. */
#define NAME "v = %" PRIu32 ", k = %" PRIu32 ", g = %" PRIu32
#define OF(G) (G)->v, (G)->k, (G)->g
#define CALL(G) (G)->v, (G)->k, (G)->g, U, (G)->design, (G)->length

static int take_line(geometry *G) {
    static char line[8 * DESIGN_MOST];
    if (fgets(line, sizeof line, stdin) == NULL) {
        return 0;
    }
    char *at = line;
    G->v = (uint32_t)strtoul(at, &at, 10);
    G->k = (uint32_t)strtoul(at, &at, 10);
    G->g = (uint32_t)strtoul(at, &at, 10);
    G->length = 0;
    for (char *end; G->length < DESIGN_MOST; G->length++, at = end) {
        const unsigned long number = strtoul(at, &end, 10);
        if (end == at) {
            break;
        }
        G->design[G->length] = (uint16_t)number;
    }
    if (G->length == 0) {
        G->length = (size_t)G->v * G->k; /* a held design has as many rows as groups */
        if (himzolven_fill(G->v, G->design, G->length).refusal != HIMZOLVEN_ACCEPTED) {
            fail("no design of %" PRIu32 " groups is held", G->v);
        }
    }
    return 1;
}

static uint32_t kind(const geometry *G, uint32_t disk, uint32_t unit) {
    const himzolven_role_answer role = himzolven_role(CALL(G), disk, unit);
    if (role.refusal != HIMZOLVEN_ACCEPTED || role.kind > HIMZOLVEN_INNER) {
        fail(NAME ": role of %" PRIu32 "/%" PRIu32 " refused with %" PRIu32, OF(G), disk, unit, role.refusal);
    }
    return role.kind;
}

/* On how many disks a write puts its difference. */
static uint32_t written(const geometry *G, uint32_t user_units) {
    uint32_t all = 0;
    for (uint32_t n = 0; n < user_units; n++) {
        const himzolven_map_answer m = himzolven_map(CALL(G), n);
        if (m.refusal != HIMZOLVEN_ACCEPTED) {
            fail(NAME ": map of user unit %" PRIu32 " refused with %" PRIu32, OF(G), n, m.refusal);
        }
        const uint32_t disk[] = {m.data_disk, m.outer_disk, m.inner_disk, m.both_disk};
        uint32_t different = 0;
        for (int i = 0; i < 4; i++) {
            int j = 0;
            while (disk[j] != disk[i]) {
                j++;
            }
            different += i == j;
        }
        if (n != 0 && different != all) {
            fail(NAME ": user unit %" PRIu32 " lies on another number of disks than unit 0", OF(G), n);
        }
        all = different;
    }
    return all;
}

/* What the surviving disks give: own group, other groups. */
static void give(const geometry *G, uint32_t disk, const uint32_t *given, shares *s) {
    for (uint32_t group = 0; group < G->v; group++) {
        uint32_t idle = 0;
        for (uint32_t d = group * G->g; d < (group + 1) * G->g; d++) {
            if (group != disk / G->g) {
                s->others = given[d] > s->others ? given[d] : s->others;
                idle += given[d] == 0;
            } else if (d != disk) {
                s->own = given[d];
            }
            s->most = given[d] > s->most ? given[d] : s->most;
        }
        s->idle = group != disk / G->g ? idle : s->idle;
    }
}

static shares plan(const geometry *G, uint32_t disk, uint32_t units, const uint8_t *kinds) {
    static uint8_t taken[DISKS_MOST][UNITS_MOST];
    uint32_t given[DISKS_MOST] = {0};
    uint32_t given_coded[DISKS_MOST] = {0};
    shares s = {.lost = units};
    memset(taken, 0, sizeof taken);
    const himzolven_count_answer answer = himzolven_plan(CALL(G), disk, list, PLAN_MOST);
    if (answer.refusal != HIMZOLVEN_ACCEPTED) {
        fail(NAME ": plan of disk %" PRIu32 " refused with %" PRIu32, OF(G), disk, answer.refusal);
    }
    for (uint32_t unit = 0; unit < units; unit++) {
        s.coded += kinds[unit] != HIMZOLVEN_INNER;
    }
    for (const uint32_t *t = list; t < list + 3 * answer.count; t += 3) {
        if (t[1] == disk || taken[t[1]][t[2]]++ != 0) {
            fail(NAME ": disk %" PRIu32 " reads %" PRIu32 "/%" PRIu32 " of itself or twice", OF(G), disk, t[1], t[2]);
        }
        const uint32_t coded = kinds[t[0]] != HIMZOLVEN_INNER;
        s.read++;
        s.read_coded += coded;
        given[t[1]]++;
        given_coded[t[1]] += coded;
        s.most_coded = given_coded[t[1]] > s.most_coded ? given_coded[t[1]] : s.most_coded;
    }
    give(G, disk, given, &s);
    return s;
}

static void print_facts(const geometry *G) {
    const himzolven_sizes_answer z = himzolven_sizes(CALL(G));
    if (z.refusal != HIMZOLVEN_ACCEPTED) {
        fail(NAME ": refused with %" PRIu32 ", place %" PRIu32, OF(G), z.refusal, z.place);
    }
    uint32_t roles[3] = {0};
    shares all = {0};
    for (uint32_t disk = 0; disk < z.disks; disk++) {
        uint8_t kinds[UNITS_MOST];
        for (uint32_t unit = 0; unit < z.units; unit++) {
            kinds[unit] = (uint8_t)kind(G, disk, unit);
            roles[kinds[unit]]++;
        }
        const shares one = plan(G, disk, z.units, kinds);
        if (disk != 0 && memcmp(&one, &all, sizeof one) != 0) {
            fail(NAME ": the plan of disk %" PRIu32 " has other counts than that of disk 0", OF(G), disk);
        }
        all = one;
    }
    if (roles[HIMZOLVEN_USER] != z.user_units || roles[HIMZOLVEN_OUTER] + roles[HIMZOLVEN_INNER] != z.sets) {
        fail(NAME ": the roles are not as many as the sizes say", OF(G));
    }
    const uint32_t facts[] = {z.disks, z.units, z.parts, roles[0], roles[1], roles[2], written(G, z.user_units),
                              all.lost, all.coded, all.read, all.read_coded, all.most, all.most_coded,
                              all.own, all.others, all.idle};
    for (size_t i = 0; i < sizeof facts / sizeof *facts; i++) {
        printf("%" PRIu32 "%c", facts[i], i + 1 < sizeof facts / sizeof *facts ? ' ' : '\n');
    }
}

int main(void) {
    static geometry G;
    while (take_line(&G)) {
        print_facts(&G);
    }
    return 0;
}
