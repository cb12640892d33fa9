#include "plain.h"

#include <string.h>

static himzolven_answer answer(uint32_t refusal, uint32_t place) {
    himzolven_answer a = {refusal, place};
    return a;
}

/* the held sets, by v */
static const struct held {
    uint32_t v, k;
    uint16_t set[10];
} held[] = {
    {7, 3, {0, 1, 3}},
    {13, 4, {0, 1, 3, 9}},
    {21, 5, {0, 1, 4, 14, 16}},
    {31, 6, {0, 1, 3, 8, 12, 18}},
    {57, 8, {0, 1, 3, 13, 32, 36, 43, 52}},
    {73, 9, {0, 1, 3, 7, 15, 31, 36, 54, 63}},
    {91, 10, {0, 1, 3, 9, 27, 49, 56, 61, 77, 81}},
};

/* row i: the members that reach v come first, less v, and then the others */
static void develop_row(uint32_t v, uint32_t k, const uint16_t *set, uint32_t i, uint16_t *row) {
    uint32_t past = 0;
    while (past < k && set[past] + i < v) past++;
    for (uint32_t l = 0; l < k; l++) row[l] = (uint16_t)(l < k - past ? set[past + l] + i - v : set[l - (k - past)] + i);
}

himzolven_answer plain_fill(uint32_t v, uint16_t *design, size_t length) {
    const struct held *h = held, *end = held + sizeof held / sizeof held[0];
    while (h < end && h->v != v) h++;
    if (h == end) return answer(1, 0);
    if (length != (size_t)v * h->k) return answer(3, 0);
    for (uint32_t i = 0; i < v; i++) develop_row(v, h->k, h->set, i, design + i * h->k);
    return answer(0, 0);
}

himzolven_answer plain_check(uint32_t v, uint32_t k, const uint16_t *design, size_t length) {
    if (v < 2 || v > 91 || k < 2 || k > 10 || k > v) return answer(2, 0);
    if ((v - 1) % (k - 1) != 0 || v * (v - 1) % (k * (k - 1)) != 0) return answer(3, 0);
    uint32_t b = v * (v - 1) / (k * (k - 1));
    if (length != (size_t)b * k) return answer(3, 0);
    for (uint32_t t = 0; t < b; t++)
        for (uint32_t l = 0; l < k; l++) {
            uint32_t a = design[t * k + l];
            if (a >= v || (l > 0 && a <= design[t * k + l - 1])) return answer(4, t);
        }
    uint8_t table[91 * 91];
    memset(table, 0, sizeof table);
    for (uint32_t t = 0; t < b; t++)
        for (uint32_t l = 0; l < k; l++)
            for (uint32_t m = l + 1; m < k; m++) {
                uint8_t *seen = &table[design[t * k + l] * v + design[t * k + m]];
                if (*seen < 2) *seen = (uint8_t)(*seen + 1);
            }
    for (uint32_t a = 0; a < v; a++)
        for (uint32_t c = a + 1; c < v; c++)
            if (table[a * v + c] != 1) return answer(5, a * v + c);
    return answer(0, 0);
}

static int prime(uint32_t g) {
    for (uint32_t e = 2; e < g; e++)
        if (g % e == 0) return 0;
    return 1;
}

static himzolven_answer plain_sizes_check(uint32_t v, uint32_t k, uint32_t g, uint32_t u, const uint16_t *design, size_t length) {
    himzolven_answer a = plain_check(v, k, design, length);
    if (a.refusal != 0) return a;
    if (g < 2 || g > 13 || !prime(g) || g < k || u < 1 || u > 4096) return answer(6, 0);
    return a;
}

himzolven_sizes_answer plain_sizes(
    uint32_t v, uint32_t k, uint32_t g, uint32_t u, const uint16_t *design, size_t length) {
    himzolven_sizes_answer r;
    memset(&r, 0, sizeof r);
    himzolven_answer a = plain_sizes_check(v, k, g, u, design, length);
    r.refusal = a.refusal;
    r.place = a.place;
    if (a.refusal != 0) return r;
    r.parts = (v - 1) / (k - 1);
    r.tuples = v * (v - 1) / (k * (k - 1));
    r.disks = v * g;
    r.units = r.parts * g;
    r.user_units = r.tuples * (k - 1) * (g - 1) * g;
    r.sets = r.tuples * ((g - 1) * g + k * g);
    r.bytes = (uint64_t)r.disks * r.units * u;
    return r;
}

static uint32_t part_of(const uint16_t *design, size_t end, uint16_t group) {
    uint16_t n = 0;
    for (size_t e = 0; e < end; e++) n = (uint16_t)(n + (design[e] == group));
    return n;
}

/* the entry of a group's part */
static size_t entry_of(const uint16_t *design, uint32_t group, uint32_t part) {
    uint32_t seen = 0;
    size_t e = 0;
    for (;; e++)
        if (design[e] == group && seen++ == part) return e;
}

himzolven_map_answer plain_map(
    uint32_t v, uint32_t k, uint32_t g, uint32_t u, const uint16_t *design, size_t length, uint32_t n) {
    himzolven_map_answer r;
    memset(&r, 0, sizeof r);
    himzolven_answer a = plain_sizes_check(v, k, g, u, design, length);
    uint32_t b = a.refusal == 0 ? v * (v - 1) / (k * (k - 1)) : 0;
    if (a.refusal == 0 && n >= b * (k - 1) * (g - 1) * g) a = answer(10, 0);
    r.refusal = a.refusal;
    r.place = a.place;
    if (a.refusal != 0) return r;
    uint32_t c = n % g, i = n / g % (g - 1), l = n / g / (g - 1) % (k - 1), t = n / g / (g - 1) / (k - 1), w = k - 1;
    uint32_t x = (c + i * l) % g, y = (c + i * w) % g;
    uint32_t jx = (i + g - x) % g, jy = (i + g - y) % g;
    uint16_t data = design[t * k + l], parity = design[t * k + w];
    uint32_t p = part_of(design, (size_t)t * k, data), q = part_of(design, (size_t)t * k, parity);
    r.data_disk = data * g + x;
    r.data_unit = p * g + i;
    r.outer_disk = parity * g + y;
    r.outer_unit = q * g + i;
    r.inner_disk = data * g + (g - 1 - jx);
    r.inner_unit = p * g + (g - 1);
    r.both_disk = parity * g + (g - 1 - jy);
    r.both_unit = q * g + (g - 1);
    return r;
}

himzolven_role_answer plain_role(
    uint32_t v, uint32_t k, uint32_t g, uint32_t u, const uint16_t *design, size_t length, uint32_t disk, uint32_t unit) {
    himzolven_role_answer r;
    memset(&r, 0, sizeof r);
    himzolven_answer a = plain_sizes_check(v, k, g, u, design, length);
    if (a.refusal == 0 && (disk >= v * g || unit >= (v - 1) / (k - 1) * g)) a = answer(9, 0);
    r.refusal = a.refusal;
    r.place = a.place;
    if (a.refusal != 0) return r;
    uint32_t group = disk / g, x = disk % g, p = unit / g, i = unit % g;
    size_t e = entry_of(design, group, p);
    uint32_t t = (uint32_t)(e / k), l = (uint32_t)(e % k);
    if (i == g - 1) {
        r.kind = 2;
        r.a = t;
        r.b = l;
        r.c = (i + g - x) % g;
        return r;
    }
    uint32_t c = (x + i * (g - l)) % g;
    if (l == k - 1) {
        r.kind = 1;
        r.a = t;
        r.b = i;
        r.c = c;
    } else {
        r.a = ((t * (k - 1) + l) * (g - 1) + i) * g + c;
    }
    return r;
}

static uint32_t *put(uint32_t *to, uint32_t unit, uint32_t disk, uint32_t source) {
    to[0] = unit;
    to[1] = disk;
    to[2] = source;
    return to + 3;
}

himzolven_count_answer plain_plan(
    uint32_t v, uint32_t k, uint32_t g, uint32_t u, const uint16_t *design, size_t length, uint32_t disk, uint32_t *list,
    size_t list_length) {
    himzolven_answer a = plain_sizes_check(v, k, g, u, design, length);
    uint32_t r = a.refusal == 0 ? (v - 1) / (k - 1) : 0, n = r * (g - 1) * k;
    if (a.refusal == 0 && disk >= v * g) a = answer(9, 0);
    if (a.refusal == 0 && list_length < 3 * n) a = answer(14, 0);
    himzolven_count_answer made = {a.refusal, a.place, a.refusal == 0 ? n : 0};
    if (a.refusal != 0) return made;
    uint32_t group = disk / g, x = disk % g;
    for (uint32_t p = 0; p < r; p++) {
        size_t e = entry_of(design, group, p);
        const uint16_t *row = design + e / k * k;
        uint32_t l = (uint32_t)(e % k), j = (2 * g - 1 - x) % g, part[10];
        for (uint32_t m = 0; m < k; m++) part[m] = part_of(design, e / k * k, row[m]);
        for (uint32_t i = 0; i + 1 < g; i++) {
            uint32_t c = (x + i * (g - l)) % g;
            for (uint32_t m = 0; m < k; m++)
                if (m != l) list = put(list, p * g + i, row[m] * g + (c + i * m) % g, part[m] * g + i);
        }
        for (uint32_t i = 0; i + 1 < g; i++) list = put(list, p * g + g - 1, group * g + (i + g - j) % g, p * g + i);
    }
    return made;
}
