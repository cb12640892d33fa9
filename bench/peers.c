/* The library beside Reed-Solomon codes of ISA-L, n disks of data and m of parity: encoding, a small write, and rebuilding one
 * disk and three. Compiled where isa-l.h is found.
 * usage: peers V K G U
 * Prints "call memory|hot contestant ns" of one call, "data encode contestant bytes" of the data that one call encodes, "moved"
 * lines as bytes.c does, "plan own|other units number" for the most that the plan of one disk reads of a disk in its group or in
 * another, and "plan any disks number" for how many disks it reads. */
#include <immintrin.h>
#include <isa-l.h>
#include <stdio.h>
#include <stdlib.h>
#include <string.h>
#include <unistd.h>

#include "arrays.h"

enum { DATA_MAX = 10, PARITY_MAX = 4, LOST_MAX = 4, TABLE = 32, TRIES = 50 };

/* Arrays of n+m disks, as long as the library's disks, side by side. A stripe is one unit of each disk. Tables are ISA-L's: for
 * the parities, and for the first 1 .. m data disks from the n next ones. */
typedef struct code {
    const char *name;
    int data, parity;
    size_t arrays, stripes;
    uint8_t *pool;
    uint8_t matrix[(DATA_MAX + PARITY_MAX) * DATA_MAX];
    uint8_t encode[TABLE * DATA_MAX * PARITY_MAX];
    uint8_t decode[LOST_MAX + 1][TABLE * DATA_MAX * LOST_MAX];
} code;

static code six = {.name = "rs6+3", .data = 6, .parity = 3}, ten = {.name = "rs10+4", .data = 10, .parity = 4};

static size_t array_bytes(const code *c) {
    return (size_t)(c->data + c->parity) * s.disk_bytes;
}

/* the array in turn; hot, the first */
static uint8_t *array_of(const code *c, uint64_t number) {
    return c->pool + (hot ? 0 : number % c->arrays) * array_bytes(c);
}

/* the units of a stripe, by disk */
static void units_of(const code *c, uint8_t *array, size_t stripe, uint8_t **units) {
    for (int d = 0; d < c->data + c->parity; d++) units[d] = array + (size_t)d * s.disk_bytes + stripe * s.u;
}

/* rows of the inverse of what the n disks after the lost ones hold */
static void make_decode(code *c, int count) {
    uint8_t square[DATA_MAX * DATA_MAX], inverse[DATA_MAX * DATA_MAX];
    memcpy(square, c->matrix + count * c->data, (size_t)(c->data * c->data));
    if (gf_invert_matrix(square, inverse, c->data) != 0) fail("a code's matrix has no inverse");
    ec_init_tables(c->data, count, inverse, c->decode[count]);
}

static void make_code(code *c) {
    c->stripes = s.disk_bytes / s.u;
    c->arrays = arrays * s.bytes / array_bytes(c) + 1;
    c->pool = room_for(c->arrays * array_bytes(c));
    gf_gen_cauchy1_matrix(c->matrix, c->data + c->parity, c->data);
    ec_init_tables(c->data, c->parity, c->matrix + c->data * c->data, c->encode);
    for (int count = 1; count <= c->parity; count++) make_decode(c, count);
}

static void encode_stripe(code *c, uint8_t **units) {
    ec_encode_data((int)s.u, c->data, c->parity, c->encode, units, units + c->data);
}

/* the first `count` disks from the n after them */
static void restore_stripe(code *c, uint8_t **units, int count) {
    ec_encode_data((int)s.u, c->data, count, c->decode[count], units + count, units);
}

/* the new bytes over one data unit: its difference goes into every parity */
static void update_stripe(code *c, uint8_t **units, int disk) {
    static uint8_t room[UNIT_MAX] __attribute__((aligned(64)));
    void *difference[3] = {units[disk], bytes, room};
    xor_gen(3, (int)s.u, difference);
    memcpy(units[disk], bytes, s.u);
    ec_encode_data_update((int)s.u, c->data, c->parity, disk, c->encode, room, units + c->data);
}

/* a changed stripe has the parities of a fresh one, and every loss of the first disks comes back */
static void try_stripe(code *c, size_t stripe) {
    uint8_t *units[DATA_MAX + PARITY_MAX], *array = array_of(c, stripe);
    uint8_t kept[DATA_MAX + PARITY_MAX][UNIT_MAX] = {{0}};
    units_of(c, array, stripe, units);
    for (int d = 0; d < c->data; d++) fill_random(units[d], s.u, stripe + (uint64_t)d);
    encode_stripe(c, units);
    fill_random(bytes, s.u, stripe + 77);
    update_stripe(c, units, (int)(stripe % (size_t)c->data));
    for (int d = 0; d < c->data + c->parity; d++) memcpy(kept[d], units[d], s.u);
    encode_stripe(c, units);
    for (int z = 0; z < c->parity; z++)
        if (memcmp(kept[c->data + z], units[c->data + z], s.u) != 0) fail("a code's parities differ after a change");
    for (int count = 1; count <= c->parity; count++) {
        for (int d = 0; d < count; d++) fill_random(units[d], s.u, stripe + 99 + (uint64_t)d);
        if (memcmp(kept[0], units[0], s.u) == 0) fail("nothing was lost");
        restore_stripe(c, units, count);
        for (int d = 0; d < count; d++)
            if (memcmp(kept[d], units[d], s.u) != 0) fail("a code does not restore its disks");
    }
}

static void run_encode(const contestant *me, uint32_t calls) {
    code *c = me->codes;
    uint8_t *units[DATA_MAX + PARITY_MAX];
    for (uint32_t i = 0; i < calls; i++) {
        turn++;
        units_of(c, array_of(c, turn / c->stripes), hot ? 0 : turn % c->stripes, units);
        encode_stripe(c, units);
    }
}

/* the library writes its user units one after the other; hot, one of them */
static void run_fill(const contestant *me, uint32_t calls) {
    (void)me;
    for (uint32_t i = 0; i < calls; i++) {
        turn++;
        uint8_t *array = pool + (hot ? 0 : turn / s.users % arrays) * s.bytes;
        if (call_write(array, hot ? s.users / 2 : (uint32_t)(turn % s.users)) != 0) fail("a write is refused");
    }
}

/* after the refused call of the library, as every other contestant's write */
static void run_update(const contestant *me, uint32_t calls) {
    code *c = me->codes;
    uint8_t *units[DATA_MAX + PARITY_MAX];
    for (uint32_t i = 0; i < calls; i++) {
        run_write(me, 1);
        units_of(c, array_of(c, turn), scattered(turn) % c->stripes, units);
        update_stripe(c, units, (int)(turn % (uint64_t)c->data));
    }
}

static void run_restore(const contestant *me, uint32_t calls) {
    code *c = me->codes;
    uint8_t *units[DATA_MAX + PARITY_MAX];
    for (uint32_t i = 0; i < calls; i++) {
        uint8_t *array = array_of(c, ++turn);
        for (size_t stripe = 0; stripe < c->stripes; stripe++) {
            units_of(c, array, stripe, units);
            restore_stripe(c, units, (int)lost->count);
        }
    }
}

static void run_flush(const contestant *me, uint32_t calls) {
    const code *c = me->codes;
    for (uint32_t i = 0; i < calls; i++) flush_bytes(array_of(c, ++turn), (lost->count + (size_t)c->data) * s.disk_bytes);
    _mm_mfence();
    flush_pages();
}

static const contestant flush_six = {.name = "flush", .run = run_flush, .codes = &six};
static const contestant flush_ten = {.name = "flush", .run = run_flush, .codes = &ten};

static contestant encode_race[] = {
    {.name = "library", .run = run_fill},
    {.name = "rs6+3", .run = run_encode, .codes = &six},
    {.name = "rs10+4", .run = run_encode, .codes = &ten},
};
static contestant write_race[] = {
    {.name = "refused", .run = run_write, .refuse = 1},
    {.name = "library", .run = run_write},
    {.name = "rs6+3", .run = run_update, .refuse = 1, .codes = &six},
    {.name = "rs10+4", .run = run_update, .refuse = 1, .codes = &ten},
};
static contestant rebuild_race[] = {
    {.name = "refused", .run = run_rebuild, .refuse = 1},
    {.name = "library", .run = run_rebuild, .before = &flush},
    {.name = "rs6+3", .run = run_restore, .codes = &six, .before = &flush_six},
    {.name = "rs10+4", .run = run_restore, .codes = &ten, .before = &flush_ten},
};

/* how many units the plan of the first lost disk reads of one disk, at most, of its own group and of another; and of how many
 * disks it reads */
static void most_read(void) {
    size_t length = 3 * (s.disk_bytes / s.u) / s.g * (s.g - 1) * s.k;
    uint32_t *list = calloc(length, sizeof *list), read[91 * 13] = {0}, most[2] = {0}, disk = lost->disk[0], count = 0;
    if (!list) fail("no memory for the plan");
    himzolven_count_answer a = call_plan(disk, list, length);
    if (a.refusal != 0 || 3 * (size_t)a.count != length) fail("a plan is answered wrongly");
    for (uint32_t n = 0; n < a.count; n++) read[list[3 * n + 1]]++;
    for (uint32_t d = 0; d < s.disks; d++) {
        uint32_t *here = &most[d / s.g != disk / s.g];
        count += read[d] != 0;
        if (read[d] > *here) *here = read[d];
    }
    printf("plan own units %u\nplan other units %u\nplan any disks %u\n", most[0], most[1], count);
    free(list);
}

int main(int argc, char **argv) {
    if (argc != 5) {
        fprintf(stderr, "usage: peers V K G U\n");
        return 2;
    }
    make_shape(argv + 1, NULL);
    make_pool(beyond_caches(), 1);
    code *codes[] = {&six, &ten};
    for (int c = 0; c < COUNT(codes); c++) {
        make_code(codes[c]);
        for (size_t stripe = 0; stripe < TRIES; stripe++) try_stripe(codes[c], stripe % codes[c]->stripes);
        printf("data encode %s %zu\n", codes[c]->name, (size_t)codes[c]->data * s.u);
    }
    most_read();
    for (hot = 0; hot < 2; hot++) RACE("encode", encode_race, hot ? 0.4 : 1.5);
    hot = 0;
    RACE("write", write_race, 2.0);
    for (int z = 0; z < 2; z++) {
        lost = &losses[z];
        moved(1);
        RACE(lost->name, rebuild_race, 1.5);
        memset(marks, 0, s.disks);
    }
    return sink == 1;
}
