/* A write with a fault, for the self-test of the store witness: it must be told from the one without. FAULT says which:
 *
 *   0 none
 *   1 the leaf stores three: the fault that began this
 *   2 the last byte of the last range is not stored
 *   3 the byte before the first range is stored too, unchanged
 *   4 the byte after the last range is stored too, unchanged, in one instruction with the range's last
 *   5 the last range goes to the next diagonal's parity
 *   6 a refused write stores
 *   7 a mark is stored
 *   8 the last range is stored, but with its old bytes
 *   9 the leaf stores three where the range is a whole unit of 4096 bytes
 *
 * The stores are volatile, so that a compiler leaves each as it is written here. */
#include "himzolven.h"

himzolven_answer doctored_write(uint32_t v, uint32_t k, uint32_t g, uint32_t u, const uint16_t *design, size_t design_length,
                                uint8_t *array, size_t array_length, const uint8_t *marks, size_t marks_length,
                                uint32_t user_unit, uint64_t offset, const uint8_t *bytes, size_t bytes_length);

typedef uint8_t wide __attribute__((vector_size(16), aligned(1), may_alias));
typedef uint16_t pair __attribute__((aligned(1), may_alias));

static void add(uint8_t *unit, const uint8_t *difference, size_t length) {
    size_t b = 0;
    for (; b + 16 <= length; b += 16) *(volatile wide *)(unit + b) ^= *(const wide *)(difference + b);
    for (; b < length; b++) *(volatile uint8_t *)(unit + b) ^= difference[b];
}

/* The same difference at four places. */
static void add_four(uint8_t *array, const size_t at[4], const uint8_t *difference, size_t length) {
    static const uint8_t nothing[4096];
    int stores = FAULT == 1 || (FAULT == 9 && length == 4096) ? 3 : 4;
    for (int w = 0; w < stores; w++)
        add(array + at[w], FAULT == 8 && w == 3 ? nothing : difference, FAULT == 2 && w == 3 ? length - 1 : length);
    if (FAULT == 3) *(volatile uint8_t *)(array + at[0] - 1) ^= 0;
    if (FAULT == 4) *(volatile pair *)(array + at[3] + length - 1) ^= 0;
}

himzolven_answer doctored_write(uint32_t v, uint32_t k, uint32_t g, uint32_t u, const uint16_t *design, size_t design_length,
                                uint8_t *array, size_t array_length, const uint8_t *marks, size_t marks_length,
                                uint32_t user_unit, uint64_t offset, const uint8_t *bytes, size_t bytes_length) {
    uint8_t difference[4096];
    himzolven_map_answer m = himzolven_map(v, k, g, u, design, design_length, user_unit);
    if (m.refusal) return (himzolven_answer){m.refusal, m.place};
    if (bytes_length > u || offset > u - bytes_length) return (himzolven_answer){11, 0};
    if (FAULT == 5) m.both_disk = m.both_disk / g * g + (m.both_disk + 1) % g;
    const uint32_t disk[4] = {m.data_disk, m.outer_disk, m.inner_disk, m.both_disk};
    const uint32_t unit[4] = {m.data_unit, m.outer_unit, m.inner_unit, m.both_unit};
    size_t at[4], units = array_length / marks_length / u;
    for (int w = 0; w < 4; w++) at[w] = (disk[w] * units + unit[w]) * u + offset;
    for (int w = 0; w < 4; w++) {
        if (!marks[disk[w]]) continue;
        if (FAULT == 6) add(array + at[0], bytes, bytes_length);
        return (himzolven_answer){12, disk[w]};
    }
    if (bytes_length == 0) return (himzolven_answer){0, 0};
    for (size_t b = 0; b < bytes_length; b++) difference[b] = array[at[0] + b] ^ bytes[b];
    add_four(array, at, difference, bytes_length);
    if (FAULT == 7) *(volatile uint8_t *)(uintptr_t)marks = 0;
    return (himzolven_answer){0, 0};
}
