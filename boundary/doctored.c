/* Calls with a fault each, to show that the tests can fail: the linker puts them before the library's (--wrap). The environment's
 * FAULT says which is planted; with none each call is the library's. */
#include <sched.h>
#include <stdlib.h>

#include "himzolven.h"

#define SHELF uint32_t v, uint32_t k, uint32_t g, uint32_t u, const uint16_t *design, size_t design_length
#define GIVEN v, k, g, u, design, design_length

enum fault {
    NONE,
    PAST_BYTES,     /* read stores a byte behind `bytes` */
    BEFORE_ARRAY,   /* format stores a byte before `array` */
    PAST_DESIGN,    /* check reads a number behind `design` */
    CONST_MARKS,    /* write stores a mark as it was */
    NULL_READ,      /* audit reads the first byte of `array`, whatever its length */
    ROUNDED,        /* rebuild takes `marks` for a multiple of 8 */
    REFUSED_CHANGE, /* a rebuild that is refused clears a mark */
    REFUSED_STORE,  /* a plan that is refused stores the number that is there */
    OTHER_NUMBER,   /* a write that leaves the unit is refused as one to a user unit too high */
    KEPT,           /* map keeps the user unit for all threads */
    LONGER_PLAN,    /* plan stores a number behind its triples */
    ONE_LEFT,       /* rebuild restores all lost disks but the last */
};

static enum fault planted;

__attribute__((constructor)) static void plant(void) {
    const char *text = getenv("FAULT");
    planted = text != NULL ? (enum fault)atoi(text) : NONE;
}

himzolven_answer __real_himzolven_read(
    SHELF, const uint8_t *, size_t, const uint8_t *, size_t, uint32_t, uint64_t, uint8_t *, size_t);
himzolven_answer __wrap_himzolven_read(
    SHELF, const uint8_t *array, size_t array_length, const uint8_t *marks, size_t marks_length, uint32_t user_unit,
    uint64_t offset, uint8_t *bytes, size_t bytes_length) {
    himzolven_answer told =
        __real_himzolven_read(GIVEN, array, array_length, marks, marks_length, user_unit, offset, bytes, bytes_length);
    if (planted == PAST_BYTES && told.refusal == 0) bytes[bytes_length] = 0;
    return told;
}

himzolven_answer __real_himzolven_format(SHELF, uint8_t *, size_t, uint8_t *, size_t);
himzolven_answer __wrap_himzolven_format(SHELF, uint8_t *array, size_t array_length, uint8_t *marks, size_t marks_length) {
    himzolven_answer told = __real_himzolven_format(GIVEN, array, array_length, marks, marks_length);
    if (planted == BEFORE_ARRAY && told.refusal == 0) array[-1] = 0;
    return told;
}

himzolven_answer __real_himzolven_check(uint32_t v, uint32_t k, const uint16_t *design, size_t design_length);
himzolven_answer __wrap_himzolven_check(uint32_t v, uint32_t k, const uint16_t *design, size_t design_length) {
    if (planted == PAST_DESIGN) (void)*(const volatile uint16_t *)(design + design_length);
    return __real_himzolven_check(v, k, design, design_length);
}

himzolven_answer __real_himzolven_write(
    SHELF, uint8_t *, size_t, const uint8_t *, size_t, uint32_t, uint64_t, const uint8_t *, size_t);
himzolven_answer __wrap_himzolven_write(
    SHELF, uint8_t *array, size_t array_length, const uint8_t *marks, size_t marks_length, uint32_t user_unit, uint64_t offset,
    const uint8_t *bytes, size_t bytes_length) {
    himzolven_answer told =
        __real_himzolven_write(GIVEN, array, array_length, marks, marks_length, user_unit, offset, bytes, bytes_length);
    if (planted == CONST_MARKS && told.refusal == 0) *(volatile uint8_t *)(uintptr_t)marks = *marks;
    if (planted == OTHER_NUMBER && told.refusal == HIMZOLVEN_BAD_RANGE) told.refusal = HIMZOLVEN_USER_TOO_HIGH;
    return told;
}

himzolven_audit_answer __real_himzolven_audit(SHELF, const uint8_t *array, size_t array_length);
himzolven_audit_answer __wrap_himzolven_audit(SHELF, const uint8_t *array, size_t array_length) {
    if (planted == NULL_READ) (void)*(const volatile uint8_t *)array;
    return __real_himzolven_audit(GIVEN, array, array_length);
}

himzolven_count_answer __real_himzolven_rebuild(SHELF, uint8_t *, size_t, uint8_t *, size_t);
himzolven_count_answer __wrap_himzolven_rebuild(SHELF, uint8_t *array, size_t array_length, uint8_t *marks, size_t marks_length) {
    if (planted == ROUNDED) marks -= (uintptr_t)marks % 8;
    size_t last = marks_length;
    while (planted == ONE_LEFT && last > 0 && marks[--last] == 0) {}
    if (planted == ONE_LEFT && last < marks_length) marks[last] = 0;
    himzolven_count_answer told = __real_himzolven_rebuild(GIVEN, array, array_length, marks, marks_length);
    if (planted == REFUSED_CHANGE && told.refusal == HIMZOLVEN_INCOMPLETE) marks[0] = 0;
    return told;
}

himzolven_map_answer __real_himzolven_map(SHELF, uint32_t user_unit);
himzolven_map_answer __wrap_himzolven_map(SHELF, uint32_t user_unit) {
    static volatile uint32_t kept;
    if (planted != KEPT) return __real_himzolven_map(GIVEN, user_unit);
    kept = user_unit;
    sched_yield();
    return __real_himzolven_map(GIVEN, kept);
}

himzolven_count_answer __real_himzolven_plan(SHELF, uint32_t disk, uint32_t *list, size_t list_length);
himzolven_count_answer __wrap_himzolven_plan(SHELF, uint32_t disk, uint32_t *list, size_t list_length) {
    himzolven_count_answer told = __real_himzolven_plan(GIVEN, disk, list, list_length);
    if (planted == REFUSED_STORE && told.refusal != 0 && list_length > 0) *(volatile uint32_t *)list = *list;
    if (planted == LONGER_PLAN && told.refusal == 0) ((volatile uint32_t *)list)[3 * told.count] = 0;
    return told;
}
