#include "array.h"

#include <stdlib.h>
#include <string.h>

/* The first six parameters of every call. */
#define GEOMETRY(of) (of)->v, (of)->k, (of)->g, (of)->u, (of)->design, (of)->design_length
/* And the array and the marks. */
#define ARRAY(opened) image_array(opened), image_array_bytes(opened), (opened)->state.marks, (opened)->sizes.disks

himzolven_sizes_answer ask_sizes(const geometry *of) {
    return himzolven_sizes(GEOMETRY(of));
}

himzolven_map_answer ask_map(const geometry *of, uint32_t user_unit) {
    return himzolven_map(GEOMETRY(of), user_unit);
}

himzolven_role_answer ask_role(const geometry *of, uint32_t disk, uint32_t unit) {
    return himzolven_role(GEOMETRY(of), disk, unit);
}

himzolven_count_answer ask_plan(const geometry *of, uint32_t disk, uint32_t *list, size_t length) {
    return himzolven_plan(GEOMETRY(of), disk, list, length);
}

himzolven_answer array_format(image *opened) {
    return himzolven_format(GEOMETRY(&opened->geometry), ARRAY(opened));
}

himzolven_answer array_read(const image *opened, uint32_t user_unit, uint64_t offset, uint8_t *bytes, size_t length) {
    return himzolven_read(GEOMETRY(&opened->geometry), ARRAY(opened), user_unit, offset, bytes, length);
}

himzolven_answer array_write(image *opened, uint32_t user_unit, uint64_t offset, const uint8_t *bytes, size_t length) {
    return himzolven_write(GEOMETRY(&opened->geometry), ARRAY(opened), user_unit, offset, bytes, length);
}

himzolven_audit_answer array_audit(const image *opened) {
    return himzolven_audit(GEOMETRY(&opened->geometry), image_array(opened), image_array_bytes(opened));
}

himzolven_count_answer array_rebuild(image *opened) {
    return himzolven_rebuild(GEOMETRY(&opened->geometry), ARRAY(opened));
}

/* offset + length, or the highest number: both are above every unit then. */
static uint64_t range_end(uint64_t offset, uint64_t length) {
    return offset > UINT64_MAX - length ? UINT64_MAX : offset + length;
}

himzolven_answer try_write(image *opened, uint32_t user_unit, uint64_t offset, uint64_t length) {
    return array_write(opened, user_unit, range_end(offset, length), NULL, 0);
}

himzolven_answer try_read(const image *opened, uint32_t user_unit, uint64_t offset, uint64_t length) {
    return array_read(opened, user_unit, range_end(offset, length), NULL, 0);
}

bool try_rebuild(const image *opened, const uint8_t *marks, himzolven_count_answer *answer) {
    geometry small = opened->geometry;
    size_t bytes = image_array_bytes(opened) / small.u;
    uint8_t copy[MARKS_MAX], *array = calloc(bytes, 1);
    if (array == NULL) {
        return false;
    }
    memcpy(copy, marks, sizeof copy);
    small.u = 1;
    *answer = himzolven_rebuild(GEOMETRY(&small), array, bytes, copy, opened->sizes.disks);
    free(array);
    return true;
}
