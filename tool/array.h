/* The library's calls on an image. All work on the array is theirs. */
#ifndef ARRAY_H
#define ARRAY_H

#include "image.h"

himzolven_sizes_answer ask_sizes(const geometry *of);
himzolven_map_answer ask_map(const geometry *of, uint32_t user_unit);
himzolven_role_answer ask_role(const geometry *of, uint32_t disk, uint32_t unit);
himzolven_count_answer ask_plan(const geometry *of, uint32_t disk, uint32_t *list, size_t length);

himzolven_answer array_format(image *opened);
himzolven_answer array_read(const image *opened, uint32_t user_unit, uint64_t offset, uint8_t *bytes, size_t length);
himzolven_answer array_write(image *opened, uint32_t user_unit, uint64_t offset, const uint8_t *bytes, size_t length);
himzolven_audit_answer array_audit(const image *opened);
himzolven_count_answer array_rebuild(image *opened);

/* How a write or a read would be answered: the same call with no bytes at the range's end, which stores nothing. */
himzolven_answer try_write(image *opened, uint32_t user_unit, uint64_t offset, uint64_t length);
himzolven_answer try_read(const image *opened, uint32_t user_unit, uint64_t offset, uint64_t length);

/* How a rebuild with these marks would be answered: the same call on units of one byte that are thrown away. Whether all comes
 * back is known from the marks alone. false: no memory. */
bool try_rebuild(const image *opened, const uint8_t *marks, himzolven_count_answer *answer);

#endif
