/* The same calls in plain C, as one would write them with no proof: the byte table for the pairs, one scan for a part,
 * the held sets developed row by row. */
#ifndef PLAIN_H
#define PLAIN_H

#include "himzolven.h"

himzolven_answer plain_fill(uint32_t v, uint16_t *design, size_t length);
himzolven_answer plain_check(uint32_t v, uint32_t k, const uint16_t *design, size_t length);
himzolven_sizes_answer plain_sizes(
    uint32_t v, uint32_t k, uint32_t g, uint32_t u, const uint16_t *design, size_t length);
himzolven_map_answer plain_map(
    uint32_t v, uint32_t k, uint32_t g, uint32_t u, const uint16_t *design, size_t length, uint32_t user_unit);
himzolven_role_answer plain_role(
    uint32_t v, uint32_t k, uint32_t g, uint32_t u, const uint16_t *design, size_t length, uint32_t disk, uint32_t unit);
himzolven_count_answer plain_plan(
    uint32_t v, uint32_t k, uint32_t g, uint32_t u, const uint16_t *design, size_t length, uint32_t disk, uint32_t *list,
    size_t list_length);

#endif
