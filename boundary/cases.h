/* Calls to be made: geometries with a valid call of each kind, and ways to spoil one for each refusal. */
#ifndef CASES_H
#define CASES_H

#include "calls.h"

struct geometry {
    uint32_t v, k, g, u;
};

enum { GEOMETRIES = 7 };
extern const struct geometry geometries[GEOMETRIES];

/* Whether a call of this kind can be accepted here: fill fills only held designs. */
bool fits(enum call call, struct geometry geometry);

/* splitmix64: the same numbers everywhere */
uint64_t next_number(uint64_t *state);

/* A valid call in memory of its own, the lists with any bytes in them; `release` gives the memory back. */
struct lent valid(enum call call, struct geometry geometry);
struct lent copied(const struct lent *lent);
void release(struct lent *lent);

/* Makes the refusal due; false where no call with this geometry can get it. */
bool spoil(enum call call, uint32_t refusal, struct lent *lent);

#endif
