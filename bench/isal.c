/* The same work with ISA-L's kernels, compiled where isa-l.h is found. Units must be aligned as ISA-L asks. */
#include <isa-l.h>
#include <string.h>

#include "contest.h"

#define TEXT(x) #x
#define TEXT_OF(x) TEXT(x)

const char *isal_version(void) {
    return TEXT_OF(ISAL_MAJOR_VERSION) "." TEXT_OF(ISAL_MINOR_VERSION) "." TEXT_OF(ISAL_PATCH_VERSION);
}

void isal_write(uint8_t *array, const size_t at[4], const uint8_t *bytes, size_t n) {
    static uint8_t room[UNIT_MAX] __attribute__((aligned(64)));
    void *difference[3] = {array + at[0], (void *)(uintptr_t)bytes, room};
    xor_gen(3, (int)n, difference);
    memcpy(array + at[0], bytes, n);
    for (int z = 1; z < 4; z++) {
        void *parity[3] = {array + at[z], room, array + at[z]};
        xor_gen(3, (int)n, parity);
    }
}

int isal_differ(const uint8_t *array, const size_t *starts, size_t count, size_t u) {
    void *units[SOURCES_MAX];
    for (size_t t = 0; t < count; t++) units[t] = (void *)(uintptr_t)(array + starts[t]);
    return xor_check((int)count, (int)u, units);
}

void isal_restore(uint8_t *array, size_t target, const size_t *sources, size_t count, size_t u) {
    void *units[SOURCES_MAX];
    for (size_t t = 0; t < count; t++) units[t] = array + sources[t];
    units[count] = array + target;
    xor_gen((int)count + 1, (int)u, units);
}
