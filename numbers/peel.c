/* Which losses of design F (v = 7, k = 3, g = 3) can be rebuilt? Written from document 01 alone: shares no code with the library.
 *
 * usage: peel > ANSWERS
 *
 * One byte a loss (losses.h). No bytes, no passes in order: the units of a tuple are bits of a word, and any set that lacks one
 * unit gives it back, until none does. */
#include <stdint.h>

#include "losses.h"

enum { TUPLES = DESIGN / K, SETS = (G - 1) * G + K * G };

static uint32_t sets[SETS];

static uint32_t bit(int position, int row, int column) {
    return UINT32_C(1) << ((position * G + row) * G + column);
}

static void make_sets(void) {
    uint32_t *set = sets;
    for (int i = 0; i < G - 1; i++) {
        for (int c = 0; c < G; c++, set++) {
            for (int l = 0; l < K; l++) {
                *set |= bit(l, i, (c + i * l) % G); /* label (i,c) */
            }
        }
    }
    for (int l = 0; l < K; l++) {
        for (int j = 0; j < G; j++, set++) {
            for (int i = 0; i < G; i++) {
                *set |= bit(l, i, (i + G - j) % G); /* diagonal j */
            }
        }
    }
}

static int completes(uint32_t missing) {
    for (uint32_t before = 0; before != missing;) {
        before = missing;
        for (int s = 0; s < SETS; s++) {
            const uint32_t lacks = missing & sets[s];
            if ((lacks & (lacks - 1)) == 0) {
                missing ^= lacks;
            }
        }
    }
    return missing == 0;
}

static int rebuilt(uint32_t loss) {
    for (int t = 0; t < TUPLES; t++) {
        uint32_t missing = 0;
        for (int l = 0; l < K; l++) {
            for (int c = 0; c < G; c++) {
                for (int i = 0; (loss >> (design[t * K + l] * G + c) & 1) != 0 && i < G; i++) {
                    missing |= bit(l, i, c);
                }
            }
        }
        if (!completes(missing)) {
            return 0;
        }
    }
    return 1;
}

int main(void) {
    make_sets();
    print_losses(rebuilt);
    return 0;
}
