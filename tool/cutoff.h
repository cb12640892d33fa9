/* A call that was cut off: what the record in the image says, and what can be done. */
#ifndef CUTOFF_H
#define CUTOFF_H

#include <stdio.h>

#include "image.h"

/* Opens an image to store into it. One with a call that was cut off is held back. */
int open_whole(image *opened, const char *path);

/* Prints what was cut off, and nothing where nothing was. */
void print_cut_off(FILE *to, const image *opened);

/* Warns on stderr where a call was cut off. */
void warn_cut_off(const image *opened);

/* The marks with which a rebuild makes all sets whole: those given, and for a write that was cut off three of its four disks.
 * The three parity disks are tried first: the user unit then keeps its present bytes. If the library refuses those, another one
 * of the four is kept: the three sets between the four units are a chain, so any one unit settles the rest. `answer` is the
 * library's, to the first choice if it refuses all. false: no memory. */
bool choose_marks(const image *opened, const uint8_t *marks, uint8_t *chosen, himzolven_count_answer *answer);

#endif
