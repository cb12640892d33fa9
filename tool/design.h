/* A design for a new image: the held one of v, or one from a text file. */
#ifndef DESIGN_H
#define DESIGN_H

#include "image.h"

/* Fills k and the design of a geometry whose v is set: from the file, or the held one where it is NULL. Returns an exit code; the
 * design is the caller's to free. Whether the file's list is a design is for the library to say. */
int design_make(geometry *to, const char *file);

#endif
