/* Design F, equation 1 of document 000, with 3 disks a group and units of one byte. */
#ifndef DESIGN_F_H
#define DESIGN_F_H

#include <stdint.h>

enum { V = 7, K = 3, G = 3, U = 1, DISKS = 21, UNITS = 9, DESIGN = 21 };

static const uint16_t design[DESIGN] = {0, 2, 6, 0, 1, 3, 1, 2, 4, 2, 3, 5, 3, 4, 6, 0, 4, 5, 1, 5, 6};

#endif
