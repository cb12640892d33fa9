/* Every loss of the 21 disks of design F, in the order of its number: bit d is set where disk d is lost. */
#ifndef LOSSES_H
#define LOSSES_H

#include <stdint.h>
#include <stdio.h>

#include "design_f.h"

/* One byte a loss: 0 where it is not rebuilt, 1 where it is. */
static void print_losses(int rebuilt(uint32_t loss)) {
    for (uint32_t loss = 0; loss < UINT32_C(1) << DISKS; loss++) {
        putchar(rebuilt(loss));
    }
}

#endif
