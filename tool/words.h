/* The library's refusals in words, and lists of disks. */
#ifndef WORDS_H
#define WORDS_H

#include <stdint.h>
#include <stdio.h>

#include "image.h"

/* What was asked, as far as words need it. */
typedef struct {
    uint32_t disk;
    uint32_t user_unit;
    uint64_t offset;
    uint64_t length;
    bool or_more; /* the rest of the input was not taken */
    const uint8_t *marks;
} question;

/* Prints a refusal: its number, its place, and what they mean here. */
void print_refusal(FILE *to, const geometry *of, const question *asked, uint32_t refusal, uint32_t place);

/* The same on stderr. Returns the exit code. */
int tell_refusal(const geometry *of, const question *asked, uint32_t refusal, uint32_t place);

/* Prints the table of all refusals. */
void print_refusals(void);

/* Prints the disks whose mark is not 0: "disk 4", "disks 0 1 2", "no disk". */
void print_marked(FILE *to, const uint8_t *marks, uint32_t disks);

/* Prints the groups of a row of the design. */
void print_row(FILE *to, const geometry *of, uint32_t row);

#endif
