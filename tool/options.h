/* The command line: words, and options that start with --. */
#ifndef OPTIONS_H
#define OPTIONS_H

#include <stdbool.h>
#include <stddef.h>
#include <stdint.h>

enum kind {
    FLAG,   /* given or not */
    NUMBER, /* decimal, up to 4294967295 */
    BYTES,  /* the same, with K, M or G for 1024 and its powers */
    TEXT
};

typedef struct {
    const char *name;
    enum kind kind;
    bool given;
    uint32_t number;
    const char *text;
} option;

#define OPTION(its_name, its_kind) {.name = its_name, .kind = its_kind}

/* Reads the options out of the words, which end with NULL; the other words close up. false: said on stderr what was expected. */
bool options_take(char **words, option *options, size_t count);

/* Reads a decimal number. false: said on stderr; `what` names it. */
bool number_read(const char *what, const char *word, enum kind kind, uint32_t *number);

/* There are exactly `count` words, which are named by `names`. */
bool words_are(char **words, size_t count, const char *names);

#endif
