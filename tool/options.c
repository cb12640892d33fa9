#include "options.h"

#include <string.h>

#include "exits.h"

static bool expected(const char *what, const char *word, const char *wanted) {
    complain("%s: %s is expected, not '%s'", what, wanted, word);
    return false;
}

/* 1 for "", 1024 for "K" and so on; 0 for any other rest of a number. */
static uint64_t unit_of(const char *rest, enum kind kind) {
    static const char letters[] = "KMG";
    if (rest[0] == '\0') {
        return 1;
    }
    const char *letter = strchr(letters, rest[0]);
    if (kind != BYTES || letter == NULL || rest[1] != '\0') {
        return 0;
    }
    return UINT64_C(1024) << 10 * (letter - letters);
}

bool number_read(const char *what, const char *word, enum kind kind, uint32_t *number) {
    const char *wanted = kind == BYTES ? "a number like 4096, 4K, 1M or 1G, below 4G" : "a decimal number from 0 to 4294967295";
    uint64_t value = 0;
    const char *at = word;
    for (; *at >= '0' && *at <= '9' && value <= UINT32_MAX; at++) {
        value = value * 10 + (uint64_t)(*at - '0');
    }
    uint64_t unit = unit_of(at, kind);
    if (at == word || unit == 0 || value > UINT32_MAX / unit) {
        return expected(what, word, wanted);
    }
    *number = (uint32_t)(value * unit);
    return true;
}

static option *find(const char *word, option *options, size_t count) {
    for (size_t i = 0; i < count; i++) {
        if (strcmp(word, options[i].name) == 0) {
            return &options[i];
        }
    }
    complain("%s: there is no such option here; --help shows them", word);
    return NULL;
}

static bool set(option *to, const char *word) {
    to->given = true;
    to->text = word;
    return to->kind == TEXT || number_read(to->name, word, to->kind, &to->number);
}

bool options_take(char **words, option *options, size_t count) {
    char **kept = words;
    for (; *words != NULL; words++) {
        if (strncmp(*words, "-", 1) != 0) {
            *kept++ = *words;
            continue;
        }
        option *found = find(*words, options, count);
        if (found == NULL) {
            return false;
        }
        if (found->given) {
            complain("%s: given twice", found->name);
            return false;
        }
        if (found->kind == FLAG) {
            found->given = true;
        } else if (words[1] == NULL) {
            complain("%s: a value is expected after it", found->name);
            return false;
        } else if (!set(found, *++words)) {
            return false;
        }
    }
    *kept = NULL;
    return true;
}

bool words_are(char **words, size_t count, const char *names) {
    size_t there = 0;
    while (words[there] != NULL) {
        there++;
    }
    if (there < count) {
        complain("%s is expected; --help shows how", names);
        return false;
    }
    if (there > count) {
        complain("'%s' is too much: %s is expected; --help shows how", words[count], names);
        return false;
    }
    return true;
}
