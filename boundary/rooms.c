#define _GNU_SOURCE
#include "rooms.h"

#include <signal.h>
#include <stdarg.h>
#include <stdio.h>
#include <string.h>
#include <sys/mman.h>
#include <unistd.h>

enum { PAINT = 0xC7 };

/* `pages` lie between the guards; the list in them. */
struct room {
    uint8_t *pages;
    size_t size;
    uint8_t *at;
    size_t bytes;
};

static struct room rooms[LISTS];
static size_t page;
struct doing doing;

void fail(const char *format, ...) {
    va_list words;
    const struct lent *l = &doing.lent;
    fprintf(stderr, "boundary: %s: %s (v %u, k %u, g %u, u %u", doing.test, doing.call, l->v, l->k, l->g, l->u);
    if (doing.refusal != 0) fprintf(stderr, ", refusal %u due", doing.refusal);
    fprintf(stderr, "): ");
    va_start(words, format);
    vfprintf(stderr, format, words);
    va_end(words);
    fprintf(stderr, "\n");
    fflush(stdout);
    _exit(1);
}

static void struck(int number, siginfo_t *info, void *context) {
    (void)context;
    const uint8_t *touched = info->si_addr;
    for (enum list i = 0; i < LISTS; i++) {
        const struct room *r = &rooms[i];
        if (r->pages == NULL || touched < r->pages - page || touched >= r->pages + r->size + page) continue;
        if (touched >= r->at && touched < r->at + r->bytes) fail("writes to `%s`, which has to stay", list_names[i]);
        fail("touches byte %td of `%s`, which has %zu", touched - r->at, list_names[i], r->bytes);
    }
    fail("signal %d, touches %p, which is not lent", number, info->si_addr);
}

void watch_rooms(void) {
    struct sigaction action = {.sa_sigaction = struck, .sa_flags = SA_SIGINFO};
    page = (size_t)sysconf(_SC_PAGESIZE);
    if (sigaction(SIGSEGV, &action, NULL) != 0 || sigaction(SIGBUS, &action, NULL) != 0) fail("no handler for signals");
}

void *open_room(enum list list, const void *from, size_t bytes, bool upper, size_t shift) {
    size_t size = (bytes + shift + page - 1) / page * page;
    uint8_t *guarded = mmap(NULL, size + 2 * page, PROT_NONE, MAP_PRIVATE | MAP_ANONYMOUS, -1, 0);
    if (guarded == MAP_FAILED) fail("no memory");
    struct room r = {guarded + page, size, NULL, bytes};
    r.at = upper ? r.pages + size - bytes : r.pages + shift;
    if (size > 0) {
        if (mprotect(r.pages, size, PROT_READ | PROT_WRITE) != 0) fail("no memory");
        memset(r.pages, PAINT, size);
        memcpy(r.at, from, bytes);
    }
    rooms[list] = r;
    return r.at;
}

void only_read(enum list list) {
    if (rooms[list].size > 0 && mprotect(rooms[list].pages, rooms[list].size, PROT_READ) != 0) fail("no memory");
}

void close_room(enum list list) {
    const struct room r = rooms[list];
    for (const uint8_t *p = r.pages; p < r.pages + r.size; p++) {
        if (p == r.at) p += r.bytes;
        if (p < r.pages + r.size && *p != PAINT)
            fail("byte %td beside `%s` of %zu is changed", p - r.at, list_names[list], r.bytes);
    }
    munmap(r.pages - page, r.size + 2 * page);
    rooms[list].pages = NULL;
}
