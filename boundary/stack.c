/* How many bytes of stack each call takes, return address included: the most of many geometries, accepted and refused.
 * Each call runs on a painted stack; the linker puts a jump before it (--wrap) that notes the stack pointer. x86-64.
 * usage: stack   prints a line `call bytes calls-made` for each */
#define _GNU_SOURCE
#include <inttypes.h>
#include <stdio.h>
#include <string.h>
#include <ucontext.h>

#include "cases.h"

#define NOTED(call) \
    ".globl __wrap_himzolven_" call "\n__wrap_himzolven_" call ":\n\tmov %rsp, noted(%rip)\n\tjmp __real_himzolven_" call "\n"
__asm__(".text\n" NOTED("fill") NOTED("check") NOTED("sizes") NOTED("map") NOTED("role") NOTED("format") NOTED("read")
        NOTED("write") NOTED("audit") NOTED("rebuild") NOTED("plan"));

enum { ROOM = 65536 };

static unsigned char room[ROOM];
static const unsigned char *noted __attribute__((used)); /* at the return address */
static enum call asked;
static struct lent given;
static union told told;

static void on_stack(void) {
    told = ask(asked, &given);
}

/* What is no longer painted was touched. */
static size_t touched(unsigned char paint) {
    static ucontext_t home, away;
    memset(room, paint, sizeof room);
    getcontext(&away);
    away.uc_stack.ss_sp = room;
    away.uc_stack.ss_size = sizeof room;
    away.uc_link = &home;
    makecontext(&away, on_stack, 0);
    swapcontext(&home, &away);
    const unsigned char *lowest = room;
    while (lowest < noted && *lowest == paint) lowest++;
    return (size_t)(noted + sizeof(void *) - lowest);
}

/* The call, with two paints in turn: a byte that is stored may look like one. */
static size_t most_of(enum call call, const struct lent *before) {
    size_t most = 0;
    for (int paint = 0x5A; paint <= 0xA5; paint += 0xA5 - 0x5A) {
        asked = call, given = copied(before);
        size_t bytes = touched((unsigned char)paint);
        release(&given);
        if (bytes > most) most = bytes;
    }
    return most;
}

/* The call as it is, and spoiled for each of its refusals. */
static size_t most_at(enum call call, struct geometry at, size_t *calls) {
    size_t most = 0;
    for (uint32_t number = 0; number < REFUSALS; number++) {
        struct lent before = valid(call, at), spoiled = copied(&before);
        bool made = number == 0 ? fits(call, at) : (shapes[call].refusals >> number & 1) != 0 && spoil(call, number, &spoiled);
        size_t bytes = made ? most_of(call, &spoiled) : 0;
        if (bytes > most) most = bytes;
        *calls += made;
        release(&spoiled), release(&before);
    }
    return most;
}

int main(void) {
    for (enum call call = 0; call < CALLS; call++) {
        size_t most = 0, calls = 0;
        for (size_t at = 0; at < GEOMETRIES; at++) {
            size_t bytes = most_at(call, geometries[at], &calls);
            if (bytes > most) most = bytes;
        }
        printf("himzolven_%s %zu %zu\n", shapes[call].name, most, calls);
    }
    return 0;
}
