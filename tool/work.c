#include "work.h"

#include <signal.h>
#include <stdarg.h>
#include <stdatomic.h>
#include <stdio.h>
#include <string.h>
#include <sys/time.h>
#include <time.h>
#include <unistd.h>

#include "exits.h"

enum { NAME_BYTES = 160 };

static volatile sig_atomic_t stopped;
static volatile sig_atomic_t ticks;
static bool terminal;
static char name[NAME_BYTES];
static atomic_uint_fast64_t at, whole;
static struct timespec begun;

static void note_stop(int number) {
    (void)number;
    stopped = 1;
}

/* From a handler: nothing but write(2). What can't be told is not told. */
static void tell(const char *bytes, size_t length) {
    if (write(STDERR_FILENO, bytes, length) < 0) {
        return;
    }
}

static void disk_failed(int number) {
    static const char words[] = "himzolven: the file under the image can't be read or written any more; see `himzolven status`\n";
    (void)number;
    tell(words, sizeof words - 1);
    _exit(EXIT_IMAGE);
}

static char *append(char *to, const char *words) {
    size_t length = strlen(words);
    memcpy(to, words, length);
    return to + length;
}

static char *append_number(char *to, uint64_t number) {
    char digits[20];
    size_t count = 0;
    do {
        digits[count++] = (char)('0' + number % 10);
        number /= 10;
    } while (number != 0);
    while (count != 0) {
        *to++ = digits[--count];
    }
    return to;
}

/* Each second. The first line goes to any stderr, the others only to a terminal, over each other. */
static void tick(int number) {
    char line[NAME_BYTES + 80];
    (void)number;
    if (++ticks > 1 && !terminal) {
        return;
    }
    char *to = append(line, "himzolven: ");
    to = append(to, name);
    if (terminal) {
        to = append_number(append(to, ": "), (uint64_t)ticks);
        to = append(to, " s");
        if (whole != 0) {
            to = append(append_number(append(to, ", "), at * 100 / whole), "%");
        }
    }
    to = append(to, terminal ? "\r" : " ..\n");
    tell(line, (size_t)(to - line));
}

static void handle(int number, void (*handler)(int), int flags) {
    struct sigaction how = {.sa_handler = handler, .sa_flags = flags};
    sigemptyset(&how.sa_mask);
    sigaction(number, &how, NULL);
}

void work_signals(void) {
    terminal = isatty(STDERR_FILENO) == 1;
    handle(SIGINT, note_stop, 0);
    handle(SIGTERM, note_stop, 0);
    handle(SIGHUP, note_stop, 0);
    handle(SIGPIPE, SIG_IGN, 0);
    handle(SIGXFSZ, SIG_IGN, 0);
    handle(SIGBUS, disk_failed, 0);
    handle(SIGALRM, tick, SA_RESTART);
}

bool work_stopped(void) {
    return stopped != 0;
}

static void every(time_t seconds) {
    struct itimerval timer = {.it_interval.tv_sec = seconds, .it_value.tv_sec = seconds};
    setitimer(ITIMER_REAL, &timer, NULL);
}

void work_begin(uint64_t total, const char *format, ...) {
    va_list words;
    va_start(words, format);
    vsnprintf(name, sizeof name, format, words);
    va_end(words);
    at = 0;
    whole = total;
    ticks = 0;
    clock_gettime(CLOCK_MONOTONIC, &begun);
    every(1);
}

void work_at(uint64_t done) {
    at = done;
}

void work_end(void) {
    struct timespec now;
    every(0);
    if (ticks != 0) {
        clock_gettime(CLOCK_MONOTONIC, &now);
        double seconds = (double)(now.tv_sec - begun.tv_sec) + (double)(now.tv_nsec - begun.tv_nsec) / 1e9;
        fputs(terminal ? "\n" : "", stderr);
        complain("%s: took %.1f s", name, seconds);
    }
}
