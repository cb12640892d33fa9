/* himzolven: keeps a disk array with the OI-RAID layout in one file. */
#include <errno.h>
#include <fcntl.h>
#include <stdio.h>
#include <string.h>
#include <unistd.h>

#include "commands.h"
#include "exits.h"
#include "help.h"
#include "image.h"
#include "work.h"

#ifndef HIMZOLVEN_VERSION
#define HIMZOLVEN_VERSION "without a version in its header"
#endif

static const struct {
    const char *name, *help;
    int (*run)(char **words);
} commands[] = {
    {"create", help_create, run_create},       {"status", help_status, run_status},    {"write", help_write, run_write},
    {"read", help_read, run_read},             {"fail", help_fail, run_fail},          {"plan", help_plan, run_plan},
    {"rebuild", help_rebuild, run_rebuild},    {"recover", help_recover, run_recover}, {"audit", help_audit, run_audit},
    {"refusals", help_refusals, run_refusals},
};

static bool has_help(char **words) {
    for (; *words != NULL; words++) {
        if (strcmp(*words, "--help") == 0) {
            return true;
        }
    }
    return false;
}

static int dispatch(const char *name, char **words) {
    for (size_t i = 0; i < sizeof commands / sizeof commands[0]; i++) {
        if (strcmp(name, commands[i].name) == 0) {
            if (has_help(words)) {
                fputs(commands[i].help, stdout);
                return EXIT_DONE;
            }
            return commands[i].run(words);
        }
    }
    complain("there is no command '%s'; himzolven --help lists them", name);
    return EXIT_USAGE;
}

static int run(int count, char **words) {
    if (count < 2) {
        fputs(help_all, stderr);
        return EXIT_USAGE;
    }
    if (strcmp(words[1], "--help") == 0) {
        fputs(help_all, stdout);
        return EXIT_DONE;
    }
    if (strcmp(words[1], "--version") == 0) {
        printf("himzolven: library %s, image version %d\n", HIMZOLVEN_VERSION, IMAGE_VERSION);
        return EXIT_DONE;
    }
    return dispatch(words[1], words + 2);
}

/* A stream that is closed would lend its number to the image, and words for it would be stored there. It gets a file instead
 * that can't be used, so that its use still fails. */
static bool streams_taken(void) {
    for (int stream = STDIN_FILENO; stream <= STDERR_FILENO; stream++) {
        bool closed = fcntl(stream, F_GETFD) < 0 && errno == EBADF;
        if (closed && open("/dev/null", stream == STDIN_FILENO ? O_WRONLY : O_RDONLY) != stream) {
            return false;
        }
    }
    return true;
}

int main(int count, char **words) {
    if (!streams_taken()) {
        return EXIT_IMAGE;
    }
    work_signals();
    int code = run(count, words);
    if (fflush(stdout) != 0 || ferror(stdout)) {
        complain("standard output can't be written");
        return code == EXIT_DONE ? EXIT_IMAGE : code;
    }
    return code;
}
