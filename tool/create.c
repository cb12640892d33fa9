#include <errno.h>
#include <fcntl.h>
#include <inttypes.h>
#include <libgen.h>
#include <limits.h>
#include <stdio.h>
#include <stdlib.h>
#include <string.h>
#include <sys/stat.h>
#include <unistd.h>

#include "array.h"
#include "commands.h"
#include "design.h"
#include "exits.h"
#include "options.h"
#include "words.h"
#include "work.h"

static int failed(const char *path) {
    complain("%s: %s", path, strerror(errno));
    return EXIT_IMAGE;
}

static int exists(const char *path) {
    complain("%s: exists already, and stays as it is; --force replaces it", path);
    return EXIT_HELD_BACK;
}

/* The file that the new image takes the place of, locked, or -1 where there is none. */
static int hold_old(const char *path, bool force, int *old) {
    struct stat is;
    *old = -1;
    if (lstat(path, &is) != 0) {
        return errno == ENOENT ? EXIT_DONE : failed(path);
    }
    if (!force) {
        return exists(path);
    }
    if (!S_ISREG(is.st_mode)) {
        complain("%s: no regular file, and is not replaced", path);
        return EXIT_IMAGE;
    }
    *old = open(path, O_RDONLY | O_CLOEXEC);
    return *old < 0 ? failed(path) : image_lock(*old, path, TO_STORE);
}

static int interrupted(const char *path) {
    complain("%s: stopped by a signal; nothing is created", path);
    return EXIT_INTERRUPTED;
}

/* The library's answer first, by a read of no bytes; then room on the disk; only then the first store. */
static int reserve(const image *created) {
    himzolven_answer answer = try_read(created, 0, 0, 0);
    if (answer.refusal != HIMZOLVEN_ACCEPTED) {
        return tell_refusal(&created->geometry, &(question){0}, answer.refusal, answer.place);
    }
    errno = posix_fallocate(created->file, 0, (off_t)created->map_bytes);
    if (errno == EINTR && work_stopped()) {
        return interrupted(created->path);
    }
    return errno != 0 ? failed(created->path) : EXIT_DONE;
}

/* Formats the array, stores header and state, and brings all to the disk. */
static int fill(image *created) {
    work_begin(0, "formatting %" PRIu64 " bytes", created->sizes.bytes);
    himzolven_answer answer = array_format(created);
    if (answer.refusal != HIMZOLVEN_ACCEPTED) {
        work_end();
        return tell_refusal(&created->geometry, &(question){0}, answer.refusal, answer.place);
    }
    image_begin(created);
    int code = image_end(created);
    if (code == EXIT_DONE && fsync(created->file) != 0) {
        code = failed(created->path);
    }
    work_end();
    return code;
}

/* A file named `new` becomes the image: by a second name where nothing may be replaced, else by renaming. */
static int publish(const char *new, const char *path, bool force) {
    char directory[PATH_MAX];
    if (work_stopped()) {
        return interrupted(path);
    }
    if ((force ? rename(new, path) : link(new, path)) != 0) {
        return errno == EEXIST ? exists(path) : failed(path);
    }
    snprintf(directory, sizeof directory, "%s", path);
    int file = open(dirname(directory), O_RDONLY | O_DIRECTORY | O_CLOEXEC);
    int code = file < 0 || fsync(file) != 0 ? failed(path) : EXIT_DONE;
    if (file >= 0) {
        close(file);
    }
    return code;
}

static int create_at(const char *new, const char *path, bool force, image *created) {
    created->path = new;
    created->map_bytes = ARRAY_AT + (size_t)created->sizes.bytes;
    created->file = open(new, O_RDWR | O_CREAT | O_EXCL | O_CLOEXEC, 0666);
    if (created->file < 0) {
        return failed(new);
    }
    int code = ftruncate(created->file, (off_t)created->map_bytes) != 0 ? failed(new) : image_map(created, TO_STORE);
    if (code == EXIT_DONE) {
        code = reserve(created);
    }
    if (code == EXIT_DONE) {
        code = fill(created);
    }
    if (code == EXIT_DONE) {
        code = publish(new, path, force);
    }
    unlink(new);
    return code;
}

/* Makes the image under a name of its own beside the one asked for, which appears only when all is on the disk. */
static int create(const char *path, bool force, image *created) {
    char new[PATH_MAX];
    int old, code = hold_old(path, force, &old);
    if (code == EXIT_DONE) {
        int length = snprintf(new, sizeof new, "%s.new-%ld", path, (long)getpid());
        errno = ENAMETOOLONG;
        code = length >= PATH_MAX ? failed(path) : create_at(new, path, force, created);
    }
    if (old >= 0) {
        close(old);
    }
    return code;
}

enum { GROUPS, DISKS, UNIT, DESIGN, FORCE, OPTIONS };

static int create_asked(const char *path, const option *options, image *created) {
    geometry *of = &created->geometry;
    of->v = options[GROUPS].number;
    of->g = options[DISKS].number;
    of->u = options[UNIT].given ? options[UNIT].number : 4096;
    int code = design_make(of, options[DESIGN].text);
    if (code != EXIT_DONE) {
        return code;
    }
    created->sizes = ask_sizes(of);
    if (created->sizes.refusal != HIMZOLVEN_ACCEPTED) {
        return tell_refusal(of, &(question){0}, created->sizes.refusal, created->sizes.place);
    }
    code = create(path, options[FORCE].given, created);
    if (code == EXIT_DONE) {
        printf("%s: %" PRIu32 " disks of %" PRIu32 " units, ", path, created->sizes.disks, created->sizes.units);
        printf("%" PRIu64 " bytes for the user in %" PRIu32 " user units of %" PRIu32 "\n", image_user_bytes(created),
               created->sizes.user_units, of->u);
    }
    return code;
}

int run_create(char **words) {
    option options[OPTIONS] = {OPTION("--groups", NUMBER), OPTION("--disks-per-group", NUMBER), OPTION("--unit", BYTES),
                               OPTION("--design", TEXT), OPTION("--force", FLAG)};
    if (!options_take(words, options, OPTIONS) || !words_are(words, 1, "one IMAGE")) {
        return EXIT_USAGE;
    }
    if (!options[GROUPS].given || !options[DISKS].given) {
        complain("--groups and --disks-per-group are expected, like --groups 7 --disks-per-group 3");
        return EXIT_USAGE;
    }
    image created = {.file = -1, .sync = true};
    int code = create_asked(words[0], options, &created);
    image_close(&created);
    return code;
}
