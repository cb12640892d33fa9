#include "image.h"

#include <errno.h>
#include <fcntl.h>
#include <stdlib.h>
#include <string.h>
#include <sys/file.h>
#include <sys/mman.h>
#include <sys/stat.h>
#include <unistd.h>

#include "bytes.h"
#include "exits.h"

static const uint8_t magic[8] = {'H', 'I', 'M', 'Z', 'O', 'L', 'V', 'N'};

/* Places in the header and in a copy of the state. */
enum { VERSION_AT = 8, V_AT = 12, K_AT = 16, G_AT = 20, U_AT = 24, DESIGN_LENGTH_AT = 28, HEADER_CRC_AT = HEADER_BYTES - 4 };
enum { SEQUENCE_AT = 0, CALL_AT = 8, USER_UNIT_AT = 12, OFFSET_AT = 16, LENGTH_AT = 20, STATE_CRC_AT = STATE_BYTES - 4 };

uint8_t *image_array(const image *opened) {
    return opened->map + ARRAY_AT;
}

size_t image_array_bytes(const image *opened) {
    return opened->map_bytes - ARRAY_AT;
}

uint64_t image_user_bytes(const image *opened) {
    return (uint64_t)opened->sizes.user_units * opened->geometry.u;
}

static int no_image(const image *opened, const char *why) {
    complain("%s: %s", opened->path, why);
    return EXIT_IMAGE;
}

/* The bytes from `at` on, to the disk. msync wants the start of a page. */
static int sync_part(const image *opened, size_t at, size_t length) {
    size_t page = (size_t)sysconf(_SC_PAGESIZE), start = at / page * page;
    if (opened->sync && msync(opened->map + start, at - start + length, MS_SYNC) != 0) {
        return no_image(opened, strerror(errno));
    }
    return EXIT_DONE;
}

static void encode_state(const state *from, uint8_t *bytes) {
    memset(bytes, 0, STATE_BYTES);
    put64(bytes + SEQUENCE_AT, from->sequence);
    put32(bytes + CALL_AT, from->under_way.call);
    put32(bytes + USER_UNIT_AT, from->under_way.user_unit);
    put32(bytes + OFFSET_AT, from->under_way.offset);
    put32(bytes + LENGTH_AT, from->under_way.length);
    memcpy(bytes + MARKS_AT, from->marks, MARKS_MAX);
    put32(bytes + STATE_CRC_AT, crc32_of(bytes, STATE_CRC_AT));
}

static bool decode_state(state *to, const uint8_t *bytes) {
    if (crc32_of(bytes, STATE_CRC_AT) != get32(bytes + STATE_CRC_AT)) {
        return false;
    }
    to->sequence = get64(bytes + SEQUENCE_AT);
    to->under_way.call = get32(bytes + CALL_AT);
    to->under_way.user_unit = get32(bytes + USER_UNIT_AT);
    to->under_way.offset = get32(bytes + OFFSET_AT);
    to->under_way.length = get32(bytes + LENGTH_AT);
    memcpy(to->marks, bytes + MARKS_AT, MARKS_MAX);
    return true;
}

/* The first copy is about to be stored over. If it alone holds the state, after a crash, the second gets it before. */
static int keep_second(const image *opened) {
    uint8_t *first = opened->map + HEADER_BYTES, *second = first + STATE_BYTES;
    state copy;
    bool same = memcmp(first, second, STATE_BYTES) == 0;
    if (same || !decode_state(&copy, first) || copy.sequence != opened->state.sequence) {
        return EXIT_DONE;
    }
    memcpy(second, first, STATE_BYTES);
    return sync_part(opened, HEADER_BYTES + STATE_BYTES, STATE_BYTES);
}

int image_commit(image *opened) {
    uint8_t *first = opened->map + HEADER_BYTES;
    int code = keep_second(opened);
    if (code != EXIT_DONE) {
        return code;
    }
    opened->state.sequence++;
    encode_state(&opened->state, first);
    code = sync_part(opened, HEADER_BYTES, STATE_BYTES);
    if (code == EXIT_DONE) {
        memcpy(first + STATE_BYTES, first, STATE_BYTES);
    }
    return code;
}

int image_flush(const image *opened) {
    return sync_part(opened, 0, opened->map_bytes);
}

int image_settle(const image *opened) {
    size_t second = HEADER_BYTES + STATE_BYTES;
    return sync_part(opened, second, opened->map_bytes - second);
}

int image_end(image *opened) {
    int code = image_settle(opened);
    if (code == EXIT_DONE) {
        opened->state.under_way = (record){CALL_NONE, 0, 0, 0};
        code = image_commit(opened);
    }
    return code != EXIT_DONE ? code : image_settle(opened);
}

void image_begin(const image *created) {
    const geometry *is = &created->geometry;
    uint8_t *header = created->map;
    memcpy(header, magic, sizeof magic);
    put32(header + VERSION_AT, IMAGE_VERSION);
    put32(header + V_AT, is->v);
    put32(header + K_AT, is->k);
    put32(header + G_AT, is->g);
    put32(header + U_AT, is->u);
    put32(header + DESIGN_LENGTH_AT, (uint32_t)is->design_length);
    for (size_t i = 0; i < is->design_length; i++) {
        put16(header + DESIGN_AT + 2 * i, is->design[i]);
    }
    put32(header + HEADER_CRC_AT, crc32_of(header, HEADER_CRC_AT));
}

/* Reads the state from the newest whole copy. A commit that is cut off spoils one copy at most. */
static int read_state(image *opened) {
    state copy;
    size_t whole = 0;
    for (size_t i = 0; i < STATE_COPIES; i++) {
        if (decode_state(&copy, opened->map + HEADER_BYTES + i * STATE_BYTES)) {
            opened->state = whole == 0 || copy.sequence > opened->state.sequence ? copy : opened->state;
            whole++;
        }
    }
    if (whole == 0) {
        return no_image(opened, "both copies of the state (marks and call under way) are damaged");
    }
    if (whole < STATE_COPIES) {
        complain("%s: one copy of the state is damaged; the other is whole and is taken", opened->path);
    }
    const record *is = &opened->state.under_way;
    if (is->call > CALL_REBUILD || is->user_unit >= opened->sizes.user_units) {
        return no_image(opened, "the record of the call under way names a call or a user unit that is not there");
    }
    return EXIT_DONE;
}

static int read_design(image *opened) {
    geometry *is = &opened->geometry;
    is->design_length = get32(opened->map + DESIGN_LENGTH_AT);
    if (is->design_length > DESIGN_MAX) {
        return no_image(opened, "the design in its header is too long");
    }
    is->design = calloc(DESIGN_MAX, sizeof *is->design);
    if (is->design == NULL) {
        return no_image(opened, strerror(errno));
    }
    for (size_t i = 0; i < is->design_length; i++) {
        is->design[i] = get16(opened->map + DESIGN_AT + 2 * i);
    }
    return EXIT_DONE;
}

static int read_geometry(image *opened) {
    geometry *is = &opened->geometry;
    const uint8_t *header = opened->map;
    is->v = get32(header + V_AT);
    is->k = get32(header + K_AT);
    is->g = get32(header + G_AT);
    is->u = get32(header + U_AT);
    int code = read_design(opened);
    if (code != EXIT_DONE) {
        return code;
    }
    opened->sizes = himzolven_sizes(is->v, is->k, is->g, is->u, is->design, is->design_length);
    if (opened->sizes.refusal != HIMZOLVEN_ACCEPTED) {
        return no_image(opened, "its header holds no design and sizes that the library accepts");
    }
    if (opened->sizes.bytes != image_array_bytes(opened)) {
        return no_image(opened, "its length is not that of its header, disks and state");
    }
    return EXIT_DONE;
}

static int read_header(image *opened) {
    if (memcmp(opened->map, magic, sizeof magic) != 0) {
        return no_image(opened, "not an image: it does not begin with HIMZOLVN");
    }
    uint32_t version = get32(opened->map + VERSION_AT);
    if (version != IMAGE_VERSION) {
        complain("%s: image version %u, and this tool knows version %d", opened->path, version, IMAGE_VERSION);
        return EXIT_IMAGE;
    }
    if (crc32_of(opened->map, HEADER_CRC_AT) != get32(opened->map + HEADER_CRC_AT)) {
        return no_image(opened, "its header is damaged: the CRC-32 is another");
    }
    int code = read_geometry(opened);
    return code != EXIT_DONE ? code : read_state(opened);
}

int image_lock(int file, const char *path, enum access access) {
    struct stat is;
    if (flock(file, (access == TO_STORE ? LOCK_EX : LOCK_SH) | LOCK_NB) != 0) {
        if (errno == EWOULDBLOCK) {
            complain("%s: in use by another process; try again when it has ended", path);
            return EXIT_IN_USE;
        }
        complain("%s: %s", path, strerror(errno));
        return EXIT_IMAGE;
    }
    if (fstat(file, &is) == 0 && is.st_nlink == 0) {
        complain("%s: was replaced at this moment; try again", path);
        return EXIT_IN_USE;
    }
    return EXIT_DONE;
}

int image_map(image *opened, enum access access) {
    int may = access == TO_STORE ? PROT_READ | PROT_WRITE : PROT_READ;
    void *map = mmap(NULL, opened->map_bytes, may, MAP_SHARED, opened->file, 0);
    if (map == MAP_FAILED) {
        return no_image(opened, strerror(errno));
    }
    opened->map = map;
    return EXIT_DONE;
}

/* A standard stream that is the image itself: what is read from it changes meanwhile, and what is told goes into it. */
static int apart_from_streams(const image *opened, const struct stat *is) {
    static const char *const why[] = {"it is the standard input too", "it is the standard output too", NULL};
    for (int stream = STDERR_FILENO; stream >= STDIN_FILENO; stream--) {
        struct stat other;
        if (fstat(stream, &other) == 0 && other.st_dev == is->st_dev && other.st_ino == is->st_ino) {
            return why[stream] ? no_image(opened, why[stream]) : EXIT_IMAGE;
        }
    }
    return EXIT_DONE;
}

/* The length of a file that may be an image. */
static int measure(image *opened) {
    struct stat is;
    if (fstat(opened->file, &is) != 0) {
        return no_image(opened, strerror(errno));
    }
    if (!S_ISREG(is.st_mode)) {
        return no_image(opened, "not an image: no regular file");
    }
    if (is.st_size < ARRAY_AT) {
        return no_image(opened, "not an image: too short");
    }
    opened->map_bytes = (size_t)is.st_size;
    return apart_from_streams(opened, &is);
}

int image_open(image *opened, const char *path, enum access access) {
    *opened = (image){.path = path, .sync = true};
    opened->file = open(path, (access == TO_STORE ? O_RDWR : O_RDONLY) | O_NONBLOCK | O_CLOEXEC);
    if (opened->file < 0) {
        return no_image(opened, strerror(errno));
    }
    int code = image_lock(opened->file, path, access);
    if (code == EXIT_DONE) {
        code = measure(opened);
    }
    if (code == EXIT_DONE) {
        code = image_map(opened, access);
    }
    if (code == EXIT_DONE) {
        code = read_header(opened);
    }
    if (code != EXIT_DONE) {
        image_close(opened);
    }
    return code;
}

void image_close(image *opened) {
    if (opened->map != NULL) {
        munmap(opened->map, opened->map_bytes);
    }
    if (opened->file >= 0) {
        close(opened->file);
    }
    free(opened->geometry.design);
    *opened = (image){.file = -1};
}
