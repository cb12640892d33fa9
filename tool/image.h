/* An image: a file that holds a design, a geometry, the marks, a record of the call under way, and the array (IMAGE.md). */
#ifndef IMAGE_H
#define IMAGE_H

#include <stdbool.h>
#include <stddef.h>
#include <stdint.h>

#include "himzolven.h"

enum {
    IMAGE_VERSION = 1,
    V_MAX = 91, /* the rules' limits: groups, groups in a row, disks in a group, bytes in a unit */
    K_MAX = 10,
    G_MAX = 13,
    U_MAX = 4096,
    DESIGN_AT = 4096,
    DESIGN_MAX = V_MAX * (V_MAX - 1), /* rows of two */
    HEADER_BYTES = DESIGN_AT + 2 * DESIGN_MAX + 4,
    STATE_BYTES = 4096,
    STATE_COPIES = 2,
    MARKS_AT = 64,
    MARKS_MAX = V_MAX * G_MAX,
    ARRAY_AT = HEADER_BYTES + STATE_COPIES * STATE_BYTES
};

/* What every call of the library is told first. */
typedef struct {
    uint32_t v, k, g, u;
    uint16_t *design;
    size_t design_length;
} geometry;

enum call { CALL_NONE = 0, CALL_WRITE = 1, CALL_REBUILD = 2 };

/* The call under way; the last three are those of a write. */
typedef struct {
    uint32_t call, user_unit, offset, length;
} record;

/* What changes: kept in the file in two copies. */
typedef struct {
    uint64_t sequence;
    record under_way;
    uint8_t marks[MARKS_MAX];
} state;

typedef struct {
    const char *path;
    int file;
    uint8_t *map;
    size_t map_bytes;
    geometry geometry;
    himzolven_sizes_answer sizes;
    state state;
    bool sync; /* wait for the disk at each step */
} image;

enum access { TO_READ, TO_STORE };

/* Opens, locks and maps the file and reads header and state. Returns an exit code; what is wrong is said on stderr. */
int image_open(image *opened, const char *path, enum access access);
void image_close(image *opened);

/* Takes the lock of an open file, or says who can't have it. */
int image_lock(int file, const char *path, enum access access);

/* Maps the file, whose length is that of the image. */
int image_map(image *opened, enum access access);

uint8_t *image_array(const image *opened);
size_t image_array_bytes(const image *opened);
uint64_t image_user_bytes(const image *opened);

/* Stores the header of a new image into its map. */
void image_begin(const image *created);

/* Stores the state, marks and record. Its first copy is on the disk when this returns; before the next commit, image_settle
 * brings the second one and the array there. So one copy is always whole. With `sync` off neither waits. */
int image_commit(image *opened);
int image_settle(const image *opened);

/* Brings all of the file to the disk. */
int image_flush(const image *opened);

/* The call under way has ended: settles what it stored, and then the record that there is none. */
int image_end(image *opened);

#endif
