/* Himzolven: the OI-RAID layout (RAID5 across groups of disks and RAID5 inside each group), proved.
 *
 * Link with libhimzolven.a:
 *     cc prog.c $(pkg-config --cflags --libs himzolven)          after scripts/install
 *     cc -Iinclude prog.c target/lib/libhimzolven.a              after scripts/library
 *
 * The Rattle source of every function here is proved to answer as docs/REVIEW.md states it, for every input. The compiler's back
 * end, this header and the archive are tested, not proved.
 *
 * A design is a list of 16-bit group numbers, row after row, of b*k numbers. v groups, k groups in a row (a "tuple"), g disks in
 * a group, u bytes in a unit. Disk d is in group d/g, column d%g. Unit = part*g + row.
 *
 * The rules below hold for every call. Beside each prototype stands what is its own: what it takes, its refusals in order, what
 * it changes if accepted, how its lists are lent, how they are aligned and how much stack it needs.
 *
 * Answers. Each function returns a struct by value, so no result has a length that could be wrong. `refusal` is 0 where the call
 * is accepted and else one of the numbers below, with its `place`; every other field of a refused answer is 0. A refused call
 * changes no lent byte. Refusals are tested in the order of their numbers, those that apply to the call.
 *
 * Numbers. Any number is allowed for every parameter: it is tested before it is used. Pass no wider type than the parameter's: C
 * would cut it silently (-Wconversion finds that).
 *
 * Lists. Each list is a pointer and its length in elements. NULL with length 0 is the empty list: nothing of it is read or
 * written. Elsewhere the list must be readable, and writable where the parameter is not const, and the length its true length: no
 * function can check that. No byte outside the lists is read or written, and no list is kept after the call returns.
 *
 * Array and marks. `array` holds all disks, disk 0 whole, then disk 1: `bytes` of himzolven_sizes, at most 1,073,741,824. `marks`
 * has one byte a disk, 0 present and 1 lost.
 *
 * Aliasing. A list that is not const is lent to the call alone: it shares no byte with another list of the same call, and no
 * other thread may read or write it during the call. Lists that are const are not written; they may overlap, and any number of
 * calls may share them at a time.
 *
 * Alignment. `design` is aligned for uint16_t and `list` for uint32_t. Lists of bytes may start anywhere.
 *
 * Re-entrancy. No function has state of its own: each may be called from any thread, several at a time, and from a signal
 * handler, as long as the lists obey the rules above. No function allocates, blocks, prints or fails to return.
 *
 * Stack. The bytes beside each call are a bound for every input, return address included, from the frames of the machine code
 * (scripts/stack-check). What memset and memcpy take of the C library comes on top, and where the dynamic linker binds them
 * lazily, what it takes at their first call.
 *
 * Devices. When a call returns, its stores are made as the calling thread sees them; their order is not promised. If `array` is
 * memory that a device reads (shared, mapped or persistent), ordering and flushing towards the device are the caller's duty.
 *
 * Calls that are cut off (a crash, a signal that never comes back). A write that did not return may leave up to three sets of its
 * four units bad, and writing again does not help: the difference is taken to what the data unit holds now. Mark the disks of the
 * three parity units (outer_disk, inner_disk and both_disk of himzolven_map) and call himzolven_rebuild: with these three marked
 * and no other disk it is accepted. If all other sets were good, all sets are good then; the data unit holds, of each byte of the
 * range, the old or the new one, and may be written again. After a rebuild that did not return, mark the same disks again and
 * call it again: what they hold does not count. After a format, format again.
 *
 * Cost. Each call checks the design anew: docs/SPEED.md has the instructions for each v and k.
 *
 * Linking. The archive calls memset and memcpy; nothing else from outside. It has no data with addresses, so nothing of it is
 * relocated where a program is loaded.
 */
#ifndef HIMZOLVEN_H
#define HIMZOLVEN_H

#include <stddef.h>
#include <stdint.h>

/* The version of this interface. 0.9: every call of the first request is here and proved. 1.0 comes with writes that carry on
 * while a disk is out; from then on a change that could break a caller raises the first number. */
#define HIMZOLVEN_VERSION_MAJOR 0
#define HIMZOLVEN_VERSION_MINOR 9
#define HIMZOLVEN_VERSION_PATCH 0
#define HIMZOLVEN_VERSION HIMZOLVEN_DOTTED_(HIMZOLVEN_VERSION_MAJOR, HIMZOLVEN_VERSION_MINOR, HIMZOLVEN_VERSION_PATCH)
#define HIMZOLVEN_DOTTED_(major, minor, patch) HIMZOLVEN_QUOTED_(major) "." HIMZOLVEN_QUOTED_(minor) "." HIMZOLVEN_QUOTED_(patch)
#define HIMZOLVEN_QUOTED_(number) #number

#ifdef __cplusplus
extern "C" {
#endif

/* The refusals that the functions below can give. Place 0 where none is named. */
enum himzolven_refusal {
    HIMZOLVEN_ACCEPTED = 0,
    HIMZOLVEN_NOT_HELD = 1,       /* no set held for v */
    HIMZOLVEN_BEYOND_LIMITS = 2,  /* v not in 2..91, k not in 2..10, or k above v */
    HIMZOLVEN_NOT_WHOLE = 3,      /* r or b not whole, or the list's length is not b*k */
    HIMZOLVEN_BAD_ROW = 4,        /* a group number of v or more, or a row not ascending; place: first such row */
    HIMZOLVEN_BAD_PAIR = 5,       /* a pair a<b not in exactly one row; place: a*v+b, lowest a then b */
    HIMZOLVEN_BAD_SIZE = 6,       /* g not a prime from 2 to 13 or below k, or u not in 1..4096 */
    HIMZOLVEN_BAD_LENGTH = 7,     /* array or marks of another length, or the array above 1,073,741,824 bytes */
    HIMZOLVEN_BAD_MARK = 8,       /* a mark above 1; place: lowest disk */
    HIMZOLVEN_DISK_TOO_HIGH = 9,  /* disk or unit number too high */
    HIMZOLVEN_USER_TOO_HIGH = 10, /* user unit number too high */
    HIMZOLVEN_BAD_RANGE = 11,     /* range leaves the unit: its offset plus its length is above u */
    HIMZOLVEN_LOST = 12,          /* read: data disk marked; write: any of its four disks marked; place: first marked disk of
                                   * data, outer parity, inner parity of data, inner parity of outer parity */
    HIMZOLVEN_INCOMPLETE = 13,    /* rebuild leaves a tuple incomplete; place: the lowest such tuple */
    HIMZOLVEN_SHORT_LIST = 14     /* plan list shorter than 3*r*(g-1)*k */
};

/* The roles of a unit. */
enum himzolven_kind {
    HIMZOLVEN_USER = 0,  /* user unit a */
    HIMZOLVEN_OUTER = 1, /* outer parity of label (b, c) of tuple a */
    HIMZOLVEN_INNER = 2  /* inner parity of diagonal c of the region at position b of tuple a */
};

typedef struct {
    uint32_t refusal;
    uint32_t place;
} himzolven_answer;

/* parts: of a disk (r); tuples: b; disks: v*g; units: of one disk (r*g); bytes: of the whole array. */
typedef struct {
    uint32_t refusal;
    uint32_t place;
    uint32_t parts;
    uint32_t tuples;
    uint32_t disks;
    uint32_t units;
    uint32_t user_units;
    uint32_t sets;
    uint64_t bytes;
} himzolven_sizes_answer;

/* data: the user unit; outer: its outer parity; inner: the inner parity of the data; both: that of the outer parity. */
typedef struct {
    uint32_t refusal;
    uint32_t place;
    uint32_t data_disk;
    uint32_t data_unit;
    uint32_t outer_disk;
    uint32_t outer_unit;
    uint32_t inner_disk;
    uint32_t inner_unit;
    uint32_t both_disk;
    uint32_t both_unit;
} himzolven_map_answer;

/* kind: enum himzolven_kind, with the numbers named there; those not named are 0. */
typedef struct {
    uint32_t refusal;
    uint32_t place;
    uint32_t kind;
    uint32_t a;
    uint32_t b;
    uint32_t c;
} himzolven_role_answer;

/* bad: how many sets don't XOR to zero; lowest: the lowest such number, 0 if none. */
typedef struct {
    uint32_t refusal;
    uint32_t place;
    uint32_t bad;
    uint32_t lowest;
} himzolven_audit_answer;

/* count: of the triples that a plan has written, or of the units that a rebuild has restored. */
typedef struct {
    uint32_t refusal;
    uint32_t place;
    uint32_t count;
} himzolven_count_answer;

/* Fills the list with the design of a held v.
 *   takes     v; the list's length for each v, 7: 21, 13: 52, 21: 105, 31: 186, 57: 456, 73: 657, 91: 910
 *   refusals  1, 3
 *   changes   every number of `design`; what it held before does not count
 *   lent      `design` to this call alone
 *   aligned   `design` for uint16_t
 *   stack     192 bytes */
himzolven_answer himzolven_fill(uint32_t v, uint16_t *design, size_t design_length);

/* Checks that the list is a design of v groups in rows of k.
 *   takes     v and k, a list of any length
 *   refusals  2, 3, 4, 5
 *   changes   nothing
 *   lent      `design` to be read
 *   aligned   `design` for uint16_t
 *   stack     8,448 bytes */
himzolven_answer himzolven_check(uint32_t v, uint32_t k, const uint16_t *design, size_t design_length);

/* The sizes that follow from a design and a geometry, `bytes` above the limit too: refusal 7 is for the calls that take an array.
 *   takes     a geometry (v, k, g, u) and a design
 *   refusals  2, 3, 4, 5, 6
 *   changes   nothing
 *   lent      `design` to be read
 *   aligned   `design` for uint16_t
 *   stack     8,448 bytes */
himzolven_sizes_answer himzolven_sizes(
    uint32_t v, uint32_t k, uint32_t g, uint32_t u, const uint16_t *design, size_t design_length);

/* The four places of a user unit, on four disks. It takes no array: u is tested, and the array's size is not.
 *   takes     a geometry, a design and a user unit below `user_units` of himzolven_sizes
 *   refusals  2, 3, 4, 5, 6, 10
 *   changes   nothing
 *   lent      `design` to be read
 *   aligned   `design` for uint16_t
 *   stack     8,576 bytes */
himzolven_map_answer himzolven_map(
    uint32_t v, uint32_t k, uint32_t g, uint32_t u, const uint16_t *design, size_t design_length, uint32_t user_unit);

/* The role of a disk's unit: the way back of himzolven_map. It takes no array: u is tested, and the array's size is not.
 *   takes     a geometry, a design, a disk below `disks` and a unit below `units` of himzolven_sizes
 *   refusals  2, 3, 4, 5, 6, 9
 *   changes   nothing
 *   lent      `design` to be read
 *   aligned   `design` for uint16_t
 *   stack     8,512 bytes */
himzolven_role_answer himzolven_role(
    uint32_t v, uint32_t k, uint32_t g, uint32_t u, const uint16_t *design, size_t design_length, uint32_t disk, uint32_t unit);

/* Formats: all array bytes and all marks become 0. The marks are tested before, as by every call that is lent them: clear them
 * for memory that is new.
 *   takes     a geometry, a design, an array of any bytes and its marks
 *   refusals  2, 3, 4, 5, 6, 7, 8
 *   changes   every byte of `array` and of `marks`
 *   lent      `array` and `marks` to this call alone, `design` to be read
 *   aligned   `design` for uint16_t, the bytes anywhere
 *   stack     8,576 bytes */
himzolven_answer himzolven_format(
    uint32_t v, uint32_t k, uint32_t g, uint32_t u, const uint16_t *design, size_t design_length, uint8_t *array,
    size_t array_length, uint8_t *marks, size_t marks_length);

/* Reads bytes_length bytes from `offset` of a user unit.
 *   takes     a geometry, a design, an array and its marks, a user unit below `user_units`, any offset and bytes_length, 0 too,
 *             whose sum is at most u
 *   refusals  2, 3, 4, 5, 6, 7, 8, 10, 11, 12
 *   changes   every byte of `bytes`
 *   lent      `bytes` to this call alone; `design`, `array` and `marks` to be read
 *   aligned   `design` for uint16_t, the bytes anywhere
 *   stack     8,640 bytes */
himzolven_answer himzolven_read(
    uint32_t v, uint32_t k, uint32_t g, uint32_t u, const uint16_t *design, size_t design_length, const uint8_t *array,
    size_t array_length, const uint8_t *marks, size_t marks_length, uint32_t user_unit, uint64_t offset, uint8_t *bytes,
    size_t bytes_length);

/* Writes bytes_length bytes from `offset` of a user unit. The difference to what was there is XORed into the data unit, its outer
 * parity, the inner parity of the data unit and the inner parity of the outer parity unit.
 *   takes     a geometry, a design, an array and its marks, a user unit below `user_units`, any offset and bytes_length, 0 too,
 *             whose sum is at most u
 *   refusals  2, 3, 4, 5, 6, 7, 8, 10, 11, 12
 *   changes   of `array` the range of four units, on four disks, that himzolven_map names; every other byte of it stays
 *   lent      `array` to this call alone, so `bytes` is no part of it; `design`, `marks` and `bytes` to be read
 *   aligned   `design` for uint16_t, the bytes anywhere
 *   stack     8,640 bytes */
himzolven_answer himzolven_write(
    uint32_t v, uint32_t k, uint32_t g, uint32_t u, const uint16_t *design, size_t design_length, uint8_t *array,
    size_t array_length, const uint8_t *marks, size_t marks_length, uint32_t user_unit, uint64_t offset, const uint8_t *bytes,
    size_t bytes_length);

/* Audits every set, outer and inner. It is lent no marks and reads lost disks too. Set t*((g-1)*g + k*g) plus i*g+c is the outer
 * set of label (i, c) of tuple t, plus (g-1)*g + l*g + j the inner set of diagonal j at position l.
 *   takes     a geometry, a design and an array of any bytes
 *   refusals  2, 3, 4, 5, 6, 7
 *   changes   nothing
 *   lent      `design` and `array` to be read
 *   aligned   `design` for uint16_t, the bytes anywhere
 *   stack     9,024 bytes */
himzolven_audit_answer himzolven_audit(
    uint32_t v, uint32_t k, uint32_t g, uint32_t u, const uint16_t *design, size_t design_length, const uint8_t *array,
    size_t array_length);

/* Rebuilds: the units of the disks whose mark is 1 get their bytes back from the present ones, and all marks become 0. Tuple by
 * tuple, upwards, passes go over the missing units by position, row and column; one whose outer set lacks only it becomes the XOR
 * of the rest, otherwise one whose inner set lacks only it, until a pass restores nothing. Any three lost disks come back, and
 * many larger losses: whether all do is known from the marks before a byte moves. `count`: the units restored, those of the lost
 * disks. On an array whose sets XOR to zero (himzolven_audit) each unit is what it was.
 *   takes     a geometry, a design, an array and its marks; what the lost disks hold does not count
 *   refusals  2, 3, 4, 5, 6, 7, 8, 13
 *   changes   of `array` the disks whose mark is 1, every byte of `marks`; no byte of a present disk
 *   lent      `array` and `marks` to this call alone, `design` to be read
 *   aligned   `design` for uint16_t, the bytes anywhere
 *   stack     15,360 bytes */
himzolven_count_answer himzolven_rebuild(
    uint32_t v, uint32_t k, uint32_t g, uint32_t u, const uint16_t *design, size_t design_length, uint8_t *array,
    size_t array_length, uint8_t *marks, size_t marks_length);

/* The plan for one disk: which units of other disks are read to restore each of its units. The list gets `count` = r*(g-1)*k
 * triples of three numbers: unit restored, source disk, source unit. They go by the unit restored, upwards; then, for a unit of
 * row g-1 (unit % g), which is the XOR of the rest of its inner set, by the row of the source, and for any other, which is the
 * XOR of the rest of its outer set, by the position of the source's region in the tuple. The restored unit is not among its
 * sources. It takes no array: u is tested, and the array's size is not.
 *   takes     a geometry, a design, a disk below `disks` of himzolven_sizes, and a list of 3*r*(g-1)*k numbers or more; that
 *             length for each held v and each g, 7: 54 (g = 3), 108 (5), 162 (7), 270 (11), 324 (13); 13: 192 (5), 288 (7), 480
 *             (11), 576 (13); 21: 300 (5), 450 (7), 750 (11), 900 (13); 31: 648 (7), 1080 (11), 1296 (13); 57: 1920 (11), 2304
 *             (13); 73: 2430 (11), 2916 (13); 91: 3000 (11), 3600 (13)
 *   refusals  2, 3, 4, 5, 6, 9, 14
 *   changes   the first 3*count numbers of `list`; its rest stays
 *   lent      `list` to this call alone, `design` to be read
 *   aligned   `design` for uint16_t, `list` for uint32_t
 *   stack     8,640 bytes */
himzolven_count_answer himzolven_plan(
    uint32_t v, uint32_t k, uint32_t g, uint32_t u, const uint16_t *design, size_t design_length, uint32_t disk, uint32_t *list,
    size_t list_length);

#ifdef __cplusplus
}
#endif

#endif
