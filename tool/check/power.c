/* Preloaded into the tool by a test: writes down what each msync brings to the disk. For every call the log gets three 64-bit
 * numbers, the start and the length of the part that is brought there and the length of the map, and then the map. */
#include <stdint.h>
#include <stdio.h>
#include <stdlib.h>
#include <sys/mman.h>
#include <sys/syscall.h>
#include <unistd.h>

static uint8_t *map;
static size_t map_bytes;

void *mmap(void *at, size_t length, int may, int flags, int file, off_t offset) {
    void *made = (void *)syscall(SYS_mmap, at, length, may, flags, file, offset);
    if (made != MAP_FAILED && (flags & MAP_SHARED) != 0) {
        map = made;
        map_bytes = length;
    }
    return made;
}

int msync(void *at, size_t length, int flags) {
    uint64_t numbers[3] = {(uint64_t)((uint8_t *)at - map), length, map_bytes};
    FILE *log = fopen(getenv("POWER_LOG"), "ab");
    (void)flags;
    if (log == NULL || fwrite(numbers, sizeof numbers, 1, log) != 1 || fwrite(map, map_bytes, 1, log) != 1) {
        abort();
    }
    return fclose(log);
}
