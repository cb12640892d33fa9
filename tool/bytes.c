#include "bytes.h"

static void put(uint8_t *at, uint64_t number, size_t width) {
    for (size_t i = 0; i < width; i++) {
        at[i] = (uint8_t)(number >> 8 * i);
    }
}

static uint64_t get(const uint8_t *at, size_t width) {
    uint64_t number = 0;
    for (size_t i = 0; i < width; i++) {
        number |= (uint64_t)at[i] << 8 * i;
    }
    return number;
}

void put16(uint8_t *at, uint16_t number) {
    put(at, number, 2);
}

void put32(uint8_t *at, uint32_t number) {
    put(at, number, 4);
}

void put64(uint8_t *at, uint64_t number) {
    put(at, number, 8);
}

uint16_t get16(const uint8_t *at) {
    return (uint16_t)get(at, 2);
}

uint32_t get32(const uint8_t *at) {
    return (uint32_t)get(at, 4);
}

uint64_t get64(const uint8_t *at) {
    return get(at, 8);
}

/* The remainder of one byte, by its eight bits. */
static uint32_t remainder_of(uint32_t byte) {
    for (int bit = 0; bit < 8; bit++) {
        byte = (byte & 1) != 0 ? byte >> 1 ^ 0xEDB88320U : byte >> 1;
    }
    return byte;
}

uint32_t crc32_of(const uint8_t *bytes, size_t length) {
    static uint32_t table[256];
    if (table[1] == 0) {
        for (uint32_t byte = 0; byte < 256; byte++) {
            table[byte] = remainder_of(byte);
        }
    }
    uint32_t crc = 0xFFFFFFFFU;
    for (size_t i = 0; i < length; i++) {
        crc = table[(crc ^ bytes[i]) & 0xFF] ^ crc >> 8;
    }
    return crc ^ 0xFFFFFFFFU;
}
