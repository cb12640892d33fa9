/* Numbers as they stand in an image, little-endian on every machine, and the CRC-32 over them. */
#ifndef BYTES_H
#define BYTES_H

#include <stddef.h>
#include <stdint.h>

void put16(uint8_t *at, uint16_t number);
void put32(uint8_t *at, uint32_t number);
void put64(uint8_t *at, uint64_t number);
uint16_t get16(const uint8_t *at);
uint32_t get32(const uint8_t *at);
uint64_t get64(const uint8_t *at);

/* The CRC-32 of zip and Ethernet (reflected, polynomial 0xEDB88320). */
uint32_t crc32_of(const uint8_t *bytes, size_t length);

#endif
