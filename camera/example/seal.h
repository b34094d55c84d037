/*
 * A CRC-32 for a region file, in the maker's own bytes: the file begins with four bytes, little-endian, which hold the CRC-32 of all
 * that follows. The calls skip them. After a hold the file is sealed anew.
 */
#ifndef SEAL_H
#define SEAL_H

#include <stdint.h>

static inline uint32_t crc_32(const uint8_t *at, uint64_t len)
{
    uint32_t crc = 0xFFFFFFFF;
    while (len-- > 0) {
        crc ^= *at++;
        for (int bit = 0; bit < 8; bit++)
            crc = crc >> 1 ^ (crc & 1 ? 0xEDB88320 : 0);
    }
    return ~crc;
}

static inline void seal(uint8_t *file, uint64_t len)
{
    uint32_t crc = crc_32(file + 4, len - 4);
    for (int i = 0; i < 4; i++)
        file[i] = (uint8_t)(crc >> 8 * i);
}

static inline int is_sealed(const uint8_t *file, uint64_t len)
{
    return len >= 4 && crc_32(file + 4, len - 4) == (file[0] | (uint32_t)file[1] << 8 | (uint32_t)file[2] << 16 | (uint32_t)file[3] << 24);
}

#endif
