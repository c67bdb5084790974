/* CRC-32 (by bits and by table), Adler-32, Fletcher-16, FNV-1a and SHA-1 over the same bytes. */
#include "program.h"

enum { LENGTH = 6000 };

static uint32_t crc_table[256];

static uint32_t crc_of_byte(uint32_t crc)
{
    for (uint32_t bit = 0; bit < 8; bit++)
        crc = (crc & 1) != 0 ? crc >> 1 ^ 0xEDB88320 : crc >> 1;
    return crc;
}

static uint32_t crc_by_bits(const uint8_t *bytes, uint32_t length)
{
    uint32_t crc = 0xFFFFFFFF;
    for (uint32_t i = 0; i < length; i++)
        crc = crc_of_byte(crc ^ bytes[i]);
    return ~crc;
}

static uint32_t crc_by_table(const uint8_t *bytes, uint32_t length)
{
    uint32_t crc = 0xFFFFFFFF;
    for (uint32_t i = 0; i < length; i++)
        crc = crc >> 8 ^ crc_table[(crc ^ bytes[i]) & 0xFF];
    return ~crc;
}

static uint32_t adler_32(const uint8_t *bytes, uint32_t length)
{
    uint32_t a = 1;
    uint32_t b = 0;
    for (uint32_t i = 0; i < length; i++) {
        a = (a + bytes[i]) % 65521;
        b = (b + a) % 65521;
    }
    return b << 16 | a;
}

static uint32_t fletcher_16(const uint8_t *bytes, uint32_t length)
{
    uint32_t a = 0;
    uint32_t b = 0;
    for (uint32_t i = 0; i < length; i++) {
        a = (a + bytes[i]) % 255;
        b = (b + a) % 255;
    }
    return b << 8 | a;
}

static uint32_t fnv_1a(const uint8_t *bytes, uint32_t length)
{
    uint32_t hash = 2166136261u;
    for (uint32_t i = 0; i < length; i++)
        hash = (hash ^ bytes[i]) * 16777619u;
    return hash;
}

static uint32_t rotated(uint32_t word, uint32_t by)
{
    return word << by | word >> (32 - by);
}

static void sha_block(uint32_t state[5], const uint8_t *block)
{
    uint32_t w[80];
    uint32_t a = state[0], b = state[1], c = state[2], d = state[3], e = state[4];
    for (uint32_t i = 0; i < 16; i++)
        w[i] = (uint32_t)block[4 * i] << 24 | (uint32_t)block[4 * i + 1] << 16 | (uint32_t)block[4 * i + 2] << 8
               | block[4 * i + 3];
    for (uint32_t i = 16; i < 80; i++)
        w[i] = rotated(w[i - 3] ^ w[i - 8] ^ w[i - 14] ^ w[i - 16], 1);
    for (uint32_t i = 0; i < 80; i++) {
        uint32_t mixed = i < 20   ? ((b & c) | (~b & d)) + 0x5A827999
                         : i < 40 ? (b ^ c ^ d) + 0x6ED9EBA1
                         : i < 60 ? ((b & c) | (b & d) | (c & d)) + 0x8F1BBCDC
                                  : (b ^ c ^ d) + 0xCA62C1D6;
        uint32_t sum = rotated(a, 5) + mixed + e + w[i];
        e = d;
        d = c;
        c = rotated(b, 30);
        b = a;
        a = sum;
    }
    state[0] += a;
    state[1] += b;
    state[2] += c;
    state[3] += d;
    state[4] += e;
}

static void sha_1(const uint8_t *bytes, uint32_t length, uint32_t state[5])
{
    static const uint32_t start[5] = {0x67452301, 0xEFCDAB89, 0x98BADCFE, 0x10325476, 0xC3D2E1F0};
    uint8_t last[128];
    uint32_t whole = length & ~63u;
    uint32_t left = length - whole;
    uint32_t padded = left < 56 ? 64 : 128;
    for (uint32_t i = 0; i < 5; i++)
        state[i] = start[i];
    for (uint32_t i = 0; i < whole; i += 64)
        sha_block(state, bytes + i);
    for (uint32_t i = 0; i < padded; i++)
        last[i] = i < left ? bytes[whole + i] : i == left ? 0x80 : 0;
    for (uint32_t i = 0; i < 4; i++)
        last[padded - 1 - i] = (uint8_t)(length << 3 >> 8 * i);
    for (uint32_t i = 0; i < padded; i += 64)
        sha_block(state, last + i);
}

static uint32_t all_sums(const uint8_t *bytes, uint32_t length, uint32_t *results)
{
    results[0] = crc_by_bits(bytes, length);
    results[1] = crc_by_table(bytes, length);
    results[2] = adler_32(bytes, length);
    results[3] = fletcher_16(bytes, length);
    results[4] = fnv_1a(bytes, length);
    sha_1(bytes, length, results + 5);
    return 10;
}

uint32_t checksum_program(uint32_t *results)
{
    static const uint8_t digits[] = "123456789";
    static uint8_t bytes[LENGTH];
    uint32_t state = 0x9E3779B9;
    uint32_t count = 0;
    for (uint32_t i = 0; i < 256; i++)
        crc_table[i] = crc_of_byte(i);
    for (uint32_t i = 0; i < LENGTH; i++)
        bytes[i] = (uint8_t)(next_random(&state) >> 24);
    count += all_sums(digits, 9, results);
    for (uint32_t length = 0; length <= LENGTH; length = 3 * length + 1)
        count += all_sums(bytes, length, results + count);
    count += all_sums(bytes + 1, LENGTH - 1, results + count);
    return count;
}
