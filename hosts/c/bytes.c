/* Numbers as bytes, least significant first, and the checksum of bytes. */
#include "bytes.h"

#include <string.h>

uint64_t fnv1a(uint64_t before, const unsigned char *bytes, size_t len) {
    for (size_t i = 0; i < len; i++)
        before = (before ^ bytes[i]) * UINT64_C(0x100000001b3);
    return before;
}

unsigned char *put_u32(unsigned char *at, uint32_t value) {
    for (int i = 0; i < 4; i++)
        *at++ = (unsigned char)(value >> 8 * i);
    return at;
}

unsigned char *put_u64(unsigned char *at, uint64_t value) {
    return put_u32(put_u32(at, (uint32_t)value), (uint32_t)(value >> 32));
}

const unsigned char *get_u32(const unsigned char *at, uint32_t *value) {
    *value = 0;
    for (int i = 0; i < 4; i++)
        *value |= (uint32_t)*at++ << 8 * i;
    return at;
}

const unsigned char *get_u64(const unsigned char *at, uint64_t *value) {
    uint32_t low, high;
    at = get_u32(get_u32(at, &low), &high);
    *value = (uint64_t)high << 32 | low;
    return at;
}

unsigned char *put_u32s(unsigned char *at, const uint32_t *values, size_t len) {
    for (size_t i = 0; i < len; i++)
        at = put_u32(at, values[i]);
    return at;
}

unsigned char *put_floats(unsigned char *at, const float *values, size_t len) {
    for (size_t i = 0; i < len; i++)
        at = put_u32(at, bits_of(values[i]));
    return at;
}

const unsigned char *get_u32s(const unsigned char *at, uint32_t *values, size_t len) {
    for (size_t i = 0; i < len; i++)
        at = get_u32(at, &values[i]);
    return at;
}

const unsigned char *get_floats(const unsigned char *at, float *values, size_t len) {
    for (size_t i = 0; i < len; i++) {
        uint32_t bits;
        at = get_u32(at, &bits);
        values[i] = float_of(bits);
    }
    return at;
}

uint32_t bits_of(float value) {
    uint32_t bits;
    memcpy(&bits, &value, sizeof bits);
    return bits;
}

float float_of(uint32_t bits) {
    float value;
    memcpy(&value, &bits, sizeof value);
    return value;
}
