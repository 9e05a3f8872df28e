/* Numbers as bytes, least significant first, and the checksum of bytes. */
#ifndef BYTES_H
#define BYTES_H

#include <stddef.h>
#include <stdint.h>

/* FNV-1a, 64 bits. */
#define FNV_START UINT64_C(0xcbf29ce484222325)

/* The checksum of what went before and these bytes. */
uint64_t fnv1a(uint64_t before, const unsigned char *bytes, size_t len);

/* Each writes or reads at `at` and gives the place after it. */
unsigned char *put_u32(unsigned char *at, uint32_t value);
unsigned char *put_u64(unsigned char *at, uint64_t value);
const unsigned char *get_u32(const unsigned char *at, uint32_t *value);
const unsigned char *get_u64(const unsigned char *at, uint64_t *value);

/* The same for `len` numbers; a float is its bits. */
unsigned char *put_u32s(unsigned char *at, const uint32_t *values, size_t len);
unsigned char *put_floats(unsigned char *at, const float *values, size_t len);
const unsigned char *get_u32s(const unsigned char *at, uint32_t *values, size_t len);
const unsigned char *get_floats(const unsigned char *at, float *values, size_t len);

uint32_t bits_of(float value);
float float_of(uint32_t bits);

#endif
