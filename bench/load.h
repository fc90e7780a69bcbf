/* Eight bytes as a word, the first on top, in one load. */
#ifndef LOAD_H
#define LOAD_H

#include <stdint.h>
#include <string.h>

static inline uint64_t load(const uint8_t *bytes) {
    uint64_t x;
    memcpy(&x, bytes, 8);
    return __builtin_bswap64(x);
}

#endif
