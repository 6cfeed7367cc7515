/*
 * The yardstick for whoever looks at stored coefficients: of each its magnitude, and the largest of them, by a plain
 * loop for each width, for a machine that is little-endian as the record is. No header is read and nothing is tested.
 * LOOK is the name of the function, by which two compilers can be told apart.
 */
#include <stddef.h>
#include <stdint.h>
#include <string.h>

/* Where the coefficients of a record are on a shelf, how many, and of how many bytes each. */
typedef struct body {
    size_t start, count, width;
} body;

#define LARGEST(bits)                                                                                                  \
    static uint64_t largest_##bits(const uint8_t *bytes, size_t count) {                                               \
        uint##bits##_t largest = 0;                                                                                    \
        for (size_t i = 0; i < count; i++) {                                                                           \
            uint##bits##_t c;                                                                                          \
            memcpy(&c, bytes + i * sizeof c, sizeof c);                                                                \
            uint##bits##_t magnitude = (uint##bits##_t)(c >> (bits - 1) ? 0 - c : c);                                  \
            largest = magnitude > largest ? magnitude : largest;                                                       \
        }                                                                                                              \
        return largest;                                                                                                \
    }

LARGEST(8)
LARGEST(16)
LARGEST(32)
LARGEST(64)

uint64_t LOOK(const uint8_t *shelf, const body *bodies, size_t many) {
    uint64_t largest = 0;
    for (size_t i = 0; i < many; i++) {
        const uint8_t *bytes = shelf + bodies[i].start;
        size_t count = bodies[i].count, width = bodies[i].width;
        uint64_t of = width == 1   ? largest_8(bytes, count)
                      : width == 2 ? largest_16(bytes, count)
                      : width == 4 ? largest_32(bytes, count)
                                   : largest_64(bytes, count);
        largest = of > largest ? of : largest;
    }
    return largest;
}
