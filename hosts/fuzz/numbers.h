/* Numbers for the calls about days and dates, of an input's bytes. */
#ifndef NUMBERS_H
#define NUMBERS_H

#include <stdint.h>
#include <string.h>

enum { NUMBER_BYTES = 3 };

/* The calls' arguments: a date, which also has the months of a pass, and a day number. */
typedef struct {
    int64_t year, month, day, number;
} Numbers;

/* A number little above `least`, up to some 65,800 above it, or at 2^32, -2^32 or the ends of 64 bits. */
static int64_t number_of(const uint8_t bytes[NUMBER_BYTES], int64_t least)
{
    static const uint64_t far[] = {UINT64_C(1) << 32, -(UINT64_C(1) << 32), INT64_MAX - 65535, (uint64_t)INT64_MIN};
    int64_t more = bytes[1] * 256 + bytes[2] + bytes[0];
    if (bytes[0] % 4 < 2)
        return least + bytes[1];
    if (bytes[0] % 4 == 2)
        return least + more;
    return (int64_t)(far[bytes[0] / 4 % 4] + (uint64_t)more); /* may wrap around */
}

/* Zeros fill up where the bytes end. */
static Numbers numbers_of(const uint8_t *start, size_t length)
{
    uint8_t bytes[4 * NUMBER_BYTES] = {0};
    memcpy(bytes, start, length < sizeof bytes ? length : sizeof bytes);
    return (Numbers){number_of(bytes, 1990), number_of(bytes + NUMBER_BYTES, -1),
                     number_of(bytes + 2 * NUMBER_BYTES, -1), number_of(bytes + 3 * NUMBER_BYTES, -1)};
}

#endif
