/* A reader of recordings in C, beside which the library's is timed: to every call it answers what brb_recording_read answers
 * (docs/MANUAL.md, "Recordings"). It is written for speed, as one would by hand: a byte that is a number by itself is taken where
 * it stands, and no number is stored before all are read. */
#include "brb.h"
#include <string.h>

/* The number whose first byte says that more follow. The place after it, or 0 where it is malformed or cut off. */
static size_t read_longer(const uint8_t *bytes, size_t length, size_t at, uint64_t *number)
{
    uint64_t value = bytes[at] & 0x7F;
    for (unsigned shift = 7; shift < 64; shift += 7) {
        if (++at >= length)
            return 0;
        uint64_t byte = bytes[at];
        if (byte < 0x80) {
            if (byte == 0 || (shift == 63 && byte != 1))
                return 0;
            *number = value | byte << shift;
            return at + 1;
        }
        value |= (byte & 0x7F) << shift;
    }
    return 0;
}

/* Any number: the place after it, or 0. */
static inline size_t read_number(const uint8_t *bytes, size_t length, size_t at, uint64_t *number)
{
    if (at >= length)
        return 0;
    if (bytes[at] < 0x80) {
        *number = bytes[at];
        return at + 1;
    }
    return read_longer(bytes, length, at, number);
}

static struct brb_answer answer(uint64_t number, uint64_t value)
{
    struct brb_answer answer = {number, value};
    return answer;
}

struct brb_answer bench_recording_read(const uint8_t *bytes, size_t length, size_t at, uint64_t *place, size_t place_numbers)
{
    static const uint8_t fields[] = {2, 4, 4, 4, 1, 1, 2, 0, 1, 2, 4};
    uint64_t numbers[6] = {0};
    if (place_numbers < 6)
        return answer(6, 0);
    size_t next = read_number(bytes, length, at, &numbers[0]);
    if (next == 0)
        return answer(1, 0);
    if (numbers[0] >= sizeof fields)
        return answer(2, 0);
    size_t count = fields[numbers[0]] + 2u;
    for (size_t i = 1; i < count; i++) {
        next = read_number(bytes, length, next, &numbers[i]);
        if (next == 0)
            return answer(1, 0);
    }
    memcpy(place, numbers, sizeof numbers);
    return answer(0, next);
}
