/*
 * The calls on iris codes in plain C, to be timed beside ours: the formulas as they are written, and
 * the distance by words of 64 bits. bench/run compiles this once for each level, with the level's
 * ending at the names. Nothing is tested but what ours tests.
 */
#include <stddef.h>
#include <stdint.h>
#include <string.h>

#define JOIN(name, ending) name##ending
#define JOINED(name, ending) JOIN(name, ending)
#define AT_LEVEL(name) JOINED(name, LEVEL)

#define BYTES 64
#define BITS 512
#define ANGLES 64
#define RINGS 8

enum { ACCEPTED = 0, WRONG_LENGTH = 4, SHORT_BUFFER = 5, OUT_OF_RANGE = 8 };

static uint32_t has_bit(const uint8_t *code, size_t i)
{
    return code[i / 8] >> i % 8 & 1;
}

static uint32_t why_not(size_t length, size_t wanted, size_t room, size_t needed)
{
    if (length != wanted)
        return WRONG_LENGTH;
    return room < needed ? SHORT_BUFFER : ACCEPTED;
}

uint32_t AT_LEVEL(plain_to_rings)(const uint8_t *code, size_t length, uint8_t *out, size_t room)
{
    const uint32_t why = why_not(length, BYTES, room, BYTES);
    if (why != ACCEPTED)
        return why;
    memset(out, 0, BYTES);
    for (size_t ring = 0; ring < RINGS; ring++)
        for (size_t angle = 0; angle < ANGLES; angle++) {
            const size_t i = ring * ANGLES + angle;
            out[i / 8] |= (uint8_t)(has_bit(code, angle * RINGS + ring) << i % 8);
        }
    return ACCEPTED;
}

uint32_t AT_LEVEL(plain_to_angles)(const uint8_t *code, size_t length, uint8_t *out, size_t room)
{
    const uint32_t why = why_not(length, BYTES, room, BYTES);
    if (why != ACCEPTED)
        return why;
    memset(out, 0, BYTES);
    for (size_t angle = 0; angle < ANGLES; angle++)
        for (size_t ring = 0; ring < RINGS; ring++) {
            const size_t i = angle * RINGS + ring;
            out[i / 8] |= (uint8_t)(has_bit(code, ring * ANGLES + angle) << i % 8);
        }
    return ACCEPTED;
}

uint32_t AT_LEVEL(plain_unpack)(const uint8_t *code, size_t length, uint32_t *out, size_t room)
{
    const uint32_t why = why_not(length, BYTES, room, BITS);
    if (why != ACCEPTED)
        return why;
    for (size_t i = 0; i < BITS; i++)
        out[i] = has_bit(code, i);
    return ACCEPTED;
}

uint32_t AT_LEVEL(plain_pack)(const uint32_t *v, size_t length, uint8_t *out, size_t room)
{
    uint32_t all = 0;
    const uint32_t why = why_not(length, BITS, room, BYTES);
    if (why != ACCEPTED)
        return why;
    for (size_t i = 0; i < BITS; i++)
        all |= v[i];
    if (all > 1)
        return OUT_OF_RANGE;
    for (size_t byte = 0; byte < BYTES; byte++) {
        uint32_t packed = 0;
        for (size_t bit = 0; bit < 8; bit++)
            packed |= v[8 * byte + bit] << bit;
        out[byte] = (uint8_t)packed;
    }
    return ACCEPTED;
}

struct answer {
    uint32_t why, distance;
};

struct answer AT_LEVEL(plain_hamming)(
    const uint8_t *a, size_t a_length, const uint8_t *b, size_t b_length)
{
    struct answer answer = {ACCEPTED, 0};
    if (a_length != BYTES || b_length != BYTES) {
        answer.why = WRONG_LENGTH;
        return answer;
    }
    for (size_t i = 0; i < BYTES; i += 8) {
        uint64_t x, y;
        memcpy(&x, a + i, 8);
        memcpy(&y, b + i, 8);
        answer.distance += (uint32_t)__builtin_popcountll(x ^ y);
    }
    return answer;
}
