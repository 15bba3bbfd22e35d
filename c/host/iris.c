/*
 * An iris code from a file of 64 bytes, as the vector that the door check takes.
 *
 * The scanner's file has the bits angle by angle, ours has them ring by ring. What is enrolled and
 * what is checked is always in our order, whichever the file has: so a door that was enrolled from
 * one order can be checked from the other. Nothing in a file tells its order. A wrong one leaves
 * about half of the bits different, and the door shut.
 */
#include "host.h"

#include <inttypes.h>
#include <string.h>

/* A byte more than a code has, so that a file that is too long is seen as such. */
#define ROOM (DOOR_IRIS_BYTES + 1)

static bool read_code(const char *path, uint8_t code[ROOM])
{
    static const struct expected expected = {
        .what = "an iris code's file of 64 bytes",
        .where_missing = "see that the path is right, and that you may read it"};
    struct carried carried = {.bytes = code, .room = ROOM};
    if (!read_carried(path, &expected, &carried))
        return false;
    if (carried.size == DOOR_IRIS_BYTES)
        return true;
    say("%s has %zu bytes; an iris code has %d: give the file as the scanner wrote it, or give a "
        "vector in numbers, without " IRIS_OPTION,
        path, carried.file_size, DOOR_IRIS_BYTES);
    return false;
}

/* What the proved calls make of it: in our order, and unpacked. */
static uint32_t unpack(
    const uint8_t code[DOOR_IRIS_BYTES], enum vector_form form, struct vector *vector)
{
    uint8_t rings[DOOR_IRIS_BYTES];
    uint32_t why = DOOR_ACCEPTED;
    memcpy(rings, code, sizeof rings);
    if (form == IRIS_BY_ANGLES)
        why = door_iris_to_rings(code, DOOR_IRIS_BYTES, rings, sizeof rings);
    if (why == DOOR_ACCEPTED)
        why = door_iris_unpack(rings, sizeof rings, vector->words, DOOR_LENGTH_MOST);
    explicit_bzero(rings, sizeof rings);
    vector->length = DOOR_IRIS_BITS;
    return why;
}

static bool read_iris(const char *path, enum vector_form form, struct vector *vector)
{
    uint8_t code[ROOM];
    uint32_t why = DOOR_ACCEPTED;
    bool is_read = read_code(path, code);
    if (is_read)
        why = unpack(code, form, vector);
    explicit_bzero(code, sizeof code);
    if (why != DOOR_ACCEPTED)
        say("%s: the iris code was refused (%" PRIu32 "): %s; it is not used", path, why,
            refusal_words(why));
    return is_read && why == DOOR_ACCEPTED;
}

bool read_vector_as(enum vector_form form, const char *path, struct vector *vector)
{
    return form == AS_TEXT ? read_vector(path, vector) : read_iris(path, form, vector);
}

bool takes_iris(const struct settings *settings)
{
    const struct door_terms terms = settings->terms;
    char found[TERMS_ROOM];
    if (terms.code == DOOR_HAMMING && terms.n == DOOR_IRIS_BITS)
        return true;
    terms_words(terms, found);
    say(SETTINGS_FILE " has code %" PRIu32 " and length %zu: %s; an iris code needs code %d and "
        "length %d: take a door that is set up so, or give a vector in numbers, without "
        IRIS_OPTION,
        terms.code, terms.n, found, DOOR_HAMMING, DOOR_IRIS_BITS);
    return false;
}
