#include "parts.h"

#include <errno.h>
#include <inttypes.h>
#include <stdarg.h>
#include <stdbool.h>
#include <stdio.h>
#include <string.h>
#include <unistd.h>

const struct part_names PART[PARTS] = {
    [CAMERA] = {"camera", "camera box", "camera.sock"},
    [OFFICE] = {"office", "office box", "office.sock"},
    [DEALER] = {"dealer", "dealer", "dealer.sock"},
    [LOCK] = {"lock", "lock", "lock.sock"},
    [OPERATOR] = {"operator", "operator", "operator.sock"},
    [WATCH] = {"watch", "watch", "watch.sock"},
};

static enum part speaker = OPERATOR;

void speak_as(enum part self)
{
    speaker = self;
}

/* The length that snprintf gives, cut to what stands in a buffer of that size. */
static size_t written(int length, size_t room)
{
    if (length < 0)
        return 0;
    return (size_t)length < room ? (size_t)length : room - 1;
}

void say(const char *format, ...)
{
    char line[1024];
    const size_t room = sizeof line - 1; /* the last place is for the line's end */
    size_t size = written(snprintf(line, room, "%s: ", PART[speaker].title), room);
    va_list arguments;
    va_start(arguments, format);
    size += written(vsnprintf(line + size, room - size, format, arguments), room - size);
    va_end(arguments);
    line[size++] = '\n';
    /* Where stderr is gone there is nobody left to tell. */
    if (write(STDERR_FILENO, line, size) < 0)
        return;
}

void say_trouble(const char *what, const char *path)
{
    say("%s %s: %s", what, path, strerror(errno));
}

const char *refusal_words(uint32_t why)
{
    static const char *const words[] = {
        [DOOR_ACCEPTED] = "accepted",
        [DOOR_BAD_NAME] = "the name is empty, above 16 bytes, or has a byte outside 32 to 126",
        [DOOR_BAD_PARTY_OR_CODE] = "the party is not 0 or 1, or the measure code is not 0 to 2",
        [DOOR_OUT_OF_TURN] = "the call is out of its turn, or the state is none that a call leaves",
        [DOOR_WRONG_LENGTH] = "an input has a wrong length",
        [DOOR_SHORT_BUFFER] = "an output buffer is too short",
        [DOOR_WRONG_MESSAGE] = "the message is of another kind, door or sender",
        [DOOR_WRONG_NUMBER] =
            "the set number is not the open one, not above the last one, or not the same twice",
        [DOOR_OUT_OF_RANGE] = "an element, the threshold or a mark is outside its measure's range",
        [DOOR_EQUAL_KEYS] = "the two box keys are equal",
        [DOOR_BAD_BLOCK] = "a block is out of place, of another set, or its tag does not fit",
        [DOOR_BAD_CONTENT] = "the half is for another door or box, is from another version, or has "
                             "content that no deal writes",
        [DOOR_BAD_SUM] = "the two answers do not sum to 0 or 1; a box or the dealer may be of "
                         "another version",
        [DOOR_BAD_MARKS] = "the second mark is below the first, or they are too far apart: at most "
                           "2,147,483,647",
        [DOOR_BAD_ROWS] = "the table has no row or above 32, or a row of it runs backwards or past "
                           "23:59",
        [DOOR_NO_ROW] = "a minute of the day lies in no row of the table",
        [DOOR_MORE_ROWS] = "a minute of the day lies in two rows of the table, or more",
    };
    return why < sizeof words / sizeof *words ? words[why] : "a number that no call answers";
}

/* A measure by its code, with the range of its thresholds and marks, and that of its elements. */
struct measure {
    const char *name, *range;
    struct elements elements;
};

static const struct measure MEASURES[] = {
    [DOOR_SCALAR] = {"scalar product", "-1073741824 to 1073741824", {-1024, 1023}},
    [DOOR_EUCLID] = {"squared Euclid", "0 to 2147483647", {-1024, 1023}},
    [DOOR_HAMMING] = {"Hamming", "0 to 513", {0, 1}},
};

static bool is_measure(uint32_t code)
{
    return code < sizeof MEASURES / sizeof *MEASURES;
}

static struct measure measure_of(uint32_t code)
{
    static const struct measure none = {.name = "a measure of no known code",
        .range = "no threshold"};
    return is_measure(code) ? MEASURES[code] : none;
}

void terms_words(struct door_terms terms, char words[TERMS_ROOM])
{
    snprintf(words, TERMS_ROOM, "%s, %zu element%s", measure_of(terms.code).name, terms.n,
        terms.n == 1 ? "" : "s");
}

void range_words(uint32_t code, char words[RANGE_ROOM])
{
    const struct measure measure = measure_of(code);
    snprintf(words, RANGE_ROOM, "%s takes %s", measure.name, measure.range);
}

bool elements_of(uint32_t code, struct elements *elements)
{
    *elements = measure_of(code).elements;
    return is_measure(code);
}

void say_refused(const char *call, uint64_t number, uint32_t why, const char *done)
{
    say("set %" PRIu64 ": %s was refused (%" PRIu32 "): %s; %s", number, call, why,
        refusal_words(why), done);
}
