/*
 * Who takes part, what each is called, and how each speaks to the person who reads its log.
 */
#ifndef HOST_PARTS_H
#define HOST_PARTS_H

#include "../door.h"

#include <stdbool.h>
#include <stdint.h>

/* The two boxes have their party numbers, so that a part is also what a message has as sender. */
enum part {
    CAMERA = 0,
    OFFICE = 1,
    DEALER = 2,
    LOCK = 3,
    OPERATOR = 4,
    WATCH = 5,
    PARTS = 6
};

struct part_names {
    const char *command; /* also the part's folder in the state folder */
    const char *title;   /* in messages to people */
    const char *socket;  /* in the state folder */
};

extern const struct part_names PART[PARTS];

/* Which part this process is: what it says begins with that part's title. */
void speak_as(enum part self);

/* One line to stderr, in one write, so that lines of several processes do not mix. */
void say(const char *format, ...) __attribute__((format(printf, 1, 2)));

/* Says that the system refused something, with its reason (errno). */
void say_trouble(const char *what, const char *path);

/* A refusal's number in words; numbers that no call answers have words too. */
const char *refusal_words(uint32_t why);

/* A set's measure and length: 'squared Euclid, 128 elements'. */
#define TERMS_ROOM 64
void terms_words(struct door_terms terms, char words[TERMS_ROOM]);

/* Which thresholds and marks a measure takes: 'Hamming takes 0 to 513'. */
#define RANGE_ROOM 64
void range_words(uint32_t code, char words[RANGE_ROOM]);

/* Which numbers a measure takes as elements, from the low to the high one. False where no measure
   has that code. */
struct elements {
    int32_t low, high;
};

bool elements_of(uint32_t code, struct elements *elements);

/* Says which call was refused for which set, why, and what this host did about it. */
void say_refused(const char *call, uint64_t number, uint32_t why, const char *done);

#endif
