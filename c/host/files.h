/*
 * What the parts keep on disk. Paths are relative to the state folder, which every process makes
 * its working folder. Every function says what went wrong before it answers false.
 *
 * What is written here is on the disk when the function has answered true, not only on its way: a
 * power cut right afterwards leaves the new file, and one at any earlier moment the old file or
 * the new one, never a part of either.
 */
#ifndef HOST_FILES_H
#define HOST_FILES_H

#include "../door.h"
#include "table.h"

#include <stdbool.h>
#include <stddef.h>
#include <stdint.h>

#define PATH_ROOM 128
#define NAME_ROOM 64 /* more than any name has, so that one that is too long is seen as such */

/* Makes it the working folder. */
bool go_to(const char *folder);

/* Makes a folder of its owner alone. It is there for good when the folder above was forced. */
bool make_folder(const char *folder);
bool force_folder(const char *folder);

/* Claims for this process, until it ends in whatever way, what one may have at a time: a part's
   folder, a check, an enrolment. Of two processes with one box's state, each would put its own
   vector under the same mask; of two enrolments, each would write into the other's file. */
bool claim(const char *path);

bool read_file(const char *path, void *bytes, size_t room, size_t *size);
bool write_durably(const char *folder, const char *file, const void *bytes, size_t size);

/* A part's high-water mark: the last set number that is spent, and the version, the rule by which
   the sets above it are dealt and judged. In version 1 the lock's 1 meant measure >= T for
   distances too. In versions 1 and 2 each node of a comparison key was opened under a nonce of
   zeros; since then the level of its children is in the nonce. Up to version 3 a half had no width
   and no mark, and there were no sets between two marks. A file that is missing, torn or damaged is
   never read as any number. */
#define SETS_VERSION 4

bool read_last(const char *folder, uint64_t *last, uint64_t *version);
bool write_last(const char *folder, uint64_t last); /* of SETS_VERSION */

bool read_key(const char *folder, const char *file, uint8_t key[DOOR_KEY]);

/* A door's bare name. That it is a good one is the start calls' matter. */
struct door_name {
    uint8_t bytes[NAME_ROOM];
    size_t size;
};

bool read_name(const char *folder, struct door_name *name);

/* What the dealer deals for: a threshold, two marks from one of which to the other the lock opens,
   or a table that has a threshold for each minute of the day. Whether they fit code and length is
   the deal's matter. */
struct settings {
    struct door_terms terms;
    bool between;       /* two marks */
    bool by_clock;      /* a table; with neither of the two, a threshold */
    int32_t threshold;  /* 0 where there is none */
    int32_t p, q;       /* the marks; 0 where there are none */
    struct table table; /* without a row where there is none */
};

/* Three or four whole numbers: code, length, and the threshold or both marks. */
bool parse_settings(const char *text, struct settings *settings);

/* Code, length and the word 'table': where the table begins, or NULL. */
#define TABLE_WORD "table"
const char *parse_table_head(const char *text, struct settings *settings);

bool read_table(const char *path, struct table *table);
#define SETTINGS_FILE "dealer/settings"
bool read_settings(struct settings *settings);
bool write_settings(const struct settings *settings);

/* For people: 'squared Euclid, 128 elements, opens from 5 to 900'; of a set that was dealt by a
   table's row, also which, counted from 1: 'opens up to 900, by row 2 (08:00 to 16:59)'. */
#define SETTINGS_ROOM 192
void settings_words(const struct settings *settings, char words[SETTINGS_ROOM]);
void dealt_words(const struct settings *settings, uint32_t row, char words[SETTINGS_ROOM]);

/* A vector, one whole number a line, as words. */
struct vector {
    uint32_t words[DOOR_LENGTH_MOST];
    size_t length;
};

/* From a plain file; nothing is waited for. Of what is no text of numbers it says that an iris
   code's file is given with this option. */
#define IRIS_OPTION "--iris"
bool read_vector(const char *path, struct vector *vector);

/* Whether the new vector is in its place. It may be where the disk failed after it was moved there:
   a power cut could bring the old one back. */
enum enrolled { NOT_ENROLLED, PERHAPS_ENROLLED, ENROLLED };

/* Puts it in the place of the enrolled one, from where the office box reads it at every check. */
enum enrolled write_enrolled(const struct vector *vector);

/* Halves lie on the stick of the box with that party number, one file for each set. */
bool write_half(uint32_t party, uint64_t number, const uint8_t *half, size_t size);
bool read_half(uint32_t party, uint64_t number, uint8_t half[DOOR_HALF_MOST + 1], size_t *size);

/* A file that someone has under whatever path: what it has to be, in words, and what to do where
   there is none. */
struct expected {
    const char *what, *where_missing;
};

/* What was found in it. Its size is not judged here: where the file is longer than the room, the
   room is filled. */
struct carried {
    uint8_t *bytes;
    size_t room;
    size_t size;      /* of what was read */
    size_t file_size; /* of the whole file */
};

/* Reads a plain file, and waits for nothing: with anything else it says what was found. */
bool read_carried(const char *path, const struct expected *expected, struct carried *carried);

/* A half, with room for one byte more than any half has, so that one that is too long is seen as
   such. */
struct carried_half {
    uint8_t bytes[DOOR_HALF_MOST + 1];
    size_t size, file_size;
};

bool read_carried_half(const char *path, struct carried_half *half);

/* Removes the halves of all sets up to this number, those included that a power cut had left, and
   says of each that stays. A load refuses a spent half anyway: a box does without the answer. */
bool remove_halves(uint32_t party, uint64_t last);

#endif
