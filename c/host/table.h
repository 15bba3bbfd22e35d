/*
 * A table of the day, as a site manager writes it: one row a line, with its first minute, its last
 * one and its threshold. '08:00 16:59 500000' holds from 08:00 on, and 16:59 is its last minute.
 * What follows a # is for people. Whether the rows make a good table is the proved call's matter.
 */
#ifndef HOST_TABLE_H
#define HOST_TABLE_H

#include "../door.h"

#include <stdbool.h>

#define ROWS_ROOM (DOOR_ROWS_MOST + 1) /* so that a table with too many rows is seen as such */

struct table {
    size_t rows;  /* that are kept: at most ROWS_ROOM */
    size_t found; /* in the text: for messages, and no more */
    uint32_t firsts[ROWS_ROOM], lasts[ROWS_ROOM]; /* minutes of the day */
    uint32_t thresholds[ROWS_ROOM];               /* as words */
    unsigned lines[ROWS_ROOM]; /* where the row stands in its file: for messages, and no more */
};

/* Reads the rows of a text that begins in this line of that file. Says what is wrong with the first
   line that is no row, and answers false; so too where the last line has no end, since a threshold
   that is cut off is another one. */
bool parse_table(const char *text, const char *file, unsigned line, struct table *table);

bool same_table(const struct table *a, const struct table *b);

/* Whether the minute lies in the row with that place, counted from 1. */
bool row_holds(const struct table *table, uint32_t place, uint32_t minute);

/* The first row that holds the minute, or 0. */
uint32_t row_with(const struct table *table, uint32_t minute);

/* '08:00' */
#define TIME_ROOM 16
void time_words(uint32_t minute, char words[TIME_ROOM]);

/* 'row 2 (08:00 to 16:59)' */
#define ROW_ROOM 64
void row_words(uint32_t place, uint32_t first, uint32_t last, char words[ROW_ROOM]);

#define TROUBLE_ROOM 512

/* A refusal and its place in words, for one who has no table. With refusal 8 the place is the row
   whose threshold was refused, or 0. */
void place_words(uint32_t why, uint32_t place, char words[TROUBLE_ROOM]);

/* The same for one who has it: which row, in which line of its file, and what to do. The code is the
   measure's, and the minute the one that was asked for. */
void table_trouble(const struct table *table, const char *file, uint32_t code, uint32_t why,
    uint32_t place, uint32_t minute, char words[TROUBLE_ROOM]);

#endif
