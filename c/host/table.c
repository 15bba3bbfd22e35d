#include "table.h"

#include "parts.h"

#include <errno.h>
#include <inttypes.h>
#include <stdio.h>
#include <string.h>

#define WORDS_OF_ROW 3
#define SHOWN 32 /* bytes of a word that a message shows */
#define HOUR 60  /* minutes */

/* A word of a line: it ends before a blank, a comment or the line's end. */
struct word {
    const char *at;
    size_t size;
};

/* A line of a file, for messages. */
struct line {
    const char *file;
    unsigned number;
};

static struct word next_word(const char **text)
{
    const char *at = *text + strspn(*text, " \t\r");
    const struct word word = {.at = at, .size = strcspn(at, " \t\r\n#")};
    *text = at + word.size;
    return word;
}

/* The word on one line: a byte that no one can read becomes a question mark. */
static void show_word(struct word word, char text[SHOWN + 1])
{
    size_t size = word.size < SHOWN ? word.size : SHOWN;
    for (size_t i = 0; i < size; i++)
        text[i] = word.at[i] > ' ' && word.at[i] <= '~' ? word.at[i] : '?';
    text[size] = '\0';
}

static bool say_found(const struct line *line, struct word word, const char *expected)
{
    char text[SHOWN + 1];
    show_word(word, text);
    say("%s: line %u: found \"%s\", expected is %s", line->file, line->number, text, expected);
    return false;
}

static bool is_digit(char byte)
{
    return byte >= '0' && byte <= '9';
}

/* Two digits, a colon, two digits: from 00:00 to 23:59. */
static bool parse_time(struct word word, uint32_t *minute)
{
    const char *at = word.at;
    if (word.size != 5 || !is_digit(at[0]) || !is_digit(at[1]) || at[2] != ':' || !is_digit(at[3])
        || !is_digit(at[4]))
        return false;
    const unsigned hours = 10u * (unsigned)(at[0] - '0') + (unsigned)(at[1] - '0');
    const unsigned minutes = 10u * (unsigned)(at[3] - '0') + (unsigned)(at[4] - '0');
    *minute = HOUR * hours + minutes;
    return minutes < HOUR && *minute < DOOR_DAY;
}

/* A number that does not fit 32 bits is no threshold: nothing is cut. */
static bool parse_threshold(struct word word, uint32_t *threshold)
{
    char text[SHOWN + 1], *end;
    if (word.size > SHOWN)
        return false;
    show_word(word, text);
    errno = 0;
    const intmax_t number = strtoimax(text, &end, 10);
    *threshold = (uint32_t)number;
    return *end == '\0' && errno == 0 && number >= INT32_MIN && number <= INT32_MAX;
}

static bool parse_row(const struct line *line, const struct word words[WORDS_OF_ROW],
    struct table *table)
{
    uint32_t first, last, threshold;
    if (!parse_time(words[0], &first))
        return say_found(line, words[0], "the row's first minute, as 08:05, from 00:00 to 23:59");
    if (!parse_time(words[1], &last))
        return say_found(line, words[1],
            "the row's last minute, which belongs to the row, as 08:05, from 00:00 to 23:59");
    if (!parse_threshold(words[2], &threshold))
        return say_found(line, words[2],
            "the row's threshold, a whole number from -2147483648 to 2147483647");
    table->found++;
    if (table->rows == ROWS_ROOM)
        return true; /* there are too many already */
    const size_t row = table->rows++;
    table->firsts[row] = first;
    table->lasts[row] = last;
    table->thresholds[row] = threshold;
    table->lines[row] = line->number;
    return true;
}

/* A line with nothing on it but a comment is passed over. */
static bool parse_line(const char *text, const struct line *line, struct table *table)
{
    struct word words[WORDS_OF_ROW], word;
    unsigned count = 0;
    while ((word = next_word(&text)).size > 0) {
        if (count == WORDS_OF_ROW)
            return say_found(
                line, word, "the line's end, or a comment (#), behind the row's threshold");
        words[count++] = word;
    }
    if (count == 0)
        return true;
    if (count == WORDS_OF_ROW)
        return parse_row(line, words, table);
    say("%s: line %u: found %u of three words, expected is a row's first minute, its last minute "
        "and its threshold, as in: 08:00 16:59 500000",
        line->file, line->number, count);
    return false;
}

/* A file that was cut off may end in '500000' cut to '5', which is a threshold too. */
static bool is_whole(const char *text, const char *file, unsigned line)
{
    const size_t size = strlen(text);
    if (size == 0 || text[size - 1] == '\n')
        return true;
    for (; *text != '\0'; text++)
        line += *text == '\n';
    say("%s: line %u, the last one, has no line end: the file may have been cut off; end each line, "
        "the last one too", file, line);
    return false;
}

bool parse_table(const char *text, const char *file, unsigned line, struct table *table)
{
    *table = (struct table){0};
    if (!is_whole(text, file, line))
        return false;
    for (;; line++) {
        if (!parse_line(text, &(struct line){.file = file, .number = line}, table))
            return false;
        text += strcspn(text, "\n");
        if (*text == '\0')
            return true;
        text++;
    }
}

bool same_table(const struct table *a, const struct table *b)
{
    const size_t size = sizeof *a->firsts * a->rows;
    return a->rows == b->rows && memcmp(a->firsts, b->firsts, size) == 0
        && memcmp(a->lasts, b->lasts, size) == 0
        && memcmp(a->thresholds, b->thresholds, size) == 0;
}

bool row_holds(const struct table *table, uint32_t place, uint32_t minute)
{
    return place >= 1 && place <= table->rows && table->firsts[place - 1] <= minute
        && minute <= table->lasts[place - 1];
}

void time_words(uint32_t minute, char words[TIME_ROOM])
{
    snprintf(words, TIME_ROOM, "%02" PRIu32 ":%02" PRIu32, minute / HOUR, minute % HOUR);
}

void row_words(uint32_t place, uint32_t first, uint32_t last, char words[ROW_ROOM])
{
    char from[TIME_ROOM], to[TIME_ROOM];
    time_words(first, from);
    time_words(last, to);
    snprintf(words, ROW_ROOM, "row %" PRIu32 " (%s to %s)", place, from, to);
}

void place_words(uint32_t why, uint32_t place, char words[TROUBLE_ROOM])
{
    char at[TIME_ROOM];
    time_words(place, at);
    if (why == DOOR_BAD_ROWS && place == 0)
        snprintf(words, TROUBLE_ROOM, "the table has no row, or above %d", DOOR_ROWS_MOST);
    else if (why == DOOR_BAD_ROWS)
        snprintf(words, TROUBLE_ROOM, "row %" PRIu32 " of the table runs backwards or past 23:59",
            place);
    else if (why == DOOR_NO_ROW)
        snprintf(words, TROUBLE_ROOM, "%s lies in no row of the table", at);
    else if (why == DOOR_MORE_ROWS)
        snprintf(words, TROUBLE_ROOM, "%s lies in two rows of the table, or more", at);
    else if (why == DOOR_OUT_OF_RANGE && place != 0)
        snprintf(words, TROUBLE_ROOM, "the threshold of row %" PRIu32 " of the table is outside its "
            "measure's range", place);
    else
        snprintf(words, TROUBLE_ROOM, "%s", refusal_words(why));
}

/* The first row behind that place which holds the minute, or 0. */
static uint32_t next_row_with(const struct table *table, uint32_t behind, uint32_t minute)
{
    for (uint32_t place = behind + 1; place <= table->rows; place++)
        if (row_holds(table, place, minute))
            return place;
    return 0;
}

uint32_t row_with(const struct table *table, uint32_t minute)
{
    return next_row_with(table, 0, minute);
}

/* 'row 2 (08:00 to 16:59, line 3 of night.table)' */
#define PLACED_ROOM (TROUBLE_ROOM / 4)
static void placed_row(
    const struct table *table, const char *file, uint32_t place, char words[PLACED_ROOM])
{
    char from[TIME_ROOM], to[TIME_ROOM];
    time_words(table->firsts[place - 1], from);
    time_words(table->lasts[place - 1], to);
    snprintf(words, PLACED_ROOM, "row %" PRIu32 " (%s to %s, line %u of %s)", place, from, to,
        table->lines[place - 1], file);
}

static void say_rows_with(
    const struct table *table, const char *file, uint32_t minute, char words[TROUBLE_ROOM])
{
    char at[TIME_ROOM], one[PLACED_ROOM], other[PLACED_ROOM];
    const uint32_t first = row_with(table, minute);
    const uint32_t second = next_row_with(table, first, minute);
    time_words(minute, at);
    placed_row(table, file, first, one);
    placed_row(table, file, second, other);
    snprintf(words, TROUBLE_ROOM,
        "%s lies in %s and in %s: let each minute lie in one row and no more", at, one, other);
}

void table_trouble(const struct table *table, const char *file, uint32_t code, uint32_t why,
    uint32_t place, uint32_t minute, char words[TROUBLE_ROOM])
{
    char row[PLACED_ROOM], at[TIME_ROOM], range[RANGE_ROOM];
    const uint32_t used = why == DOOR_BAD_ROWS ? place : row_with(table, minute);
    time_words(place, at);
    range_words(code, range);
    if (used != 0)
        placed_row(table, file, used, row);
    if (why == DOOR_BAD_ROWS && place == 0 && table->found == 0)
        snprintf(words, TROUBLE_ROOM, "the table in %s has no row: write 1 to %d rows", file,
            DOOR_ROWS_MOST);
    else if (why == DOOR_BAD_ROWS && place == 0)
        snprintf(words, TROUBLE_ROOM, "the table in %s has too many rows, %zu: write 1 to %d rows",
            file, table->found, DOOR_ROWS_MOST);
    else if (why == DOOR_BAD_ROWS)
        snprintf(words, TROUBLE_ROOM, "%s runs backwards: write one that runs over midnight as two "
            "rows", row);
    else if (why == DOOR_NO_ROW)
        snprintf(words, TROUBLE_ROOM, "%s lies in no row of %s: write rows for all minutes from "
            "00:00 to 23:59", at, file);
    else if (why == DOOR_MORE_ROWS)
        say_rows_with(table, file, place, words);
    else if (why == DOOR_OUT_OF_RANGE && used != 0)
        snprintf(words, TROUBLE_ROOM, "%s has the threshold %" PRId32 ", which is outside its "
            "measure's range: %s", row, (int32_t)table->thresholds[used - 1], range);
    else
        snprintf(words, TROUBLE_ROOM, "%s", refusal_words(why));
}
