#include "files.h"

#include "parts.h"

#include <dirent.h>
#include <errno.h>
#include <fcntl.h>
#include <inttypes.h>
#include <limits.h>
#include <stdio.h>
#include <stdlib.h>
#include <string.h>
#include <sys/file.h>
#include <sys/stat.h>
#include <unistd.h>

#define VECTOR_TEXT_MOST 16384 /* bytes of a vector's file: ample for 512 lines */
#define TABLE_TEXT_MOST 16384  /* of a table's file: ample for 32 rows with comments */

bool go_to(const char *folder)
{
    if (chdir(folder) == 0)
        return true;
    say_trouble("cannot go to", folder);
    return false;
}

bool make_folder(const char *folder)
{
    if (mkdir(folder, 0700) == 0)
        return true;
    say_trouble("cannot make the folder", folder);
    return false;
}

static bool close_file(int file, const char *path)
{
    if (close(file) == 0)
        return true;
    say_trouble("cannot close", path);
    return false;
}

/* After a failed fsync the system may forget what it had to write, so nobody tries again. */
static bool force(int file, const char *path)
{
    bool forced = fsync(file) == 0;
    if (!forced)
        say_trouble("cannot force to disk", path);
    return close_file(file, path) && forced;
}

bool force_folder(const char *folder)
{
    int file = open(folder, O_RDONLY | O_DIRECTORY | O_CLOEXEC);
    if (file < 0) {
        say_trouble("cannot open the folder", folder);
        return false;
    }
    return force(file, folder);
}

bool claim(const char *path)
{
    int file = open(path, O_RDWR | O_CREAT | O_CLOEXEC | O_NOFOLLOW, 0600);
    if (file < 0) {
        say_trouble("cannot open", path);
        return false;
    }
    if (flock(file, LOCK_EX | LOCK_NB) == 0)
        return true; /* the file stays open: the claim ends with the process */
    if (errno == EWOULDBLOCK)
        say("another process has claimed %s: this one does not start", path);
    else
        say_trouble("cannot claim", path);
    if (close(file) != 0)
        say_trouble("cannot close", path);
    return false;
}

/* Reads to the end of the file or of the room, whichever comes first. */
static bool read_all(int file, const char *path, uint8_t *bytes, size_t room, size_t *size)
{
    *size = 0;
    while (*size < room) {
        ssize_t got = read(file, bytes + *size, room - *size);
        if (got == 0)
            return true;
        if (got > 0) {
            *size += (size_t)got;
        } else if (errno != EINTR) {
            say_trouble("cannot read", path);
            return false;
        }
    }
    return true;
}

bool read_file(const char *path, void *bytes, size_t room, size_t *size)
{
    int file = open(path, O_RDONLY | O_CLOEXEC);
    if (file < 0) {
        say_trouble("cannot open", path);
        return false;
    }
    bool read_to_end = read_all(file, path, bytes, room, size);
    return close_file(file, path) && read_to_end;
}

static bool write_all(int file, const char *path, const uint8_t *bytes, size_t size)
{
    while (size > 0) {
        ssize_t put = write(file, bytes, size);
        if (put >= 0) {
            bytes += put;
            size -= (size_t)put;
        } else if (errno != EINTR) {
            say_trouble("cannot write", path);
            return false;
        }
    }
    return true;
}

static bool write_forced(const char *path, const void *bytes, size_t size)
{
    int file = open(path, O_WRONLY | O_CREAT | O_TRUNC | O_CLOEXEC | O_NOFOLLOW, 0600);
    if (file < 0) {
        say_trouble("cannot make", path);
        return false;
    }
    if (!write_all(file, path, bytes, size)) {
        close_file(file, path);
        return false;
    }
    return force(file, path);
}

/* Where this answers false, the name has the file that it had. */
static bool write_and_name(const char *folder, const char *file, const void *bytes, size_t size)
{
    char path[PATH_ROOM], fresh[PATH_ROOM + 4];
    snprintf(path, sizeof path, "%s/%s", folder, file);
    snprintf(fresh, sizeof fresh, "%s.tmp", path);
    if (!write_forced(fresh, bytes, size))
        return false;
    if (rename(fresh, path) == 0)
        return true;
    say_trouble("cannot rename to", path);
    return false;
}

/* First the bytes, then the name, then the folder that holds the name: in this order each moment
   has a whole file under the name, and the end has the new one. */
bool write_durably(const char *folder, const char *file, const void *bytes, size_t size)
{
    return write_and_name(folder, file, bytes, size) && force_folder(folder);
}

/* The number and what it lacks to 2^64 - 1, each in twenty digits, and the version, which version 1
   left out: whatever tears or damages the numbers, the file is then no longer one that is ever
   written. And no older program starts with it: one of version 1 takes it for damaged, later ones
   read that it is newer. */
#define LAST_MOST 63

static size_t last_text(uint64_t last, uint64_t version, char text[LAST_MOST + 1])
{
    int size = snprintf(text, LAST_MOST + 1, "%020" PRIu64 " %020" PRIu64, last, UINT64_MAX - last);
    if (version != 1)
        size += snprintf(text + size, LAST_MOST + 1 - (size_t)size, " %" PRIu64, version);
    text[size] = '\n';
    return (size_t)size + 1;
}

bool read_last(const char *folder, uint64_t *last, uint64_t *version)
{
    char path[PATH_ROOM], found[LAST_MOST + 2] = "", right[LAST_MOST + 1];
    char *end;
    size_t size;
    snprintf(path, sizeof path, "%s/last", folder);
    if (!read_file(path, found, LAST_MOST + 1, &size))
        return false;
    *last = strtoull(found, &end, 10);
    strtoull(end, &end, 10);
    *version = *end == '\n' ? 1 : strtoull(end, NULL, 10);
    if (last_text(*last, *version, right) == size && memcmp(found, right, size) == 0)
        return true;
    say("%s is torn or damaged: which numbers are spent is not known, and a mask could be used "
        "twice; this part stays down until the door has new keys and another name (setup in a new "
        "folder)",
        path);
    return false;
}

bool write_last(const char *folder, uint64_t last)
{
    char text[LAST_MOST + 1];
    size_t size = last_text(last, SETS_VERSION, text);
    return write_durably(folder, "last", text, size);
}

bool read_key(const char *folder, const char *file, uint8_t key[DOOR_KEY])
{
    char path[PATH_ROOM];
    uint8_t found[DOOR_KEY + 1];
    size_t size;
    snprintf(path, sizeof path, "%s/%s", folder, file);
    if (!read_file(path, found, sizeof found, &size))
        return false;
    bool right = size == DOOR_KEY;
    memcpy(key, found, DOOR_KEY);
    explicit_bzero(found, sizeof found);
    if (!right)
        say("%s has not the %d bytes of a key", path, DOOR_KEY);
    return right;
}

bool read_name(const char *folder, struct door_name *name)
{
    char path[PATH_ROOM];
    snprintf(path, sizeof path, "%s/name", folder);
    return read_file(path, name->bytes, sizeof name->bytes, &name->size);
}

/* Reads a number within bounds and the white space behind it, and moves on past both. */
static bool next_number(const char **text, intmax_t low, intmax_t high, intmax_t *number)
{
    char *end;
    errno = 0;
    *number = strtoimax(*text, &end, 10);
    if (end == *text || errno != 0 || *number < low || *number > high)
        return false;
    if (*end != '\0' && strchr(" \t\r\n", *end) == NULL)
        return false;
    *text = end + strspn(end, " \t\r\n");
    return true;
}

/* Nothing is cut to a narrower type here before the deal has tested it. */
bool parse_settings(const char *text, struct settings *settings)
{
    intmax_t code, length, first, second;
    if (!next_number(&text, 0, UINT32_MAX, &code) || !next_number(&text, 0, INTMAX_MAX, &length)
        || !next_number(&text, INT32_MIN, INT32_MAX, &first))
        return false;
    *settings = (struct settings){
        .terms = {.code = (uint32_t)code, .n = (size_t)length}, .threshold = (int32_t)first};
    if (*text == '\0')
        return true;
    if (!next_number(&text, INT32_MIN, INT32_MAX, &second) || *text != '\0')
        return false;
    settings->between = true;
    settings->threshold = 0;
    settings->p = (int32_t)first;
    settings->q = (int32_t)second;
    return true;
}

const char *parse_table_head(const char *text, struct settings *settings)
{
    const size_t size = strlen(TABLE_WORD);
    intmax_t code, length;
    if (!next_number(&text, 0, UINT32_MAX, &code) || !next_number(&text, 0, INTMAX_MAX, &length)
        || strncmp(text, TABLE_WORD, size) != 0
        || (text[size] != '\0' && strchr(" \t\r\n#", text[size]) == NULL))
        return NULL;
    *settings = (struct settings){
        .terms = {.code = (uint32_t)code, .n = (size_t)length}, .by_clock = true};
    return text + size;
}

static unsigned line_of(const char *text, const char *at)
{
    unsigned line = 1;
    for (; text < at; text++)
        line += *text == '\n';
    return line;
}

/* Of a file that is no plain one, no more is known than what was read. */
static void say_too_long(const char *path, size_t size)
{
    struct stat found;
    if (stat(path, &found) == 0 && found.st_size > (off_t)size)
        size = (size_t)found.st_size;
    say("%s has %zu bytes, and may have at most %d: nothing of it is used", path, size,
        TABLE_TEXT_MOST - 1);
}

/* A file that is too long, or has a zero byte, would lose rows without a word. */
static bool read_text(const char *path, char text[TABLE_TEXT_MOST + 1])
{
    size_t size;
    if (!read_file(path, text, TABLE_TEXT_MOST, &size))
        return false;
    text[size] = '\0';
    const size_t before_zero = strlen(text);
    bool fits = size < TABLE_TEXT_MOST;
    bool is_text = before_zero == size;
    if (!fits)
        say_too_long(path, size);
    else if (!is_text)
        say("%s: line %u has a zero byte, byte %zu of the file: a text has none", path,
            line_of(text, text + before_zero), before_zero + 1);
    return fits && is_text;
}

bool read_table(const char *path, struct table *table)
{
    static char text[TABLE_TEXT_MOST + 1];
    return read_text(path, text) && parse_table(text, path, 1, table);
}

bool read_settings(struct settings *settings)
{
    static char text[TABLE_TEXT_MOST + 1];
    if (!read_text(SETTINGS_FILE, text))
        return false;
    const char *rows = parse_table_head(text, settings);
    if (rows != NULL)
        return parse_table(rows, SETTINGS_FILE, line_of(text, rows), &settings->table);
    if (parse_settings(text, settings))
        return true;
    say(SETTINGS_FILE " has to have three or four whole numbers: measure code, length, and a "
        "threshold or two marks; or code, length, the word " TABLE_WORD " and rows");
    return false;
}

static bool write_table_settings(const struct settings *settings)
{
    char text[TABLE_TEXT_MOST], from[TIME_ROOM], to[TIME_ROOM];
    const struct table *table = &settings->table;
    int size = snprintf(text, sizeof text, "%" PRIu32 " %zu " TABLE_WORD "\n",
        settings->terms.code, settings->terms.n);
    for (size_t i = 0; i < table->rows; i++) {
        time_words(table->firsts[i], from);
        time_words(table->lasts[i], to);
        size += snprintf(text + size, sizeof text - (size_t)size, "%s %s %" PRId32 "\n", from, to,
            (int32_t)table->thresholds[i]);
    }
    return write_durably("dealer", "settings", text, (size_t)size);
}

bool write_settings(const struct settings *settings)
{
    char text[PATH_ROOM];
    const struct door_terms terms = settings->terms;
    if (settings->by_clock)
        return write_table_settings(settings);
    int size = settings->between
        ? snprintf(text, sizeof text, "%" PRIu32 " %zu %" PRId32 " %" PRId32 "\n", terms.code,
              terms.n, settings->p, settings->q)
        : snprintf(text, sizeof text, "%" PRIu32 " %zu %" PRId32 "\n", terms.code, terms.n,
              settings->threshold);
    return write_durably("dealer", "settings", text, (size_t)size);
}

void settings_words(const struct settings *settings, char words[SETTINGS_ROOM])
{
    char terms[TERMS_ROOM];
    terms_words(settings->terms, terms);
    if (settings->between)
        snprintf(words, SETTINGS_ROOM, "%s, opens from %" PRId32 " to %" PRId32, terms,
            settings->p, settings->q);
    else if (settings->terms.code == DOOR_SCALAR)
        snprintf(words, SETTINGS_ROOM, "%s, opens from %" PRId32 " on", terms,
            settings->threshold);
    else
        snprintf(words, SETTINGS_ROOM, "%s, opens up to %" PRId32, terms, settings->threshold);
}

void dealt_words(const struct settings *settings, uint32_t row, char words[SETTINGS_ROOM])
{
    const struct table *table = &settings->table;
    struct settings by_threshold = {.terms = settings->terms};
    char used[ROW_ROOM];
    if (!settings->by_clock) {
        settings_words(settings, words);
        return;
    }
    by_threshold.threshold = (int32_t)table->thresholds[row - 1];
    settings_words(&by_threshold, words);
    row_words(row, table->firsts[row - 1], table->lasts[row - 1], used);
    const size_t size = strlen(words);
    snprintf(words + size, SETTINGS_ROOM - size, ", by %s", used);
}

/* Read up to a zero byte, a file would be taken for a shorter vector without a word. An iris code
   may have such bytes. */
static bool read_vector_text(const char *path, char text[VECTOR_TEXT_MOST + 1])
{
    static const struct expected vector_file = {
        .what = "a vector's file, one whole number a line",
        .where_missing = "see that the path is right, and that you may read it"};
    struct carried carried = {.bytes = (uint8_t *)text, .room = VECTOR_TEXT_MOST};
    if (!read_carried(path, &vector_file, &carried))
        return false;
    text[carried.size] = '\0';
    const size_t before_zero = strlen(text);
    bool fits = carried.size < VECTOR_TEXT_MOST;
    bool is_text = before_zero == carried.size;
    if (!is_text)
        say("%s: byte %zu is zero; expected is %s: give such a file, or an iris code's with "
            IRIS_OPTION,
            path, before_zero + 1, vector_file.what);
    else if (!fits)
        say("%s has %zu bytes; expected is %s, of at most %d bytes: give such a file", path,
            carried.file_size, vector_file.what, VECTOR_TEXT_MOST - 1);
    return fits && is_text;
}

static bool parse_vector(const char *text, const char *path, struct vector *vector)
{
    bool right = true;
    for (vector->length = 0; right && *text != '\0'; vector->length++) {
        intmax_t number = 0;
        right = vector->length < DOOR_LENGTH_MOST
            && next_number(&text, INT32_MIN, INT32_MAX, &number);
        if (right)
            vector->words[vector->length] = (uint32_t)number;
    }
    if (!right)
        say("%s: line %zu is no whole number, or one too many (at most %d); an iris code's file is "
            "given with " IRIS_OPTION,
            path, vector->length, DOOR_LENGTH_MOST);
    return right;
}

bool read_vector(const char *path, struct vector *vector)
{
    static char text[VECTOR_TEXT_MOST + 1]; /* secret as the vector is: wiped below */
    bool right = read_vector_text(path, text) && parse_vector(text, path, vector);
    explicit_bzero(text, sizeof text);
    return right;
}

static bool remove_unfinished(const char *path)
{
    if (unlink(path) == 0 || errno == ENOENT)
        return true;
    say_trouble("cannot remove", path);
    return false;
}

/* Into a new file: one that was left there may be another's to read. And a vector that could not be
   written leaves no part of it behind: it is secret. */
static bool put_enrolled(const char *text, size_t size)
{
    static const char unfinished[] = "office/vector.tmp";
    if (!remove_unfinished(unfinished))
        return false;
    bool named = write_and_name("office", "vector", text, size);
    if (!named)
        remove_unfinished(unfinished);
    return named;
}

enum enrolled write_enrolled(const struct vector *vector)
{
    static char text[VECTOR_TEXT_MOST]; /* secret as the vector is: wiped below */
    int size = 0;
    for (size_t i = 0; i < vector->length; i++)
        size += snprintf(text + size, sizeof text - (size_t)size, "%" PRId32 "\n",
            (int32_t)vector->words[i]);
    bool put = put_enrolled(text, (size_t)size);
    explicit_bzero(text, sizeof text);
    if (!put)
        return NOT_ENROLLED;
    return force_folder("office") ? ENROLLED : PERHAPS_ENROLLED;
}

static void stick_of(uint32_t party, char folder[PATH_ROOM])
{
    snprintf(folder, PATH_ROOM, "stick/%s", PART[party].command);
}

bool write_half(uint32_t party, uint64_t number, const uint8_t *half, size_t size)
{
    char folder[PATH_ROOM], file[PATH_ROOM / 2];
    stick_of(party, folder);
    snprintf(file, sizeof file, "%" PRIu64 ".half", number);
    return write_durably(folder, file, half, size);
}

bool read_half(uint32_t party, uint64_t number, uint8_t half[DOOR_HALF_MOST + 1], size_t *size)
{
    char folder[PATH_ROOM], path[PATH_ROOM + 32];
    stick_of(party, folder);
    snprintf(path, sizeof path, "%s/%" PRIu64 ".half", folder, number);
    return read_file(path, half, DOOR_HALF_MOST + 1, size);
}

static void say_no_file(const char *path, const struct expected *expected)
{
    say("cannot open %s: %s; expected is %s: %s", path, strerror(errno), expected->what,
        expected->where_missing);
}

static bool is_plain(const char *path, const struct expected *expected, mode_t mode)
{
    if (S_ISREG(mode))
        return true;
    say("%s is %s; expected is %s: give that file's path", path,
        S_ISDIR(mode)        ? "a folder"
            : S_ISFIFO(mode) ? "a pipe"
            : S_ISSOCK(mode) ? "a socket"
                             : "a device",
        expected->what);
    return false;
}

/* Another file may have come into the place of the one that was looked at before. */
static bool read_plain(
    int file, const char *path, const struct expected *expected, struct carried *carried)
{
    struct stat found;
    if (fstat(file, &found) != 0) {
        say_trouble("cannot look at", path);
        return false;
    }
    if (!is_plain(path, expected, found.st_mode)
        || !read_all(file, path, carried->bytes, carried->room, &carried->size))
        return false;
    bool goes_on = carried->size == carried->room && found.st_size > (off_t)carried->size;
    carried->file_size = goes_on ? (size_t)found.st_size : carried->size;
    return true;
}

/* To open a pipe may take for ever, and a device may act upon it: so what it is comes first. */
bool read_carried(const char *path, const struct expected *expected, struct carried *carried)
{
    struct stat found;
    if (stat(path, &found) != 0) {
        say_no_file(path, expected);
        return false;
    }
    if (!is_plain(path, expected, found.st_mode))
        return false;
    int file = open(path, O_RDONLY | O_NONBLOCK | O_NOCTTY | O_CLOEXEC);
    if (file < 0) {
        say_no_file(path, expected);
        return false;
    }
    bool is_read = read_plain(file, path, expected, carried);
    return close_file(file, path) && is_read;
}

bool read_carried_half(const char *path, struct carried_half *half)
{
    static const struct expected expected = {
        .what = "the file of a half, as the dealer wrote it",
        .where_missing =
            "see that the path is right, that the stick is there, and that you may read it"};
    struct carried carried = {.bytes = half->bytes, .room = sizeof half->bytes};
    if (!read_carried(path, &expected, &carried))
        return false;
    half->size = carried.size;
    half->file_size = carried.file_size;
    return true;
}

/* Whether a file on the stick is a half, or what a power cut left of one, of a set up to this
   number. */
static bool is_half(const char *file, uint64_t last)
{
    char *end;
    errno = 0;
    uint64_t number = strtoull(file, &end, 10);
    if (end == file || errno != 0 || number > last)
        return false;
    return strcmp(end, ".half") == 0 || strcmp(end, ".half.tmp") == 0;
}

/* Removing a half keeps its masks from whoever finds the stick and the key later. */
bool remove_halves(uint32_t party, uint64_t last)
{
    char folder[PATH_ROOM];
    bool all = true;
    stick_of(party, folder);
    DIR *stick = opendir(folder);
    if (stick == NULL) {
        say_trouble("cannot look through", folder);
        return false;
    }
    errno = 0;
    for (struct dirent *entry; (entry = readdir(stick)) != NULL; errno = 0) {
        char path[PATH_ROOM + sizeof entry->d_name];
        snprintf(path, sizeof path, "%s/%s", folder, entry->d_name);
        if (!is_half(entry->d_name, last) || unlink(path) == 0)
            continue;
        say_trouble("cannot remove the half", path);
        all = false;
    }
    bool seen_all = errno == 0;
    if (!seen_all)
        say_trouble("cannot look through", folder);
    if (closedir(stick) != 0)
        say_trouble("cannot close", folder);
    return all && seen_all;
}
