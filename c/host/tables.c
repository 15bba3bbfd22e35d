/*
 * Settings with a table of the day: which tables are taken, what is said of those that are not,
 * which row is used and told, and that a set dealt ahead is not used when its row's time is over.
 */
#include "host.h"
#include "test.h"

#include <inttypes.h>
#include <stdio.h>
#include <string.h>

#define SOME_DAY 1700006400 /* seconds since 1970 at a midnight of UTC */
#define TABLE_FILE "night.table"

void set_clock(uint32_t to)
{
    char text[PATH_ROOM];
    minute = to;
    int size = snprintf(text, sizeof text, "%" PRId64 "\n",
        SOME_DAY + 60 * ((int64_t)to - AHEAD_OF_UTC) + (int64_t)chance(60));
    put_file("clock", text, (size_t)size);
}

void draw_clock(void)
{
    const struct table *t = &settings.table;
    if (!settings.by_clock || chance(2) == 0) {
        set_clock((uint32_t)chance(DOOR_DAY));
        return;
    }
    const size_t row = chance(t->rows);
    set_clock(chance(2) == 0 ? t->firsts[row] : t->lasts[row]);
}

static void exchange(uint32_t *a, uint32_t *b)
{
    const uint32_t kept = *a;
    *a = *b;
    *b = kept;
}

static void shuffle(struct table *t)
{
    for (size_t i = t->rows; i > 1; i--) {
        const size_t k = chance(i);
        exchange(&t->firsts[i - 1], &t->firsts[k]);
        exchange(&t->lasts[i - 1], &t->lasts[k]);
        exchange(&t->thresholds[i - 1], &t->thresholds[k]);
    }
}

/* The day cut into rows by chance, in an order by chance. */
void draw_table(int64_t found)
{
    const struct range r = range_of(settings.terms.code);
    const size_t most = chance(2) == 0 ? 3 : DOOR_ROWS_MOST;
    settings = (struct settings){.terms = settings.terms, .by_clock = true};
    struct table *t = &settings.table;
    for (uint32_t first = 0; first < DOOR_DAY; t->rows++) {
        uint32_t last = first + (uint32_t)chance(2 * DOOR_DAY / most);
        if (last >= DOOR_DAY || t->rows + 1 == DOOR_ROWS_MOST)
            last = DOOR_DAY - 1;
        t->firsts[t->rows] = first;
        t->lasts[t->rows] = last;
        t->thresholds[t->rows] = (uint32_t)within(r, found + (int64_t)chance(3) - 1);
        first = last + 1;
    }
    shuffle(t);
}

int table_text(char text[TABLE_TEXT])
{
    const struct table *t = &settings.table;
    int size = snprintf(text, TABLE_TEXT, "%" PRIu32 " %zu table\n", settings.terms.code,
        settings.terms.n);
    for (size_t i = 0; i < t->rows; i++)
        size += snprintf(text + size, TABLE_TEXT - (size_t)size,
            "%02" PRIu32 ":%02" PRIu32 " %02" PRIu32 ":%02" PRIu32 " %" PRId32 "\n",
            t->firsts[i] / 60, t->firsts[i] % 60, t->lasts[i] / 60, t->lasts[i] % 60,
            (int32_t)t->thresholds[i]);
    return size;
}

/* Set-ups. */

static void put_table(const char *text)
{
    put_file(TABLE_FILE, text, strlen(text));
}

static char *const WITH_TABLE[] = {"1", "128", "table", TABLE_FILE, NULL};

/* What must be said of a table's file, behind its name. */
struct bad_table {
    const char *text, *words;
};

static const struct bad_table BAD_LINES[] = {
    {"00:00 23:59 5\n8:00 09:00 5\n",
        ": line 2: found \"8:00\", expected is the row's first minute"},
    {"# night\n\n24:00 23:59 5\n", ": line 3: found \"24:00\", expected is the row's first minute"},
    {"00:60 23:59 5\n", ": line 1: found \"00:60\", expected is the row's first minute"},
    {"0000 23:59 5\n", ": line 1: found \"0000\", expected is the row's first minute"},
    {"-1:00 23:59 5\n", ": line 1: found \"-1:00\", expected is the row's first minute"},
    {"00:00 24:00 5\n",
        ": line 1: found \"24:00\", expected is the row's last minute, which belongs to the row"},
    {"00:00 23.59 5\n", ": line 1: found \"23.59\", expected is the row's last minute"},
    {"00:00 23:59x 5\n", ": line 1: found \"23:59x\", expected is the row's last minute"},
    {"00:00 23:59 5x\n", ": line 1: found \"5x\", expected is the row's threshold, a whole number"},
    {"00:00 23:59 2147483648\n", ": line 1: found \"2147483648\", expected is the row's threshold"},
    {"00:00 23:59 4294967301\n", ": line 1: found \"4294967301\", expected is the row's threshold"},
    {"00:00 23:59 99999999999999999999\n", ": line 1: found \"99999999999999999999\", expected is "
        "the row's threshold"},
    {"00:00 23:59 5.5\n", ": line 1: found \"5.5\", expected is the row's threshold"},
    {"00:00 23:59 \001\n", ": line 1: found \"?\", expected is the row's threshold"},
    {"00:00 23:59\n", ": line 1: found 2 of three words, expected is a row's first minute"},
    {"00:00 11:59 5\n12:00 # 23:59 5\n", ": line 2: found 1 of three words, expected is"},
    {"00:00 23:59 5 6\n", ": line 1: found \"6\", expected is the line's end, or a comment"},
    {"00:00 23:59 5", ": line 1, the last one, has no line end: the file may have been cut off"},
    {"00:00 11:59 5\n12:00 23:59 5 ", ": line 2, the last one, has no line end"},
    {"00:00 11:59 5\n\n12:00 23:", ": line 3, the last one, has no line end"},
    {"00:00 23:59 5\n# no", ": line 2, the last one, has no line end"},
};

static const struct bad_table BAD_TABLES[] = {
    {"", " has no row: write 1 to 32 rows"},
    {"# 00:00 23:59 5\n", " has no row: write 1 to 32 rows"},
    {"# night\n06:00 21:59 5\n22:00 05:59 5\n",
        "(14): row 2 (22:00 to 05:59, line 3 of night.table) runs backwards: write one that runs "
        "over midnight as two rows"},
    {"00:00 07:59 5\n08:01 23:59 5\n", "(15): 08:00 lies in no row of night.table: write rows"},
    {"00:01 23:59 5\n", "(15): 00:00 lies in no row of night.table"},
    {"00:00 23:58 5\n", "(15): 23:59 lies in no row of night.table"},
    {"00:00 08:00 5\n\n08:00 23:59 5\n",
        "(16): 08:00 lies in row 1 (00:00 to 08:00, line 1 of night.table) and in row 2 (08:00 to "
        "23:59, line 3 of night.table): let each minute"},
    {"12:00 12:00 5\n00:00 05:59 5\n06:00 23:59 5\n",
        "(16): 12:00 lies in row 1 (12:00 to 12:00, line 1 of night.table) and in row 3 (06:00 to "},
    {"00:00 05:00 5\n05:00 09:59 5\n10:01 23:59 5\n", "(16): 05:00 lies in row 1"},
    {"00:00 04:59 5\n05:01 10:00 5\n10:00 23:59 5\n", "(15): 05:00 lies in no row"},
};

/* The threshold of each row is looked at, whatever time it is. */
static const struct bad_table BAD_THRESHOLDS[] = {
    {"00:00 07:59 -1\n08:00 23:59 5\n",
        "(8): row 1 (00:00 to 07:59, line 1 of night.table) has the threshold -1, which is outside "
        "its measure's range: squared Euclid takes 0 to 2147483647; nothing was set up"},
    {"00:00 07:59 5\n# day\n08:00 23:59 -7\n",
        "(8): row 2 (08:00 to 23:59, line 3 of night.table) has the threshold -7, which is outside"},
    {"08:00 16:59 5\n17:00 23:59 -1\n00:00 07:59 -2\n", "(8): row 2 (17:00 to 23:59, line 2 of"},
    {"08:00 16:59 5\n17:00 23:59 -1\n00:00 07:59 -2\n", "(8): row 3 (00:00 to 07:59, line 3 of"},
};

static void tables_refused(const struct bad_table *bad, size_t count)
{
    for (size_t i = 0; i < count; i++) {
        put_table(bad[i].text);
        refuses_setup(WITH_TABLE, bad[i].words);
        refuses_setup(WITH_TABLE, "nothing was set up");
        refuses_setup(WITH_TABLE, TABLE_FILE);
    }
}
#define REFUSED(bad) tables_refused(bad, sizeof bad / sizeof *bad)

/* So many rows of a minute each, and one with the rest of the day. */
static void put_short_rows(unsigned rows)
{
    char text[TABLE_TEXT];
    int size = 0;
    for (unsigned i = 0; i + 1 < rows; i++)
        size += snprintf(text + size, sizeof text - (size_t)size, "00:%02u 00:%02u 5\n", i, i);
    snprintf(text + size, sizeof text - (size_t)size, "00:%02u 23:59 5\n", rows - 1);
    put_table(text);
}

/* A set-up with this table writes these settings down. */
static void sets_up_table(const char *folder, const char *text, const char *right)
{
    char *const arguments[] = {"door-host", "setup", (char *)folder, "Test door", "1", "128",
        "table", TABLE_FILE, NULL};
    char path[PATH_ROOM], found[TABLE_TEXT];
    size_t size;
    if (text != NULL)
        put_table(text);
    snprintf(path, sizeof path, "%s/" SETTINGS_FILE, folder);
    EXPECT(run_to_end(arguments) == 0, "a set-up with a table failed");
    EXPECT(read_file(path, found, sizeof found, &size), "no settings");
    EXPECT(right == NULL || (size == strlen(right) && memcmp(found, right, size) == 0),
        "a set-up with a table writes other settings");
}

/* A table whose file has so many bytes: a row, and comments of one line each. */
#define LONGEST 16383 /* bytes that a table's file may have */

static void put_long_table(size_t size)
{
    static const char row[] = "00:00 23:59 5\n";
    static char text[3 * LONGEST + 1];
    memset(text, '#', size);
    memcpy(text, row, strlen(row));
    for (size_t at = 99; at < size; at += 100)
        text[at] = '\n';
    text[size - 1] = '\n';
    text[size] = '\0';
    put_table(text);
}

/* A set-up says which thresholds and marks a measure takes, by its code. */
static void thresholds_refused(void)
{
    put_table("00:00 23:59 -2000000000\n");
    refuses_setup((char *[]){"0", "128", "table", TABLE_FILE, NULL},
        "has the threshold -2000000000, which is outside its measure's range: scalar product takes "
        "-1073741824 to 1073741824; nothing");
    refuses_setup((char *[]){"2", "128", "table", TABLE_FILE, NULL},
        "which is outside its measure's range: Hamming takes 0 to 513; nothing");
    refuses_setup((char *[]){"2", "128", "600", NULL},
        "(8): the threshold is outside its measure's range: Hamming takes 0 to 513; nothing");
    refuses_setup((char *[]){"1", "128", "5", "-1", NULL},
        "(8): a mark is outside its measure's range: squared Euclid takes 0 to 2147483647; nothing");
}

void table_setups(void)
{
    REFUSED(BAD_LINES);
    REFUSED(BAD_TABLES);
    REFUSED(BAD_THRESHOLDS);
    put_short_rows(DOOR_ROWS_MOST + 1);
    refuses_setup(WITH_TABLE, "(14): the table in night.table has too many rows, 33: write 1 to 32");
    put_short_rows(DOOR_ROWS_MOST + 8);
    refuses_setup(WITH_TABLE, "(14): the table in night.table has too many rows, 40: write 1 to 32");
    put_short_rows(DOOR_ROWS_MOST);
    refuses_setup((char *[]){"1", "x", "table", TABLE_FILE, NULL}, "two whole numbers before it");
    refuses_setup((char *[]){"1", "128", "table", NULL},
        "three or four whole numbers: measure code, length, and a threshold or two marks; or code, "
        "length, the word table and its file; nothing was set up");
    refuses_setup((char *[]){"1", "128", "tables", TABLE_FILE, NULL}, "three or four whole");
    refuses_setup((char *[]){"1", "128", "table", "no.table", NULL}, "cannot open no.table");
    refuses_setup((char *[]){"3", "128", "table", TABLE_FILE, NULL}, "was refused (2): ");
    refuses_setup((char *[]){"1", "513", "table", TABLE_FILE, NULL}, "was refused (4): ");
    sets_up_table("rows", NULL, NULL);
    sets_up_table("table", "# night\r\n17:00 23:59 300 # strict\r\n\n\t00:00  07:59\t-0\n"
        "08:00 16:59 500\n", "1 128 table\n17:00 23:59 300\n00:00 07:59 0\n08:00 16:59 500\n");
    put_file(TABLE_FILE, "00:00 23:59 5\n\0 5", 17);
    refuses_setup(WITH_TABLE, "night.table: line 2 has a zero byte, byte 15 of the file");
    put_long_table(LONGEST);
    sets_up_table("long", NULL, "1 128 table\n00:00 23:59 5\n");
    put_long_table(LONGEST + 1);
    refuses_setup(WITH_TABLE, "night.table has 16384 bytes, and may have at most 16383");
    put_long_table(3 * LONGEST);
    refuses_setup(WITH_TABLE, "night.table has 49149 bytes, and may have at most 16383");
    thresholds_refused();
}

/* Checks. */

/* Three rows that are not in the day's order: the loose one is the second of them, by day. */
#define DAY_FIRST 480 /* 08:00 */
#define DAY_LAST 1019 /* 16:59 */

static void set_day_and_night(int32_t night, int32_t day)
{
    settings = (struct settings){.terms = settings.terms, .by_clock = true, .table = {.rows = 3,
        .firsts = {DAY_LAST + 1, DAY_FIRST, 0}, .lasts = {DOOR_DAY - 1, DAY_LAST, DAY_FIRST - 1},
        .thresholds = {(uint32_t)night, (uint32_t)day, (uint32_t)night}}};
}

/* On both sides of each boundary. The measure lies between the two thresholds, so the door opens by
   day alone. From one check to the next nothing else changes. */
static void checks_around_rows(uint32_t code)
{
    static const struct { uint32_t minute, row; } times[] = {
        {0, 3}, {DAY_FIRST - 1, 3}, {DAY_FIRST, 2}, {DAY_FIRST - 1, 3}, {DAY_FIRST, 2},
        {DAY_LAST, 2}, {DAY_LAST + 1, 1}, {DAY_LAST, 2}, {DOOR_DAY - 1, 1}, {0, 3}, {0, 3}};
    const int64_t found = draw_pair(code), strict = code == DOOR_SCALAR ? 1 : -1;
    set_day_and_night((int32_t)(found + strict), (int32_t)found);
    for (size_t i = 0; i < sizeof times / sizeof *times; i++) {
        set_clock(times[i].minute);
        check_as_set();
        EXPECT(row_now(&settings) == times[i].row
                && has_to_open(&settings, current[CAMERA], current[OFFICE]) == (times[i].row == 2),
            "the test's own rule is wrong");
    }
}

/* One threshold of the table changes, one minute, and the order of the rows: a set that was dealt
   ahead for the table before is not used. */
static void checks_with_other_tables(void)
{
    const int64_t found = draw_pair(DOOR_EUCLID);
    set_clock(DAY_FIRST);
    set_day_and_night((int32_t)found - 1, (int32_t)found);
    check_as_set();
    settings.table.thresholds[1] = (uint32_t)found - 1;
    check_as_set();
    set_day_and_night((int32_t)found - 1, (int32_t)found);
    check_as_set();
    settings.table.firsts[1]++;
    settings.table.lasts[2]++;
    check_as_set();
    set_day_and_night((int32_t)found - 1, (int32_t)found);
    check_as_set();
    settings.table.thresholds[1] = (uint32_t)found - 1;
    settings.table.thresholds[2] = (uint32_t)found;
    check_as_set();
    settings = (struct settings){.terms = settings.terms, .threshold = (int32_t)found};
    check_as_set();
}

/* What a worker is told, and what stands in the dealer's log. */
static void row_is_told(void)
{
    draw_pair(DOOR_EUCLID);
    memcpy(current[OFFICE], current[CAMERA], sizeof current[OFFICE]);
    set_day_and_night(300, 500);
    set_clock(DAY_LAST);
    long since = end_of_log();
    check_as_set();
    expect_told(since, DEALER,
        "dealt: squared Euclid, 128 elements, opens up to 500, by row 2 (08:00 to 16:59);");
    expect_told(since, DEALER,
        "handed out: squared Euclid, 128 elements, opens up to 500, by row 2 (08:00 to 16:59)\n");
    since = end_of_log();
    operators_check(NOTHING);
    expect_told(since, LOCK, "OPEN, by row 2 (08:00 to 16:59)\n");
    current[CAMERA][0] ^= 512;
    set_clock(DAY_LAST + 1);
    since = end_of_log();
    operators_check(NOTHING);
    expect_told(since, LOCK, "STAY SHUT, by row 1 (17:00 to 23:59)\n");
    expect_told(since, DEALER,
        "handed out: squared Euclid, 128 elements, opens up to 300, by row 1 (17:00 to 23:59)\n");
}

/* Settings that someone has written by hand. The operator is told the place in words as well. */
static void refuses_by_hand(
    const char *text, uint32_t why, uint32_t place, const char *words, const char *operators)
{
    char said[SAID_ROOM];
    refuses_settings(text, why, words);
    EXPECT(check.place == place, "settings %s: place %" PRIu32, text, check.place);
    const long since = end_of_log();
    operator_without_set();
    hear_log(since, said);
    EXPECT(strstr(said, operators) != NULL, "nobody says: %s; but: %s", operators, said);
}

static void bad_tables(void)
{
    set_clock(721);
    refuses_by_hand("1 128 table\n", DOOR_BAD_ROWS, 0,
        "the deal at 12:01 was refused (14): the table in dealer/settings has no row: write 1 to 32 "
        "rows; no set was dealt: put dealer/settings right",
        "came to nothing at the dealer: the table has no row, or above 32");
    refuses_by_hand("1 128 table # night\n06:00 21:59 5\n22:00 05:59 5\n", DOOR_BAD_ROWS, 2,
        "(14): row 2 (22:00 to 05:59, line 3 of dealer/settings) runs backwards",
        "came to nothing at the dealer: row 2 of the table runs backwards");
    refuses_by_hand("1\n128\ntable\n00:00 07:59 5\n08:01 23:59 5\n", DOOR_NO_ROW, 480,
        "(15): 08:00 lies in no row of dealer/settings",
        "came to nothing at the dealer: 08:00 lies in no row of the table");
    refuses_by_hand("1 128 table\n00:00 08:00 5\n08:00 23:59 5\n", DOOR_MORE_ROWS, 480,
        "(16): 08:00 lies in row 1 (00:00 to 08:00, line 2 of dealer/settings) and in row 2 (",
        "came to nothing at the dealer: 08:00 lies in two rows of the table, or more");
    refuses_by_hand("2 128 table\n00:00 11:59 5\n12:00 23:59 514\n", DOOR_OUT_OF_RANGE, 2,
        "the deal at 12:01 was refused (8): row 2 (12:00 to 23:59, line 3 of dealer/settings) has "
        "the threshold 514, which is outside its measure's range: Hamming takes 0 to 513; no set "
        "was dealt",
        "came to nothing at the dealer: the threshold of row 2 of the table is outside its "
        "measure's range");
    refuses_by_hand("1 128 table\n00:00 11:59 300000\n12:00 23:59 5", DOOR_ACCEPTED, 0,
        "dealer/settings: line 3, the last one, has no line end: the file may have been cut off",
        "its log says why");
    refuses_by_hand("2 128 table\n00:00 23:59 5\n12:00\n", DOOR_ACCEPTED, 0,
        "dealer/settings: line 3: found 1 of three words", "its log says why");
    refuses_by_hand("2 128 table00:00 23:59 5\n", DOOR_ACCEPTED, 0,
        "dealer/settings has to have three or four whole numbers", "its log says why");
    lose_stock(DEALER);
}

/* A row that no deal takes, while another one is used: the dealer deals, and says what will come. It
   says so once for a table. */
static void row_that_no_deal_takes(void)
{
    static const char words[] = "(8): row 3 (00:00 to 07:59, line 4 of dealer/settings) has the "
        "threshold 514, which is outside its measure's range: Hamming takes 0 to 513; no set will "
        "be dealt in that row's time";
    char said[SAID_ROOM];
    draw_pair(DOOR_HAMMING);
    set_day_and_night(60, 70);
    settings.table.thresholds[2] = 514;
    set_clock(DAY_FIRST);
    long since = end_of_log();
    check_as_set();
    hear_log(since, said);
    EXPECT(strstr(said, words) != NULL, "nobody says: %s; but: %s", words, said);
    since = end_of_log();
    check_as_set();
    hear_log(since, said);
    EXPECT(strstr(said, words) == NULL, "the dealer tries a table again: %s", said);
}

/* Of a set three words are told, four or six: the threshold, two marks, or the threshold and a row. */
static void dealt_sizes(void)
{
    uint8_t bytes[DATAGRAM_MOST];
    struct message m = {.kind = HOST_DEALT, .sender = DEALER, .number = 1}, found;
    for (m.count = 0; m.count < 10; m.count++) {
        const char *why = decode(bytes, encode(&m, bytes), &found);
        bool is_one = m.count == 3 || m.count == 4 || m.count == DEALT_BY_CLOCK;
        EXPECT((why == NULL) == is_one, "told of a set: %zu words, and that is %s", m.count,
            why == NULL ? "taken" : why);
    }
}

void tables(void)
{
    dealt_sizes();
    for (uint32_t code = DOOR_SCALAR; code <= DOOR_HAMMING; code++)
        checks_around_rows(code);
    checks_with_other_tables();
    row_is_told();
    row_that_no_deal_takes();
    bad_tables();
    for (int i = 0; i < 10; i++) {
        draw_table(draw_pair((uint32_t)chance(3)));
        draw_clock();
        check_as_set();
    }
}
