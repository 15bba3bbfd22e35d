/*
 * Enrolments, and iris codes: enrolled and checked from a file of 64 bytes in either order. Where
 * each order has the bit of an angle and a ring is written down here anew, and no call of the
 * library is asked: a file that the program reads in another way gives another vector.
 */
#include "host.h"
#include "powercut.h"
#include "test.h"

#include <errno.h>
#include <fcntl.h>
#include <inttypes.h>
#include <signal.h>
#include <stdio.h>
#include <stdlib.h>
#include <string.h>
#include <sys/file.h>
#include <sys/resource.h>
#include <sys/stat.h>
#include <sys/wait.h>
#include <unistd.h>

#define ANGLES 64
#define RINGS 8
#define BITS (ANGLES * RINGS)
#define BYTES (BITS / 8)

#define SOME 12           /* codes by chance */
#define BESIDE 60         /* enrolments one after the other, beside checks */
#define CHECKS_BESIDE 6   /* at the least, beside these */
#define MOMENTS_MOST 20   /* more than an enrolment has */
#define CUTS 6            /* at each of them */
#define NO_ROOM 100       /* bytes that a disk which is nearly full takes */
#define TEXT_ROOM 4096    /* more than any vector here has as text */
#define LINE_ROOM 512

#define TEMPLATE "template" /* the file that is enrolled */
#define SCAN "scan"         /* the one that is checked */

struct iris_tally iris_tally;

/* Codes. */

struct code {
    bool bit[ANGLES][RINGS];
};

enum order { BY_ANGLE, BY_RING, ORDERS };

static const char *const ORDER[ORDERS] = {"angles", "rings"};

/* Which bit of a file it is. */
static size_t place_of(enum order order, size_t angle, size_t ring)
{
    return order == BY_ANGLE ? angle * 8 + ring : ring * 64 + angle;
}

static void draw_code(struct code *code)
{
    for (size_t i = 0; i < BITS; i++)
        code->bit[i / RINGS][i % RINGS] = chance(2) == 1;
}

/* A code that differs from this one in so many bits, by chance. */
static struct code beside(const struct code *code, int64_t distance)
{
    struct code other = *code;
    while (distance > 0) {
        const size_t angle = chance(ANGLES), ring = chance(RINGS);
        distance -= other.bit[angle][ring] == code->bit[angle][ring];
        other.bit[angle][ring] = !code->bit[angle][ring];
    }
    return other;
}

static void put_code(const char *path, const struct code *code, enum order order)
{
    uint8_t bytes[BYTES] = {0};
    for (size_t i = 0; i < BITS; i++) {
        const size_t place = place_of(order, i / RINGS, i % RINGS);
        if (code->bit[i / RINGS][i % RINGS])
            bytes[place / 8] |= (uint8_t)(1 << place % 8);
    }
    put_file(path, bytes, sizeof bytes);
}

/* The vector of a file of that order, as it stands there. */
static void set_vector(enum part box, const struct code *code, enum order order)
{
    for (size_t i = 0; i < BITS; i++)
        current[box][place_of(order, i / RINGS, i % RINGS)] = code->bit[i / RINGS][i % RINGS];
}

/* Settings for them. */

static void set_rule(struct settings rule)
{
    settings = rule;
    settings.terms = (struct door_terms){.code = DOOR_HAMMING, .n = BITS};
    write_settings_anew();
}

static void set_threshold(int64_t threshold)
{
    set_rule((struct settings){.threshold = (int32_t)threshold});
}

/* What is enrolled. */

static size_t text_of(const int32_t *vector, size_t length, char text[TEXT_ROOM])
{
    size_t size = 0;
    for (size_t i = 0; i < length; i++)
        size += (size_t)snprintf(text + size, TEXT_ROOM - size, "%" PRId32 "\n", vector[i]);
    return size;
}

static bool is_enrolled(const int32_t *vector, size_t length)
{
    char right[TEXT_ROOM], found[TEXT_ROOM];
    size_t size;
    EXPECT(read_file("office/vector", found, sizeof found, &size), "no office/vector");
    return size == text_of(vector, length, right) && memcmp(found, right, size) == 0;
}

/* The vector that the office box would begin with, in a file that is on the disk for good, of its
   owner alone, with nothing left beside it. */
static void expect_enrolled(void)
{
    static const char *const beside_it[] = {"office/vector.tmp", "office/vector" MARK_TORN,
        "office/vector" MARK_OLD, "office/vector" MARK_NEW};
    struct stat found;
    EXPECT(is_enrolled(current[OFFICE], settings.terms.n), "office/vector has another vector");
    EXPECT(stat("office/vector", &found) == 0 && (found.st_mode & 07777) == 0600,
        "office/vector has mode %o", (unsigned)found.st_mode);
    for (size_t i = 0; i < sizeof beside_it / sizeof *beside_it; i++)
        EXPECT(access(beside_it[i], F_OK) != 0, "an enrolment leaves %s", beside_it[i]);
}

static void expect_said(const char *said, const char *words)
{
    EXPECT(strstr(said, words) != NULL, "nobody says: %s; but: %s", words, said);
}

static void enrol(const struct code *code, enum order order)
{
    char *const arguments[] = {
        "door-host", "enrol", ".", TEMPLATE, "--iris", (char *)ORDER[order], NULL};
    char said[SAID_ROOM];
    put_code(TEMPLATE, code, order);
    EXPECT(run_and_hear(arguments, said) == EXIT_OPEN, "no code is enrolled: %s", said);
    expect_said(said, "operator: enrolled: Hamming, 512 elements;");
    set_vector(OFFICE, code, BY_RING);
    expect_enrolled();
    iris_tally.enrolled++;
}

static void enrol_text(size_t length)
{
    char *const arguments[] = {"door-host", "enrol", ".", TEMPLATE, NULL};
    char text[TEXT_ROOM], said[SAID_ROOM];
    put_file(TEMPLATE, text, text_of(current[OFFICE], length, text));
    EXPECT(run_and_hear(arguments, said) == EXIT_OPEN, "no vector is enrolled: %s", said);
    expect_said(said, "operator: enrolled: ");
    expect_enrolled();
}

static void check_code(const struct code *code, enum order order)
{
    put_code(SCAN, code, order);
    set_vector(CAMERA, code, BY_RING);
    check_by((char *[]){"door-host", "check", ".", SCAN, "--iris", (char *)ORDER[order], NULL});
    iris_tally.checked++;
}

/* Both orders. */

/* This bit alone is 1, and then all but this one. */
static void single_bit(size_t angle, size_t ring)
{
    struct code one = {0}, all_but_one;
    one.bit[angle][ring] = true;
    all_but_one = beside(&one, BITS);
    for (enum order order = BY_ANGLE; order < ORDERS; order++) {
        enrol(&one, order);
        enrol(&all_but_one, order);
    }
}

/* Ends of a row, of a byte and of the file, and bits that go elsewhere the other way round. */
static void single_bits(void)
{
    static const size_t bits[][2] = {{0, 0}, {63, 7}, {0, 7}, {63, 0}, {9, 2}, {1, 0}, {0, 1},
        {7, 0}, {8, 0}, {8, 1}, {31, 4}, {32, 3}};
    for (size_t i = 0; i < sizeof bits / sizeof *bits; i++)
        single_bit(bits[i][0], bits[i][1]);
    for (int i = 0; i < SOME; i++)
        single_bit(chance(ANGLES), chance(RINGS));
}

/* A distance that is just the threshold, and one more. */
static void checks_in(enum order enrolled, enum order checked)
{
    const int64_t threshold = (int64_t)chance(200);
    struct code own, same, other;
    draw_code(&own);
    same = beside(&own, threshold);
    other = beside(&own, threshold + 1);
    set_threshold(threshold);
    enrol(&own, enrolled);
    check_code(&same, checked);
    check_code(&other, checked);
    EXPECT(measure(settings.terms, current[CAMERA], current[OFFICE]) == threshold + 1,
        "the test's own codes are wrong");
}

static void checks_at_marks(enum order enrolled, enum order checked)
{
    static const int64_t distances[] = {29, 30, 90, 91};
    struct code own;
    draw_code(&own);
    set_rule((struct settings){.between = true, .p = 30, .q = 90});
    enrol(&own, enrolled);
    for (size_t i = 0; i < sizeof distances / sizeof *distances; i++) {
        const struct code other = beside(&own, distances[i]);
        check_code(&other, checked);
    }
}

static void checks_by_clock(enum order enrolled, enum order checked)
{
    struct code own, other;
    draw_code(&own);
    other = beside(&own, 50);
    set_threshold(0); /* the terms, for the table */
    draw_table(50);
    write_settings_anew();
    enrol(&own, enrolled);
    check_code(&other, checked);
    draw_clock();
    check_code(&other, checked);
}

/* The vector in numbers, in our order, and a code in either. */
static void checks_with_text(enum order order)
{
    char text[TEXT_ROOM];
    struct code own, other;
    draw_code(&own);
    other = beside(&own, 60);
    set_threshold(60);
    set_vector(OFFICE, &own, BY_RING);
    enrol_text(BITS);
    check_code(&other, order);
    enrol(&other, order);
    set_vector(CAMERA, &own, BY_RING);
    put_file(SCAN, text, text_of(current[CAMERA], BITS, text));
    check_by((char *[]){"door-host", "check", ".", SCAN, NULL});
}

/* The file of someone who is enrolled, with a word that it is in the other order: it is taken at
   that word, and about half of the bits differ. */
static void wrong_order(enum order order)
{
    const enum order said = order == BY_ANGLE ? BY_RING : BY_ANGLE;
    struct code own, read;
    draw_code(&own);
    set_threshold(100);
    enrol(&own, order);
    for (size_t i = 0; i < BITS; i++) {
        const size_t place = place_of(said, i / RINGS, i % RINGS);
        read.bit[i / RINGS][i % RINGS] = order == BY_ANGLE ? own.bit[place / 8][place % 8]
                                                           : own.bit[place % 64][place / 64];
    }
    check_code(&read, said);
    const int64_t found = measure(settings.terms, current[CAMERA], current[OFFICE]);
    EXPECT(found > 150 && found < 362, "in the wrong order %" PRId64 " bits differ", found);
}

static void both_orders(void)
{
    for (int i = 0; i < ORDERS * ORDERS; i++) {
        const enum order enrolled = (enum order)(i / ORDERS), checked = (enum order)(i % ORDERS);
        checks_in(enrolled, checked);
        checks_at_marks(enrolled, checked);
        checks_by_clock(enrolled, checked);
    }
    checks_with_text(BY_ANGLE);
    checks_with_text(BY_RING);
    wrong_order(BY_ANGLE);
    wrong_order(BY_RING);
}

/* Text for each measure, up to the ends of its range. */
static void enrols_text(uint32_t code, int32_t low, int32_t high)
{
    settings = (struct settings){.terms = {.code = code, .n = 3}, .threshold = 5};
    write_settings_anew();
    current[OFFICE][0] = low;
    current[OFFICE][1] = 0;
    current[OFFICE][2] = high;
    EXPECT(chmod("office/vector", 0644) == 0, "no other mode");
    enrol_text(3);
}

/* When an enrolment counts. */

/* The set is dealt, and the boxes are not told of it yet: the new vector counts. */
static void enrolled_before_begin(const struct code *own, const struct code *other)
{
    set_threshold(40);
    enrol(other, BY_ANGLE);
    deal_and_leave();
    set_vector(CAMERA, own, BY_RING);
    enrol(own, BY_ANGLE);
    answer_what_was_left();
}

/* The office box has begun with the set: the old vector counts. What the box has sent is taken down
   when it is seen, with the vector of that moment. */
static void enrolled_after_begin(const struct code *own, const struct code *other)
{
    const int64_t deadline = now_ns() + PATIENCE_NS;
    set_threshold(40);
    deal_and_leave();
    set_vector(CAMERA, own, BY_RING);
    enrol(own, BY_RING);
    check.told_later = CAMERA;
    check.told_last = false;
    begin_when_due();
    while (check.stage < MASKED)
        pump_before(deadline);
    enrol(other, BY_RING);
    answer_what_was_left();
}

/* A process that enrols one code and another in turn, each in its file. */
static pid_t enrol_on_and_on(const char *const files[2])
{
    pid_t process = fork();
    EXPECT(process >= 0, "no fork");
    if (process != 0)
        return process;
    int status = EXIT_OPEN;
    for (int i = 0; i < BESIDE && status == EXIT_OPEN; i++)
        status = run_to_end((char *[]){
            "door-host", "enrol", ".", (char *)files[i % 2], "--iris", "angles", NULL});
    _exit(status);
}

/* Both are near enough to what stands before the camera. With a part of one, or a part of each, the
   office box would fail the check. */
static void beside_checks(void)
{
    static const char *const files[] = {"template.one", "template.two"};
    int status, checks = 0;
    struct code own, one;
    draw_code(&own);
    one = beside(&own, 20);
    set_threshold(20);
    enrol(&one, BY_ANGLE);
    put_code(files[0], &own, BY_ANGLE);
    put_code(files[1], &one, BY_ANGLE);
    pid_t process = enrol_on_and_on(files);
    for (pid_t ended = 0; ended == 0 || checks < CHECKS_BESIDE; checks++) {
        check_code(&own, BY_RING);
        if (ended == 0)
            ended = waitpid(process, &status, WNOHANG);
        EXPECT(ended == 0 || ended == process, "no enrolments beside the checks");
    }
    EXPECT(WIFEXITED(status) && WEXITSTATUS(status) == EXIT_OPEN,
        "beside checks nothing is enrolled");
    iris_tally.enrolled += BESIDE;
    enrol(&own, BY_RING);
}

static void when_it_counts(void)
{
    struct code own, other;
    draw_code(&own);
    other = beside(&own, 400);
    enrolled_before_begin(&own, &other);
    enrolled_after_begin(&own, &other);
    beside_checks();
}

/* What is refused. Nothing is changed, claimed or sent by it. */

static void refuses(char *const arguments[], const char *words)
{
    char said[SAID_ROOM];
    int status = run_without_trace(arguments, ".", said);
    EXPECT(status == EXIT_TROUBLE, "%s ends with status %d and not 2; expected is: %s",
        arguments[1], status, words);
    expect_said(said, words);
    if (strcmp(arguments[1], "enrol") == 0 && strncmp(words, "usage: ", 7) != 0)
        expect_said(said, "operator: nothing was enrolled\n");
    iris_tally.refused++;
}

/* By both commands and in both orders. */
static void refuses_file(const char *file, const char *words)
{
    for (int i = 0; i < 4; i++)
        refuses((char *[]){"door-host", i % 2 == 0 ? "enrol" : "check", ".", (char *)file,
                    "--iris", (char *)ORDER[i / 2], NULL},
            words);
}

/* By both commands, as numbers. */
static void refuses_text(const char *file, const char *words)
{
    refuses((char *[]){"door-host", "enrol", ".", (char *)file, NULL}, words);
    refuses((char *[]){"door-host", "check", ".", (char *)file, NULL}, words);
}

static void wrong_sizes(void)
{
    static const uint8_t bytes[TEXT_ROOM];
    static const size_t sizes[] = {0, 1, 63, 65, 128, 512, TEXT_ROOM};
    char words[LINE_ROOM], text[TEXT_ROOM];
    for (size_t i = 0; i < sizeof sizes / sizeof *sizes; i++) {
        put_file(SCAN, bytes, sizes[i]);
        snprintf(words, sizeof words, "operator: " SCAN " has %zu bytes; an iris code has 64: give "
            "the file as the scanner wrote it, or give a vector in numbers, without --iris\n",
            sizes[i]);
        refuses_file(SCAN, words);
    }
    put_file(SCAN, text, text_of(current[OFFICE], BITS, text));
    refuses_file(SCAN, "operator: " SCAN " has 1024 bytes; an iris code has 64: give the file");
}

/* Neither as a code nor as numbers. */
static void no_plain_file_as(
    void (*refuse)(const char *file, const char *words), const char *expected)
{
    static const char *const kinds[][2] = {{"pipe", "a pipe"}, {"office", "a folder"},
        {"watch.sock", "a socket"}, {"/dev/zero", "a device"}};
    char words[LINE_ROOM];
    for (size_t i = 0; i < sizeof kinds / sizeof *kinds; i++) {
        snprintf(words, sizeof words, "operator: %s is %s; expected is %s: give that file's path\n",
            kinds[i][0], kinds[i][1], expected);
        refuse(kinds[i][0], words);
    }
    snprintf(words, sizeof words, "operator: cannot open none: No such file or directory; expected "
        "is %s: see that the path is right, and that you may read it\n", expected);
    refuse("none", words);
}

static void no_plain_file(void)
{
    EXPECT(mkfifo("pipe", 0600) == 0, "no pipe");
    no_plain_file_as(refuses_file, "an iris code's file of 64 bytes");
    no_plain_file_as(refuses_text, "a vector's file, one whole number a line");
    EXPECT(unlink("pipe") == 0, "cannot remove the pipe");
}

/* Numbers that are as many as the door takes before a zero byte, or behind one. */
struct zero_text {
    const char *bytes;
    size_t size, zero_at;
};

#define ZERO_TEXT(bytes, zero_at) {bytes, sizeof bytes - 1, zero_at}

static const struct zero_text ZERO_TEXTS[] = {
    ZERO_TEXT("0\n1\n0\n\0garbage", 7), ZERO_TEXT("0\n1\n0\n\0", 7), ZERO_TEXT("0\n1\n0\0\n", 6),
    ZERO_TEXT("0\n1\n0\0", 6), ZERO_TEXT("\0000\n1\n0\n", 1), ZERO_TEXT("0\n1\n0\n\0000\n", 7)};

static void zero_byte_is(size_t at)
{
    char words[LINE_ROOM];
    snprintf(words, sizeof words, "operator: " SCAN ": byte %zu is zero; expected is a vector's "
        "file, one whole number a line: give such a file, or an iris code's with --iris\n", at);
    refuses_text(SCAN, words);
}

/* The last one is an iris code, with the option forgotten. */
static void zero_bytes(void)
{
    static const struct code zeros;
    put_file("dealer/settings", "2 3 1\n", 6);
    for (size_t i = 0; i < sizeof ZERO_TEXTS / sizeof *ZERO_TEXTS; i++) {
        put_file(SCAN, ZERO_TEXTS[i].bytes, ZERO_TEXTS[i].size);
        zero_byte_is(ZERO_TEXTS[i].zero_at);
    }
    write_settings_anew();
    put_code(SCAN, &zeros, BY_RING);
    zero_byte_is(1);
}

/* A byte more than a vector's file may have. */
static void long_text(void)
{
    static char text[16384];
    memset(text, '0', sizeof text);
    put_file(SCAN, text, sizeof text);
    refuses_text(SCAN, "operator: " SCAN " has 16384 bytes; expected is a vector's file, one whole "
        "number a line, of at most 16383 bytes: give such a file\n");
}

/* What a door is set up for, and how that is told. */
struct other_door {
    const char *text, *words;
};

static const struct other_door OTHER_DOORS[] = {
    {"1 512 100\n", "code 1 and length 512: squared Euclid, 512 elements;"},
    {"0 512 100\n", "code 0 and length 512: scalar product, 512 elements;"},
    {"2 511 100\n", "code 2 and length 511: Hamming, 511 elements;"},
    {"2 64 10 20\n", "code 2 and length 64: Hamming, 64 elements;"},
    {"1 512 10 20\n", "code 1 and length 512: squared Euclid, 512 elements;"},
    {"1 512 table\n00:00 23:59 5\n", "code 1 and length 512: squared Euclid, 512 elements;"},
    {"2 128 table\n00:00 23:59 5\n", "code 2 and length 128: Hamming, 128 elements;"},
    {"258 512 100\n", "code 258 and length 512: a measure of no known code, 512 elements;"},
    {"2 4294967808 100\n", "code 2 and length 4294967808: Hamming, 4294967808 elements;"},
};

static void other_doors(void)
{
    char words[LINE_ROOM];
    for (size_t i = 0; i < sizeof OTHER_DOORS / sizeof *OTHER_DOORS; i++) {
        const struct other_door *door = &OTHER_DOORS[i];
        put_file("dealer/settings", door->text, strlen(door->text));
        snprintf(words, sizeof words, "operator: dealer/settings has %s an iris code needs code 2 "
            "and length 512: take a door that is set up so, or give a vector in numbers, without "
            "--iris\n", door->words);
        refuses_file(SCAN, words);
    }
    put_file("dealer/settings", "2 512\n", 6);
    refuses_file(SCAN, "operator: dealer/settings has to have three or four whole numbers");
    EXPECT(unlink("dealer/settings") == 0, "no settings");
    refuses_file(SCAN, "operator: cannot open dealer/settings: No such file");
    write_settings_anew();
}

/* Each behind the command. */
static void usages(void)
{
    static const char *const lines[][8] = {{NULL}, {".", NULL}, {".", SCAN, "more", NULL},
        {".", SCAN, "--iris", NULL}, {".", SCAN, "--iris", "Rings", NULL},
        {".", SCAN, "--iris", "", NULL}, {".", SCAN, "--iris", "ring", NULL},
        {".", SCAN, "--iris", "rings", "--iris", "rings", NULL},
        {".", SCAN, "--iris", "angles", "more", NULL}, {".", SCAN, "--rings", "rings", NULL},
        {".", SCAN, "rings", "--iris", NULL}, {".", "--iris", NULL}, {".", "--iris", "rings", NULL},
        {".", "--iris", "rings", SCAN, NULL}, {".", "--iris", "--iris", "rings", NULL},
        {"--iris", "angles", NULL}, {"--iris", SCAN, NULL}, {"--iris", "rings", ".", SCAN, NULL},
        {"--iris", SCAN, "--iris", "rings", NULL}};
    for (size_t i = 0; i < 2 * sizeof lines / sizeof *lines; i++) {
        char *arguments[10] = {"door-host", i % 2 == 0 ? "enrol" : "check"};
        memcpy(arguments + 2, lines[i / 2], sizeof lines[i / 2]);
        refuses(arguments, "usage: ");
    }
}

/* Numbers that the door's settings do not take. */
struct bad_text {
    const char *settings, *text, *words;
};

static const struct bad_text BAD_TEXTS[] = {
    {"2 3 1\n", "0\n1\n", " has 2 numbers; dealer/settings has length 3: give a vector with so "
        "many\n"},
    {"2 3 1\n", "0\n1\n0\n1\n", " has 4 numbers; dealer/settings has length 3: "},
    {"2 3 1\n", "", " has 0 numbers; dealer/settings has length 3: "},
    {"2 3 1\n", "0\n1\n2\n", ": number 3 is 2; with code 2 of dealer/settings a vector has numbers "
        "from 0 to 1: give one that is made for this measure\n"},
    {"2 3 1\n", "-1\n1\n1\n", ": number 1 is -1; with code 2 of dealer/settings"},
    {"0 3 1\n", "1023\n1024\n1024\n", ": number 2 is 1024; with code 0 of dealer/settings a vector "
        "has numbers from -1024 to 1023: "},
    {"0 3 1\n", "1023\n-1025\n0\n", ": number 2 is -1025; with code 0 "},
    {"1 3 1\n", "1024\n0\n0\n", ": number 1 is 1024; with code 1 "},
    {"1 3 1 9\n", "0\n0\n-1025\n", ": number 3 is -1025; with code 1 "},
    {"1 3 1\n", "0\nx\n0\n", ": line 2 is no whole number, or one too many (at most 512); an iris "
        "code's file is given with --iris\n"},
    {"3 3 1\n", "0\n0\n0\n", "dealer/settings has code 3 and length 3; a code is 0 to 2, and a "
        "length 1 to 512: put dealer/settings right first\n"},
    {"2 0 1\n", "", "dealer/settings has code 2 and length 0; "},
    {"2 513 1\n", "0\n", "dealer/settings has code 2 and length 513; "},
    {"2 3\n", "0\n0\n0\n", "dealer/settings has to have three or four whole numbers"},
};

static void bad_texts(void)
{
    for (size_t i = 0; i < sizeof BAD_TEXTS / sizeof *BAD_TEXTS; i++) {
        const struct bad_text *bad = &BAD_TEXTS[i];
        put_file("dealer/settings", bad->settings, strlen(bad->settings));
        put_file(SCAN, bad->text, strlen(bad->text));
        refuses((char *[]){"door-host", "enrol", ".", SCAN, NULL}, bad->words);
    }
    write_settings_anew();
    refuses((char *[]){"door-host", "enrol", ".", "none", NULL}, "cannot open none: No such");
    refuses((char *[]){"door-host", "enrol", "none", SCAN, NULL}, "cannot go to none: No such");
}

static void refusals(void)
{
    struct code code;
    draw_code(&code);
    wrong_sizes();
    no_plain_file();
    zero_bytes();
    long_text();
    put_code(SCAN, &code, BY_ANGLE);
    other_doors();
    usages();
    bad_texts();
}

/* Enrolments that come to nothing, or are cut short. */

static char *const ENROL[] = {"door-host", "enrol", ".", TEMPLATE, "--iris", "angles", NULL};

#define NOTHING "operator: nothing was enrolled\n"
#define PERHAPS                                                                                    \
    "operator: office/vector has the new vector, but a power cut may bring the old one back: "     \
    "enrol again\n"

/* Another one is under way. */
static void one_at_a_time(void)
{
    char said[SAID_ROOM];
    int file = open("enrol.running", O_RDWR | O_CREAT | O_CLOEXEC, 0600);
    EXPECT(file >= 0 && flock(file, LOCK_EX | LOCK_NB) == 0, "cannot claim the enrolment");
    EXPECT(run_and_hear(ENROL, said) == EXIT_TROUBLE, "two enrolments at one time");
    expect_said(said, "operator: another process has claimed enrol.running");
    expect_said(said, NOTHING);
    EXPECT(close(file) == 0, "cannot give up the enrolment");
    expect_enrolled();
}

/* The disk takes a part of the new file alone, and of the log nothing more. */
static void full_disk(void)
{
    struct rlimit usual, small;
    EXPECT(getrlimit(RLIMIT_FSIZE, &usual) == 0, "no limit");
    small = (struct rlimit){.rlim_cur = NO_ROOM, .rlim_max = usual.rlim_max};
    signal(SIGXFSZ, SIG_IGN);
    EXPECT(setrlimit(RLIMIT_FSIZE, &small) == 0, "no smaller limit");
    int status = run_to_end(ENROL);
    EXPECT(setrlimit(RLIMIT_FSIZE, &usual) == 0, "no usual limit");
    signal(SIGXFSZ, SIG_DFL);
    EXPECT(status == EXIT_TROUBLE, "on a full disk an enrolment ends with status %d", status);
    expect_enrolled();
}

/* One that was killed has left a file, which others may read. */
static void left_behind(const struct code *code)
{
    put_file("office/vector.tmp", "0\n", 2);
    EXPECT(chmod("office/vector.tmp", 0644) == 0, "no other mode");
    enrol(code, BY_RING);
}

static void fails(const char *trouble, const char *outcome)
{
    char said[SAID_ROOM];
    int status = run_and_hear(ENROL, said);
    EXPECT(status == EXIT_TROUBLE, "an enrolment ends with status %d; expected is: %s", status,
        trouble);
    expect_said(said, trouble);
    expect_said(said, outcome);
}

/* The new file cannot be made. */
static void no_new_file(void)
{
    EXPECT(mkdir("office/vector.tmp", 0700) == 0, "no folder");
    fails("operator: cannot remove office/vector.tmp: Is a directory\n", NOTHING);
    EXPECT(rmdir("office/vector.tmp") == 0, "no folder");
    expect_enrolled();
}

static void no_office(void)
{
    EXPECT(rename("office", "elsewhere") == 0, "no office");
    fails("operator: cannot make office/vector.tmp: No such file or directory\n", NOTHING);
    EXPECT(rename("elsewhere", "office") == 0, "no office");
    expect_enrolled();
}

/* At the new file, and at the folder, when the file is in its place. */
static void failing_disk(const struct code *new)
{
    EXPECT(setenv(FORCING_FAILS, "1", 1) == 0, "no setenv");
    fails("operator: cannot force to disk office/vector.tmp: Input/output error\n", NOTHING);
    expect_enrolled();
    EXPECT(setenv(FORCING_FAILS, "2", 1) == 0, "no setenv");
    fails("operator: cannot force to disk office: Input/output error\n", PERHAPS);
    EXPECT(unsetenv(FORCING_FAILS) == 0, "no unsetenv");
    set_vector(OFFICE, new, BY_RING);
    EXPECT(is_enrolled(current[OFFICE], BITS), "the new vector is not in its place");
    enrol(new, BY_ANGLE);
}

/* Killed at that moment, and with its power gone or not: the old vector is there, or the new one.
   Whether it was killed. */
static bool cut_short(const char *moment, unsigned at)
{
    static int32_t old[BITS];
    char said[SAID_ROOM];
    struct code code;
    draw_code(&code);
    enrol(&code, BY_RING);
    memcpy(old, current[OFFICE], sizeof old);
    draw_code(&code);
    put_code(TEMPLATE, &code, BY_ANGLE);
    set_vector(OFFICE, &code, BY_RING);
    bool killed = run_cut_short(ENROL, moment, at, said);
    if (chance(2) == 0)
        cut_power(OFFICE);
    EXPECT(is_enrolled(current[OFFICE], BITS) || (killed && is_enrolled(old, BITS)),
        "an enrolment that ends %s %u leaves neither vector", moment, at);
    iris_tally.cuts += killed;
    return killed;
}

static void cut_short_at(const char *moment, unsigned least)
{
    unsigned at = 1;
    for (unsigned i = 0; i < CUTS * MOMENTS_MOST && at != 0; i++) {
        bool killed = cut_short(moment, at);
        if (!killed) {
            EXPECT(at > least, "an enrolment has only %u moments %s", at - 1, moment);
            at = 0;
        } else if (i % CUTS == CUTS - 1) {
            at++;
        }
    }
    EXPECT(at == 0, "an enrolment does not end");
}

static void come_to_nothing(void)
{
    struct code own, other;
    draw_code(&own);
    draw_code(&other);
    set_threshold(20);
    left_behind(&own);
    put_code(TEMPLATE, &other, BY_ANGLE);
    one_at_a_time();
    full_disk();
    no_new_file();
    stop_all();
    no_office();
    failing_disk(&other);
    cut_short_at(BEFORE_STEP, 4);
    cut_short_at(AFTER_RENAME, 1);
    start_all();
    enrol(&own, BY_RING);
    check_code(&own, BY_ANGLE);
}

/* There was none before. */
static void first_enrolment(void)
{
    struct code own;
    draw_code(&own);
    EXPECT(unlink("office/vector") == 0, "no office/vector");
    enrol(&own, BY_ANGLE);
}

void irises(void)
{
    set_threshold(100);
    first_enrolment();
    single_bits();
    both_orders();
    when_it_counts();
    refusals();
    come_to_nothing();
    enrols_text(DOOR_SCALAR, -1024, 1023);
    enrols_text(DOOR_EUCLID, -1024, 1023);
    enrols_text(DOOR_HAMMING, 0, 1);
}
