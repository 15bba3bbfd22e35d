/*
 * Runs some hundreds of checks on the four processes of a door while parts are killed at random
 * moments, lose what they had not forced to disk, and start again from their files. All messages
 * go through this program, which holds them against what may be seen (observe.c): no number is
 * used twice, every answered check is right. c/host/test runs it.
 *
 *     host-test DOOR-HOST FOLDER [SEED]
 */
#include "host.h"
#include "test.h"

#include <errno.h>
#include <inttypes.h>
#include <stdarg.h>
#include <stdio.h>
#include <stdlib.h>
#include <string.h>
#include <sys/prctl.h>
#include <sys/random.h>
#include <sys/stat.h>
#include <unistd.h>

#define KILLS 350              /* at the least, in the middle of a check */
#define KILLS_AT_STAGE 20      /* at the least, at each stage of a check */
#define KILLS_AHEAD 30         /* at the least, of a box with a set waiting, and of a dealer with
                                  one dealt ahead */
#define KILLS_MOST 1500        /* if these do not bring it about, the test fails */
#define TURNS 21               /* checks of which the median time is taken */
#define CHANGES_OF_RULE 30     /* at the least, from a threshold to marks, and back */
#define BY_CLOCK 50            /* sets at the least that are handed out by a table's row */
#define OTHER_ROW 10           /* at the least, of which another row's time comes before their use */

static const char *const PLACE[PLACES] = {"P - 1", "P", "Q", "Q + 1"};

_Noreturn void fail_at(const char *file, int line, const char *format, ...)
{
    va_list arguments;
    va_start(arguments, format);
    fprintf(stderr, "%s:%d: ", file, line);
    vfprintf(stderr, format, arguments);
    fputc('\n', stderr);
    va_end(arguments);
    exit(EXIT_FAILURE);
}

/* Knuth's MMIX numbers. */
static uint64_t drawn;

void seed_chance(uint64_t seed)
{
    drawn = seed;
}

uint64_t chance(uint64_t below)
{
    drawn = drawn * 6364136223846793005u + 1442695040888963407u;
    return (drawn >> 33) % below;
}

static int32_t element(uint32_t code)
{
    return code == DOOR_HAMMING ? (int32_t)chance(2) : (int32_t)chance(2048) - 1024;
}

static void draw_vector(enum part box)
{
    for (size_t i = 0; i < settings.terms.n; i++)
        current[box][i] = element(settings.terms.code);
}

static void write_vector(const char *path, const int32_t *vector)
{
    FILE *file = fopen(path, "w");
    EXPECT(file != NULL, "cannot make %s", path);
    for (size_t i = 0; i < settings.terms.n; i++)
        fprintf(file, "%" PRId32 "\n", vector[i]);
    EXPECT(fclose(file) == 0, "cannot write %s", path);
}

struct range range_of(uint32_t code)
{
    static const struct range ranges[] = {{-(1 << 30), 1 << 30}, {0, INT32_MAX}, {0, 513}};
    return ranges[code];
}

int32_t within(struct range r, int64_t number)
{
    return (int32_t)(number < r.low ? r.low : number > r.high ? r.high : number);
}

static int32_t anywhere(struct range r)
{
    return within(r, r.low + (int64_t)chance((uint64_t)(r.high - r.low) + 1));
}

static void set_threshold(int64_t threshold)
{
    settings = (struct settings){.terms = settings.terms, .threshold = (int32_t)threshold};
}

/* Marks so far apart, with the first one so far below the measure. */
static void set_marks(int64_t found, int64_t below, int64_t width)
{
    const struct range r = range_of(settings.terms.code);
    const int32_t p = within(r, found - below);
    settings = (struct settings){
        .terms = settings.terms, .between = true, .p = p, .q = within(r, p + width)};
}

/* The threshold at, one below or one above the measure, or anywhere in its range. */
static void draw_threshold(int64_t found)
{
    const struct range r = range_of(settings.terms.code);
    if (chance(8) == 0)
        set_threshold(anywhere(r));
    else
        set_threshold(within(r, found + (int64_t)chance(3) - 1));
}

/* Marks that the measure is at, beside or between, or anywhere in their range. */
static void draw_marks(int64_t found)
{
    const struct range r = range_of(settings.terms.code);
    const int64_t width = (int64_t)chance(2) * (int64_t)chance(1000);
    const int64_t below[] = {-1, 0, width / 2, width, width + 1};
    if (chance(8) == 0)
        set_marks(anywhere(r), 0, (int64_t)chance(INT32_MAX));
    else
        set_marks(found, below[chance(sizeof below / sizeof *below)], width);
}

static void draw_rule(void)
{
    static void (*const draws[])(int64_t) = {
        draw_threshold, draw_threshold, draw_marks, draw_marks, draw_table};
    draws[chance(sizeof draws / sizeof *draws)](
        measure(settings.terms, current[CAMERA], current[OFFICE]));
}

void write_settings_anew(void)
{
    char text[TABLE_TEXT];
    if (settings.by_clock) {
        put_file("dealer/settings", text, (size_t)table_text(text));
        return;
    }
    int size = snprintf(text, sizeof text, "%" PRIu32 " %zu %" PRId32, settings.terms.code,
        settings.terms.n, settings.between ? settings.p : settings.threshold);
    if (settings.between)
        size += snprintf(text + size, sizeof text - (size_t)size, " %" PRId32, settings.q);
    text[size] = '\n';
    put_file("dealer/settings", text, (size_t)size + 1);
}

static enum change some_change(void)
{
    static const enum change changes[] = {
        VECTORS, VECTORS, VECTORS, VECTORS, RULE, CODE, ALL, ALL};
    return changes[chance(sizeof changes / sizeof *changes)];
}

static void draw_settings(enum change change)
{
    static const size_t lengths[] = {1, 2, 16, 17, 128, 511, 512};
    if (change == CODE || change == ALL) {
        settings.terms.code = (uint32_t)chance(3);
        if (change == ALL)
            settings.terms.n = lengths[chance(sizeof lengths / sizeof *lengths)];
        draw_vector(CAMERA);
        draw_vector(OFFICE);
    }
    draw_rule();
    write_settings_anew();
}

static void draw_check(enum change change)
{
    if (change != NOTHING && chance(2) == 0)
        draw_clock();
    if (change > VECTORS)
        draw_settings(change);
    else if (change == VECTORS && chance(2) == 0)
        draw_vector((enum part)chance(2)); /* else those before, which are near the turn */
    write_vector("office/vector", current[OFFICE]);
}

static void send_deal(void)
{
    const struct message deal = {.kind = HOST_DEAL, .sender = OPERATOR};
    send_surely(DEALER, &deal);
}

static void send_begin(enum part box)
{
    struct message begin = {.kind = HOST_BEGIN, .sender = OPERATOR, .number = check.number};
    if (box == CAMERA) {
        begin.count = settings.terms.n;
        for (size_t i = 0; i < settings.terms.n; i++)
            begin.words[i] = (uint32_t)current[CAMERA][i];
    }
    send_surely(box, &begin);
}

/* Kills. */

static unsigned long begun, kills[PARTS], kills_at[STAGES], kills_with[PARTS][STOCKS];
static unsigned long asked_again, begun_anew;
static int64_t usual_ns = 20000000; /* an undisturbed check's time */
static bool box_lost_power;         /* since the last check that was answered */

/* When a part is to be killed: after a time, or when so many messages of the check were seen. */
struct plan {
    bool due;
    enum part victim; /* PARTS: the power fails at all four */
    int64_t at_ns;
    unsigned at_message;
};

static struct plan draw_plan(void)
{
    struct plan p = {.due = true, .at_ns = INT64_MAX, .at_message = UINT32_MAX};
    p.victim = chance(8) == 0 ? PARTS : (enum part)chance(4);
    if (check.pace == STUCK || chance(2) == 0)
        p.at_ns = now_ns() + (int64_t)chance((uint64_t)(usual_ns + usual_ns / 8));
    else
        p.at_message = 1 + (unsigned)chance(9);
    return p;
}

static bool is_victim(const struct plan *p, enum part part)
{
    return p->victim == PARTS || p->victim == part;
}

static void lose_power(enum part part)
{
    lose_stock(part);
    cut_power(part);
    inspect_dead(part);
    start_child(part);
    if (part == CAMERA || part == OFFICE)
        box_lost_power = true;
}

/* All victims die before any loses its power or starts: what each had sent is then all there is,
   and is seen before its files are looked at. */
static void carry_out(struct plan *p)
{
    p->due = false;
    for (enum part part = CAMERA; part <= LOCK; part++)
        if (is_victim(p, part)) {
            kill_child(part);
            kills[part]++;
            kills_at[check.stage]++;
        }
    pump_what_is_there();
    for (enum part part = CAMERA; part <= LOCK; part++)
        if (is_victim(p, part)) {
            inspect_dead(part);
            kills_with[part][stock_of(part)]++;
            lose_power(part);
        }
}

/* A box that had opened the set before it was killed must not put this vector under its mask, not
   even if its half is on the stick again. */
static void begin_again(enum part box)
{
    draw_vector(box);
    if (chance(2) == 0) {
        hear_from(box); /* it has looked through the stick by now */
        put_half_back(box, check.number);
    }
    if (box == OFFICE)
        write_vector("office/vector", current[OFFICE]);
    send_begin(box);
}

/* Someone impatient asks again for what the killed part had to do. */
static void ask_again(const struct plan *p)
{
    asked_again++;
    if (is_victim(p, DEALER) && check.number == 0)
        send_deal();
    for (enum part box = CAMERA; box <= OFFICE; box++)
        if (is_victim(p, box) && check.told[box])
            begin_again(box);
    if (is_victim(p, LOCK) && check.stage == ANSWERS) {
        send_surely(LOCK, &answers[CAMERA]);
        send_surely(LOCK, &answers[OFFICE]);
    }
}

static bool is_due(const struct plan *p)
{
    return p->due && (now_ns() >= p->at_ns || check.messages >= p->at_message);
}

static bool is_told_later(enum part box)
{
    return box == check.told_later
        && (check.stage < MASKED || (check.told_last && !check.announced[box]));
}

void begin_when_due(void)
{
    for (enum part box = CAMERA; box <= OFFICE; box++)
        if (!check.told[box] && check.number != 0 && !is_told_later(box)) {
            check.told[box] = true;
            send_begin(box);
            carry_late();
        }
}

/* The program's own operator sees to failures itself. */
static bool is_over(void)
{
    return check.stage == REPORTED || (check.failed && !operator_runs);
}

/* As the operator does: where a box has lost the set that was dealt ahead, another is asked for.
   One more must do. */
static void begin_anew_when_lost(void)
{
    if (!check.failed || !box_lost_power || check.sets > 1 || operator_runs)
        return;
    begun_anew++;
    check.sets++;
    check.failed = check.told[CAMERA] = check.told[OFFICE] = false;
    check.number = 0;
    check.stage = ASKED;
    send_deal();
}

static enum part some_box_or_none(void)
{
    uint64_t drawn_box = chance(3);
    return drawn_box == 2 ? PARTS : (enum part)drawn_box;
}

/* A check that is about to begin. */
static void clear_check(void)
{
    memset(&check, 0, sizeof check);
    check.told_later = some_box_or_none();
    check.told_last = deals_ahead && chance(2) == 0;
    check.word_first = PARTS;
    check.sets = 1;
    begun++;
}

static void start_check(enum change change)
{
    clear_check();
    draw_check(change);
}

/* One check in which a part is killed. It may be answered or not; the next must find all well. */
static void disturbed_check(void)
{
    start_check(some_change());
    check.pace = (enum pace)chance(STUCK + 1);
    struct plan p = draw_plan();
    disorder = true;
    send_deal();
    const int64_t give_up = now_ns() + 2 * usual_ns;
    while (p.due && now_ns() < give_up) {
        pump_until(p.at_ns < give_up ? p.at_ns : give_up);
        if (is_due(&p))
            break;
        begin_when_due();
        begin_anew_when_lost();
    }
    carry_out(&p);
    check.told_later = PARTS;
    if (chance(2) == 0)
        ask_again(&p);
    settle();
    begin_when_due();
    settle();
    disorder = false;
    if (carry_late_announcement())
        settle();
}

static void expect_answer(void)
{
    const int64_t deadline = now_ns() + PATIENCE_NS;
    while (!is_over()) {
        pump_before(deadline);
        begin_anew_when_lost();
        if (!operator_runs)
            begin_when_due();
    }
    EXPECT(check.stage == REPORTED, "set %" PRIu64 ": an undisturbed check came to nothing",
        check.number);
    box_lost_power = false;
}

/* When all is quiet, the dealer and both boxes are ready for the next check. */
static void expect_ready(void)
{
    settle();
    EXPECT(ready[DEALER] == deals_ahead, "the dealer has %s dealt ahead",
        deals_ahead ? "no set" : "a set");
    for (enum part box = CAMERA; box <= OFFICE; box++)
        EXPECT(ready[box] == deals_ahead, "the %s has %s loaded ahead", PART[box].title,
            deals_ahead ? "no set" : "a set");
}

void undisturbed_check(enum change change)
{
    start_check(change);
    check.pace = deals_ahead && chance(2) == 0 ? SLOW : USUAL;
    if (check.pace == USUAL)
        check.word_first = some_box_or_none();
    const int64_t start = now_ns();
    send_deal();
    expect_answer();
    usual_ns = (3 * usual_ns + (now_ns() - start)) / 4;
    expect_ready();
}

void check_by(char *const arguments[])
{
    bool open = has_to_open(&settings, current[CAMERA], current[OFFICE]);
    clear_check();
    operator_runs = true;
    int process = start_program(arguments);
    expect_answer();
    operator_runs = false;
    EXPECT(end_of(process) == (open ? EXIT_OPEN : EXIT_SHUT),
        "the operator's exit status is wrong");
    expect_ready();
}

void operators_check(enum change change)
{
    char *const arguments[] = {"door-host", "check", ".", "picture", NULL};
    draw_check(change);
    write_vector("picture", current[CAMERA]);
    check_by(arguments);
}

int64_t draw_pair(uint32_t code)
{
    settings.terms = (struct door_terms){.code = code, .n = 128};
    draw_vector(CAMERA);
    draw_vector(OFFICE);
    return measure(settings.terms, current[CAMERA], current[OFFICE]);
}

void check_as_set(void)
{
    write_settings_anew();
    undisturbed_check(NOTHING);
}

/* The measure is P - 1, P, between the marks, Q and Q + 1. */
static void checks_at_marks(uint32_t code, int64_t width)
{
    const int64_t below[] = {-1, 0, width / 2, width, width + 1};
    for (size_t i = 0; i < sizeof below / sizeof *below; i++) {
        set_marks(draw_pair(code), below[i], width);
        check_as_set();
    }
}

/* A threshold that is met, then marks of which the first is that threshold and which are not met,
   and back: with the same vectors, and all other numbers as they were. */
static void checks_to_marks_and_back(uint32_t code)
{
    const int64_t found = draw_pair(code);
    const int64_t threshold = code == DOOR_SCALAR ? found - 5 : found + 5;
    for (int turn = 0; turn < 4; turn++) {
        if (turn % 2 == 0)
            set_threshold(threshold);
        else
            set_marks(threshold, 0, 2);
        check_as_set();
        EXPECT(has_to_open(&settings, current[CAMERA], current[OFFICE]) == (turn % 2 == 0),
            "the test's own rule is wrong");
    }
}

/* One mark moves across the measure, the other one stays: shut, open, shut. */
static void checks_with_one_mark_moved(uint32_t code)
{
    static const struct { int64_t below, width; } moves[] = {{-1, 2}, {3, 6}, {3, 2}};
    const int64_t found = draw_pair(code);
    for (size_t i = 0; i < sizeof moves / sizeof *moves; i++) {
        set_marks(found, moves[i].below, moves[i].width);
        check_as_set();
    }
}

/* The threshold 0, and marks that are both 0: no number tells them apart. */
static void checks_at_zero(void)
{
    while (draw_pair(DOOR_SCALAR) <= 0)
        ;
    for (int turn = 0; turn < 3; turn++) {
        if (turn % 2 == 0)
            set_threshold(0);
        else
            set_marks(0, 0, 0);
        check_as_set();
    }
}

/* The threshold is the measure, or beside it; the same with marks. */
static void checks_at_the_turn(void)
{
    for (uint32_t code = DOOR_SCALAR; code <= DOOR_HAMMING; code++) {
        for (int64_t beside = -1; beside <= 1; beside++) {
            set_threshold(draw_pair(code) + beside);
            check_as_set();
        }
        checks_at_marks(code, 0);
        checks_at_marks(code, 1 + (int64_t)chance(20));
        checks_to_marks_and_back(code);
        checks_with_one_mark_moved(code);
    }
    checks_at_zero();
}

void expect_told(long since, enum part part, const char *words)
{
    char said[SAID_ROOM], line[2 * PATH_ROOM];
    hear_log(since, said);
    snprintf(line, sizeof line, "%s: set %" PRIu64 ": %s", PART[part].title, check.number, words);
    EXPECT(strstr(said, line) != NULL, "nobody says: %s; but: %s", line, said);
}

/* The dealer tells in words what it deals for, and a box what it knows of that. The set is not one
   that was dealt ahead: its half is loaded when the check begins. */
static void told_in_words(enum part box)
{
    draw_pair(DOOR_EUCLID);
    set_marks(5, 0, 895);
    long since = end_of_log();
    check_as_set();
    expect_told(since, DEALER, "dealt: squared Euclid, 128 elements, opens from 5 to 900;");
    expect_told(since, box, "loaded: squared Euclid, 128 elements, between two marks 895 apart\n");
    set_threshold(900);
    since = end_of_log();
    check_as_set();
    expect_told(since, DEALER, "dealt: squared Euclid, 128 elements, opens up to 900;");
    expect_told(since, box, "loaded: squared Euclid, 128 elements, by a threshold\n");
    draw_pair(DOOR_SCALAR);
    since = end_of_log();
    check_as_set();
    expect_told(since, DEALER, "dealt: scalar product, 128 elements, opens from 900 on;");
    expect_told(since, DEALER, "handed out\n");
}

static void switch_off_and_on(enum part part)
{
    kill_child(part);
    pump_what_is_there();
    lose_power(part);
    hear_from(part);
}

/* A box that has lost the set that was dealt ahead fails the check, and the operator gets it
   answered with another set. The clock stays too: at another row's time that set is not used. */
static void operator_asks_again(enum part box)
{
    switch_off_and_on(box);
    unsigned long failed = tally.failed;
    operators_check(NOTHING);
    EXPECT(tally.failed > failed, "the %s did not miss the set that it had lost",
        PART[box].title);
}

void operator_without_set(void)
{
    char *const arguments[] = {"door-host", "check", ".", "picture", NULL};
    const int64_t deadline = now_ns() + PATIENCE_NS;
    memset(&check, 0, sizeof check);
    write_vector("picture", current[CAMERA]);
    operator_runs = true;
    int process = start_program(arguments);
    while (!check.failed)
        pump_before(deadline);
    EXPECT(end_of(process) == EXIT_TROUBLE, "the operator ends well without a set");
    operator_runs = false;
}

/* A vector with an element out of range is refused, and another set would not help. */
static void operator_gives_up(void)
{
    char *const arguments[] = {"door-host", "check", ".", "picture", NULL};
    const int64_t deadline = now_ns() + PATIENCE_NS;
    unsigned long dealt = tally.dealt;
    start_check(ALL);
    current[CAMERA][0] = 1024;
    write_vector("picture", current[CAMERA]);
    operator_runs = true;
    int process = start_program(arguments);
    while (!check.failed)
        pump_before(deadline);
    settle();
    EXPECT(end_of(process) == EXIT_TROUBLE, "the operator takes a vector that is out of range");
    pump_what_is_there();
    operator_runs = false;
    EXPECT(check.why == DOOR_OUT_OF_RANGE, "it is refused by %" PRIu32, check.why);
    EXPECT(tally.dealt == dealt + 1, "the operator tries another set with a refused vector");
    draw_vector(CAMERA);
}

/* Refusals. */

/* A part with a last number that is missing, torn or damaged must not start. */
static void refuses_last(enum part part, const void *bytes, size_t size)
{
    char path[PATH_ROOM];
    char *const arguments[] = {"door-host", (char *)PART[part].command, ".", NULL};
    snprintf(path, sizeof path, "%s/last", PART[part].command);
    EXPECT(unlink(path) == 0, "cannot remove %s", path);
    if (bytes != NULL)
        put_file(path, bytes, size);
    EXPECT(run_to_end(arguments) == EXIT_TROUBLE, "the %s starts without knowing its last number",
        PART[part].title);
}

static void damaged_numbers(enum part part)
{
    char path[PATH_ROOM], right[PATH_ROOM], wrong[PATH_ROOM];
    size_t size;
    kill_child(part);
    snprintf(path, sizeof path, "%s/last", PART[part].command);
    EXPECT(read_file(path, right, sizeof right, &size), "cannot read %s", path);
    for (size_t cut = 0; cut < size; cut += 1 + chance(8))
        refuses_last(part, right, cut);
    for (int i = 0; i < 4; i++) {
        memcpy(wrong, right, size);
        wrong[chance(size)] ^= 1;
        refuses_last(part, wrong, size);
    }
    memset(wrong, 0, sizeof wrong);
    refuses_last(part, wrong, size);
    refuses_last(part, NULL, 0);
    EXPECT(write_durably(PART[part].command, "last", right, size), "cannot put %s back", path);
    start_child(part);
    hear_from(part);
}

/* The settings are others than before: the set that was dealt ahead is of no use. */
static void draw_other_rule(void)
{
    settings = in_force(&settings);
    int32_t *first = settings.between ? &settings.p : &settings.threshold;
    *first += *first > 0 ? -1 : 1;
    if (settings.between && settings.q < settings.p)
        settings.q = settings.p;
    write_settings_anew();
}

void deal_and_leave(void)
{
    const int64_t deadline = now_ns() + PATIENCE_NS;
    start_check(VECTORS);
    draw_other_rule();
    send_deal();
    while (check.number == 0)
        pump_before(deadline);
    settle(); /* nobody looks at the sticks any more */
}

void answer_what_was_left(void)
{
    check.told_later = PARTS;
    begin_when_due();
    expect_answer();
    settle();
}

/* A half that was cut to so many bytes, or has one bit changed at that place, of a set that was not
   dealt ahead: one that was is in the box already. */
static void refuses_half(enum part box, size_t cut_to, size_t changed, uint32_t why)
{
    uint8_t half[DOOR_HALF_MOST + 1];
    size_t size;
    deal_and_leave();
    const int64_t deadline = now_ns() + PATIENCE_NS;
    EXPECT(read_half(box, check.number, half, &size) && changed < size, "no half");
    half[changed] ^= 1;
    EXPECT(write_half(box, check.number, half, cut_to < size ? cut_to : size), "no half");
    send_begin(box);
    while (!check.failed)
        pump_before(deadline);
    EXPECT(check.why == why, "a damaged half is refused by %" PRIu32, check.why);
    put_half_back(box, check.number); /* else it would look like one that was dealt twice */
    settle();
}

/* A half that no deal writes: its last block is missing. The box says what may be the cause. */
static void refuses_shorter_half(enum part box)
{
    const size_t blocks_4 = 17; /* the least length with more than the fewest blocks */
    const long since = end_of_log();
    settings.terms.n = blocks_4;
    draw_vector(CAMERA);
    draw_vector(OFFICE);
    const size_t size = DOOR_HALF(blocks_4);
    refuses_half(box, size - DOOR_BLOCK, size - 1, DOOR_BAD_CONTENT);
    expect_told(since, box, "the load was refused (11): the half is for another door or box, is "
        "from another version");
}

void refuses_settings(const char *text, uint32_t why, const char *words)
{
    char said[SAID_ROOM];
    const int64_t deadline = now_ns() + PATIENCE_NS;
    const uint64_t last = durable_last(DEALER);
    const long since = end_of_log();
    put_file("dealer/settings", text, strlen(text));
    memset(&check, 0, sizeof check);
    send_deal();
    while (!check.failed)
        pump_before(deadline);
    settle();
    hear_log(since, said);
    EXPECT(check.why == why, "settings %s: refused by %" PRIu32, text, check.why);
    EXPECT(strstr(said, words) != NULL, "settings %s: nobody says: %s; but: %s", text, words, said);
    EXPECT(durable_last(DEALER) == last, "settings %s: a number is spent", text);
}

static void bad_settings(void)
{
    static const char three_or_four[] =
        "dealer/settings has to have three or four whole numbers: measure code, length, and a "
        "threshold or two marks";
    static const char *const unread[] = {"", "1 128", "1 128 5 900 7", "1 128 5 x", "1 128 5 9.5",
        "1 128 5 2147483648", "1 128 5, 900", "1 128 x 900"};
    for (size_t i = 0; i < sizeof unread / sizeof *unread; i++)
        refuses_settings(unread[i], DOOR_ACCEPTED, three_or_four);
    static const char in_order[] =
        "(13): the second mark is below the first, or they are too far apart: at most "
        "2,147,483,647; no set was dealt: put dealer/settings right";
    refuses_settings("1 128 900 899\n", DOOR_BAD_MARKS, in_order);
    refuses_settings("0 128 -1073741824 1073741824\n", DOOR_BAD_MARKS, in_order);
    refuses_settings("2 128 5 514\n", DOOR_OUT_OF_RANGE,
        "the deal was refused (8): a mark is outside its measure's range: Hamming takes 0 to 513; "
        "no set was dealt");
    refuses_settings("2 128 600\n", DOOR_OUT_OF_RANGE,
        "(8): the threshold is outside its measure's range: Hamming takes 0 to 513; no set");
    lose_stock(DEALER); /* a set dealt ahead is given up where the settings are others */
    write_settings_anew();
    undisturbed_check(VECTORS);
}

static void damaged_halves(enum part box)
{
    refuses_half(box, DOOR_HALF_MOST, 12 + chance(500), DOOR_BAD_BLOCK);
    refuses_half(box, DOOR_HALF_MOST, 8, DOOR_BAD_BLOCK); /* the block's place */
    refuses_half(box, 3 * DOOR_BLOCK - 1, 0, DOOR_WRONG_LENGTH);
    refuses_half(box, 0, 0, DOOR_WRONG_LENGTH);
    refuses_shorter_half(box);
}

void refuses_spent_half(enum part box, uint64_t number)
{
    const int64_t deadline = now_ns() + PATIENCE_NS;
    put_half_back(box, number);
    check.number = number;
    check.failed = false;
    send_begin(box);
    while (!check.failed)
        pump_before(deadline);
    EXPECT(check.why == DOOR_WRONG_NUMBER, "a spent half is refused by %" PRIu32, check.why);
}

/* The dealer's word that a set is dealt ahead comes a second time, and its half is there again. */
static void announce_again(enum part box)
{
    const struct message ahead = {.kind = HOST_AHEAD, .sender = DEALER, .number = newest_ahead,
        .words = {box}, .count = 1};
    put_half_back(box, newest_ahead);
    send_surely(box, &ahead);
    hear_from(box);
    EXPECT(!ready[box], "the %s has loaded a spent half ahead", PART[box].title);
}

/* A check that goes on until each box has sent its masked vector and has the next set waiting. */
static void begin_and_stop(void)
{
    const int64_t deadline = now_ns() + PATIENCE_NS;
    start_check(VECTORS);
    check.told_later = PARTS;
    check.pace = STUCK;
    send_deal();
    while (!check.told[OFFICE] || !check.announced[OFFICE]) {
        pump_before(deadline);
        begin_when_due();
    }
    settle();
}

/* A check behind one that came to nothing: the box that is told later gets the other's masked
   vector while its own set still waits. */
static void check_behind_a_stuck_one(enum part told_later)
{
    begin_and_stop();
    start_check(VECTORS);
    check.told_later = told_later;
    send_deal();
    expect_answer();
    expect_ready();
}

/* The half of a set that was loaded ahead: the set was used, or lost with the box's power, when it
   was open or while it waited. */
static void spent_halves_ahead(enum part box)
{
    undisturbed_check(VECTORS);
    refuses_spent_half(box, check.number);
    expect_ready(); /* the set behind it is not lost by that */
    switch_off_and_on(box);
    refuses_spent_half(box, newest_ahead);
    announce_again(box);
    undisturbed_check(VECTORS);
    begin_and_stop();
    EXPECT(stock_of(box) == WAITING_AHEAD, "no set waits at the %s", PART[box].title);
    switch_off_and_on(box);
    announce_again(box);
    refuses_spent_half(box, newest_ahead);
    undisturbed_check(VECTORS);
}

/* Both answers are 1, of this set and from the boxes by all that they say. They sum to 2. */
static void send_answers_that_do_not_join(void)
{
    for (enum part box = CAMERA; box <= OFFICE; box++) {
        struct message answer = answers[box];
        answer.number = check.number;
        answer.words[0] = 1;
        send_surely(LOCK, &answer);
    }
}

/* In the log behind that place the lock tells of such answers, and what may be the cause. */
static void expect_told_of_versions(long since)
{
    char said[SAID_ROOM], refused[PATH_ROOM];
    hear_log(since, said);
    snprintf(refused, sizeof refused, "lock: set %" PRIu64 ": the join was refused (12)",
        check.number);
    const char *told = strstr(said, refused);
    EXPECT(told != NULL && strstr(told, "a box or the dealer may be of another version") != NULL,
        "of answers that do not join the lock says: %s", said);
}

/* The lock spends no number on answers that do not join, and keeps none of them: the boxes' own
   are joined afterwards, under the same number. */
static void refuses_sum(void)
{
    const int64_t deadline = now_ns() + PATIENCE_NS;
    const uint64_t last = durable_last(LOCK);
    start_check(VECTORS);
    send_deal();
    while (check.number == 0)
        pump_before(deadline);
    const long since = end_of_log();
    send_answers_that_do_not_join();
    while (!check.failed)
        pump_before(deadline);
    EXPECT(check.why == DOOR_BAD_SUM, "a sum of 2 is refused by %" PRIu32, check.why);
    expect_told_of_versions(since);
    hear_from(LOCK);
    EXPECT(durable_last(LOCK) == last, "the lock has spent a number that it refused");
    check.failed = false;
    expect_answer();
    expect_ready();
    undisturbed_check(VECTORS);
}

static void second_process(enum part part)
{
    char *const arguments[] = {"door-host", (char *)PART[part].command, ".", NULL};
    EXPECT(run_to_end(arguments) == EXIT_TROUBLE, "a second %s starts", PART[part].title);
}

/* Bytes without meaning, and messages whose head does not fit: reported, and nothing else. */
static void rubbish(enum part part)
{
    uint8_t bytes[DATAGRAM_MOST + 64];
    for (int i = 0; i < 30; i++) {
        size_t size = chance(sizeof bytes + 1);
        for (size_t k = 0; k < size; k++)
            bytes[k] = (uint8_t)chance(256);
        if (size > 0 && bytes[0] >= HOST_DEAL)
            bytes[0] = (uint8_t)chance(DOOR_ANSWER + 1); /* nothing that starts a deal or a set */
        throw_at(part, bytes, size);
        hear_from(part);
    }
}

static void refusals(void)
{
    for (enum part part = CAMERA; part <= LOCK; part++) {
        damaged_numbers(part);
        second_process(part);
        rubbish(part);
    }
    damaged_halves(CAMERA);
    damaged_halves(OFFICE);
    spent_halves_ahead(CAMERA);
    spent_halves_ahead(OFFICE);
    check_behind_a_stuck_one(CAMERA);
    check_behind_a_stuck_one(OFFICE);
    refuses_sum();
    bad_settings();
    operator_gives_up();
    for (uint32_t why = DOOR_BAD_NAME; why <= DOOR_MORE_ROWS; why++)
        EXPECT(strcmp(refusal_words(why), refusal_words(why - 1)) != 0, "no words for %" PRIu32,
            why);
    settle();
}

static unsigned long killed(void)
{
    return kills[CAMERA] + kills[OFFICE] + kills[DEALER] + kills[LOCK];
}

static unsigned long killed_midway(void)
{
    return killed() - kills_at[REPORTED];
}

/* With a set waiting at the box that was killed. */
static unsigned long killed_waiting(void)
{
    return kills_with[CAMERA][WAITING_AHEAD] + kills_with[OFFICE][WAITING_AHEAD];
}

/* A test whose kills all fall beside the checks would show nothing. */
static bool killed_enough(void)
{
    bool enough = killed_midway() >= KILLS && killed_waiting() >= KILLS_AHEAD
        && kills_with[DEALER][READY_AHEAD] >= KILLS_AHEAD;
    for (enum stage stage = ASKED; stage < REPORTED; stage++)
        enough = enough && kills_at[stage] >= KILLS_AT_STAGE;
    return enough;
}

/* Answers by one code: of both kinds, and just where they turn. */
static void expect_enough_of(uint32_t code)
{
    EXPECT(tally.by_code[code].open >= 4 && tally.by_code[code].shut >= 2
            && tally.by_code[code].just >= 2,
        "code %" PRIu32 ": the answers are nearly all alike, or not just at the threshold", code);
    for (enum place place = BELOW_P; place < PLACES; place++)
        EXPECT(tally.by_code[code].beside[place] >= 4,
            "code %" PRIu32 ": the measure was only %lu times at %s of two marks", code,
            tally.by_code[code].beside[place], PLACE[place]);
}

static void expect_enough(void)
{
    EXPECT(killed_enough(),
        "of %lu kills only %lu fell into a check, or too few at some stage; %lu with a set waiting "
        "at the box, %lu with one dealt ahead at the dealer",
        killed(), killed_midway(), killed_waiting(), kills_with[DEALER][READY_AHEAD]);
    EXPECT(tally.taken >= 50 && tally.unused >= 50 && begun_anew >= 5,
        "of %lu sets dealt ahead %lu were handed out and %lu left unused, and %lu times one was "
        "lost: too few", tally.ahead, tally.taken, tally.unused, begun_anew);
    for (enum part part = CAMERA; part <= LOCK; part++)
        EXPECT(kills[part] >= 30, "the %s was killed only %lu times", PART[part].title,
            kills[part]);
    EXPECT(tally.answered >= 100, "only %lu checks were answered", tally.answered);
    EXPECT(tally.to_marks >= CHANGES_OF_RULE && tally.to_threshold >= CHANGES_OF_RULE,
        "from a threshold to marks only %lu times, and back %lu times", tally.to_marks,
        tally.to_threshold);
    EXPECT(tally.by_clock >= BY_CLOCK && tally.other_row >= OTHER_ROW,
        "only %lu sets by a table's row, or only %lu of these left unused for another row",
        tally.by_clock, tally.other_row);
    for (uint32_t code = DOOR_SCALAR; code <= DOOR_HAMMING; code++)
        expect_enough_of(code);
}

static void summary_of(uint32_t code)
{
    printf("%scode %" PRIu32 ": %lu open, %lu shut, %lu just at the threshold, %lu between two "
           "marks",
        code == DOOR_SCALAR ? " (" : "; ", code, tally.by_code[code].open,
        tally.by_code[code].shut, tally.by_code[code].just, tally.by_code[code].between);
    for (enum place place = BELOW_P; place < PLACES; place++)
        printf("%s%lu at %s", place == BELOW_P ? ": " : ", ", tally.by_code[code].beside[place],
            PLACE[place]);
}

static void summary(void)
{
    printf("c/host/test: passed: %lu checks begun, %lu answered, all right", begun,
        tally.answered);
    for (uint32_t code = DOOR_SCALAR; code <= DOOR_HAMMING; code++)
        summary_of(code);
    printf("); %lu kills (dealer %lu, camera box %lu, office box %lu, lock %lu), %lu of them "
           "midway",
        killed(), kills[DEALER], kills[CAMERA], kills[OFFICE], kills[LOCK], killed_midway());
    for (enum stage stage = ASKED; stage < REPORTED; stage++)
        printf("%s%lu %s", stage == ASKED ? " (" : ", ", kills_at[stage], STAGE[stage]);
    printf("); asked again %lu times; %lu sets handed out, %lu messages seen, no number used "
           "twice\n",
        asked_again, tally.dealt, tally.messages);
    printf("c/host/test: from a threshold to two marks %lu times, and back %lu times; %lu sets "
           "handed out by a table's row; "
           "%lu sets dealt ahead: %lu handed out, %lu left unused by other settings, %lu by another "
           "row's time; "
           "killed with a set waiting: %lu boxes, loaded ahead and open: %lu boxes, dealt ahead: "
           "%lu dealers; %lu checks begun anew with another set\n",
        tally.to_marks, tally.to_threshold, tally.by_clock, tally.ahead, tally.taken, tally.unused,
        tally.other_row, killed_waiting(),
        kills_with[CAMERA][READY_AHEAD] + kills_with[OFFICE][READY_AHEAD],
        kills_with[DEALER][READY_AHEAD], begun_anew);
    printf("c/host/test: trials that leave no trace: %lu in which a box would take the half, %lu in "
           "which none would, %lu in trouble, and %lu beside checks\n",
        trial_tally.by_status[EXIT_OPEN], trial_tally.by_status[EXIT_SHUT],
        trial_tally.by_status[EXIT_TROUBLE], trial_tally.beside);
    printf("c/host/test: iris codes: %lu enrolled and %lu checked, from either order; %lu times "
           "refused without a trace; %lu enrolments cut short\n",
        iris_tally.enrolled, iris_tally.checked, iris_tally.refused, iris_tally.cuts);
    printf("c/host/test: upgrades cut short %lu times, %lu of them with a power cut; %lu between "
           "the first part's and the last one's; each was then finished\n",
        upgrade_tally.cuts, upgrade_tally.power, upgrade_tally.between);
}

/* Times. */

static int by_size(const void *a, const void *b)
{
    int64_t x = *(const int64_t *)a, y = *(const int64_t *)b;
    return (x > y) - (x < y);
}

/* The median time from a check's end to the next one's first masked vector. The next one is asked
   for at once; where that is not so, when all is quiet, and the time is from the asking on. */
static double turn_ms(bool at_once)
{
    int64_t turns[TURNS], start;
    settle(); /* the next check may set the clock: the set that is dealt ahead comes first */
    undisturbed_check(VECTORS);
    start = check.report_ns;
    for (int i = 0; i < TURNS; i++) {
        if (!at_once) {
            expect_ready();
            start = now_ns();
        }
        memset(&check, 0, sizeof check);
        check.told_later = check.word_first = PARTS;
        begun++;
        send_deal();
        expect_answer();
        turns[i] = check.vector_ns - start;
        start = check.report_ns;
    }
    qsort(turns, TURNS, sizeof *turns, by_size);
    return (double)turns[TURNS / 2] / 1e6;
}

static void restart_dealer(bool ahead)
{
    settle();
    stop_child(DEALER);
    lose_stock(DEALER);
    deals_ahead = ahead;
    start_child(DEALER);
}

static void print_times(void)
{
    double at_once = turn_ms(true), quiet = turn_ms(false);
    restart_dealer(false);
    undisturbed_check(VECTORS); /* uses up what the boxes had loaded ahead */
    double at_once_without = turn_ms(true), quiet_without = turn_ms(false);
    restart_dealer(true);
    undisturbed_check(ALL);
    printf("c/host/test: to the first masked vector, median of %d: from the verdict before it "
           "%.2f ms, without load ahead %.2f ms; from the asking, all quiet, %.2f ms and %.2f "
           "ms\n",
        TURNS, at_once, at_once_without, quiet, quiet_without);
}

void refuses_setup(char *const numbers[], const char *words)
{
    char *arguments[10] = {"door-host", "setup", "refused", "Test door"}, said[SAID_ROOM];
    for (size_t i = 0; numbers[i] != NULL; i++)
        arguments[4 + i] = numbers[i];
    EXPECT(run_and_hear(arguments, said) == EXIT_TROUBLE, "a set-up is taken: expected is: %s",
        words);
    EXPECT(strstr(said, words) != NULL, "a set-up does not say: %s; but: %s", words, said);
    EXPECT(access("refused", F_OK) != 0, "a set-up that is refused leaves a folder");
}

static void setups_refused(void)
{
    static const char nothing[] = "the word table and its file; nothing was set up";
    refuses_setup((char *[]){"1", "128", NULL}, "usage: ");
    refuses_setup((char *[]){"1", "128", "5", "900", "7", NULL}, "usage: ");
    refuses_setup((char *[]){"1", "128", "5", "", NULL}, "usage: ");
    refuses_setup((char *[]){"1", "128", "5", " ", NULL}, "usage: ");
    refuses_setup((char *[]){"1", "128", "x", NULL}, nothing);
    refuses_setup((char *[]){"1", "128", "5", "900x", NULL}, nothing);
    refuses_setup((char *[]){"1", "128", "900", "5", NULL},
        "was refused (13): the second mark is below the first");
    refuses_setup((char *[]){"1", "128", "5", "-1", NULL}, "was refused (8): ");
}

/* A set-up with two marks writes them down; what the parts do with them, the checks tell. */
static void sets_up_marks(void)
{
    char *const arguments[] = {
        "door-host", "setup", "marks", "Test door", "1", "128", "5", "900", NULL};
    static const char right[] = "1 128 5 900\n";
    char found[PATH_ROOM];
    size_t size;
    EXPECT(run_to_end(arguments) == 0, "setup with two marks failed");
    EXPECT(read_file("marks/dealer/settings", found, sizeof found, &size)
            && size == strlen(right) && memcmp(found, right, size) == 0,
        "setup writes other settings");
}

static void set_up_door(const char *folder)
{
    char *const arguments[] = {"door-host", "setup", "door", "Test door", "0", "1", "0", NULL};
    EXPECT(chdir(folder) == 0, "cannot go to %s", folder);
    EXPECT(run_to_end(arguments) == 0, "setup failed");
    EXPECT(run_to_end(arguments) == EXIT_TROUBLE, "a second setup in one folder is taken");
    setups_refused();
    sets_up_marks();
    table_setups();
    EXPECT(chdir("door") == 0, "cannot go to %s/door", folder);
    set_clock(0);
    open_network();
    start_all();
}

static void prepare(int count, char **arguments)
{
    uint64_t seed;
    EXPECT(count == 3 || count == 4, "usage: host-test DOOR-HOST FOLDER [SEED]");
    EXPECT(getrandom(&seed, sizeof seed, 0) == sizeof seed, "no random seed");
    if (count == 4)
        seed = strtoull(arguments[3], NULL, 10);
    fprintf(stderr, "c/host/test: seed %" PRIu64 "\n", seed);
    seed_chance(seed);
    /* A timer's slack is 50 microseconds otherwise: kills would come late. */
    EXPECT(prctl(PR_SET_TIMERSLACK, 1) == 0, "no exact timers");
    EXPECT(setenv("TZ", TEST_ZONE, 1) == 0, "no time zone");
    umask(077);
    speak_as(WATCH);
    name_program(arguments[1]);
    atexit(kill_what_is_left);
}

int main(int count, char **arguments)
{
    prepare(count, arguments);
    set_up_door(arguments[2]);
    for (int i = 0; i < 10; i++)
        undisturbed_check(ALL);
    tables();
    trials();
    irises();
    checks_at_the_turn();
    while (!killed_enough() && killed() < KILLS_MOST) {
        disturbed_check();
        if (chance(4) == 0)
            undisturbed_check(some_change());
    }
    refusals();
    versions();
    told_in_words(CAMERA);
    told_in_words(OFFICE);
    checks_at_the_turn();
    for (int i = 0; i < 10; i++)
        undisturbed_check(some_change());
    for (int i = 0; i < 4; i++)
        operators_check(some_change());
    operator_asks_again(CAMERA);
    operator_asks_again(OFFICE);
    print_times();
    stop_all();
    expect_enough();
    summary();
}
