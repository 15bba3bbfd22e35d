/*
 * The test of the host: it is the network between the parts and the operator, it kills parts, and
 * it takes down all that it sees.
 */
#ifndef HOST_TEST_H
#define HOST_TEST_H

#include "files.h"
#include "wire.h"

#include <stdbool.h>
#include <stdint.h>

/* Ends the test as failed, with the place and the words. */
_Noreturn void fail_at(const char *file, int line, const char *format, ...)
    __attribute__((format(printf, 3, 4)));
#define EXPECT(holds, ...) \
    do { \
        if (!(holds)) \
            fail_at(__FILE__, __LINE__, __VA_ARGS__); \
    } while (0)

/* Numbers by chance, the same for the same seed. */
void seed_chance(uint64_t seed);
uint64_t chance(uint64_t below);

/* children.c: the four processes, and the power. */

extern bool deals_ahead; /* else a dealer that is started does not */

void name_program(const char *path);
void start_child(enum part part);
void kill_child(enum part part); /* SIGKILL, and waits until it is dead */
void stop_child(enum part part); /* SIGTERM, upon which it must end with status 0 */
bool child_runs(enum part part);
void stop_all(void);
void start_all(void); /* and waits until each is there */
void kill_what_is_left(void); /* at the end of a failed test */

/* Runs the program to its end and answers its exit status; one that does not end is killed. */
int run_to_end(char *const arguments[]);
int run_with_output(char *const arguments[], const char *path); /* which else goes to the log */
int start_program(char *const arguments[]); /* answers the process */
int end_of(int process);

/* What came to the log since it ended at that place. */
#define SAID_ROOM 4096
long end_of_log(void);
void hear_log(long since, char said[SAID_ROOM]);

/* Runs the program to its end as well, with what came to the log meanwhile. */
int run_and_hear(char *const arguments[], char said[SAID_ROOM]);

/* The same, but the process is killed at the n-th of these moments (powercut.h), or ends well with
   status 0 before it comes there: whether it was killed. */
bool run_cut_short(
    char *const arguments[], const char *moment, unsigned at, char said[SAID_ROOM]);

/* A file as it is put there by hand. */
void put_file(const char *path, const void *bytes, size_t size);

/* What of the dead part's last changes was not forced to disk is undone, by chance. */
void cut_power(enum part part);

/* The part's last number, as a power cut at this moment would leave it at the least. */
uint64_t durable_last(enum part part);

/* network.c: between the parts, and in the operator's place. */

#define PATIENCE_NS 5000000000 /* then something that must come has not come */

/* How far a check has come. */
enum stage { ASKED, DEALT, MASKED, WORDS, ANSWERS, REPORTED, STAGES };

extern const char *const STAGE[STAGES];

/* When a box gets the other's masked vector: at once, when the next set has been announced to it,
   or not at all. */
enum pace { USUAL, SLOW, STUCK };

/* The check that is under way. */
struct check {
    uint64_t number; /* 0 before the deal */
    enum stage stage;
    unsigned messages;
    bool failed;
    uint32_t why;          /* it failed */
    uint32_t place;        /* beside that */
    unsigned sets;         /* that were asked for */
    bool told[2];          /* to begin */
    enum part told_later;  /* the box that is told when the other's masked vector has come */
    bool told_last;        /* and when the next set has been announced to it too */
    enum part word_first;  /* the box that gets the other's word before the masked vector */
    enum pace pace;
    bool announced[2]; /* the next set, to each box */
    bool held[2];      /* by box, a masked vector that is held back */
    struct message vector[2];
    int64_t vector_ns, report_ns; /* when the first masked vector was seen, and the verdict */
};

extern struct check check;
extern bool disorder;             /* the network doubles messages and delays them */
extern bool operator_runs;        /* the program's own operator asks for the check */
extern bool ready[PARTS];         /* said with its last HOST_HERE that it has the next set ready */
extern struct message answers[2]; /* the last of each box, to be sent to the lock again */

int64_t now_ns(void);
void open_network(void);
void carry_late(void);              /* hands on the message that was delayed, if there is one */
bool carry_late_announcement(void); /* if it is the dealer's: whether it was */

/* Handles one message, if one comes before that time. */
bool pump_until(int64_t time);
void pump_before(int64_t deadline); /* which must not pass */
void pump_what_is_there(void);

void throw_at(enum part part, const uint8_t *bytes, size_t size);
void send_surely(enum part to, const struct message *m);
void hear_from(enum part part);

/* Until nothing is under way. */
void settle(void);

/* observe.c: what was seen, and whether it may be. */

/* Where a measure may lie beside two marks. */
enum place { BELOW_P, AT_P, AT_Q, ABOVE_Q, PLACES }; /* P - 1, P, Q, Q + 1 */

struct tally {
    unsigned long messages, dealt, answered, failed;
    unsigned long ahead;  /* sets that were dealt ahead */
    unsigned long taken;  /* of these, handed out */
    unsigned long unused; /* and left unused since the settings had changed */
    unsigned long to_marks, to_threshold; /* sets handed out behind one of the other rule */
    unsigned long by_clock;               /* sets handed out by a table's row */
    unsigned long other_row;              /* dealt ahead and left unused since another row's time
                                             had come */
    struct {
        unsigned long open, shut, just; /* just: the measure was the threshold itself */
        unsigned long between;          /* two marks, and of these by place */
        unsigned long beside[PLACES];
    } by_code[DOOR_HAMMING + 1];
};

extern struct tally tally;

/* What the dealer is to deal for, as its file has it. */
extern struct settings settings;

bool same_settings(const struct settings *a, const struct settings *b);

/* The minute that the dealer's local time is at. */
extern uint32_t minute;

/* The row of the table of these settings in which that minute lies, counted from 1. */
uint32_t row_now(const struct settings *s);

/* Settings with a threshold in place of a table: that of this row. */
struct settings in_force(const struct settings *s);

/* What a part has of the set that was dealt ahead last. */
enum stock { NOTHING_AHEAD, READY_AHEAD, WAITING_AHEAD, STOCKS };

/* A box has it ready, or waiting behind the check that is under way; the dealer has it ready until
   it hands it out. */
enum stock stock_of(enum part part);
void lose_stock(enum part part); /* with its power */

extern uint64_t newest_ahead; /* the number of that set */

/* The vectors that the boxes would mask if they began now: the camera's, the office's. */
extern int32_t current[2][DOOR_LENGTH_MOST];

void observe(enum part from, const struct message *message);

/* For a part that was just killed, with all that it had sent observed, and again when it has
   lost its power: its files must know of all that has left it. */
void inspect_dead(enum part part);

/* Puts the box's half of one of the sets that were dealt last back on the stick, as someone may who
   has kept a copy. */
void put_half_back(enum part box, uint64_t number);

int64_t measure(struct door_terms terms, const int32_t *x, const int32_t *y);

/* Whether the lock has to open: a product has to reach the threshold, a distance must not be above
   it; where there are two marks, the measure has to lie between them, or to be one of them. */
bool has_to_open(const struct settings *s, const int32_t *x, const int32_t *y);

uint64_t hash_of(const void *at, size_t size);

/* tables.c: tables of the day, and the dealer's clock. The host under test is linked with
   testclock.c in place of time(). */

/* The test's time zone, ahead of UTC: a host that takes UTC for local time is wrong at every
   minute. */
#define TEST_ZONE "HUT-05:30"
#define AHEAD_OF_UTC 330 /* minutes */

void set_clock(uint32_t to);

/* A minute by chance, often the first or the last one of a row. */
void draw_clock(void);

/* The settings' text, in place of the program's own. */
#define TABLE_TEXT 4096 /* more than any table here has */
int table_text(char text[TABLE_TEXT]);

/* Settings with a table: for each row a threshold that is the measure, or beside it. */
void draw_table(int64_t found);

/* Set-ups in the folder above the door's, before any part runs. */
void table_setups(void);

/* All parts run before and after. */
void tables(void);

/* test.c: checks. */

/* What changes from one check to the next. As long as the settings stay, a set that was dealt ahead
   is handed out. */
enum change { NOTHING, VECTORS, RULE, CODE, ALL };

struct range {
    int64_t low, high;
};

/* The range of a code's thresholds and marks. */
struct range range_of(uint32_t code);

/* That number, or the end of the range that is nearest to it. */
int32_t within(struct range r, int64_t number);

/* Two vectors of this measure, and what it is. */
int64_t draw_pair(uint32_t code);

void write_settings_anew(void);

/* Writes the settings down, and does a check with them. */
void check_as_set(void);

/* A check by the program's own operator, run so, with the vectors that are in place: its exit status
   has to tell what the lock must say. */
void check_by(char *const arguments[]);

/* A check by the program's own operator, whose exit status tells what the lock said. */
void operators_check(enum change change);

/* The program's operator with a dealer that deals nothing. */
void operator_without_set(void);

/* Behind that place in the log a part says so of the set of this check. */
void expect_told(long since, enum part part, const char *words);

/* Settings that no deal takes: nothing is dealt, and the dealer says why, and what to do. */
void refuses_settings(const char *text, uint32_t why, const char *words);

/* Each of these as an argument of a set-up, which must say so, and make no folder. */
void refuses_setup(char *const numbers[], const char *words);

void undisturbed_check(enum change change);

/* A set that was not dealt ahead, and that no box is told of: its halves stay on the sticks, and so
   do those of the set behind it. */
void deal_and_leave(void);

/* The boxes are told to begin as soon as the set is dealt, or one of them somewhat later. */
void begin_when_due(void);

/* A check with that set, which must be answered. */
void answer_what_was_left(void);

/* Someone begins with a set of which the half is on the stick again. */
void refuses_spent_half(enum part box, uint64_t number);

/* trials.c: whether a box would take a half. All parts run before and after. */

struct trial_tally {
    unsigned long by_status[3]; /* the exit status */
    unsigned long beside; /* of more, which were run beside checks */
};

extern struct trial_tally trial_tally;

void trials(void);

/* Runs the program to its end, with what came to the log meanwhile. It must leave no trace: it dies
   if it takes a step on the disk, claims a part or makes a socket, and that folder is afterwards
   what it was. */
int run_without_trace(char *const arguments[], const char *folder, char said[SAID_ROOM]);

/* A trial ends in trouble, and says so among other things. */
void trial_in_trouble(const char *folder, const char *half, const char *words);

/* irises.c: enrolments, and iris codes. All parts run before and after. */

struct iris_tally {
    unsigned long enrolled, checked;
    unsigned long refused; /* enrolments and checks */
    unsigned long cuts;    /* enrolments that were cut short */
};

extern struct iris_tally iris_tally;

void irises(void);

/* versions.c: folders of other versions, and the upgrade. All parts run before and after. */

struct upgrade_tally {
    unsigned long cuts;    /* upgrades that were cut short */
    unsigned long between; /* of these, with this version at some parts and not at others */
    unsigned long power;   /* of all, with the power gone too */
};

extern struct upgrade_tally upgrade_tally;

void versions(void);

#endif
