/*
 * Every call of door.h that a check makes, and the trial, on the states and messages of one check;
 * and the calls on iris codes. bench/against compiles this for each of two archives, with the
 * door.h of each.
 */
#include "calls.h"
#include "door.h"

#include <stdint.h>
#include <stdio.h>
#include <stdlib.h>
#include <string.h>

#define NUMBER 1
#define NEXT 2
#define THRESHOLD 100
#define BARE 5 /* bytes of the name without its padding */
#define ROW (DOOR_DAY / DOOR_ROWS_MOST) /* minutes of a row where there are as many as can be */

static const uint8_t NAME[DOOR_NAME] = "Hut 4";
static const uint8_t KEY[2][DOOR_KEY] = {{1}, {2}};
static const uint8_t SEED[DOOR_KEY] = {3};

/* All that the calls read and write, in room that is lent: so the calls of two archives have it at
   the same addresses, if what is new stands last. States are as a check leaves them, each ready for
   the next call. */
static struct scene {
    struct door_terms terms;
    struct door_dealer dealer;
    struct door_party idle[2], loaded[2], masked[2], taken[2];
    uint8_t half[2][DOOR_HALF_MOST], next_half[2][DOOR_HALF_MOST];
    uint32_t vector[2][DOOR_LENGTH_MOST], sent[2][DOOR_LENGTH_MOST], word[2], answer[2];
    uint32_t first[DOOR_ROWS_MOST], last[DOOR_ROWS_MOST], threshold[DOOR_ROWS_MOST];
    uint32_t last_of_day;
    struct door_party loaded_euclid; /* the office box, with a set of squared Euclid */
    uint8_t iris[2][DOOR_IRIS_BYTES], iris_out[DOOR_IRIS_BYTES];
    uint32_t iris_vector[DOOR_IRIS_BITS];
} *at;

static volatile uint32_t heard; /* so that the compiler leaves no call out */

static void expect(uint32_t why, const char *call)
{
    if (why == DOOR_ACCEPTED)
        return;
    fprintf(stderr, "bench/against: %s at L %zu is refused by %u\n", call, at->terms.n, why);
    exit(1);
}

static uint32_t deal(uint64_t number, uint8_t half[2][DOOR_HALF_MOST])
{
    return door_deal(at->dealer, number, SEED, DOOR_KEY, at->terms, THRESHOLD, half[0],
        DOOR_HALF_MOST, half[1], DOOR_HALF_MOST)
        .why;
}

/* It leaves the halves where those of a deal by a threshold stand: only how long it takes counts. */
static uint32_t deal_between(uint64_t number, uint8_t half[2][DOOR_HALF_MOST])
{
    return door_deal_between(at->dealer, number, SEED, DOOR_KEY, at->terms, THRESHOLD, THRESHOLD,
        half[0], DOOR_HALF_MOST, half[1], DOOR_HALF_MOST)
        .why;
}

/* The same. With one row it holds the whole day, and with more the last one is looked for. */
static uint32_t deal_by_clock(size_t rows, uint8_t half[2][DOOR_HALF_MOST])
{
    const uint32_t *last = rows == 1 ? &at->last_of_day : at->last;
    return door_deal_by_clock(at->dealer, NUMBER, SEED, DOOR_KEY, at->terms, at->first, rows, last,
        rows, at->threshold, rows, at->last_of_day, half[0], DOOR_HALF_MOST, half[1],
        DOOR_HALF_MOST)
        .why;
}

/* A table whose last minute lies in no row: all of it is looked at. */
static uint32_t refuse_by_clock(void)
{
    at->last[DOOR_ROWS_MOST - 1]--;
    const uint32_t why = deal_by_clock(DOOR_ROWS_MOST, at->half);
    at->last[DOOR_ROWS_MOST - 1]++;
    return why;
}

static struct door_party_answer load(const struct door_party *box, const uint8_t *half)
{
    return door_load(*box, half, DOOR_HALF(at->terms.n));
}

static uint32_t trial(const struct door_party *box, const uint8_t *half)
{
    return door_trial(*box, half, DOOR_HALF(at->terms.n)).why;
}

static struct door_party_answer mask(const struct door_party *box, uint32_t party)
{
    const size_t n = at->terms.n;
    return door_mask(*box, at->vector[party], n, at->sent[party], n);
}

static struct door_party_answer take(uint32_t party)
{
    const uint32_t other = 1 - party;
    return door_take(at->masked[party], DOOR_MASKED_VECTOR, NAME, DOOR_NAME, other, NUMBER,
        at->sent[other], at->terms.n);
}

static struct door_party_answer finish(uint32_t party)
{
    const uint32_t other = 1 - party;
    return door_finish(
        at->taken[party], DOOR_WORD, NAME, DOOR_NAME, other, NUMBER, at->word[other]);
}

static uint32_t join(void)
{
    return lock_join(NAME, DOOR_NAME, 0, DOOR_ANSWER, NAME, DOOR_NAME, 0, NUMBER, at->answer[0],
        DOOR_ANSWER, NAME, DOOR_NAME, 1, NUMBER, at->answer[1]);
}

/* Of the two codes the first is rearranged and unpacked, and both are compared. */
static uint32_t to_rings(void)
{
    return door_iris_to_rings(at->iris[0], DOOR_IRIS_BYTES, at->iris_out, DOOR_IRIS_BYTES);
}

static uint32_t to_angles(void)
{
    return door_iris_to_angles(at->iris[0], DOOR_IRIS_BYTES, at->iris_out, DOOR_IRIS_BYTES);
}

static uint32_t unpack(void)
{
    return door_iris_unpack(at->iris[0], DOOR_IRIS_BYTES, at->iris_vector, DOOR_IRIS_BITS);
}

static uint32_t pack(void)
{
    return door_iris_pack(at->iris_vector, DOOR_IRIS_BITS, at->iris_out, DOOR_IRIS_BYTES);
}

static struct door_hamming_answer hamming(void)
{
    return door_iris_hamming(at->iris[0], DOOR_IRIS_BYTES, at->iris[1], DOOR_IRIS_BYTES);
}

static void begin(uint32_t party)
{
    struct door_party_answer a = load(&at->idle[party], at->half[party]);
    expect(a.why, "load");
    at->loaded[party] = a.party;
    a = mask(&at->loaded[party], party);
    expect(a.why, "mask");
    at->masked[party] = a.party;
}

static void check(void)
{
    expect(deal(NUMBER, at->half), "deal");
    begin(0);
    begin(1);
    for (uint32_t party = 0; party < 2; party++) {
        const struct door_party_answer a = take(party);
        expect(a.why, "take");
        at->taken[party] = a.party;
        at->word[party] = a.word;
    }
    for (uint32_t party = 0; party < 2; party++) {
        const struct door_party_answer a = finish(party);
        expect(a.why, "finish");
        at->answer[party] = a.word;
    }
    const uint32_t joined = join();
    expect(joined < LOCK_REFUSED ? DOOR_ACCEPTED : joined - LOCK_REFUSED, "join");
}

/* Those of a box are the office box's. */
static void make_deal(void) { heard = deal(NUMBER, at->half); }
static void make_deal_between(void) { heard = deal_between(NUMBER, at->half); }
static void make_deal_by_clock(void) { heard = deal_by_clock(1, at->half); }
static void make_deal_by_32_rows(void) { heard = deal_by_clock(DOOR_ROWS_MOST, at->half); }
static void make_refused_by_clock(void) { heard = refuse_by_clock(); }
static void make_load(void) { heard = load(&at->idle[1], at->half[1]).why; }
static void make_load_ahead(void) { heard = load(&at->loaded[1], at->next_half[1]).why; }
static void make_trial(void) { heard = trial(&at->idle[1], at->half[1]); }
static void make_trial_ahead(void) { heard = trial(&at->loaded[1], at->next_half[1]); }
static void make_mask(void) { heard = mask(&at->loaded[1], 1).why; }
static void make_mask_euclid(void) { heard = mask(&at->loaded_euclid, 1).why; }
static void make_take(void) { heard = take(1).word; }
static void make_finish(void) { heard = finish(1).word; }
static void make_drop(void) { heard = door_drop(at->taken[1]).why; }
static void make_join(void) { heard = join(); }
static void make_to_rings(void) { heard = to_rings(); }
static void make_to_angles(void) { heard = to_angles(); }
static void make_unpack(void) { heard = unpack(); }
static void make_pack(void) { heard = pack(); }
static void make_hamming(void) { heard = hamming().distance; }

static void prepare_table(void)
{
    for (uint32_t i = 0; i < DOOR_ROWS_MOST; i++) {
        at->first[i] = ROW * i;
        at->last[i] = ROW * (i + 1) - 1;
        at->threshold[i] = THRESHOLD + i;
    }
    at->last_of_day = DOOR_DAY - 1;
}

/* Under this measure the mask has squares to work out. */
static void prepare_euclid(void)
{
    at->terms.code = DOOR_EUCLID;
    expect(deal(NUMBER, at->half), "deal");
    const struct door_party_answer a = load(&at->idle[1], at->half[1]);
    expect(a.why, "load");
    at->loaded_euclid = a.party;
    expect(mask(&at->loaded_euclid, 1).why, "mask");
    at->terms.code = DOOR_SCALAR;
}

static void prepare_iris(void)
{
    for (uint32_t i = 0; i < DOOR_IRIS_BYTES; i++) {
        at->iris[0][i] = (uint8_t)(7 * i * i + i / 3);
        at->iris[1][i] = (uint8_t)(5 * i * i + i / 3);
    }
    expect(to_rings(), "iris, to rings");
    expect(to_angles(), "iris, to angles");
    expect(unpack(), "iris, unpack");
    expect(pack(), "iris, pack");
    expect(hamming().why, "iris, Hamming");
}

static void prepare(size_t n)
{
    memset(at, 0, sizeof *at);
    prepare_table();
    at->terms.code = DOOR_SCALAR;
    at->terms.n = n;
    at->dealer = door_start_dealer(NAME, BARE, KEY[0], DOOR_KEY, KEY[1], DOOR_KEY, 0).dealer;
    for (uint32_t party = 0; party < 2; party++) {
        at->idle[party] = door_start_party(NAME, BARE, party, KEY[party], DOOR_KEY, 0).party;
        for (size_t i = 0; i < n; i++)
            at->vector[party][i] = (uint32_t)(i % (5 + 2 * party));
    }
    prepare_euclid();
    expect(deal_between(NUMBER, at->half), "deal between");
    expect(deal_by_clock(1, at->half), "deal by the clock");
    expect(deal_by_clock(DOOR_ROWS_MOST, at->half), "deal by the clock");
    expect(refuse_by_clock() - DOOR_NO_ROW, "deal by the clock with a bad table");
    expect(deal(NEXT, at->next_half), "deal");
    check();
    expect(load(&at->loaded[1], at->next_half[1]).why, "load ahead");
    expect(trial(&at->idle[1], at->half[1]), "trial");
    expect(trial(&at->loaded[1], at->next_half[1]), "trial ahead");
    expect(door_drop(at->taken[1]).why, "drop");
    prepare_iris();
}

/* A DOOR_LEVEL that this processor has not would count as not set. */
static void expect_level(void)
{
    const char *asked = getenv("DOOR_LEVEL");
    if (asked != NULL && strcmp(asked, door_level()) != 0) {
        printf("%s is left out: this processor has it not\n\n", asked);
        exit(0);
    }
}

struct calls calls_for(size_t n, void *room, size_t room_size)
{
    static const struct call list[] = {
        {"deal", make_deal},
        {"deal between", make_deal_between},
        {"by clock, 1", make_deal_by_clock},
        {"by clock, 32", make_deal_by_32_rows},
        {"bad table", make_refused_by_clock},
        {"load", make_load},
        {"load ahead", make_load_ahead},
        {"trial", make_trial},
        {"trial ahead", make_trial_ahead},
        {"mask", make_mask},
        {"mask, Euclid", make_mask_euclid},
        {"take", make_take},
        {"finish", make_finish},
        {"drop", make_drop},
        {"join", make_join},
        {"whole check", check},
        {"iris, to rings", make_to_rings},
        {"iris, to angles", make_to_angles},
        {"iris, unpack", make_unpack},
        {"iris, pack", make_pack},
        {"iris, Hamming", make_hamming},
        {NULL, NULL},
    };
    expect_level();
    if (room_size < sizeof *at) {
        fprintf(stderr, "bench/against: the room has %zu bytes, and %zu are needed\n", room_size,
            sizeof *at);
        exit(1);
    }
    at = room;
    prepare(n);
    return (struct calls){list, sizeof *at};
}
