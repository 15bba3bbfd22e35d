/*
 * Whether the proved calls would deal with some settings. A deal by the clock tests the threshold
 * of one row alone. A manager must not learn at night that the night's row is nonsense: so each row
 * is tried at its first minute.
 */
#include "host.h"
#include "random.h"

#include <inttypes.h>
#include <stdio.h>
#include <string.h>

/* The trial's keys are its own, and its sets are wiped: none of it can be taken for the door's. */
static bool draw_trial(
    const struct door_dealer *like, struct door_dealer *trial, uint8_t seed[DOOR_KEY])
{
    *trial = *like;
    trial->last = 0;
    return draw_random(seed, DOOR_KEY) && draw_random(trial->key0, DOOR_KEY)
        && draw_random(trial->key1, DOOR_KEY);
}

void deal_trouble(const struct settings *s, const char *file, uint32_t why, uint32_t place,
    uint32_t minute, char words[TROUBLE_ROOM])
{
    char range[RANGE_ROOM];
    range_words(s->terms.code, range);
    if (s->by_clock)
        table_trouble(&s->table, file, s->terms.code, why, place, minute, words);
    else if (why == DOOR_OUT_OF_RANGE)
        snprintf(words, TROUBLE_ROOM, "%s is outside its measure's range: %s",
            s->between ? "a mark" : "the threshold", range);
    else
        place_words(why, place, words);
}

static void say_trial_refused(const struct settings *s, const char *file, uint32_t minute,
    uint32_t why, uint32_t place, const char *done)
{
    char words[TROUBLE_ROOM];
    deal_trouble(s, file, why, place, minute, words);
    say("a trial deal with these settings was refused (%" PRIu32 "): %s; %s", why, words, done);
}

/* What is no threshold's fault would be refused at every row. */
bool trial_deals(const struct door_dealer *like, const struct settings *s, const char *file,
    const char *done)
{
    static struct halves halves;
    struct door_dealer trial;
    uint8_t seed[DOOR_KEY];
    const size_t trials = s->by_clock && s->table.rows > 1 ? s->table.rows : 1;
    bool all = draw_trial(like, &trial, seed), goes_on = all;
    for (size_t i = 0; goes_on && i < trials; i++) {
        const uint32_t minute = s->by_clock ? s->table.firsts[i] : 0;
        struct door_clock_answer a = deal_for(&trial, 1, seed, s, minute, &halves);
        if (a.why != DOOR_ACCEPTED) {
            say_trial_refused(s, file, minute, a.why, a.place, done);
            all = false;
        }
        goes_on = a.why == DOOR_ACCEPTED || a.why == DOOR_OUT_OF_RANGE;
        explicit_bzero(&a, sizeof a);
    }
    explicit_bzero(&trial, sizeof trial);
    explicit_bzero(seed, sizeof seed);
    explicit_bzero(&halves, sizeof halves);
    return all;
}
