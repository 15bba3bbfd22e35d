#include "host.h"
#include "random.h"

#include <inttypes.h>
#include <string.h>

#define FOLDER PART[DEALER].command

struct dealer {
    struct door_dealer state;
    bool deals_ahead;
    /* The set that was dealt ahead and not handed out yet, 0 with none, and what it was dealt for.
       They are in memory alone: a dealer that was switched off deals anew. */
    uint64_t ahead;
    struct settings ahead_for;
    uint32_t ahead_row;    /* by the clock the row that it was dealt by, counted from 1; else 0 */
    struct settings tried; /* those with a table of which each row was tried last */
};

/* What a set is asked for, and what came of it. */
struct request {
    struct settings settings;
    uint32_t minute; /* by the clock: the local time when it was asked for */
    uint32_t why;    /* the refusal, or 0 */
    uint32_t place;  /* the row that was used, or what the refusal has as place */
};

static bool start_dealer(struct door_dealer *dealer)
{
    struct door_name name;
    uint8_t keys[2][DOOR_KEY];
    uint64_t last;
    if (!start_part(DEALER, &name, &last) || !read_key(FOLDER, "camera.key", keys[CAMERA])
        || !read_key(FOLDER, "office.key", keys[OFFICE]))
        return false;
    struct door_dealer_answer a = door_start_dealer(
        name.bytes, name.size, keys[CAMERA], DOOR_KEY, keys[OFFICE], DOOR_KEY, last);
    if (a.why != DOOR_ACCEPTED)
        say_refused("the start", last, a.why, "the dealer does not start");
    bool started = a.why == DOOR_ACCEPTED;
    *dealer = a.dealer;
    explicit_bzero(keys, sizeof keys);
    explicit_bzero(&a, sizeof a);
    return started;
}

static struct door_dealer_answer deal_by_rule(const struct door_dealer *dealer, uint64_t number,
    const uint8_t seed[DOOR_KEY], const struct settings *s, struct halves *h)
{
    uint8_t *out0 = h->half[CAMERA], *out1 = h->half[OFFICE];
    const size_t room = DOOR_HALF_MOST;
    if (s->between)
        return door_deal_between(*dealer, number, seed, DOOR_KEY, s->terms,
            (uint32_t)s->p, (uint32_t)s->q, out0, room, out1, room);
    return door_deal(*dealer, number, seed, DOOR_KEY, s->terms,
        (uint32_t)s->threshold, out0, room, out1, room);
}

struct door_clock_answer deal_for(const struct door_dealer *dealer, uint64_t number,
    const uint8_t seed[DOOR_KEY], const struct settings *s, uint32_t minute, struct halves *h)
{
    const struct table *t = &s->table;
    if (s->by_clock)
        return door_deal_by_clock(*dealer, number, seed, DOOR_KEY, s->terms, t->firsts, t->rows,
            t->lasts, t->rows, t->thresholds, t->rows, minute, h->half[CAMERA], DOOR_HALF_MOST,
            h->half[OFFICE], DOOR_HALF_MOST);
    struct door_dealer_answer a = deal_by_rule(dealer, number, seed, s, h);
    const struct door_clock_answer answer = {.why = a.why, .dealer = a.dealer};
    explicit_bzero(&a, sizeof a);
    return answer;
}

/* But for the number, what a deal may be refused for is in its settings. */
static void say_not_dealt(uint64_t number, const struct request *r)
{
    char words[TROUBLE_ROOM], at[TIME_ROOM];
    const char *done = r->why == DOOR_WRONG_NUMBER
        ? "no set was dealt" : "no set was dealt: put " SETTINGS_FILE " right";
    bool by_clock = r->settings.by_clock;
    deal_trouble(&r->settings, SETTINGS_FILE, r->why, r->place, r->minute, words);
    time_words(r->minute, at);
    say("set %" PRIu64 ": the deal%s%s was refused (%" PRIu32 "): %s; %s", number,
        by_clock ? " at " : "", by_clock ? at : "", r->why, words, done);
}

/* Deals the next set into memory, and says whether the proved call took it. */
static bool deal_next(struct door_dealer *dealer, struct request *r, struct halves *h)
{
    uint8_t seed[DOOR_KEY];
    if (!draw_random(seed, sizeof seed))
        return false;
    /* Past the last 64-bit number this is 0, which the deal refuses. */
    uint64_t number = dealer->last + 1;
    struct door_clock_answer a = deal_for(dealer, number, seed, &r->settings, r->minute, h);
    *dealer = a.dealer;
    r->why = a.why;
    r->place = a.place;
    explicit_bzero(seed, sizeof seed);
    explicit_bzero(&a, sizeof a);
    if (r->why != DOOR_ACCEPTED)
        say_not_dealt(number, r);
    return r->why == DOOR_ACCEPTED;
}

/* The number is spent on disk before a half is written anywhere. In the other order a power cut
   could let two sets be sealed under one key and number, and so under one nonce. */
static bool hand_out(const struct door_dealer *dealer, size_t length, const struct halves *h)
{
    return write_last(FOLDER, dealer->last)
        && write_half(CAMERA, dealer->last, h->half[CAMERA], DOOR_HALF(length))
        && write_half(OFFICE, dealer->last, h->half[OFFICE], DOOR_HALF(length));
}

static bool deal(struct door_dealer *dealer, struct request *r)
{
    static struct halves h;
    const struct settings *s = &r->settings;
    char words[SETTINGS_ROOM];
    if (!deal_next(dealer, r, &h))
        return false;
    bool done = hand_out(dealer, s->terms.n, &h);
    explicit_bzero(&h, sizeof h);
    dealt_words(s, r->place, words);
    if (done)
        say("set %" PRIu64 ": dealt: %s; a half of %zu bytes is on each stick", dealer->last,
            words, DOOR_HALF(s->terms.n));
    else
        say("set %" PRIu64 ": its number or a half could not be forced to disk; the set is lost",
            dealer->last);
    return done;
}

static bool same_settings(const struct settings *a, const struct settings *b)
{
    return a->terms.code == b->terms.code && a->terms.n == b->terms.n
        && a->between == b->between
        && a->by_clock == b->by_clock
        && same_table(&a->table, &b->table)
        && a->threshold == b->threshold
        && a->p == b->p
        && a->q == b->q;
}

/* Whether the row of the table that the set was dealt by is still the one of this minute. */
static bool is_of_this_row(const struct dealer *dealer, const struct request *r)
{
    return !r->settings.by_clock
        || row_holds(&r->settings.table, dealer->ahead_row, r->minute);
}

/* Whether the set that was dealt ahead is one for this request. One dealt for other settings, or by
   a row whose time is over, would judge this check by them. */
static bool is_for(const struct dealer *dealer, uint64_t number, const struct request *r)
{
    const char *why_not = NULL;
    if (number == 0)
        return false;
    if (!same_settings(&dealer->ahead_for, &r->settings))
        why_not = "for other settings";
    else if (!is_of_this_row(dealer, r))
        why_not = "by another row of the table";
    if (why_not != NULL)
        say("set %" PRIu64 ": was dealt ahead %s and is not used; its number stays spent", number,
            why_not);
    return why_not == NULL;
}

/* Finds the set that was dealt ahead, if it is one for this request, or else deals one. */
static bool find_set(struct dealer *dealer, struct request *r, uint64_t *number)
{
    *number = dealer->ahead;
    dealer->ahead = 0; /* whatever comes of it, it is not handed out a second time */
    if (is_for(dealer, *number, r)) {
        r->place = dealer->ahead_row;
        return true;
    }
    if (!deal(&dealer->state, r))
        return false;
    *number = dealer->state.last;
    return true;
}

static void send_dealt(const struct dealer *dealer, const struct link *link, uint64_t number,
    const struct request *r)
{
    const struct settings *s = &r->settings;
    struct message dealt = {.kind = HOST_DEALT, .sender = DEALER, .number = number,
        .words = {s->terms.code, (uint32_t)s->terms.n, (uint32_t)s->threshold}, .count = 3};
    if (s->between) {
        dealt.words[2] = (uint32_t)s->p;
        dealt.words[3] = (uint32_t)s->q;
        dealt.count = 4;
    }
    if (s->by_clock) {
        dealt.words[2] = s->table.thresholds[r->place - 1];
        dealt.words[3] = r->place;
        dealt.words[4] = s->table.firsts[r->place - 1];
        dealt.words[5] = s->table.lasts[r->place - 1];
        dealt.count = DEALT_BY_CLOCK;
    }
    memcpy(dealt.name, dealer->state.name, DOOR_NAME);
    send_to(link, OPERATOR, &dealt);
}

static void say_handed_out(uint64_t number, const struct request *r)
{
    char words[SETTINGS_ROOM];
    dealt_words(&r->settings, r->place, words);
    if (r->settings.by_clock)
        say("set %" PRIu64 ": handed out: %s", number, words);
    else
        say("set %" PRIu64 ": handed out", number);
}

/* Deals the next set while the check is under way, for the settings of this one, and by its row. */
static void deal_ahead(struct dealer *dealer, const struct link *link, struct request *r)
{
    if (!deal(&dealer->state, r)) {
        say("no set is dealt ahead; the next request deals one");
        return;
    }
    dealer->ahead = dealer->state.last;
    dealer->ahead_for = r->settings;
    dealer->ahead_row = r->place;
    for (uint32_t box = CAMERA; box <= OFFICE; box++) {
        struct message ahead = {.kind = HOST_AHEAD, .sender = DEALER, .number = dealer->ahead,
            .words = {box}, .count = 1};
        memcpy(ahead.name, dealer->state.name, DOOR_NAME);
        send_to(link, (enum part)box, &ahead);
    }
}

/* A table that is new here: a row that no deal takes is told before its time comes. */
static void try_rows(struct dealer *dealer, const struct settings *s)
{
    if (!s->by_clock || same_settings(&dealer->tried, s))
        return;
    dealer->tried = *s;
    trial_deals(&dealer->state, s, SETTINGS_FILE,
        "no set will be dealt in that row's time: put " SETTINGS_FILE " right");
}

/* What the operator is told beside the refusal. The call has no place for a bad threshold, but the
   person at the door is to learn that it is the table's, and of which row. */
static uint32_t place_of_failure(const struct request *r)
{
    bool bad_threshold = r->settings.by_clock && r->why == DOOR_OUT_OF_RANGE;
    return bad_threshold ? row_with(&r->settings.table, r->minute) : r->place;
}

static void handle(void *state, const struct link *link, const struct message *message)
{
    struct dealer *dealer = state;
    struct request r = {.why = DOOR_ACCEPTED};
    uint64_t number;
    if (message->kind != HOST_DEAL) {
        say("a message (%s) that no dealer takes is dropped", kind_words(message->kind));
        return;
    }
    if (!read_settings(&r.settings) || (r.settings.by_clock && !minute_now(&r.minute))
        || !find_set(dealer, &r, &number)) {
        send_failed_at(link, dealer->state.last, r.why, place_of_failure(&r));
        return;
    }
    say_handed_out(number, &r);
    send_dealt(dealer, link, number, &r);
    if (dealer->deals_ahead)
        deal_ahead(dealer, link, &r);
    try_rows(dealer, &r.settings);
}

static bool is_ready(const void *state)
{
    const struct dealer *dealer = state;
    return dealer->ahead != 0;
}

int run_dealer(const char *via, bool deals_ahead)
{
    struct dealer dealer = {.deals_ahead = deals_ahead};
    if (!start_dealer(&dealer.state))
        return EXIT_TROUBLE;
    const struct served served = {
        .state = &dealer, .last = &dealer.state.last, .handle = handle, .is_ready = is_ready};
    int status = serve(DEALER, via, &served);
    explicit_bzero(&dealer, sizeof dealer);
    return status;
}
