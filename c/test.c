/*
 * Calls every function of door.h as a host does: whole checks, whose answers must be those of the
 * measure computed here; deals by the clock, which must be those by the row's threshold; a trial
 * beside every load, which must say what that answers; each refusal of each call, which must change
 * nothing, empty slices with a null pointer among them; and loads of sets that older versions
 * dealt, which are all refused. Its argument is the level that must be in use. c/test runs it. The
 * calls on iris codes are in test_iris.c.
 */
#include "older.h"
#include "test.h"

#include <stdio.h>
#include <stdlib.h>
#include <string.h>

#define MOST DOOR_LENGTH_MOST
#define BEYOND 64 /* elements behind an output buffer's use that must stay */
#define WIDEST 0x7fffffff   /* how far apart two marks may be; the width of every ordinary set */
#define PRODUCT_END 0x40000000 /* DOOR_SCALAR's thresholds and marks go this far from 0 */

static long passed;

void expect(bool holds, const char *what, const char *file, int line)
{
    if (!holds) {
        fprintf(stderr, "%s:%d: not so: %s\n", file, line, what);
        exit(EXIT_FAILURE);
    }
    passed++;
}

/* Knuth's MMIX. */
static uint64_t drawn = 1;

uint32_t draw(void)
{
    drawn = drawn * 6364136223846793005u + 1442695040888963407u;
    return (uint32_t)(drawn >> 32);
}

void draw_bytes(uint8_t *bytes, size_t size)
{
    for (size_t i = 0; i < size; i++)
        bytes[i] = (uint8_t)draw();
}

/* The word that stands for a number. */
static uint32_t word(long number)
{
    return (uint32_t)number;
}

static bool all_zero(const void *at, size_t size)
{
    const uint8_t *bytes = at;
    for (size_t i = 0; i < size; i++)
        if (bytes[i] != 0)
            return false;
    return true;
}

/* Whether two states agree in every byte of every field. */
#define SAME(a, b, field) (memcmp(&(a)->field, &(b)->field, sizeof (a)->field) == 0)

static bool same_dealer(const struct door_dealer *a, const struct door_dealer *b)
{
    return SAME(a, b, name) && SAME(a, b, key0) && SAME(a, b, key1) && a->last == b->last;
}

static bool same_identity(const struct door_identity *a, const struct door_identity *b)
{
    return SAME(a, b, name) && a->party == b->party && SAME(a, b, key);
}

static bool same_terms(const struct door_terms *a, const struct door_terms *b)
{
    return a->code == b->code && a->n == b->n;
}

static bool same_set(const struct door_set *a, const struct door_set *b)
{
    return a->number == b->number && same_terms(&a->terms, &b->terms) && SAME(a, b, mask)
        && SAME(a, b, x) && SAME(a, b, y) && a->c == b->c && a->r == b->r && SAME(a, b, seed)
        && SAME(a, b, key) && a->width == b->width && a->mark == b->mark;
}

static bool same_check(const struct door_check *a, const struct door_check *b)
{
    return a->phase == b->phase && same_set(&a->set, &b->set) && SAME(a, b, masked)
        && a->own == b->own && a->word == b->word;
}

static bool same_party(const struct door_party *a, const struct door_party *b)
{
    return same_identity(&a->who, &b->who) && a->last == b->last
        && same_check(&a->check, &b->check) && same_set(&a->waiting, &b->waiting);
}

static const struct door_set NO_SET;

/* A door: name and keys, what its parts keep, and what its host has. */

static const uint8_t BARE[] = {'H', 'u', 't', ' ', '4'};
static const uint8_t PADDED[DOOR_NAME] = {'H', 'u', 't', ' ', '4'};
/* Differs in its last byte alone. */
static const uint8_t OTHER[DOOR_NAME] = {'H', 'u', 't', ' ', '4', [DOOR_NAME - 1] = '!'};
static uint8_t keys[2][DOOR_KEY];
static uint8_t seed[DOOR_KEY + 1];

struct door {
    struct door_dealer dealer;
    struct door_party box[2];
    uint64_t last; /* the lock's */
};

static struct door_party box_of(
    const uint8_t *name, size_t size, uint32_t party, uint64_t floor)
{
    struct door_party_answer a =
        door_start_party(name, size, party, keys[party], DOOR_KEY, floor);
    EXPECT(a.why == DOOR_ACCEPTED);
    return a.party;
}

static struct door_party idle(uint32_t party, uint64_t last)
{
    return box_of(BARE, sizeof BARE, party, last);
}

static struct door_dealer dealer_of(const uint8_t *name, size_t size, uint64_t floor)
{
    struct door_dealer_answer a =
        door_start_dealer(name, size, keys[0], DOOR_KEY, keys[1], DOOR_KEY, floor);
    EXPECT(a.why == DOOR_ACCEPTED);
    return a.dealer;
}

static struct door open_door(uint64_t floor)
{
    struct door d = {
        .dealer = dealer_of(BARE, sizeof BARE, floor),
        .box = {idle(0, floor), idle(1, floor)},
        .last = floor,
    };
    return d;
}

/* One check: what is dealt, and the two vectors. */

struct check {
    struct door_terms terms;
    bool between; /* two marks, else a threshold */
    long t;       /* T, or P */
    long q;       /* Q */
    long v[2][MOST];
};

static long measure(const struct check *k)
{
    long sum = 0;
    for (size_t i = 0; i < k->terms.n; i++) {
        long x = k->v[0][i], y = k->v[1][i];
        long by_code[] = {x * y, (x - y) * (x - y), x != y};
        sum += by_code[k->terms.code];
    }
    return sum;
}

/* Whether the lock must say 1: a product has to reach T, a distance must not be above it. Between
   two marks the code does not count. */
static bool meets(const struct check *k)
{
    const long found = measure(k);
    if (k->between)
        return k->t <= found && found <= k->q;
    return k->terms.code == DOOR_SCALAR ? found >= k->t : found <= k->t;
}

/* Whether T, or each mark, is in its measure's range, and the marks are in order and not too far
   apart. */
static bool may_be_dealt(const struct check *k)
{
    static const long least[] = {-PRODUCT_END, 0, 0}, most[] = {PRODUCT_END, 0x7fffffff, 513};
    const long low = least[k->terms.code], high = most[k->terms.code];
    bool marks_fit = !k->between || (k->t <= k->q && k->q <= high && k->q - k->t <= WIDEST);
    return low <= k->t && k->t <= high && marks_fit;
}

/* What a half tells of the rule: how far apart the marks are, and not where they lie. */
static bool has_rule(const struct door_set *set, const struct check *k)
{
    return set->width == (k->between ? word(k->q - k->t) : WIDEST) && set->mark == k->between;
}

static long own(const struct check *k, int party)
{
    long sum = 0;
    for (size_t i = 0; i < k->terms.n && k->terms.code != DOOR_SCALAR; i++)
        sum += k->v[party][i] * k->v[party][i];
    return sum;
}

static void words_of(const struct check *k, int party, uint32_t *words)
{
    for (size_t i = 0; i < k->terms.n; i++)
        words[i] = word(k->v[party][i]);
}

static struct check drawn_check(uint32_t code, size_t n)
{
    struct check k = {.terms = {code, n}};
    for (int party = 0; party < 2; party++)
        for (size_t i = 0; i < n; i++)
            k.v[party][i] = code == DOOR_HAMMING ? draw() % 2 : (long)(draw() % 2048) - 1024;
    k.t = measure(&k);
    return k;
}

/* Two marks, of which the first is just the measure. */
static void draw_marks(struct check *k)
{
    k->between = true;
    k->t = measure(k);
    k->q = k->t + draw() % 1000;
    while (!may_be_dealt(k))
        k->q--;
}

/* How many bytes the half of a set of length n has: 484 of its content in each block. */
static size_t half_size(size_t n)
{
    size_t content = 1253 + 12 * n, blocks = content / 484 + (content % 484 != 0);
    return 512 * blocks;
}

/* Two buffers for halves, with bytes behind them that must stay. */
struct halves {
    uint8_t half[2][DOOR_HALF_MOST + BEYOND];
};

/* A buffer that is lent has drawn bytes on both sides, which must stay. */

#define FENCE 64 /* bytes on each side */
#define FENCED_MOST (17 * DOOR_BLOCK) /* a half with a block too many */

struct fenced {
    _Alignas(8) uint8_t at[FENCE + FENCED_MOST + FENCE];
    uint8_t expected[FENCE + FENCED_MOST + FENCE];
};

static void *fence(struct fenced *f, const void *bytes, size_t size)
{
    uint8_t *lent = f->at + FENCE;
    draw_bytes(f->at, FENCE);
    memcpy(lent, bytes, size);
    draw_bytes(lent + size, FENCE);
    memcpy(f->expected, f->at, sizeof f->at);
    return lent;
}

static void unhurt(const struct fenced *f)
{
    EXPECT(memcmp(f->at, f->expected, sizeof f->at) == 0);
}

/* A load, and beside it the trial, which must say what the load answers. */

/* door_trial with the room for its answer in sight: on x86-64 a struct that does not fit into two
   registers is returned through a pointer that is handed in before all else. */
void trial_into(struct door_trial_answer *room, struct door_party party, const uint8_t *half,
    size_t half_len) __asm__("door_trial");

/* The answer goes into room that has drawn bytes in it and around it. */
static struct door_trial_answer trial_fenced(
    const struct door_party *box, const uint8_t *half, size_t size)
{
    static struct fenced f;
    struct door_trial_answer t;
    draw_bytes((uint8_t *)&t, sizeof t);
    trial_into(fence(&f, &t, sizeof t), *box, half, size);
    memcpy(&t, f.at + FENCE, sizeof t);
    memcpy(f.expected + FENCE, &t, sizeof t);
    unhurt(&f);
    return t;
}

static bool same_trial(const struct door_trial_answer *a, const struct door_trial_answer *b)
{
    return a->why == b->why && SAME(a, b, name) && same_terms(&a->terms, &b->terms);
}

/* What a trial must say where a load answers this: the same number, and of a set that is taken the
   door, which is the box's own, and the terms, wherever the load has put it. */
static struct door_trial_answer trial_of(
    const struct door_party *box, const struct door_party_answer *loaded)
{
    struct door_trial_answer t = {.why = loaded->why};
    const struct door_party *next = &loaded->party;
    if (t.why != DOOR_ACCEPTED)
        return t;
    memcpy(t.name, box->who.name, DOOR_NAME);
    t.terms = box->check.phase == DOOR_IDLE ? next->check.set.terms : next->waiting.terms;
    return t;
}

static bool same_answer(const struct door_party_answer *a, const struct door_party_answer *b)
{
    return a->why == b->why && a->word == b->word && same_party(&a->party, &b->party);
}

/* What a load answers, before a trial and after one; nothing that is handed in changes. The pointer
   of an empty half is handed on, since it may be null. */
static struct door_party_answer load(
    const struct door_party *box, const uint8_t *half, size_t size)
{
    static struct fenced in;
    static struct door_party before;
    const uint8_t *lent = size == 0 ? half : fence(&in, half, size);
    memcpy(&before, box, sizeof before);
    const struct door_party_answer alone = door_load(*box, lent, size);
    const struct door_trial_answer first = door_trial(*box, lent, size);
    const struct door_party_answer after = door_load(*box, lent, size);
    const struct door_trial_answer second = trial_fenced(box, lent, size);
    const struct door_trial_answer said = trial_of(box, &alone);
    EXPECT(same_trial(&first, &said) && same_trial(&second, &said));
    EXPECT(same_answer(&after, &alone));
    EXPECT(memcmp(box, &before, sizeof before) == 0);
    unhurt(&in);
    return alone;
}

/* What is handed to a deal. */
struct order {
    uint64_t number;
    size_t seed_size;
    struct door_terms terms;
    uint32_t t; /* T, or P */
    size_t room[2];
    bool between;
    uint32_t q;
};

/* Of the two buffers so many bytes may be written, from the start. */
static void take_written(struct fenced out[2], size_t size, struct halves *h, const size_t room[2])
{
    for (int party = 0; party < 2; party++) {
        memcpy(out[party].expected + FENCE, out[party].at + FENCE, size);
        unhurt(&out[party]);
        memcpy(h->half[party], out[party].at + FENCE, room[party]);
    }
}

static struct door_dealer_answer deal_order(
    struct door_dealer dealer, const struct order *o, struct halves *h)
{
    static struct fenced in, out[2];
    const uint8_t *lent = fence(&in, seed, o->seed_size);
    uint8_t *out0 = fence(&out[0], h->half[0], o->room[0]);
    uint8_t *out1 = fence(&out[1], h->half[1], o->room[1]);
    struct door_dealer_answer a = o->between
        ? door_deal_between(dealer, o->number, lent, o->seed_size, o->terms, o->t, o->q, out0,
              o->room[0], out1, o->room[1])
        : door_deal(dealer, o->number, lent, o->seed_size, o->terms, o->t, out0, o->room[0], out1,
              o->room[1]);
    unhurt(&in);
    take_written(out, a.why == DOOR_ACCEPTED ? half_size(o->terms.n) : 0, h, o->room);
    return a;
}

static struct door_dealer_answer deal(
    struct door_dealer dealer, uint64_t number, const struct check *k, struct halves *h)
{
    const struct order o = {number, DOOR_KEY, k->terms, word(k->t),
        {sizeof h->half[0], sizeof h->half[1]}, k->between, word(k->q)};
    return deal_order(dealer, &o, h);
}

/* Every block begins with the set number and its place, and nothing is written behind the last. */
static void deals(struct door *d, uint64_t number, const struct check *k, struct halves *h)
{
    draw_bytes(seed, DOOR_KEY);
    draw_bytes(h->half[0], sizeof h->half[0]);
    draw_bytes(h->half[1], sizeof h->half[1]);
    struct halves before = *h;
    struct door_dealer next = d->dealer;
    next.last = number;
    struct door_dealer_answer a = deal(d->dealer, number, k, h);
    EXPECT(a.why == DOOR_ACCEPTED);
    EXPECT(same_dealer(&a.dealer, &next));
    d->dealer = a.dealer;
    size_t size = half_size(k->terms.n);
    EXPECT(size == DOOR_HALF(k->terms.n));
    for (int party = 0; party < 2; party++) {
        uint8_t *half = h->half[party];
        EXPECT(memcmp(half + size, before.half[party] + size, sizeof h->half[party] - size) == 0);
        for (size_t at = 0; at < size; at++) {
            size_t place = at % 512, block = at / 512;
            if (place < 8)
                EXPECT(half[at] == (uint8_t)(number >> 8 * place));
            else if (place < 12)
                EXPECT(half[at] == (uint8_t)(block >> 8 * (place - 8)));
        }
    }
}

/* The loaded state, as far as it can be told from outside. */
static void loads(struct door *d, uint64_t number, const struct check *k, const struct halves *h)
{
    const size_t n = k->terms.n, rest = sizeof(uint32_t) * (MOST - n);
    for (uint32_t party = 0; party < 2; party++) {
        struct door_party old = d->box[party];
        struct door_party_answer a = load(&old, h->half[party], half_size(n));
        EXPECT(a.why == DOOR_ACCEPTED && a.word == 0);
        const struct door_check *new = &a.party.check;
        EXPECT(same_identity(&a.party.who, &old.who) && a.party.who.party == party);
        EXPECT(a.party.last == number && new->phase == DOOR_LOADED);
        EXPECT(new->set.number == number && same_terms(&new->set.terms, &k->terms));
        EXPECT(has_rule(&new->set, k));
        EXPECT(all_zero(new->set.mask + n, rest));
        EXPECT(all_zero(new->set.x + n, rest) && all_zero(new->set.y + n, rest));
        EXPECT(all_zero(new->masked, sizeof new->masked) && new->own == 0 && new->word == 0);
        EXPECT(same_set(&a.party.waiting, &old.waiting));
        d->box[party] = a.party;
    }
}

/* The shares of the two sets sum to the masks and to the masks' product; the key is one. */
static void fit(const struct door_set *s0, const struct door_set *s1)
{
    uint32_t product = 0;
    for (size_t i = 0; i < s0->terms.n; i++) {
        EXPECT(s0->x[i] + s1->x[i] == s0->mask[i] && s0->y[i] + s1->y[i] == s1->mask[i]);
        product += s0->mask[i] * s1->mask[i];
    }
    EXPECT(s0->c + s1->c == product);
    EXPECT(SAME(s0, s1, key) && !SAME(s0, s1, seed));
    for (int level = 0; level < 32; level++)
        EXPECT(s0->key.corrections[level].flags < 4);
}

/* r, which no half has whole: the two r words of a set with the same seed and T = 0 sum to it. The
   seed is that of the last deal. */
static uint32_t r_of(uint64_t number, const struct check *k)
{
    static struct halves h;
    struct check at_zero = *k;
    uint32_t sum = 0;
    at_zero.between = false;
    at_zero.t = 0;
    struct door_dealer dealer = dealer_of(BARE, sizeof BARE, number - 1);
    EXPECT(deal(dealer, number, &at_zero, &h).why == DOOR_ACCEPTED);
    for (int party = 0; party < 2; party++) {
        const struct door_party box = idle(party, number - 1);
        struct door_party_answer a = load(&box, h.half[party], half_size(k->terms.n));
        EXPECT(a.why == DOOR_ACCEPTED);
        sum += a.party.check.set.r;
    }
    return sum;
}

/* A box's masked vector, with words behind it that must stay. */
struct vector {
    uint32_t at[MOST + BEYOND];
};

static void masks(struct door *d, const struct check *k, struct vector sent[2])
{
    const size_t n = k->terms.n;
    for (int party = 0; party < 2; party++) {
        uint32_t v[MOST];
        words_of(k, party, v);
        draw_bytes((uint8_t *)sent[party].at, sizeof sent[party].at);
        struct vector before = sent[party];
        struct door_party next = d->box[party];
        struct door_party_answer a = door_mask(next, v, n, sent[party].at, MOST + BEYOND);
        EXPECT(a.why == DOOR_ACCEPTED && a.word == 0);
        next.check.phase = DOOR_MASKED;
        next.check.own = word(own(k, party));
        for (size_t i = 0; i < n; i++)
            next.check.masked[i] = v[i] + next.check.set.mask[i];
        EXPECT(same_party(&a.party, &next));
        memcpy(before.at, next.check.masked, sizeof(uint32_t) * n);
        EXPECT(memcmp(sent[party].at, before.at, sizeof before.at) == 0);
        d->box[party] = a.party;
    }
}

/* For a product, and between two marks, the sum of the words is measure - T + r, and the two r
   words sum to r - T; for a distance with a threshold they are T - measure + r, and r + T. */
static void takes(
    struct door *d, uint64_t number, const struct check *k, struct vector sent[2],
    uint32_t words[2])
{
    const uint32_t r = r_of(number, k);
    const long sign = k->terms.code == DOOR_SCALAR || k->between ? 1 : -1;
    uint32_t z = 0, r_words = 0;
    for (int party = 0; party < 2; party++) {
        uint32_t other = 1 - party;
        struct door_party next = d->box[party];
        struct door_party_answer a = door_take(next, DOOR_MASKED_VECTOR, PADDED, DOOR_NAME, other,
            number, sent[other].at, k->terms.n);
        EXPECT(a.why == DOOR_ACCEPTED);
        next.check.phase = DOOR_TAKEN;
        next.check.word = a.word;
        EXPECT(same_party(&a.party, &next));
        d->box[party] = a.party;
        words[party] = a.word;
        z += a.word;
        r_words += next.check.set.r;
    }
    EXPECT(r_words == r - word(sign * k->t));
    EXPECT(z == r + word(sign * (measure(k) - k->t)));
}

static void finishes(struct door *d, uint64_t number, const uint32_t words[2], uint32_t answers[2])
{
    for (int party = 0; party < 2; party++) {
        uint32_t other = 1 - party;
        struct door_party_answer a =
            door_finish(d->box[party], DOOR_WORD, PADDED, DOOR_NAME, other, number, words[other]);
        struct door_party next = idle(party, number);
        EXPECT(a.why == DOOR_ACCEPTED);
        EXPECT(same_party(&a.party, &next));
        d->box[party] = a.party;
        answers[party] = a.word;
    }
}

/* What is handed to a join, beside the door's name and the last number. */
struct join {
    size_t size; /* of the door's name */
    uint32_t kind[2];
    const uint8_t *name[2];
    size_t name_size[2];
    uint32_t sender[2];
    uint64_t number[2];
    uint32_t answer[2];
};

static struct join join_of(uint64_t number, uint32_t answer0, uint32_t answer1)
{
    struct join j = {
        .size = DOOR_NAME,
        .kind = {DOOR_ANSWER, DOOR_ANSWER},
        .name = {PADDED, PADDED},
        .name_size = {DOOR_NAME, DOOR_NAME},
        .sender = {0, 1},
        .number = {number, number},
        .answer = {answer0, answer1},
    };
    return j;
}

/* The same join with a state by value says the same, and moves on or not. */
static void join_by_state(uint64_t last, const struct join *j, uint32_t said, uint64_t next)
{
    uint32_t why = said > LOCK_REFUSED ? said - LOCK_REFUSED : DOOR_ACCEPTED;
    struct door_lock lock = {.last = last};
    memcpy(lock.name, PADDED, DOOR_NAME);
    struct door_lock_answer a = door_join(lock, j->kind[0], j->name[0], j->name_size[0],
        j->sender[0], j->number[0], j->answer[0], j->kind[1], j->name[1], j->name_size[1],
        j->sender[1], j->number[1], j->answer[1]);
    EXPECT(a.why == why && a.bit == (why == DOOR_ACCEPTED ? said : 0));
    EXPECT(a.lock.last == next && memcmp(a.lock.name, PADDED, DOOR_NAME) == 0);
}

/* What the join answers; the last number that goes with it is expected to be `next`. */
static uint32_t join(uint64_t last, const struct join *j, uint64_t next)
{
    uint64_t after = lock_last(PADDED, j->size, last, j->kind[0], j->name[0], j->name_size[0],
        j->sender[0], j->number[0], j->answer[0], j->kind[1], j->name[1], j->name_size[1],
        j->sender[1], j->number[1], j->answer[1]);
    EXPECT(after == next);
    uint32_t said = lock_join(PADDED, j->size, last, j->kind[0], j->name[0], j->name_size[0],
        j->sender[0], j->number[0], j->answer[0], j->kind[1], j->name[1], j->name_size[1],
        j->sender[1], j->number[1], j->answer[1]);
    if (j->size == DOOR_NAME) /* a state has the door's name whole */
        join_by_state(last, j, said, next);
    return said;
}

/* From deal to join: what the lock says, which must be whether the measure meets T or the marks. */
static uint32_t whole(struct door *d, uint64_t number, const struct check *k)
{
    static struct halves h;
    struct vector sent[2];
    uint32_t words[2], answers[2];
    deals(d, number, k, &h);
    loads(d, number, k, &h);
    fit(&d->box[0].check.set, &d->box[1].check.set);
    masks(d, k, sent);
    takes(d, number, k, sent, words);
    finishes(d, number, words, answers);
    struct join j = join_of(number, answers[0], answers[1]);
    uint32_t said = join(d->last, &j, number);
    EXPECT(said == meets(k));
    d->last = number;
    return said;
}

/* At the threshold where the answer turns, and on both sides of it. */
static void around_the_turn(struct door *d, uint64_t *number, struct check *k)
{
    const long found = measure(k);
    for (k->t = found - 1; k->t <= found + 1; k->t++)
        if (may_be_dealt(k)) {
            *number += 1 + draw() % 1000;
            whole(d, *number, k);
        }
}

/* Where a measure lies around its marks: P - 1, P, Q and Q + 1. */
enum place { BELOW_P, AT_P, AT_Q, ABOVE_Q, PLACES };

/* How many checks there were at each place, with equal marks and with marks apart. */
struct around {
    long checks[2][PLACES];
};

/* At each place, with marks that are equal, side by side, or far apart, as far as these may be
   dealt. */
static void around_the_marks(
    struct door *d, uint64_t *number, struct check *k, struct around *counted)
{
    const long found = measure(k), widths[] = {0, 1, 2 + draw() % 1000, PRODUCT_END - 1};
    k->between = true;
    for (size_t i = 0; i < sizeof widths / sizeof *widths; i++) {
        const long above_p[PLACES] = {
            [BELOW_P] = -1, [AT_P] = 0, [AT_Q] = widths[i], [ABOVE_Q] = widths[i] + 1};
        for (int place = 0; place < PLACES; place++) {
            k->t = found - above_p[place];
            k->q = k->t + widths[i];
            if (may_be_dealt(k)) {
                *number += 1 + draw() % 1000;
                whole(d, *number, k);
                counted->checks[widths[i] > 0][place]++;
            }
        }
    }
    k->between = false;
}

static void every_place(const struct around *counted)
{
    for (int apart = 0; apart < 2; apart++)
        for (int place = 0; place < PLACES; place++)
            EXPECT(counted->checks[apart][place] > 0);
}

static void whole_checks(void)
{
    static const size_t lengths[] = {1, 2, 16, 17, 56, 57, 128, 500, 501, 512};
    struct door d = open_door(1000);
    uint64_t number = 1000;
    for (uint32_t code = 0; code < 3; code++) {
        struct around counted = {0};
        for (size_t i = 0; i < sizeof lengths / sizeof *lengths; i++) {
            struct check k = drawn_check(code, lengths[i]);
            around_the_turn(&d, &number, &k);
            around_the_marks(&d, &number, &k, &counted);
            memcpy(k.v[1], k.v[0], sizeof k.v[1]); /* at distance 0 no T is below it */
            around_the_turn(&d, &number, &k);
            around_the_marks(&d, &number, &k, &counted);
        }
        every_place(&counted);
    }
}

/* A loop over several elements at once leaves each rest. */
static void every_length(void)
{
    struct door d = open_door(0);
    for (size_t n = 1; n <= MOST; n++) {
        const struct check k = drawn_check(DOOR_EUCLID, n);
        whole(&d, d.last + 1, &k);
    }
}

/* A whole check under the next number, with this threshold, of which the answer is written out. */
static void says(struct door *d, struct check k, long t, uint32_t said)
{
    k.t = t;
    EXPECT(whole(d, d->last + 1, &k) == said);
}

/* The same between two marks. */
static void says_between(struct door *d, struct check k, long p, long q, uint32_t said)
{
    k.between = true;
    k.q = q;
    says(d, k, p, said);
}

static void short_ones(void)
{
    struct door d = open_door(0);
    struct check k = {.terms = {DOOR_SCALAR, 2}, .v = {{3, -4}, {2, 5}}};
    says(&d, k, -15, 1);
    says(&d, k, -14, 1);
    says(&d, k, -13, 0);
    k.terms.code = DOOR_EUCLID;
    says(&d, k, 81, 0);
    says(&d, k, 82, 1);
    says(&d, k, 83, 1);
    struct check bits = {.terms = {DOOR_HAMMING, 4}, .v = {{1, 0, 1, 1}, {1, 1, 0, 1}}};
    says(&d, bits, 1, 0);
    says(&d, bits, 2, 1);
    says(&d, bits, 3, 1);
}

/* The measures of the short ones, -14, 82 and 2, and marks around them. */
static void short_ones_between(void)
{
    struct door d = open_door(0);
    struct check k = {.terms = {DOOR_SCALAR, 2}, .v = {{3, -4}, {2, 5}}};
    says_between(&d, k, -13, 14, 0);
    says_between(&d, k, -14, 14, 1);
    says_between(&d, k, -14, -14, 1);
    says_between(&d, k, -20, -14, 1);
    says_between(&d, k, -20, -15, 0);
    k.terms.code = DOOR_EUCLID;
    says_between(&d, k, 83, 90, 0);
    says_between(&d, k, 82, 90, 1);
    says_between(&d, k, 82, 82, 1);
    says_between(&d, k, 0, 82, 1);
    says_between(&d, k, 0, 81, 0);
    struct check bits = {.terms = {DOOR_HAMMING, 4}, .v = {{1, 0, 1, 1}, {1, 1, 0, 1}}};
    says_between(&d, bits, 3, 4, 0);
    says_between(&d, bits, 2, 4, 1);
    says_between(&d, bits, 2, 2, 1);
    says_between(&d, bits, 1, 2, 1);
    says_between(&d, bits, 0, 1, 0);
}

/* Equal vectors: nothing is closer. */
static void equal_ones(struct door *d)
{
    struct check k = drawn_check(DOOR_EUCLID, MOST), bits = drawn_check(DOOR_HAMMING, MOST);
    memcpy(k.v[1], k.v[0], sizeof k.v[1]);
    memcpy(bits.v[1], bits.v[0], sizeof bits.v[1]);
    says(d, k, 0, 1);
    says(d, k, 1, 1);
    says(d, k, 0x7fffffff, 1);
    says(d, bits, 0, 1);
    says(d, bits, 1, 1);
    says(d, bits, 513, 1);
    says_between(d, k, 0, 0, 1);
    says_between(d, k, 0, 0x7fffffff, 1);
    says_between(d, k, 1, 0x7fffffff, 0); /* a copied template */
    says_between(d, bits, 0, 0, 1);
    says_between(d, bits, 0, 513, 1);
    says_between(d, bits, 1, 513, 0);
}

/* With marks at the ends of their ranges. Those of a product are as far apart as can be, and one
   further they are refused. */
static void opposite_ones_between(struct door *d, struct check k, struct check bits)
{
    says_between(d, k, -PRODUCT_END, PRODUCT_END - 1, 1);
    says_between(d, k, 1 - PRODUCT_END, PRODUCT_END, 1);
    says_between(d, k, -PRODUCT_END, -PRODUCT_END, 0);
    says_between(d, k, PRODUCT_END, PRODUCT_END, 0);
    k.terms.code = DOOR_EUCLID;
    says_between(d, k, 0, 0x7fffffff, 1);
    says_between(d, k, 0, 2145387007, 0);
    says_between(d, k, 2145387008, 2145387008, 1);
    says_between(d, k, 2145387009, 0x7fffffff, 0);
    says_between(d, k, 0x7fffffff, 0x7fffffff, 0);
    says_between(d, bits, 0, 513, 1);
    says_between(d, bits, 0, 511, 0);
    says_between(d, bits, 512, 512, 1);
    says_between(d, bits, 513, 513, 0);
}

/* Vectors as far apart as can be. */
static void opposite_ones(struct door *d)
{
    struct check k = {.terms = {DOOR_EUCLID, MOST}}, bits = {.terms = {DOOR_HAMMING, MOST}};
    for (size_t i = 0; i < MOST; i++) {
        k.v[0][i] = -1024;
        k.v[1][i] = 1023;
        bits.v[i % 2][i] = 1;
    }
    EXPECT(measure(&k) == 2145387008 && measure(&bits) == 512);
    says(d, k, 2145387008, 1);
    says(d, k, 2145387007, 0);
    says(d, k, 2145387009, 1);
    says(d, k, 0x7fffffff, 1);
    says(d, k, 0, 0);
    k.terms.code = DOOR_SCALAR;
    says(d, k, -PRODUCT_END, 1);
    says(d, k, PRODUCT_END, 0);
    says(d, bits, 513, 1);
    says(d, bits, 512, 1);
    says(d, bits, 511, 0);
    says(d, bits, 0, 0);
    opposite_ones_between(d, k, bits);
}

/* The ends of the ranges: every number that fits is taken. */
static void ends(void)
{
    struct door d = open_door(0);
    struct check k = drawn_check(DOOR_HAMMING, MOST);
    equal_ones(&d);
    opposite_ones(&d);
    k.t = 513;
    EXPECT(whole(&d, UINT64_MAX, &k) == 1);
}

/* Refusals. Those of a call are met one after the other: first all is wrong, and then the lowest is
   put right each time, until the call is accepted. Then each input is wrong alone. */

static void start_dealer_refused(
    const uint8_t *name, size_t name_size, size_t size0, size_t size1, const uint8_t *key1,
    uint32_t why)
{
    struct door_dealer_answer a =
        door_start_dealer(name, name_size, keys[0], size0, key1, size1, 7);
    struct door_dealer none = {0};
    EXPECT(a.why == why);
    EXPECT(same_dealer(&a.dealer, &none));
}

static void start_party_refused(
    const uint8_t *name, size_t name_size, uint32_t party, size_t size, uint32_t why)
{
    struct door_party_answer a = door_start_party(name, name_size, party, keys[0], size, 7);
    struct door_party none = {0};
    EXPECT(a.why == why && a.word == 0);
    EXPECT(same_party(&a.party, &none));
}

static void start_lock_refused(const uint8_t *name, size_t name_size)
{
    struct door_lock_answer a = door_start_lock(name, name_size, 7);
    EXPECT(a.why == DOOR_BAD_NAME && a.bit == 0);
    EXPECT(all_zero(a.lock.name, DOOR_NAME) && a.lock.last == 0);
}

static void starts(void)
{
    static const uint8_t bad[2] = {31, 127};
    const uint8_t *same = keys[0], *other = keys[1];
    uint8_t name[17];
    memset(name, 126, sizeof name);
    start_dealer_refused(name, 17, 31, 33, same, DOOR_BAD_NAME);
    start_dealer_refused(name, 16, 31, 33, same, DOOR_WRONG_LENGTH);
    start_dealer_refused(name, 16, 32, 32, same, DOOR_EQUAL_KEYS);
    start_dealer_refused(name, 16, 31, 32, other, DOOR_WRONG_LENGTH);
    start_dealer_refused(name, 16, 32, 0, other, DOOR_WRONG_LENGTH);
    start_party_refused(name, 17, 2, 31, DOOR_BAD_NAME);
    start_party_refused(name, 16, 2, 31, DOOR_BAD_PARTY_OR_CODE);
    start_party_refused(name, 16, 256, 32, DOOR_BAD_PARTY_OR_CODE);
    start_party_refused(name, 16, 1, 31, DOOR_WRONG_LENGTH);
    start_party_refused(name, 0, 0, 32, DOOR_BAD_NAME);
    for (int i = 0; i < 2; i++) {
        start_dealer_refused(bad + i, 1, 32, 32, other, DOOR_BAD_NAME);
        start_party_refused(bad + i, 1, 0, 32, DOOR_BAD_NAME);
        start_lock_refused(bad + i, 1);
    }
    start_lock_refused(name, 17);
    start_lock_refused(name, 0);
    struct door_lock_answer lock = door_start_lock(BARE, sizeof BARE, 4);
    EXPECT(lock.why == DOOR_ACCEPTED && lock.bit == 0 && lock.lock.last == 4);
    EXPECT(memcmp(lock.lock.name, PADDED, DOOR_NAME) == 0);
    struct door_dealer dealer = dealer_of(name, 16, 5);
    EXPECT(memcmp(dealer.name, name, DOOR_NAME) == 0 && dealer.last == 5);
    EXPECT(memcmp(dealer.key0, keys[0], DOOR_KEY) == 0);
    EXPECT(memcmp(dealer.key1, keys[1], DOOR_KEY) == 0);
    struct door_party box = idle(1, 6);
    EXPECT(memcmp(box.who.name, PADDED, DOOR_NAME) == 0 && box.who.party == 1 && box.last == 6);
    EXPECT(memcmp(box.who.key, keys[1], DOOR_KEY) == 0 && box.check.phase == DOOR_IDLE);
    EXPECT(same_set(&box.check.set, &NO_SET) && same_set(&box.waiting, &NO_SET));
}

/* A deal is answered by `why`. If that is a refusal, the dealer and both buffers are as before.
   Else the dealer has moved on to the number, and nothing else of it has changed; what stands in
   the halves is not looked at. In either case deal_order looks at what must stay around them. */
static void deal_says(struct door_dealer dealer, struct order o, uint32_t why)
{
    static struct halves h, before;
    draw_bytes(h.half[0], sizeof h.half[0]);
    draw_bytes(h.half[1], sizeof h.half[1]);
    before = h;
    struct door_dealer_answer a = deal_order(dealer, &o, &h);
    EXPECT(a.why == why);
    if (why == DOOR_ACCEPTED)
        dealer.last = o.number;
    else
        EXPECT(memcmp(&h, &before, sizeof h) == 0);
    EXPECT(same_dealer(&a.dealer, &dealer));
}

/* Where there are two marks, the first is put right before the second, and then their order. */
static void deal_in_turn(struct door_dealer dealer, bool between)
{
    size_t enough = half_size(18);
    struct order o = {
        dealer.last, 31, {3, 18}, 514, {enough - 1, enough - 1}, between, word(-1)};
    deal_says(dealer, o, DOOR_BAD_PARTY_OR_CODE);
    o.terms.code = DOOR_HAMMING;
    deal_says(dealer, o, DOOR_WRONG_LENGTH);
    o.seed_size = 32;
    deal_says(dealer, o, DOOR_SHORT_BUFFER);
    o.room[0] = enough;
    deal_says(dealer, o, DOOR_SHORT_BUFFER);
    o.room[1] = enough;
    deal_says(dealer, o, DOOR_WRONG_NUMBER);
    o.number++;
    deal_says(dealer, o, DOOR_OUT_OF_RANGE);
    o.t = 513;
    deal_says(dealer, o, between ? DOOR_OUT_OF_RANGE : DOOR_ACCEPTED);
    o.q = 512;
    deal_says(dealer, o, between ? DOOR_BAD_MARKS : DOOR_ACCEPTED);
    o.q = 513;
    deal_says(dealer, o, DOOR_ACCEPTED);
}

/* What may be wrong with a deal, by the number that refuses it. */
enum fault {
    FAULT_CODE, FAULT_SEED, FAULT_LENGTH, FAULT_ROOM_0, FAULT_ROOM_1, FAULT_NUMBER, FAULT_T,
    THRESHOLD_FAULTS,
    FAULT_Q = THRESHOLD_FAULTS, FAULT_TOO_FAR, FAULT_ORDER,
    FAULTS
};

static const uint32_t WHY_FAULTY[FAULTS] = {
    [FAULT_CODE] = DOOR_BAD_PARTY_OR_CODE, [FAULT_SEED] = DOOR_WRONG_LENGTH,
    [FAULT_LENGTH] = DOOR_WRONG_LENGTH, [FAULT_ROOM_0] = DOOR_SHORT_BUFFER,
    [FAULT_ROOM_1] = DOOR_SHORT_BUFFER, [FAULT_NUMBER] = DOOR_WRONG_NUMBER,
    [FAULT_T] = DOOR_OUT_OF_RANGE, [FAULT_Q] = DOOR_OUT_OF_RANGE,
    [FAULT_TOO_FAR] = DOOR_BAD_MARKS, [FAULT_ORDER] = DOOR_BAD_MARKS,
};

static void spoil(struct order *o, enum fault fault)
{
    switch (fault) {
    case FAULT_CODE: o->terms.code = 3; break;
    case FAULT_SEED: o->seed_size = 31; break;
    case FAULT_LENGTH: o->terms.n = 513; break;
    case FAULT_ROOM_0: o->room[0] = half_size(o->terms.n) - 1; break;
    case FAULT_ROOM_1: o->room[1] = half_size(o->terms.n) - 1; break;
    case FAULT_NUMBER: o->number--; break;
    case FAULT_T: o->t = word(PRODUCT_END + 1); break;
    case FAULT_Q: o->q = word(-PRODUCT_END - 1); break;
    case FAULT_TOO_FAR: o->t = word(-PRODUCT_END); o->q = word(PRODUCT_END); break;
    case FAULT_ORDER: o->t = 5; o->q = 4; break;
    default: break;
    }
}

/* Every fault alone, and every two: the lower number refuses. The marks of the later fault, which
   the earlier may change again, come first. */
static void deal_with_two_faults(struct door_dealer dealer, bool between)
{
    const struct order good = {dealer.last + 1, 32, {DOOR_SCALAR, 18}, 4,
        {half_size(18), half_size(18)}, between, 4};
    const int faults = between ? FAULTS : THRESHOLD_FAULTS;
    deal_says(dealer, good, DOOR_ACCEPTED);
    for (int lower = 0; lower < faults; lower++)
        for (int higher = lower; higher < faults; higher++) {
            struct order o = good;
            spoil(&o, (enum fault)higher);
            spoil(&o, (enum fault)lower);
            deal_says(dealer, o, WHY_FAULTY[lower]);
        }
}

/* A half of every length has just the room that its content needs. */
static void deal_lengths(struct door_dealer dealer, bool between)
{
    for (size_t n = 1; n <= MOST; n++) {
        const size_t size = half_size(n);
        struct order o = {dealer.last + 1, 32, {DOOR_HAMMING, n}, 0, {size, size}, between, 3};
        EXPECT(size == DOOR_HALF(n));
        deal_says(dealer, o, DOOR_ACCEPTED);
        o.room[n % 2]--;
        deal_says(dealer, o, DOOR_SHORT_BUFFER);
    }
}

static void deal_thresholds(struct door_dealer dealer, struct order o)
{
    static const struct { uint32_t code; long t; } thresholds[] = {
        {DOOR_SCALAR, PRODUCT_END + 1}, {DOOR_SCALAR, -PRODUCT_END - 1},
        {DOOR_EUCLID, -1}, {DOOR_HAMMING, -1}, {DOOR_HAMMING, 514},
    };
    for (size_t i = 0; i < sizeof thresholds / sizeof *thresholds; i++) {
        o.terms.code = thresholds[i].code;
        o.t = word(thresholds[i].t);
        deal_says(dealer, o, DOOR_OUT_OF_RANGE);
    }
}

static const struct marks {
    uint32_t code;
    long p, q;
    uint32_t why;
} MARKS[] = {
    {DOOR_SCALAR, -PRODUCT_END, PRODUCT_END - 1, DOOR_ACCEPTED},
    {DOOR_SCALAR, 1 - PRODUCT_END, PRODUCT_END, DOOR_ACCEPTED},
    {DOOR_SCALAR, -PRODUCT_END, -PRODUCT_END, DOOR_ACCEPTED},
    {DOOR_SCALAR, PRODUCT_END, PRODUCT_END, DOOR_ACCEPTED},
    {DOOR_SCALAR, -1, 0, DOOR_ACCEPTED},
    {DOOR_SCALAR, -PRODUCT_END, PRODUCT_END, DOOR_BAD_MARKS}, /* too far apart by one */
    {DOOR_SCALAR, PRODUCT_END, -PRODUCT_END, DOOR_BAD_MARKS}, /* from here on in no order */
    {DOOR_SCALAR, 0, -1, DOOR_BAD_MARKS},
    {DOOR_SCALAR, 1, 0, DOOR_BAD_MARKS},
    {DOOR_SCALAR, -PRODUCT_END - 1, 0, DOOR_OUT_OF_RANGE},
    {DOOR_SCALAR, -PRODUCT_END - 1, PRODUCT_END, DOOR_OUT_OF_RANGE}, /* and too far apart */
    {DOOR_SCALAR, 0, PRODUCT_END + 1, DOOR_OUT_OF_RANGE},
    {DOOR_SCALAR, PRODUCT_END + 1, 0, DOOR_OUT_OF_RANGE}, /* and in no order, as the next */
    {DOOR_SCALAR, 0, -PRODUCT_END - 1, DOOR_OUT_OF_RANGE},
    {DOOR_SCALAR, INT32_MIN, INT32_MAX, DOOR_OUT_OF_RANGE},
    {DOOR_EUCLID, 0, 0x7fffffff, DOOR_ACCEPTED},
    {DOOR_EUCLID, 0, 0, DOOR_ACCEPTED},
    {DOOR_EUCLID, 0x7fffffff, 0x7fffffff, DOOR_ACCEPTED},
    {DOOR_EUCLID, 1, 0, DOOR_BAD_MARKS},
    {DOOR_EUCLID, 0x7fffffff, 0x7ffffffe, DOOR_BAD_MARKS},
    {DOOR_EUCLID, 0x7fffffff, 0, DOOR_BAD_MARKS},
    {DOOR_EUCLID, -1, 0x7fffffff, DOOR_OUT_OF_RANGE},
    {DOOR_EUCLID, 5, -1, DOOR_OUT_OF_RANGE},
    {DOOR_EUCLID, -1, -2, DOOR_OUT_OF_RANGE},
    {DOOR_HAMMING, 0, 513, DOOR_ACCEPTED},
    {DOOR_HAMMING, 0, 0, DOOR_ACCEPTED},
    {DOOR_HAMMING, 513, 513, DOOR_ACCEPTED},
    {DOOR_HAMMING, 513, 512, DOOR_BAD_MARKS},
    {DOOR_HAMMING, 513, 0, DOOR_BAD_MARKS},
    {DOOR_HAMMING, -1, 513, DOOR_OUT_OF_RANGE},
    {DOOR_HAMMING, 0, 514, DOOR_OUT_OF_RANGE},
    {DOOR_HAMMING, 514, 0, DOOR_OUT_OF_RANGE},
    {DOOR_HAMMING, 514, 514, DOOR_OUT_OF_RANGE},
};

static void deal_marks(struct door_dealer dealer, struct order o)
{
    o.between = true;
    for (size_t i = 0; i < sizeof MARKS / sizeof *MARKS; i++) {
        o.terms.code = MARKS[i].code;
        o.t = word(MARKS[i].p);
        o.q = word(MARKS[i].q);
        deal_says(dealer, o, MARKS[i].why);
    }
}

static void deal_alone(struct door_dealer dealer, bool between)
{
    static const size_t lengths[] = {0, 513, 65537, ((size_t)1 << 32) + 1, SIZE_MAX};
    const struct order good = {dealer.last + 1, 32, {DOOR_SCALAR, 18}, 0,
        {DOOR_HALF_MOST, DOOR_HALF_MOST}, between, 0};
    deal_says(dealer, good, DOOR_ACCEPTED);
    for (size_t i = 0; i < sizeof lengths / sizeof *lengths; i++) {
        struct order o = good;
        o.terms.n = lengths[i];
        deal_says(dealer, o, DOOR_WRONG_LENGTH);
    }
    deal_thresholds(dealer, good);
    deal_marks(dealer, good);
    struct order o = good;
    o.seed_size = 33;
    deal_says(dealer, o, DOOR_WRONG_LENGTH);
    o = good;
    o.terms.code = 256;
    deal_says(dealer, o, DOOR_BAD_PARTY_OR_CODE);
    dealer.last = UINT64_MAX;
    o = good;
    o.number = UINT64_MAX;
    deal_says(dealer, o, DOOR_WRONG_NUMBER);
}

static void deals_refused(struct door_dealer dealer)
{
    for (int between = 0; between < 2; between++) {
        deal_in_turn(dealer, between);
        deal_with_two_faults(dealer, between);
        deal_alone(dealer, between);
        deal_lengths(dealer, between);
    }
}

/* By the clock. */

#define ROWS_ROOM (DOOR_ROWS_MOST + 2)
#define NO_THRESHOLD 0x80000000 /* no measure takes it */

/* A table, and the length that is told of each of its lists. */
struct table {
    uint32_t first[ROWS_ROOM], last[ROWS_ROOM], t[ROWS_ROOM];
    size_t firsts, lasts, thresholds;
};

/* What is handed to a deal by the clock: all of the order but its threshold and marks. */
struct clock_order {
    struct order o;
    struct table table;
    uint32_t minute;
};

static const void *fence_list(struct fenced *f, const uint32_t *list, size_t length)
{
    return fence(f, list, sizeof *list * length);
}

static struct door_clock_answer deal_by_clock(
    struct door_dealer dealer, const struct clock_order *c, struct halves *h)
{
    static struct fenced in, list[3], out[2];
    const struct order *o = &c->o;
    const struct table *t = &c->table;
    const uint8_t *lent = fence(&in, seed, o->seed_size);
    const uint32_t *firsts = fence_list(&list[0], t->first, t->firsts);
    const uint32_t *lasts = fence_list(&list[1], t->last, t->lasts);
    const uint32_t *thresholds = fence_list(&list[2], t->t, t->thresholds);
    uint8_t *out0 = fence(&out[0], h->half[0], o->room[0]);
    uint8_t *out1 = fence(&out[1], h->half[1], o->room[1]);
    struct door_clock_answer a = door_deal_by_clock(dealer, o->number, lent, o->seed_size,
        o->terms, firsts, t->firsts, lasts, t->lasts, thresholds, t->thresholds, c->minute, out0,
        o->room[0], out1, o->room[1]);
    unhurt(&in);
    for (int i = 0; i < 3; i++)
        unhurt(&list[i]);
    take_written(out, a.why == DOOR_ACCEPTED ? half_size(o->terms.n) : 0, h, o->room);
    return a;
}

/* A deal by the clock is answered by `why` and this place. If that is a refusal, the dealer and
   both buffers are as before. Else they are what the deal by the row's threshold leaves. */
static void clock_says(
    struct door_dealer dealer, const struct clock_order *c, uint32_t why, uint32_t place)
{
    static struct halves h, expected;
    draw_bytes(h.half[0], sizeof h.half[0]);
    draw_bytes(h.half[1], sizeof h.half[1]);
    expected = h;
    struct door_clock_answer a = deal_by_clock(dealer, c, &h);
    EXPECT(a.why == why && a.place == place);
    if (why == DOOR_ACCEPTED) {
        struct order by_threshold = c->o;
        by_threshold.t = c->table.t[place - 1];
        struct door_dealer_answer b = deal_order(dealer, &by_threshold, &expected);
        EXPECT(b.why == DOOR_ACCEPTED && b.dealer.last == c->o.number);
        dealer = b.dealer;
    }
    EXPECT(same_dealer(&a.dealer, &dealer));
    EXPECT(memcmp(&h, &expected, sizeof h) == 0);
}

static void set_rows(struct table *t, size_t rows)
{
    t->firsts = t->lasts = t->thresholds = rows;
}

static void exchange(uint32_t *a, uint32_t *b)
{
    const uint32_t kept = *a;
    *a = *b;
    *b = kept;
}

static void shuffle(struct table *t)
{
    for (size_t i = t->firsts; i > 1; i--) {
        const size_t k = draw() % i;
        exchange(&t->first[i - 1], &t->first[k]);
        exchange(&t->last[i - 1], &t->last[k]);
        exchange(&t->t[i - 1], &t->t[k]);
    }
}

/* The day cut into so many rows by chance, in an order by chance, with thresholds that each measure
   takes. */
static struct table drawn_table(size_t rows)
{
    bool begins[DOOR_DAY + 1] = {[0] = true, [DOOR_DAY] = true};
    struct table t = {0};
    for (size_t left = rows - 1; left > 0;) {
        const uint32_t minute = draw() % DOOR_DAY;
        left -= !begins[minute];
        begins[minute] = true;
    }
    size_t row = 0;
    for (uint32_t minute = 1; minute <= DOOR_DAY; minute++)
        if (begins[minute]) {
            t.last[row++] = minute - 1;
            t.first[row] = minute;
        }
    for (row = 0; row < rows; row++)
        t.t[row] = draw() % 514;
    set_rows(&t, rows);
    shuffle(&t);
    return t;
}

static struct clock_order clock_order(struct door_dealer dealer, uint32_t code, size_t rows)
{
    const size_t n = 1 + draw() % 40, size = half_size(n);
    struct clock_order c = {
        .o = {.number = dealer.last + 1 + draw() % 9, .seed_size = DOOR_KEY, .terms = {code, n},
            .room = {size, size}},
        .table = drawn_table(rows), .minute = draw() % DOOR_DAY};
    return c;
}

/* The first and the last minute of each row, which are those beside its neighbours'. */
static void clock_each_row(struct door_dealer dealer, struct clock_order c)
{
    for (uint32_t row = 0; row < c.table.firsts; row++) {
        c.minute = c.table.first[row];
        clock_says(dealer, &c, DOOR_ACCEPTED, row + 1);
        c.minute = c.table.last[row];
        clock_says(dealer, &c, DOOR_ACCEPTED, row + 1);
    }
}

/* A threshold that no measure takes is refused in the row that is used, and in no other. */
static void clock_thresholds(struct door_dealer dealer, struct clock_order c)
{
    const struct table good = c.table;
    for (uint32_t row = 0; row < good.firsts; row++) {
        c.minute = good.first[row];
        c.table = good;
        c.table.t[row] = NO_THRESHOLD;
        clock_says(dealer, &c, DOOR_OUT_OF_RANGE, 0);
        for (size_t i = 0; i < good.firsts; i++)
            c.table.t[i] = i == row ? good.t[i] : NO_THRESHOLD;
        clock_says(dealer, &c, DOOR_ACCEPTED, row + 1);
    }
}

/* The ends of each measure's thresholds, and what lies just outside: in the row that is used, and
   in another one, where it is not looked at. */
static void clock_ends(struct door_dealer dealer, struct clock_order c)
{
    static const long ends[][2] = {[DOOR_SCALAR] = {-PRODUCT_END, PRODUCT_END},
        [DOOR_EUCLID] = {0, 0x7fffffff}, [DOOR_HAMMING] = {0, 513}};
    const struct table good = c.table;
    for (int end = 0; end < 2; end++) {
        const long inside = ends[c.o.terms.code][end], outside = inside + (end == 0 ? -1 : 1);
        for (uint32_t row = 0; row < good.firsts; row++) {
            const uint32_t used = row, other = (row + 1) % (uint32_t)good.firsts;
            c.minute = good.last[used];
            c.table = good;
            c.table.t[used] = word(inside);
            clock_says(dealer, &c, DOOR_ACCEPTED, used + 1);
            c.table.t[used] = word(outside);
            clock_says(dealer, &c, DOOR_OUT_OF_RANGE, 0);
            if (other == used)
                continue;
            c.table.t[other] = word(inside);
            clock_says(dealer, &c, DOOR_OUT_OF_RANGE, 0);
            exchange(&c.table.t[used], &c.table.t[other]);
            clock_says(dealer, &c, DOOR_ACCEPTED, used + 1);
        }
    }
}

static void clock_minutes(struct door_dealer dealer, struct clock_order c)
{
    static const uint32_t none[] = {DOOR_DAY, DOOR_DAY + 1, 2 * DOOR_DAY, 65536, 65536 + DOOR_DAY,
        0x7fffffff, 0x80000000, UINT32_MAX};
    for (size_t i = 0; i < sizeof none / sizeof *none; i++) {
        c.minute = none[i];
        clock_says(dealer, &c, DOOR_OUT_OF_RANGE, 0);
    }
}

static void clock_good_tables(struct door_dealer dealer)
{
    static const size_t rows[] = {1, 2, 3, 31, DOOR_ROWS_MOST};
    for (size_t i = 0; i < sizeof rows / sizeof *rows; i++)
        for (uint32_t code = 0; code < 3; code++) {
            const struct clock_order c = clock_order(dealer, code, rows[i]);
            clock_each_row(dealer, c);
            clock_thresholds(dealer, c);
            clock_ends(dealer, c);
            clock_minutes(dealer, c);
        }
}

/* Lists of unequal length, or of too few or too many rows. */
static void clock_lists(struct door_dealer dealer)
{
    static const size_t lengths[] = {0, 1, 31, DOOR_ROWS_MOST, DOOR_ROWS_MOST + 1};
    const size_t count = sizeof lengths / sizeof *lengths;
    for (size_t i = 0; i < count * count * count; i++) {
        const size_t firsts = lengths[i % count], lasts = lengths[i / count % count];
        const size_t thresholds = lengths[i / count / count];
        bool is_one = firsts == lasts && lasts == thresholds;
        struct clock_order c =
            clock_order(dealer, DOOR_HAMMING, is_one && firsts > 0 ? firsts : DOOR_ROWS_MOST);
        if (is_one && firsts >= 1 && firsts <= DOOR_ROWS_MOST)
            continue;
        c.table.firsts = firsts;
        c.table.lasts = lasts;
        c.table.thresholds = thresholds;
        clock_says(dealer, &c, DOOR_BAD_ROWS, 0);
    }
}

/* Longer lists, which a count cut to 8 or to 16 bits would take for one row. That row is the whole
   day; and each list is long alone too. */
static void clock_long_lists(struct door_dealer dealer)
{
    static const size_t lengths[] = {1, DOOR_ROWS_MOST + 1, 257, 65537};
    static uint32_t list[3][65537] = {[1] = {DOOR_DAY - 1}, [2] = {5}};
    static struct halves h, before;
    const size_t count = sizeof lengths / sizeof *lengths;
    const struct door_terms terms = {DOOR_HAMMING, 18};
    for (size_t i = 0; i < count * count * count; i++) {
        const size_t firsts = lengths[i % count], lasts = lengths[i / count % count];
        const size_t thresholds = lengths[i / count / count];
        before = h;
        struct door_clock_answer a = door_deal_by_clock(dealer, dealer.last + 1, seed, DOOR_KEY,
            terms, list[0], firsts, list[1], lasts, list[2], thresholds, 700, h.half[0],
            sizeof h.half[0], h.half[1], sizeof h.half[1]);
        if (i == 0) { /* all three have one row */
            EXPECT(a.why == DOOR_ACCEPTED && a.place == 1);
            continue;
        }
        EXPECT(a.why == DOOR_BAD_ROWS && a.place == 0);
        EXPECT(same_dealer(&a.dealer, &dealer) && memcmp(&h, &before, sizeof h) == 0);
        EXPECT(list[0][0] == 0 && list[1][0] == DOOR_DAY - 1 && list[2][0] == 5);
    }
}

/* What a table of this few rows is answered by, where it does not depend on the minute. */
static const struct few_rows {
    size_t rows;
    uint32_t minutes[3][2]; /* first and last */
    uint32_t why, place;
} FEW_ROWS[] = {
    {1, {{0, 1440}}, DOOR_BAD_ROWS, 1}, /* past the day */
    {1, {{0, UINT32_MAX}}, DOOR_BAD_ROWS, 1},
    {1, {{0, 65536 + 1439}}, DOOR_BAD_ROWS, 1}, /* good if cut to 16 bits, as the next two */
    {1, {{65536, 1439}}, DOOR_BAD_ROWS, 1},
    {1, {{65536, 65536 + 1439}}, DOOR_BAD_ROWS, 1},
    {1, {{1440, 1440}}, DOOR_BAD_ROWS, 1},
    {1, {{1439, 0}}, DOOR_BAD_ROWS, 1}, /* backwards */
    {1, {{720, 719}}, DOOR_BAD_ROWS, 1},
    {2, {{0, 1439}, {UINT32_MAX, UINT32_MAX}}, DOOR_BAD_ROWS, 2},
    {2, {{0, 1439}, {UINT32_MAX, 0}}, DOOR_BAD_ROWS, 2},
    {2, {{1, 0}, {0, 1440}}, DOOR_BAD_ROWS, 1}, /* the first such row */
    {3, {{0, 719}, {0, 1440}, {9, 8}}, DOOR_BAD_ROWS, 2},
    {3, {{0, 300}, {302, 1439}, {7, 6}}, DOOR_BAD_ROWS, 3}, /* before any minute */
    {3, {{0, 300}, {300, 1439}, {7, 6}}, DOOR_BAD_ROWS, 3},
    {1, {{1, 1439}}, DOOR_NO_ROW, 0}, /* gaps */
    {1, {{0, 1438}}, DOOR_NO_ROW, 1439},
    {1, {{700, 700}}, DOOR_NO_ROW, 0},
    {2, {{0, 719}, {721, 1439}}, DOOR_NO_ROW, 720},
    {2, {{721, 1439}, {0, 719}}, DOOR_NO_ROW, 720},
    {2, {{0, 0}, {1439, 1439}}, DOOR_NO_ROW, 1},
    {2, {{0, 1439}, {0, 0}}, DOOR_MORE_ROWS, 0}, /* overlaps */
    {2, {{0, 1439}, {1439, 1439}}, DOOR_MORE_ROWS, 1439},
    {2, {{0, 719}, {719, 1439}}, DOOR_MORE_ROWS, 719},
    {2, {{719, 1439}, {0, 719}}, DOOR_MORE_ROWS, 719},
    {3, {{0, 1439}, {0, 1439}, {0, 1439}}, DOOR_MORE_ROWS, 0},
    {3, {{0, 300}, {300, 899}, {901, 1439}}, DOOR_MORE_ROWS, 300}, /* the lower minute decides */
    {3, {{901, 1439}, {300, 899}, {0, 300}}, DOOR_MORE_ROWS, 300},
    {3, {{0, 299}, {301, 900}, {900, 1439}}, DOOR_NO_ROW, 300},
    {3, {{900, 1439}, {301, 900}, {0, 299}}, DOOR_NO_ROW, 300},
};

static void clock_few_rows(struct door_dealer dealer)
{
    static const uint32_t minutes[] = {0, 300, 720, 1439, 1440, UINT32_MAX};
    for (size_t i = 0; i < sizeof FEW_ROWS / sizeof *FEW_ROWS; i++) {
        const struct few_rows *few = &FEW_ROWS[i];
        struct clock_order c = clock_order(dealer, i % 3, few->rows);
        for (size_t row = 0; row < few->rows; row++) {
            c.table.first[row] = few->minutes[row][0];
            c.table.last[row] = few->minutes[row][1];
        }
        for (size_t k = 0; k < sizeof minutes / sizeof *minutes; k++) {
            c.minute = minutes[k];
            clock_says(dealer, &c, few->why, few->place);
        }
    }
}

/* How many rows hold a minute; `place` is the last of them, counted from 1. */
static size_t rows_with(const struct table *t, uint32_t minute, uint32_t *place)
{
    size_t found = 0;
    for (uint32_t row = 0; row < t->firsts; row++)
        if (t->first[row] <= minute && minute <= t->last[row]) {
            found++;
            *place = row + 1;
        }
    return found;
}

/* What a table with lists of one length is answered by, found minute by minute. */
static uint32_t table_why(const struct table *t, uint32_t *place)
{
    *place = 0;
    if (t->firsts < 1 || t->firsts > DOOR_ROWS_MOST)
        return DOOR_BAD_ROWS;
    for (uint32_t row = 0; row < t->firsts; row++)
        if (t->first[row] > t->last[row] || t->last[row] >= DOOR_DAY) {
            *place = row + 1;
            return DOOR_BAD_ROWS;
        }
    for (uint32_t minute = 0; minute < DOOR_DAY; minute++) {
        const size_t found = rows_with(t, minute, place);
        *place = minute;
        if (found != 1)
            return found == 0 ? DOOR_NO_ROW : DOOR_MORE_ROWS;
    }
    return DOOR_ACCEPTED;
}

static void damage(struct table *t)
{
    uint32_t *list = draw() % 2 == 0 ? t->first : t->last, *minute = &list[draw() % t->firsts];
    switch (draw() % 5) {
    case 0: *minute += 1; break;
    case 1: *minute -= 1; break;
    case 2: *minute = draw() % (DOOR_DAY + 2); break;
    case 3: exchange(minute, &list[draw() % t->firsts]); break;
    default: *minute = DOOR_DAY; break;
    }
}

/* Tables with little or much that is wrong with them, by chance. */
static void clock_drawn_tables(struct door_dealer dealer)
{
    long met[DOOR_MORE_ROWS + 1] = {0};
    for (int i = 0; i < 1500; i++) {
        struct clock_order c =
            clock_order(dealer, draw() % 3, 1 + draw() % (DOOR_ROWS_MOST + 1));
        for (uint32_t damages = draw() % 3; damages > 0; damages--)
            damage(&c.table);
        uint32_t place;
        const uint32_t why = table_why(&c.table, &place);
        if (why == DOOR_ACCEPTED)
            EXPECT(rows_with(&c.table, c.minute, &place) == 1);
        clock_says(dealer, &c, why, place);
        met[why]++;
    }
    EXPECT(met[DOOR_ACCEPTED] >= 100 && met[DOOR_BAD_ROWS] >= 100);
    EXPECT(met[DOOR_NO_ROW] >= 100 && met[DOOR_MORE_ROWS] >= 100);
}

/* What may be wrong with a deal by the clock, in the order in which it is tested. */
enum clock_fault {
    CLOCK_LISTS, CLOCK_COUNT, CLOCK_ROW, CLOCK_GAP, CLOCK_OVERLAP,
    CLOCK_CODE, CLOCK_SEED, CLOCK_LENGTH, CLOCK_ROOM_0, CLOCK_ROOM_1, CLOCK_NUMBER,
    CLOCK_MINUTE, CLOCK_T,
    CLOCK_FAULTS
};

/* The table that is spoiled has the rows 0 to 499, 500 to 999 and 1000 to 1439. */
static const struct { uint32_t why, place; } WHY_CLOCK[CLOCK_FAULTS] = {
    [CLOCK_LISTS] = {DOOR_BAD_ROWS, 0}, [CLOCK_COUNT] = {DOOR_BAD_ROWS, 0},
    [CLOCK_ROW] = {DOOR_BAD_ROWS, 3}, [CLOCK_GAP] = {DOOR_NO_ROW, 499},
    [CLOCK_OVERLAP] = {DOOR_MORE_ROWS, 999}, [CLOCK_CODE] = {DOOR_BAD_PARTY_OR_CODE, 0},
    [CLOCK_SEED] = {DOOR_WRONG_LENGTH, 0}, [CLOCK_LENGTH] = {DOOR_WRONG_LENGTH, 0},
    [CLOCK_ROOM_0] = {DOOR_SHORT_BUFFER, 0}, [CLOCK_ROOM_1] = {DOOR_SHORT_BUFFER, 0},
    [CLOCK_NUMBER] = {DOOR_WRONG_NUMBER, 0}, [CLOCK_MINUTE] = {DOOR_OUT_OF_RANGE, 0},
    [CLOCK_T] = {DOOR_OUT_OF_RANGE, 0},
};

static void spoil_clock(struct clock_order *c, enum clock_fault fault)
{
    switch (fault) {
    case CLOCK_LISTS: c->table.thresholds = 2; break;
    case CLOCK_COUNT: set_rows(&c->table, 0); break;
    case CLOCK_ROW: c->table.last[2] = DOOR_DAY; break;
    case CLOCK_GAP: c->table.last[0] = 498; break;
    case CLOCK_OVERLAP: c->table.first[2] = 999; break;
    case CLOCK_CODE: c->o.terms.code = 3; break;
    case CLOCK_SEED: c->o.seed_size = 31; break;
    case CLOCK_LENGTH: c->o.terms.n = 513; break;
    case CLOCK_ROOM_0: c->o.room[0]--; break;
    case CLOCK_ROOM_1: c->o.room[1]--; break;
    case CLOCK_NUMBER: c->o.number--; break;
    case CLOCK_MINUTE: c->minute = DOOR_DAY; break;
    default: c->table.t[1] = NO_THRESHOLD; break;
    }
}

/* Every fault alone, every two, and all from each one on: the one that is tested first refuses. */
static void clock_with_faults(struct door_dealer dealer)
{
    const size_t size = half_size(18);
    struct clock_order good = {
        .o = {.number = dealer.last + 1, .seed_size = DOOR_KEY, .terms = {DOOR_HAMMING, 18},
            .room = {size, size}},
        .table = {{0, 500, 1000}, {499, 999, 1439}, {3, 4, 5}, 3, 3, 3}, .minute = 500};
    clock_says(dealer, &good, DOOR_ACCEPTED, 2);
    for (int lower = 0; lower < CLOCK_FAULTS; lower++) {
        struct clock_order all = good;
        for (int higher = CLOCK_FAULTS - 1; higher >= lower; higher--) {
            struct clock_order c = good;
            spoil_clock(&c, (enum clock_fault)lower);
            if (higher != lower)
                spoil_clock(&c, (enum clock_fault)higher);
            clock_says(dealer, &c, WHY_CLOCK[lower].why, WHY_CLOCK[lower].place);
            spoil_clock(&all, (enum clock_fault)higher);
        }
        clock_says(dealer, &all, WHY_CLOCK[lower].why, WHY_CLOCK[lower].place);
    }
    dealer.last = good.o.number = UINT64_MAX;
    clock_says(dealer, &good, DOOR_WRONG_NUMBER, 0);
    good.o.seed_size = 33;
    clock_says(dealer, &good, DOOR_WRONG_LENGTH, 0);
}

/* Every length, with just the room that a half has, with a byte less, and with more, of which the
   rest stays. */
static void clock_lengths(struct door_dealer dealer)
{
    for (size_t n = 1; n <= MOST; n++) {
        const size_t size = half_size(n);
        struct clock_order c = clock_order(dealer, n % 3, 1 + n % 4);
        uint32_t place;
        EXPECT(rows_with(&c.table, c.minute, &place) == 1);
        c.o.terms.n = n;
        c.o.room[0] = c.o.room[1] = size;
        clock_says(dealer, &c, DOOR_ACCEPTED, place);
        c.o.room[n % 2]--;
        clock_says(dealer, &c, DOOR_SHORT_BUFFER, 0);
        c.o.room[n % 2] = DOOR_HALF_MOST + n % BEYOND;
        clock_says(dealer, &c, DOOR_ACCEPTED, place);
        c.o.room[0] = c.o.room[1] = DOOR_HALF_MOST;
        clock_says(dealer, &c, DOOR_ACCEPTED, place);
    }
}

/* Lengths and codes out of their ranges, which a cut to fewer bits would bring into them. */
static void clock_terms(struct door_dealer dealer, const struct clock_order *good)
{
    static const size_t lengths[] = {0, 513, 65536, 65537, (size_t)1 << 32, ((size_t)1 << 32) + 1,
        ((size_t)1 << 63) + 1, SIZE_MAX};
    static const uint32_t codes[] = {
        3, 4, 256, 257, 258, 65536, 65538, 0x80000000, 0x80000001, UINT32_MAX - 1, UINT32_MAX};
    struct clock_order c = *good;
    for (uint32_t code = 0; code < 3; code++) {
        c.o.terms.code = code;
        clock_says(dealer, &c, DOOR_ACCEPTED, 1);
    }
    for (size_t i = 0; i < sizeof lengths / sizeof *lengths; i++) {
        c = *good;
        c.o.terms.n = lengths[i];
        clock_says(dealer, &c, DOOR_WRONG_LENGTH, 0);
    }
    for (size_t i = 0; i < sizeof codes / sizeof *codes; i++) {
        c = *good;
        c.o.terms.code = codes[i];
        clock_says(dealer, &c, DOOR_BAD_PARTY_OR_CODE, 0);
    }
    static const size_t seeds[] = {0, 31, 33};
    for (size_t i = 0; i < sizeof seeds / sizeof *seeds; i++) {
        c = *good;
        c.o.seed_size = seeds[i];
        clock_says(dealer, &c, DOOR_WRONG_LENGTH, 0);
    }
}

/* A number is compared in all of its 64 bits, and not as a signed one. */
static const struct { uint64_t last, number; bool above; } NUMBERS[] = {
    {40, UINT64_MAX, true}, {UINT64_MAX - 1, UINT64_MAX, true}, {UINT64_MAX, UINT64_MAX, false},
    {UINT64_MAX, UINT64_MAX - 1, false}, {UINT64_MAX, 0, false}, {UINT64_MAX, 1, false},
    {0, 0, false}, {0, 1, true}, {UINT32_MAX, (uint64_t)1 << 32, true},
    {9, ((uint64_t)1 << 32) + 1, true}, {9, ((uint64_t)1 << 32) + 9, true},
    {((uint64_t)1 << 32) + 7, ((uint64_t)1 << 32) + 8, true},
    {((uint64_t)1 << 32) + 7, ((uint64_t)1 << 32) + 7, false},
    {((uint64_t)1 << 32) + 7, ((uint64_t)1 << 32) + 6, false},
    {((uint64_t)1 << 32) + 7, 9, false}, {((uint64_t)3 << 32) + 7, ((uint64_t)2 << 32) + 8, false},
    {INT64_MAX, (uint64_t)INT64_MAX + 1, true}, {(uint64_t)INT64_MAX + 1, INT64_MAX, false},
};

static void clock_numbers(struct door_dealer dealer, struct clock_order c)
{
    for (size_t i = 0; i < sizeof NUMBERS / sizeof *NUMBERS; i++) {
        dealer.last = NUMBERS[i].last;
        c.o.number = NUMBERS[i].number;
        clock_says(dealer, &c, NUMBERS[i].above ? DOOR_ACCEPTED : DOOR_WRONG_NUMBER,
            NUMBERS[i].above ? 1 : 0);
    }
}

/* Each input alone, with more room than a half has. */
static void clock_alone(struct door_dealer dealer)
{
    struct clock_order good = clock_order(dealer, DOOR_HAMMING, 1);
    good.o.terms.n = 18;
    good.o.room[0] = good.o.room[1] = DOOR_HALF_MOST;
    clock_says(dealer, &good, DOOR_ACCEPTED, 1);
    clock_terms(dealer, &good);
    clock_numbers(dealer, good);
}

static void deals_by_clock(struct door_dealer dealer)
{
    clock_good_tables(dealer);
    clock_lists(dealer);
    clock_long_lists(dealer);
    clock_few_rows(dealer);
    clock_drawn_tables(dealer);
    clock_with_faults(dealer);
    clock_lengths(dealer);
    clock_alone(dealer);
}

/* What is handed to calls 3 and 4. */
struct message {
    uint32_t kind;
    const uint8_t *name;
    size_t name_size;
    uint32_t sender;
    uint64_t number;
    size_t n; /* call 3 */
};

static void box_refused(
    const struct door_party_answer *a, const struct door_party *box, uint32_t why)
{
    EXPECT(a->why == why);
    if (why == DOOR_ACCEPTED)
        return;
    EXPECT(a->word == 0);
    EXPECT(same_party(&a->party, box));
}

static void load_refused(
    const struct door_party *box, const uint8_t *half, size_t size, uint32_t why)
{
    struct door_party_answer a = load(box, half, size);
    box_refused(&a, box, why);
}

static void mask_refused(
    const struct door_party *box, const uint32_t *v, size_t n, size_t room, uint32_t why)
{
    struct vector out;
    draw_bytes((uint8_t *)out.at, sizeof out.at);
    struct vector before = out;
    struct door_party_answer a = door_mask(*box, v, n, out.at, room);
    box_refused(&a, box, why);
    if (why != DOOR_ACCEPTED)
        EXPECT(memcmp(&out, &before, sizeof out) == 0);
}

static void take_refused(
    const struct door_party *box, struct message m, const uint32_t *v, uint32_t why)
{
    struct door_party_answer a =
        door_take(*box, m.kind, m.name, m.name_size, m.sender, m.number, v, m.n);
    box_refused(&a, box, why);
}

static void finish_refused(const struct door_party *box, struct message m, uint32_t why)
{
    struct door_party_answer a =
        door_finish(*box, m.kind, m.name, m.name_size, m.sender, m.number, 12345);
    box_refused(&a, box, why);
}

static void drop_refused(const struct door_party *box, uint32_t why)
{
    struct door_party_answer a = door_drop(*box);
    box_refused(&a, box, why);
}

/* A check at the office box: its state by phase, and good input for every call. */
struct stage {
    struct door_party at[DOOR_TAKEN + 1];
    struct halves halves;
    size_t size; /* of a half */
    size_t n;
    uint32_t v[MOST + BEYOND];
    struct message vector, word;
};

static struct stage stage;

static void set_stage(uint32_t code, size_t n, bool between)
{
    struct door d = open_door(40);
    struct check k = drawn_check(code, n);
    if (between)
        draw_marks(&k);
    struct vector sent[2];
    uint32_t words[2];
    deals(&d, 41, &k, &stage.halves);
    stage.at[DOOR_IDLE] = d.box[1];
    loads(&d, 41, &k, &stage.halves);
    stage.at[DOOR_LOADED] = d.box[1];
    masks(&d, &k, sent);
    stage.at[DOOR_MASKED] = d.box[1];
    takes(&d, 41, &k, sent, words);
    stage.at[DOOR_TAKEN] = d.box[1];
    stage.size = half_size(n);
    stage.n = n;
    memset(stage.v, 0, sizeof stage.v);
    words_of(&k, 1, stage.v);
    struct message m = {DOOR_MASKED_VECTOR, PADDED, DOOR_NAME, 0, 41, n};
    stage.vector = m;
    m.kind = DOOR_WORD;
    stage.word = m;
}

/* Every call with good input at a state: those in turn are accepted, the others refused. A load is
   in turn with a set open too, and then refused since that set is this half's. */
static void turns(const struct door_party *box, bool fits)
{
    uint32_t why[DOOR_TAKEN + 1];
    for (uint32_t phase = DOOR_IDLE; phase <= DOOR_TAKEN; phase++)
        why[phase] = fits && box->check.phase == phase ? DOOR_ACCEPTED : DOOR_OUT_OF_TURN;
    if (fits && box->check.phase != DOOR_IDLE)
        why[DOOR_IDLE] = DOOR_WRONG_NUMBER;
    load_refused(box, stage.halves.half[1], stage.size, why[DOOR_IDLE]);
    mask_refused(box, stage.v, stage.n, stage.n, why[DOOR_LOADED]);
    take_refused(box, stage.vector, stage.v, why[DOOR_MASKED]);
    finish_refused(box, stage.word, why[DOOR_TAKEN]);
    drop_refused(
        box, fits && box->check.phase != DOOR_IDLE ? DOOR_ACCEPTED : DOOR_OUT_OF_TURN);
}

static void states(void)
{
    for (uint32_t phase = DOOR_IDLE; phase <= DOOR_TAKEN; phase++) {
        turns(&stage.at[phase], true);
        struct door_party box = stage.at[phase];
        box.who.party = 2;
        turns(&box, false);
        box = stage.at[phase];
        box.check.phase += DOOR_TAKEN + 1;
        turns(&box, false);
        box = stage.at[phase];
        box.check.set.terms.code += phase == DOOR_IDLE ? 1 : 3;
        turns(&box, false);
        box = stage.at[phase];
        box.check.set.terms.n = phase == DOOR_IDLE ? 1 : 0;
        turns(&box, false);
        box.check.set.terms.n = 513;
        turns(&box, false);
    }
    struct door_party_answer a = door_drop(stage.at[DOOR_TAKEN]);
    struct door_party closed = idle(1, 41);
    EXPECT(same_party(&a.party, &closed));
}

/* With no set open, and with one in each phase. */
static void load_in_turn(uint32_t phase)
{
    static struct halves other; /* another door's, under the same keys */
    struct check k = drawn_check(DOOR_EUCLID, stage.n);
    struct door_dealer_answer dealt = deal(dealer_of(OTHER, 4, 41), 42, &k, &other);
    EXPECT(dealt.why == DOOR_ACCEPTED);
    uint8_t *half = other.half[1];
    struct door_party box = stage.at[phase];
    uint32_t code = box.check.set.terms.code;
    box.last = 42;
    box.check.set.terms.code = phase == DOOR_IDLE ? 1 : 3;
    half[stage.size - 1] ^= 128;
    load_refused(&box, half, stage.size - 1, DOOR_OUT_OF_TURN);
    box.check.set.terms.code = code;
    load_refused(&box, half, stage.size - 1, DOOR_WRONG_LENGTH);
    load_refused(&box, half, stage.size, DOOR_WRONG_NUMBER);
    box.last = 41;
    load_refused(&box, half, stage.size, DOOR_BAD_BLOCK);
    half[stage.size - 1] ^= 128;
    load_refused(&box, half, stage.size, DOOR_BAD_CONTENT);
    box.last = 40;
    box.check.set.number = 40;
    load_refused(&box, stage.halves.half[1], stage.size, DOOR_ACCEPTED);
}

static void load_alone(void)
{
    static uint8_t half[17 * DOOR_BLOCK];
    const struct door_party *box = &stage.at[DOOR_IDLE];
    static const size_t sizes[] = {0, DOOR_BLOCK, 2 * DOOR_BLOCK, 1537, 17 * DOOR_BLOCK};
    memcpy(half, stage.halves.half[1], stage.size);
    for (size_t i = 0; i < sizeof sizes / sizeof *sizes; i++)
        load_refused(box, half, sizes[i], DOOR_WRONG_LENGTH);
    /* Any bit: of a block's number, its place, what is sealed, the tag. */
    static const size_t places[] = {DOOR_BLOCK, DOOR_BLOCK + 8, 8, 12, 495, 496, 511};
    for (size_t i = 0; i < sizeof places / sizeof *places; i++) {
        half[places[i]] ^= 1;
        load_refused(box, half, stage.size, DOOR_BAD_BLOCK);
        half[places[i]] ^= 1;
    }
    load_refused(box, half, stage.size, DOOR_ACCEPTED);
    load_refused(box, half, stage.size - DOOR_BLOCK, DOOR_BAD_CONTENT); /* a block left out */
    load_refused(box, stage.halves.half[0], stage.size, DOOR_BAD_BLOCK); /* another key */
    struct door_party other = *box;
    memcpy(other.who.key, keys[0], DOOR_KEY);
    load_refused(&other, stage.halves.half[0], stage.size, DOOR_BAD_CONTENT); /* another party */
    other = *box;
    other.last = UINT64_MAX;
    load_refused(&other, half, stage.size, DOOR_WRONG_NUMBER);
}

static void mask(void)
{
    size_t n = stage.n;
    struct door_party box = stage.at[DOOR_LOADED];
    uint32_t good = stage.v[n - 1], code = box.check.set.terms.code;
    stage.v[n - 1] = code == DOOR_HAMMING ? 2 : 1024;
    box.check.phase = DOOR_MASKED;
    mask_refused(&box, stage.v, n + 1, n - 1, DOOR_OUT_OF_TURN);
    box.check.phase = DOOR_LOADED;
    mask_refused(&box, stage.v, n + 1, n - 1, DOOR_WRONG_LENGTH);
    mask_refused(&box, stage.v, n - 1, n, DOOR_WRONG_LENGTH);
    mask_refused(&box, stage.v, n, n - 1, DOOR_SHORT_BUFFER);
    mask_refused(&box, stage.v, n, n, DOOR_OUT_OF_RANGE);
    stage.v[n - 1] = word(code == DOOR_HAMMING ? -1 : -1025);
    mask_refused(&box, stage.v, n, n, DOOR_OUT_OF_RANGE);
    stage.v[n - 1] = good;
    mask_refused(&box, stage.v, n, n, DOOR_ACCEPTED);
}

/* Calls 3 and 4 have their refusals in common; the phase tells which of the two is in turn. */
static void message_refused(const struct door_party *box, struct message m, uint32_t why)
{
    if (box->check.phase == DOOR_MASKED)
        take_refused(box, m, stage.v, why);
    else
        finish_refused(box, m, why);
}

static void message(const struct door_party *box, struct message good)
{
    struct message m = {DOOR_ANSWER, OTHER, 15, 1, 42, good.n};
    struct door_party out_of_turn = *box;
    out_of_turn.check.phase = DOOR_LOADED;
    take_refused(&out_of_turn, m, stage.v, DOOR_OUT_OF_TURN);
    finish_refused(&out_of_turn, m, DOOR_OUT_OF_TURN);
    message_refused(box, m, DOOR_WRONG_LENGTH);
    m.name_size = 16;
    message_refused(box, m, DOOR_WRONG_MESSAGE);
    m.kind = good.kind;
    message_refused(box, m, DOOR_WRONG_MESSAGE);
    m.name = PADDED;
    message_refused(box, m, DOOR_WRONG_MESSAGE);
    m.sender = 0;
    message_refused(box, m, DOOR_WRONG_NUMBER);
    m.number = 40;
    message_refused(box, m, DOOR_WRONG_NUMBER);
    m.number = 41;
    message_refused(box, m, DOOR_ACCEPTED);
    m.kind += 256;
    message_refused(box, m, DOOR_WRONG_MESSAGE);
    m = good;
    m.sender = 256;
    message_refused(box, m, DOOR_WRONG_MESSAGE);
    m = good;
    m.name = OTHER;
    message_refused(box, m, DOOR_WRONG_MESSAGE);
    m = good;
    m.n--;
    if (box->check.phase == DOOR_MASKED)
        message_refused(box, m, DOOR_WRONG_LENGTH);
}

static void join_refused(struct join j, uint32_t why)
{
    EXPECT(join(40, &j, 40) == LOCK_REFUSED + why);
}

static void joins(void)
{
    const struct join good = join_of(41, UINT32_MAX, 2);
    EXPECT(join(40, &good, 41) == 1); /* the sum is modulo 2^32 */
    const struct join zero = join_of(UINT64_MAX, UINT32_MAX, 1);
    EXPECT(join(40, &zero, UINT64_MAX) == 0);
    struct join j = {
        15, {DOOR_WORD, DOOR_ANSWER}, {OTHER, PADDED}, {16, 15}, {1, 0}, {40, 41}, {1, 1}};
    join_refused(j, DOOR_WRONG_LENGTH);
    j.size = 16;
    join_refused(j, DOOR_WRONG_LENGTH);
    j.name_size[1] = 16;
    join_refused(j, DOOR_WRONG_MESSAGE);
    j.kind[0] = DOOR_ANSWER;
    join_refused(j, DOOR_WRONG_MESSAGE);
    j.name[0] = PADDED;
    join_refused(j, DOOR_WRONG_MESSAGE);
    j.sender[0] = 0;
    join_refused(j, DOOR_WRONG_MESSAGE);
    j.sender[1] = 1;
    join_refused(j, DOOR_WRONG_NUMBER);
    j.number[0] = 42;
    join_refused(j, DOOR_WRONG_NUMBER);
    j.number[0] = 41;
    join_refused(j, DOOR_BAD_SUM);
    j.answer[0] = 0;
    EXPECT(join(40, &j, 41) == 1);
    EXPECT(join(UINT64_MAX, &j, UINT64_MAX) == LOCK_REFUSED + DOOR_WRONG_NUMBER);
    j = good;
    j.size = 17;
    join_refused(j, DOOR_WRONG_LENGTH);
    j = good;
    j.kind[1] = 256 + DOOR_ANSWER;
    join_refused(j, DOOR_WRONG_MESSAGE);
    j = good;
    j.name[1] = OTHER;
    join_refused(j, DOOR_WRONG_MESSAGE);
}

/* An empty slice is refused in every place, wherever its pointer leads: `none` and `no_words` may be
   null. Buffers that are not empty are left as they are. */

static void dealer_refused(
    struct door_dealer_answer a, const struct door_dealer *dealer, uint32_t why)
{
    EXPECT(a.why == why);
    EXPECT(same_dealer(&a.dealer, dealer));
}

static void party_refused(struct door_party_answer a, const struct door_party *box, uint32_t why)
{
    box_refused(&a, box, why);
}

static void empty_at_dealer(uint8_t *none)
{
    static const struct door_dealer none_started;
    static struct halves h, before;
    const uint8_t *key0 = keys[0], *key1 = keys[1];
    size_t bare = sizeof BARE, key = DOOR_KEY, room = sizeof h.half[0];
    dealer_refused(door_start_dealer(none, 0, key0, key, key1, key, 7), &none_started,
        DOOR_BAD_NAME);
    dealer_refused(door_start_dealer(BARE, bare, none, 0, key1, key, 7), &none_started,
        DOOR_WRONG_LENGTH);
    dealer_refused(door_start_dealer(BARE, bare, key0, key, none, 0, 7), &none_started,
        DOOR_WRONG_LENGTH);
    dealer_refused(door_start_dealer(none, 0, none, 0, none, 0, 7), &none_started, DOOR_BAD_NAME);
    dealer_refused(door_start_dealer(BARE, bare, none, 0, none, 0, 7), &none_started,
        DOOR_WRONG_LENGTH); /* two keys that are both empty are not told to be equal */
    struct door_dealer dealer = dealer_of(BARE, bare, 40);
    const struct door_terms terms = {DOOR_SCALAR, 18};
    draw_bytes(h.half[0], room);
    draw_bytes(h.half[1], room);
    before = h;
    dealer_refused(door_deal(dealer, 41, none, 0, terms, 0, h.half[0], room, h.half[1], room),
        &dealer, DOOR_WRONG_LENGTH);
    dealer_refused(door_deal(dealer, 41, seed, key, terms, 0, none, 0, h.half[1], room), &dealer,
        DOOR_SHORT_BUFFER);
    dealer_refused(door_deal(dealer, 41, seed, key, terms, 0, h.half[0], room, none, 0), &dealer,
        DOOR_SHORT_BUFFER);
    dealer_refused(door_deal(dealer, 41, seed, key, terms, 0, none, 0, none, 0), &dealer,
        DOOR_SHORT_BUFFER);
    EXPECT(memcmp(&h, &before, sizeof h) == 0);
}

static void empty_at_deal_between(uint8_t *none)
{
    static struct halves h, before;
    const struct door_terms terms = {DOOR_SCALAR, 18};
    const struct door_dealer dealer = dealer_of(BARE, sizeof BARE, 40);
    size_t key = DOOR_KEY, room = sizeof h.half[0];
    uint8_t *out0 = h.half[0], *out1 = h.half[1];
    draw_bytes(out0, room);
    draw_bytes(out1, room);
    before = h;
    dealer_refused(door_deal_between(dealer, 41, none, 0, terms, 0, 1, out0, room, out1, room),
        &dealer, DOOR_WRONG_LENGTH);
    dealer_refused(door_deal_between(dealer, 41, seed, key, terms, 0, 1, none, 0, out1, room),
        &dealer, DOOR_SHORT_BUFFER);
    dealer_refused(door_deal_between(dealer, 41, seed, key, terms, 0, 1, out0, room, none, 0),
        &dealer, DOOR_SHORT_BUFFER);
    dealer_refused(door_deal_between(dealer, 41, none, 0, terms, 1, 0, none, 0, none, 0),
        &dealer, DOOR_WRONG_LENGTH);
    EXPECT(memcmp(&h, &before, sizeof h) == 0);
}

static void clock_refused(
    struct door_clock_answer a, const struct door_dealer *dealer, uint32_t why)
{
    EXPECT(a.why == why && a.place == 0);
    EXPECT(same_dealer(&a.dealer, dealer));
}

/* With a table that has one row, or none in some of its lists. */
static void empty_at_deal_by_clock(uint8_t *none, const uint32_t *no_words)
{
    static struct halves h, before;
    static const uint32_t zero = 0, last = DOOR_DAY - 1;
    const struct door_terms terms = {DOOR_SCALAR, 18};
    const struct door_dealer dealer = dealer_of(BARE, sizeof BARE, 40);
    size_t key = DOOR_KEY, room = sizeof h.half[0];
    uint8_t *out0 = h.half[0], *out1 = h.half[1];
    draw_bytes(out0, room);
    draw_bytes(out1, room);
    before = h;
    clock_refused(door_deal_by_clock(dealer, 41, none, 0, terms, &zero, 1, &last, 1, &zero, 1, 0,
        out0, room, out1, room), &dealer, DOOR_WRONG_LENGTH);
    clock_refused(door_deal_by_clock(dealer, 41, seed, key, terms, &zero, 1, &last, 1, &zero, 1, 0,
        none, 0, out1, room), &dealer, DOOR_SHORT_BUFFER);
    clock_refused(door_deal_by_clock(dealer, 41, seed, key, terms, &zero, 1, &last, 1, &zero, 1, 0,
        out0, room, none, 0), &dealer, DOOR_SHORT_BUFFER);
    for (size_t lists = 0; lists < 7; lists++) { /* a bit for each list that has a row */
        const size_t firsts = lists & 1, lasts = lists >> 1 & 1, thresholds = lists >> 2;
        clock_refused(door_deal_by_clock(dealer, 41, seed, key, terms,
            firsts ? &zero : no_words, firsts, lasts ? &last : no_words, lasts,
            thresholds ? &zero : no_words, thresholds, 0, out0, room, out1, room),
            &dealer, DOOR_BAD_ROWS);
    }
    clock_refused(door_deal_by_clock(dealer, 41, none, 0, terms, no_words, 0, no_words, 0, no_words,
        0, 0, none, 0, none, 0), &dealer, DOOR_BAD_ROWS);
    EXPECT(memcmp(&h, &before, sizeof h) == 0);
}

static void empty_at_box(uint8_t *none, uint32_t *no_words)
{
    static const struct door_party none_started;
    const struct door_party *unloaded = &stage.at[DOOR_IDLE], *loaded = &stage.at[DOOR_LOADED];
    const struct door_party *masked = &stage.at[DOOR_MASKED], *taken = &stage.at[DOOR_TAKEN];
    struct vector out, before;
    party_refused(door_start_party(none, 0, 0, keys[0], DOOR_KEY, 7), &none_started,
        DOOR_BAD_NAME);
    party_refused(door_start_party(BARE, sizeof BARE, 0, none, 0, 7), &none_started,
        DOOR_WRONG_LENGTH);
    party_refused(load(unloaded, none, 0), unloaded, DOOR_WRONG_LENGTH);
    draw_bytes((uint8_t *)out.at, sizeof out.at);
    before = out;
    party_refused(door_mask(*loaded, no_words, 0, out.at, stage.n), loaded, DOOR_WRONG_LENGTH);
    EXPECT(memcmp(&out, &before, sizeof out) == 0);
    party_refused(door_mask(*loaded, stage.v, stage.n, no_words, 0), loaded, DOOR_SHORT_BUFFER);
    party_refused(door_mask(*loaded, no_words, 0, no_words, 0), loaded, DOOR_WRONG_LENGTH);
    struct message m = stage.vector;
    m.n = 0;
    take_refused(masked, m, no_words, DOOR_WRONG_LENGTH);
    m.name = none;
    m.name_size = 0;
    take_refused(masked, m, no_words, DOOR_WRONG_LENGTH);
    m.n = stage.n;
    take_refused(masked, m, stage.v, DOOR_WRONG_LENGTH);
    m.kind = DOOR_WORD;
    finish_refused(taken, m, DOOR_WRONG_LENGTH);
}

static void empty_at_lock(uint8_t *none)
{
    start_lock_refused(none, 0);
    const struct join good = join_of(41, 0, 1);
    for (int party = 0; party < 2; party++) {
        struct join j = good;
        j.name[party] = none;
        j.name_size[party] = 0;
        join_refused(j, DOOR_WRONG_LENGTH);
    }
    EXPECT(lock_join(none, 0, 40, DOOR_ANSWER, PADDED, DOOR_NAME, 0, 41, 0, DOOR_ANSWER, PADDED,
        DOOR_NAME, 1, 41, 1) == LOCK_REFUSED + DOOR_WRONG_LENGTH);
    EXPECT(lock_last(none, 0, 40, DOOR_ANSWER, PADDED, DOOR_NAME, 0, 41, 0, DOOR_ANSWER, PADDED,
        DOOR_NAME, 1, 41, 1) == 40);
    EXPECT(lock_join(none, 0, 40, DOOR_ANSWER, none, 0, 0, 41, 0, DOOR_ANSWER, none, 0, 1, 41, 1)
        == LOCK_REFUSED + DOOR_WRONG_LENGTH); /* an empty name is not told to be the door's */
}

static void empty_slices(uint8_t *none, uint32_t *no_words)
{
    empty_at_dealer(none);
    empty_at_deal_between(none);
    empty_at_deal_by_clock(none, no_words);
    empty_at_box(none, no_words);
    empty_at_lock(none);
}

/* Load ahead. */

#define AHEAD 50   /* the number of the set that waits while set 41 is open */
#define FURTHER 51 /* of one that cannot wait as well */

static struct door_party_answer mask_fenced(
    const struct door_party *box, const uint32_t *v, size_t n)
{
    static struct fenced in, out;
    const size_t size = sizeof *v * n;
    const uint32_t *lent = fence(&in, v, size);
    uint32_t *written = fence(&out, v, size);
    struct door_party_answer a = door_mask(*box, lent, n, written, n);
    if (a.why == DOOR_ACCEPTED)
        memcpy(out.expected + FENCE, a.party.check.masked, size);
    unhurt(&in);
    unhurt(&out);
    return a;
}

static struct door_party_answer take_fenced(
    const struct door_party *box, struct message m, const uint32_t *v)
{
    static struct fenced name, vector;
    const uint8_t *lent_name = fence(&name, m.name, m.name_size);
    const uint32_t *lent = fence(&vector, v, sizeof *v * m.n);
    struct door_party_answer a =
        door_take(*box, m.kind, lent_name, m.name_size, m.sender, m.number, lent, m.n);
    unhurt(&name);
    unhurt(&vector);
    return a;
}

static struct door_party_answer finish_fenced(
    const struct door_party *box, struct message m, uint32_t word_taken)
{
    static struct fenced name;
    const uint8_t *lent_name = fence(&name, m.name, m.name_size);
    struct door_party_answer a =
        door_finish(*box, m.kind, lent_name, m.name_size, m.sender, m.number, word_taken);
    unhurt(&name);
    return a;
}

static void fenced_refused(struct door_party_answer a, const struct door_party *box, uint32_t why)
{
    box_refused(&a, box, why);
}

/* The stage's box with a further set that waits. */
struct ahead {
    struct halves halves, further; /* of sets AHEAD and FURTHER */
    size_t size;                   /* of a half */
    size_t n;
    struct door_party opened;             /* what a load of set AHEAD leaves at an idle box */
    struct door_party at[DOOR_TAKEN + 1]; /* the stage's states, and it waits; none at DOOR_IDLE */
};

static struct ahead ahead;

/* Whatever phase the open check is in, only the last number and what waits change. */
static struct door_party load_ahead(const struct door_party *box)
{
    struct door_party_answer a = load(box, ahead.halves.half[1], ahead.size);
    struct door_party next = *box;
    next.last = AHEAD;
    next.waiting = ahead.opened.check.set;
    EXPECT(a.why == DOOR_ACCEPTED && a.word == 0);
    EXPECT(same_party(&a.party, &next));
    return a.party;
}

static void set_ahead(uint32_t code, size_t n, bool between)
{
    struct door d = open_door(41);
    struct check k = drawn_check(code, n);
    struct door_party unloaded = idle(1, 41);
    if (between)
        draw_marks(&k);
    deals(&d, AHEAD, &k, &ahead.halves);
    deals(&d, FURTHER, &k, &ahead.further);
    ahead.size = half_size(n);
    ahead.n = n;
    struct door_party_answer a = load(&unloaded, ahead.halves.half[1], ahead.size);
    EXPECT(a.why == DOOR_ACCEPTED && a.party.last == AHEAD);
    EXPECT(has_rule(&a.party.check.set, &k) && same_set(&a.party.waiting, &NO_SET));
    ahead.opened = a.party;
    for (uint32_t phase = DOOR_LOADED; phase <= DOOR_TAKEN; phase++)
        ahead.at[phase] = load_ahead(&stage.at[phase]);
}

/* The open check goes on as if nothing waited, and what waits stays as it is. */
static void goes_on_ahead(void)
{
    struct door_party_answer masked = mask_fenced(&ahead.at[DOOR_LOADED], stage.v, stage.n);
    EXPECT(masked.why == DOOR_ACCEPTED && masked.word == 0);
    EXPECT(same_party(&masked.party, &ahead.at[DOOR_MASKED]));
    struct door_party_answer alone = take_fenced(&stage.at[DOOR_MASKED], stage.vector, stage.v);
    struct door_party_answer taken = take_fenced(&ahead.at[DOOR_MASKED], stage.vector, stage.v);
    struct door_party next = alone.party;
    next.last = AHEAD;
    next.waiting = ahead.opened.check.set;
    EXPECT(taken.why == DOOR_ACCEPTED && taken.word == alone.word);
    EXPECT(same_party(&taken.party, &next));
}

/* When the open set ends, the state is the one that a load leaves at an idle box. */
static void opens_what_waits(void)
{
    const struct door_party empty = idle(1, AHEAD);
    struct door_party_answer alone = finish_fenced(&stage.at[DOOR_TAKEN], stage.word, 12345);
    struct door_party_answer a = finish_fenced(&ahead.at[DOOR_TAKEN], stage.word, 12345);
    EXPECT(a.why == DOOR_ACCEPTED && a.word == alone.word);
    EXPECT(same_party(&a.party, &ahead.opened));
    for (uint32_t phase = DOOR_LOADED; phase <= DOOR_TAKEN; phase++) {
        a = door_drop(ahead.at[phase]);
        EXPECT(a.why == DOOR_ACCEPTED && a.word == 0);
        EXPECT(same_party(&a.party, &ahead.opened));
        a = door_drop(a.party); /* a box with a set waiting is cleared by two */
        EXPECT(a.why == DOOR_ACCEPTED && same_party(&a.party, &empty));
        drop_refused(&a.party, DOOR_OUT_OF_TURN);
    }
}

/* A further load is out of turn before the half is looked at. */
static void waits_alone(void)
{
    for (uint32_t phase = DOOR_LOADED; phase <= DOOR_TAKEN; phase++) {
        const struct door_party *box = &ahead.at[phase];
        uint8_t *half = ahead.further.half[1];
        fenced_refused(load(box, half, ahead.size), box, DOOR_OUT_OF_TURN);
        fenced_refused(load(box, ahead.halves.half[1], ahead.size), box, DOOR_OUT_OF_TURN);
        fenced_refused(load(box, half, 0), box, DOOR_OUT_OF_TURN);
        fenced_refused(load(box, half, ahead.size - 1), box, DOOR_OUT_OF_TURN);
        fenced_refused(load(box, NULL, 0), box, DOOR_OUT_OF_TURN);
        half[ahead.size - 1] ^= 1;
        fenced_refused(load(box, half, ahead.size), box, DOOR_OUT_OF_TURN);
        half[ahead.size - 1] ^= 1;
    }
}

/* Load's 7 with this last and this open number. */
static void number_refused(uint32_t phase, uint64_t last, uint64_t open, uint32_t why)
{
    struct door_party box = stage.at[phase];
    box.last = last;
    box.check.set.number = open;
    fenced_refused(load(&box, ahead.halves.half[1], ahead.size), &box, why);
}

static void numbers_ahead(uint32_t phase)
{
    const struct door_party *box = &stage.at[phase];
    fenced_refused(
        load(box, stage.halves.half[1], stage.size), box, DOOR_WRONG_NUMBER);
    number_refused(phase, AHEAD, 41, DOOR_WRONG_NUMBER);
    number_refused(phase, UINT64_MAX, 41, DOOR_WRONG_NUMBER);
    number_refused(phase, 41, AHEAD, DOOR_WRONG_NUMBER);
    number_refused(phase, 0, AHEAD, DOOR_WRONG_NUMBER);
    number_refused(phase, 0, UINT64_MAX, DOOR_WRONG_NUMBER);
    number_refused(phase, AHEAD - 1, AHEAD - 1, DOOR_ACCEPTED);
    number_refused(phase, 0, AHEAD - 1, DOOR_ACCEPTED);
    number_refused(phase, AHEAD - 1, 0, DOOR_ACCEPTED);
}

/* Every call at a state that no call leaves, with input that is good but for that. */
static void all_refused(const struct door_party *box)
{
    const uint32_t why = DOOR_OUT_OF_TURN;
    fenced_refused(load(box, ahead.further.half[1], ahead.size), box, why);
    fenced_refused(mask_fenced(box, stage.v, stage.n), box, why);
    fenced_refused(take_fenced(box, stage.vector, stage.v), box, why);
    fenced_refused(finish_fenced(box, stage.word, 12345), box, why);
    fenced_refused(door_drop(*box), box, why);
}

static void bad_waiting_numbers(const struct door_party *good)
{
    static const uint64_t numbers[] = {0, 1, 40, 41}; /* 41 is the open one */
    struct door_party box = *good;
    for (size_t i = 0; i < sizeof numbers / sizeof *numbers; i++) {
        box.waiting.number = numbers[i];
        all_refused(&box);
    }
}

static void bad_waiting_terms(const struct door_party *good)
{
    static const struct door_terms terms[] = {
        {3, 1}, {256, 20}, {UINT32_MAX, 512},                        /* a code that is none */
        {0, 513}, {1, 65537}, {2, ((size_t)1 << 32) + 1}, {0, SIZE_MAX}, /* an L that is none */
        {1, 0}, {2, 0}, {3, 0}, {UINT32_MAX, 0}};                    /* none waits, with a code */
    struct door_party box = *good;
    for (size_t i = 0; i < sizeof terms / sizeof *terms; i++) {
        box.waiting.terms = terms[i];
        all_refused(&box);
    }
}

/* With none waiting the rest of what waits is not looked at: its number is not compared. */
static void none_waits(uint32_t phase)
{
    struct door_party box = stage.at[phase];
    box.waiting.number = 1;
    turns(&box, true);
    fenced_refused(
        load(&box, ahead.halves.half[1], ahead.size), &box, DOOR_ACCEPTED);
}

static void waiting_states(void)
{
    struct door_party box = stage.at[DOOR_IDLE];
    none_waits(DOOR_IDLE);
    bad_waiting_terms(&box);
    box.waiting = ahead.opened.check.set; /* no call leaves a set that waits with none open */
    all_refused(&box);
    bad_waiting_numbers(&box);
    for (uint32_t phase = DOOR_LOADED; phase <= DOOR_TAKEN; phase++) {
        bad_waiting_numbers(&ahead.at[phase]);
        bad_waiting_terms(&ahead.at[phase]);
        none_waits(phase);
    }
}

/* A message for the waiting set is refused until that is open: by 7 if all before it fits. */
static void messages_ahead(void)
{
    struct message vector = stage.vector, word_message = stage.word;
    vector.number = word_message.number = AHEAD;
    const struct door_party *loaded = &ahead.at[DOOR_LOADED], *masked = &ahead.at[DOOR_MASKED];
    const struct door_party *taken = &ahead.at[DOOR_TAKEN];
    fenced_refused(take_fenced(loaded, vector, stage.v), loaded, DOOR_OUT_OF_TURN);
    fenced_refused(take_fenced(taken, vector, stage.v), taken, DOOR_OUT_OF_TURN);
    fenced_refused(take_fenced(masked, vector, stage.v), masked, DOOR_WRONG_NUMBER);
    fenced_refused(finish_fenced(loaded, word_message, 1), loaded, DOOR_OUT_OF_TURN);
    fenced_refused(finish_fenced(masked, word_message, 1), masked, DOOR_OUT_OF_TURN);
    fenced_refused(finish_fenced(taken, word_message, 1), taken, DOOR_WRONG_NUMBER);
    vector.n = ahead.n; /* the length that the waiting set has, and the open one may not have */
    fenced_refused(take_fenced(masked, vector, stage.v), masked,
        ahead.n == stage.n ? DOOR_WRONG_NUMBER : DOOR_WRONG_LENGTH);
    vector.n = stage.n;
    vector.sender = word_message.sender = 1;
    fenced_refused(take_fenced(masked, vector, stage.v), masked, DOOR_WRONG_MESSAGE);
    fenced_refused(finish_fenced(taken, word_message, 1), taken, DOOR_WRONG_MESSAGE);
}

/* Width and mark of a state that is handed in are not tested, whatever they are. */

static const struct { uint32_t width, mark; } ODD_RULES[] = {
    {0, 0}, {5, 0}, {WIDEST + 1u, 0}, {UINT32_MAX, 0}, {0, 1}, {WIDEST, 1}, {UINT32_MAX, 1},
    {0, 2}, {WIDEST, 256}, {UINT32_MAX, UINT32_MAX}};
#define COUNT_ODD (sizeof ODD_RULES / sizeof *ODD_RULES)

static void give_rule(struct door_set *set, size_t i)
{
    set->width = ODD_RULES[i].width;
    set->mark = ODD_RULES[i].mark;
}

/* The words under mark 0 and under another one sum to 2 r; for a product they are the same. */
static void word_goes_by_mark(const struct door_party *odd)
{
    struct door_party ordinary = *odd;
    ordinary.check.set.mark = 0;
    const uint32_t word0 = take_fenced(&ordinary, stage.vector, stage.v).word;
    const uint32_t word1 = take_fenced(odd, stage.vector, stage.v).word;
    if (odd->check.set.mark == 0 || odd->check.set.terms.code == DOOR_SCALAR)
        EXPECT(word0 == word1);
    else
        EXPECT(word0 + word1 == 2 * odd->check.set.r);
}

static void odd_rules_open(size_t i)
{
    for (uint32_t phase = DOOR_IDLE; phase <= DOOR_TAKEN; phase++) {
        struct door_party box = stage.at[phase];
        give_rule(&box.check.set, i);
        turns(&box, true);
        if (phase == DOOR_MASKED)
            word_goes_by_mark(&box);
        struct door_party none_waiting = stage.at[phase];
        give_rule(&none_waiting.waiting, i);
        turns(&none_waiting, true);
    }
}

/* What waits keeps them when it is opened. */
static void odd_rules_ahead(size_t i)
{
    struct door_party opened = ahead.opened;
    give_rule(&opened.check.set, i);
    for (uint32_t phase = DOOR_LOADED; phase <= DOOR_TAKEN; phase++) {
        struct door_party box = ahead.at[phase];
        give_rule(&box.waiting, i);
        struct door_party_answer a = door_drop(box);
        EXPECT(a.why == DOOR_ACCEPTED && same_party(&a.party, &opened));
        if (phase == DOOR_TAKEN) {
            a = finish_fenced(&box, stage.word, 12345);
            EXPECT(a.why == DOOR_ACCEPTED && same_party(&a.party, &opened));
        }
    }
}

static void odd_rules(void)
{
    for (size_t i = 0; i < COUNT_ODD; i++) {
        odd_rules_open(i);
        odd_rules_ahead(i);
    }
}

/* Trials, whose answers are held against what was dealt. */

static void trial_says(const struct door_party *box, const uint8_t *half, size_t size,
    const struct door_trial_answer *said)
{
    const struct door_party_answer loaded = load(box, half, size);
    const struct door_trial_answer t = door_trial(*box, half, size);
    EXPECT(same_trial(&t, said) && loaded.why == said->why);
}

static void trial_refused(
    const struct door_party *box, const uint8_t *half, size_t size, uint32_t why)
{
    const struct door_trial_answer said = {.why = why};
    trial_says(box, half, size, &said);
}

/* At a box whose name is the half's. */
static void trial_taken(
    const struct door_party *box, const uint8_t *half, const struct door_terms *terms)
{
    struct door_trial_answer said = {.why = DOOR_ACCEPTED, .terms = *terms};
    memcpy(said.name, box->who.name, DOOR_NAME);
    trial_says(box, half, half_size(terms->n), &said);
}

/* A set of this code and length, every other time between two marks, at a dealer with this name. */
static struct check trial_set(const uint8_t *name, size_t size, uint64_t number,
    struct door_terms terms, struct halves *h)
{
    struct check k = drawn_check(terms.code, terms.n);
    if (draw() % 2 == 0)
        draw_marks(&k);
    draw_bytes(seed, DOOR_KEY);
    EXPECT(deal(dealer_of(name, size, number - 1), number, &k, h).why == DOOR_ACCEPTED);
    return k;
}

/* A name is told whole, of every length, with blanks at its ends; where one byte of it or of its
   padding is another, the half is of another door. */
static void trial_names(void)
{
    static const uint8_t name[DOOR_NAME] = " ut 4, back doo ";
    static struct halves h;
    for (size_t size = 1; size <= DOOR_NAME; size++) {
        const struct door_terms terms = {size % 3, 1 + draw() % MOST};
        trial_set(name, size, 41, terms, &h);
        for (uint32_t party = 0; party < 2; party++) {
            struct door_party box = box_of(name, size, party, 40);
            EXPECT(memcmp(box.who.name, name, size) == 0);
            EXPECT(all_zero(box.who.name + size, DOOR_NAME - size));
            trial_taken(&box, h.half[party], &terms);
            for (size_t i = 0; i < DOOR_NAME; i++) {
                box.who.name[i] ^= 1;
                trial_refused(&box, h.half[party], half_size(terms.n), DOOR_BAD_CONTENT);
                box.who.name[i] ^= 1;
            }
        }
    }
}

/* Code and L of every set, at a box with none open and at one that has another set open. */
static void trial_lengths(void)
{
    static struct halves h, other;
    for (size_t i = 0; i < 3 * MOST; i++) {
        const struct door_terms terms = {i % 3, 1 + i / 3};
        const struct door_terms open = {(terms.code + 1) % 3, MOST + 1 - terms.n};
        trial_set(BARE, sizeof BARE, 42, terms, &h);
        trial_set(BARE, sizeof BARE, 41, open, &other);
        const uint32_t party = draw() % 2;
        const struct door_party box = idle(party, 40);
        const struct door_party_answer a = load(&box, other.half[party], half_size(open.n));
        EXPECT(a.why == DOOR_ACCEPTED);
        trial_taken(&box, h.half[party], &terms);
        trial_taken(&a.party, h.half[party], &terms);
    }
}

/* At an office box: the half is of this set, whose number is above the box's or not. */
static void trial_number(
    const struct door_party *box, const uint8_t *half, const struct door_terms *terms, bool above)
{
    if (above)
        trial_taken(box, half, terms);
    else
        trial_refused(box, half, half_size(terms->n), DOOR_WRONG_NUMBER);
}

/* The number of a half is compared whole, with the last one and with that of an open set, whichever
   is higher; not with that of a set which is not open or does not wait. */
static void trial_numbers(void)
{
    static struct halves h, other;
    const struct door_terms terms = {DOOR_EUCLID, 18};
    trial_set(BARE, sizeof BARE, 1, terms, &other);
    for (size_t i = 0; i < sizeof NUMBERS / sizeof *NUMBERS; i++) {
        const uint64_t last = NUMBERS[i].last, number = NUMBERS[i].number;
        if (number == 0) /* it cannot be dealt */
            continue;
        trial_set(BARE, sizeof BARE, number, terms, &h);
        const struct door_party unloaded = idle(1, 0);
        struct door_party open = load(&unloaded, other.half[1], half_size(terms.n)).party;
        struct door_party closed = idle(1, last);
        closed.check.set.number = closed.waiting.number = open.waiting.number = UINT64_MAX;
        trial_number(&closed, h.half[1], &terms, NUMBERS[i].above);
        for (uint32_t holds = 1; holds < 4; holds++) { /* a bit for each that has the number */
            open.last = holds & 1 ? last : 0;
            open.check.set.number = holds & 2 ? last : 0;
            trial_number(&open, h.half[1], &terms, NUMBERS[i].above);
        }
    }
}

/* A bit of any block: of its number, its place, what is sealed, the tag; and of the box's key. The
   box's last number is one below the half's, which is odd: without its first bit it is the last. */
static void trial_flips(const struct door_party *box, const uint8_t *half, size_t size)
{
    static const size_t places[] = {0, 7, 8, 11, 12, 200, 495, 496, 511};
    static uint8_t flipped[DOOR_HALF_MOST];
    memcpy(flipped, half, size);
    for (size_t i = 0; i < sizeof places / sizeof *places; i++)
        for (size_t block = 0; block < size; block += DOOR_BLOCK) {
            const size_t at = block + places[i];
            const uint8_t bit = places[i] == 0 ? 1 : (uint8_t)(1 << draw() % 8);
            flipped[at] ^= bit;
            trial_refused(box, flipped, size, at == 0 ? DOOR_WRONG_NUMBER : DOOR_BAD_BLOCK);
            flipped[at] ^= bit;
        }
    struct door_party other = *box;
    for (size_t i = 0; i < DOOR_KEY; i++) {
        other.who.key[i] ^= (uint8_t)(1 << draw() % 8);
        trial_refused(&other, half, size, DOOR_BAD_BLOCK);
        other.who.key[i] = box->who.key[i];
    }
}

/* What may be wrong with a load or a trial, in the order in which it is tested. */
enum load_fault {
    LOAD_PARTY, LOAD_WAITING, LOAD_EMPTY, LOAD_SIZE, LOAD_LAST, LOAD_OPEN, LOAD_BLOCK, LOAD_DOOR,
    LOAD_FAULTS
};

static const uint32_t WHY_LOAD[LOAD_FAULTS] = {
    [LOAD_PARTY] = DOOR_OUT_OF_TURN, [LOAD_WAITING] = DOOR_OUT_OF_TURN,
    [LOAD_EMPTY] = DOOR_WRONG_LENGTH, [LOAD_SIZE] = DOOR_WRONG_LENGTH,
    [LOAD_LAST] = DOOR_WRONG_NUMBER, [LOAD_OPEN] = DOOR_WRONG_NUMBER,
    [LOAD_BLOCK] = DOOR_BAD_BLOCK, [LOAD_DOOR] = DOOR_BAD_CONTENT,
};

/* Every choice of faults: the first that is tested refuses. The halves are the door's own and
   another door's under the same keys, both of set FURTHER. */
static void trial_faults(const struct door_party *good, const uint8_t *own, const uint8_t *other)
{
    static uint8_t half[DOOR_HALF_MOST];
    const size_t size = ahead.size;
    for (uint32_t faults = 1; faults < 1 << LOAD_FAULTS; faults++) {
        struct door_party box = *good;
        const bool empty = faults >> LOAD_EMPTY & 1;
        uint32_t first = 0;
        while (!(faults >> first & 1))
            first++;
        if (first == LOAD_OPEN && box.check.phase == DOOR_IDLE)
            continue; /* it is no fault */
        memcpy(half, faults >> LOAD_DOOR & 1 ? other : own, size);
        half[size - 1] ^= (uint8_t)(faults >> LOAD_BLOCK & 1);
        if (faults >> LOAD_PARTY & 1)
            box.who.party = 2;
        if (faults >> LOAD_WAITING & 1)
            box.waiting = ahead.opened.check.set;
        if (faults >> LOAD_LAST & 1)
            box.last = FURTHER;
        if (faults >> LOAD_OPEN & 1)
            box.check.set.number = FURTHER;
        trial_refused(&box, empty ? NULL : half, empty ? 0 : size - (faults >> LOAD_SIZE & 1),
            WHY_LOAD[first]);
    }
}

/* With no set open and with one in each phase, of other terms; and with one that waits, none is
   looked at. */
static void trials(uint32_t code)
{
    static struct halves other;
    const struct door_terms terms = {code, ahead.n};
    trial_set(OTHER, 4, FURTHER, terms, &other);
    for (uint32_t phase = DOOR_IDLE; phase <= DOOR_TAKEN; phase++) {
        struct door_party box = stage.at[phase];
        trial_taken(&box, ahead.halves.half[1], &terms);
        trial_taken(&box, ahead.further.half[1], &terms);
        trial_refused(&box, ahead.further.half[0], ahead.size, DOOR_BAD_BLOCK);
        trial_faults(&box, ahead.further.half[1], other.half[1]);
        box.last = FURTHER - 1;
        trial_flips(&box, ahead.further.half[1], ahead.size);
        if (phase != DOOR_IDLE)
            trial_refused(
                &ahead.at[phase], ahead.further.half[1], ahead.size, DOOR_OUT_OF_TURN);
    }
    trial_taken(&ahead.opened, ahead.further.half[1], &terms);
}

static void loads_ahead(uint32_t code, size_t n, bool between)
{
    set_ahead(code, n, between);
    goes_on_ahead();
    opens_what_waits();
    waits_alone();
    for (uint32_t phase = DOOR_LOADED; phase <= DOOR_TAKEN; phase++)
        numbers_ahead(phase);
    number_refused(DOOR_IDLE, AHEAD - 1, UINT64_MAX, DOOR_ACCEPTED); /* none is open */
    waiting_states();
    messages_ahead();
    trials(code);
}

/* Two checks, of which the second is loaded while the first is under way. */

struct overlap {
    struct check k[2], tried; /* a third set is tried between the calls, and never loaded */
    struct halves halves[2], tried_halves;
    struct door_party box[2];
    uint32_t done[2][2];         /* by box and set: how many of calls 1 to 4 */
    uint32_t goal[2][2];         /* how many are to be done */
    uint32_t load_ahead_at[2];   /* by box: when so many calls of the first set are done */
    struct vector sent[2][2];    /* by box and set */
    uint32_t words[2][2], answers[2][2];
};

#define TRIED_NUMBER 90

static uint64_t overlap_number(int set)
{
    return set == 0 ? 71 : 80;
}

static struct message overlap_message(const struct overlap *o, uint32_t kind, int box, int set)
{
    struct message m = {
        kind, PADDED, DOOR_NAME, (uint32_t)(1 - box), overlap_number(set), o->k[set].terms.n};
    return m;
}

/* Whether the box's next call for this set can be made: its turn has come, and what it takes from
   the other box is there. */
static bool may_go_on(const struct overlap *o, int box, int set)
{
    const uint32_t done = o->done[box][set];
    if (done >= o->goal[box][set])
        return false;
    if (set == 1 && done == 0)
        return o->done[box][0] >= o->load_ahead_at[box];
    if (set == 1 && o->done[box][0] < 4)
        return false;
    return done < 2 || o->done[1 - box][set] >= done;
}

static struct door_party_answer next_call(struct overlap *o, int box, int set)
{
    const struct door_party *party = &o->box[box];
    const size_t n = o->k[set].terms.n;
    uint32_t v[MOST];
    switch (o->done[box][set]) {
    case 0:
        return load(party, o->halves[set].half[box], half_size(n));
    case 1:
        words_of(&o->k[set], box, v);
        return mask_fenced(party, v, n);
    case 2:
        return take_fenced(
            party, overlap_message(o, DOOR_MASKED_VECTOR, box, set), o->sent[1 - box][set].at);
    default:
        return finish_fenced(
            party, overlap_message(o, DOOR_WORD, box, set), o->words[1 - box][set]);
    }
}

/* Trials that are taken and trials that are refused, wherever the check is: it goes on as if there
   had been none. The sets' own numbers are below the tried one. */
static void tries(const struct overlap *o, int box)
{
    static uint8_t broken[DOOR_HALF_MOST];
    const struct door_party *party = &o->box[box];
    const struct door_terms *terms = &o->tried.terms;
    const uint8_t *half = o->tried_halves.half[box], *other = o->tried_halves.half[1 - box];
    const bool waits = party->waiting.terms.n != 0;
    const size_t size = half_size(terms->n);
    memcpy(broken, half, size);
    broken[size - 1] ^= 1;
    if (!waits)
        trial_taken(party, half, terms);
    trial_refused(party, broken, size, waits ? DOOR_OUT_OF_TURN : DOOR_BAD_BLOCK);
    trial_refused(party, other, size, waits ? DOOR_OUT_OF_TURN : DOOR_BAD_BLOCK);
    trial_refused(party, half, size - 1, waits ? DOOR_OUT_OF_TURN : DOOR_WRONG_LENGTH);
    if (o->done[box][0] > 0)
        trial_refused(party, o->halves[0].half[box], half_size(o->k[0].terms.n),
            waits ? DOOR_OUT_OF_TURN : DOOR_WRONG_NUMBER);
}

static void go_on(struct overlap *o, int box, int set)
{
    tries(o, box);
    struct door_party_answer a = next_call(o, box, set);
    EXPECT(a.why == DOOR_ACCEPTED);
    uint32_t done = ++o->done[box][set];
    if (done == 2)
        memcpy(o->sent[box][set].at, a.party.check.masked, sizeof a.party.check.masked);
    else if (done == 3)
        o->words[box][set] = a.word;
    else if (done == 4)
        o->answers[box][set] = a.word;
    o->box[box] = a.party;
}

static bool is_done(const struct overlap *o)
{
    return memcmp(o->done, o->goal, sizeof o->done) == 0;
}

/* Calls in an order by chance, as far as the goals say. */
static void go_to_goals(struct overlap *o)
{
    while (!is_done(o)) {
        int box = draw() % 2, set = draw() % 2;
        if (may_go_on(o, box, set))
            go_on(o, box, set);
    }
}

static void set_goals(struct overlap *o, int set, uint32_t goal0, uint32_t goal1)
{
    o->goal[0][set] = goal0;
    o->goal[1][set] = goal1;
}

/* A threshold that the measure just meets or just does not, or two marks, which the measure is at
   or beside; where these cannot be dealt, it stays at the threshold that is met. */
static void draw_rule(struct check *k)
{
    const struct check met = *k;
    const long width = draw() % 1000, above_p[] = {-1, 0, width, width + 1};
    k->between = draw() % 2 == 0;
    if (k->between) {
        k->t -= above_p[draw() % 4];
        k->q = k->t + width;
    } else if (draw() % 2 == 0) {
        k->t += k->terms.code == DOOR_SCALAR ? 1 : -1;
    }
    if (!may_be_dealt(k))
        *k = met;
}

static void begin_overlap(struct overlap *o)
{
    static const size_t lengths[] = {1, 18, 128, 512};
    struct door d = open_door(70);
    memset(o, 0, sizeof *o);
    for (int set = 0; set < 2; set++) {
        o->k[set] = drawn_check(draw() % 3, lengths[draw() % 4]);
        draw_rule(&o->k[set]);
        deals(&d, overlap_number(set), &o->k[set], &o->halves[set]);
        o->box[set] = d.box[set];
    }
    o->tried = drawn_check(draw() % 3, lengths[draw() % 4]);
    deals(&d, TRIED_NUMBER, &o->tried, &o->tried_halves);
    set_goals(o, 0, 4, 4);
    set_goals(o, 1, 4, 4);
}

static void joined_right(const struct overlap *o, int set, uint64_t last)
{
    const struct check *k = &o->k[set];
    struct join j = join_of(overlap_number(set), o->answers[0][set], o->answers[1][set]);
    EXPECT(join(last, &j, overlap_number(set)) == meets(k));
}

static void nothing_left(const struct overlap *o)
{
    for (uint32_t box = 0; box < 2; box++) {
        struct door_party empty = idle(box, overlap_number(1));
        EXPECT(same_party(&o->box[box], &empty));
    }
}

/* Both sets are answered, wherever in the first check each box loads the second set. */
static void both_answered(uint32_t at0, uint32_t at1)
{
    static struct overlap o;
    begin_overlap(&o);
    o.load_ahead_at[0] = at0;
    o.load_ahead_at[1] = at1;
    go_to_goals(&o);
    joined_right(&o, 0, 70);
    joined_right(&o, 1, overlap_number(0));
    nothing_left(&o);
}

/* The first check is dropped at both boxes, wherever each is in it, and the second answered. */
static void second_answered(uint32_t at0, uint32_t at1)
{
    static struct overlap o;
    begin_overlap(&o);
    o.load_ahead_at[0] = o.load_ahead_at[1] = 1;
    set_goals(&o, 0, at0, at1);
    set_goals(&o, 1, 1, 1);
    go_to_goals(&o);
    for (int box = 0; box < 2; box++) {
        struct door_party_answer a = door_drop(o.box[box]);
        EXPECT(a.why == DOOR_ACCEPTED && a.party.check.set.number == overlap_number(1));
        o.box[box] = a.party;
        o.done[box][0] = o.goal[box][0] = 4;
    }
    set_goals(&o, 1, 4, 4);
    go_to_goals(&o);
    joined_right(&o, 1, 70);
    nothing_left(&o);
}

static void overlaps(void)
{
    for (uint32_t at0 = 1; at0 <= 4; at0++)
        for (uint32_t at1 = 1; at1 <= 4; at1++) {
            both_answered(at0, at1);
            bool can_come_to = at0 < 4 && at1 < 4 && at0 + 1 >= at1 && at1 + 1 >= at0;
            if (can_come_to)
                second_answered(at0, at1);
        }
}

/* Sets that older versions dealt. */

#define OLDER_SIZE (3 * DOOR_BLOCK) /* bytes of each of their halves */

static void from_hex(const char *hex, uint8_t *bytes, size_t size)
{
    size_t read = 0;
    for (unsigned byte; read < size && sscanf(hex + 2 * read, "%2x", &byte) == 1; read++)
        bytes[read] = (uint8_t)byte;
    EXPECT(read == size && strlen(hex) == 2 * size);
}

/* The door's keys are those of the older sets from here on. */
static void take_older_keys(void)
{
    for (uint8_t i = 0; i < DOOR_KEY; i++) {
        keys[0][i] = OLDER_KEY0 + i;
        keys[1][i] = OLDER_KEY1 + i;
    }
}

static void older_refused(const struct door *d, uint32_t why)
{
    for (int party = 0; party < 2; party++) {
        uint8_t half[OLDER_SIZE];
        from_hex(OLDER_HALF[party], half, sizeof half);
        load_refused(&d->box[party], half, sizeof half, why);
        from_hex(LATER_HALF[party], half, sizeof half);
        load_refused(&d->box[party], half, sizeof half, why);
    }
}

/* With no set open, and with one in each phase, of either rule, no load takes them. The check goes
   on, and a box whose last number is above theirs refuses them by that. */
static void older_sets(bool between)
{
    static struct halves h;
    const uint64_t number = OLDER_NUMBER - 1;
    struct door d = open_door(number - 1);
    struct check k = drawn_check(DOOR_EUCLID, 17);
    struct vector sent[2];
    uint32_t words[2], answers[2];
    if (between)
        draw_marks(&k);
    older_refused(&d, DOOR_BAD_CONTENT);
    deals(&d, number, &k, &h);
    loads(&d, number, &k, &h);
    older_refused(&d, DOOR_BAD_CONTENT);
    masks(&d, &k, sent);
    older_refused(&d, DOOR_BAD_CONTENT);
    takes(&d, number, &k, sent, words);
    older_refused(&d, DOOR_BAD_CONTENT);
    finishes(&d, number, words, answers);
    older_refused(&d, DOOR_BAD_CONTENT);
    const struct join j = join_of(number, answers[0], answers[1]);
    EXPECT(join(d.last, &j, number) == 1);
    d.box[0].last = d.box[1].last = OLDER_NUMBER;
    older_refused(&d, DOOR_WRONG_NUMBER);
}

/* At a box that has a set of this code and rule open, while others of all codes and of both rules
   wait. */
static void refusals_of(uint32_t code, bool between)
{
    set_stage(code, 20, between);
    states();
    for (uint32_t phase = DOOR_IDLE; phase <= DOOR_TAKEN; phase++)
        load_in_turn(phase);
    load_alone();
    mask();
    message(&stage.at[DOOR_MASKED], stage.vector);
    message(&stage.at[DOOR_TAKEN], stage.word);
    empty_slices(keys[0], stage.v);
    empty_slices(NULL, NULL);
    loads_ahead(code, 20, !between);
    odd_rules();
    loads_ahead((code + 1) % 3, 1, between);
    loads_ahead((code + 2) % 3, MOST, !between);
}

int main(int count, char **arguments)
{
    if (count > 1)
        EXPECT(strcmp(door_level(), arguments[1]) == 0);
    draw_bytes(keys[0], sizeof keys);
    draw_bytes(seed, sizeof seed);
    whole_checks();
    every_length();
    short_ones();
    short_ones_between();
    ends();
    starts();
    deals_refused(dealer_of(BARE, sizeof BARE, 40));
    deals_by_clock(dealer_of(BARE, sizeof BARE, 40));
    for (uint32_t code = 0; code < 3; code++)
        for (int between = 0; between < 2; between++)
            refusals_of(code, between);
    trial_names();
    trial_lengths();
    trial_numbers();
    for (int i = 0; i < 4; i++)
        overlaps();
    joins();
    take_older_keys();
    older_sets(false);
    older_sets(true);
    iris_codes();
    printf("c/test: %s: %ld passed\n", door_level(), passed);
}
