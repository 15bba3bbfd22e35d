/*
 * The calls of the two-box door check, for a host in C on x86-64 Linux. `c/library` proves them and
 * writes target/c/libdoor.a. It has every call compiled for three levels of processors, x86-64,
 * x86-64-v3 and x86-64-v4 (the last has the code of x86-64-v3 for now), and takes the best that the
 * machine has when the program is loaded; the
 * environment variable DOOR_LEVEL, set to one of these names, holds it to a lower one. It needs
 * memcpy, memset and getenv and nothing else; it allocates nothing and keeps nothing between calls,
 * so calls on different states, or on none, may run at the same time. A call was seen to take up to
 * 70 KB of stack, the states by value with it: have DOOR_STACK bytes left.
 *
 * States. A dealer, a box and a lock are plain values. A call takes the state by value and its answer
 * holds the next one: keep that, and hand it to the next call on the same part.
 *
 *     struct door_party_answer a = door_load(box, half, size);
 *     box = a.party;
 *
 * Hand in each state once, except to door_trial, which has no next one. A box of which an older
 * copy is handed in again would put a second vector under the same mask, and would take a spent set
 * number. A host that is switched off must keep at least `last`, to hand it in as the floor of the
 * next start. Keep it before anything of that set leaves the part: of a set that was loaded ahead
 * too, since its number is spent at its load. States hold keys and masks: they are as secret as
 * these. Compare states field by field, since padding between fields may have any bytes.
 *
 * Load ahead. A box may load one further set while another is open, so that the next check need
 * not wait for its half. That set waits: it can be neither masked, nor answered, nor dropped. When
 * door_finish or door_drop ends the open set, the waiting one becomes the open one, as if it had
 * just been loaded. Messages go out under the open set's number, check.set.number, and are compared
 * with it. While a set waits, `last` is the waiting set's number: do not send under `last`.
 *
 * Trial. door_trial says whether a half would be taken, and of which door, measure and length it
 * is, before anyone drives out with it. Nothing is spent: a half that was tried can be loaded.
 *
 * Iris codes. A scanner's code of 64 bytes becomes the vector of a check by door_iris_to_rings and
 * door_iris_unpack. The five calls door_iris_* are on no part: they take no state and hand none
 * back, and may be made at any time. In all other calls a code is a measure's (enum door_code).
 *
 * Margin. door_margin tells how much jitter of the camera a stored face stands. It is on no part
 * either, and works in the clear.
 *
 * Older sets. Every set that an older version of this library dealt must be scrapped, of every
 * code. Neither door_load nor door_trial takes an older half: it is refused by 11, if by no earlier
 * test. So is a new half at an older box: where a box or the dealer alone is older, nobody is let
 * in. But where the dealer and both boxes are older and the lock alone is new, no call can tell.
 * door_join then reports, by the older rule: for distances that may be the other way about. So
 * change all four parts together:
 *
 * 1. Stop the dealer, both boxes and the lock. Use no state from before: a box may have loaded an
 *    older set, and the structs have other fields.
 * 2. Compare the last numbers. If a box's or the lock's is above the dealer's, the dealer's is an
 *    old copy, and which halves there are is not known: take new keys and another name instead.
 * 3. Throw away the halves that were dealt and not loaded: each would be a load refused by 7.
 * 4. Keep the dealer's last number on disk as that of both boxes and of the lock too, before any
 *    part starts. Else a power cut before the next join brings the lower one back, and the lock
 *    joins what older boxes have answered.
 * 5. Start all four with this version, and with that number as the floor. So door_load and
 *    door_join refuse by 7 all that is older, wherever it has been. The dealer too: its keys stay,
 *    and from a lower floor it would use numbers twice, and with them the nonces of sealing.
 *
 * Keys and names stay. Look at the thresholds if the older version is one in which the lock's 1
 * meant measure >= T for distances too.
 *
 * Refusals. `why` is 0 for an accepted call, else the number of the first test that failed, lowest
 * first (enum door_refusal); but door_deal_by_clock tests 14 to 16 before all others. A refused call
 * changes nothing: the answer holds the state that was handed in, its word is 0, and every buffer is
 * as it was. So `box = a.party` is right either way. A refused start has no state to hand back: the
 * one in its answer is all zero. A trial has none in its answer; what a refused one tells is zero.
 * Of the calls on iris codes four return `why` alone, without a struct; a refused door_iris_hamming
 * tells the distance 0, and a refused door_margin the bit 0 and the margin 0.
 *
 * Buffers. A slice is a pointer and the number of its elements, not of its bytes. It is lent for
 * the call alone. What is const is only read; in a buffer that is not, an accepted call writes
 * from its start as many elements as it says, and leaves the others. Where the length is 0 the
 * pointer may be null, or lead anywhere: no call looks there, and it answers as for any empty
 * slice. Any other pointer leads to as many elements and is aligned for its type. Buffers that are
 * only read may overlap, or be one and the same; a buffer that is written must not overlap another
 * one of the call, read or written. Nothing else is asked of a caller: any number, length or byte
 * may be handed in.
 *
 * Numbers. A vector's element, a threshold and a mark are 32-bit words, a negative number plus
 * 2^32: a host that has int32_t may hand these in, (uint32_t)x for x and (const uint32_t *)v for v.
 * Every element, threshold and mark that a measure takes is an int32_t. But a call sees 32 bits and
 * no more: a host that has one of them wider has to compare it with the range itself, since C cuts
 * 2^32 + 5 to 5 on the way, which a call would take. The same goes for a code, a kind, a party and
 * a minute that a host has in more than 32 bits.
 */
#ifndef DOOR_H
#define DOOR_H

#include <assert.h>
#include <stddef.h>
#include <stdint.h>

#ifdef __cplusplus
extern "C" {
#endif

#define DOOR_NAME 16               /* bytes of a padded name, zero after the name's end */
#define DOOR_KEY 32                /* bytes of a box's key, and of a set seed */
#define DOOR_LENGTH_MOST 512       /* elements of a vector: L is from 1 to this */
#define DOOR_WIDTH_MOST 0x7fffffff /* how far apart two marks may be: 2^31 - 1 */
#define DOOR_BLOCK 512             /* bytes of a block of a half */
#define DOOR_HALF_MOST 8192        /* bytes of a half of 16 blocks: room for every L */
#define DOOR_STACK 98304           /* bytes of stack that suffice for a call */
#define DOOR_DAY 1440              /* minutes of a day: they run from 0 to 1439 */
#define DOOR_ROWS_MOST 32          /* rows of a table of the day: it has from 1 to this */
#define DOOR_IRIS_BYTES 64         /* bytes of a packed iris code */
#define DOOR_IRIS_BITS 512         /* its bits, and elements of an unpacked one */
#define DOOR_MARGIN_MOST 2047      /* the most that door_margin tells: 1023 - -1024 */

/* Bytes of a half of vectors of length n, from 1 to DOOR_LENGTH_MOST. */
#define DOOR_HALF(n) (DOOR_BLOCK * ((1253 + 12 * (size_t)(n) + 483) / 484))

/* Why a call was refused. */
enum door_refusal {
    DOOR_ACCEPTED = 0,
    /* A name at a start is empty, above 16 bytes, or has a byte outside 32 to 126. */
    DOOR_BAD_NAME = 1,
    /* A box is started with a party that is not 0 or 1, or a deal's code is not 0 to 2. */
    DOOR_BAD_PARTY_OR_CODE = 2,
    /* A box call is out of its turn (a load or a trial with a set waiting is, whatever is handed
       in), or the state handed in is none that a call leaves: in who.party, in check.phase, at its
       phase in check.set.terms, or in the waiting set, that is one with none open, with a number
       not above the open one, or with waiting.terms that no load leaves. Nothing else of it is
       tested. */
    DOOR_OUT_OF_TURN = 3,
    /* Key or seed is not 32 bytes, a message's name not 16, L not 1 to 512, a vector not the set's
       L, or a half not 3 to 16 whole blocks; a packed iris code is not 64 bytes, or an unpacked one
       not 512 words. At door_margin x has not 1 to 512 elements, or y another number of them. */
    DOOR_WRONG_LENGTH = 4,
    /* An output buffer is shorter than what will be written; longer is taken. */
    DOOR_SHORT_BUFFER = 5,
    /* A message of another kind or door, or of another sender than the one expected. */
    DOOR_WRONG_MESSAGE = 6,
    /* A set number is not the open one (box messages; so one for the waiting set is refused), not
       above the last one (deal, load, trial, join) or the open one (load, trial), or differs
       between two joined answers. */
    DOOR_WRONG_NUMBER = 7,
    /* An element, a threshold, P or Q is outside its measure's range; by the clock it is the chosen
       row's threshold, and a minute of DOOR_DAY or above is refused so too. At door_iris_pack an
       element is neither 0 nor 1. door_margin goes by DOOR_SCALAR's ranges. */
    DOOR_OUT_OF_RANGE = 8,
    /* The dealer starts with two equal keys. */
    DOOR_EQUAL_KEYS = 9,
    /* A block is not in its place, is of another set number, or its tag doesn't fit. */
    DOOR_BAD_BLOCK = 10,
    /* A half of another door or party, with a code, an L or a flag byte out of range, with a mark
       byte above 1, a width above DOOR_WIDTH_MOST or another one under mark byte 0, with a block
       count that doesn't fit L, or with a fill that is not zero. So every half of an older version. */
    DOOR_BAD_CONTENT = 11,
    /* The joined sum is not 0 or 1. A possible cause: dealer and boxes are of different older
       versions. */
    DOOR_BAD_SUM = 12,
    /* The second mark is below the first, or more than DOOR_WIDTH_MOST above it: that is P = -2^30
       with Q = 2^30, and no other two marks of a measure's range. */
    DOOR_BAD_MARKS = 13,
    /* The next three are door_deal_by_clock's alone, which tests them before all others and tells
       a place with them. 14: the three lists have unequal lengths or not 1 to DOOR_ROWS_MOST rows
       (place 0), or else a row's first minute is above its last, or its last is DOOR_DAY or above
       (place: the first such row, counted from 1). */
    DOOR_BAD_ROWS = 14,
    /* Of the minutes from 0 to 1439 that do not lie in just one row, the lowest lies in none
       (place: that minute, 0 to 1439). */
    DOOR_NO_ROW = 15,
    /* The lowest of them lies in two rows or more (place: that minute). */
    DOOR_MORE_ROWS = 16
};

/* Measures, with the ranges of elements and of the threshold T, and what the lock's 1 means: a
   product is large enough, a distance small enough. Where the measure is just T it is always 1.
   Two marks P and Q each have T's range. Between them 1 means P <= measure <= Q for every code. */
enum door_code {
    DOOR_SCALAR = 0, /* scalar product: -1024 to 1023, T from -2^30 to 2^30; 1: measure >= T */
    DOOR_EUCLID = 1, /* squared Euclid: -1024 to 1023, T from 0 to 2^31 - 1; 1: measure <= T */
    DOOR_HAMMING = 2 /* Hamming: 0 or 1, T from 0 to 513; 1: measure <= T */
};

/* How far a box's check is. In every phase but the first, door_drop is in turn as well, and in
   every phase door_load and door_trial are, as long as no set waits. */
enum door_phase {
    DOOR_IDLE = 0,   /* no set is open, and none waits; only door_load and door_trial are in turn */
    DOOR_LOADED = 1, /* after door_load, or when a waiting set was opened; door_mask is in turn */
    DOOR_MASKED = 2, /* after door_mask; door_take is in turn */
    DOOR_TAKEN = 3   /* after door_take; door_finish is in turn */
};

/* What a message is, and which call takes it. */
enum door_kind {
    DOOR_MASKED_VECTOR = 0, /* sent by door_mask, taken by the other box's door_take */
    DOOR_WORD = 1,          /* sent by door_take, taken by the other box's door_finish */
    DOOR_ANSWER = 2         /* sent by door_finish, taken by the lock */
};

/* The structs of the crates base_messages, measure_table, measure_iris, measure_margin, dcf_node,
   half_content, call_dealer, call_party and call_lock, all #[repr(C)]. */

/* Who a box is. */
struct door_identity {
    uint8_t name[DOOR_NAME]; /* padded */
    uint32_t party;          /* 0 is the camera box, 1 the office box */
    uint8_t key[DOOR_KEY];
};

/* What a set is dealt for, beside its threshold or marks. */
struct door_terms {
    uint32_t code; /* enum door_code */
    size_t n;      /* L */
};

struct door_correction {
    uint32_t seed[8];
    uint32_t word;
    uint32_t flags; /* bit 0 left, bit 1 right */
};

struct door_key {
    struct door_correction corrections[32];
    uint32_t last;
};

/* An opened or a waiting set; all zero with none. Places of the arrays past terms.n are zero. */
struct door_set {
    uint64_t number;
    struct door_terms terms;
    uint32_t mask[DOOR_LENGTH_MOST];
    uint32_t x[DOOR_LENGTH_MOST];
    uint32_t y[DOOR_LENGTH_MOST];
    uint32_t c;
    uint32_t r;
    uint32_t seed[8];
    struct door_key key;
    uint32_t width; /* between two marks: Q - P; with a threshold: DOOR_WIDTH_MOST */
    uint32_t mark;  /* the mark byte: 1 between two marks, 0 with a threshold */
};

struct door_dealer {
    uint8_t name[DOOR_NAME]; /* padded */
    uint8_t key0[DOOR_KEY];
    uint8_t key1[DOOR_KEY];
    uint64_t last; /* the last set number, first the floor */
};

struct door_dealer_answer {
    uint32_t why;
    struct door_dealer dealer;
};

/* What door_deal_by_clock answers. */
struct door_clock_answer {
    uint32_t why;
    uint32_t place; /* accepted: the row that was used, counted from 1. Refused by 14: a row,
                       counted from 1, or 0; by 15 or 16: a minute, which may be 0; by any other: 0 */
    struct door_dealer dealer;
};

/* The check that a box has open; all zero with none. */
struct door_check {
    uint32_t phase; /* enum door_phase */
    struct door_set set;
    uint32_t masked[DOOR_LENGTH_MOST]; /* the box's masked vector, from DOOR_MASKED on */
    uint32_t own;                      /* its vector's own term, from DOOR_MASKED on */
    uint32_t word;                     /* its word, at DOOR_TAKEN */
};

/* A box. */
struct door_party {
    struct door_identity who;
    uint64_t last; /* the last set number, first the floor; while a set waits it is that one's */
    struct door_check check;
    struct door_set waiting; /* one waits if waiting.terms.n is not 0; with none it is all zero */
};

struct door_party_answer {
    uint32_t why;
    struct door_party party;
    uint32_t word; /* what door_take and door_finish send, else 0 */
};

/* What door_trial answers. There is no state in it: the host's stays as it is. */
struct door_trial_answer {
    uint32_t why;            /* what door_load would answer */
    uint8_t name[DOOR_NAME]; /* accepted: the door's padded name, as it stands in the half, which is
                                the box's own; refused: zeros */
    struct door_terms terms; /* accepted: the half's measure code and L; refused: zeros */
};

struct door_lock {
    uint8_t name[DOOR_NAME]; /* padded */
    uint64_t last;           /* the last joined number, first the floor */
};

struct door_lock_answer {
    uint32_t why;
    struct door_lock lock;
    uint32_t bit; /* what an accepted join reports. With a threshold 1 means measure >= T for
                     DOOR_SCALAR, and measure <= T for DOOR_EUCLID and DOOR_HAMMING; between two
                     marks it means P <= measure <= Q. A refused join has 0 */
};

/* What door_iris_hamming answers. */
struct door_hamming_answer {
    uint32_t why;
    uint32_t distance; /* accepted: in how many bits the two codes differ, 0 to 512; refused: 0,
                          which is also the distance of equal codes: look at why first */
};

/* What door_margin answers. */
struct door_margin_answer {
    uint32_t why;
    uint32_t bit;    /* accepted: 1 if the product of x and y is at least t, else 0: what a lock
                        would report; refused: 0 */
    uint32_t margin; /* accepted: 0 to DOOR_MARGIN_MOST; refused: 0, which is also the margin of a
                        face that stands no jitter: look at why first */
};

/*
 * The dealer. A start takes the bare name, of 1 to 16 bytes, without a zero at its end; key0 is
 * the camera box's and key1 the office box's. Refusals: 1, 4, 9.
 */
struct door_dealer_answer door_start_dealer(
    const uint8_t *name, size_t name_len,
    const uint8_t *key0, size_t key0_len,
    const uint8_t *key1, size_t key1_len,
    uint64_t floor);

/*
 * Deals set `number`, above the last one, for vectors of length terms.n: DOOR_HALF(terms.n) bytes to
 * out0, for the camera box, and as many to out1, for the office box. The seed is 32 random bytes
 * that are used for this set alone. t is the threshold T: for DOOR_SCALAR the least measure for
 * which the lock reports 1, for DOOR_EUCLID and DOOR_HAMMING the greatest. Refusals: 2, 4, 5, 7, 8.
 */
struct door_dealer_answer door_deal(
    struct door_dealer dealer,
    uint64_t number,
    const uint8_t *seed, size_t seed_len,
    struct door_terms terms,
    uint32_t t,
    uint8_t *out0, size_t out0_len,
    uint8_t *out1, size_t out1_len);

/*
 * The same for a set between two marks, P and Q: the lock reports 1 if P <= measure <= Q, both ends
 * included, for every code. P = Q is taken. Why: a distance of nearly nothing means that a copied
 * template was played in, and a P above 0 keeps that out. Each box learns how far apart the marks
 * are (`width`), and not where they are. Refusals: 2, 4, 5, 7, 8 (of P or of Q), 13.
 */
struct door_dealer_answer door_deal_between(
    struct door_dealer dealer,
    uint64_t number,
    const uint8_t *seed, size_t seed_len,
    struct door_terms terms,
    uint32_t p, uint32_t q,
    uint8_t *out0, size_t out0_len,
    uint8_t *out1, size_t out1_len);

/*
 * The same by the clock: a set with the threshold of that row of a table in which the minute lies.
 * The halves and the state are those that door_deal gives for that threshold. Row i of the table
 * is firsts[i], lasts[i] and thresholds[i]: from minute firsts[i] to minute lasts[i] of the day,
 * both included, the threshold is thresholds[i]. The three lists have one length: each comes with
 * its own, and unequal ones are refused by 14 at place 0. Rows may come in any order, and every
 * minute from 0 to 1439 has to lie in one row and no more. So a row over midnight is two rows:
 * 22:00 to 5:59 is 1320 to 1439 and 0 to 359.
 *
 * The minute is 0 to 1439, and the host says which one it is: no call has a clock. `place` in the
 * answer is the row that was used, counted from 1 in the order of the lists; of a refusal, see
 * struct door_clock_answer. Only the threshold of that row is tested. A table with a threshold in
 * another row that the measure does not take is taken, until a minute of that row comes: try a deal
 * at each row when a table is set up, with a dealer that is started for this alone, under keys of
 * its own, and throw its halves away. Never with the door's dealer: its next number would come with
 * several sets, sealed under one key and nonce. Refusals, in this order: 14, 15 or 16, 2, 4, 5, 7,
 * 8 (the minute, or the row's threshold).
 */
struct door_clock_answer door_deal_by_clock(
    struct door_dealer dealer,
    uint64_t number,
    const uint8_t *seed, size_t seed_len,
    struct door_terms terms,
    const uint32_t *firsts, size_t firsts_len,
    const uint32_t *lasts, size_t lasts_len,
    const uint32_t *thresholds, size_t thresholds_len,
    uint32_t minute,
    uint8_t *out0, size_t out0_len,
    uint8_t *out1, size_t out1_len);

/* A box: party 0 is the camera box, 1 the office box. Refusals: 1, 2, 4. */
struct door_party_answer door_start_party(
    const uint8_t *name, size_t name_len,
    uint32_t party,
    const uint8_t *key, size_t key_len,
    uint64_t floor);

/*
 * Call 1: loads the box's half of a set, whose number is then spent and is `last`. `half` is just
 * the half: whole blocks, none more. With no set open this one is opened. With one open, in any
 * phase, it waits for that one to end, and nothing of the open check changes: that is loading
 * ahead, for a next check that begins at once. One set can wait, and a further load is refused
 * by 3. The half's number must be above `last` and above the open set's. Refusals: 3, 4, 7, 10, 11.
 */
struct door_party_answer door_load(
    struct door_party party,
    const uint8_t *half, size_t half_len);

/*
 * Trial load: what door_load would answer for this state and this half, and which door, measure
 * code and L the half is for if it would be taken. It makes the tests of a load, those of every
 * block's tag too, in their order. It does no more than that: no number is spent, `last` stays, and
 * the half is only read. So there is no next state. The host keeps the one that it has, may try as
 * many halves as it likes, and may load one that was tried.
 *
 *     struct door_trial_answer t = door_trial(box, half, size);
 *     if (t.why == DOOR_ACCEPTED)
 *         printf("%.16s, code %u, L %zu\n", (const char *)t.name, t.terms.code, t.terms.n);
 *
 * With a set open it speaks of a load ahead, and the open check is not disturbed. With one waiting
 * it is refused by 3, whatever the half is, as a load would be: try again when the open set has
 * ended. What it says holds for the state that was handed in, and a yes until a half is loaded.
 * While that half's set waits, every half is refused by 3. If its number was not below the tried
 * one, the tried half is refused by 7 from then on. Refusals: 3, 4, 7, 10, 11.
 */
struct door_trial_answer door_trial(
    struct door_party party,
    const uint8_t *half, size_t half_len);

/*
 * Call 2: masks the box's own vector, of the set's L elements, and writes L words to out: they are
 * sent to the other box as DOOR_MASKED_VECTOR. Refusals: 3, 4, 5, 8.
 */
struct door_party_answer door_mask(
    struct door_party party,
    const uint32_t *v, size_t v_len,
    uint32_t *out, size_t out_len);

/*
 * Call 3: takes the other box's masked vector. The word in the answer is sent to the other box as
 * DOOR_WORD. The name is the padded one, here and below; kind, sender and number are those that
 * came with the message. The number must be the open set's. A message for the waiting set is
 * refused (by 7, or by 4 where the sets' L differ): keep it until that set has been masked.
 * Refusals: 3, 4, 6, 7.
 */
struct door_party_answer door_take(
    struct door_party party,
    uint32_t kind,
    const uint8_t *name, size_t name_len,
    uint32_t sender,
    uint64_t number,
    const uint32_t *v, size_t v_len);

/*
 * Call 4: takes the other box's word, and closes the set. The word in the answer is sent to the
 * lock as DOOR_ANSWER, under the number of the set that it closes: note check.set.number before the
 * call. If a set waits, it is the open one in the answer's state, at DOOR_LOADED; else the box is
 * idle. `last` stays. Refusals: 3, 4, 6, 7.
 */
struct door_party_answer door_finish(
    struct door_party party,
    uint32_t kind,
    const uint8_t *name, size_t name_len,
    uint32_t sender,
    uint64_t number,
    uint32_t word);

/*
 * Ends the open set, and that alone; its number stays spent. If a set waits, it becomes the open
 * one, at DOOR_LOADED; else the box is idle. So two drops clear a box in which a set waits, and the
 * waiting set cannot be dropped before the open one. Refusal: 3.
 */
struct door_party_answer door_drop(struct door_party party);

/* The lock. Refusal: 1. */
struct door_lock_answer door_start_lock(
    const uint8_t *name, size_t name_len,
    uint64_t floor);

/*
 * Joins the two boxes' answers, the camera box's first. The joined number is then the last one,
 * whatever the join reports. Refusals: 4, 6, 7, 12.
 */
struct door_lock_answer door_join(
    struct door_lock lock,
    uint32_t kind0,
    const uint8_t *name0, size_t name0_len,
    uint32_t sender0,
    uint64_t number0,
    uint32_t answer0,
    uint32_t kind1,
    const uint8_t *name1, size_t name1_len,
    uint32_t sender1,
    uint64_t number1,
    uint32_t answer1);

/*
 * The same join without a struct, for a small lock: its archive (`rt lib` in crates/c_lock_c, or
 * tools/levels c_lock) is proved in seconds. The host keeps the door's padded name and the last joined
 * number, first the floor, and hands them in. 0 or 1 is what is reported; a refused join answers
 * LOCK_REFUSED plus the refusal's number: 4, 6, 7, 12.
 */
#define LOCK_REFUSED 100
uint32_t lock_join(
    const uint8_t *name, size_t name_len,
    uint64_t last,
    uint32_t kind0,
    const uint8_t *name0, size_t name0_len,
    uint32_t sender0,
    uint64_t number0,
    uint32_t answer0,
    uint32_t kind1,
    const uint8_t *name1, size_t name1_len,
    uint32_t sender1,
    uint64_t number1,
    uint32_t answer1);

/* The last number after the same join. */
uint64_t lock_last(
    const uint8_t *name, size_t name_len,
    uint64_t last,
    uint32_t kind0,
    const uint8_t *name0, size_t name0_len,
    uint32_t sender0,
    uint64_t number0,
    uint32_t answer0,
    uint32_t kind1,
    const uint8_t *name1, size_t name1_len,
    uint32_t sender1,
    uint64_t number1,
    uint32_t answer1);

/*
 * Iris codes. A code has 512 bits, one for each of 64 angles and 8 rings. It is packed in 64 bytes:
 * bit i is bit i % 8 of byte i / 8, so bit 0 is the lowest of the first byte. There are two orders.
 * The bit of an angle, 0 to 63, and a ring, 0 to 7, is
 *
 *     in the scanner's, angle by angle, bit angle * 8 + ring: code[angle] >> ring & 1
 *     in ours, ring by ring, bit ring * 64 + angle: code[ring * 8 + angle / 8] >> angle % 8 & 1
 *
 * The bytes do not tell their order, and no call can test it. Rearrange a code once, where it comes
 * from the scanner, and keep it in our order from there on. A code that goes through the same
 * rearrangement twice is in neither order.
 *
 * To enrol from a scanner's file, and to mask the code at a check, of a set that was dealt with the
 * terms {DOOR_HAMMING, DOOR_IRIS_BITS}:
 *
 *     uint8_t scanned[DOOR_IRIS_BYTES + 1], code[DOOR_IRIS_BYTES]; // + 1: a longer file is refused
 *     size_t size = fread(scanned, 1, sizeof scanned, file);
 *     if (door_iris_to_rings(scanned, size, code, sizeof code) != DOOR_ACCEPTED)
 *         return false; // the file has not 64 bytes; else keep the code
 *
 *     uint32_t v[DOOR_IRIS_BITS], sent[DOOR_IRIS_BITS];
 *     if (door_iris_unpack(code, sizeof code, v, DOOR_IRIS_BITS) != DOOR_ACCEPTED)
 *         return false;
 *     struct door_party_answer a = door_mask(box, v, DOOR_IRIS_BITS, sent, DOOR_IRIS_BITS);
 *
 * With a threshold T the lock's 1 then means that at most T bits differ. The camera box does both
 * steps in one with its fresh scan. A code is as secret as its vector, and no call clears a buffer.
 *
 * The four calls that write return `why`: 0, or the refusal's number. None of them works in place:
 * out is another buffer than the one that is read.
 */

/* From the scanner's order to ours: 64 bytes to out. Refusals: 4, 5. */
uint32_t door_iris_to_rings(
    const uint8_t *code, size_t code_len,
    uint8_t *out, size_t out_len);

/* From our order to the scanner's: 64 bytes to out. Refusals: 4, 5. */
uint32_t door_iris_to_angles(
    const uint8_t *code, size_t code_len,
    uint8_t *out, size_t out_len);

/*
 * From a packed code to a vector for door_mask: 512 words to out, so out_len counts words too.
 * Element i is bit i of the bytes as they stand: this call rearranges nothing. Both boxes must have
 * their codes in one order. Refusals: 4, 5.
 */
uint32_t door_iris_unpack(
    const uint8_t *code, size_t code_len,
    uint32_t *out, size_t out_len);

/*
 * Back, from a vector of 512 elements to a packed code: 64 bytes to out, of which bit i is element
 * i. An element that is neither 0 nor 1 is refused, and not cut to a bit. Refusals: 4, 5, 8.
 */
uint32_t door_iris_pack(
    const uint32_t *v, size_t v_len,
    uint8_t *out, size_t out_len);

/*
 * In how many bits two packed codes differ. That is the measure of DOOR_HAMMING of the two
 * unpacked, and the same number in either order. But both codes must be in one order: of a code in
 * each, the call tells a number that means nothing. Refusal: 4.
 *
 * This is not the private check. It works in the clear, on two codes that one box has anyway, such
 * as two scans of one eye at its enrolment. Bring no code from one box to the other for it.
 */
struct door_hamming_answer door_iris_hamming(
    const uint8_t *a, size_t a_len,
    const uint8_t *b, size_t b_len);

/*
 * How shaky the camera may be: for a face x, the enrolled y and a threshold t under DOOR_SCALAR, the
 * answer now and the largest e from 0 to DOOR_MARGIN_MOST such that no whole-number vector with each
 * element within e of x's changes that answer. x and y have one length, from 1 to DOOR_LENGTH_MOST.
 *
 *     struct door_margin_answer a = door_margin(x, n, y, n, t);
 *     if (a.why == DOOR_ACCEPTED && a.bit == 1)
 *         printf("opens, also where every element is off by up to %u\n", (unsigned)a.margin);
 *
 * All elements may be off at once, each in its own direction. Two elements in range are at most
 * DOOR_MARGIN_MOST apart: with that margin every face gets this answer. With a lower one, some
 * vector whose elements are off by up to one more gets the other answer; but its elements may be out
 * of range, so that door_mask would not take it. A y of zeros has the margin DOOR_MARGIN_MOST.
 * Refusals: 4, 8.
 *
 * This is not the private check. It works in the clear, on two vectors and a threshold that one
 * place has anyway, such as at an enrolment. Bring no vector from one box to the other for it, and
 * keep what it tells as secret as the vectors: it tells something of both.
 */
struct door_margin_answer door_margin(
    const uint32_t *x, size_t x_len,
    const uint32_t *y, size_t y_len,
    uint32_t t);

/* The level in use: "x86-64", "x86-64-v3" or "x86-64-v4". A DOOR_LEVEL that names none of them, or
   one that the machine has not, counts as not set. */
const char *door_level(void);

/* The layout that the archives are compiled for. */
#define DOOR_AT(type, field, at) \
    static_assert(offsetof(struct type, field) == (at), #type "." #field)
#define DOOR_SIZE(type, size) static_assert(sizeof(struct type) == (size), #type)
DOOR_SIZE(door_identity, 52);
DOOR_AT(door_identity, party, 16);
DOOR_AT(door_identity, key, 20);
DOOR_SIZE(door_terms, 16);
DOOR_AT(door_terms, n, 8);
DOOR_SIZE(door_correction, 40);
DOOR_AT(door_correction, word, 32);
DOOR_AT(door_correction, flags, 36);
DOOR_SIZE(door_key, 1284);
DOOR_AT(door_key, last, 1280);
DOOR_SIZE(door_set, 7504);
DOOR_AT(door_set, terms, 8);
DOOR_AT(door_set, mask, 24);
DOOR_AT(door_set, x, 2072);
DOOR_AT(door_set, y, 4120);
DOOR_AT(door_set, c, 6168);
DOOR_AT(door_set, r, 6172);
DOOR_AT(door_set, seed, 6176);
DOOR_AT(door_set, key, 6208);
DOOR_AT(door_set, width, 7492);
DOOR_AT(door_set, mark, 7496);
DOOR_SIZE(door_dealer, 88);
DOOR_AT(door_dealer, key0, 16);
DOOR_AT(door_dealer, key1, 48);
DOOR_AT(door_dealer, last, 80);
DOOR_SIZE(door_dealer_answer, 96);
DOOR_AT(door_dealer_answer, dealer, 8);
DOOR_SIZE(door_clock_answer, 96);
DOOR_AT(door_clock_answer, place, 4);
DOOR_AT(door_clock_answer, dealer, 8);
DOOR_SIZE(door_lock, 24);
DOOR_AT(door_lock, last, 16);
DOOR_SIZE(door_lock_answer, 40);
DOOR_AT(door_lock_answer, lock, 8);
DOOR_AT(door_lock_answer, bit, 32);
DOOR_SIZE(door_check, 9568);
DOOR_AT(door_check, set, 8);
DOOR_AT(door_check, masked, 7512);
DOOR_AT(door_check, own, 9560);
DOOR_AT(door_check, word, 9564);
DOOR_SIZE(door_party, 17136);
DOOR_AT(door_party, last, 56);
DOOR_AT(door_party, check, 64);
DOOR_AT(door_party, waiting, 9632);
DOOR_SIZE(door_party_answer, 17152);
DOOR_AT(door_party_answer, party, 8);
DOOR_AT(door_party_answer, word, 17144);
DOOR_SIZE(door_trial_answer, 40);
DOOR_AT(door_trial_answer, name, 4);
DOOR_AT(door_trial_answer, terms, 24);
DOOR_SIZE(door_hamming_answer, 8);
DOOR_AT(door_hamming_answer, distance, 4);
DOOR_SIZE(door_margin_answer, 12);
DOOR_AT(door_margin_answer, bit, 4);
DOOR_AT(door_margin_answer, margin, 8);
static_assert(sizeof(size_t) == 8, "size_t is the crates' usize");
#undef DOOR_AT
#undef DOOR_SIZE

#ifdef __cplusplus
}
#endif

#endif
