/*
 * The camera box and the office box.
 *
 * While a check is under way the dealer announces the next set, and the box loads it ahead: the
 * next check then begins with the masked vector at once.
 *
 * What a power cut takes away is the open set and the one that waits, and they are gone for good:
 * a box starts again from its key, its name and its last number, which was on the disk before
 * anything of that set had left. So no set is opened twice, and no second vector comes under its
 * mask. What is lost is one check, and the operator begins another.
 */
#include "host.h"

#include <inttypes.h>
#include <string.h>

#define EARLY_SETS 2 /* the open set and the one behind it have a place each for early messages */

/* A message of the other box, which may be faster, that waits for this one to get there. */
struct early {
    bool waits;
    struct message message;
};

struct box {
    struct door_party party;
    uint64_t announced; /* the set that the dealer has dealt ahead, until it is loaded; else 0 */
    struct early early[EARLY_SETS][DOOR_WORD + 1]; /* by kind */
};

static enum part self_of(const struct box *box)
{
    return box->party.who.party == CAMERA ? CAMERA : OFFICE;
}

static enum part other_of(const struct box *box)
{
    return box->party.who.party == CAMERA ? OFFICE : CAMERA;
}

/* Whether a set was loaded ahead and waits for the open one to end. */
static bool is_waiting(const struct box *box)
{
    return box->party.waiting.terms.n != 0;
}

/* The state goes on and the answer's copy of it goes away; the refusal is handed back. */
static uint32_t adopt(struct door_party *party, struct door_party_answer *a)
{
    uint32_t why = a->why;
    *party = a->party;
    explicit_bzero(a, sizeof *a);
    return why;
}

bool read_box(enum part self, struct door_party *party)
{
    struct door_name name;
    uint8_t key[DOOR_KEY];
    uint64_t last;
    if (!read_part(self, &name, &last) || !read_key(PART[self].command, "key", key))
        return false;
    struct door_party_answer a =
        door_start_party(name.bytes, name.size, self, key, DOOR_KEY, last);
    uint32_t why = adopt(party, &a);
    explicit_bzero(key, sizeof key);
    if (why != DOOR_ACCEPTED)
        say("with what its folder has, the start of the %s is refused (%" PRIu32 "): %s; the box "
            "does not start", PART[self].title, why, refusal_words(why));
    return why == DOOR_ACCEPTED;
}

static bool start_box(struct box *box, enum part self)
{
    if (!enter_part(self) || !read_box(self, &box->party))
        return false;
    remove_halves(self, box->party.last);
    return true;
}

static void send_words(const struct box *box, const struct link *link, enum part to,
    uint32_t kind, uint64_t number, const uint32_t *words, size_t count)
{
    struct message message = {
        .kind = kind, .sender = box->party.who.party, .number = number, .count = count};
    memcpy(message.name, box->party.who.name, DOOR_NAME);
    memcpy(message.words, words, sizeof *words * count);
    send_to(link, to, &message);
}

/* Only the open set: one that waits is then the open one. */
static void drop_open_set(struct box *box, const char *because)
{
    if (box->party.check.phase == DOOR_IDLE)
        return;
    uint64_t number = box->party.check.set.number;
    struct door_party_answer a = door_drop(box->party);
    uint32_t why = adopt(&box->party, &a);
    if (why == DOOR_ACCEPTED)
        say("set %" PRIu64 ": dropped, %s; its number stays spent", number, because);
    else
        say_refused("the drop", number, why, "the set stays as it is");
}

/* The office box has the enrolled vector in a file; the camera box gets its own with the begin, in
   place of the camera that a real one would have. */
static bool own_vector(const struct box *box, const struct message *begin, struct vector *vector)
{
    if (self_of(box) == OFFICE)
        return read_vector("office/vector", vector);
    memcpy(vector->words, begin->words, sizeof begin->words);
    vector->length = begin->count;
    return true;
}

/* Loads the half and spends its number, in memory and on disk. Only when this has answered true
   may anything that the set masks leave the box.

   A set whose number is not on disk must not be used. If it waits, it cannot be dropped alone. So
   the check in front of it is given up too: the disk is in trouble, and no next check will begin.
   A note in memory that the waiting set is a bad one would save this check, but every later use of
   the set would depend on it. */
static bool load(struct box *box, uint64_t number, const uint8_t *half, size_t size, uint32_t *why)
{
    static const char *const because = "since a last number could not be forced to disk";
    struct door_party_answer a = door_load(box->party, half, size);
    *why = adopt(&box->party, &a);
    if (*why != DOOR_ACCEPTED) {
        say_refused("the load", number, *why, "the half is not used");
        return false;
    }
    if (!write_last(PART[self_of(box)].command, box->party.last)) {
        drop_open_set(box, because);
        drop_open_set(box, because);
        return false;
    }
    remove_halves(box->party.who.party, box->party.last);
    return true;
}

/* A box knows of a set's marks how far apart they are, and of a threshold nothing. */
static void say_loaded(const struct box *box, const char *how)
{
    const struct door_set *set = is_waiting(box) ? &box->party.waiting : &box->party.check.set;
    char terms[TERMS_ROOM];
    terms_words(set->terms, terms);
    if (set->mark == 0)
        say("set %" PRIu64 ": %s: %s, by a threshold", set->number, how, terms);
    else
        say("set %" PRIu64 ": %s: %s, between two marks %" PRIu32 " apart", set->number, how,
            terms, set->width);
}

/* Loads the set that is announced, if it is the next one and there is room. Numbers only rise: a
   box that has not begun the set before it would spend that one's number too. It is tried again
   after every message. A set that cannot be loaded is left to its begin, and harms nothing. */
static void load_announced(struct box *box)
{
    static uint8_t half[DOOR_HALF_MOST + 1];
    const uint64_t number = box->announced;
    size_t size;
    uint32_t why;
    if (number == 0 || number != box->party.last + 1 || is_waiting(box))
        return;
    box->announced = 0;
    bool loaded = read_half(box->party.who.party, number, half, &size)
        && load(box, number, half, size, &why);
    explicit_bzero(half, sizeof half);
    if (loaded)
        say_loaded(box, is_waiting(box) ? "loaded ahead, behind the open set" : "loaded ahead");
    else
        say("set %" PRIu64 ": could not be loaded ahead; its check tries again, or takes another "
            "set", number);
}

static bool mask(
    struct box *box, const struct link *link, const struct vector *vector, uint32_t *why)
{
    uint32_t masked[DOOR_LENGTH_MOST];
    uint64_t number = box->party.check.set.number;
    struct door_party_answer a =
        door_mask(box->party, vector->words, vector->length, masked, DOOR_LENGTH_MOST);
    *why = adopt(&box->party, &a);
    if (*why != DOOR_ACCEPTED) {
        say_refused("the mask call", number, *why, "nothing has left the box");
        drop_open_set(box, "since it cannot be used for this vector");
        return false;
    }
    send_words(box, link, other_of(box), DOOR_MASKED_VECTOR, number, masked,
        box->party.check.set.terms.n);
    return true;
}

/* The two calls that take a message of the other box, told apart by the kind and never by the
   length: at L = 1 both are one word. Every other kind goes to door_take, which refuses it. */
static void hand_in(struct box *box, const struct link *link, const struct message *m)
{
    bool finishes = m->kind == DOOR_WORD;
    uint64_t number = box->party.check.set.number;
    struct door_party_answer a = finishes
        ? door_finish(box->party, m->kind, m->name, DOOR_NAME, m->sender, m->number, m->words[0])
        : door_take(
              box->party, m->kind, m->name, DOOR_NAME, m->sender, m->number, m->words, m->count);
    uint32_t word = a.word;
    uint32_t why = adopt(&box->party, &a);
    if (why != DOOR_ACCEPTED)
        say_refused(finishes ? "the finish call" : "the take call", m->number, why,
            "the message is dropped");
    else if (finishes)
        send_words(box, link, LOCK, DOOR_ANSWER, number, &word, 1);
    else
        send_words(box, link, other_of(box), DOOR_WORD, number, &word, 1);
}

/* Whether the box has not come yet to where it takes a message of this kind and number. */
static bool comes_early(const struct box *box, const struct message *m)
{
    if (m->kind != DOOR_MASKED_VECTOR && m->kind != DOOR_WORD)
        return false;
    if (m->number > box->party.last || (is_waiting(box) && m->number == box->party.waiting.number))
        return true;
    const struct door_check *check = &box->party.check;
    uint32_t takes_at = m->kind == DOOR_MASKED_VECTOR ? DOOR_MASKED : DOOR_TAKEN;
    return check->phase != DOOR_IDLE && m->number == check->set.number
        && check->phase < takes_at;
}

/* Sets with consecutive numbers have places of their own. */
static struct early *place_of(struct box *box, uint32_t kind, uint64_t number)
{
    return &box->early[number % EARLY_SETS][kind];
}

/* Those for the open set. A masked vector first: taking it is what lets a word be taken. */
static void hand_in_early_ones(struct box *box, const struct link *link)
{
    const uint64_t number = box->party.check.set.number;
    for (uint32_t kind = DOOR_MASKED_VECTOR; kind <= DOOR_WORD; kind++) {
        struct early *early = place_of(box, kind, number);
        if (!early->waits || early->message.number != number || comes_early(box, &early->message))
            continue;
        early->waits = false;
        hand_in(box, link, &early->message);
    }
}

static void take_message(struct box *box, const struct link *link, const struct message *m)
{
    if (comes_early(box, m)) {
        *place_of(box, m->kind, m->number) = (struct early){.waits = true, .message = *m};
        return;
    }
    hand_in(box, link, m);
    hand_in_early_ones(box, link);
}

/* The half comes from the stick: the set was not loaded ahead. It is loaded behind the open set,
   which is dropped only when the load has taken the half. Behind two sets there is no room. */
static bool open_from_stick(struct box *box, uint64_t number, uint32_t *why)
{
    static uint8_t half[DOOR_HALF_MOST + 1];
    static const char *const because = "since another one begins";
    size_t size;
    if (!read_half(box->party.who.party, number, half, &size))
        return false;
    if (is_waiting(box))
        drop_open_set(box, because);
    bool loaded = load(box, number, half, size, why);
    explicit_bzero(half, sizeof half);
    if (loaded)
        say_loaded(box, "loaded");
    if (loaded && is_waiting(box))
        drop_open_set(box, because);
    return loaded;
}

/* Makes this set the open one, with nothing masked yet: it is that already, it waits, or its half
   is on the stick. */
static bool open_set(struct box *box, uint64_t number, uint32_t *why)
{
    const struct door_check *check = &box->party.check;
    if (check->phase == DOOR_LOADED && check->set.number == number)
        return true;
    if (is_waiting(box) && box->party.waiting.number == number)
        drop_open_set(box, "since the set that waits begins");
    else if (!open_from_stick(box, number, why))
        return false;
    return check->phase == DOOR_LOADED && check->set.number == number;
}

/* A begin that brings no vector, or finds no set, leaves an open set as it is. */
static void begin(struct box *box, const struct link *link, const struct message *m)
{
    static struct vector vector;
    uint32_t why = DOOR_ACCEPTED;
    bool begun = own_vector(box, m, &vector) && open_set(box, m->number, &why)
        && mask(box, link, &vector, &why);
    explicit_bzero(&vector, sizeof vector);
    if (begun) {
        hand_in_early_ones(box, link);
    } else {
        say("set %" PRIu64 ": this box does not take part in it", m->number);
        send_failed(link, m->number, why);
    }
}

static void announce(struct box *box, uint64_t number)
{
    if (number > box->party.last)
        box->announced = number;
    else
        say("set %" PRIu64 ": not loaded ahead, since its number is spent here", number);
}

static void handle(void *state, const struct link *link, const struct message *message)
{
    if (message->kind == HOST_BEGIN)
        begin(state, link, message);
    else if (message->kind == HOST_AHEAD)
        announce(state, message->number);
    else
        take_message(state, link, message);
    load_announced(state);
}

/* A set that is loaded and not masked was loaded ahead: a begin masks what it loads. */
static bool is_ready(const void *state)
{
    const struct box *box = state;
    return is_waiting(box) || box->party.check.phase == DOOR_LOADED;
}

int run_box(enum part self, const char *via)
{
    static struct box box;
    if (!start_box(&box, self))
        return EXIT_TROUBLE;
    const struct served served = {
        .state = &box, .last = &box.party.last, .handle = handle, .is_ready = is_ready};
    int status = serve(self, via, &served);
    explicit_bzero(&box, sizeof box);
    return status;
}
