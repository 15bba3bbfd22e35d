#include "test.h"

#include <inttypes.h>
#include <poll.h>
#include <time.h>

int64_t now_ns(void)
{
    struct timespec now;
    clock_gettime(CLOCK_MONOTONIC, &now);
    return (int64_t)now.tv_sec * 1000000000 + now.tv_nsec;
}

static struct link relay;

const char *const STAGE[STAGES] = {
    "before the deal", "after the deal", "after a masked vector", "after a word",
    "after an answer", "after the report"};

struct check check;
bool disorder;
bool operator_runs;
bool ready[PARTS];
struct message answers[2];

static bool here[PARTS]; /* has answered HOST_ASK */
static bool busy;        /* a message between parts was seen in this round */
static struct message late;
static enum part late_to = PARTS; /* to whom the delayed message goes, if there is one */

static bool forward(enum part to, const struct message *m)
{
    uint8_t bytes[DATAGRAM_MOST];
    return send_bytes(&relay, PART[to].socket, bytes, encode(m, bytes));
}

static bool is_held_back(enum part to, const struct message *m)
{
    if (m->kind != DOOR_MASKED_VECTOR)
        return false;
    bool waits_for_next_set = check.pace == SLOW && !check.announced[to];
    return to == check.word_first || waits_for_next_set || check.pace == STUCK;
}

static void release_vector(enum part to)
{
    if (check.held[to])
        forward(to, &check.vector[to]);
    check.held[to] = false;
}

/* A message to a dead part is lost; that a part may be killed is what the test is about. */
static void carry(enum part to, const struct message *m)
{
    busy = true;
    if (is_held_back(to, m)) {
        check.vector[to] = *m;
        check.held[to] = true;
        return;
    }
    if (disorder && chance(32) == 0 && late_to == PARTS) {
        late = *m;
        late_to = to;
        return;
    }
    forward(to, m);
    if (disorder && chance(16) == 0)
        forward(to, m);
    if (m->kind == HOST_AHEAD)
        check.announced[to] = true;
    bool releases = m->kind == HOST_AHEAD ? check.pace == SLOW
                                          : m->kind == DOOR_WORD && to == check.word_first;
    if (releases)
        release_vector(to);
}

void carry_late(void)
{
    if (late_to != PARTS)
        forward(late_to, &late);
    late_to = PARTS;
}

bool carry_late_announcement(void)
{
    bool is_one = late_to != PARTS && late.kind == HOST_AHEAD;
    if (is_one)
        carry_late();
    return is_one;
}

static void follow(const struct message *m)
{
    static const enum stage stages[] = {
        [DOOR_MASKED_VECTOR] = MASKED, [DOOR_WORD] = WORDS, [DOOR_ANSWER] = ANSWERS,
        [HOST_DEALT] = DEALT, [HOST_VERDICT] = REPORTED, [HOST_FAILED] = ASKED,
        [HOST_AHEAD] = ASKED};
    check.messages++;
    if (m->kind == HOST_DEALT)
        check.number = m->number;
    if (m->number != check.number && m->sender != DEALER)
        return; /* of a set before this one */
    if (m->kind == HOST_FAILED) {
        check.failed = true;
        check.why = m->words[0];
        check.place = m->words[1];
    }
    if (m->kind == DOOR_MASKED_VECTOR && check.vector_ns == 0)
        check.vector_ns = now_ns();
    if (m->kind == HOST_VERDICT)
        check.report_ns = now_ns();
    if (stages[m->kind] > check.stage)
        check.stage = stages[m->kind];
}

static void handle(enum part from, const struct message *m)
{
    EXPECT(from <= LOCK, "a message came from no part's socket");
    if (m->kind == HOST_HERE) {
        here[from] = true;
        ready[from] = m->words[0] == 1;
        EXPECT(m->number <= durable_last(from), "the %s has last number %" PRIu64 " in mind alone",
            PART[from].title, m->number);
    }
    observe(from, m);
    if (m->kind == HOST_HERE)
        return;
    follow(m);
    if (m->kind == DOOR_ANSWER)
        answers[from] = *m;
    enum part to = destination(from, m);
    if (to != OPERATOR)
        carry(to, m);
    else if (operator_runs)
        forward(OPERATOR, m);
}

bool pump_until(int64_t time)
{
    struct pollfd readable = {.fd = relay.file, .events = POLLIN};
    int64_t left = time - now_ns();
    const struct timespec span = {
        .tv_sec = left > 0 ? left / 1000000000 : 0, .tv_nsec = left > 0 ? left % 1000000000 : 0};
    struct message message;
    enum part from;
    if (ppoll(&readable, 1, &span, NULL) <= 0 || receive(&relay, 0, &message, &from) != RECEIVED)
        return false;
    handle(from, &message);
    return true;
}

void pump_before(int64_t deadline)
{
    EXPECT(pump_until(deadline) || now_ns() < deadline, "a check stopped %s", STAGE[check.stage]);
}

void pump_what_is_there(void)
{
    while (pump_until(0))
        ;
}

/* A part that has just been started may not have its socket yet. */
void send_surely(enum part to, const struct message *m)
{
    const int64_t deadline = now_ns() + PATIENCE_NS;
    while (!forward(to, m)) {
        EXPECT(now_ns() < deadline && child_runs(to), "the %s does not come up", PART[to].title);
        pump_until(now_ns() + 1000000);
    }
}

void hear_from(enum part part)
{
    const struct message ask = {.kind = HOST_ASK, .sender = OPERATOR};
    const int64_t deadline = now_ns() + PATIENCE_NS;
    here[part] = false;
    send_surely(part, &ask);
    while (!here[part])
        EXPECT(pump_until(deadline) || now_ns() < deadline, "the %s is silent", PART[part].title);
}

/* Until nothing is under way: each part has handled all that was sent to it before it was asked,
   and a round in which nothing else was seen is the last. */
void settle(void)
{
    do {
        busy = false;
        for (enum part part = CAMERA; part <= LOCK; part++)
            hear_from(part);
    } while (busy);
}

void open_network(void)
{
    EXPECT(open_link(&relay, WATCH, NULL), "no relay");
}

void throw_at(enum part part, const uint8_t *bytes, size_t size)
{
    EXPECT(send_bytes(&relay, PART[part].socket, bytes, size), "cannot send to the %s",
        PART[part].title);
}
