#include "host.h"

#include <inttypes.h>
#include <string.h>

struct lock {
    struct door_lock state;
    struct message answer[2]; /* the newest of each box */
    bool waits[2];
};

static bool start_lock(struct lock *lock)
{
    struct door_name name;
    uint64_t last;
    if (!start_part(LOCK, &name, &last))
        return false;
    struct door_lock_answer a = door_start_lock(name.bytes, name.size, last);
    if (a.why != DOOR_ACCEPTED) {
        say_refused("the start", last, a.why, "the lock does not start");
        return false;
    }
    lock->state = a.lock;
    return true;
}

/* The number is spent on disk before the door moves: whatever happens after, no number is
   reported twice. */
static bool join(struct lock *lock, const struct message *a0, const struct message *a1,
    uint32_t *bit, uint32_t *why)
{
    struct door_lock_answer a = door_join(lock->state,
        a0->kind, a0->name, DOOR_NAME, a0->sender, a0->number, a0->words[0],
        a1->kind, a1->name, DOOR_NAME, a1->sender, a1->number, a1->words[0]);
    *bit = a.bit;
    *why = a.why;
    if (a.why != DOOR_ACCEPTED) {
        say_refused("the join", a0->number, a.why,
            "the door stays as it is and both answers are dropped");
        return false;
    }
    if (!write_last(PART[LOCK].command, a.lock.last)) {
        say("set %" PRIu64 ": its number could not be forced to disk; the door stays as it is",
            a.lock.last);
        return false;
    }
    lock->state = a.lock;
    return true;
}

static void report(const struct lock *lock, const struct link *link, uint32_t bit)
{
    uint64_t number = lock->state.last;
    struct message message = {
        .kind = HOST_VERDICT, .sender = LOCK, .number = number, .words = {bit}, .count = 1};
    memcpy(message.name, lock->state.name, DOOR_NAME);
    say("set %" PRIu64 ": %s", number, bit == 1 ? "OPEN" : "STAY SHUT");
    send_to(link, OPERATOR, &message);
}

/* Whatever comes is kept as an answer, under the party it says it is from, and the join judges
   kind, name, sender and number. */
static void handle(void *state, const struct link *link, const struct message *message)
{
    struct lock *lock = state;
    uint32_t party = message->sender == OFFICE ? OFFICE : CAMERA;
    uint32_t bit, why;
    lock->answer[party] = *message;
    lock->waits[party] = true;
    if (!lock->waits[CAMERA] || !lock->waits[OFFICE]
        || lock->answer[CAMERA].number != lock->answer[OFFICE].number)
        return;
    lock->waits[CAMERA] = lock->waits[OFFICE] = false;
    if (join(lock, &lock->answer[CAMERA], &lock->answer[OFFICE], &bit, &why))
        report(lock, link, bit);
    else
        send_failed(link, message->number, why);
}

int run_lock(const char *via)
{
    static struct lock lock;
    if (!start_lock(&lock))
        return EXIT_TROUBLE;
    const struct served served = {.state = &lock, .last = &lock.state.last, .handle = handle};
    return serve(LOCK, via, &served);
}
