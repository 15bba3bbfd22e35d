#include "host.h"

#include <inttypes.h>
#include <stdio.h>

#define PATIENCE 5000 /* milliseconds for an answer */

static bool start_operator(struct link *link)
{
    speak_as(OPERATOR);
    return claim("operator.running") && open_link(link, OPERATOR, NULL);
}

/* Whether this says that what is waited for came to nothing. A set before it may have failed at
   the other box as well, which says so later. */
static bool is_failure(const struct message *message, uint32_t kind, uint64_t number)
{
    if (message->kind != HOST_FAILED || message->sender >= OPERATOR)
        return false;
    return kind == HOST_DEALT ? message->sender == DEALER
                              : number != 0 && message->number == number;
}

static void say_failure(const struct message *message)
{
    uint32_t why = message->words[0];
    char words[TROUBLE_ROOM] = "its log says why";
    if (why != DOOR_ACCEPTED)
        place_words(why, message->words[1], words);
    say("set %" PRIu64 " came to nothing at the %s: %s", message->number,
        PART[message->sender].title, words);
}

/* Waits for a message of this kind and set (any set if 0), and passes over others; false where the
   set came to nothing, with the message that says so, or where nothing came, with one of kind
   HOST_ASK. */
static bool wait_for(
    const struct link *link, uint32_t kind, uint64_t number, struct message *message)
{
    const int64_t deadline = milliseconds_now() + PATIENCE;
    for (int64_t left; (left = deadline - milliseconds_now()) > 0;) {
        if (receive(link, (int)left, message, NULL) != RECEIVED)
            break;
        if (message->kind == kind && (number == 0 || message->number == number))
            return true;
        if (is_failure(message, kind, number)) {
            say_failure(message);
            return false;
        }
    }
    *message = (struct message){.kind = HOST_ASK};
    if (number == 0)
        say("no answer (%s) came within %d seconds", kind_words(kind), PATIENCE / 1000);
    else
        say("set %" PRIu64 ": no answer (%s) came within %d seconds; its number is spent, and "
            "another check gets another set", number, kind_words(kind), PATIENCE / 1000);
    return false;
}

static bool send_begin(
    const struct link *link, enum part box, uint64_t number, const struct vector *vector)
{
    struct message begin = {.kind = HOST_BEGIN, .sender = OPERATOR, .number = number};
    if (box == CAMERA) {
        begin.count = vector->length;
        for (size_t i = 0; i < vector->length; i++)
            begin.words[i] = vector->words[i];
    }
    return send_to(link, box, &begin);
}

/* Which row of the table a set was dealt by, behind the verdict; nothing where there is no table. */
static void tell_row(const struct message *dealt, char row[ROW_ROOM])
{
    row[0] = '\0';
    if (dealt->count == DEALT_BY_CLOCK)
        row_words(dealt->words[3], dealt->words[4], dealt->words[5], row);
}

/* Asks for a set and begins with it; true where the lock has spoken. `said` is what came last. */
static bool check_once(const struct link *link, const struct vector *vector, struct message *said,
    char row[ROW_ROOM])
{
    const struct message deal = {.kind = HOST_DEAL, .sender = OPERATOR};
    if (!send_to(link, DEALER, &deal) || !wait_for(link, HOST_DEALT, 0, said))
        return false;
    tell_row(said, row);
    const uint64_t number = said->number;
    return send_begin(link, CAMERA, number, vector) && send_begin(link, OFFICE, number, vector)
        && wait_for(link, HOST_VERDICT, number, said);
}

/* Whether another set may fare better. A box that was switched off has lost the set that it had
   loaded ahead. But what it says of the vector, its length or range, it would say with any set. */
static bool another_may_do(const struct message *said)
{
    bool box_failed =
        said->kind == HOST_FAILED && (said->sender == CAMERA || said->sender == OFFICE);
    uint32_t why = said->words[0];
    return box_failed && why != DOOR_WRONG_LENGTH && why != DOOR_OUT_OF_RANGE;
}

static int check(const struct link *link, const struct vector *vector)
{
    struct message said = {.kind = HOST_ASK};
    char row[ROW_ROOM] = "";
    int sets = 1;
    bool answered = check_once(link, vector, &said, row);
    for (; !answered && another_may_do(&said) && sets < SETS_FOR_A_CHECK; sets++) {
        say("the check begins again with another set");
        answered = check_once(link, vector, &said, row);
    }
    if (!answered)
        return EXIT_TROUBLE;
    bool open = said.words[0] == 1;
    printf("lock: set %" PRIu64 ": %s%s%s\n", said.number, open ? "OPEN" : "STAY SHUT",
        row[0] == '\0' ? "" : ", by ", row);
    return open ? EXIT_OPEN : EXIT_SHUT;
}

int run_check(const struct vector *vector)
{
    struct link link;
    if (!start_operator(&link))
        return EXIT_TROUBLE;
    int status = check(&link, vector);
    close_link(&link);
    return status;
}

static bool is_here(const struct link *link, enum part part)
{
    const struct message ask = {.kind = HOST_ASK, .sender = OPERATOR};
    struct message here;
    if (!send_to(link, part, &ask))
        return false;
    do
        if (!wait_for(link, HOST_HERE, 0, &here))
            return false;
    while (here.sender != part);
    printf("%s: running, last number %" PRIu64 "%s\n", PART[part].title, here.number,
        here.words[0] == 1 ? ", with the next set ready" : "");
    return true;
}

int run_status(void)
{
    struct link link;
    if (!start_operator(&link))
        return EXIT_TROUBLE;
    bool all = true;
    for (enum part part = CAMERA; part <= LOCK; part++)
        all = is_here(&link, part) && all;
    close_link(&link);
    return all ? EXIT_OPEN : EXIT_TROUBLE;
}
