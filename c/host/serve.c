#include "host.h"

#include <inttypes.h>
#include <stdio.h>
#include <string.h>

bool claim_part(enum part part)
{
    char running[PATH_ROOM];
    snprintf(running, sizeof running, "%s/running", PART[part].command);
    return claim(running);
}

void say_newer(const char *folder)
{
    say("the folder %s is from a newer version of this program: use that one", folder);
}

/* The proved load refuses what an older dealer has dealt. But no call can tell what older boxes
   have answered: a lock of this version would join it. */
static bool is_of_this_version(const char *folder, uint64_t version)
{
    if (version > SETS_VERSION)
        say_newer(folder);
    if (version < SETS_VERSION)
        say("the folder %s is from an older version; its sets must be scrapped, since boxes of "
            "this version refuse their halves: nobody would be let in. Stop all parts, bring their "
            "four folders and both sticks together, and run: door-host upgrade FOLDER",
            folder);
    return version == SETS_VERSION;
}

/* Forces to disk what a process that was killed had put in place and no more: a part never starts
   from what a power cut would take back. */
bool enter_part(enum part self)
{
    speak_as(self);
    return claim_part(self) && force_folder(PART[self].command);
}

bool read_part(enum part part, struct door_name *name, uint64_t *last)
{
    const char *folder = PART[part].command;
    uint64_t version;
    return read_name(folder, name) && read_last(folder, last, &version)
        && is_of_this_version(folder, version);
}

bool start_part(enum part self, struct door_name *name, uint64_t *last)
{
    return enter_part(self) && read_part(self, name, last);
}

void send_failed_at(const struct link *link, uint64_t number, uint32_t why, uint32_t place)
{
    bool has_place = (why >= DOOR_BAD_ROWS && why <= DOOR_MORE_ROWS)
        || (why == DOOR_OUT_OF_RANGE && place != 0);
    const struct message failed = {.kind = HOST_FAILED, .sender = link->self, .number = number,
        .words = {why, place}, .count = has_place ? 2 : 1};
    send_to(link, OPERATOR, &failed);
}

void send_failed(const struct link *link, uint64_t number, uint32_t why)
{
    send_failed_at(link, number, why, 0);
}

static void answer_here(const struct link *link, const struct served *served)
{
    bool ready = served->is_ready != NULL && served->is_ready(served->state);
    const struct message here = {.kind = HOST_HERE, .sender = link->self,
        .number = *served->last, .words = {ready}, .count = 1};
    send_to(link, OPERATOR, &here);
}

int serve(enum part self, const char *via, const struct served *served)
{
    struct link link;
    struct message message;
    enum receipt receipt;
    if (!open_link(&link, self, via))
        return EXIT_TROUBLE;
    say("ready; the last number is %" PRIu64, *served->last);
    while ((receipt = receive(&link, -1, &message, NULL)) == RECEIVED) {
        if (message.kind == HOST_ASK)
            answer_here(&link, served);
        else
            served->handle(served->state, &link, &message);
        explicit_bzero(&message, sizeof message);
    }
    close_link(&link);
    say("stopped; the last number is %" PRIu64, *served->last);
    return EXIT_OPEN;
}
