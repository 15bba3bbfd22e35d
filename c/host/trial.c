/*
 * Says whether a box would take a half, before anyone drives out with it.
 *
 * The proved trial gets the half, and the state that the box would start with, from its files. They
 * are only read. No part is claimed, no message is sent, and nothing is written: the parts may run
 * beside it, and a half that was tried can still be loaded. What a running box has in memory is not
 * known here. That matters where one set is open and another one waits: the box takes no further
 * half before the open one has ended. And it matters where the files are not what the box has: a
 * last number that could not be written, or a file changed since the box started.
 */
#include "host.h"

#include <errno.h>
#include <inttypes.h>
#include <stdio.h>
#include <string.h>
#include <sys/stat.h>

#define BOXES (OFFICE + 1)
#define WHY_ROOM 512
#define HALF_LEAST ((int)DOOR_HALF(1)) /* bytes of a half of the shortest vectors */

/* What a trial at one box has shown. */
struct verdict {
    enum { NOT_HERE, IN_TROUBLE, ASKED } asked;
    char name[DOOR_NAME + 1]; /* the box's */
    uint64_t last;            /* its last number */
    struct door_trial_answer said;
    bool opens;  /* its key opens the half */
    bool is_own; /* and all else fits but the number: it is this box's half, taken or not */
};

/* The number is tested before the key. So a half whose number is spent is tried once more, as if
   none was: whose half it is tells a person what to do, and nothing is called good by it. */
static uint32_t but_for_number(
    const struct door_party *party, const struct carried_half *half, uint32_t why)
{
    struct door_party unspent = *party;
    unspent.last = 0;
    if (why == DOOR_WRONG_NUMBER)
        why = door_trial(unspent, half->bytes, half->size).why;
    explicit_bzero(&unspent, sizeof unspent);
    return why;
}

static bool is_here(enum part box, struct verdict *v)
{
    struct stat found;
    if (stat(PART[box].command, &found) == 0)
        return true;
    v->asked = errno == ENOENT ? NOT_HERE : IN_TROUBLE;
    if (v->asked == IN_TROUBLE)
        say_trouble("cannot look at the folder", PART[box].command);
    return false;
}

static void try_at(enum part box, const struct carried_half *half, struct verdict *v)
{
    struct door_party party;
    *v = (struct verdict){.asked = IN_TROUBLE};
    if (!is_here(box, v) || !read_box(box, &party))
        return;
    v->asked = ASKED;
    v->last = party.last;
    memcpy(v->name, party.who.name, DOOR_NAME);
    v->said = door_trial(party, half->bytes, half->size);
    const uint32_t why = but_for_number(&party, half, v->said.why);
    v->opens = why == DOOR_ACCEPTED || why == DOOR_BAD_CONTENT;
    v->is_own = why == DOOR_ACCEPTED;
    explicit_bzero(&party, sizeof party);
}

/* What is told. */

static bool is_taken(const struct verdict *v)
{
    return v->asked == ASKED && v->said.why == DOOR_ACCEPTED;
}

/* The box whose key opens it, PARTS where none does. */
static enum part opener_of(const struct verdict verdicts[BOXES])
{
    enum part box = CAMERA;
    while (box <= OFFICE && !verdicts[box].opens)
        box++;
    return box <= OFFICE ? box : PARTS;
}

/* Whether one line tells of both boxes. */
static bool is_same(const struct verdict *a, const struct verdict *b)
{
    return a->asked == ASKED && b->asked == ASKED && a->said.why == b->said.why && !a->opens
        && !b->opens && (a->said.why != DOOR_WRONG_NUMBER || a->last == b->last);
}

#define AGAIN "Copy it again from where the dealer wrote it"

static void length_words(const struct carried_half *half, char words[WHY_ROOM])
{
    snprintf(words, WHY_ROOM, "the file has %zu bytes; a half has %d to %d whole blocks of %d, "
        "that is %d to %d bytes. It was cut off, or it is no half. " AGAIN, half->file_size,
        HALF_LEAST / DOOR_BLOCK, DOOR_HALF_MOST / DOOR_BLOCK, DOOR_BLOCK, HALF_LEAST,
        DOOR_HALF_MOST);
}

static void number_words(const struct verdict *v, char words[WHY_ROOM])
{
    snprintf(words, WHY_ROOM, "its number is not above %" PRIu64 ", the last number there%s",
        v->last,
        v->is_own ? ": it was loaded already, or it is older than what was. Every check asks the "
                    "dealer for a new set: bring the half of that one"
                  : "; and it is another box's half, or it is damaged. Bring the right box's half "
                    "of a newer set");
}

static void content_words(const struct verdict *v, char words[WHY_ROOM])
{
    snprintf(words, WHY_ROOM, "its key opens it, but it is for another door or box, from another "
        "version, or cut off behind a block. " AGAIN "; if that does not help, see that the dealer "
        "has this box's name, '%s', and that all parts have this version (run: door-host upgrade "
        "FOLDER, or use the newer program)", v->name);
}

/* What is the same at every box. */
static const char *common_words(uint32_t why)
{
    if (why == DOOR_BAD_BLOCK)
        return "no key there opens it: it is another box's or another door's half, or it is "
               "damaged. See which box it is for. " AGAIN "; if that does not help, the keys "
               "differ: see that the folder, the dealer and the stick are of one door";
    return refusal_words(why);
}

/* Why the half is not taken and what to do, behind the refusal's number. */
static void why_words(
    const struct verdict *v, const struct carried_half *half, char words[WHY_ROOM])
{
    const uint32_t why = v->said.why;
    if (why == DOOR_WRONG_LENGTH)
        length_words(half, words);
    else if (why == DOOR_WRONG_NUMBER)
        number_words(v, words);
    else if (why == DOOR_BAD_CONTENT)
        content_words(v, words);
    else
        snprintf(words, WHY_ROOM, "%s", common_words(why));
}

/* The number stands in the file's first bytes. With a key that opens it, it is the set's. */
static void set_words(
    const struct verdict *v, const struct carried_half *half, char words[PATH_ROOM])
{
    uint64_t number = get_little(half->bytes, sizeof number);
    words[0] = '\0';
    if (v->said.why != DOOR_WRONG_LENGTH)
        snprintf(words, PATH_ROOM, "set %" PRIu64 "%s: ", number,
            v->opens ? "" : ", by what the file says");
}

static void tell_taken(enum part box, const struct door_trial_answer *said, uint64_t number)
{
    char terms[TERMS_ROOM];
    terms_words(said->terms, terms);
    printf("set %" PRIu64 ", for door '%.*s': %s: the %s would take it\n", number, DOOR_NAME,
        (const char *)said->name, terms, PART[box].title);
}

static void tell_refused(
    const char *who, const struct verdict *v, const struct carried_half *half)
{
    char set[PATH_ROOM], why[WHY_ROOM];
    set_words(v, half, set);
    why_words(v, half, why);
    printf("%s%s take it (%" PRIu32 "): %s\n", set, who, v->said.why, why);
}

/* A half is for one box. That the other one refuses it is as it should be. */
static void tell(enum part box, const struct verdict verdicts[BOXES], enum part opener,
    const struct carried_half *half)
{
    const struct verdict *v = &verdicts[box];
    char who[PATH_ROOM];
    snprintf(who, sizeof who, "the %s would not", PART[box].title);
    if (v->asked == NOT_HERE)
        printf("%s: not in this folder\n", PART[box].title);
    else if (v->asked == IN_TROUBLE)
        printf("%s: not asked, since it does not start with what its folder has\n",
            PART[box].title);
    else if (is_taken(v))
        tell_taken(box, &v->said, get_little(half->bytes, sizeof(uint64_t)));
    else if (opener != PARTS && opener != box)
        printf("%s: %s %s's %s\n", who, verdicts[opener].is_own ? "it is the" : "the",
            PART[opener].title, verdicts[opener].is_own ? "half" : "key opens it");
    else
        tell_refused(who, v, half);
}

/* The box whose key opens it comes first. */
static void tell_all(const struct verdict verdicts[BOXES], const struct carried_half *half)
{
    const enum part opener = opener_of(verdicts);
    if (is_same(&verdicts[CAMERA], &verdicts[OFFICE])) {
        tell_refused("neither box would", &verdicts[CAMERA], half);
        return;
    }
    const enum part first = opener == OFFICE ? OFFICE : CAMERA;
    const enum part second = first == OFFICE ? CAMERA : OFFICE;
    tell(first, verdicts, opener, half);
    tell(second, verdicts, opener, half);
}

/* A box in trouble counts more than one that would take the half: a check needs both. */
static int status_of(const struct verdict verdicts[BOXES])
{
    const struct verdict *camera = &verdicts[CAMERA], *office = &verdicts[OFFICE];
    if (camera->asked == IN_TROUBLE || office->asked == IN_TROUBLE)
        return EXIT_TROUBLE;
    return is_taken(camera) || is_taken(office) ? EXIT_OPEN : EXIT_SHUT;
}

static int try_half(const struct carried_half *half)
{
    struct verdict verdicts[BOXES];
    for (enum part box = CAMERA; box <= OFFICE; box++)
        try_at(box, half, &verdicts[box]);
    if (verdicts[CAMERA].asked == NOT_HERE && verdicts[OFFICE].asked == NOT_HERE) {
        say("the folder has neither %s nor %s in it; expected is one box's folder at least: give "
            "the folder in which it is", PART[CAMERA].command, PART[OFFICE].command);
        return EXIT_TROUBLE;
    }
    tell_all(verdicts, half);
    if (fflush(stdout) == 0 && !ferror(stdout))
        return status_of(verdicts);
    say_trouble("cannot write to", "the standard output");
    return EXIT_TROUBLE;
}

/* The half's path is the caller's, so it is read before the working folder changes. */
int run_trial(const char *folder, const char *half_file)
{
    static struct carried_half half;
    int status = EXIT_TROUBLE;
    if (read_carried_half(half_file, &half) && go_to(folder))
        status = try_half(&half);
    explicit_bzero(&half, sizeof half);
    return status;
}
