/*
 * Makes a folder of an older version one of this: its sets are scrapped, and all else stays.
 *
 * What scraps them is the last number. Every half that was ever dealt has a number up to the
 * dealer's last one. With that as their own last number, the boxes refuse each of them, also one
 * that lies on no stick just now, and the lock refuses what a box had answered with one.
 *
 * A part's number and its version are one file, and this program starts a part only with this
 * version. So whatever is cut short, a part that it starts has its number raised, and another run
 * does what is missing.
 */
#include "host.h"

#include <inttypes.h>
#include <string.h>

#define OWNERS (LOCK + 1) /* parts that have a folder */
#define CLOSE_SINCE 2     /* from this version on distances open up to the threshold */

struct found {
    uint64_t last[OWNERS];
    uint64_t version[OWNERS];
};

/* A part that runs would go on with the sets that it has in memory. */
static bool claim_all(void)
{
    for (enum part part = CAMERA; part <= LOCK; part++)
        if (!claim_part(part)) {
            say("an upgrade needs the folders of all four parts, with none of them running: stop "
                "all parts first; nothing was changed");
            return false;
        }
    return true;
}

static bool same_name(const struct door_name *a, const struct door_name *b)
{
    return a->size == b->size && memcmp(a->bytes, b->bytes, a->size) == 0;
}

/* The name on one line: a byte that no name has becomes a question mark. */
static void show_name(const struct door_name *name, char text[NAME_ROOM + 1])
{
    for (size_t i = 0; i < name->size; i++) {
        const uint8_t byte = name->bytes[i];
        text[i] = byte >= 32 && byte <= 126 ? (char)byte : '?';
    }
    text[name->size] = '\0';
}

static void say_other_name(
    enum part part, const struct door_name *name, const struct door_name *dealers)
{
    char text[NAME_ROOM + 1], expected[NAME_ROOM + 1];
    show_name(name, text);
    show_name(dealers, expected);
    say("the %s has the name \"%s\"; expected is the dealer's, \"%s\"", PART[part].title, text,
        expected);
}

/* Folders that were brought together by hand may be of several doors. Each door counts its sets by
   itself, and the numbers would be mixed. */
static bool is_one_door(void)
{
    struct door_name dealers, name;
    bool is_one = true;
    if (!read_name(PART[DEALER].command, &dealers))
        return false;
    for (enum part part = CAMERA; part <= LOCK; part++) {
        if (!read_name(PART[part].command, &name))
            return false;
        if (!same_name(&name, &dealers)) {
            say_other_name(part, &name, &dealers);
            is_one = false;
        }
    }
    if (!is_one)
        say("an upgrade needs the four folders of one door: bring the right ones together first; "
            "nothing was changed");
    return is_one;
}

static bool read_lasts(struct found *found)
{
    for (enum part part = CAMERA; part <= LOCK; part++) {
        const char *folder = PART[part].command;
        if (!read_last(folder, &found->last[part], &found->version[part]))
            return false;
        if (found->version[part] > SETS_VERSION) {
            say_newer(folder);
            return false;
        }
    }
    return true;
}

static bool is_done(const struct found *found)
{
    for (enum part part = CAMERA; part <= LOCK; part++)
        if (found->version[part] != SETS_VERSION)
            return false;
    return true;
}

/* Else the dealer's number is that of an older copy: there may be halves above it, and it would
   deal numbers again that are spent. */
static bool is_dealer_ahead(const struct found *found)
{
    for (enum part part = CAMERA; part <= LOCK; part++)
        if (found->last[part] > found->last[DEALER]) {
            say("the last number of the %s is above the dealer's, which cannot be right; nothing "
                "was changed. Set the door up in a new folder, with another name",
                PART[part].title);
            return false;
        }
    return true;
}

static bool clear_sticks(void)
{
    return remove_halves(CAMERA, UINT64_MAX) && remove_halves(OFFICE, UINT64_MAX)
        && force_folder("stick/camera") && force_folder("stick/office");
}

/* The dealer comes first: once any part has this version, no older dealer starts, so none deals on
   above the number that the others get. A part that has this version already is written too: a run
   that was cut short may not have forced it to disk. */
static bool raise_lasts(const struct found *found)
{
    static const enum part order[OWNERS] = {DEALER, CAMERA, OFFICE, LOCK};
    for (size_t i = 0; i < OWNERS; i++)
        if (!write_last(PART[order[i]].command, found->last[DEALER]))
            return false;
    return true;
}

/* A run that was killed may have put the last of the numbers in place and no more: a power cut
   would make that part an older one again. */
static bool force_lasts(void)
{
    for (enum part part = CAMERA; part <= LOCK; part++)
        if (!force_folder(PART[part].command))
            return false;
    return true;
}

/* Whether some part is from before the rule for distances changed. */
static bool has_older_rule(const struct found *found)
{
    for (enum part part = CAMERA; part <= LOCK; part++)
        if (found->version[part] < CLOSE_SINCE)
            return true;
    return false;
}

/* The threshold comes first: whatever is cut short afterwards, it was said. */
static bool upgrade(const struct found *found)
{
    if (has_older_rule(found))
        say("for distances (codes 1 and 2) the lock now opens up to the threshold, and no longer "
            "from it on: see that dealer/settings has the right one");
    if (clear_sticks() && raise_lasts(found))
        return true;
    say("the upgrade is not finished, and not every part starts: run it again");
    return false;
}

/* The names come before the numbers: those of another door would be told as this one's. Whether the
   dealer is ahead comes before what is done already: no sound folder has it behind. */
int run_upgrade(void)
{
    struct found found;
    if (!claim_all() || !is_one_door() || !read_lasts(&found) || !is_dealer_ahead(&found))
        return EXIT_TROUBLE;
    if (is_done(&found)) {
        if (!force_lasts())
            return EXIT_TROUBLE;
        say("this folder is of this version already; nothing was changed");
        return EXIT_OPEN;
    }
    if (!upgrade(&found))
        return EXIT_TROUBLE;
    say("upgraded; the sets up to number %" PRIu64 " are scrapped, of every measure",
        found.last[DEALER]);
    return EXIT_OPEN;
}
