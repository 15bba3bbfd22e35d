/*
 * Folders of other versions. No part starts in one. An upgrade makes an older one of this version,
 * wherever it is cut short on the way, and nothing of what was dealt before is ever used after it.
 */
#include "host.h"
#include "powercut.h"
#include "test.h"

#include <dirent.h>
#include <errno.h>
#include <inttypes.h>
#include <stdio.h>
#include <string.h>
#include <unistd.h>

#define DEALS 2
#define HALVES (2 * DEALS) /* on each stick: each deal leaves the set that is asked for and the one
                              that is dealt ahead */
#define MOMENTS_MOST 200   /* more than an upgrade has */
#define CUTS 100           /* at the least */
#define CUTS_BETWEEN 30    /* at the least, with this version at some parts and not at others */

/* What stands behind a part's last number. */
#define OLDER 3 /* versions */
static const char *const OLDER_VERSION[OLDER] = {"", " 2", " 3"}; /* version 1 left it out */
#define THIS_VERSION " 4"
#define NEWER_VERSION " 5"
#define NUMBERS 41 /* bytes before it */

/* An older folder, by its parts' versions: a digit to the base 3 for each part, from version 1 on.
   Several versions are where an older upgrade was cut short. */
#define ALL_OF(version) (40u * ((version) - 1)) /* 40 is 1111 */
#define FOLDERS 81u

struct upgrade_tally upgrade_tally;

static char *const UPGRADE[] = {"door-host", "upgrade", ".", NULL};
static const char *const STICK[] = {"stick/camera", "stick/office"};
static const char ASKS_FOR_UPGRADE[] = "run: door-host upgrade FOLDER";
static const char USE_NEWER[] = "is from a newer version of this program";
static const char ON_THRESHOLD[] = "see that dealer/settings has the right one";

/* A file's bytes. */
struct content {
    uint8_t bytes[DOOR_HALF_MOST + 1];
    size_t size;
};

/* The folder as an older version leaves it, with sets that were dealt and no box has loaded. */
static struct {
    uint64_t last[LOCK + 1];
    uint64_t dealt; /* the dealer's last number */
    struct content half[2][HALVES];
    uint64_t kept; /* a hash of what an upgrade leaves as it is */
} older;

/* Hashes of the folder. */

static bool is_state(const char *file)
{
    return strcmp(file, "running") != 0;
}

static bool is_kept(const char *file)
{
    static const char *const kept[] = {
        "name", "key", "camera.key", "office.key", "settings", "vector"};
    for (size_t i = 0; i < sizeof kept / sizeof *kept; i++)
        if (strcmp(file, kept[i]) == 0)
            return true;
    return false;
}

/* In whatever order the files come. */
static uint64_t hash_of_folder(const char *folder, bool (*counts)(const char *file))
{
    uint64_t sum = 0;
    DIR *entries = opendir(folder);
    EXPECT(entries != NULL, "cannot look through %s", folder);
    for (struct dirent *entry; (entry = readdir(entries)) != NULL;) {
        static struct content c;
        char path[3 * PATH_ROOM];
        if (entry->d_name[0] == '.' || !counts(entry->d_name))
            continue;
        snprintf(path, sizeof path, "%s/%s", folder, entry->d_name);
        EXPECT(read_file(path, c.bytes, sizeof c.bytes, &c.size), "cannot read %s", path);
        sum += hash_of(path, strlen(path)) ^ hash_of(c.bytes, c.size) * 3;
    }
    closedir(entries);
    return sum;
}

static uint64_t hash_of_all(bool (*counts)(const char *file))
{
    uint64_t sum = hash_of_folder(STICK[CAMERA], counts) + hash_of_folder(STICK[OFFICE], counts);
    for (enum part part = CAMERA; part <= LOCK; part++)
        sum += hash_of_folder(PART[part].command, counts);
    return sum;
}

/* The older folder. */

static void path_of(char path[PATH_ROOM], enum part part, const char *file)
{
    snprintf(path, PATH_ROOM, "%s/%s", PART[part].command, file);
}

/* A part's last number with this version behind it; of the file the first bytes, so many. */
static void put_last(enum part part, uint64_t last, const char *version, size_t most)
{
    char path[PATH_ROOM], text[2 * PATH_ROOM];
    int size = snprintf(text, sizeof text, "%020" PRIu64 " %020" PRIu64 "%s\n", last,
        UINT64_MAX - last, version);
    path_of(path, part, "last");
    put_file(path, text, (size_t)size < most ? (size_t)size : most);
}

static void put_version(enum part part, const char *version)
{
    put_last(part, older.last[part], version, SIZE_MAX);
}

/* The number in a part's file, and whether that version stands behind it. */
static bool has_version(enum part part, const char *version, uint64_t *last)
{
    char path[PATH_ROOM], text[2 * PATH_ROOM], right[PATH_ROOM];
    size_t size;
    path_of(path, part, "last");
    EXPECT(read_file(path, text, sizeof text - 1, &size), "no %s", path);
    text[size] = '\0';
    EXPECT(size > NUMBERS && sscanf(text, "%" SCNu64, last) == 1, "no number in %s", path);
    snprintf(right, sizeof right, "%s\n", version);
    return strcmp(text + NUMBERS, right) == 0;
}

/* The number in a part's file, where it has this version; else 0, as in an older folder. */
static uint64_t upgraded_last(enum part part)
{
    uint64_t last;
    return has_version(part, THIS_VERSION, &last) ? last : 0;
}

/* Whether some part has version 1. */
static bool is_version_1_left(void)
{
    uint64_t last;
    for (enum part part = CAMERA; part <= LOCK; part++)
        if (has_version(part, OLDER_VERSION[0], &last))
            return true;
    return false;
}

static void lose_all_power(void)
{
    for (enum part part = CAMERA; part <= LOCK; part++)
        cut_power(part);
}

static void put_halves_back(void)
{
    for (uint64_t i = 0; i < 2 * HALVES; i++) {
        char path[PATH_ROOM];
        const struct content *half = &older.half[i % 2][i / 2];
        snprintf(path, sizeof path, "%s/%" PRIu64 ".half", STICK[i % 2], older.dealt - i / 2);
        put_file(path, half->bytes, half->size);
    }
}

static const char *version_in(unsigned folder, enum part part)
{
    for (enum part before = CAMERA; before < part; before++)
        folder /= OLDER;
    return OLDER_VERSION[folder % OLDER];
}

/* All three versions: parts that an upgrade writes one after the other have others. */
static unsigned mixed_folder(unsigned turn)
{
    static const unsigned place[LOCK + 1] = {[CAMERA] = 1, [OFFICE] = 3, [DEALER] = 9, [LOCK] = 27};
    return turn % OLDER * place[DEALER] + (turn + 1) % OLDER * place[CAMERA]
        + (turn + 2) % OLDER * place[OFFICE] + turn % OLDER * place[LOCK];
}

/* All parts are down. Whatever an upgrade has left is as if it had not been, the marks of what was
   not forced to disk included. */
static void make_older(unsigned folder)
{
    lose_all_power();
    for (enum part part = CAMERA; part <= LOCK; part++)
        put_version(part, version_in(folder, part));
    put_halves_back();
}

/* All parts have this version, and the numbers of the older folder. */
static void make_this_version(void)
{
    make_older(ALL_OF(3));
    for (enum part part = CAMERA; part <= LOCK; part++)
        put_version(part, THIS_VERSION);
}

static void take_down_half(enum part box, uint64_t i)
{
    struct content *half = &older.half[box][i];
    EXPECT(read_half(box, older.dealt - i, half->bytes, &half->size),
        "set %" PRIu64 ": no half on the stick of the %s", older.dealt - i, PART[box].title);
}

static void take_down_last(enum part part)
{
    older.last[part] = durable_last(part);
    EXPECT(part == DEALER || older.last[part] + HALVES <= older.dealt,
        "the %s has loaded what nobody has begun", PART[part].title);
}

static void take_down_older(void)
{
    older.dealt = durable_last(DEALER);
    for (enum part part = CAMERA; part <= LOCK; part++)
        take_down_last(part);
    for (uint64_t i = 0; i < HALVES; i++) {
        take_down_half(CAMERA, i);
        take_down_half(OFFICE, i);
    }
    older.kept = hash_of_all(is_kept);
}

/* What does not start. */

/* The command ends in trouble, with these words, and changes nothing. */
static void expect_trouble(const char *command, const char *words)
{
    char *const arguments[] = {"door-host", (char *)command, ".", NULL};
    char said[SAID_ROOM];
    const uint64_t before = hash_of_all(is_state);
    int status = run_and_hear(arguments, said);
    EXPECT(status == EXIT_TROUBLE, "%s: status %d, where it has to say: %s", command, status,
        words);
    EXPECT(strstr(said, words) != NULL, "%s does not say: %s; but: %s", command, words, said);
    EXPECT(hash_of_all(is_state) == before, "%s is refused, and has changed something", command);
}

/* Nor is a half tried at a box that would not start. */
static void expect_no_trial(enum part box, const char *words)
{
    char path[PATH_ROOM];
    snprintf(path, sizeof path, "%s/%" PRIu64 ".half", STICK[box], older.dealt);
    trial_in_trouble(".", path, words);
}

/* With all parts of this version but for this one. */
static void other_version(enum part part, const char *text, const char *words)
{
    for (enum part other = CAMERA; other <= LOCK; other++)
        put_version(other, other == part ? text : THIS_VERSION);
    expect_trouble(PART[part].command, words);
    if (part == CAMERA || part == OFFICE)
        expect_no_trial(part, words);
    if (words != ASKS_FOR_UPGRADE)
        expect_trouble("upgrade", words);
}

static void other_versions(enum part part)
{
    static const char *const higher[] = {NEWER_VERSION, " 12", " 18446744073709551615"};
    static const char *const damaged[] = {" ", " 1", " 02", "  2", " 3 ", " 3\n4", "4", " 04",
        "  4", " 4 ", " +4", " -4", " 4\n", " 4\n4", " 4\r", " 4.0", " four",
        " 18446744073709551620", " 4                                        "};
    make_older(ALL_OF(3));
    other_version(part, " 0", ASKS_FOR_UPGRADE);
    for (size_t i = 0; i < OLDER; i++)
        other_version(part, OLDER_VERSION[i], ASKS_FOR_UPGRADE);
    for (size_t i = 0; i < sizeof higher / sizeof *higher; i++)
        other_version(part, higher[i], USE_NEWER);
    for (size_t i = 0; i < sizeof damaged / sizeof *damaged; i++)
        other_version(part, damaged[i], "/last is torn or damaged");
}

/* One part is newer among older ones. */
static void not_with_newer_part(enum part part)
{
    for (unsigned version = 1; version <= OLDER; version++) {
        make_older(ALL_OF(version));
        put_version(part, NEWER_VERSION);
        expect_trouble("upgrade", USE_NEWER);
    }
}

/* One part runs, which was started before its folder was an older one. */
static void not_while_running(enum part part)
{
    const unsigned folder = ALL_OF(1 + part % OLDER);
    make_older(folder);
    put_version(part, THIS_VERSION);
    start_child(part);
    hear_from(part);
    put_version(part, version_in(folder, part));
    expect_trouble("upgrade", "stop all parts first");
    stop_child(part);
}

static void not_with_damaged_last(enum part part)
{
    char path[PATH_ROOM];
    make_older(ALL_OF(3));
    path_of(path, part, "last");
    put_last(part, older.last[part], OLDER_VERSION[2], chance(NUMBERS + strlen(OLDER_VERSION[2])));
    expect_trouble("upgrade", "/last is torn or damaged");
    EXPECT(unlink(path) == 0, "cannot remove %s", path);
    expect_trouble("upgrade", "/last: No such file");
}

/* A dealer's number that is behind another's is from an older copy of its folder. An upgrade would
   lower the other one, whatever version that part has: all four are written. */
static void not_with_dealer_behind(enum part part)
{
    for (size_t i = 0; i <= OLDER; i++) {
        make_older(ALL_OF(3));
        put_last(part, older.dealt + 1, i < OLDER ? OLDER_VERSION[i] : THIS_VERSION, SIZE_MAX);
        expect_trouble("upgrade", "is above the dealer's");
    }
}

/* Nor where all parts have this version, and there is nothing to upgrade. */
static void not_already_with_dealer_behind(enum part part)
{
    make_this_version();
    put_last(part, older.dealt + 1, THIS_VERSION, SIZE_MAX);
    expect_trouble("upgrade", "is above the dealer's");
}

static void put_name(enum part part, const struct door_name *name)
{
    char path[PATH_ROOM];
    path_of(path, part, "name");
    put_file(path, name->bytes, name->size);
}

static void remove_name(enum part part)
{
    char path[PATH_ROOM];
    path_of(path, part, "name");
    EXPECT(unlink(path) == 0, "cannot remove %s", path);
}

static void not_with_name(
    enum part part, const struct door_name *name, const struct door_name *dealers)
{
    char words[2 * PATH_ROOM];
    snprintf(words, sizeof words,
        "the %s has the name \"%.*s\"; expected is the dealer's, \"%.*s\"", PART[part].title,
        (int)name->size, name->bytes, (int)dealers->size, dealers->bytes);
    put_name(part, name);
    expect_trouble("upgrade", words);
    expect_trouble("upgrade", "bring the right ones together first; nothing was changed");
}

/* A part of another door is among the folders that were brought together: its name has one byte
   that is another, one less or one more. Its number may be above the dealer's by right. */
static void not_of_two_doors(enum part part)
{
    struct door_name right, other, shorter, longer;
    EXPECT(read_name(PART[part].command, &right) && right.size > 1, "the %s has no name",
        PART[part].title);
    other = shorter = longer = right;
    other.bytes[chance(right.size)] ^= 1;
    shorter.size--;
    longer.bytes[longer.size++] = 's';
    make_older(ALL_OF(3));
    not_with_name(part, &other, &right);
    not_with_name(part, &shorter, &right);
    not_with_name(part, &longer, &right);
    make_this_version();
    not_with_name(part, &other, &right);
    put_last(part, older.dealt + 1, THIS_VERSION, SIZE_MAX);
    not_with_name(part, &other, &right);
    remove_name(part);
    expect_trouble("upgrade", "/name: No such file");
    put_name(part, &right);
}

/* Upgrades. */

static bool is_empty(const char *folder)
{
    unsigned long files = 0;
    DIR *entries = opendir(folder);
    EXPECT(entries != NULL, "cannot look through %s", folder);
    for (struct dirent *entry; (entry = readdir(entries)) != NULL;)
        files += entry->d_name[0] != '.';
    closedir(entries);
    return files == 0;
}

/* A number of this version may be in place and not forced to disk: a power cut then leaves the part
   an older one. But it must be high enough, and by then no half may be on the sticks, nor come back
   there. */
static void inspect_version(enum part part)
{
    EXPECT(upgraded_last(part) >= older.dealt,
        "the %s has this version, and %" PRIu64 " of %" PRIu64, PART[part].title,
        upgraded_last(part), older.dealt);
    EXPECT(is_empty(STICK[CAMERA]) && is_empty(STICK[OFFICE]),
        "the %s has this version, and a power cut would leave older halves", PART[part].title);
}

/* How many parts have this version. The dealer is the first: an older program would still deal
   otherwise. */
static unsigned inspect_versions(void)
{
    unsigned count = 0;
    for (enum part part = CAMERA; part <= LOCK; part++)
        if (upgraded_last(part) != 0) {
            count++;
            inspect_version(part);
            EXPECT(upgraded_last(DEALER) != 0,
                "the %s has this version, and an older dealer could deal on", PART[part].title);
        }
    return count;
}

/* A box that starts refuses an older half that someone had elsewhere. */
static void starts_and_refuses(enum part part)
{
    start_child(part);
    hear_from(part);
    if (part == CAMERA || part == OFFICE) {
        refuses_spent_half(part, older.dealt - chance(HALVES));
        EXPECT(remove_halves(part, UINT64_MAX), "cannot clear the stick");
    }
    stop_child(part);
}

static void start_or_not(enum part part)
{
    if (upgraded_last(part) != 0)
        starts_and_refuses(part);
    else
        expect_trouble(PART[part].command, ASKS_FOR_UPGRADE);
}

/* A person has to look at the threshold where a part had version 1, and there alone. */
static void expect_on_threshold(const char *said, bool had_version_1)
{
    EXPECT((strstr(said, ON_THRESHOLD) != NULL) == had_version_1,
        "%s version 1 an upgrade says: %s", had_version_1 ? "from" : "without", said);
}

/* Whether no power cut brings the part's file from before back. Of the dealer the number does not
   tell: an upgrade leaves it as it is. */
static bool is_forced(enum part part)
{
    char path[PATH_ROOM];
    path_of(path, part, "last" MARK_OLD);
    return access(path, F_OK) != 0;
}

/* All parts have this version and this number, beyond any power cut. */
static void expect_upgraded(uint64_t last)
{
    EXPECT(inspect_versions() == LOCK + 1, "the upgrade leaves an older part");
    for (enum part part = CAMERA; part <= LOCK; part++) {
        EXPECT(upgraded_last(part) == last && durable_last(part) == last,
            "the %s is at %" PRIu64 ", after a power cut at %" PRIu64 ", and has to be at %" PRIu64,
            PART[part].title, upgraded_last(part), durable_last(part), last);
        EXPECT(is_forced(part), "after a power cut the %s may be of an older version",
            PART[part].title);
    }
    EXPECT(hash_of_all(is_kept) == older.kept, "keys, names, settings or vectors have changed");
}

static void upgrade_to_end(uint64_t last)
{
    char said[SAID_ROOM];
    const bool had_version_1 = is_version_1_left();
    EXPECT(run_and_hear(UPGRADE, said) == 0, "the upgrade fails");
    expect_on_threshold(said, had_version_1);
    expect_upgraded(last);
}

static void expect_already(void)
{
    char said[SAID_ROOM];
    EXPECT(run_and_hear(UPGRADE, said) == 0 && strstr(said, "of this version already") != NULL,
        "an upgrade where there is nothing to do says: %s", said);
}

/* Not even the halves on the sticks: in a folder of this version they are good ones. */
static void changes_nothing_twice(void)
{
    make_older(ALL_OF(1));
    upgrade_to_end(older.dealt);
    put_halves_back();
    const uint64_t before = hash_of_all(is_state);
    expect_already();
    EXPECT(hash_of_all(is_state) == before, "a second upgrade has changed something");
}

/* With all older versions at the parts in every way. */
static void from_each_folder(void)
{
    for (unsigned folder = 0; folder < FOLDERS; folder++) {
        make_older(folder);
        upgrade_to_end(older.dealt);
    }
}

/* A part has this version, and an older dealer has dealt on since. No cut of this upgrade comes to
   that, but folders that were brought together by hand may. */
static void dealt_on(enum part part)
{
    make_older(ALL_OF(3));
    put_last(part, older.dealt, THIS_VERSION, SIZE_MAX);
    put_last(DEALER, older.dealt + 1, OLDER_VERSION[2], SIZE_MAX);
    upgrade_to_end(older.dealt + 1);
}

/* Whether the upgrade came to this moment and was cut short there. */
static bool cut_upgrade(const char *moment, unsigned at, bool power_fails)
{
    char said[SAID_ROOM];
    const bool had_version_1 = is_version_1_left();
    EXPECT(at < MOMENTS_MOST, "an upgrade comes to no end");
    const bool was_cut = run_cut_short(UPGRADE, moment, at, said);
    expect_on_threshold(said, had_version_1);
    if (!was_cut)
        return false;
    inspect_versions();
    if (power_fails)
        lose_all_power();
    unsigned count = inspect_versions();
    upgrade_tally.cuts++;
    upgrade_tally.power += power_fails;
    upgrade_tally.between += count > 0 && count <= LOCK;
    return true;
}

/* At every step, in each turn from another of the older versions, and with the power failing in
   every other turn. Then each part starts or does not, and a second run finishes the job. */
static void cut_at_steps(unsigned turn)
{
    bool was_cut = true;
    for (unsigned step = 1; was_cut; step++) {
        make_older(ALL_OF(1 + (step + turn) % OLDER));
        was_cut = cut_upgrade(BEFORE_STEP, step, (step + turn) % 2 == 0);
        for (enum part part = CAMERA; was_cut && part <= LOCK; part++)
            start_or_not(part);
        if (was_cut)
            upgrade_to_end(older.dealt);
    }
}

/* Killed when it had put a file in its place and not forced it to disk, at every such moment. No
   part starts, which would force it: the second run has to. */
static void killed_after_renames(void)
{
    bool was_cut = true;
    for (unsigned at = 1; was_cut; at++) {
        make_older(ALL_OF(1 + at % OLDER));
        was_cut = cut_upgrade(AFTER_RENAME, at, false);
        if (was_cut)
            upgrade_to_end(older.dealt);
    }
}

/* Killed after its last rename. What the next run says to be done already must outlast a power
   cut. */
static void already_outlasts_power(void)
{
    make_older(ALL_OF(3));
    EXPECT(cut_upgrade(AFTER_RENAME, LOCK + 1, false) && inspect_versions() == LOCK + 1,
        "an upgrade puts its last file somewhere else");
    expect_already();
    expect_upgraded(older.dealt);
    lose_all_power();
    expect_upgraded(older.dealt);
}

/* After a first run that was killed when it had put a file in its place, so that the file is there
   and not forced to disk: a second run is cut short too, at every such moment, and with it goes the
   power. Behind the dealer alone, each second run finds all four versions. Whether there was a
   first one. */
static bool cut_twice(unsigned first)
{
    bool was_cut = false;
    for (unsigned second = 1; second == 1 || was_cut; second++) {
        make_older(mixed_folder(second));
        if (!cut_upgrade(AFTER_RENAME, first, false))
            return false;
        was_cut = cut_upgrade(AFTER_RENAME, second, true);
        if (was_cut)
            upgrade_to_end(older.dealt);
    }
    return true;
}

static void start_again(void)
{
    start_all();
    for (uint64_t i = 0; i < HALVES; i++) {
        refuses_spent_half(CAMERA, older.dealt - i);
        refuses_spent_half(OFFICE, older.dealt - i);
    }
    for (int i = 0; i < 4; i++)
        undisturbed_check(i % 2 == 0 ? ALL : VECTORS);
}

void versions(void)
{
    for (int i = 0; i < DEALS; i++)
        deal_and_leave();
    stop_all();
    take_down_older();
    for (enum part part = CAMERA; part <= LOCK; part++) {
        other_versions(part);
        not_with_newer_part(part);
        not_while_running(part);
        not_with_damaged_last(part);
        if (part != DEALER) {
            not_with_dealer_behind(part);
            not_already_with_dealer_behind(part);
            not_of_two_doors(part);
        }
    }
    changes_nothing_twice();
    from_each_folder();
    for (unsigned turn = 0; turn < OLDER; turn++)
        cut_at_steps(turn);
    killed_after_renames();
    already_outlasts_power();
    for (unsigned first = 1; cut_twice(first);)
        first++;
    for (enum part part = CAMERA; part <= LOCK; part++)
        if (part != DEALER)
            dealt_on(part);
    EXPECT(upgrade_tally.cuts >= CUTS && upgrade_tally.between >= CUTS_BETWEEN,
        "upgrades were cut short only %lu times, %lu between the versions", upgrade_tally.cuts,
        upgrade_tally.between);
    make_older(ALL_OF(3));
    upgrade_to_end(older.dealt);
    start_again();
}
