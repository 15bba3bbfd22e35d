/*
 * Trials: whether a box would take a half that someone has on a stick. What is said has to be what
 * a load would answer, in whole lines. And a trial leaves no trace: it takes no step on the disk,
 * no claim and no socket, and the folder is afterwards what it was, to the time of the last change
 * of every file in it.
 */
#include "host.h"
#include "powercut.h"
#include "test.h"

#include <ftw.h>
#include <inttypes.h>
#include <stdio.h>
#include <stdlib.h>
#include <string.h>
#include <sys/stat.h>
#include <sys/wait.h>
#include <unistd.h>

#define BESIDE 60          /* trials one after the other, beside checks */
#define CHECKS_BESIDE 6    /* at the least, beside these */
#define LINE_ROOM 1024     /* more than any answer has */
#define FOLDERS_OPEN 8     /* while a tree is looked through: more than it is deep */
#define CONTENT_MOST 65536 /* bytes of a file that are looked at: more than any here has */

/* Places in a block of a half. */
#define AT_INDEX 8
#define AT_TEXT 12
#define AT_TAG 496

/* A folder with the two boxes' own files alone, in which no part ever ran: a trial sees no other
   door than this one there, but for what a case has changed. */
#define TWIN "twin"
static const char *const TWINS[] = {TWIN "/camera", TWIN "/office"};

/* Copies of the halves of one set, beside the folders that are tried. */
static const char *const KEPT[] = {"kept.camera", "kept.office"};
#define CHANGED "changed.half"

static struct {
    uint64_t number;
    struct carried_half half[2];
} kept;

struct trial_tally trial_tally;

/* What a folder is, all in all. */

static uint64_t tree;

static uint64_t hash_of_content(const char *path)
{
    static uint8_t bytes[CONTENT_MOST];
    size_t size;
    EXPECT(read_file(path, bytes, sizeof bytes, &size) && size < sizeof bytes, "cannot read %s",
        path);
    return hash_of(bytes, size);
}

/* The log alone grows: what a trial says goes there. */
static int take_down(const char *path, const struct stat *found, int kind, struct FTW *place)
{
    const int64_t seen[] = {(int64_t)found->st_mode, (int64_t)found->st_ino,
        (int64_t)found->st_nlink, found->st_size, found->st_mtim.tv_sec, found->st_mtim.tv_nsec,
        found->st_ctim.tv_sec, found->st_ctim.tv_nsec};
    EXPECT(kind == FTW_F || kind == FTW_D || kind == FTW_SL, "cannot look at %s", path);
    if (strcmp(path + place->base, "log") == 0)
        return 0;
    tree += hash_of(path, strlen(path)) ^ hash_of(seen, sizeof seen) * 3;
    if (S_ISREG(found->st_mode))
        tree += hash_of(path, strlen(path)) ^ hash_of_content(path) * 5;
    return 0;
}

static uint64_t hash_of_tree(const char *folder)
{
    tree = 0;
    EXPECT(nftw(folder, take_down, FOLDERS_OPEN, FTW_PHYS) == 0, "cannot look through %s", folder);
    return tree;
}

/* Trials. */

/* From here on each program that is started dies if it takes a step on the disk, claims a part or
   makes a socket. */
static void forbid_traces(void)
{
    EXPECT(setenv(BEFORE_STEP, "1", 1) == 0 && setenv(BEFORE_CONTACT, "1", 1) == 0, "no setenv");
}

static void allow_traces(void)
{
    EXPECT(unsetenv(BEFORE_STEP) == 0 && unsetenv(BEFORE_CONTACT) == 0, "no unsetenv");
}

int run_without_trace(char *const arguments[], const char *folder, char said[SAID_ROOM])
{
    const uint64_t before = hash_of_tree(folder);
    forbid_traces();
    int status = run_and_hear(arguments, said);
    allow_traces();
    EXPECT(hash_of_tree(folder) == before, "%s has changed something in %s", arguments[1], folder);
    return status;
}

static void try_half(const char *folder, const char *half, int status, char said[SAID_ROOM])
{
    char *const arguments[] = {"door-host", "trial", (char *)folder, (char *)half, NULL};
    int found = run_without_trace(arguments, folder, said);
    trial_tally.by_status[status]++;
    EXPECT(found == status, "a trial of %s in %s ends with status %d and not %d: %s", half, folder,
        found, status, said);
}

/* All that is said. */
static void expect_trial(const char *folder, const char *half, int status, const char *right)
{
    char said[SAID_ROOM];
    try_half(folder, half, status, said);
    EXPECT(strcmp(said, right) == 0, "a trial of %s in %s says: %s; expected is: %s", half, folder,
        said, right);
}

void trial_in_trouble(const char *folder, const char *half, const char *words)
{
    char said[SAID_ROOM];
    try_half(folder, half, EXIT_TROUBLE, said);
    EXPECT(strstr(said, words) != NULL, "a trial of %s does not say: %s; but: %s", half, words,
        said);
}

/* What has to be said. */

static enum part other_box(enum part box)
{
    return box == CAMERA ? OFFICE : CAMERA;
}

/* The terms in words of the test's own. */
static void taken_line(enum part box, uint64_t number, char line[LINE_ROOM])
{
    static const char *const measures[] = {"scalar product", "squared Euclid", "Hamming"};
    snprintf(line, LINE_ROOM, "set %" PRIu64 ", for door 'Test door': %s, %zu element%s: the %s "
        "would take it\n", number, measures[settings.terms.code], settings.terms.n,
        settings.terms.n == 1 ? "" : "s", PART[box].title);
}

/* Behind the other box's line. */
static void not_its_half(enum part box, char line[LINE_ROOM])
{
    const size_t size = strlen(line);
    snprintf(line + size, LINE_ROOM - size, "the %s would not: it is the %s's half\n",
        PART[other_box(box)].title, PART[box].title);
}

static void expect_taken(const char *folder, const char *half, enum part box, uint64_t number)
{
    char line[LINE_ROOM];
    taken_line(box, number, line);
    not_its_half(box, line);
    expect_trial(folder, half, EXIT_OPEN, line);
}

/* The number of the box's half is spent, which the other box does not have to tell. */
static void expect_spent(
    const char *folder, const char *half, enum part box, uint64_t number, uint64_t last)
{
    char line[LINE_ROOM];
    snprintf(line, sizeof line, "set %" PRIu64 ": the %s would not take it (7): its number is not "
        "above %" PRIu64 ", the last number there: it was loaded already, or it is older than what "
        "was. Every check asks the dealer for a new set: bring the half of that one\n", number,
        PART[box].title, last);
    not_its_half(box, line);
    expect_trial(folder, half, EXIT_SHUT, line);
}

#define COPY_AGAIN "Copy it again from where the dealer wrote it"
#define NO_KEY "take it (10): no key there opens it: it is another box's or another door's half, " \
    "or it is damaged. See which box it is for. " COPY_AGAIN "; if that does not help, the keys " \
    "differ: see that the folder, the dealer and the stick are of one door\n"

static void expect_no_key(const char *half, uint64_t number)
{
    char line[LINE_ROOM];
    snprintf(line, sizeof line, "set %" PRIu64 ", by what the file says: neither box would " NO_KEY,
        number);
    expect_trial(TWIN, half, EXIT_SHUT, line);
}

static void expect_bad_content(const char *half, enum part box, const char *name)
{
    char line[LINE_ROOM];
    snprintf(line, sizeof line, "set %" PRIu64 ": the %s would not take it (11): its key opens it, "
        "but it is for another door or box, from another version, or cut off behind a block. "
        COPY_AGAIN "; if that does not help, see that the dealer has this box's name, '%s', and "
        "that all parts have this version (run: door-host upgrade FOLDER, or use the newer "
        "program)\n", kept.number, PART[box].title, name);
    const size_t size = strlen(line);
    snprintf(line + size, sizeof line - size, "the %s would not: the %s's key opens it\n",
        PART[other_box(box)].title, PART[box].title);
    expect_trial(TWIN, half, EXIT_SHUT, line);
}

/* Sets, and the door's own folder. */

/* Vectors that every measure takes, and a threshold or marks that every measure takes too. */
static void draw_terms(uint32_t code, size_t n, bool between)
{
    settings = (struct settings){.terms = {.code = code, .n = n}, .between = between,
        .threshold = between ? 0 : 5, .p = between ? 5 : 0, .q = between ? 9 : 0};
    for (size_t i = 0; i < n; i++)
        for (enum part box = CAMERA; box <= OFFICE; box++)
            current[box][i] = (int32_t)chance(2);
}

static void keep_halves(void)
{
    char path[PATH_ROOM];
    kept.number = check.number;
    for (enum part box = CAMERA; box <= OFFICE; box++) {
        struct carried_half *half = &kept.half[box];
        snprintf(path, sizeof path, "stick/%s/%" PRIu64 ".half", PART[box].command, kept.number);
        EXPECT(read_carried_half(path, half), "no half on the stick");
        put_file(KEPT[box], half->bytes, half->size);
        expect_taken(".", path, box, kept.number);
    }
}

static void expect_both_taken(const char *folder)
{
    for (enum part box = CAMERA; box <= OFFICE; box++)
        expect_taken(folder, KEPT[box], box, kept.number);
}

/* A set that no box has loaded: its halves are tried twice, and then a check takes them. */
static void tried_and_loaded(uint32_t code, size_t n, bool between)
{
    draw_terms(code, n, between);
    deal_and_leave();
    keep_halves();
    expect_both_taken(".");
    answer_what_was_left();
    for (enum part box = CAMERA; box <= OFFICE; box++)
        expect_spent(".", KEPT[box], box, kept.number, durable_last(box));
}

/* Cases in the twin. */

static void put_twin(enum part box, const char *file, const void *bytes, size_t size)
{
    char path[PATH_ROOM];
    snprintf(path, sizeof path, "%s/%s", TWINS[box], file);
    put_file(path, bytes, size);
}

static void copy_to_twin(enum part box, const char *file)
{
    char path[PATH_ROOM];
    uint8_t bytes[PATH_ROOM];
    size_t size;
    snprintf(path, sizeof path, "%s/%s", PART[box].command, file);
    EXPECT(read_file(path, bytes, sizeof bytes, &size), "no %s", path);
    put_twin(box, file, bytes, size);
}

static void put_last(enum part box, uint64_t last)
{
    EXPECT(write_last(TWINS[box], last), "no last number");
}

/* The boxes are where the kept set is the next one. */
static void renew_twin(void)
{
    for (enum part box = CAMERA; box <= OFFICE; box++) {
        copy_to_twin(box, "name");
        copy_to_twin(box, "key");
        put_last(box, kept.number - 1);
    }
}

static void make_twin(void)
{
    EXPECT(mkdir(TWIN, 0700) == 0 && mkdir(TWINS[CAMERA], 0700) == 0
            && mkdir(TWINS[OFFICE], 0700) == 0,
        "cannot make the folder " TWIN);
    renew_twin();
}

/* Each box has its own last number. */
static void numbers(void)
{
    static const uint64_t above[] = {0, 1, 1000};
    put_last(CAMERA, 0);
    put_last(OFFICE, 0);
    expect_both_taken(TWIN);
    for (size_t i = 0; i < sizeof above / sizeof *above; i++)
        for (enum part box = CAMERA; box <= OFFICE; box++) {
            const uint64_t last = kept.number + above[i];
            renew_twin();
            put_last(box, last);
            expect_spent(TWIN, KEPT[box], box, kept.number, last);
            expect_taken(TWIN, KEPT[other_box(box)], other_box(box), kept.number);
        }
    put_last(CAMERA, UINT64_MAX);
    put_last(OFFICE, UINT64_MAX);
    expect_spent(TWIN, KEPT[CAMERA], CAMERA, kept.number, UINT64_MAX);
    renew_twin();
}

/* A half with one bit changed. */
static void put_flipped(enum part box, size_t at)
{
    struct carried_half half = kept.half[box];
    half.bytes[at] ^= (uint8_t)(1 << chance(8));
    put_file(CHANGED, half.bytes, half.size);
}

/* A bit of the number, the place, the text or the tag of a block, the first one or another. Only in
   the first one the number is told. */
static void damaged(enum part box)
{
    static const size_t places[] = {
        0, AT_INDEX - 1, AT_INDEX, AT_TEXT - 1, AT_TEXT, AT_TAG - 1, AT_TAG, DOOR_BLOCK - 1};
    const size_t blocks = kept.half[box].size / DOOR_BLOCK;
    for (size_t i = 0; i < sizeof places / sizeof *places; i++) {
        put_flipped(box, places[i] + DOOR_BLOCK * (1 + chance(blocks - 1)));
        expect_no_key(CHANGED, kept.number);
        if (places[i] >= AT_INDEX) {
            put_flipped(box, places[i]);
            expect_no_key(CHANGED, kept.number);
        }
    }
}

static void put_number(enum part box, uint64_t number)
{
    struct carried_half half = kept.half[box];
    for (size_t i = 0; i < sizeof number; i++)
        half.bytes[i] = (uint8_t)(number >> 8 * i);
    put_file(CHANGED, half.bytes, half.size);
}

#define SPENT "take it (7): its number is not above %" PRIu64 ", the last number there; and it " \
    "is another box's half, or it is damaged. Bring the right box's half of a newer set\n"

/* A damaged half whose number is spent at one box and not at the other. */
static void spent_at_one(void)
{
    char lines[2 * LINE_ROOM];
    put_flipped(OFFICE, DOOR_BLOCK - 1);
    put_last(CAMERA, kept.number);
    snprintf(lines, sizeof lines, "set %" PRIu64 ", by what the file says: the camera box would "
        "not " SPENT "set %" PRIu64 ", by what the file says: the office box would not " NO_KEY,
        kept.number, kept.number, kept.number);
    expect_trial(TWIN, CHANGED, EXIT_SHUT, lines);
    renew_twin();
}

/* Another number in the first block: above the boxes' last ones, and not. */
static void other_number(enum part box)
{
    char line[LINE_ROOM];
    put_number(box, kept.number + 1);
    expect_no_key(CHANGED, kept.number + 1);
    put_number(box, UINT64_MAX);
    expect_no_key(CHANGED, UINT64_MAX);
    put_number(box, 0);
    snprintf(line, sizeof line, "set 0, by what the file says: neither box would " SPENT,
        kept.number - 1);
    expect_trial(TWIN, CHANGED, EXIT_SHUT, line);
}

/* A file of so many bytes, the half's as far as they go, that is no half. */
static void wrong_length(enum part box, size_t size)
{
    static uint8_t bytes[4 * DOOR_HALF_MOST];
    char line[LINE_ROOM];
    memset(bytes, 0, sizeof bytes);
    memcpy(bytes, kept.half[box].bytes, kept.half[box].size);
    put_file(CHANGED, bytes, size);
    snprintf(line, sizeof line, "neither box would take it (4): the file has %zu bytes; a half has "
        "3 to 16 whole blocks of 512, that is 1536 to 8192 bytes. It was cut off, or it is no "
        "half. " COPY_AGAIN "\n", size);
    expect_trial(TWIN, CHANGED, EXIT_SHUT, line);
}

/* Cut off, too long, or of blocks that are not its own. */
static void lengths(enum part box)
{
    const struct carried_half *half = &kept.half[box];
    const size_t wrong[] = {0, 1, 7, 511, 512, 1024, 1535, 1537, half->size - 1, half->size + 1,
        DOOR_HALF_MOST - 1, DOOR_HALF_MOST + 1, DOOR_HALF_MOST + DOOR_BLOCK, 3 * DOOR_HALF_MOST};
    for (size_t i = 0; i < sizeof wrong / sizeof *wrong; i++)
        wrong_length(box, wrong[i]);
    put_file(CHANGED, half->bytes, half->size - DOOR_BLOCK);
    expect_bad_content(CHANGED, box, "Test door");
    put_file(CHANGED, half->bytes, half->size);
    EXPECT(truncate(CHANGED, (off_t)(half->size + DOOR_BLOCK)) == 0, "no longer half");
    expect_no_key(CHANGED, kept.number);
}

/* The folder is another door's: it has other keys, or another name; or the keys are exchanged. */
static void other_door(enum part box)
{
    static const uint8_t other_key[DOOR_KEY] = {1};
    uint8_t key[2][DOOR_KEY];
    for (enum part each = CAMERA; each <= OFFICE; each++)
        EXPECT(read_key(TWINS[each], "key", key[each]), "no key");
    put_twin(box, "key", other_key, sizeof other_key);
    expect_no_key(KEPT[box], kept.number);
    for (enum part each = CAMERA; each <= OFFICE; each++)
        put_twin(each, "key", key[other_box(each)], DOOR_KEY);
    expect_bad_content(KEPT[box], other_box(box), "Test door");
    renew_twin();
    put_twin(box, "name", "Test doors", strlen("Test doors"));
    expect_bad_content(KEPT[box], box, "Test doors");
    expect_taken(TWIN, KEPT[other_box(box)], other_box(box), kept.number);
    renew_twin();
}

/* Where a folder has one box alone, as on real machines. */
static void one_box(enum part box)
{
    char own[LINE_ROOM], left_out[LINE_ROOM], lines[2 * LINE_ROOM];
    const enum part other = other_box(box);
    EXPECT(rename(TWINS[other], "away") == 0, "cannot move %s", TWINS[other]);
    snprintf(left_out, sizeof left_out, "%s: not in this folder\n", PART[other].title);
    taken_line(box, kept.number, own);
    snprintf(lines, sizeof lines, "%s%s", own, left_out);
    expect_trial(TWIN, KEPT[box], EXIT_OPEN, lines);
    snprintf(own, sizeof own, "set %" PRIu64 ", by what the file says: the %s would not " NO_KEY,
        kept.number, PART[box].title);
    snprintf(lines, sizeof lines, "%s%s", box == CAMERA ? own : left_out,
        box == CAMERA ? left_out : own);
    expect_trial(TWIN, KEPT[other], EXIT_SHUT, lines);
    EXPECT(rename("away", TWINS[other]) == 0, "cannot move %s back", TWINS[other]);
}

/* What is no half's file: nothing is waited for, and nothing is opened that may act upon it. */
static void no_plain_file(void)
{
    EXPECT(mkfifo("pipe", 0600) == 0, "no pipe");
    trial_in_trouble(TWIN, "pipe", "pipe is a pipe; expected is the file of a half");
    EXPECT(unlink("pipe") == 0, "cannot remove the pipe");
    trial_in_trouble(TWIN, TWIN, TWIN " is a folder; expected is the file of a half");
    trial_in_trouble(TWIN, PART[WATCH].socket, " is a socket; expected is the file of a half");
    trial_in_trouble(TWIN, "/dev/null", "/dev/null is a device; expected is the file of a half");
    trial_in_trouble(TWIN, "none", "cannot open none: No such file");
    trial_in_trouble(TWIN, "", "cannot open : No such file");
    EXPECT(symlink(KEPT[CAMERA], "link") == 0, "no link");
    expect_taken(TWIN, "link", CAMERA, kept.number);
    EXPECT(unlink("link") == 0, "cannot remove the link");
}

/* A box does not start with what its folder has (versions.c has more of that). It counts more than
   that the other one would take the half, which is told all the same. */
static void expect_box_in_trouble(enum part box, const char *words)
{
    char line[LINE_ROOM];
    trial_in_trouble(TWIN, KEPT[other_box(box)], words);
    snprintf(line, sizeof line, "%s: not asked, since it does not start", PART[box].title);
    trial_in_trouble(TWIN, KEPT[other_box(box)], line);
    taken_line(other_box(box), kept.number, line);
    trial_in_trouble(TWIN, KEPT[other_box(box)], line);
    renew_twin();
}

static void remove_from_twin(enum part box, const char *file)
{
    char path[PATH_ROOM];
    snprintf(path, sizeof path, "%s/%s", TWINS[box], file);
    EXPECT(unlink(path) == 0, "cannot remove %s", path);
}

static void box_in_trouble(enum part box)
{
    static const char *const files[] = {"name", "key", "last"};
    for (size_t i = 0; i < sizeof files / sizeof *files; i++) {
        char words[PATH_ROOM];
        snprintf(words, sizeof words, "/%s: No such file", files[i]);
        remove_from_twin(box, files[i]);
        expect_box_in_trouble(box, words);
    }
    put_twin(box, "key", "1", 1);
    expect_box_in_trouble(box, "/key has not the 32 bytes of a key");
    put_twin(box, "name", "", 0);
    expect_box_in_trouble(box, "is refused (1): the name is empty");
}

/* No box's folder, no folder, or no half. */
static void no_trial(void)
{
    char said[SAID_ROOM];
    trial_in_trouble("stick/camera", KEPT[CAMERA], "neither camera nor office in it");
    char *const no_folder[] = {"door-host", "trial", "none", (char *)KEPT[CAMERA], NULL};
    EXPECT(run_and_hear(no_folder, said) == EXIT_TROUBLE
            && strstr(said, "cannot go to none: No such file") != NULL,
        "a trial in no folder says: %s", said);
    char *const no_half[] = {"door-host", "trial", TWIN, NULL};
    EXPECT(run_and_hear(no_half, said) == EXIT_TROUBLE && strstr(said, "usage: ") != NULL,
        "a trial of no half says: %s", said);
}

/* The answer is the program's output, and one that cannot be told is trouble. */
static void output(void)
{
    char line[LINE_ROOM], found[LINE_ROOM];
    char *const arguments[] = {"door-host", "trial", TWIN, (char *)KEPT[OFFICE], NULL};
    size_t size;
    taken_line(OFFICE, kept.number, line);
    not_its_half(OFFICE, line);
    EXPECT(run_with_output(arguments, "answer") == EXIT_OPEN
            && read_file("answer", found, sizeof found, &size) && size == strlen(line)
            && memcmp(found, line, size) == 0,
        "a trial does not put this out: %s", line);
    EXPECT(run_with_output(arguments, "/dev/full") == EXIT_TROUBLE,
        "a trial whose answer is lost ends well");
}

static void cases(void)
{
    make_twin();
    expect_both_taken(TWIN);
    numbers();
    for (enum part box = CAMERA; box <= OFFICE; box++) {
        damaged(box);
        other_number(box);
        lengths(box);
        other_door(box);
        one_box(box);
        box_in_trouble(box);
    }
    spent_at_one();
    output();
    no_plain_file();
    no_trial();
    expect_both_taken(TWIN);
}

/* Beside the parts. */

/* A process that tries a half again and again. The boxes load it meanwhile: before that it is
   taken, and after that it is not. */
static pid_t try_on_and_on(const char *half)
{
    char *const arguments[] = {"door-host", "trial", ".", (char *)half, NULL};
    pid_t process = fork();
    EXPECT(process >= 0, "no fork");
    if (process != 0)
        return process;
    int status = EXIT_OPEN;
    forbid_traces();
    for (int i = 0; i < BESIDE && status <= EXIT_SHUT; i++) {
        int next = run_to_end(arguments);
        status = next < status ? EXIT_TROUBLE : next; /* what is spent stays so */
    }
    _exit(status);
}

static void beside_checks(void)
{
    int status, checks = 0;
    expect_both_taken(".");
    pid_t process = try_on_and_on(KEPT[CAMERA]);
    answer_what_was_left();
    for (pid_t ended = 0; ended == 0 || checks < CHECKS_BESIDE; checks++) {
        if (checks % 2 == 0)
            undisturbed_check(VECTORS);
        else
            operators_check(VECTORS);
        if (ended == 0)
            ended = waitpid(process, &status, WNOHANG);
        EXPECT(ended == 0 || ended == process, "no trials beside the checks");
    }
    EXPECT(WIFEXITED(status) && WEXITSTATUS(status) <= EXIT_SHUT,
        "beside checks a trial ends in trouble, or takes what it did not take before");
    trial_tally.beside += BESIDE;
    expect_spent(".", KEPT[CAMERA], CAMERA, kept.number, durable_last(CAMERA));
}

void trials(void)
{
    tried_and_loaded(DOOR_SCALAR, 1, false);
    tried_and_loaded(DOOR_HAMMING, 512, true);
    tried_and_loaded(DOOR_HAMMING, 16, false);
    tried_and_loaded(DOOR_EUCLID, 17, true);
    draw_terms(DOOR_EUCLID, 128, false);
    deal_and_leave();
    keep_halves();
    cases();
    stop_all();
    expect_both_taken(".");
    start_all();
    beside_checks();
}
