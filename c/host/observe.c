#include "test.h"

#include <dirent.h>
#include <inttypes.h>
#include <stdio.h>
#include <stdlib.h>
#include <string.h>

#define NUMBERS 8192 /* more than one run deals */
#define COPIES 8     /* of halves that are kept, for each box */

struct tally tally;
int32_t current[2][DOOR_LENGTH_MOST];
struct settings settings;
uint64_t newest_ahead;
uint32_t minute;

/* What is known of one set. */
struct seen {
    bool dealt;
    struct settings settings;           /* what it was dealt for */
    bool sent[2][DOOR_ANSWER + 1];      /* by box and kind */
    int32_t used[2][DOOR_LENGTH_MOST];  /* the vector that each box had when it sent it masked */
    bool reported;                      /* by the lock */
    uint64_t half[2];                   /* a hash of each box's half */
    uint64_t mask[2];                   /* a hash of the mask that each box has used */
};

static struct seen seen[NUMBERS];
static uint64_t most_sent[PARTS]; /* the highest number that left each part */
static uint64_t lost[PARTS];      /* the newest set dealt ahead when the part had it no longer */
static struct settings ahead_for; /* what that one was dealt for */
static uint32_t ahead_row;        /* by which row, or 0 */

bool same_settings(const struct settings *a, const struct settings *b)
{
    return a->terms.code == b->terms.code && a->terms.n == b->terms.n && a->between == b->between
        && a->threshold == b->threshold && a->p == b->p && a->q == b->q
        && a->by_clock == b->by_clock && same_table(&a->table, &b->table);
}

uint32_t row_now(const struct settings *s)
{
    uint32_t row = 0;
    for (uint32_t i = 0; i < s->table.rows; i++)
        if (s->table.firsts[i] <= minute && minute <= s->table.lasts[i])
            row = i + 1;
    return row;
}

struct settings in_force(const struct settings *s)
{
    if (!s->by_clock)
        return *s;
    return (struct settings){
        .terms = s->terms, .threshold = (int32_t)s->table.thresholds[row_now(s) - 1]};
}

int64_t measure(struct door_terms terms, const int32_t *x, const int32_t *y)
{
    const uint32_t code = terms.code;
    int64_t sum = 0;
    for (size_t i = 0; i < terms.n; i++) {
        int64_t a = x[i], b = y[i];
        sum += code == DOOR_SCALAR ? a * b : code == DOOR_EUCLID ? (a - b) * (a - b) : a != b;
    }
    return sum;
}

bool has_to_open(const struct settings *settings_now, const int32_t *x, const int32_t *y)
{
    const struct settings s = in_force(settings_now);
    const int64_t found = measure(s.terms, x, y);
    if (s.between)
        return s.p <= found && found <= s.q;
    return s.terms.code == DOOR_SCALAR ? found >= s.threshold : found <= s.threshold;
}

static struct seen *set_of(uint64_t number)
{
    EXPECT(number > 0 && number < NUMBERS, "set %" PRIu64 " was never dealt", number);
    return &seen[number];
}

/* Whatever leaves a part under a number, the part's disk must know the number first. */
static void left(enum part from, uint64_t number)
{
    uint64_t last = durable_last(from);
    EXPECT(last >= number,
        "set %" PRIu64 ": something left the %s while a power cut would have left it at %" PRIu64,
        number, PART[from].title, last);
    if (number > most_sent[from])
        most_sent[from] = number;
}

/* FNV-1a. */
uint64_t hash_of(const void *at, size_t size)
{
    const uint8_t *bytes = at;
    uint64_t hash = 14695981039346656037u;
    for (size_t i = 0; i < size; i++)
        hash = (hash ^ bytes[i]) * 1099511628211u;
    return hash;
}

/* A half as it lies on a stick. */
struct copy {
    uint64_t number;
    uint8_t bytes[DOOR_HALF_MOST];
    size_t size;
};

/* Of each box, by number, to be put back on the stick when they are spent. */
static struct copy copies[2][COPIES];

/* Under its name from the start: what is left of a half that is being written is removed by a box
   that looks through the stick. */
void put_half_back(enum part box, uint64_t number)
{
    const struct copy *c = &copies[box][number % COPIES];
    char path[PATH_ROOM];
    EXPECT(c->number == number, "no copy of the half of set %" PRIu64, number);
    snprintf(path, sizeof path, "stick/%s/%" PRIu64 ".half", PART[box].command, number);
    put_file(path, c->bytes, c->size);
}

static bool read_copy(struct copy *c, const char *path)
{
    FILE *file = fopen(path, "r");
    if (file == NULL)
        return false; /* its box has just removed it */
    c->size = fread(c->bytes, 1, DOOR_HALF_MOST, file);
    fclose(file);
    return true;
}

/* A number under which two different halves were sealed is a nonce that was used twice. */
static void take_down_half(enum part box, const char *file)
{
    char path[3 * PATH_ROOM], end[PATH_ROOM] = "";
    static struct copy c;
    if (sscanf(file, "%" SCNu64 "%100s", &c.number, end) != 2 || strcmp(end, ".half") != 0)
        return;
    snprintf(path, sizeof path, "stick/%s/%s", PART[box].command, file);
    if (!read_copy(&c, path))
        return;
    uint64_t hash = hash_of(c.bytes, c.size), *known = &set_of(c.number)->half[box];
    EXPECT(*known == 0 || *known == hash, "%s was dealt twice", path);
    *known = hash;
    left(DEALER, c.number);
    if (c.number >= copies[box][c.number % COPIES].number)
        copies[box][c.number % COPIES] = c;
}

static void take_down_halves(void)
{
    for (enum part box = CAMERA; box <= OFFICE; box++) {
        char folder[PATH_ROOM];
        snprintf(folder, sizeof folder, "stick/%s", PART[box].command);
        DIR *stick = opendir(folder);
        EXPECT(stick != NULL, "cannot look through %s", folder);
        for (struct dirent *entry; (entry = readdir(stick)) != NULL;)
            take_down_half(box, entry->d_name);
        closedir(stick);
    }
}

enum stock stock_of(enum part part)
{
    if (newest_ahead == 0 || newest_ahead <= lost[part])
        return NOTHING_AHEAD;
    const struct seen *s = &seen[newest_ahead];
    if (part == DEALER)
        return s->dealt ? NOTHING_AHEAD : READY_AHEAD;
    if (part == LOCK || s->sent[part][DOOR_MASKED_VECTOR] || durable_last(part) < newest_ahead)
        return NOTHING_AHEAD;
    const bool *sent = seen[check.number].sent[part]; /* none before the deal, under number 0 */
    bool is_under_way = sent[DOOR_MASKED_VECTOR] && !sent[DOOR_ANSWER];
    return is_under_way ? WAITING_AHEAD : READY_AHEAD;
}

void lose_stock(enum part part)
{
    lost[part] = newest_ahead;
}

/* A set dealt ahead is handed out unless the settings have changed, or another row's time has come.
   That a set that is handed out was dealt for the new ones shows in its answer. */
static void use_stock(uint64_t number)
{
    bool is_other_row = same_settings(&ahead_for, &settings) && ahead_row != row_now(&settings);
    if (number == newest_ahead)
        tally.taken++;
    else if (is_other_row)
        tally.other_row++;
    else
        tally.unused++;
    EXPECT(number == newest_ahead || is_other_row || !same_settings(&ahead_for, &settings),
        "set %" PRIu64 " was dealt ahead in vain", newest_ahead);
    EXPECT(number != newest_ahead || !is_other_row,
        "set %" PRIu64 " was dealt by a row whose time is over", newest_ahead);
    lose_stock(DEALER);
}

/* By the clock the dealer tells the row that the minute lies in. */
static void expect_row(const struct message *m)
{
    const uint32_t row = row_now(&settings);
    EXPECT((m->count == DEALT_BY_CLOCK) == settings.by_clock,
        "set %" PRIu64 " was announced with a row and has none, or without one and has one",
        m->number);
    EXPECT(!settings.by_clock
            || (m->words[3] == row && m->words[4] == settings.table.firsts[row - 1]
                && m->words[5] == settings.table.lasts[row - 1]),
        "set %" PRIu64 " was announced with row %" PRIu32 " (%" PRIu32 " to %" PRIu32 ") at minute %"
        PRIu32 ", which is row %" PRIu32 "'s", m->number, m->words[3], m->words[4], m->words[5],
        minute, row);
}

/* What the dealer says that it has dealt for. */
static struct settings settings_in(const struct message *m)
{
    struct settings s = {
        .terms = {.code = m->words[0], .n = m->words[1]}, .between = m->count == 4};
    if (s.between) {
        s.p = (int32_t)m->words[2];
        s.q = (int32_t)m->words[3];
    } else {
        s.threshold = (int32_t)m->words[2];
    }
    return s;
}

static void count_dealt(const struct settings *s)
{
    static bool was_between;
    tally.dealt++;
    tally.by_clock += settings.by_clock;
    tally.to_marks += s->between && !was_between;
    tally.to_threshold += !s->between && was_between;
    was_between = s->between;
}

static void observe_dealt(enum part from, const struct message *m)
{
    struct seen *s = set_of(m->number);
    const bool has_one = stock_of(DEALER) != NOTHING_AHEAD;
    EXPECT(from == DEALER, "the %s deals", PART[from].title);
    EXPECT(!s->dealt, "set %" PRIu64 " was dealt twice", m->number);
    take_down_halves();
    EXPECT(s->half[CAMERA] != 0 && s->half[OFFICE] != 0,
        "set %" PRIu64 " was announced without its halves", m->number);
    s->dealt = true;
    s->settings = settings_in(m);
    const struct settings expected = in_force(&settings);
    expect_row(m);
    EXPECT(same_settings(&s->settings, &expected),
        "set %" PRIu64 " was announced for other settings than those that the dealer has",
        m->number);
    count_dealt(&s->settings);
    if (has_one)
        use_stock(m->number);
}

/* The next set is on the sticks before it is announced, and announced before it is handed out. */
static void observe_ahead(enum part from, const struct message *m)
{
    struct seen *s = set_of(m->number);
    EXPECT(from == DEALER && m->words[0] <= OFFICE, "the %s announces a set", PART[from].title);
    EXPECT(!s->dealt, "set %" PRIu64 " was announced when it was handed out already", m->number);
    take_down_halves();
    EXPECT(s->half[CAMERA] != 0 && s->half[OFFICE] != 0,
        "set %" PRIu64 " was announced without its halves", m->number);
    if (m->number > newest_ahead)
        tally.ahead++;
    newest_ahead = m->number;
    ahead_for = settings;
    ahead_row = row_now(&settings);
}

/* The test knows the vector and sees it masked: no other set of this box may have had this mask.
   Short masks may be alike by chance. */
static void take_down_mask(enum part box, const struct message *m)
{
    uint32_t mask[16];
    if (m->count < 16)
        return;
    for (size_t i = 0; i < 16; i++)
        mask[i] = m->words[i] - (uint32_t)current[box][i];
    uint64_t hash = hash_of(mask, sizeof mask);
    for (uint64_t number = 1; number < NUMBERS; number++)
        EXPECT(seen[number].mask[box] != hash,
            "sets %" PRIu64 " and %" PRIu64 ": the %s used one mask twice", number, m->number,
            PART[box].title);
    seen[m->number].mask[box] = hash;
}

static void observe_box(enum part from, const struct message *m)
{
    struct seen *s = set_of(m->number);
    EXPECT((from == CAMERA || from == OFFICE) && m->sender == from, "the %s sends as %" PRIu32,
        PART[from].title, m->sender);
    EXPECT(!s->sent[from][m->kind], "set %" PRIu64 ": the %s sent a second %s", m->number,
        PART[from].title, kind_words(m->kind));
    s->sent[from][m->kind] = true;
    if (m->kind == DOOR_MASKED_VECTOR) {
        memcpy(s->used[from], current[from], sizeof s->used[from]);
        take_down_mask(from, m);
    }
}

static void count_verdict(const struct settings *s, int64_t found, bool open)
{
    tally.answered++;
    tally.by_code[s->terms.code].open += open;
    tally.by_code[s->terms.code].shut += !open;
    if (!s->between) {
        tally.by_code[s->terms.code].just += found == s->threshold;
        return;
    }
    tally.by_code[s->terms.code].between++;
    const int64_t places[PLACES] = {(int64_t)s->p - 1, s->p, s->q, (int64_t)s->q + 1};
    for (enum place place = BELOW_P; place < PLACES; place++)
        tally.by_code[s->terms.code].beside[place] += found == places[place];
}

static void observe_verdict(enum part from, const struct message *m)
{
    struct seen *s = set_of(m->number);
    EXPECT(from == LOCK, "the %s reports", PART[from].title);
    EXPECT(!s->reported, "set %" PRIu64 " was reported twice", m->number);
    EXPECT(s->sent[CAMERA][DOOR_ANSWER] && s->sent[OFFICE][DOOR_ANSWER],
        "set %" PRIu64 " was reported before both boxes answered", m->number);
    int64_t found = measure(s->settings.terms, s->used[CAMERA], s->used[OFFICE]);
    char words[SETTINGS_ROOM];
    settings_words(&s->settings, words);
    EXPECT(m->words[0] == has_to_open(&s->settings, s->used[CAMERA], s->used[OFFICE]),
        "set %" PRIu64 ": %s, measure %" PRId64 ", and the lock said %" PRIu32, m->number, words,
        found, m->words[0]);
    s->reported = true;
    count_verdict(&s->settings, found, m->words[0] == 1);
}

void observe(enum part from, const struct message *m)
{
    if (m->kind == HOST_HERE)
        return;
    tally.messages++;
    if (m->kind == HOST_FAILED) {
        tally.failed++;
        return;
    }
    left(from, m->number);
    if (m->kind == HOST_DEALT)
        observe_dealt(from, m);
    else if (m->kind == HOST_AHEAD)
        observe_ahead(from, m);
    else if (m->kind == HOST_VERDICT)
        observe_verdict(from, m);
    else if (m->kind <= DOOR_ANSWER)
        observe_box(from, m);
    else
        EXPECT(false, "the %s sent a message (%s)", PART[from].title, kind_words(m->kind));
}

void inspect_dead(enum part part)
{
    if (part == DEALER)
        take_down_halves();
    left(part, most_sent[part]);
}
