#include "host.h"
#include "random.h"

#include <inttypes.h>
#include <stdio.h>
#include <string.h>

/* A new door: its name, the two boxes' keys and what is dealt for. */
struct plan {
    const char *name;
    uint8_t keys[2][DOOR_KEY];
    struct settings settings;
    const char *table_file; /* NULL where there is no table */
};

/* Asks the proved calls whether a dealer with this name and these keys starts, and whether one deals
   with these settings. */
static bool would_deal(const struct plan *plan)
{
    struct door_dealer_answer a = door_start_dealer((const uint8_t *)plan->name,
        strlen(plan->name), plan->keys[CAMERA], DOOR_KEY, plan->keys[OFFICE], DOOR_KEY, 0);
    bool accepted = a.why == DOOR_ACCEPTED;
    if (!accepted)
        say("the dealer's start was refused (%" PRIu32 "): %s; nothing was set up", a.why,
            refusal_words(a.why));
    accepted = accepted
        && trial_deals(&a.dealer, &plan->settings, plan->table_file, "nothing was set up");
    explicit_bzero(&a, sizeof a);
    return accepted;
}

/* The last number is written last: without it no part starts, so a set-up that was cut short is
   never taken for a whole one. */
static bool set_up_part(enum part part, const struct plan *plan)
{
    const char *folder = PART[part].command;
    if (!make_folder(folder) || !write_durably(folder, "name", plan->name, strlen(plan->name)))
        return false;
    if (part == DEALER
        && !(write_settings(&plan->settings)
            && write_durably(folder, "camera.key", plan->keys[CAMERA], DOOR_KEY)
            && write_durably(folder, "office.key", plan->keys[OFFICE], DOOR_KEY)))
        return false;
    if ((part == CAMERA || part == OFFICE)
        && !write_durably(folder, "key", plan->keys[part], DOOR_KEY))
        return false;
    return write_last(folder, 0);
}

static bool set_up_all(const char *folder, const struct plan *plan)
{
    return make_folder(folder) && go_to(folder) && make_folder("stick")
        && make_folder("stick/camera") && make_folder("stick/office") && force_folder("stick")
        && set_up_part(DEALER, plan) && set_up_part(CAMERA, plan) && set_up_part(OFFICE, plan)
        && set_up_part(LOCK, plan) && force_folder(".") && force_folder("..");
}

static bool plan_settings(struct plan *plan, const char *settings_text)
{
    if (plan->table_file == NULL) {
        if (parse_settings(settings_text, &plan->settings))
            return true;
        say("a set-up needs three or four whole numbers: measure code, length, and a threshold or "
            "two marks; or code, length, the word " TABLE_WORD " and its file; nothing was set up");
    } else if (parse_table_head(settings_text, &plan->settings) == NULL) {
        say("a set-up with a table needs two whole numbers before it: measure code and length; "
            "nothing was set up");
    } else {
        if (read_table(plan->table_file, &plan->settings.table))
            return true;
        say("the table cannot be read; nothing was set up");
    }
    return false;
}

/* The folder must be new: an old one has numbers that must not begin at 0 again. */
int set_up(
    const char *folder, const char *name, const char *settings_text, const char *table_file)
{
    struct plan plan = {.name = name, .table_file = table_file};
    if (!plan_settings(&plan, settings_text))
        return EXIT_TROUBLE;
    bool done = draw_random(plan.keys[CAMERA], DOOR_KEY) && draw_random(plan.keys[OFFICE], DOOR_KEY)
        && would_deal(&plan) && set_up_all(folder, &plan);
    explicit_bzero(&plan, sizeof plan);
    return done ? EXIT_OPEN : EXIT_TROUBLE;
}
