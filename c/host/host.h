/*
 * The commands of door-host. Each runs in the state folder, or goes there, and answers the exit
 * status of the process.
 */
#ifndef HOST_H
#define HOST_H

#include "files.h"
#include "wire.h"

enum exit_status {
    EXIT_OPEN = 0, /* also of every command that is no check and went well */
    EXIT_SHUT = 1, /* also of a trial: no box would take the half */
    EXIT_TROUBLE = 2
};

/* What a vector's file has: numbers as text, or an iris code's 64 bytes in one of two orders. */
enum vector_form { AS_TEXT, IRIS_BY_ANGLES, IRIS_BY_RINGS };

/* Whatever order an iris code's file has, its vector is in ours, ring by ring. */
bool read_vector_as(enum vector_form form, const char *path, struct vector *vector);

/* Whether a door with these settings takes iris codes; says why not. */
bool takes_iris(const struct settings *settings);

/* The settings' text ends in 'table' where there is a table's file, else that is NULL. */
int set_up(
    const char *folder, const char *name, const char *settings_text, const char *table_file);
int run_dealer(const char *via, bool deals_ahead);
int run_box(enum part self, const char *via);
int run_lock(const char *via);
int run_check(const struct vector *vector);
int run_enrol(const char *folder, const char *file, enum vector_form form);
int run_status(void);
int run_watch(void);
int run_upgrade(void);
int run_trial(const char *folder, const char *half_file);

/* How many sets a check may take: a box that was switched off has lost the set that it had loaded
   ahead, and the check begins again with the next one. */
#define SETS_FOR_A_CHECK 3

/* What the dealer, the boxes and the lock have in common: a message is handled to its end before
   the next is read, and HOST_ASK is answered with the last number. */
struct served {
    void *state;
    const uint64_t *last;
    void (*handle)(void *state, const struct link *link, const struct message *message);
    bool (*is_ready)(const void *state); /* has it the next set ready; NULL: it never has */
};

int serve(enum part self, const char *via, const struct served *served);

bool claim_part(enum part part);
void say_newer(const char *folder);

/* Claims the part's folder for this process, which is that part from here on. */
bool enter_part(enum part self);

/* Reads a part's name and last number, and does no more; false as well where its folder is of
   another version. */
bool read_part(enum part part, struct door_name *name, uint64_t *last);

bool start_part(enum part self, struct door_name *name, uint64_t *last); /* both of these */

/* The state that a box starts with, from its files, which are only read: no set is open. */
bool read_box(enum part box, struct door_party *party);

/* Both halves of one set, by the box. */
struct halves {
    uint8_t half[2][DOOR_HALF_MOST];
};

/* Asks the proved call for a set with these settings, by the clock at this minute of the day. The
   place is 0 with a threshold and with marks. */
struct door_clock_answer deal_for(const struct door_dealer *dealer, uint64_t number,
    const uint8_t seed[DOOR_KEY], const struct settings *s, uint32_t minute, struct halves *h);

/* Why the proved call refused a deal with these settings, at this minute, in words; the file is where
   they were read. */
void deal_trouble(const struct settings *s, const char *file, uint32_t why, uint32_t place,
    uint32_t minute, char words[TROUBLE_ROOM]);

/* Whether a dealer like this one would deal with these settings, at each row of a table. Says of
   each trial that is refused why, and what was done; the file is where the table was read. */
bool trial_deals(const struct door_dealer *like, const struct settings *s, const char *file,
    const char *done);

/* The minute of the day by this machine's local time. */
bool minute_now(uint32_t *minute);

/* Tells the operator that this set came to nothing here, and with refusals 14 to 16, and with 8 by a
   table's row, the place. */
void send_failed(const struct link *link, uint64_t number, uint32_t why);
void send_failed_at(const struct link *link, uint64_t number, uint32_t why, uint32_t place);

#endif
