/*
 * Messages between the parts, each one datagram on a Unix socket in the state folder.
 *
 *     at  0   kind, 1 byte
 *     at  1   sender, 1 byte: the part's number, for a box its party
 *     at  2   the door's name, 16 bytes, zero after its end
 *     at 18   set number, 8 bytes, little-endian
 *     at 26   content: words of 4 bytes, little-endian
 *
 * Only the size of a datagram is judged here. Kind, sender, name, number and the length of a
 * vector go to the proved calls as they came.
 */
#ifndef HOST_WIRE_H
#define HOST_WIRE_H

#include "../door.h"
#include "parts.h"

#include <stdbool.h>
#include <stddef.h>
#include <stdint.h>

/* Kinds beside those of door.h: between the operator, the dealer and the other parts. */
enum host_kind {
    HOST_DEAL = 16,    /* to the dealer: deal a set */
    HOST_DEALT = 17,   /* its answer: the halves are on the sticks; code, length, and the
                          threshold or both marks; by the clock, behind the threshold, the row's
                          place, counted from 1, its first minute and its last one */
    HOST_BEGIN = 18,   /* to a box: begin with this set; to the camera box with its vector */
    HOST_VERDICT = 19, /* from the lock: 1 open, 0 stay shut */
    HOST_FAILED = 20,  /* to the operator: this set came to nothing; the refusal, or 0, and from
                          the dealer with refusals 14 to 16 the place, with 8 by a table the row */
    HOST_ASK = 21,     /* to any part: are you there */
    HOST_HERE = 22,    /* its answer: its last number; 1 if it has the next set ready, else 0 */
    HOST_AHEAD = 23    /* from the dealer to a box: this set is dealt ahead; the box's party */
};

struct message {
    uint32_t kind;
    uint32_t sender;
    uint8_t name[DOOR_NAME];
    uint64_t number;
    uint32_t words[DOOR_LENGTH_MOST];
    size_t count; /* of words */
};

#define DEALT_BY_CLOCK 6 /* words of such a HOST_DEALT */

#define HEADER_SIZE 26
#define DATAGRAM_MOST (HEADER_SIZE + 4 * DOOR_LENGTH_MOST)

const char *kind_words(uint32_t kind);

/* To whom a part's message goes: what one needs who hands messages on. */
enum part destination(enum part from, const struct message *message);

/* A number of so many bytes, little-endian. */
uint64_t get_little(const uint8_t *bytes, size_t size);

size_t encode(const struct message *message, uint8_t bytes[DATAGRAM_MOST]);

/* NULL, or in words why these bytes are no message. */
const char *decode(const uint8_t *bytes, size_t size, struct message *message);

/* A part's socket. Where `via` is set, all that it sends goes there, to be handed on. */
struct link {
    int file;
    enum part self;
    const char *via;
};

bool open_link(struct link *link, enum part self, const char *via);
void close_link(struct link *link);

/* A message that cannot be delivered is reported and lost, as on any network. */
bool send_to(const struct link *link, enum part to, const struct message *message);
bool send_bytes(const struct link *link, const char *socket, const uint8_t *bytes, size_t size);

enum receipt { RECEIVED, TIMED_OUT, STOPPED };

/* Waits for a message, at most that long (for ever if negative), and drops what is none. `from`
   may be null; else it gets the part whose socket the datagram came from, PARTS if from none. */
enum receipt receive(
    const struct link *link, int milliseconds, struct message *message, enum part *from);

int64_t milliseconds_now(void);

/* From here on SIGTERM and SIGINT are taken in `receive` alone, which then answers STOPPED. */
bool stop_on_signals(void);

#endif
