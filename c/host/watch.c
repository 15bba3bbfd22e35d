#include "host.h"

#include <inttypes.h>
#include <stdio.h>

#define SHOWN 12 /* bytes of content that a line shows */

/* What someone sees who listens on the wire: all of it, and nothing but random numbers. */
static void show(
    enum part from, enum part to, const struct message *message, const uint8_t *bytes, size_t size)
{
    printf("  %-10s -> %-10s  %-13s  set %" PRIu64 "  %4zu bytes ", PART[from].title,
        PART[to].title, kind_words(message->kind), message->number, size);
    for (size_t i = HEADER_SIZE; i < size && i < HEADER_SIZE + SHOWN; i++)
        printf(" %02x", bytes[i]);
    printf("%s\n", size > HEADER_SIZE + SHOWN ? " .." : "");
    fflush(stdout);
}

int run_watch(void)
{
    struct link link;
    struct message message;
    enum part from;
    speak_as(WATCH);
    if (!claim("watch.running") || !open_link(&link, WATCH, NULL))
        return EXIT_TROUBLE;
    while (receive(&link, -1, &message, &from) == RECEIVED) {
        if (from == PARTS) {
            say("a message from no part's socket is dropped");
            continue;
        }
        uint8_t bytes[DATAGRAM_MOST];
        size_t size = encode(&message, bytes);
        enum part to = destination(from, &message);
        if (message.kind != HOST_HERE)
            show(from, to, &message, bytes, size);
        send_to(&link, to, &message);
    }
    close_link(&link);
    return EXIT_OPEN;
}
