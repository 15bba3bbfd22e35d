#include "wire.h"

#include <errno.h>
#include <poll.h>
#include <signal.h>
#include <stdio.h>
#include <string.h>
#include <sys/socket.h>
#include <sys/time.h>
#include <sys/un.h>
#include <time.h>
#include <unistd.h>

/* How many words each kind of message may carry. */
struct content {
    uint32_t kind;
    size_t least, most;
    const char *words;
};

static const struct content CONTENTS[] = {
    {DOOR_MASKED_VECTOR, 1, DOOR_LENGTH_MOST, "masked vector"},
    {DOOR_WORD, 1, 1, "word"},
    {DOOR_ANSWER, 1, 1, "answer"},
    {HOST_DEAL, 0, 0, "deal"},
    {HOST_DEALT, 3, DEALT_BY_CLOCK, "dealt"},
    {HOST_BEGIN, 0, DOOR_LENGTH_MOST, "begin"},
    {HOST_VERDICT, 1, 1, "verdict"},
    {HOST_FAILED, 1, 2, "failed"},
    {HOST_ASK, 0, 0, "ask"},
    {HOST_HERE, 1, 1, "here"},
    {HOST_AHEAD, 1, 1, "ahead"},
};

static const struct content *content_of(uint32_t kind)
{
    for (size_t i = 0; i < sizeof CONTENTS / sizeof *CONTENTS; i++)
        if (CONTENTS[i].kind == kind)
            return &CONTENTS[i];
    return NULL;
}

const char *kind_words(uint32_t kind)
{
    const struct content *content = content_of(kind);
    return content == NULL ? "message of no known kind" : content->words;
}

enum part destination(enum part from, const struct message *message)
{
    switch (message->kind) {
    case DOOR_ANSWER:
        return LOCK;
    case DOOR_MASKED_VECTOR:
    case DOOR_WORD:
        return from == CAMERA ? OFFICE : CAMERA;
    case HOST_AHEAD:
        return message->words[0] == OFFICE ? OFFICE : CAMERA;
    default:
        return OPERATOR;
    }
}

static void put_little(uint8_t *bytes, size_t size, uint64_t number)
{
    for (size_t i = 0; i < size; i++)
        bytes[i] = (uint8_t)(number >> 8 * i);
}

uint64_t get_little(const uint8_t *bytes, size_t size)
{
    uint64_t number = 0;
    for (size_t i = 0; i < size; i++)
        number |= (uint64_t)bytes[i] << 8 * i;
    return number;
}

size_t encode(const struct message *message, uint8_t bytes[DATAGRAM_MOST])
{
    bytes[0] = (uint8_t)message->kind;
    bytes[1] = (uint8_t)message->sender;
    memcpy(bytes + 2, message->name, DOOR_NAME);
    put_little(bytes + 18, 8, message->number);
    for (size_t i = 0; i < message->count; i++)
        put_little(bytes + HEADER_SIZE + 4 * i, 4, message->words[i]);
    return HEADER_SIZE + 4 * message->count;
}

/* A set is dealt by a threshold, by two marks or by a row: no dealer sends one word less than the row
   has. */
static bool has_its_size(const struct content *content, size_t count)
{
    bool is_no_rule = content->kind == HOST_DEALT && count == DEALT_BY_CLOCK - 1;
    return count >= content->least && count <= content->most && !is_no_rule;
}

const char *decode(const uint8_t *bytes, size_t size, struct message *message)
{
    if (size < HEADER_SIZE)
        return "shorter than a message's head";
    if (size > DATAGRAM_MOST || (size - HEADER_SIZE) % 4 != 0)
        return "of a size that no message has";
    memset(message, 0, sizeof *message);
    message->kind = bytes[0];
    message->sender = bytes[1];
    memcpy(message->name, bytes + 2, DOOR_NAME);
    message->number = get_little(bytes + 18, 8);
    message->count = (size - HEADER_SIZE) / 4;
    for (size_t i = 0; i < message->count; i++)
        message->words[i] = (uint32_t)get_little(bytes + HEADER_SIZE + 4 * i, 4);
    const struct content *content = content_of(message->kind);
    if (content == NULL)
        return "of a kind that no part sends";
    if (!has_its_size(content, message->count))
        return "of a size that its kind does not have";
    return NULL;
}

static struct sockaddr_un address_of(const char *socket_name)
{
    struct sockaddr_un address = {.sun_family = AF_UNIX};
    snprintf(address.sun_path, sizeof address.sun_path, "%s", socket_name);
    return address;
}

/* A receiver that does not empty its queue must not stop its senders for good. */
static bool give_up_sending_after_a_second(int file)
{
    const struct timeval second = {.tv_sec = 1};
    return setsockopt(file, SOL_SOCKET, SO_SNDTIMEO, &second, sizeof second) == 0;
}

/* The claim on the part's folder is this process's, so a socket file that is there is a dead
   process's. */
bool open_link(struct link *link, enum part self, const char *via)
{
    const char *name = PART[self].socket;
    const struct sockaddr_un address = address_of(name);
    *link = (struct link){.self = self, .via = via};
    link->file = socket(AF_UNIX, SOCK_DGRAM | SOCK_CLOEXEC, 0);
    if (link->file < 0) {
        say_trouble("cannot make the socket", name);
        return false;
    }
    if ((unlink(name) == 0 || errno == ENOENT) && give_up_sending_after_a_second(link->file)
        && bind(link->file, (const struct sockaddr *)&address, sizeof address) == 0)
        return true;
    say_trouble("cannot bind the socket", name);
    if (close(link->file) != 0)
        say_trouble("cannot close the socket", name);
    return false;
}

void close_link(struct link *link)
{
    const char *name = PART[link->self].socket;
    if (unlink(name) != 0)
        say_trouble("cannot remove", name);
    if (close(link->file) != 0)
        say_trouble("cannot close", name);
}

bool send_bytes(const struct link *link, const char *socket, const uint8_t *bytes, size_t size)
{
    const struct sockaddr_un address = address_of(socket);
    const struct sockaddr *to = (const struct sockaddr *)&address;
    ssize_t sent;
    do
        sent = sendto(link->file, bytes, size, 0, to, sizeof address);
    while (sent < 0 && errno == EINTR);
    return sent == (ssize_t)size;
}

bool send_to(const struct link *link, enum part to, const struct message *message)
{
    uint8_t bytes[DATAGRAM_MOST];
    size_t size = encode(message, bytes);
    if (send_bytes(link, link->via != NULL ? link->via : PART[to].socket, bytes, size))
        return true;
    if (errno == ECONNREFUSED || errno == ENOENT)
        say("the %s is not running: a message to it (%s) is lost", PART[to].title,
            kind_words(message->kind));
    else
        say("a message to the %s (%s) is lost: %s", PART[to].title, kind_words(message->kind),
            strerror(errno));
    return false;
}

int64_t milliseconds_now(void)
{
    struct timespec now;
    clock_gettime(CLOCK_MONOTONIC, &now);
    return (int64_t)now.tv_sec * 1000 + now.tv_nsec / 1000000;
}

static volatile sig_atomic_t stopped;

static void stop(int signal_number)
{
    (void)signal_number;
    stopped = 1;
}

bool stop_on_signals(void)
{
    struct sigaction action = {.sa_handler = stop};
    sigset_t signals;
    sigemptyset(&signals);
    sigaddset(&signals, SIGTERM);
    sigaddset(&signals, SIGINT);
    action.sa_mask = signals;
    if (sigprocmask(SIG_BLOCK, &signals, NULL) == 0 && sigaction(SIGTERM, &action, NULL) == 0
        && sigaction(SIGINT, &action, NULL) == 0)
        return true;
    say_trouble("cannot take", "signals");
    return false;
}

/* Waits until something can be read. The signals are let through during the wait alone, so that
   none is missed between a look at `stopped` and the wait. */
static enum receipt wait_for_datagram(const struct link *link, int64_t deadline)
{
    sigset_t mask;
    if (sigprocmask(SIG_SETMASK, NULL, &mask) != 0)
        return STOPPED;
    sigdelset(&mask, SIGTERM);
    sigdelset(&mask, SIGINT);
    struct pollfd readable = {.fd = link->file, .events = POLLIN};
    while (!stopped) {
        int64_t left = deadline < 0 ? 0 : deadline - milliseconds_now();
        if (left < 0)
            left = 0;
        const struct timespec span = {.tv_sec = left / 1000, .tv_nsec = left % 1000 * 1000000};
        int ready = ppoll(&readable, 1, deadline < 0 ? NULL : &span, &mask);
        if (ready > 0)
            return RECEIVED;
        if (ready == 0)
            return TIMED_OUT;
        if (errno != EINTR) {
            say_trouble("cannot wait for", "a message");
            return STOPPED;
        }
    }
    return STOPPED;
}

static enum part part_at(const struct sockaddr_un *address, socklen_t size)
{
    enum part part = CAMERA;
    if (size <= offsetof(struct sockaddr_un, sun_path))
        return PARTS;
    while (part < PARTS && strcmp(PART[part].socket, address->sun_path) != 0)
        part++;
    return part;
}

/* Reads the datagram that is there and says whether it is a message; if not, it is dropped. */
static bool read_message(const struct link *link, struct message *message, enum part *from)
{
    uint8_t bytes[DATAGRAM_MOST];
    struct sockaddr_un address = {0};
    socklen_t room = sizeof address - 1; /* leaves a zero behind the path */
    /* With MSG_TRUNC the size is the datagram's, also where it did not fit. */
    ssize_t size = recvfrom(link->file, bytes, sizeof bytes, MSG_TRUNC | MSG_DONTWAIT,
        (struct sockaddr *)&address, &room);
    if (size < 0) {
        say_trouble("cannot read from", PART[link->self].socket);
        return false;
    }
    const char *why = decode(bytes, (size_t)size, message);
    explicit_bzero(bytes, sizeof bytes); /* a begin has the camera's vector */
    if (why != NULL)
        say("a datagram of %zd bytes is %s: dropped", size, why);
    else if (from != NULL)
        *from = part_at(&address, room);
    return why == NULL;
}

enum receipt receive(
    const struct link *link, int milliseconds, struct message *message, enum part *from)
{
    int64_t deadline = milliseconds < 0 ? -1 : milliseconds_now() + milliseconds;
    enum receipt receipt;
    do
        receipt = wait_for_datagram(link, deadline);
    while (receipt == RECEIVED && !read_message(link, message, from));
    return receipt;
}
