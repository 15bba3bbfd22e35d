/* The calls of one archive, each ready to be made over and over. */
#include <stddef.h>

struct call {
    const char *name;
    void (*make)(void);
};

struct calls {
    const struct call *list; /* ends with a call that has no name */
    size_t size;             /* bytes at the beginning of the room that the calls work on */
};

/* Prepares the calls for vectors of length n in this room. Of two archives in one program the
   functions are calls_before and calls_now: bench/against renames them. */
struct calls calls_for(size_t n, void *room, size_t room_size);
struct calls calls_before(size_t n, void *room, size_t room_size);
struct calls calls_now(size_t n, void *room, size_t room_size);
