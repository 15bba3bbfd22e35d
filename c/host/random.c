#include "random.h"

#include "parts.h"

#include <errno.h>
#include <sys/random.h>

/* getrandom waits until the source is seeded; with no flags it may be interrupted, no more. */
bool draw_random(uint8_t *bytes, size_t size)
{
    while (size > 0) {
        ssize_t got = getrandom(bytes, size, 0);
        if (got >= 0) {
            bytes += got;
            size -= (size_t)got;
        } else if (errno != EINTR) {
            say_trouble("cannot draw from", "the system's random source");
            return false;
        }
    }
    return true;
}
