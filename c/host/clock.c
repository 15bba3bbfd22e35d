#include "host.h"

#include <time.h>

#define HOUR 60 /* minutes */

/* Whether TZ or the machine's time zone has changed is looked at each time: localtime_r need not
   do so by itself. */
bool minute_now(uint32_t *minute)
{
    struct tm local;
    const time_t now = time(NULL);
    tzset();
    if (now == (time_t)-1 || localtime_r(&now, &local) == NULL) {
        say_trouble("cannot tell", "the local time");
        return false;
    }
    *minute = (uint32_t)(HOUR * local.tm_hour + local.tm_min);
    return true;
}
