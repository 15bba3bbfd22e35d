/*
 * The clock of the host under test, in place of time(): the seconds since 1970 that the test has
 * written to the file `clock` in the state folder. What the host makes of them, local time and the
 * minute of the day, is its own.
 */
#include <inttypes.h>
#include <stdio.h>
#include <stdlib.h>
#include <time.h>

/* The linker's name (--wrap) for the function in the place of the C library's. */
time_t __wrap_time(time_t *at);

time_t __wrap_time(time_t *at)
{
    intmax_t seconds;
    FILE *file = fopen("clock", "r");
    if (file == NULL || fscanf(file, "%" SCNdMAX, &seconds) != 1 || fclose(file) != 0)
        abort();
    if (at != NULL)
        *at = (time_t)seconds;
    return (time_t)seconds;
}
