/* Keys and seeds come from the system's random source and from nowhere else. */
#ifndef HOST_RANDOM_H
#define HOST_RANDOM_H

#include <stdbool.h>
#include <stddef.h>
#include <stdint.h>

bool draw_random(uint8_t *bytes, size_t size);

#endif
