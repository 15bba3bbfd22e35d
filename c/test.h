/* What the files of the test of door.h have in common. It stands in test.c. */
#ifndef DOOR_TEST_H
#define DOOR_TEST_H

#include "door.h"

#include <stdbool.h>

/* Counts what holds. What does not is told, and ends the program. */
#define EXPECT(what) expect((what), #what, __FILE__, __LINE__)
void expect(bool holds, const char *what, const char *file, int line);

/* A sequence of numbers with no meaning, always the same. */
uint32_t draw(void);
void draw_bytes(uint8_t *bytes, size_t size);

/* The calls on iris codes: test_iris.c. */
void iris_codes(void);

#endif
