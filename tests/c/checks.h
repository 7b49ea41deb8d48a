/* Counted checks and buffers of an exact length, for the test programs of this folder. */
#ifndef CHECKS_H
#define CHECKS_H

#include <stddef.h>
#include <stdint.h>

/* Byte with which a buffer is filled before a call that must leave it alone. */
#define PATTERN 0xa5

/* Counts one check; one that does not hold is named on the error stream. */
void check(int holds, const char *what);

/* Prints how many checks passed. The program's status: 1 if one failed, else 0. */
int close_checks(void);

/* A buffer of exactly this length, filled with one byte. To be freed. */
uint8_t *filled(size_t length, int byte);

/* A buffer of exactly this length with these bytes. To be freed. */
uint8_t *copied(const uint8_t *bytes, size_t length);

/* The first bytes of a buffer that has so many, and zeros behind its end, in a buffer of exactly this
 * length. To be freed. */
uint8_t *resized(const uint8_t *bytes, size_t has, size_t length);

int all_are(const uint8_t *bytes, size_t length, int byte);

#endif
