/* Tables that no file has, made from that of the listing. */
#ifndef DAMAGES_H
#define DAMAGES_H

#include <stddef.h>
#include <stdint.h>

/* The listing's table with up to three numbers changed; places count from 0, twelve in a line. */
typedef struct {
    const char *what;
    size_t count;
    struct {
        size_t place;
        int value;
    } numbers[3];
} changed;

enum { DAMAGES = 15 };

extern const changed damages[DAMAGES];

/* A copy of the listing's table with this damage. To be freed. */
uint8_t *damaged(const uint8_t *table, const changed *damage);

void put_number(uint8_t *table, size_t place, int value);

#endif
