#include "words.h"

#include "checks.h"
#include "pithread.h"

enum { RIGHTS = PITHREAD_SEATS * PITHREAD_SEAT_NUMBERS };

_Static_assert(PITHREAD_RIGHTS_BYTES == 4 * RIGHTS, "a number of a list of rights has four bytes");
_Static_assert(PITHREAD_BENCH_RIGHT == PITHREAD_PORTS, "the last number of a seat follows those for ports");
_Static_assert(PITHREAD_SEAT_NUMBERS == PITHREAD_BENCH_RIGHT + 1, "a seat ends with its last number");

int32_t word_at(const uint8_t *bytes, size_t place) {
    uint32_t bits = 0;
    for (size_t byte = 4; byte > 0; byte--) {
        bits = bits << 8 | bytes[4 * place + byte - 1];
    }
    return (int32_t)bits;
}

void put_word(uint8_t *bytes, size_t place, int32_t value) {
    for (size_t byte = 0; byte < 4; byte++) {
        bytes[4 * place + byte] = (uint8_t)((uint32_t)value >> 8 * byte);
    }
}

uint8_t *same_rights(int32_t number) {
    uint8_t *rights = filled(PITHREAD_RIGHTS_BYTES, 0);
    for (size_t place = 0; place < RIGHTS; place++) {
        put_word(rights, place, number);
    }
    return rights;
}

size_t place_of_right(uint32_t seat, uint32_t number) {
    return PITHREAD_SEAT_NUMBERS * (size_t)seat + number;
}
