#include "damages.h"

#include "checks.h"
#include "pithread.h"

const changed damages[DAMAGES] = {
    {"the header's kind", 1, {{0, 2}}},
    {"a type too many in the header", 1, {{1, 2}}},
    {"counts far too large", 3, {{3, 32767}, {4, 32767}, {5, 32767}}},
    {"counts below 0", 3, {{3, -32768}, {4, -32768}, {5, -32768}}},
    {"a type out of range", 1, {{12 + 1, 2}}},
    {"a negative count of parameters", 1, {{2 * 12 + 1, -1}}},
    {"a port without a parameter", 1, {{6, 1}}},
    {"a number set in a channel's slot", 1, {{13 * 12 + 5, 0}}},
    {"a slot sent that is not written", 3, {{13 * 12 + 4, 0}, {13 * 12 + 5, 0}, {13 * 12 + 6, 0}}},
    {"a node out of reach", 1, {{12 * 12 + 9, 5}}},
    {"a branch that leads back", 1, {{13 * 12 + 8, 2}}},
    {"an unused field", 1, {{15 * 12 + 11, 1}}},
    {"a number behind the last line", 1, {{16 * 12, 1}}},
    {"the last number of the table", 1, {{PITHREAD_TABLE_BYTES / 2 - 1, 1}}},
    {"the last byte of the table", 1, {{PITHREAD_TABLE_BYTES / 2 - 1, 256}}},
};

uint8_t *damaged(const uint8_t *table, const changed *damage) {
    uint8_t *other = copied(table, PITHREAD_TABLE_BYTES);
    for (size_t place = 0; place < damage->count; place++) {
        put_number(other, damage->numbers[place].place, damage->numbers[place].value);
    }
    return other;
}

void put_number(uint8_t *table, size_t place, int value) {
    table[2 * place] = (uint8_t)(unsigned)value;
    table[2 * place + 1] = (uint8_t)((unsigned)value >> 8);
}
