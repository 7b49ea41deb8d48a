/* Words of 32 bits, the lowest byte first: those of states and those of lists of rights. */
#ifndef WORDS_H
#define WORDS_H

#include <stddef.h>
#include <stdint.h>

int32_t word_at(const uint8_t *bytes, size_t place);
void put_word(uint8_t *bytes, size_t place, int32_t value);

/* A list of rights in which all numbers are the same. To be freed. */
uint8_t *same_rights(int32_t number);

/* The place of a seat's number in a list of rights. */
size_t place_of_right(uint32_t seat, uint32_t number);

#endif
