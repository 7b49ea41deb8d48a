/* Procedure files written as arrays of lines, for the test programs of this folder. */
#ifndef LINES_H
#define LINES_H

#include <stddef.h>
#include <stdint.h>

#define FIELDS 12

/* The twelve fields of a line. Those that an initializer leaves out are 0. */
typedef int line[FIELDS];

/* Lines of the kinds 2 to 6. */
#define TYPE(carried) {2, carried}
#define DEFINITION(parameters, slots, nodes) {3, parameters, slots, nodes}
#define SLOT(type) {4, type}
#define END {5, 0}
#define CHOICE(branches) {5, 1, branches}
/* CALL(definition, argument..) */
#define CALL(...) {5, 2, __VA_ARGS__}
/* BRANCH(guard, action, next) and BRANCH(guard, SPAWN, next, child) */
#define BRANCH(...) {6, __VA_ARGS__}

/* Guards: three fields. The second operand of the first two is a constant. */
#define ALWAYS 0, 0, 0
#define IS(slot, constant) 1, slot, constant
#define BELOW(slot, constant) 2, slot, constant
#define SAME(first, second) 3, first, second
#define LESS(first, second) 4, first, second

/* Actions: four fields. */
#define TAU 0, 0, 0, 0
#define SEND(channel, value) 1, channel, value, 0
#define RECEIVE(channel, into) 2, channel, into, 0
#define NEW(into) 3, into, 0, 0
#define SPAWN 4, 0, 0, 0
#define SET(into, constant) 5, into, constant, 0
#define PLUS(into, first, second) 6, into, first, second
#define MINUS(into, first, second) 7, into, first, second

/* The same line, four times. */
#define FOUR(same) same, same, same, same

/* Writes one line, PITHREAD_LINE_BYTES bytes. */
void print_line(uint8_t *to, const line fields);

/* The table of a file, which must be right. To be freed. */
uint8_t *table_of_file(const char *name, const uint8_t *file, size_t length);

/* The table of the file with these lines. Its header is not among them: it counts them, and
 * definition 0 has one parameter for each port. The file must be right. To be freed. */
uint8_t *table_of(const char *name, const line *lines, size_t count);

#endif
