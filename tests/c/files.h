/* Procedure files for the test programs of this folder. */
#ifndef FILES_H
#define FILES_H

#include "read_file.h"

/* The names of the examples that have lines, up to a null pointer. */
extern const char *const example_names[];

/* A file without bytes, and the file of three lines that it loads as, by their names too. */
#define NO_BYTES "empty_slot.txt"
#define THREE_LINES "first/1.txt"

/* The file of this name, from the folder of the examples. The program ends if it cannot be read. To
 * be freed. */
whole_file example(const char *folder, const char *name);

/* A file with every count at its limit: 865 lines. To be freed. */
whole_file largest_file(void);

/* A file of 191 choices in a row, each with two branches that lead to the next node. To be freed. */
whole_file ladder_file(void);

#endif
