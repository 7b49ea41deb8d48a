/*
 * Tests of the C interface: load FOLDER, the folder of the examples.
 *
 * Each buffer handed over is allocated with exactly its length, so that a memory checker sees a
 * read or a write outside it. Prints how many checks passed; the status is 1 if one failed.
 */
#include <string.h>

#include "checks.h"
#include "files.h"
#include "lines.h"
#include "pithread.h"

/* The answer is the one expected, and a refused load leaves the table as it was. */
static void expect(const uint8_t *file, size_t length, size_t table_length, pithread_loaded wanted,
                   const char *what) {
    uint8_t *table = filled(table_length, PATTERN);
    pithread_loaded loaded = pithread_load(file, length, table, table_length);
    check(loaded.refusal == wanted.refusal && loaded.line == wanted.line, what);
    if (loaded.refusal == PITHREAD_DONE) {
        check(table[0] == 1 && table[1] == 0, what);
    } else {
        check(all_are(table, table_length, PATTERN), what);
    }
    free(table);
}

static void expect_refusal(const uint8_t *file, size_t length, int refusal, int line, const char *what) {
    pithread_loaded wanted = {refusal, line};
    expect(file, length, PITHREAD_TABLE_BYTES, wanted, what);
}

/* Loads into table buffers of the right length and of wrong ones. */
static void expect_accepted(whole_file file, const char *what) {
    static const size_t wrong_lengths[] = {0, 1, PITHREAD_TABLE_BYTES - 1, PITHREAD_TABLE_BYTES + 1};
    pithread_loaded done = {PITHREAD_DONE, 0};
    pithread_loaded wrong_length = {PITHREAD_BUFFER_LENGTH, 0};
    expect(file.bytes, file.length, PITHREAD_TABLE_BYTES, done, what);
    for (size_t place = 0; place < sizeof wrong_lengths / sizeof *wrong_lengths; place++) {
        expect(file.bytes, file.length, wrong_lengths[place], wrong_length, what);
    }
}

static void check_examples(const char *folder) {
    for (const char *const *name = example_names; *name != NULL; name++) {
        whole_file file = example(folder, *name);
        expect_accepted(file, *name);
        free(file.bytes);
    }
}

/* The table of a file: each field, as two bytes. */
static void check_table(whole_file file) {
    uint8_t *table = filled(PITHREAD_TABLE_BYTES, PATTERN);
    pithread_load(file.bytes, file.length, table, PITHREAD_TABLE_BYTES);
    size_t fields = file.length / PITHREAD_LINE_BYTES * 12;
    size_t same = 0;
    for (size_t field = 0; field < fields; field++) {
        char text[7] = {0};
        memcpy(text, file.bytes + field / 12 * PITHREAD_LINE_BYTES + field % 12 * 6, 6);
        int16_t number = (int16_t)(uint16_t)(table[2 * field] | table[2 * field + 1] << 8);
        same += number == strtol(text, NULL, 10);
    }
    check(same == fields, "the table has the numbers of the file");
    check(all_are(table + 2 * fields, PITHREAD_TABLE_BYTES - 2 * fields, 0), "the rest of the table is 0");
    free(table);
}

/* A file without bytes has the table of one with three lines. */
static void check_no_bytes(const char *folder) {
    whole_file none = example(folder, NO_BYTES);
    whole_file three = example(folder, THREE_LINES);
    check(none.length == 0 && three.length == 3 * PITHREAD_LINE_BYTES, "no bytes and three lines");
    expect_accepted(none, "no bytes");
    check_table(three);
    uint8_t *table = table_of_file("no bytes", none.bytes, none.length);
    uint8_t *same = table_of_file("three lines", three.bytes, three.length);
    check(memcmp(table, same, PITHREAD_TABLE_BYTES) == 0, "no bytes have the table of three lines");
    free(table);
    free(same);
    free(none.bytes);
    free(three.bytes);
}

/* One field of the listing with other characters: the set's constant, on line 14. */
static void check_field(whole_file file, const char *characters, int refusal, int line) {
    uint8_t *bytes = copied(file.bytes, file.length);
    memcpy(bytes + 13 * PITHREAD_LINE_BYTES + 6 * 6, characters, 6);
    expect_refusal(bytes, file.length, refusal, line, characters);
    free(bytes);
}

/* The first bytes of the listing, in a buffer of just that length. */
static void check_part(whole_file file, size_t length, int refusal, int line) {
    uint8_t *bytes = copied(file.bytes, length);
    expect_refusal(bytes, length, refusal, line, "part of a file");
    free(bytes);
}

static void check_filled(size_t length, int byte, int refusal, int line) {
    uint8_t *bytes = filled(length, byte);
    expect_refusal(bytes, length, refusal, line, "a buffer of one byte repeated");
    free(bytes);
}

static void check_listing(const char *folder) {
    whole_file file = example(folder, "listing.txt");
    check_table(file);
    check_field(file, "-32768", PITHREAD_DONE, 0);
    check_field(file, "-32769", PITHREAD_FIELD, 14);
    check_field(file, "    07", PITHREAD_FIELD, 14);
    check_part(file, 0, PITHREAD_DONE, 0);
    check_part(file, 1, PITHREAD_FILE_LENGTH, 0);
    check_part(file, 72, PITHREAD_FILE_LENGTH, 0);
    check_part(file, 73, PITHREAD_COUNTS, 1);
    check_part(file, 74, PITHREAD_FILE_LENGTH, 0);
    check_part(file, file.length - 1, PITHREAD_FILE_LENGTH, 0);
    free(file.bytes);
}

/* A file with every count at its limit, and the same with one line more. */
static void check_largest(void) {
    whole_file file = largest_file();
    check(file.length == PITHREAD_MOST_FILE_BYTES, "the largest file has 865 lines");
    expect_accepted(file, "the largest file");
    uint8_t *longer = filled(file.length + PITHREAD_LINE_BYTES, ' ');
    memcpy(longer, file.bytes, file.length);
    expect_refusal(longer, file.length + PITHREAD_LINE_BYTES, PITHREAD_FILE_LENGTH, 0, "866 lines");
    free(longer);
    free(file.bytes);
}

static void check_hostile(void) {
    for (int byte = 0; byte < 256; byte++) {
        check_filled(PITHREAD_LINE_BYTES, byte, PITHREAD_FIELD, 1);
    }
    check_filled(PITHREAD_MOST_FILE_BYTES, '\n', PITHREAD_FIELD, 1);
    check_filled(PITHREAD_MOST_FILE_BYTES + PITHREAD_LINE_BYTES, ' ', PITHREAD_FILE_LENGTH, 0);
    check_filled(1048576, '0', PITHREAD_FILE_LENGTH, 0);
}

int main(int count, char **words) {
    if (count != 2) {
        fprintf(stderr, "usage: load FOLDER\n");
        return 2;
    }
    check_examples(words[1]);
    check_no_bytes(words[1]);
    check_listing(words[1]);
    check_largest();
    check_hostile();
    return close_checks();
}
