/*
 * Tests of pithread_write: write FOLDER, the folder of the examples.
 *
 * Each buffer is lent between margins, which are looked at, and then with exactly its length, so that a
 * memory checker sees a read or a write outside it. All bytes are compared, those of the table too.
 * Prints how many checks passed; the status is 1 if one failed.
 */
#include <string.h>

#include "checks.h"
#include "damages.h"
#include "files.h"
#include "pithread.h"

#define SIZE_OF(list) (sizeof(list) / sizeof *(list))

/* A table to be written, and its file, which stands in the buffer unless the call is refused. */
typedef struct {
    const char *what;
    const uint8_t *table;
    size_t table_length;
    whole_file file;
} subject;

/* Writes into a buffer of this length, filled with one byte, between margins of this length. */
static void expect_within(subject of, size_t length, int refusal, size_t margin, int byte) {
    size_t all = margin + length + margin;
    size_t used = refusal == PITHREAD_DONE ? of.file.length : 0;
    uint8_t *buffer = filled(all, byte);
    uint8_t *wanted = filled(all, byte);
    uint8_t *table = copied(of.table, of.table_length);
    pithread_written written = pithread_write(of.table, of.table_length, buffer + margin, length);
    memcpy(wanted + margin, of.file.bytes, used);
    check(written.refusal == refusal && written.bytes == (int32_t)used, of.what);
    check(memcmp(buffer, wanted, all) == 0, of.what);
    check(memcmp(of.table, table, of.table_length) == 0, of.what);
    free(buffer);
    free(wanted);
    free(table);
}

static void expect(subject of, size_t length, int refusal) {
    expect_within(of, length, refusal, PITHREAD_LINE_BYTES, PATTERN);
    expect_within(of, length, refusal, PITHREAD_LINE_BYTES, '0');
    expect_within(of, length, refusal, 0, PATTERN);
}

/* Buffers of the length of the file, longer ones and shorter ones. */
static void expect_written(subject of) {
    static const size_t more[] = {0, 1, PITHREAD_LINE_BYTES - 1, PITHREAD_LINE_BYTES,
                                  PITHREAD_MOST_FILE_BYTES};
    const size_t fewer[] = {1, PITHREAD_LINE_BYTES, of.file.length - 1, of.file.length};
    for (size_t place = 0; place < SIZE_OF(more); place++) {
        expect(of, of.file.length + more[place], PITHREAD_DONE);
    }
    for (size_t place = 0; place < SIZE_OF(fewer); place++) {
        expect(of, of.file.length - fewer[place], PITHREAD_SHORT_BUFFER);
    }
}

/* Whatever the length of the buffer, the ground is the same. */
static void expect_refused(subject of, int refusal) {
    const size_t lengths[] = {0, 1, of.file.length - 1, of.file.length, PITHREAD_MOST_FILE_BYTES};
    for (size_t place = 0; place < SIZE_OF(lengths); place++) {
        expect(of, lengths[place], refusal);
    }
}

static uint8_t *loaded(const char *what, whole_file file) {
    uint8_t *table = filled(PITHREAD_TABLE_BYTES, PATTERN);
    pithread_loaded answer = pithread_load(file.bytes, file.length, table, PITHREAD_TABLE_BYTES);
    check(answer.refusal == PITHREAD_DONE, what);
    return table;
}

/* What is written of the table loads to this table. */
static void expect_loaded_again(subject of) {
    whole_file file = {filled(PITHREAD_MOST_FILE_BYTES, PATTERN), 0};
    pithread_written written =
        pithread_write(of.table, of.table_length, file.bytes, PITHREAD_MOST_FILE_BYTES);
    file.length = (size_t)written.bytes;
    uint8_t *again = loaded(of.what, file);
    check(memcmp(again, of.table, PITHREAD_TABLE_BYTES) == 0, of.what);
    free(file.bytes);
    free(again);
}

/* The file is loaded, written and loaded again. */
static void check_round_trip(const char *what, whole_file file) {
    uint8_t *table = loaded(what, file);
    subject of = {what, table, PITHREAD_TABLE_BYTES, file};
    expect_written(of);
    expect_loaded_again(of);
    free(table);
    free(file.bytes);
}

static void check_examples(const char *folder) {
    for (const char *const *name = example_names; *name != NULL; name++) {
        check_round_trip(*name, example(folder, *name));
    }
}

/* A file without bytes is not written as it was, but as the three lines that load to its table. */
static void check_no_bytes(const char *folder) {
    whole_file none = example(folder, NO_BYTES);
    uint8_t *table = loaded(NO_BYTES, none);
    subject of = {NO_BYTES, table, PITHREAD_TABLE_BYTES, example(folder, THREE_LINES)};
    check(none.length == 0 && of.file.length == 219, NO_BYTES);
    expect_written(of);
    expect_loaded_again(of);
    free(none.bytes);
    free(table);
    free(of.file.bytes);
}

static void check_largest(void) {
    whole_file file = largest_file();
    check(file.length == PITHREAD_MOST_FILE_BYTES, "the largest file has 865 lines");
    check_round_trip("the largest file", file);
}

/* The constant of the listing's set, on line 14, becomes this number: in the table and in the text. */
static void check_number(whole_file listing, int number) {
    char field[12];
    snprintf(field, sizeof field, "%6d", number);
    whole_file file = {copied(listing.bytes, listing.length), listing.length};
    memcpy(file.bytes + 13 * PITHREAD_LINE_BYTES + 6 * 6, field, 6);
    uint8_t *table = loaded(field, listing);
    put_number(table, 13 * 12 + 6, number);
    subject of = {field, table, PITHREAD_TABLE_BYTES, file};
    expect_written(of);
    expect_loaded_again(of);
    free(table);
    free(file.bytes);
}

static void check_numbers(whole_file listing) {
    static const int sizes[] = {0, 1, 9, 10, 99, 100, 255, 256, 999, 1000, 9999, 10000, 12345, 32767};
    for (size_t place = 0; place < SIZE_OF(sizes); place++) {
        check_number(listing, sizes[place]);
        check_number(listing, -sizes[place]);
    }
    check_number(listing, -32768);
}

/* A buffer in which a longer file stood keeps the end of it. */
static void check_used_buffer(whole_file listing) {
    whole_file longer = largest_file();
    uint8_t *buffer = copied(longer.bytes, longer.length);
    uint8_t *table = loaded("a used buffer", listing);
    pithread_written written = pithread_write(table, PITHREAD_TABLE_BYTES, buffer, longer.length);
    memcpy(longer.bytes, listing.bytes, listing.length);
    check(written.refusal == PITHREAD_DONE && written.bytes == (int32_t)listing.length, "a used buffer");
    check(memcmp(buffer, longer.bytes, longer.length) == 0, "a used buffer");
    free(longer.bytes);
    free(buffer);
    free(table);
}

/* Ground 8, of the listing's table and of bytes that are no table either. */
static void check_table_lengths(whole_file listing) {
    static const size_t lengths[] = {0, 1, PITHREAD_STATE_BYTES, PITHREAD_TABLE_BYTES - 1,
                                     PITHREAD_TABLE_BYTES + 1, 2 * PITHREAD_TABLE_BYTES};
    uint8_t *right = loaded("a table's length", listing);
    for (size_t place = 0; place < SIZE_OF(lengths); place++) {
        uint8_t *table = resized(right, PITHREAD_TABLE_BYTES, lengths[place]);
        subject of = {"a table's length", table, lengths[place], listing};
        expect_refused(of, PITHREAD_BUFFER_LENGTH);
        memset(table, PATTERN, lengths[place]);
        expect_refused(of, PITHREAD_BUFFER_LENGTH);
        free(table);
    }
    free(right);
}

/* Ground 9. */
static void check_tables(whole_file listing) {
    uint8_t *right = loaded("tables", listing);
    for (size_t place = 0; place < DAMAGES; place++) {
        uint8_t *table = damaged(right, &damages[place]);
        subject of = {damages[place].what, table, PITHREAD_TABLE_BYTES, listing};
        expect_refused(of, PITHREAD_TABLE);
        free(table);
    }
    for (int byte = 0; byte < 256; byte += 51) {
        uint8_t *table = filled(PITHREAD_TABLE_BYTES, byte);
        subject of = {"a table of one byte repeated", table, PITHREAD_TABLE_BYTES, listing};
        expect_refused(of, PITHREAD_TABLE);
        free(table);
    }
    free(right);
}

int main(int count, char **words) {
    if (count != 2) {
        fprintf(stderr, "usage: write FOLDER\n");
        return 2;
    }
    check_examples(words[1]);
    check_no_bytes(words[1]);
    check_largest();
    whole_file listing = example(words[1], "listing.txt");
    check_numbers(listing);
    check_used_buffer(listing);
    check_table_lengths(listing);
    check_tables(listing);
    free(listing.bytes);
    return close_checks();
}
