/* Grounds 8 to 12: buffers of a wrong length, tables, threads and ports; and which ground comes first. */
#include <stdlib.h>
#include <string.h>

#include "bench.h"
#include "cases.h"
#include "checks.h"
#include "damages.h"
#include "listing.h"

/* A number that no call takes as a thread or a port. */
#define NO_SUCH 4294967295u

static void expect_all(const char *what, int ground, buffers with, uint32_t number) {
    for (int call = START; call < CALLS; call++) {
        expect_refused(what, call, with, number, ground);
    }
}

/* All calls, with these lengths in place of the right ones; then with bytes that are wrong too. */
static void expect_length(const bench *b, size_t table_length, size_t state_length) {
    uint8_t *table = resized(b->table, PITHREAD_TABLE_BYTES, table_length);
    uint8_t *state = resized(b->state, PITHREAD_STATE_BYTES, state_length);
    buffers with = lent(b, table, table_length, state, state_length);
    expect_all("lengths", PITHREAD_BUFFER_LENGTH, with, 0);
    memset(table, PATTERN, table_length);
    memset(state, PATTERN, state_length);
    expect_all("lengths of wrong bytes", PITHREAD_BUFFER_LENGTH, with, NO_SUCH);
    free(table);
    free(state);
}

static void wrong_lengths(void) {
    static const size_t tables[] = {0, 1, PITHREAD_STATE_BYTES, PITHREAD_TABLE_BYTES - 1,
                                    PITHREAD_TABLE_BYTES + 1, 2 * PITHREAD_TABLE_BYTES};
    static const size_t states[] = {0, 1, PITHREAD_STATE_BYTES - 4, PITHREAD_STATE_BYTES - 1,
                                    PITHREAD_STATE_BYTES + 1, PITHREAD_TABLE_BYTES};
    bench *b = OPENED("lengths", listing);
    for (size_t place = 0; place < sizeof tables / sizeof *tables; place++) {
        expect_length(b, tables[place], PITHREAD_STATE_BYTES);
    }
    for (size_t place = 0; place < sizeof states / sizeof *states; place++) {
        expect_length(b, PITHREAD_TABLE_BYTES, states[place]);
    }
    expect_length(b, PITHREAD_TABLE_BYTES - 1, PITHREAD_STATE_BYTES + 1);
    closed(b);
}

/* All calls with this table; then with a state and a number that are wrong too. */
static void expect_table(const char *what, const bench *b, const uint8_t *table) {
    uint8_t *state = copied(b->state, PITHREAD_STATE_BYTES);
    buffers with = lent(b, table, PITHREAD_TABLE_BYTES, state, PITHREAD_STATE_BYTES);
    expect_all(what, PITHREAD_TABLE, with, 0);
    memset(state, PATTERN, PITHREAD_STATE_BYTES);
    expect_all(what, PITHREAD_TABLE, with, NO_SUCH);
    free(state);
}

static void wrong_tables(void) {
    bench *b = OPENED("tables", listing);
    for (size_t damage = 0; damage < DAMAGES; damage++) {
        uint8_t *table = damaged(b->table, &damages[damage]);
        expect_table(damages[damage].what, b, table);
        free(table);
    }
    for (int byte = 0; byte < 256; byte += 51) {
        uint8_t *table = filled(PITHREAD_TABLE_BYTES, byte);
        expect_table("a table of one byte repeated", b, table);
        free(table);
    }
    closed(b);
}

/* A constant may be any number: this change of the listing's table is one that a file has. */
static void changed_table_of_another_file(void) {
    bench *b = OPENED("another constant", listing);
    put_number(b->table, 13 * 12 + 6, -300);
    memcpy(b->loaded, b->table, PITHREAD_TABLE_BYTES);
    walk(b, 0, 2);
    want_thread(b, 0, READY(3, 0, -300));
    step_takes(b, 0, 2, 0, PITHREAD_NOBODY);
    closed(b);
}

static void start_reads_no_state(void) {
    bench *b = OPENED("start over any state", listing);
    for (int byte = 0; byte < 256; byte += 51) {
        uint8_t *state = filled(PITHREAD_STATE_BYTES, byte);
        buffers with = buffers_of(b, state);
        if (byte > 0) {
            expect_refused("a state of one byte repeated", RUN, with, 0, PITHREAD_STATE);
        }
        check(ask(START, with, 0, 0).numbers[0] == PITHREAD_DONE, "start over any state");
        check(memcmp(state, b->wanted, PITHREAD_STATE_BYTES) == 0, "start over any state");
        free(state);
    }
    closed(b);
}

static void wrong_threads(void) {
    static const uint32_t threads[] = {64, 65, 128, 256, 65536, 2147483647u, 2147483648u, 4294967232u, NO_SUCH};
    bench *b = OPENED("threads", listing);
    for (size_t place = 0; place < sizeof threads / sizeof *threads; place++) {
        step_refused(b, threads[place], PITHREAD_THREAD);
    }
    step_refused(b, 1, PITHREAD_THREAD);
    step_refused(b, 63, PITHREAD_THREAD);
    walk(b, 0, 2);
    walk(b, 1, 1);
    step_refused(b, 1, PITHREAD_THREAD);
    settle(b);
    step_refused(b, 0, PITHREAD_THREAD);
    closed(b);
}

static void expect_port(const bench *b, uint32_t port) {
    expect_refused(b->name, GIVE, buffers_of(b, b->state), port, PITHREAD_PORT);
    expect_refused(b->name, TAKE, buffers_of(b, b->state), port, PITHREAD_PORT);
}

/* Two ports, and beside them a channel of the same type on which a thread waits. No seat has a right on
 * ports above 7: these are in seats.c. */
static void wrong_ports(void) {
    static const line lines[] = {
        TYPE(0), DEFINITION(2, 4, 3), SLOT(1), SLOT(1), SLOT(1), SLOT(0),
        CHOICE(1), CHOICE(1), END,
        BRANCH(ALWAYS, NEW(2), 1),
        BRANCH(ALWAYS, RECEIVE(2, 3), 2),
    };
    bench *b = OPENED("ports", lines);
    settle(b);
    for (uint32_t port = 2; port < PITHREAD_PORTS; port++) {
        expect_port(b, port);
    }
    give(b, 1, 6, PITHREAD_NOBODY);
    closed(b);
    b = OPENED("no ports", listing);
    expect_port(b, 0);
    expect_port(b, 1);
    closed(b);
}

void check_refusals(void) {
    wrong_lengths();
    wrong_tables();
    changed_table_of_another_file();
    start_reads_no_state();
    wrong_threads();
    wrong_ports();
}
