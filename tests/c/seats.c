/* Seats and rights: grounds 18 and 19, what comes ahead of them, and what a seat without the right learns. */
#include <stdlib.h>
#include <string.h>

#include "bench.h"
#include "cases.h"
#include "checks.h"
#include "echo.h"

#define SIZE_OF(list) (sizeof(list) / sizeof *(list))

enum { RIGHTS = PITHREAD_SEATS * PITHREAD_SEAT_NUMBERS };

/* Thread 0 comes to wait at all eight ports with this offer, thread 1 waits for good on a channel of its own,
 * and thread 2 is ready at its end. */
#define AT_PORT(OFFER, port) BRANCH(ALWAYS, OFFER(port, 8), 6)
#define AT_PORTS(OFFER)                                                                                   \
    {                                                                                                     \
        TYPE(0), DEFINITION(8, 10, 7), FOUR(SLOT(1)), FOUR(SLOT(1)), SLOT(0), SLOT(1), FOUR(CHOICE(1)),   \
            CHOICE(1), CHOICE(8), END, BRANCH(ALWAYS, SET(8, 7), 1), BRANCH(ALWAYS, SPAWN, 2, 3),         \
            BRANCH(ALWAYS, SPAWN, 5, 6), BRANCH(ALWAYS, NEW(9), 4), BRANCH(ALWAYS, RECEIVE(9, 8), 6),     \
            AT_PORT(OFFER, 0), AT_PORT(OFFER, 1), AT_PORT(OFFER, 2), AT_PORT(OFFER, 3), AT_PORT(OFFER, 4), \
            AT_PORT(OFFER, 5), AT_PORT(OFFER, 6), AT_PORT(OFFER, 7),                                      \
    }

static const line receiving[] = AT_PORTS(RECEIVE);
static const line sending[] = AT_PORTS(SEND);

/* For each call but a give and a take: the thread that is ready, which is also steps enough for a run. */
enum { READY_THREAD = 2 };

/* What the calls answer there, if they are made. */
static const answer of_receiver[CALLS] = {
    [STEP] = {{0, 6, PITHREAD_ENDED, 0, PITHREAD_NOBODY}},
    [GIVE] = {{0, 0}},
    [TAKE] = {{0, PITHREAD_NOBODY, 0}},
    [RUN] = {{0, 1, PITHREAD_NONE_READY, PITHREAD_NOBODY}},
    [COLLECT] = {{0, 1}},
};
static const answer of_sender[CALLS] = {
    [STEP] = {{0, 6, PITHREAD_ENDED, 0, PITHREAD_NOBODY}},
    [GIVE] = {{0, PITHREAD_NOBODY}},
    [TAKE] = {{0, 0, 7}},
    [RUN] = {{0, 1, PITHREAD_NONE_READY, PITHREAD_NOBODY}},
    [COLLECT] = {{0, 1}},
};

static bench *at_ports(const char *name, const line *lines, size_t count) {
    bench *b = opened(name, lines, count);
    walk(b, 0, 3);
    walk(b, 1, 2);
    walk(b, 0, 1);
    return b;
}

/* Whether the number of a seat that a call goes by permits it, for the numbers 0 to 3. */
static const int permits[CALLS][4] = {
    [STEP] = {0, 1, 0, 1}, [GIVE] = {0, 0, 1, 1},    [TAKE] = {0, 1, 0, 1},
    [RUN] = {0, 1, 0, 1},  [COLLECT] = {0, 0, 1, 1},
};

static int is_at_port(int call) {
    return call == GIVE || call == TAKE;
}

/* All calls, refused; a give and a take at this port. */
static void expect_all(const char *what, int ground, buffers with, uint32_t port) {
    for (int call = STEP; call < CALLS; call++) {
        expect_refused(what, call, with, is_at_port(call) ? port : READY_THREAD, ground);
    }
}

/* The call is made: it answers and leaves what it does where every seat has all rights. */
static answer expect_made(const bench *b, int call, buffers with, uint32_t number) {
    uint8_t *state = copied(with.state, with.state_length);
    uint8_t *rights = copied(with.rights, with.rights_length);
    answer wanted = ask(call, lent(b, with.table, with.table_length, state, with.state_length), number, 5);
    answer got = ask(call, with, number, 5);
    check(got.numbers[0] == PITHREAD_DONE, b->name);
    check(memcmp(&got, &wanted, sizeof got) == 0, b->name);
    check(memcmp(state, with.state, with.state_length) == 0, b->name);
    check(memcmp(rights, with.rights, with.rights_length) == 0, b->name);
    check(memcmp(b->table, b->loaded, PITHREAD_TABLE_BYTES) == 0, b->name);
    free(state);
    free(rights);
    return got;
}

/* The same on a copy of the state, with this answer. */
static void expect_answer(const bench *b, int call, buffers with, uint32_t number, const answer *wanted) {
    uint8_t *state = copied(with.state, PITHREAD_STATE_BYTES);
    with.state = state;
    answer got = expect_made(b, call, with, number);
    check(memcmp(&got, wanted, sizeof got) == 0, b->name);
    free(state);
}

static buffers seated(const bench *b, const uint8_t *rights, uint32_t seat) {
    buffers with = buffers_of(b, b->state);
    with.rights = rights;
    with.seat = seat;
    return with;
}

/* All calls, and all ports, of a seat. One of its numbers is set, all others of the list are the same. */
static void expect_number(const bench *b, const answer *answers, uint32_t seat, uint32_t number, int32_t value,
                          int32_t others) {
    uint8_t *rights = same_rights(others);
    buffers with = seated(b, rights, seat);
    put_word(rights, place_of_right(seat, number), value);
    for (int call = STEP; call < CALLS; call++) {
        for (uint32_t port = 0; port < (is_at_port(call) ? PITHREAD_PORTS : 1); port++) {
            uint32_t goes_by = is_at_port(call) ? port : PITHREAD_BENCH_RIGHT;
            uint32_t asked = is_at_port(call) ? port : READY_THREAD;
            if (permits[call][goes_by == number ? value : others]) {
                expect_answer(b, call, with, asked, &answers[call]);
            } else {
                expect_refused("a seat without the right", call, with, asked, PITHREAD_SEAT);
            }
        }
    }
    free(rights);
}

static void each_number_of_each_seat(bench *b, const answer *answers) {
    for (uint32_t seat = 0; seat < PITHREAD_SEATS; seat++) {
        for (uint32_t number = 0; number < PITHREAD_SEAT_NUMBERS; number++) {
            for (int32_t value = PITHREAD_NO_RIGHT; value <= PITHREAD_BOTH_RIGHTS; value++) {
                expect_number(b, answers, seat, number, value, PITHREAD_NO_RIGHT);
                expect_number(b, answers, seat, number, value, PITHREAD_BOTH_RIGHTS);
            }
        }
    }
    closed(b);
}

/* All others have all rights, and the calling seat has none. */
static void rights_of_others_do_not_help(void) {
    bench *b = at_ports("rights of others", receiving, SIZE_OF(receiving));
    for (uint32_t seat = 0; seat < PITHREAD_SEATS; seat++) {
        uint8_t *rights = same_rights(PITHREAD_BOTH_RIGHTS);
        memset(rights + 4 * place_of_right(seat, 0), 0, 4 * PITHREAD_SEAT_NUMBERS);
        for (uint32_t port = 0; port < PITHREAD_PORTS; port++) {
            expect_all("rights of others", PITHREAD_SEAT, seated(b, rights, seat), port);
        }
        free(rights);
    }
    closed(b);
}

/* The calling seat has no right, all rights, or is none at all. */
static void expect_wrong_number(const bench *b, size_t place, int32_t number) {
    static const uint32_t seats[] = {0, 3, 7, 8, 4294967295u};
    uint8_t *none = same_rights(PITHREAD_NO_RIGHT), *all = same_rights(PITHREAD_BOTH_RIGHTS);
    put_word(none, place, number);
    put_word(all, place, number);
    for (size_t seat = 0; seat < SIZE_OF(seats); seat++) {
        expect_all("a number of a list without rights", PITHREAD_RIGHTS, seated(b, none, seats[seat]), 0);
        expect_all("a number of a list with all rights", PITHREAD_RIGHTS, seated(b, all, seats[seat]), 9);
    }
    free(none);
    free(all);
}

static void wrong_numbers(void) {
    static const int32_t numbers[] = {-1, 4, INT32_MAX, INT32_MIN};
    static const int32_t of_low_bytes_in_range[] = {256, 259, 65537, 16777218, -253, INT32_MIN + 3};
    bench *b = at_ports("numbers of a list", receiving, SIZE_OF(receiving));
    for (size_t place = 0; place < RIGHTS; place++) {
        expect_wrong_number(b, place, numbers[place % SIZE_OF(numbers)]);
        expect_wrong_number(b, place, of_low_bytes_in_range[place % SIZE_OF(of_low_bytes_in_range)]);
    }
    for (size_t number = 0; number < SIZE_OF(numbers); number++) {
        expect_wrong_number(b, 0, numbers[number]);
        expect_wrong_number(b, RIGHTS / 2, numbers[number]);
        expect_wrong_number(b, RIGHTS - 1, numbers[number]);
    }
    closed(b);
}

/* The list of so many bytes; with numbers that are right and with wrong ones, for a seat and for none. A start
 * has no list. */
static void wrong_lengths(void) {
    static const size_t lengths[] = {0,
                                     1,
                                     4 * PITHREAD_SEAT_NUMBERS,
                                     PITHREAD_RIGHTS_BYTES - 4,
                                     PITHREAD_RIGHTS_BYTES - 1,
                                     PITHREAD_RIGHTS_BYTES + 1,
                                     PITHREAD_RIGHTS_BYTES + 4,
                                     2 * PITHREAD_RIGHTS_BYTES};
    bench *b = at_ports("lengths of a list", receiving, SIZE_OF(receiving));
    for (size_t place = 0; place < SIZE_OF(lengths); place++) {
        uint8_t *rights = resized(b->rights, PITHREAD_RIGHTS_BYTES, lengths[place]);
        buffers with = seated(b, rights, 0);
        with.rights_length = lengths[place];
        expect_all("the length of a list", PITHREAD_BUFFER_LENGTH, with, 0);
        memset(rights, PATTERN, lengths[place]);
        with.seat = PITHREAD_SEATS;
        expect_all("the length of a wrong list", PITHREAD_BUFFER_LENGTH, with, PITHREAD_PORTS);
        uint8_t *state = filled(PITHREAD_STATE_BYTES, PATTERN);
        with.state = state;
        check(ask(START, with, 0, 0).numbers[0] == PITHREAD_DONE, "a start has no list");
        free(state);
        free(rights);
    }
    closed(b);
}

/* Nine times some of these is the place of a number, if it is cut to 32 bits; four bytes each, that of others. */
static void wrong_seats(void) {
    static const uint32_t seats[] = {8,          9,          63,         64,         256,        65536,     16777216,
                                     477218588u, 477218589u, 954437177u, 119304648u, 2147483648u, 4294967288u,
                                     4294967295u};
    bench *b = at_ports("seats", receiving, SIZE_OF(receiving));
    for (size_t place = 0; place < SIZE_OF(seats); place++) {
        expect_all("no such seat", PITHREAD_SEAT, seated(b, b->rights, seats[place]), 0);
    }
    expect_answer(b, GIVE, seated(b, b->rights, PITHREAD_SEATS - 1), 0, &of_receiver[GIVE]);
    closed(b);
}

static void expect_at_port(buffers with, uint32_t port, int ground) {
    expect_refused("no such port", GIVE, with, port, ground);
    expect_refused("no such port", TAKE, with, port, ground);
}

/* The file has eight ports, and each seat has all rights: behind its numbers for ports stand other numbers. */
static void ports_above_7(void) {
    static const uint32_t ports[] = {8,           9,           17,          63,          64,         127,
                                     128,         256,         65536,       477218588u,  2147483647u, 2147483648u,
                                     4294967286u, 4294967288u, 4294967294u, 4294967295u};
    bench *b = at_ports("ports above 7", receiving, SIZE_OF(receiving));
    for (uint32_t seat = 0; seat < PITHREAD_SEATS; seat++) {
        buffers with = seated(b, b->rights, seat);
        expect_answer(b, GIVE, with, PITHREAD_PORTS - 1, &of_receiver[GIVE]);
        expect_answer(b, TAKE, with, PITHREAD_PORTS - 1, &of_receiver[TAKE]);
        for (size_t place = 0; place < SIZE_OF(ports); place++) {
            expect_at_port(with, ports[place], PITHREAD_SEAT);
        }
    }
    closed(b);
}

/* Two of eight ports are in the file. A right to the others is one to ports that are not there. */
static void ports_that_the_file_has_not(void) {
    bench *b = OPENED("ports from 2 to 7", echo);
    uint8_t *none = same_rights(PITHREAD_NO_RIGHT);
    uint8_t *state = filled(PITHREAD_STATE_BYTES, PATTERN);
    for (uint32_t port = 2; port < PITHREAD_PORTS; port++) {
        buffers granted = seated(b, b->rights, 5), lacking = seated(b, none, 5);
        expect_at_port(granted, port, PITHREAD_PORT);
        expect_at_port(lacking, port, PITHREAD_SEAT);
        granted.state = lacking.state = state;
        expect_at_port(granted, port, PITHREAD_STATE);
        expect_at_port(lacking, port, PITHREAD_SEAT);
    }
    free(none);
    free(state);
    closed(b);
}

/* All calls of seat 4 on this state, with threads and ports that are there or are not. */
static void expect_nothing_learnt(const bench *b, uint8_t *state, const uint8_t *rights) {
    buffers with = seated(b, rights, 4);
    with.state = state;
    for (int call = STEP; call < CALLS; call++) {
        for (uint32_t number = 0; number <= PITHREAD_THREADS; number++) {
            expect_refused("a seat that learns nothing", call, with, number, PITHREAD_SEAT);
        }
        expect_refused("a seat that learns nothing", call, with, 4294967295u, PITHREAD_SEAT);
    }
}

/* The same seat with the right: it can tell a state that is sound from one that is not. */
static void expect_told_apart(const bench *b, const uint8_t *rights, uint8_t *damaged) {
    for (int call = STEP; call < CALLS; call++) {
        uint32_t number = is_at_port(call) ? 0 : READY_THREAD;
        buffers with = seated(b, rights, 4);
        expect_answer(b, call, with, number, &of_receiver[call]);
        with.state = damaged;
        expect_refused("a seat that can tell", call, with, number, PITHREAD_STATE);
    }
}

/* States that differ by one count, in all their bytes, or in who waits: to a seat without the right they are
 * one. */
static void nothing_is_learnt_of_the_state(void) {
    bench *b = at_ports("what a seat learns", receiving, SIZE_OF(receiving));
    bench *begun = OPENED("what a seat learns", receiving);
    uint8_t *damaged = copied(b->state, PITHREAD_STATE_BYTES);
    uint8_t *others_may = same_rights(PITHREAD_BOTH_RIGHTS), *may = same_rights(PITHREAD_NO_RIGHT);
    memset(others_may + 4 * place_of_right(4, 0), 0, 4 * PITHREAD_SEAT_NUMBERS);
    memcpy(may + 4 * place_of_right(4, 0), b->rights, 4 * PITHREAD_SEAT_NUMBERS);
    put_word(damaged, WAITING(0), word_at(damaged, WAITING(0)) + 1);
    expect_nothing_learnt(b, b->state, others_may);
    expect_nothing_learnt(b, begun->state, others_may);
    expect_nothing_learnt(b, damaged, others_may);
    expect_told_apart(b, may, damaged);
    for (int byte = 0; byte < 256; byte += 51) {
        memset(damaged, byte, PITHREAD_STATE_BYTES);
        expect_nothing_learnt(b, damaged, others_may);
        expect_told_apart(b, may, damaged);
    }
    free(damaged);
    free(others_may);
    free(may);
    closed(b);
    closed(begun);
}

/* Everything is wrong at first, and then one thing after the other is put right. */
static void expect_in_order(const bench *b, int call) {
    uint8_t *table = filled(PITHREAD_TABLE_BYTES, PATTERN);
    uint8_t *state = filled(PITHREAD_STATE_BYTES, PATTERN);
    uint8_t *rights = same_rights(4);
    buffers with = {table, PITHREAD_TABLE_BYTES, state, PITHREAD_STATE_BYTES, rights, PITHREAD_RIGHTS_BYTES - 4,
                    PITHREAD_SEATS};
    expect_refused("first the lengths", call, with, 7, PITHREAD_BUFFER_LENGTH);
    with.rights_length = PITHREAD_RIGHTS_BYTES;
    expect_refused("then the table", call, with, 7, PITHREAD_TABLE);
    with.table = b->table;
    expect_refused("then the list", call, with, 7, PITHREAD_RIGHTS);
    memset(rights, 0, PITHREAD_RIGHTS_BYTES);
    expect_refused("then the seat", call, with, 7, PITHREAD_SEAT);
    with.seat = PITHREAD_SEATS - 1;
    expect_refused("then its right", call, with, 7, PITHREAD_SEAT);
    with.rights = b->rights;
    expect_refused("then the state", call, with, 7, PITHREAD_STATE);
    with.state = b->state;
    if (call == STEP) {
        expect_refused("then the thread", call, with, 7, PITHREAD_THREAD);
    } else if (is_at_port(call)) {
        expect_refused("then the port", call, with, 7, PITHREAD_PORT);
    } else {
        expect_made(b, call, with, 7);
    }
    free(table);
    free(state);
    free(rights);
}

/* The file has neither a thread 7 nor a port 7. */
static void grounds_in_order(void) {
    for (int call = STEP; call < CALLS; call++) {
        bench *b = OPENED("the order of grounds", echo);
        expect_in_order(b, call);
        closed(b);
    }
}

/* Each call may have another list and another seat. The lists begin at odd addresses, and say of all seats but
 * the one that calls that they may not. */
static void lists_from_call_to_call(void) {
    static const struct {
        int call;
        uint32_t seat, number;
        int32_t right;
    } calls[] = {
        {STEP, 0, 0, PITHREAD_MAY_STEP},    {GIVE, 7, 0, PITHREAD_MAY_GIVE}, {RUN, 3, 9, PITHREAD_MAY_STEP},
        {COLLECT, 3, 0, PITHREAD_MAY_COLLECT}, {TAKE, 1, 1, PITHREAD_MAY_TAKE}, {STEP, 7, 0, PITHREAD_MAY_STEP},
    };
    bench *b = OPENED("lists from call to call", echo);
    for (size_t place = 0; place < SIZE_OF(calls); place++) {
        uint8_t *rights = filled(PITHREAD_RIGHTS_BYTES + 1, 0);
        uint32_t goes_by = is_at_port(calls[place].call) ? calls[place].number : PITHREAD_BENCH_RIGHT;
        put_word(rights + 1, place_of_right(calls[place].seat, goes_by), calls[place].right);
        buffers with = seated(b, rights + 1, (calls[place].seat + 1) % PITHREAD_SEATS);
        expect_refused(b->name, calls[place].call, with, calls[place].number, PITHREAD_SEAT);
        with.seat = calls[place].seat;
        expect_made(b, calls[place].call, with, calls[place].number);
        free(rights);
    }
    want_channel(b, 0, 1, 2, 0);
    want_channel(b, 1, 1, 2, 0);
    want_word(b, PITHREAD_TURN, 1);
    give(b, 0, 5, PITHREAD_NOBODY);
    closed(b);
}

void check_seats(void) {
    each_number_of_each_seat(at_ports("each number, receiving", receiving, SIZE_OF(receiving)), of_receiver);
    each_number_of_each_seat(at_ports("each number, sending", sending, SIZE_OF(sending)), of_sender);
    rights_of_others_do_not_help();
    wrong_numbers();
    wrong_lengths();
    wrong_seats();
    ports_above_7();
    ports_that_the_file_has_not();
    nothing_is_learnt_of_the_state();
    grounds_in_order();
    lists_from_call_to_call();
}
