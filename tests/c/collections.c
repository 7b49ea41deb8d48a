/* Collections: who is taken, who is left, what becomes of the rows; and grounds 8 to 10. */
#include <stdlib.h>
#include <string.h>

#include "bench.h"
#include "cases.h"
#include "checks.h"
#include "listing.h"

enum { LAST_THREAD = PITHREAD_THREADS - 1, LAST_CHANNEL = PITHREAD_CHANNELS - 1 };

/* The thread makes a channel and waits to receive on it. */
static const line lone[] = {
    TYPE(0), DEFINITION(0, 2, 3), SLOT(1), SLOT(0),
    CHOICE(1), CHOICE(1), END,
    BRANCH(ALWAYS, NEW(0), 1),
    BRANCH(ALWAYS, RECEIVE(0, 1), 2),
};

/* The thread waits; a collection will take it, and its channel. */
static bench *lone_receiver(const char *name) {
    bench *b = OPENED(name, lone);
    walk(b, 0, 1);
    want_thread(b, 0, WAITS(1, 0));
    want_channel(b, 0, 1, 1, 1);
    step_waits(b, 0, 1);
    return b;
}

static void want_lone_receiver_gone(bench *b) {
    want_thread(b, 0, FREE);
    want_channel(b, 0, 0, 0, 0);
}

static void lone_receiver_goes(void) {
    bench *b = lone_receiver("a lone receiver");
    want_lone_receiver_gone(b);
    collect(b, 1);
    collect(b, 0);
    step_refused(b, 0, PITHREAD_THREAD);
    run(b, 9, 0, PITHREAD_NONE_READY, PITHREAD_NOBODY);
    closed(b);
}

/* The listing with a collection before each step, and one where no thread is left. */
static void nobody_of_the_listing_goes(void) {
    static const uint32_t threads[] = {0, 0, 1, 0, 0, 1, 0};
    bench *b = OPENED("collections between steps", listing);
    for (size_t place = 0; place < sizeof threads / sizeof *threads; place++) {
        collect(b, 0);
        walk(b, threads[place], 1);
    }
    run(b, 9, 0, PITHREAD_NONE_READY, PITHREAD_NOBODY);
    collect(b, 0);
    closed(b);
}

/* Both know both channels; the parent waits on the first, the child on the second. */
static void two_on_their_own_channels(void) {
    static const line lines[] = {
        TYPE(0), DEFINITION(0, 3, 6), SLOT(1), SLOT(1), SLOT(0),
        FOUR(CHOICE(1)), CHOICE(1), END,
        BRANCH(ALWAYS, NEW(0), 1),
        BRANCH(ALWAYS, NEW(1), 2),
        BRANCH(ALWAYS, SPAWN, 3, 4),
        BRANCH(ALWAYS, RECEIVE(0, 2), 5),
        BRANCH(ALWAYS, RECEIVE(1, 2), 5),
    };
    bench *b = OPENED("two on channels that only they know", lines);
    walk(b, 0, 3);
    want_thread(b, 1, WAITS(4, 0, 1));
    want_channel(b, 0, 1, 2, 1);
    want_channel(b, 1, 1, 2, 1);
    step_waits(b, 1, 4);
    collect(b, 0);
    want_thread(b, 0, WAITS(3, 0, 1));
    want_channel(b, 0, 1, 2, 2);
    want_channel(b, 1, 1, 2, 2);
    step_waits(b, 0, 3);
    want_thread(b, 0, FREE);
    want_thread(b, 1, FREE);
    want_channel(b, 0, 0, 0, 0);
    want_channel(b, 1, 0, 0, 0);
    collect(b, 2);
    collect(b, 0);
    closed(b);
}

/*
 * Thread 0 makes the channels c and d, starts two others and goes on as P, with c alone (node 8).
 * W, thread 1, has both: it receives on d and then sends on c (node 10). R, thread 2, has d alone
 * and sends on it (node 13).
 */
static const line p_w_r[] = {
    TYPE(0), DEFINITION(0, 3, 8), DEFINITION(2, 2, 2), DEFINITION(3, 3, 3), DEFINITION(2, 2, 2),
    SLOT(1), SLOT(1), SLOT(0), SLOT(1), SLOT(0), SLOT(1), SLOT(1), SLOT(0), SLOT(1), SLOT(0),
    FOUR(CHOICE(1)), CHOICE(1), CALL(1, 0, 2), CALL(2, 0, 1, 2), CALL(3, 1, 2),
    CHOICE(1), END,
    CHOICE(1), CHOICE(1), END,
    CHOICE(1), END,
    BRANCH(ALWAYS, NEW(0), 1),
    BRANCH(ALWAYS, NEW(1), 2),
    BRANCH(ALWAYS, SET(2, 5), 3),
    BRANCH(ALWAYS, SPAWN, 4, 6),
    BRANCH(ALWAYS, SPAWN, 5, 7),
    BRANCH(ALWAYS, RECEIVE(0, 1), 1),
    BRANCH(ALWAYS, RECEIVE(1, 2), 1),
    BRANCH(ALWAYS, SEND(0, 2), 2),
    BRANCH(ALWAYS, SEND(0, 1), 1),
};

/* P and W wait, R is ready. */
static bench *p_and_w_wait(const char *name) {
    bench *b = OPENED(name, p_w_r);
    walk(b, 0, 7);
    walk(b, 1, 2);
    walk(b, 2, 1);
    want_thread(b, 0, WAITS(8, 0, 5));
    want_thread(b, 1, WAITS(10, 0, 1, 5));
    want_thread(b, 2, READY(13, 1, 5));
    want_channel(b, 0, 1, 2, 2);
    want_channel(b, 1, 1, 2, 1);
    want_marks(b, 3, 2, 0);
    run(b, 0, 0, PITHREAD_ALL_STEPS, PITHREAD_NOBODY);
    return b;
}

/* W offers nothing on c yet; it will, once R has met it. */
static void waiter_that_may_wake_counts(void) {
    bench *b = p_and_w_wait("P, W and R");
    collect(b, 0);
    want_thread(b, 1, READY(11, 0, 1, 5));
    want_thread(b, 2, READY(14, 1, 5));
    want_channel(b, 0, 1, 2, 1);
    want_channel(b, 1, 1, 2, 0);
    step_takes(b, 2, 13, 0, 1);
    want_thread(b, 2, FREE);
    want_channel(b, 1, 1, 1, 0);
    step_ends(b, 2, 14);
    collect(b, 0);
    want_thread(b, 0, READY(9, 0, 5));
    want_thread(b, 1, READY(12, 0, 1, 5));
    want_channel(b, 0, 1, 2, 0);
    step_takes(b, 1, 11, 0, 0);
    collect(b, 0);
    closed(b);
}

/* The same without R: nobody is left who knows d. */
static void waiter_that_cannot_wake_does_not(void) {
    bench *b = p_and_w_wait("P and W alone");
    want_thread(b, 2, FREE);
    want_channel(b, 1, 1, 1, 1);
    impose(b);
    want_thread(b, 0, FREE);
    want_thread(b, 1, FREE);
    want_channel(b, 0, 0, 0, 0);
    want_channel(b, 1, 0, 0, 0);
    collect(b, 2);
    closed(b);
}

/* One thread receives at port 0, then sends at port 1. */
static void waiters_on_ports_stay(void) {
    static const line lines[] = {
        TYPE(0), DEFINITION(2, 3, 3), SLOT(1), SLOT(1), SLOT(0),
        CHOICE(1), CHOICE(1), END,
        BRANCH(ALWAYS, RECEIVE(0, 2), 1),
        BRANCH(ALWAYS, SEND(1, 2), 2),
    };
    bench *b = OPENED("a waiter on a port", lines);
    settle(b);
    collect(b, 0);
    want_thread(b, 0, READY(1, 0, 1, 6));
    want_channel(b, 0, 1, 2, 0);
    want_channel(b, 1, 1, 2, 0);
    give(b, 0, 6, 0);
    settle(b);
    collect(b, 0);
    want_thread(b, 0, READY(2, 0, 1, 6));
    want_channel(b, 0, 1, 2, 0);
    want_channel(b, 1, 1, 2, 0);
    take(b, 1, 0, 6);
    closed(b);
}

/*
 * At node 2 the thread knows the port 0 and a channel of its own. The number decides what it offers:
 * 1 a receive on the port and on its own channel, 2 a send on the port, 3 a send on its own channel,
 * and others nothing.
 */
static const line port_and_own[] = {
    TYPE(0), DEFINITION(1, 3, 4), SLOT(1), SLOT(1), SLOT(0),
    CHOICE(1), CHOICE(1), CHOICE(6), END,
    BRANCH(ALWAYS, NEW(1), 1),
    BRANCH(ALWAYS, SET(2, 5), 2),
    BRANCH(IS(2, 1), RECEIVE(1, 2), 3),
    BRANCH(IS(2, 1), RECEIVE(0, 2), 3),
    BRANCH(IS(2, 2), SEND(0, 2), 3),
    BRANCH(IS(2, 3), SEND(1, 2), 3),
    BRANCH(BELOW(2, -4), TAU, 3),
    BRANCH(IS(2, 0), NEW(1), 3),
};

static bench *waits_with(const char *name, int32_t number) {
    bench *b = OPENED(name, port_and_own);
    walk(b, 0, 2);
    want_word(b, VALUE(0, 2), number);
    impose(b);
    want_thread(b, 0, WAITS(2, 0, 1, number));
    want_channel(b, 0, 1, 2, 1);
    want_channel(b, 1, 1, 1, 1);
    step_waits(b, 0, 2);
    return b;
}

static void goes_with_its_channel(bench *b) {
    want_thread(b, 0, FREE);
    want_channel(b, 0, 1, 1, 0);
    want_channel(b, 1, 0, 0, 0);
    collect(b, 1);
    give(b, 0, 7, PITHREAD_NOBODY);
    take(b, 0, PITHREAD_NOBODY, 0);
    closed(b);
}

/* To know a port is of no help to a thread that offers nothing there. */
static void all_guards_false(void) {
    goes_with_its_channel(waits_with("all guards false", 5));
    goes_with_its_channel(waits_with("all guards false, number -4", -4));
    goes_with_its_channel(waits_with("an offer beside the port", 3));
}

static void one_offer_is_enough(void) {
    bench *b = waits_with("two offers, one on the port", 1);
    collect(b, 0);
    closed(b);
    b = waits_with("a send on the port", 2);
    collect(b, 0);
    closed(b);
}

/*
 * A thread at node 1 has two channels and waits to receive on the first of them; at node 2 it is at its
 * end and still has both. The cases put threads there. Channel 0 is the port.
 */
static const line links[] = {
    TYPE(0), DEFINITION(1, 1, 1), DEFINITION(2, 3, 2), SLOT(1), SLOT(1), SLOT(1), SLOT(0),
    CALL(1, 0, 0),
    CHOICE(1), END,
    BRANCH(ALWAYS, RECEIVE(0, 2), 1),
};

/* In a ring of 64 each thread waits on a channel of its own, which another one has too. */
#define OWN(thread) (PITHREAD_THREADS + (thread) % PITHREAD_THREADS)

/* The other channel of each thread is the own one of the thread so many rows on. */
static bench *ring(const char *name, int rows_on) {
    bench *b = OPENED(name, links);
    for (int thread = 0; thread < PITHREAD_THREADS; thread++) {
        want_thread(b, thread, WAITS(1, OWN(thread), OWN(thread + rows_on)));
        want_channel(b, OWN(thread), 1, 2, 2);
    }
    want_channel(b, 0, 1, 1, 0);
    impose(b);
    return b;
}

static void want_nobody(bench *b) {
    for (int thread = 0; thread < PITHREAD_THREADS; thread++) {
        want_thread(b, thread, FREE);
        want_channel(b, OWN(thread), 0, 0, 0);
    }
    want_channel(b, 0, 1, 1, 0);
}

static void ring_goes_whole(int rows_on) {
    bench *b = ring("64 in a ring", rows_on);
    want_nobody(b);
    collect(b, PITHREAD_THREADS);
    collect(b, 0);
    closed(b);
}

/* One thread of the ring waits on the port instead of its own channel. */
static void ring_at_a_port_stays(int rows_on, int at_port) {
    bench *b = ring("64 in a ring, one of them at the port", rows_on);
    want_word(b, VALUE(at_port, 0), 0);
    want_channel(b, 0, 1, 2, 1);
    want_channel(b, OWN(at_port), 1, 1, 1);
    impose(b);
    collect(b, 0);
    closed(b);
}

/* One thread of the ring is ready, and then comes to its end. */
static void ring_stays_with_a_ready_thread(int rows_on, int ready) {
    bench *b = ring("64 in a ring, one of them ready", rows_on);
    want_thread(b, ready, READY(2, OWN(ready), OWN(ready + rows_on)));
    want_channel(b, OWN(ready), 1, 2, 1);
    want_channel(b, OWN(ready + rows_on), 1, 2, 1);
    impose(b);
    collect(b, 0);
    want_thread(b, ready, FREE);
    want_channel(b, OWN(ready), 1, 1, 1);
    want_channel(b, OWN(ready + rows_on), 1, 1, 1);
    step_ends(b, (uint32_t)ready, 2);
    want_nobody(b);
    collect(b, PITHREAD_THREADS - 1);
    closed(b);
}

static void rings_of_64(void) {
    static const int rows_on[] = {1, LAST_THREAD, 5};
    for (size_t place = 0; place < sizeof rows_on / sizeof *rows_on; place++) {
        ring_goes_whole(rows_on[place]);
        for (int thread = 0; thread < PITHREAD_THREADS; thread += 21) {
            ring_at_a_port_stays(rows_on[place], thread);
            ring_stays_with_a_ready_thread(rows_on[place], thread);
        }
    }
}

/*
 * Left: 3, on the port; 9, on a channel that 3 has; 30, ready; 32, on a channel that 30 has.
 * Taken: 0 and 1, each on a channel that the other has; 31 and 63, each on a channel of its own, though
 * 31 has a channel of 30 and 63 one of 9; 40, which has one channel in both slots.
 */
static bench *nine_threads(void) {
    bench *b = OPENED("some taken, some left", links);
    want_thread(b, 0, WAITS(1, 100, 101));
    want_thread(b, 1, WAITS(1, 101, 100));
    want_thread(b, 3, WAITS(1, 0, 90));
    want_thread(b, 9, WAITS(1, 90, 91));
    want_thread(b, 30, READY(2, 110, 110));
    want_thread(b, 31, WAITS(1, 111, 110));
    want_thread(b, 32, WAITS(1, 110, 112));
    want_thread(b, 40, WAITS(1, 120, 120, -9));
    want_thread(b, LAST_THREAD, WAITS(1, LAST_CHANNEL, 91));
    want_channel(b, 0, 1, 2, 1);
    want_channel(b, 90, 1, 2, 2);
    want_channel(b, 91, 1, 2, 2);
    want_channel(b, 100, 1, 2, 2);
    want_channel(b, 101, 1, 2, 2);
    want_channel(b, 110, 1, 3, 2);
    want_channel(b, 111, 1, 1, 1);
    want_channel(b, 112, 1, 1, 1);
    want_channel(b, 120, 1, 1, 1);
    want_channel(b, LAST_CHANNEL, 1, 1, 1);
    want_marks(b, 17, 101, 40);
    impose(b);
    return b;
}

static void want_five_gone(bench *b) {
    static const int threads[] = {0, 1, 31, 40, LAST_THREAD};
    static const int channels[] = {100, 101, 111, 120, LAST_CHANNEL};
    for (size_t place = 0; place < sizeof threads / sizeof *threads; place++) {
        want_thread(b, threads[place], FREE);
        want_channel(b, channels[place], 0, 0, 0);
    }
    want_channel(b, 91, 1, 1, 1);
    want_channel(b, 110, 1, 2, 1);
}

static void some_taken_some_left(void) {
    bench *b = nine_threads();
    want_five_gone(b);
    collect(b, 5);
    collect(b, 0);
    want_thread(b, 3, READY(2, 0, 90, 8));
    want_channel(b, 0, 1, 2, 0);
    want_channel(b, 90, 1, 2, 1);
    give(b, 0, 8, 3);
    want_thread(b, 3, FREE);
    want_channel(b, 0, 1, 1, 0);
    want_channel(b, 90, 1, 1, 1);
    step_ends(b, 3, 2);
    want_thread(b, 9, FREE);
    want_channel(b, 90, 0, 0, 0);
    want_channel(b, 91, 0, 0, 0);
    collect(b, 1);
    closed(b);
}

/* The buffers begin at odd addresses and end with the memory that they are in. */
static void at_odd_addresses(void) {
    bench *b = nine_threads();
    uint8_t *table = filled(PITHREAD_TABLE_BYTES + 1, 0);
    uint8_t *state = filled(PITHREAD_STATE_BYTES + 1, PATTERN);
    buffers with = lent(b, table + 1, PITHREAD_TABLE_BYTES, state + 1, PITHREAD_STATE_BYTES);
    memcpy(table + 1, b->table, PITHREAD_TABLE_BYTES);
    memcpy(state + 1, b->state, PITHREAD_STATE_BYTES);
    check(ask(COLLECT, with, 0, 0).numbers[1] == 5, "collect at odd addresses");
    want_five_gone(b);
    check(memcmp(state + 1, b->wanted, PITHREAD_STATE_BYTES) == 0, "collect at odd addresses");
    check(memcmp(table + 1, b->loaded, PITHREAD_TABLE_BYTES) == 0, "collect at odd addresses");
    check(state[0] == PATTERN, "the byte before the state");
    free(table);
    free(state);
    closed(b);
}

/* Each child waits behind a false guard. With 64 threads no row is left, after a collection there are 63. */
static void thread_rows_are_used_again(void) {
    static const line lines[] = {
        DEFINITION(0, 1, 5), SLOT(0),
        CHOICE(1), CHOICE(1), CALL(0), CHOICE(1), END,
        BRANCH(ALWAYS, SET(0, 0), 1),
        BRANCH(ALWAYS, SPAWN, 2, 3),
        BRANCH(IS(0, 1), TAU, 4),
    };
    bench *b = OPENED("thread rows used again", lines);
    want_thread(b, 0, READY(1));
    for (int thread = 1; thread < PITHREAD_THREADS; thread++) {
        want_thread(b, thread, WAITS(3));
    }
    want_marks(b, 0, 0, 1);
    run(b, 1000, 63 * 4 + 1, PITHREAD_LACKED_THREAD_ROW, 0);
    step_refused(b, 0, PITHREAD_NO_THREAD_ROW);
    for (int thread = 1; thread < PITHREAD_THREADS; thread++) {
        want_thread(b, thread, FREE);
    }
    collect(b, PITHREAD_THREADS - 1);
    want_thread(b, 0, READY(2));
    want_thread(b, 1, READY(3));
    want_word(b, PITHREAD_NEXT_THREAD, 2);
    step_takes(b, 0, 1, 0, 1);
    closed(b);
}

/* Threads 1 to 8 have sixteen channels each and wait on one of them; thread 0 lacks a channel row. */
static void channel_rows_are_used_again(void) {
    static const line lines[] = {
        TYPE(1), DEFINITION(0, 1, 2), DEFINITION(1, 16, 2), SLOT(1), FOUR(FOUR(SLOT(1))),
        CHOICE(1), CALL(1, 0),
        CHOICE(1), END,
        BRANCH(ALWAYS, NEW(0), 1),
        BRANCH(ALWAYS, RECEIVE(0, 1), 1),
    };
    enum { HOLDERS_OF_ALL = PITHREAD_CHANNELS / PITHREAD_SLOTS };
    bench *b = OPENED("channel rows used again", lines);
    for (int channel = 0; channel < PITHREAD_CHANNELS; channel++) {
        int thread = 1 + channel / PITHREAD_SLOTS;
        want_word(b, STATUS(thread), PITHREAD_WAITING);
        want_word(b, NODE(thread), 2);
        want_word(b, VALUE(thread, channel % PITHREAD_SLOTS), channel);
        want_channel(b, channel, 1, 1, 1);
    }
    want_marks(b, 9, LAST_CHANNEL, 0);
    impose(b);
    step_refused(b, 0, PITHREAD_NO_CHANNEL_ROW);
    for (int thread = 1; thread <= HOLDERS_OF_ALL; thread++) {
        want_thread(b, thread, FREE);
    }
    for (int channel = 0; channel < PITHREAD_CHANNELS; channel++) {
        want_channel(b, channel, 0, 0, 0);
    }
    collect(b, HOLDERS_OF_ALL);
    want_thread(b, 0, READY(1, LAST_CHANNEL));
    want_channel(b, LAST_CHANNEL, 1, 1, 0);
    want_word(b, PITHREAD_NEXT_CHANNEL, 0);
    step_takes(b, 0, 0, 0, PITHREAD_NOBODY);
    closed(b);
}

/* A collection on parts of these buffers, or with bytes behind their ends. */
static void expect_length(const bench *b, size_t table_length, size_t state_length) {
    uint8_t *table = resized(b->table, PITHREAD_TABLE_BYTES, table_length);
    uint8_t *state = resized(b->state, PITHREAD_STATE_BYTES, state_length);
    buffers with = lent(b, table, table_length, state, state_length);
    expect_refused(b->name, COLLECT, with, 0, PITHREAD_BUFFER_LENGTH);
    free(table);
    free(state);
}

/* Each time a thread would be taken, if the collection were not refused; the lowest ground is given. */
static void refused_collections(void) {
    bench *b = lone_receiver("refused collections");
    uint8_t *table = copied(b->table, PITHREAD_TABLE_BYTES);
    uint8_t *state = copied(b->state, PITHREAD_STATE_BYTES);
    buffers with = buffers_of(b, state);
    expect_length(b, 0, 0);
    expect_length(b, PITHREAD_TABLE_BYTES - 1, PITHREAD_STATE_BYTES);
    expect_length(b, PITHREAD_TABLE_BYTES + 1, PITHREAD_STATE_BYTES);
    expect_length(b, PITHREAD_TABLE_BYTES, PITHREAD_STATE_BYTES - 1);
    expect_length(b, PITHREAD_TABLE_BYTES, PITHREAD_STATE_BYTES + 1);
    put_word(state, WAITING(0), 0);
    expect_refused("a collection on a wrong count", COLLECT, with, 0, PITHREAD_STATE);
    with.table = table;
    table[PITHREAD_TABLE_BYTES - 1] = 1;
    expect_refused("a collection with a wrong table and a wrong count", COLLECT, with, 0, PITHREAD_TABLE);
    put_word(state, WAITING(0), 1);
    expect_refused("a collection with a wrong table", COLLECT, with, 0, PITHREAD_TABLE);
    want_lone_receiver_gone(b);
    collect(b, 1);
    free(table);
    free(state);
    closed(b);
}

void check_collections(void) {
    lone_receiver_goes();
    nobody_of_the_listing_goes();
    two_on_their_own_channels();
    waiter_that_may_wake_counts();
    waiter_that_cannot_wake_does_not();
    waiters_on_ports_stay();
    all_guards_false();
    one_offer_is_enough();
    rings_of_64();
    some_taken_some_left();
    at_odd_addresses();
    thread_rows_are_used_again();
    channel_rows_are_used_again();
    refused_collections();
}
