/* Runs: their order, the turn, and why they end. */
#include <stdlib.h>
#include <string.h>

#include "bench.h"
#include "cases.h"
#include "checks.h"
#include "listing.h"

enum { LAST_ROW = PITHREAD_THREADS - 1 };

/* After the listing's last step: all rows are free, two threads and one channel were made. */
static void want_listing_over(bench *b) {
    want_thread(b, 0, FREE);
    want_thread(b, 1, FREE);
    want_channel(b, 0, 0, 0, 0);
    want_marks(b, 2, 1, 1);
}

static void listing_by_one_run(void) {
    bench *b = OPENED("listing by one run", listing);
    want_listing_over(b);
    run(b, 1000, 7, PITHREAD_NONE_READY, PITHREAD_NOBODY);
    run(b, 1000, 0, PITHREAD_NONE_READY, PITHREAD_NOBODY);
    closed(b);
}

/* The buffers begin at odd addresses and end with the memory that they are in. */
static void listing_at_odd_addresses(void) {
    bench *b = OPENED("listing at odd addresses", listing);
    uint8_t *table = filled(PITHREAD_TABLE_BYTES + 1, 0);
    uint8_t *state = filled(PITHREAD_STATE_BYTES + 1, PATTERN);
    buffers with = lent(b, table + 1, PITHREAD_TABLE_BYTES, state + 1, PITHREAD_STATE_BYTES);
    memcpy(table + 1, b->table, PITHREAD_TABLE_BYTES);
    check(ask(START, with, 0, 0).numbers[0] == PITHREAD_DONE, "start at odd addresses");
    check(memcmp(state + 1, b->state, PITHREAD_STATE_BYTES) == 0, "start at odd addresses");
    check(ask(RUN, with, 1000, 0).numbers[1] == 7, "run at odd addresses");
    want_listing_over(b);
    check(memcmp(state + 1, b->wanted, PITHREAD_STATE_BYTES) == 0, "run at odd addresses");
    check(state[0] == PATTERN, "the byte before the state");
    free(table);
    free(state);
    closed(b);
}

/* Parts of the run, each with the turn after it; the last one ends because it has made its steps. */
static void listing_by_parts(void) {
    bench *b = OPENED("listing by parts", listing);
    want_thread(b, 0, READY(1, 0));
    want_channel(b, 0, 1, 1, 0);
    want_marks(b, 1, 1, 1);
    run(b, 1, 1, PITHREAD_ALL_STEPS, PITHREAD_NOBODY);
    want_thread(b, 0, READY(2, 0));
    want_thread(b, 1, WAITS(4, 0));
    want_channel(b, 0, 1, 2, 1);
    want_marks(b, 2, 1, 2);
    run(b, 2, 2, PITHREAD_ALL_STEPS, PITHREAD_NOBODY);
    want_thread(b, 0, READY(5, 0, 7));
    want_thread(b, 1, READY(5, 0, 7));
    want_channel(b, 0, 1, 2, 0);
    want_marks(b, 2, 1, 1);
    run(b, 2, 2, PITHREAD_ALL_STEPS, PITHREAD_NOBODY);
    want_listing_over(b);
    run(b, 2, 2, PITHREAD_ALL_STEPS, PITHREAD_NOBODY);
    run(b, 1, 0, PITHREAD_NONE_READY, PITHREAD_NOBODY);
    closed(b);
}

static void no_steps_asked_for(void) {
    bench *b = OPENED("a run of no steps", listing);
    run(b, 0, 0, PITHREAD_ALL_STEPS, PITHREAD_NOBODY);
    settle(b);
    run(b, 0, 0, PITHREAD_ALL_STEPS, PITHREAD_NOBODY);
    closed(b);
}

/* A tau at node 0, a spawn at node 1, the end at node 2; the cases put threads where they need them. */
static const line ending[] = {
    DEFINITION(0, 0, 3),
    CHOICE(1), CHOICE(1), END,
    BRANCH(ALWAYS, TAU, 1),
    BRANCH(ALWAYS, SPAWN, 2, 2),
};

static void ends_next(bench *b, int thread, int turn) {
    want_thread(b, thread, FREE);
    want_word(b, PITHREAD_TURN, turn);
    run(b, 1, 1, PITHREAD_ALL_STEPS, PITHREAD_NOBODY);
}

static void turn_goes_upward_and_around(void) {
    bench *b = OPENED("turn", ending);
    want_thread(b, 0, READY(2));
    want_thread(b, 3, READY(2));
    want_thread(b, 7, READY(2));
    want_thread(b, 62, READY(2));
    want_thread(b, 63, READY(2));
    want_word(b, PITHREAD_TURN, 5);
    impose(b);
    ends_next(b, 7, 8);
    ends_next(b, 62, 63);
    ends_next(b, 63, 0);
    ends_next(b, 0, 1);
    ends_next(b, 3, 4);
    run(b, 1, 0, PITHREAD_NONE_READY, PITHREAD_NOBODY);
    closed(b);
}

/* Threads 0 and 1 stand at a spawn, all others at their end. */
static bench *all_rows_taken(void) {
    bench *b = OPENED("no row for a spawn", ending);
    want_thread(b, 0, READY(1));
    want_thread(b, 1, READY(1));
    for (int thread = 2; thread < PITHREAD_THREADS; thread++) {
        want_thread(b, thread, READY(2));
    }
    impose(b);
    return b;
}

static void run_goes_past_a_held_thread(void) {
    bench *b = all_rows_taken();
    run(b, 0, 0, PITHREAD_ALL_STEPS, PITHREAD_NOBODY);
    want_word(b, PITHREAD_TURN, 1);
    run(b, 9, 0, PITHREAD_LACKED_THREAD_ROW, 0);
    want_word(b, PITHREAD_TURN, 2);
    run(b, 9, 0, PITHREAD_LACKED_THREAD_ROW, 1);
    ends_next(b, 2, 3);
    want_thread(b, 3, FREE);
    want_thread(b, 4, FREE);
    want_word(b, PITHREAD_TURN, 5);
    run(b, 2, 2, PITHREAD_ALL_STEPS, PITHREAD_NOBODY);
    want_word(b, PITHREAD_TURN, 0);
    impose(b);
    want_thread(b, 0, READY(2));
    want_thread(b, 2, READY(2));
    want_marks(b, 3, 0, 1);
    run(b, 1, 1, PITHREAD_ALL_STEPS, PITHREAD_NOBODY);
    closed(b);
}

/* Steps before the one that is held up stay; n steps that are done count before it. */
static void steps_before_a_held_thread_stay(void) {
    bench *b = all_rows_taken();
    want_thread(b, 0, READY(0));
    want_thread(b, LAST_ROW, READY(1));
    want_word(b, PITHREAD_TURN, 0);
    impose(b);
    want_thread(b, 0, READY(1));
    want_word(b, PITHREAD_TURN, 1);
    run(b, 1, 1, PITHREAD_ALL_STEPS, PITHREAD_NOBODY);
    want_thread(b, 0, READY(0));
    want_word(b, PITHREAD_TURN, 0);
    impose(b);
    want_thread(b, 0, READY(1));
    want_word(b, PITHREAD_TURN, 2);
    run(b, 2, 1, PITHREAD_LACKED_THREAD_ROW, 1);
    want_word(b, PITHREAD_TURN, LAST_ROW);
    impose(b);
    want_word(b, PITHREAD_TURN, 0);
    run(b, 9, 0, PITHREAD_LACKED_THREAD_ROW, LAST_ROW);
    closed(b);
}

/* A definition that calls itself never ends by itself. */
static void longest_run(void) {
    static const line lines[] = {DEFINITION(0, 0, 1), CALL(0)};
    bench *b = OPENED("the longest run", lines);
    want_word(b, PITHREAD_TURN, 1);
    run(b, 65535, 65535, PITHREAD_ALL_STEPS, PITHREAD_NOBODY);
    run(b, 256, 256, PITHREAD_ALL_STEPS, PITHREAD_NOBODY);
    closed(b);
}

void check_runs(void) {
    listing_by_one_run();
    listing_at_odd_addresses();
    listing_by_parts();
    no_steps_asked_for();
    turn_goes_upward_and_around();
    run_goes_past_a_held_thread();
    steps_before_a_held_thread_stay();
    longest_run();
}
