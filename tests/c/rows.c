/* Thread rows and channel rows: which row is taken, where the marks go, and what is refused. */
#include "bench.h"
#include "cases.h"

enum { LAST_THREAD = PITHREAD_THREADS - 1, LAST_CHANNEL = PITHREAD_CHANNELS - 1 };

/* Thread 0 starts one thread after another; a child only ends. */
static const line spawning[] = {DEFINITION(0, 0, 3), CHOICE(1), CALL(0), END, BRANCH(ALWAYS, SPAWN, 1, 2)};

static void spawns(bench *b, int child, int mark) {
    want_thread(b, 0, READY(1));
    want_thread(b, child, READY(2));
    want_word(b, PITHREAD_NEXT_THREAD, mark);
    step_takes(b, 0, 0, 0, child);
    want_thread(b, 0, READY(0));
    step_calls(b, 0, 1);
}

static void child_ends(bench *b, int child) {
    want_thread(b, child, FREE);
    step_ends(b, (uint32_t)child, 2);
}

/* With 63 threads a spawn goes ahead, with 64 it does not; after that a row that comes free is found. */
static void spawn_fills_all_rows(void) {
    bench *b = OPENED("64 threads", spawning);
    for (int child = 1; child < LAST_THREAD; child++) {
        spawns(b, child, child + 1);
    }
    spawns(b, LAST_THREAD, 0);
    step_refused(b, 0, PITHREAD_NO_THREAD_ROW);
    unsound(b, "waiting at a spawn, no row", EDITS({STATUS(0), PITHREAD_WAITING}));
    want_word(b, PITHREAD_TURN, 1);
    run(b, 9, 0, PITHREAD_LACKED_THREAD_ROW, 0);
    child_ends(b, 5);
    spawns(b, 5, 6);
    child_ends(b, LAST_THREAD);
    child_ends(b, 2);
    spawns(b, LAST_THREAD, 0);
    spawns(b, 2, 3);
    step_refused(b, 0, PITHREAD_NO_THREAD_ROW);
    closed(b);
}

/* The row is looked for from the mark, not from row 0, and rows in use are passed over. */
static void thread_mark(void) {
    bench *b = OPENED("thread mark", spawning);
    spawns(b, 1, 2);
    spawns(b, 2, 3);
    child_ends(b, 1);
    spawns(b, 3, 4);
    want_word(b, PITHREAD_NEXT_THREAD, 2);
    impose(b);
    spawns(b, 4, 5);
    want_word(b, PITHREAD_NEXT_THREAD, 0);
    impose(b);
    spawns(b, 1, 2);
    closed(b);
}

static void thread_mark_goes_around(void) {
    bench *b = OPENED("thread mark around the end", spawning);
    for (int child = 1; child < LAST_THREAD; child++) {
        spawns(b, child, child + 1);
        child_ends(b, child);
    }
    spawns(b, LAST_THREAD, 0);
    spawns(b, 1, 2);
    want_word(b, PITHREAD_NEXT_THREAD, LAST_THREAD);
    impose(b);
    spawns(b, 2, 3);
    closed(b);
}

/* A choice at node 1 with a true spawn before a tau, and one at node 2 whose spawn has a false guard. */
static void spawn_without_row_in_a_choice(void) {
    static const line lines[] = {
        DEFINITION(0, 1, 4), SLOT(0),
        CHOICE(1), CHOICE(3), CHOICE(2), END,
        BRANCH(ALWAYS, SET(0, 0), 1),
        BRANCH(IS(0, 1), SPAWN, 3, 3),
        BRANCH(ALWAYS, SPAWN, 2, 3),
        BRANCH(ALWAYS, TAU, 2),
        BRANCH(IS(0, 1), SPAWN, 3, 3),
        BRANCH(ALWAYS, TAU, 3),
    };
    bench *b = OPENED("spawn in a choice, no row", lines);
    walk(b, 0, 1);
    for (int thread = 1; thread < PITHREAD_THREADS; thread++) {
        want_thread(b, thread, READY(3));
    }
    impose(b);
    step_refused(b, 0, PITHREAD_NO_THREAD_ROW);
    want_thread(b, 0, READY(2));
    impose(b);
    want_thread(b, 0, READY(3));
    step_takes(b, 0, 2, 1, PITHREAD_NOBODY);
    want_thread(b, 0, READY(1));
    want_thread(b, 9, FREE);
    impose(b);
    want_thread(b, 0, READY(2));
    want_thread(b, 9, READY(3));
    want_word(b, PITHREAD_NEXT_THREAD, 10);
    step_takes(b, 0, 1, 1, 9);
    closed(b);
}

/* A send stands before a spawn: it is refused only if nobody can be met. */
static void meeting_before_spawn(void) {
    static const line lines[] = {
        TYPE(0), DEFINITION(1, 2, 4), SLOT(1), SLOT(0),
        CHOICE(2), CHOICE(2), CHOICE(1), END,
        BRANCH(ALWAYS, SET(1, 3), 1),
        BRANCH(ALWAYS, TAU, 2),
        BRANCH(ALWAYS, SEND(0, 1), 3),
        BRANCH(ALWAYS, SPAWN, 3, 3),
        BRANCH(ALWAYS, RECEIVE(0, 1), 3),
    };
    bench *b = OPENED("a meeting before a spawn, no row", lines);
    walk(b, 0, 1);
    want_thread(b, 1, READY(2));
    for (int thread = 2; thread < PITHREAD_THREADS; thread++) {
        want_thread(b, thread, READY(3));
    }
    want_channel(b, 0, 1, PITHREAD_THREADS + 1, 0);
    impose(b);
    step_refused(b, 0, PITHREAD_NO_THREAD_ROW);
    want_thread(b, 1, WAITS(2));
    want_channel(b, 0, 1, PITHREAD_THREADS + 1, 1);
    step_waits(b, 1, 2);
    want_thread(b, 0, READY(3, 0, 3));
    want_thread(b, 1, READY(3, 0, 3));
    want_channel(b, 0, 1, PITHREAD_THREADS + 1, 0);
    step_takes(b, 0, 1, 0, 1);
    closed(b);
}

/* Each child of thread 0 calls definition 1 and makes sixteen channels there, then one more. */
#define NEW_IN(slot) BRANCH(ALWAYS, NEW(slot), slot + 1)
static const line sixteen_each[] = {
    TYPE(0), DEFINITION(0, 0, 3), DEFINITION(0, 16, 18), FOUR(FOUR(SLOT(1))),
    CHOICE(1), CALL(0), CALL(1), FOUR(FOUR(CHOICE(1))), CHOICE(1), END,
    BRANCH(ALWAYS, SPAWN, 1, 2), NEW_IN(0), NEW_IN(1), NEW_IN(2), NEW_IN(3), NEW_IN(4), NEW_IN(5),
    NEW_IN(6), NEW_IN(7), NEW_IN(8), NEW_IN(9), NEW_IN(10), NEW_IN(11), NEW_IN(12), NEW_IN(13), NEW_IN(14),
    NEW_IN(15), BRANCH(ALWAYS, NEW(0), 17),
};

/* The child's row after so many of its sixteen channels. */
static void want_channels(bench *b, int child, int made) {
    want_word(b, STATUS(child), PITHREAD_READY);
    want_word(b, NODE(child), 3 + made);
    for (int slot = 0; slot < PITHREAD_SLOTS; slot++) {
        want_word(b, VALUE(child, slot), slot < made ? PITHREAD_SLOTS * (child - 1) + slot : -1);
    }
}

static void make_sixteen(bench *b, int child) {
    spawns(b, child, child + 1);
    want_channels(b, child, 0);
    step_calls(b, (uint32_t)child, 2);
    for (int made = 0; made < PITHREAD_SLOTS; made++) {
        int channel = PITHREAD_SLOTS * (child - 1) + made;
        want_channels(b, child, made + 1);
        want_channel(b, channel, 1, 1, 0);
        want_word(b, PITHREAD_NEXT_CHANNEL, (channel + 1) % PITHREAD_CHANNELS);
        step_takes(b, (uint32_t)child, 3 + made, 0, PITHREAD_NOBODY);
    }
}

static bench *all_channels(void) {
    bench *b = OPENED("128 channels", sixteen_each);
    for (int child = 1; child <= PITHREAD_CHANNELS / PITHREAD_SLOTS; child++) {
        make_sixteen(b, child);
    }
    return b;
}

/* The child as if it waited at its new, with true counts for its sixteen channels. */
static void waits_at_new(const bench *b, int child) {
    edit edits[PITHREAD_SLOTS + 1] = {{STATUS(child), PITHREAD_WAITING}};
    for (int slot = 0; slot < PITHREAD_SLOTS; slot++) {
        edits[slot + 1].place = WAITING(PITHREAD_SLOTS * (child - 1) + slot);
        edits[slot + 1].value = 1;
    }
    unsound(b, "waiting at a new, no row", edits, PITHREAD_SLOTS + 1);
}

/* Refused both for a slot that is the last holder of a channel and for one that has none yet. */
static void new_without_row(void) {
    bench *b = all_channels();
    step_refused(b, 1, PITHREAD_NO_CHANNEL_ROW);
    step_refused(b, 8, PITHREAD_NO_CHANNEL_ROW);
    waits_at_new(b, 1);
    spawns(b, 9, 10);
    want_channels(b, 9, 0);
    step_calls(b, 9, 2);
    step_refused(b, 9, PITHREAD_NO_CHANNEL_ROW);
    want_thread(b, 0, READY(1));
    want_thread(b, 10, READY(2));
    want_marks(b, 11, 0, 2);
    run(b, 9, 1, PITHREAD_LACKED_CHANNEL_ROW, 1);
    want_word(b, PITHREAD_TURN, 3);
    run(b, 9, 0, PITHREAD_LACKED_CHANNEL_ROW, 2);
    closed(b);
}

/* The rows that an ended thread gave up are taken; the channel overwritten is freed after that. */
static void new_after_an_end(void) {
    bench *b = all_channels();
    want_word(b, NODE(8), 20);
    impose(b);
    want_thread(b, 8, FREE);
    for (int channel = 112; channel < PITHREAD_CHANNELS; channel++) {
        want_channel(b, channel, 0, 0, 0);
    }
    step_ends(b, 8, 20);
    want_word(b, NODE(1), 20);
    want_word(b, VALUE(1, 0), 112);
    want_channel(b, 0, 0, 0, 0);
    want_channel(b, 112, 1, 1, 0);
    want_word(b, PITHREAD_NEXT_CHANNEL, 113);
    step_takes(b, 1, 19, 0, PITHREAD_NOBODY);
    closed(b);
}

/* One row is free, and the thread gives up a row that comes earlier from the mark. */
static void new_takes_the_only_free_row(void) {
    bench *b = all_channels();
    want_word(b, NODE(8), 18);
    want_word(b, VALUE(8, 15), -1);
    want_channel(b, LAST_CHANNEL, 0, 0, 0);
    impose(b);
    want_word(b, NODE(1), 20);
    want_word(b, VALUE(1, 0), LAST_CHANNEL);
    want_channel(b, 0, 0, 0, 0);
    want_channel(b, LAST_CHANNEL, 1, 1, 0);
    step_takes(b, 1, 19, 0, PITHREAD_NOBODY);
    closed(b);
}

/* The mark is on the channel that the new one replaces. */
static void old_channel_is_freed_last(void) {
    static const line lines[] = {
        TYPE(0), DEFINITION(0, 1, 3), SLOT(1),
        CHOICE(1), CHOICE(1), END,
        BRANCH(ALWAYS, NEW(0), 1),
        BRANCH(ALWAYS, NEW(0), 2),
    };
    bench *b = OPENED("the mark on the old channel", lines);
    want_thread(b, 0, READY(1, 0));
    want_channel(b, 0, 1, 1, 0);
    want_marks(b, 1, 1, 0);
    step_takes(b, 0, 0, 0, PITHREAD_NOBODY);
    want_marks(b, 1, 0, 0);
    impose(b);
    want_thread(b, 0, READY(2, 1));
    want_channel(b, 0, 0, 0, 0);
    want_channel(b, 1, 1, 1, 0);
    want_marks(b, 1, 2, 0);
    step_takes(b, 0, 1, 0, PITHREAD_NOBODY);
    closed(b);
}

/* One channel after another is made and dropped, beside the port 0. */
static void channel_mark_goes_around(void) {
    static const line lines[] = {
        TYPE(0), DEFINITION(1, 2, 2), SLOT(1), SLOT(1),
        CHOICE(1), CALL(0, 0),
        BRANCH(ALWAYS, NEW(1), 1),
    };
    bench *b = OPENED("channel mark around the end", lines);
    for (int made = 0; made < PITHREAD_CHANNELS + 2; made++) {
        int channel = 1 + made % LAST_CHANNEL;
        want_thread(b, 0, READY(1, 0, channel));
        want_channel(b, channel, 1, 1, 0);
        want_word(b, PITHREAD_NEXT_CHANNEL, (channel + 1) % PITHREAD_CHANNELS);
        step_takes(b, 0, 0, 0, PITHREAD_NOBODY);
        want_thread(b, 0, READY(0, 0, -1));
        want_channel(b, channel, 0, 0, 0);
        step_calls(b, 0, 1);
    }
    closed(b);
}

/* As for the spawn: the new at node 1 ends the step, the one at node 2 has a false guard. */
static void new_without_row_in_a_choice(void) {
    static const line lines[] = {
        TYPE(0), DEFINITION(0, 2, 4), DEFINITION(0, 16, 1), SLOT(1), SLOT(0), FOUR(FOUR(SLOT(1))),
        CHOICE(1), CHOICE(3), CHOICE(2), CALL(1), END,
        BRANCH(ALWAYS, SET(1, 0), 1),
        BRANCH(IS(1, 1), NEW(0), 3),
        BRANCH(ALWAYS, NEW(0), 2),
        BRANCH(ALWAYS, TAU, 2),
        BRANCH(IS(1, 1), NEW(0), 3),
        BRANCH(ALWAYS, TAU, 3),
    };
    bench *b = OPENED("new in a choice, no row", lines);
    walk(b, 0, 1);
    for (int child = 1; child <= PITHREAD_CHANNELS / PITHREAD_SLOTS; child++) {
        want_channels(b, child, PITHREAD_SLOTS);
        want_word(b, NODE(child), 4);
    }
    for (int channel = 0; channel < PITHREAD_CHANNELS; channel++) {
        want_channel(b, channel, 1, 1, 0);
    }
    impose(b);
    step_refused(b, 0, PITHREAD_NO_CHANNEL_ROW);
    want_word(b, NODE(0), 2);
    impose(b);
    want_word(b, NODE(0), 3);
    step_takes(b, 0, 2, 1, PITHREAD_NOBODY);
    closed(b);
}

void check_rows(void) {
    spawn_fills_all_rows();
    thread_mark();
    thread_mark_goes_around();
    spawn_without_row_in_a_choice();
    meeting_before_spawn();
    new_without_row();
    new_after_an_end();
    new_takes_the_only_free_row();
    old_channel_is_freed_last();
    channel_mark_goes_around();
    new_without_row_in_a_choice();
}
