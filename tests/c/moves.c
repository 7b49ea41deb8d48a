/* What one thread does by itself: start, set, sums, guards, calls, new channels, spawn, end. */
#include <string.h>

#include "bench.h"
#include "cases.h"
#include "listing.h"

static void want_zeros(bench *b) {
    for (size_t place = 0; place < PITHREAD_STATE_WORDS; place++) {
        want_word(b, place, 0);
    }
}

static void start_fills_all(void) {
    static const line lines[] = {
        TYPE(0), TYPE(2), DEFINITION(2, 5, 1), SLOT(1), SLOT(1), SLOT(0), SLOT(2), SLOT(1),
        END,
    };
    bench *b = OPENED("start", lines);
    want_zeros(b);
    want_marks(b, 1, 2, 0);
    want_thread(b, 0, READY(0, 0, 1, 0, -1, -1));
    want_channel(b, 0, 1, 2, 0);
    want_channel(b, 1, 1, 2, 0);
    run(b, 0, 0, PITHREAD_ALL_STEPS, PITHREAD_NOBODY);
    want_thread(b, 0, FREE);
    want_channel(b, 0, 1, 1, 0);
    want_channel(b, 1, 1, 1, 0);
    step_ends(b, 0, 0);
    closed(b);
}

static bench *opened_without_bytes(void) {
    static const uint8_t none[1];
    return opened_on("no bytes", table_of_file("no bytes", none, 0));
}

/* A file without bytes: one thread, which comes to its end at node 0, by a step or in a run. */
static void no_bytes_end(void) {
    bench *b = opened_without_bytes();
    want_zeros(b);
    want_marks(b, 1, 0, 0);
    want_thread(b, 0, READY(0));
    collect(b, 0);
    want_thread(b, 0, FREE);
    step_ends(b, 0, 0);
    step_refused(b, 0, PITHREAD_THREAD);
    run(b, 1000, 0, PITHREAD_NONE_READY, PITHREAD_NOBODY);
    collect(b, 0);
    closed(b);
    b = opened_without_bytes();
    want_thread(b, 0, FREE);
    want_marks(b, 1, 0, 1);
    run(b, 1000, 1, PITHREAD_NONE_READY, PITHREAD_NOBODY);
    closed(b);
}

static void listing_by_steps(void) {
    bench *b = OPENED("listing by steps", listing);
    want_thread(b, 0, READY(1, 0));
    want_channel(b, 0, 1, 1, 0);
    want_marks(b, 1, 1, 0);
    step_takes(b, 0, 0, 0, PITHREAD_NOBODY);
    want_thread(b, 0, READY(2, 0));
    want_thread(b, 1, READY(4, 0));
    want_channel(b, 0, 1, 2, 0);
    want_marks(b, 2, 1, 0);
    step_takes(b, 0, 1, 0, 1);
    want_thread(b, 1, WAITS(4, 0));
    want_channel(b, 0, 1, 2, 1);
    step_waits(b, 1, 4);
    want_thread(b, 0, READY(3, 0, 7));
    step_takes(b, 0, 2, 0, PITHREAD_NOBODY);
    want_thread(b, 0, READY(5, 0, 7));
    want_thread(b, 1, READY(5, 0, 7));
    want_channel(b, 0, 1, 2, 0);
    step_takes(b, 0, 3, 0, 1);
    want_thread(b, 1, FREE);
    want_channel(b, 0, 1, 1, 0);
    step_ends(b, 1, 5);
    want_thread(b, 0, FREE);
    want_channel(b, 0, 0, 0, 0);
    step_ends(b, 0, 5);
    closed(b);
}

/* Two numbers come in at the port, their sum or difference goes out. */
#define SUM_FILE(sum)                                                                                        \
    {TYPE(0), DEFINITION(1, 3, 5), SLOT(1), SLOT(0), SLOT(0), FOUR(CHOICE(1)), END,                          \
     BRANCH(ALWAYS, RECEIVE(0, 1), 1), BRANCH(ALWAYS, RECEIVE(0, 2), 2), BRANCH(ALWAYS, sum, 3),             \
     BRANCH(ALWAYS, SEND(0, 1), 4)}

static const line plus_file[] = SUM_FILE(PLUS(1, 1, 2));
static const line minus_file[] = SUM_FILE(MINUS(1, 1, 2));

/* Gives two numbers to a file whose first two nodes receive them from port 0 into slots 1 and 2. */
static void give_two(bench *b, int32_t first, int32_t second) {
    want_thread(b, 0, WAITS(0, 0));
    want_channel(b, 0, 1, 2, 1);
    step_waits(b, 0, 0);
    want_thread(b, 0, READY(1, 0, first));
    want_channel(b, 0, 1, 2, 0);
    give(b, 0, first, 0);
    want_thread(b, 0, WAITS(1, 0, first));
    want_channel(b, 0, 1, 2, 1);
    step_waits(b, 0, 1);
    want_thread(b, 0, READY(2, 0, first, second));
    want_channel(b, 0, 1, 2, 0);
    give(b, 0, second, 0);
}

static void sum_is(bench *b, int32_t first, int32_t second, int32_t result) {
    give_two(b, first, second);
    want_thread(b, 0, READY(3, 0, result, second));
    step_takes(b, 0, 2, 0, PITHREAD_NOBODY);
    want_thread(b, 0, WAITS(3, 0, result, second));
    want_channel(b, 0, 1, 2, 1);
    step_waits(b, 0, 3);
    want_thread(b, 0, READY(4, 0, result, second));
    want_channel(b, 0, 1, 2, 0);
    take(b, 0, 0, result);
    closed(b);
}

/* Numbers whose sum or difference fits a slot, with what it is. */
static void sums_fit(void) {
    static const int32_t plus[][3] = {
        {INT32_MAX - 1, 1, INT32_MAX}, {INT32_MIN + 1, -1, INT32_MIN}, {INT32_MIN, INT32_MAX, -1},
        {INT32_MAX, 0, INT32_MAX}, {-1, 1, 0}, {40, 2, 42}};
    static const int32_t minus[][3] = {
        {INT32_MIN + 1, 1, INT32_MIN}, {-1, INT32_MIN, INT32_MAX}, {INT32_MIN, 0, INT32_MIN},
        {INT32_MIN, INT32_MIN, 0}, {INT32_MAX, INT32_MAX, 0}, {2, 40, -38}};
    for (size_t place = 0; place < sizeof plus / sizeof *plus; place++) {
        sum_is(OPENED("plus", plus_file), plus[place][0], plus[place][1], plus[place][2]);
    }
    for (size_t place = 0; place < sizeof minus / sizeof *minus; place++) {
        sum_is(OPENED("minus", minus_file), minus[place][0], minus[place][1], minus[place][2]);
    }
}

/* A sum, and behind it a tau. */
#define SUM_OR_TAU_FILE(sum)                                                                                 \
    {TYPE(0), DEFINITION(1, 3, 5), SLOT(1), SLOT(0), SLOT(0), CHOICE(1), CHOICE(1), CHOICE(2), CHOICE(1),    \
     END, BRANCH(ALWAYS, RECEIVE(0, 1), 1), BRANCH(ALWAYS, RECEIVE(0, 2), 2), BRANCH(ALWAYS, sum, 3),        \
     BRANCH(ALWAYS, TAU, 3), BRANCH(ALWAYS, SEND(0, 1), 4)}

static const line plus_or_tau_file[] = SUM_OR_TAU_FILE(PLUS(1, 1, 2));
static const line minus_or_tau_file[] = SUM_OR_TAU_FILE(MINUS(1, 1, 2));

/* The branch of the sum is passed over: the next one is taken, and the slot keeps its number. */
static void sum_passed_over(bench *b, int32_t first, int32_t second) {
    give_two(b, first, second);
    want_thread(b, 0, READY(3, 0, first, second));
    step_takes(b, 0, 2, 1, PITHREAD_NOBODY);
    closed(b);
}

/* With no other branch the thread waits, for good. */
static void sum_waits(bench *b, int32_t first, int32_t second) {
    give_two(b, first, second);
    want_thread(b, 0, WAITS(2, 0, first, second));
    want_channel(b, 0, 1, 2, 1);
    step_waits(b, 0, 2);
    step_refused(b, 0, PITHREAD_THREAD);
    want_thread(b, 0, FREE);
    want_channel(b, 0, 1, 1, 0);
    collect(b, 1);
    closed(b);
}

static void sums_passed_over(void) {
    static const int32_t plus[][2] = {{INT32_MAX, 1},         {1, INT32_MAX},         {INT32_MIN, -1},
                                      {INT32_MAX, INT32_MAX}, {INT32_MIN, INT32_MIN}};
    static const int32_t minus[][2] = {{INT32_MIN, 1},         {INT32_MAX, -1},        {0, INT32_MIN},
                                       {INT32_MIN, INT32_MAX}, {INT32_MAX, INT32_MIN}};
    for (size_t place = 0; place < sizeof plus / sizeof *plus; place++) {
        sum_passed_over(OPENED("plus or tau", plus_or_tau_file), plus[place][0], plus[place][1]);
        sum_waits(OPENED("plus", plus_file), plus[place][0], plus[place][1]);
    }
    for (size_t place = 0; place < sizeof minus / sizeof *minus; place++) {
        sum_passed_over(OPENED("minus or tau", minus_or_tau_file), minus[place][0], minus[place][1]);
        sum_waits(OPENED("minus", minus_file), minus[place][0], minus[place][1]);
    }
}

/* A sum into one of its own operands, and the outermost constants. */
static void sums_read_first(void) {
    static const line lines[] = {
        DEFINITION(0, 2, 5), SLOT(0), SLOT(0),
        FOUR(CHOICE(1)), END,
        BRANCH(ALWAYS, SET(0, -32768), 1),
        BRANCH(ALWAYS, SET(1, 32767), 2),
        BRANCH(ALWAYS, PLUS(0, 0, 0), 3),
        BRANCH(ALWAYS, MINUS(1, 0, 1), 4),
    };
    bench *b = OPENED("a sum into its operand", lines);
    want_thread(b, 0, READY(1, -32768));
    step_takes(b, 0, 0, 0, PITHREAD_NOBODY);
    want_thread(b, 0, READY(2, -32768, 32767));
    step_takes(b, 0, 1, 0, PITHREAD_NOBODY);
    want_thread(b, 0, READY(3, -65536, 32767));
    step_takes(b, 0, 2, 0, PITHREAD_NOBODY);
    want_thread(b, 0, READY(4, -65536, -98303));
    step_takes(b, 0, 3, 0, PITHREAD_NOBODY);
    closed(b);
}

/* A choice of two: the first branch has this guard, the second one always goes ahead. */
#define GUARD_FILE(guard)                                                                                    \
    {TYPE(0), DEFINITION(1, 3, 5), SLOT(1), SLOT(0), SLOT(0), CHOICE(1), CHOICE(1), CHOICE(2), CHOICE(1), END, \
     BRANCH(ALWAYS, RECEIVE(0, 1), 1), BRANCH(ALWAYS, RECEIVE(0, 2), 2), BRANCH(guard, TAU, 3),              \
     BRANCH(ALWAYS, TAU, 4), BRANCH(ALWAYS, TAU, 4)}

static const line is_seven[] = GUARD_FILE(IS(1, 7));
static const line is_least[] = GUARD_FILE(IS(1, -32768));
static const line below_seven[] = GUARD_FILE(BELOW(1, 7));
static const line below_minus_one[] = GUARD_FILE(BELOW(1, -1));
static const line same[] = GUARD_FILE(SAME(1, 2));
static const line less[] = GUARD_FILE(LESS(1, 2));

static void guard_is(bench *b, int holds, int32_t first, int32_t second) {
    give_two(b, first, second);
    want_thread(b, 0, READY(holds ? 3 : 4, 0, first, second));
    step_takes(b, 0, 2, holds ? 0 : 1, PITHREAD_NOBODY);
    closed(b);
}

static void guards_with_constants(void) {
    guard_is(OPENED("equal to 7", is_seven), 1, 7, 0);
    guard_is(OPENED("equal to 7", is_seven), 0, 6, 7);
    guard_is(OPENED("equal to 7", is_seven), 0, 8, 7);
    guard_is(OPENED("equal to 7", is_seven), 0, 65543, 0);
    guard_is(OPENED("equal to -32768", is_least), 1, -32768, 0);
    guard_is(OPENED("equal to -32768", is_least), 0, 32768, 0);
    guard_is(OPENED("below 7", below_seven), 1, 6, 9);
    guard_is(OPENED("below 7", below_seven), 0, 7, 0);
    guard_is(OPENED("below 7", below_seven), 0, 8, 0);
    guard_is(OPENED("below 7", below_seven), 1, INT32_MIN, 9);
    guard_is(OPENED("below 7", below_seven), 0, INT32_MAX, 0);
    guard_is(OPENED("below -1", below_minus_one), 1, -2, 0);
    guard_is(OPENED("below -1", below_minus_one), 0, -1, -2);
    guard_is(OPENED("below -1", below_minus_one), 0, 65534, -2);
}

static void guards_with_slots(void) {
    guard_is(OPENED("two equal", same), 1, -9, -9);
    guard_is(OPENED("two equal", same), 0, 9, -9);
    guard_is(OPENED("two equal", same), 0, 1, 65537);
    guard_is(OPENED("first below second", less), 1, -1, 1);
    guard_is(OPENED("first below second", less), 0, 1, -1);
    guard_is(OPENED("first below second", less), 0, 5, 5);
    guard_is(OPENED("first below second", less), 1, INT32_MIN, INT32_MAX);
    guard_is(OPENED("first below second", less), 0, INT32_MAX, INT32_MIN);
}

static void call_swaps_numbers(void) {
    static const line lines[] = {
        TYPE(0), DEFINITION(0, 2, 3), DEFINITION(2, 4, 3), SLOT(0), SLOT(0), SLOT(0), SLOT(0), SLOT(0),
        SLOT(1),
        CHOICE(1), CHOICE(1), CALL(1, 0, 1), CHOICE(1), CHOICE(1), CALL(1, 1, 0),
        BRANCH(ALWAYS, SET(0, 3), 1),
        BRANCH(ALWAYS, SET(1, 5), 2),
        BRANCH(ALWAYS, SET(2, 9), 1),
        BRANCH(ALWAYS, NEW(3), 2),
    };
    bench *b = OPENED("a call swaps numbers", lines);
    walk(b, 0, 2);
    want_thread(b, 0, READY(3, 3, 5, 0, -1));
    step_calls(b, 0, 2);
    want_thread(b, 0, READY(4, 3, 5, 9, -1));
    step_takes(b, 0, 3, 0, PITHREAD_NOBODY);
    want_thread(b, 0, READY(5, 3, 5, 9, 0));
    want_channel(b, 0, 1, 1, 0);
    want_marks(b, 1, 1, 0);
    step_takes(b, 0, 4, 0, PITHREAD_NOBODY);
    want_thread(b, 0, READY(3, 5, 3, 0, -1));
    want_channel(b, 0, 0, 0, 0);
    step_calls(b, 0, 5);
    closed(b);
}

/* A channel in two slots has one holder, and keeps it until the second slot is overwritten. */
static void one_channel_in_two_slots(void) {
    static const line lines[] = {
        TYPE(0), DEFINITION(0, 1, 2), DEFINITION(2, 2, 3), SLOT(1), SLOT(1), SLOT(1),
        CHOICE(1), CALL(1, 0, 0), CHOICE(1), CHOICE(1), END,
        BRANCH(ALWAYS, NEW(0), 1),
        BRANCH(ALWAYS, NEW(0), 1),
        BRANCH(ALWAYS, NEW(1), 2),
    };
    bench *b = OPENED("one channel in two slots", lines);
    walk(b, 0, 1);
    want_thread(b, 0, READY(2, 0, 0));
    want_channel(b, 0, 1, 1, 0);
    step_calls(b, 0, 1);
    want_thread(b, 0, READY(3, 1, 0));
    want_channel(b, 1, 1, 1, 0);
    want_marks(b, 1, 2, 0);
    step_takes(b, 0, 2, 0, PITHREAD_NOBODY);
    want_thread(b, 0, READY(4, 1, 2));
    want_channel(b, 0, 0, 0, 0);
    want_channel(b, 2, 1, 1, 0);
    want_marks(b, 1, 3, 0);
    step_takes(b, 0, 3, 0, PITHREAD_NOBODY);
    closed(b);
}

/* The most arguments that a call can have, all in each other's place. */
static void call_reverses_eight(void) {
    static const line lines[] = {
        DEFINITION(0, 1, 2), DEFINITION(8, 9, 3), SLOT(0), FOUR(SLOT(0)), FOUR(SLOT(0)), SLOT(0),
        CHOICE(1), CALL(1, 0, 0, 0, 0, 0, 0, 0, 0), CHOICE(1), CHOICE(1), CALL(1, 7, 6, 5, 4, 3, 2, 1, 0),
        BRANCH(ALWAYS, SET(0, 1), 1),
        BRANCH(ALWAYS, SET(0, 6), 1),
        BRANCH(ALWAYS, SET(8, 4), 2),
    };
    bench *b = OPENED("eight arguments", lines);
    walk(b, 0, 1);
    want_thread(b, 0, READY(2, 1, 1, 1, 1, 1, 1, 1, 1, 0));
    step_calls(b, 0, 1);
    want_thread(b, 0, READY(4, 11, 12, 13, 14, 15, 16, 17, 18, 4));
    impose(b);
    want_thread(b, 0, READY(2, 18, 17, 16, 15, 14, 13, 12, 11, 0));
    step_calls(b, 0, 4);
    closed(b);
}

/* The last of the eight branches that a choice can have; the guards before it are false. */
static void eighth_branch(void) {
    static const line lines[] = {
        DEFINITION(0, 1, 3), SLOT(0),
        CHOICE(1), CHOICE(8), END,
        BRANCH(ALWAYS, SET(0, 8), 1),
        BRANCH(IS(0, 1), TAU, 2),
        BRANCH(IS(0, 2), TAU, 2),
        BRANCH(IS(0, 3), TAU, 2),
        BRANCH(IS(0, 4), TAU, 2),
        BRANCH(IS(0, 5), TAU, 2),
        BRANCH(IS(0, 6), TAU, 2),
        BRANCH(IS(0, 7), TAU, 2),
        BRANCH(IS(0, 8), SET(0, -8), 2),
    };
    bench *b = OPENED("the eighth branch", lines);
    walk(b, 0, 1);
    want_thread(b, 0, READY(2, -8));
    step_takes(b, 0, 1, 7, PITHREAD_NOBODY);
    closed(b);
}

enum {
    DEFINITIONS = 16,
    NODES = 12, /* in each definition */
    MOST_LINES = 864
};

static void add(line *lines, size_t *count, const line one) {
    memcpy(lines[(*count)++], one, sizeof(line));
}

static void add_nodes(line *lines, size_t *count) {
    for (int node = 1; node < DEFINITIONS * NODES; node++) {
        if (node % NODES > 0) {
            add(lines, count, (const line)CHOICE(2));
        } else {
            add(lines, count, (const line)CALL(node / NODES));
        }
    }
    add(lines, count, (const line)END);
}

/* Each node but a definition's last sets the slot of its number to its place in the file. */
static size_t long_file(line *lines) {
    size_t count = 0;
    for (int definition = 0; definition < DEFINITIONS; definition++) {
        add(lines, &count, (const line)DEFINITION(0, PITHREAD_SLOTS, NODES));
    }
    for (int slot = 0; slot < DEFINITIONS * PITHREAD_SLOTS; slot++) {
        add(lines, &count, (const line)SLOT(0));
    }
    add_nodes(lines, &count);
    for (int node = 0; node < DEFINITIONS * NODES; node++) {
        int next = node % NODES + 1;
        if (next < NODES) {
            add(lines, &count, (const line)BRANCH(ALWAYS, SET(next - 1, node), next));
            add(lines, &count, (const line)BRANCH(ALWAYS, TAU, next));
        }
    }
    return count;
}

/* One thread goes through all 192 nodes of sixteen definitions. */
static void nodes_over_the_whole_file(void) {
    static line lines[MOST_LINES];
    size_t count = long_file(lines);
    bench *b = opened("a long file", (const line *)lines, count);
    for (int node = 0; node < DEFINITIONS * NODES - 1; node++) {
        want_word(b, NODE(0), node + 1);
        if (node % NODES + 1 < NODES) {
            want_word(b, VALUE(0, node % NODES), node);
            step_takes(b, 0, node, 0, PITHREAD_NOBODY);
        } else {
            want_thread(b, 0, READY(node + 1));
            step_calls(b, 0, node);
        }
    }
    want_thread(b, 0, FREE);
    step_ends(b, 0, DEFINITIONS * NODES - 1);
    closed(b);
}

/* Definition 1 swaps its two channels; definition 2 hands the first one on twice and drops the other. */
static void call_swaps_channels(void) {
    static const line lines[] = {
        TYPE(0), DEFINITION(0, 3, 4), DEFINITION(2, 2, 1), DEFINITION(2, 2, 1), DEFINITION(2, 3, 2),
        SLOT(1), SLOT(1), SLOT(0), FOUR(SLOT(1)), SLOT(1), SLOT(1), SLOT(0),
        CHOICE(1), CHOICE(1), CHOICE(1), CALL(1, 0, 1), CALL(2, 1, 0), CALL(3, 0, 0), CHOICE(1), END,
        BRANCH(ALWAYS, NEW(0), 1),
        BRANCH(ALWAYS, NEW(1), 2),
        BRANCH(ALWAYS, SET(2, 6), 3),
        BRANCH(ALWAYS, RECEIVE(1, 2), 1),
    };
    bench *b = OPENED("a call swaps channels", lines);
    walk(b, 0, 3);
    want_thread(b, 0, READY(4, 0, 1));
    step_calls(b, 0, 3);
    want_thread(b, 0, READY(5, 1, 0));
    step_calls(b, 0, 4);
    want_thread(b, 0, READY(6, 1, 1, 0));
    want_channel(b, 0, 0, 0, 0);
    want_channel(b, 1, 1, 1, 0);
    step_calls(b, 0, 5);
    want_thread(b, 0, WAITS(6, 1, 1, 0));
    want_channel(b, 1, 1, 1, 1);
    step_waits(b, 0, 6);
    run(b, 9, 0, PITHREAD_NONE_READY, PITHREAD_NOBODY);
    closed(b);
}

/* The child stands at its own node of a later definition with all slots, written or not. */
static void spawn_copies(void) {
    static const line lines[] = {
        TYPE(0), DEFINITION(0, 0, 1), DEFINITION(0, 3, 5), SLOT(1), SLOT(1), SLOT(0),
        CALL(1), CHOICE(1), CHOICE(1), CHOICE(1), END, END,
        BRANCH(ALWAYS, NEW(0), 1),
        BRANCH(ALWAYS, SET(2, -5), 2),
        BRANCH(ALWAYS, SPAWN, 3, 4),
    };
    bench *b = OPENED("spawn", lines);
    want_thread(b, 0, READY(1, -1, -1, 0));
    step_calls(b, 0, 0);
    walk(b, 0, 2);
    want_thread(b, 0, READY(4, 0, -1, -5));
    want_thread(b, 1, READY(5, 0, -1, -5));
    want_channel(b, 0, 1, 2, 0);
    want_marks(b, 2, 1, 0);
    step_takes(b, 0, 3, 0, 1);
    want_thread(b, 0, FREE);
    want_channel(b, 0, 1, 1, 0);
    step_ends(b, 0, 4);
    want_thread(b, 1, FREE);
    want_channel(b, 0, 0, 0, 0);
    step_ends(b, 1, 5);
    closed(b);
}

/* A new channel has the type of its slot; an end frees all channels that only this thread held. */
static void end_frees_all(void) {
    static const line lines[] = {
        TYPE(0), TYPE(1), DEFINITION(0, 3, 5), SLOT(2), SLOT(1), SLOT(1),
        FOUR(CHOICE(1)), END,
        BRANCH(ALWAYS, NEW(0), 1),
        BRANCH(ALWAYS, NEW(1), 2),
        BRANCH(ALWAYS, NEW(2), 3),
        BRANCH(ALWAYS, NEW(1), 4),
    };
    bench *b = OPENED("new and end", lines);
    want_thread(b, 0, READY(1, 0, -1, -1));
    want_channel(b, 0, 2, 1, 0);
    want_marks(b, 1, 1, 0);
    step_takes(b, 0, 0, 0, PITHREAD_NOBODY);
    want_thread(b, 0, READY(2, 0, 1, -1));
    want_channel(b, 1, 1, 1, 0);
    want_marks(b, 1, 2, 0);
    step_takes(b, 0, 1, 0, PITHREAD_NOBODY);
    walk(b, 0, 1);
    want_thread(b, 0, READY(4, 0, 3, 2));
    want_channel(b, 1, 0, 0, 0);
    want_channel(b, 3, 1, 1, 0);
    want_marks(b, 1, 4, 0);
    step_takes(b, 0, 3, 0, PITHREAD_NOBODY);
    want_thread(b, 0, FREE);
    want_channel(b, 0, 0, 0, 0);
    want_channel(b, 2, 0, 0, 0);
    want_channel(b, 3, 0, 0, 0);
    step_ends(b, 0, 4);
    closed(b);
}

void check_moves(void) {
    start_fills_all();
    no_bytes_end();
    listing_by_steps();
    sums_fit();
    sums_passed_over();
    sums_read_first();
    guards_with_constants();
    guards_with_slots();
    call_swaps_numbers();
    call_swaps_channels();
    one_channel_in_two_slots();
    call_reverses_eight();
    eighth_branch();
    nodes_over_the_whole_file();
    spawn_copies();
    end_frees_all();
}
