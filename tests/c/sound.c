/* Ground 10: states with one thing wrong in them, beside states that look odd and are sound. */
#include "bench.h"
#include "cases.h"

/*
 * Slots: 0 the port 0, 1 a channel that carries ports, 2 a channel like the port, 3 a number.
 * Thread 0 comes to node 4, thread 1 to node 5, thread 2 to node 6. Each further node has one kind of
 * thing that cannot wait. Definition 1 has node 13 only.
 */
static const line lines[] = {
    TYPE(0), TYPE(1), DEFINITION(1, 4, 13), DEFINITION(1, 2, 1), SLOT(1), SLOT(2), SLOT(1), SLOT(0),
    SLOT(1), SLOT(0),
    CHOICE(1), CHOICE(1), CHOICE(1), CHOICE(1), CHOICE(1), CHOICE(2), CHOICE(1), CHOICE(1), CHOICE(2),
    CHOICE(1), CHOICE(2), CHOICE(1), CALL(1, 0), END,
    BRANCH(ALWAYS, NEW(1), 1),
    BRANCH(ALWAYS, SET(3, 5), 2),
    BRANCH(ALWAYS, SPAWN, 3, 5),
    BRANCH(ALWAYS, SPAWN, 4, 6),
    BRANCH(ALWAYS, RECEIVE(1, 2), 7),
    BRANCH(ALWAYS, RECEIVE(0, 3), 8),
    BRANCH(IS(3, 6), TAU, 8),
    BRANCH(ALWAYS, SEND(1, 0), 9),
    BRANCH(ALWAYS, PLUS(3, 3, 3), 8),
    BRANCH(IS(3, 6), NEW(2), 9),
    BRANCH(ALWAYS, MINUS(3, 3, 3), 9),
    BRANCH(ALWAYS, TAU, 10),
    BRANCH(BELOW(3, 6), NEW(2), 11),
    BRANCH(ALWAYS, SEND(0, 3), 11),
    BRANCH(BELOW(3, 5), SPAWN, 12, 12),
};

/* Thread 0 is ready, the others wait. */
static bench *three_threads(void) {
    bench *b = OPENED("sound states", lines);
    walk(b, 0, 4);
    walk(b, 1, 1);
    walk(b, 2, 1);
    want_marks(b, 3, 2, 0);
    want_thread(b, 0, READY(4, 0, 1, -1, 5));
    want_thread(b, 1, WAITS(5, 0, 1, -1, 5));
    want_thread(b, 2, WAITS(6, 0, 1, -1, 5));
    want_channel(b, 0, 1, 4, 2);
    want_channel(b, 1, 2, 3, 2);
    run(b, 0, 0, PITHREAD_ALL_STEPS, PITHREAD_NOBODY);
    return b;
}

static void one_word(const bench *b, const char *what, size_t place, int32_t value) {
    unsound(b, what, EDITS({place, value}));
}

static void marks_in_range(const bench *b) {
    static const int32_t rows[] = {PITHREAD_THREADS, PITHREAD_CHANNELS, PITHREAD_THREADS};
    for (size_t place = PITHREAD_NEXT_THREAD; place <= PITHREAD_TURN; place++) {
        one_word(b, "a mark below 0", place, -1);
        one_word(b, "a mark past the last row", place, rows[place]);
        one_word(b, "a mark far below 0", place, INT32_MIN);
        one_word(b, "a mark far past the last row", place, INT32_MAX);
        one_word(b, "a mark with a high byte", place, 16777216);
        sound(b, "a mark on a row in use", EDITS({place, 0}));
        sound(b, "a mark on the last row", EDITS({place, rows[place] - 1}));
    }
}

static void rows_in_range(const bench *b) {
    one_word(b, "a status of 3", STATUS(0), 3);
    one_word(b, "a status below 0", STATUS(0), -1);
    one_word(b, "a status of 257", STATUS(0), 257);
    one_word(b, "a status of 3 where a thread waits", STATUS(1), 3);
    one_word(b, "a status below 0 where a thread waits", STATUS(1), -2);
    one_word(b, "a status of 258 where a thread waits", STATUS(1), 258);
    one_word(b, "a node below 0", NODE(0), -1);
    one_word(b, "a node past the last", NODE(0), 14);
    one_word(b, "a node far past the last", NODE(0), INT32_MAX);
    one_word(b, "a node of another definition", NODE(0), 13);
    one_word(b, "a type of no line", KIND(2), 3);
    one_word(b, "a type below 0", KIND(2), -1);
}

static void free_rows_are_0(const bench *b) {
    one_word(b, "a free thread with slots", STATUS(0), PITHREAD_FREE);
    one_word(b, "a free thread with a node", NODE(3), 1);
    one_word(b, "a free thread with a first slot", VALUE(3, 0), -1);
    one_word(b, "a free thread with a last slot", VALUE(63, 15), 1);
    one_word(b, "a free channel with a holder", HOLDERS(2), 1);
    one_word(b, "a free channel with a waiting holder", WAITING(127), 1);
    one_word(b, "a fifth slot", VALUE(0, 4), 1);
    one_word(b, "a fifth slot of a waiting thread", VALUE(1, 4), -1);
    one_word(b, "a sixteenth slot", VALUE(0, 15), -1);
}

static void slots_as_declared(const bench *b) {
    one_word(b, "a channel slot of -2", VALUE(0, 2), -2);
    one_word(b, "a channel slot of 128", VALUE(0, 2), PITHREAD_CHANNELS);
    one_word(b, "a channel slot far too high", VALUE(0, 2), INT32_MAX);
    one_word(b, "a channel slot far too low", VALUE(0, 2), INT32_MIN);
    one_word(b, "a channel slot of 256", VALUE(0, 2), 256);
    one_word(b, "a channel that is free", VALUE(0, 2), 2);
    one_word(b, "the last channel, which is free", VALUE(0, 2), 127);
    one_word(b, "a channel of another type", VALUE(0, 2), 1);
    unsound(b, "a port in a slot of another type", EDITS({VALUE(0, 1), 0}, {HOLDERS(1), 2}));
    sound(b, "a channel in a slot not yet written", EDITS({VALUE(0, 2), 0}));
    sound(b, "the highest number", EDITS({VALUE(0, 3), INT32_MAX}));
    sound(b, "the lowest number", EDITS({VALUE(0, 3), INT32_MIN}));
    sound(b, "a number like no channel", EDITS({VALUE(1, 3), 128}));
}

static void channel_slots_are_filled(const bench *b) {
    unsound(b, "a parameter not filled", EDITS({VALUE(0, 0), -1}, {HOLDERS(0), 3}));
    unsound(b, "a written slot not filled", EDITS({VALUE(0, 1), -1}, {HOLDERS(1), 2}));
    one_word(b, "a received slot not filled", NODE(0), 7);
    sound(b, "a received slot filled", EDITS({NODE(0), 7}, {VALUE(0, 2), 0}));
    sound(b, "written on one path, not filled", EDITS({NODE(0), 8}));
    sound(b, "written on one path, filled", EDITS({NODE(0), 8}, {VALUE(0, 2), 0}));
    sound(b, "not written before the first node", EDITS({NODE(0), 0}, {VALUE(0, 1), -1}, {HOLDERS(1), 2}));
    unsound(b, "written before the second node", EDITS({NODE(0), 1}, {VALUE(0, 1), -1}, {HOLDERS(1), 2}));
}

static void counts_are_true(const bench *b) {
    for (int by = -1; by <= 1; by += 2) {
        one_word(b, "another count of a port", HOLDERS(0), 4 + by);
        one_word(b, "another count of a channel", HOLDERS(1), 3 + by);
        one_word(b, "another waiting count of a port", WAITING(0), 2 + by);
        one_word(b, "another waiting count of a channel", WAITING(1), 2 + by);
    }
    unsound(b, "a slot counted, not its holder", EDITS({VALUE(0, 2), 0}, {HOLDERS(0), 5}));
    unsound(b, "a waiting slot counted", EDITS({VALUE(1, 2), 0}, {HOLDERS(0), 5}, {WAITING(0), 3}));
    sound(b, "a waiting holder with two slots", EDITS({VALUE(1, 2), 0}));
    one_word(b, "in use without a holder", KIND(2), 1);
    unsound(b, "in use, with a count and no holder", EDITS({KIND(2), 1}, {HOLDERS(2), 1}));
    one_word(b, "held and without a type", KIND(1), 0);
    unsound(b, "held and free", EDITS({KIND(1), 0}, {HOLDERS(1), 0}, {WAITING(1), 0}));
    one_word(b, "held and of another type", KIND(1), 1);
}

/* Thread 1 waits at another node, where it could be ready. The slot 2 is filled for node 7. */
static void cannot_wait_at(const bench *b, const char *what, int node) {
    unsound(b, what, EDITS({NODE(1), node}, {VALUE(1, 2), 0}));
    sound(b, what,
          EDITS({NODE(1), node}, {VALUE(1, 2), 0}, {STATUS(1), PITHREAD_READY}, {WAITING(0), 1},
                {WAITING(1), 1}));
}

static void waiting_where_one_can(const bench *b) {
    cannot_wait_at(b, "waiting at a new", 0);
    cannot_wait_at(b, "waiting at a set", 1);
    cannot_wait_at(b, "waiting at a spawn", 2);
    cannot_wait_at(b, "waiting at a sum", 7);
    cannot_wait_at(b, "waiting at a difference", 8);
    cannot_wait_at(b, "waiting at a tau", 9);
    cannot_wait_at(b, "waiting at a new with a true guard", 10);
    cannot_wait_at(b, "waiting at a call", 12);
    one_word(b, "waiting at a tau that has become true", VALUE(1, 3), 6);
    sound(b, "waiting at a spawn with a false guard", EDITS({NODE(1), 11}));
    unsound(b, "waiting at a spawn with a true guard", EDITS({NODE(1), 11}, {VALUE(1, 3), 4}));
}

/* Thread 1 waits at node 7, where a number is doubled. */
static void waiting_at_a_sum(const bench *b) {
    static const int32_t fits[] = {1073741823, -1073741824}, does_not_fit[] = {1073741824, -1073741825};
    for (size_t place = 0; place < 2; place++) {
        unsound(b, "waiting at a sum that fits",
                EDITS({NODE(1), 7}, {VALUE(1, 2), 0}, {VALUE(1, 3), fits[place]}));
        sound(b, "waiting at a sum that does not fit",
              EDITS({NODE(1), 7}, {VALUE(1, 2), 0}, {VALUE(1, 3), does_not_fit[place]}));
    }
}

/* Thread 1 at the end of definition 1, which has neither slot 1 as a channel nor slots 2 and 3. */
static void waiting_at_an_end(const bench *b) {
    unsound(b, "waiting at an end",
            EDITS({NODE(1), 13}, {VALUE(1, 1), 0}, {VALUE(1, 2), 0}, {VALUE(1, 3), 0}, {HOLDERS(1), 2},
                  {WAITING(1), 1}));
    sound(b, "ready at an end",
          EDITS({NODE(1), 13}, {VALUE(1, 1), 0}, {VALUE(1, 2), 0}, {VALUE(1, 3), 0}, {HOLDERS(1), 2},
                {STATUS(1), PITHREAD_READY}, {WAITING(0), 1}, {WAITING(1), 1}));
}

/* Thread 0 waits too: beside an offer that its own would meet, or beside others. */
static void waiting_with_an_opposite(const bench *b) {
    unsound(b, "a receiver and a sender wait",
            EDITS({STATUS(0), PITHREAD_WAITING}, {WAITING(0), 3}, {WAITING(1), 3}));
    sound(b, "the sender is ready",
          EDITS({STATUS(0), PITHREAD_WAITING}, {STATUS(2), PITHREAD_READY}, {WAITING(0), 2}, {WAITING(1), 2}));
    sound(b, "two senders wait",
          EDITS({STATUS(0), PITHREAD_WAITING}, {NODE(0), 6}, {WAITING(0), 3}, {WAITING(1), 3}));
    sound(b, "two receivers wait",
          EDITS({STATUS(0), PITHREAD_WAITING}, {NODE(0), 5}, {WAITING(0), 3}, {WAITING(1), 3}));
    unsound(b, "a sender and a receiver wait at a port",
            EDITS({STATUS(0), PITHREAD_WAITING}, {NODE(0), 10}, {VALUE(0, 3), 6}, {WAITING(0), 3},
                  {WAITING(1), 3}));
    sound(b, "the receiver at the port is ready",
          EDITS({STATUS(0), PITHREAD_WAITING}, {NODE(0), 10}, {VALUE(0, 3), 6}, {STATUS(1), PITHREAD_READY},
                {WAITING(0), 2}, {WAITING(1), 2}));
}

/* No thread is left; the ports stay as the bench holds them. */
static void ports_are_in_use(void) {
    static const line ports[] = {TYPE(0), TYPE(0), DEFINITION(2, 2, 1), SLOT(1), SLOT(1), END};
    bench *b = OPENED("ports without a thread", ports);
    want_thread(b, 0, FREE);
    want_channel(b, 0, 1, 1, 0);
    want_channel(b, 1, 1, 1, 0);
    step_ends(b, 0, 0);
    sound(b, "no thread at all", EDITS({PITHREAD_TURN, 0}));
    for (int port = 0; port < 2; port++) {
        unsound(b, "a port that is free", EDITS({KIND(port), 0}, {HOLDERS(port), 0}));
        one_word(b, "a port of another type", KIND(port), 2);
        one_word(b, "a port that the bench does not hold", HOLDERS(port), 0);
        one_word(b, "a port with a holder too many", HOLDERS(port), 2);
        one_word(b, "the bench counted as waiting", WAITING(port), 1);
    }
    unsound(b, "a channel behind the ports", EDITS({KIND(2), 1}, {HOLDERS(2), 1}));
    closed(b);
}

void check_sound_states(void) {
    bench *b = three_threads();
    marks_in_range(b);
    rows_in_range(b);
    free_rows_are_0(b);
    slots_as_declared(b);
    channel_slots_are_filled(b);
    counts_are_true(b);
    waiting_where_one_can(b);
    waiting_at_a_sum(b);
    waiting_at_an_end(b);
    waiting_with_an_opposite(b);
    closed(b);
    ports_are_in_use();
}
