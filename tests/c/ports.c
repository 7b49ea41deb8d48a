/* Giving and taking: who is met, nobody, and what a meeting with the bench leaves behind. */
#include "bench.h"
#include "cases.h"
#include "echo.h"

static void nobody_at(bench *b, uint32_t port) {
    give(b, port, 77, PITHREAD_NOBODY);
    take(b, port, PITHREAD_NOBODY, 0);
}

static void want_waiting(bench *b, int waiting) {
    want_channel(b, 0, 1, 2, waiting);
    want_channel(b, 1, 1, 2, waiting);
}

static void echo_once(bench *b, int32_t number) {
    want_thread(b, 0, WAITS(0, 0, 1, 0));
    want_waiting(b, 1);
    step_waits(b, 0, 0);
    take(b, 0, PITHREAD_NOBODY, 0);
    nobody_at(b, 1);
    want_thread(b, 0, READY(1, 0, 1, number));
    want_waiting(b, 0);
    give(b, 0, number, 0);
    nobody_at(b, 0);
    nobody_at(b, 1);
    want_thread(b, 0, WAITS(1, 0, 1, number));
    want_waiting(b, 1);
    step_waits(b, 0, 1);
    nobody_at(b, 0);
    give(b, 1, 77, PITHREAD_NOBODY);
    want_thread(b, 0, READY(2, 0, 1, number));
    want_waiting(b, 0);
    take(b, 1, 0, number);
    nobody_at(b, 1);
    want_thread(b, 0, READY(0, 0, 1, 0));
    step_calls(b, 0, 2);
}

static void numbers_in_and_out(void) {
    static const int32_t numbers[] = {INT32_MIN, -32769, -256, -1, 0, 1, 305419896, INT32_MAX};
    bench *b = OPENED("a number in and out", echo);
    want_word(b, PITHREAD_TURN, 40);
    impose(b);
    nobody_at(b, 0);
    for (size_t place = 0; place < sizeof numbers / sizeof *numbers; place++) {
        echo_once(b, numbers[place]);
    }
    closed(b);
}

/* Two threads come to the same receives and the same sends; each first branch has a false guard. */
static const line two_at_a_port[] = {
    TYPE(0), DEFINITION(1, 3, 7), SLOT(1), SLOT(0), SLOT(0),
    CHOICE(1), CHOICE(1), CHOICE(3), END, CHOICE(3), END, END,
    BRANCH(ALWAYS, SET(1, 5), 1),
    BRANCH(ALWAYS, SPAWN, 2, 2),
    BRANCH(IS(1, 4), RECEIVE(0, 1), 3),
    BRANCH(IS(1, 5), RECEIVE(0, 2), 4),
    BRANCH(ALWAYS, RECEIVE(0, 1), 3),
    BRANCH(IS(1, 4), SEND(0, 1), 5),
    BRANCH(ALWAYS, SEND(0, 2), 6),
    BRANCH(ALWAYS, SEND(0, 1), 5),
};

/* Thread 1 waits before thread 0 does. */
static bench *both_wait(void) {
    bench *b = OPENED("two at a port", two_at_a_port);
    walk(b, 0, 2);
    want_thread(b, 1, WAITS(2, 0, 5, 0));
    want_channel(b, 0, 1, 3, 1);
    step_waits(b, 1, 2);
    want_thread(b, 0, WAITS(2, 0, 5, 0));
    want_channel(b, 0, 1, 3, 2);
    step_waits(b, 0, 2);
    want_thread(b, 0, READY(4, 0, 5, 11));
    want_channel(b, 0, 1, 3, 1);
    give(b, 0, 11, 0);
    return b;
}

static void lowest_thread_then_lowest_branch(void) {
    bench *b = both_wait();
    want_thread(b, 1, READY(4, 0, 5, 12));
    want_channel(b, 0, 1, 3, 0);
    give(b, 0, 12, 1);
    give(b, 0, 13, PITHREAD_NOBODY);
    want_thread(b, 1, WAITS(4, 0, 5, 12));
    want_channel(b, 0, 1, 3, 1);
    step_waits(b, 1, 4);
    want_thread(b, 0, WAITS(4, 0, 5, 11));
    want_channel(b, 0, 1, 3, 2);
    step_waits(b, 0, 4);
    want_thread(b, 0, READY(6, 0, 5, 11));
    want_channel(b, 0, 1, 3, 1);
    take(b, 0, 0, 11);
    want_thread(b, 1, READY(6, 0, 5, 12));
    want_channel(b, 0, 1, 3, 0);
    take(b, 0, 1, 12);
    take(b, 0, PITHREAD_NOBODY, 0);
    closed(b);
}

static void last_thread_is_met(void) {
    bench *b = OPENED("the last thread at a port", two_at_a_port);
    want_thread(b, 0, FREE);
    want_thread(b, 63, WAITS(2, 0, 5, 0));
    want_channel(b, 0, 1, 2, 1);
    impose(b);
    want_thread(b, 63, READY(4, 0, 5, 14));
    want_channel(b, 0, 1, 2, 0);
    give(b, 0, 14, 63);
    want_thread(b, 63, WAITS(4, 0, 5, 14));
    want_channel(b, 0, 1, 2, 1);
    step_waits(b, 63, 4);
    want_thread(b, 63, READY(6, 0, 5, 14));
    want_channel(b, 0, 1, 2, 0);
    take(b, 0, 63, 14);
    closed(b);
}

/* A port is a channel between threads too, and it stays when no thread is left. */
static void threads_meet_at_a_port(void) {
    bench *b = both_wait();
    want_thread(b, 0, READY(6, 0, 5, 11));
    want_thread(b, 1, READY(4, 0, 5, 11));
    want_channel(b, 0, 1, 3, 0);
    step_takes(b, 0, 4, 1, 1);
    want_thread(b, 0, FREE);
    want_channel(b, 0, 1, 2, 0);
    step_ends(b, 0, 6);
    want_thread(b, 1, WAITS(4, 0, 5, 11));
    want_channel(b, 0, 1, 2, 1);
    step_waits(b, 1, 4);
    want_thread(b, 1, READY(6, 0, 5, 11));
    want_channel(b, 0, 1, 2, 0);
    take(b, 0, 1, 11);
    want_thread(b, 1, FREE);
    want_channel(b, 0, 1, 1, 0);
    step_ends(b, 1, 6);
    nobody_at(b, 0);
    run(b, 9, 0, PITHREAD_NONE_READY, PITHREAD_NOBODY);
    closed(b);
}

#define FROM_PORT(port) BRANCH(ALWAYS, RECEIVE(port, 8), 1)

static void eight_ports(void) {
    static const line lines[] = {
        TYPE(0), DEFINITION(8, 9, 2), FOUR(SLOT(1)), FOUR(SLOT(1)), SLOT(0),
        CHOICE(8), END,
        FROM_PORT(0), FROM_PORT(1), FROM_PORT(2), FROM_PORT(3), FROM_PORT(4), FROM_PORT(5), FROM_PORT(6),
        FROM_PORT(7),
    };
    for (uint32_t port = 0; port < 8; port++) {
        bench *b = OPENED("eight ports", lines);
        want_marks(b, 1, 8, 0);
        want_thread(b, 0, WAITS(0, 0, 1, 2, 3, 4, 5, 6, 7, 0));
        for (int each = 0; each < 8; each++) {
            want_channel(b, each, 1, 2, 1);
        }
        step_waits(b, 0, 0);
        want_thread(b, 0, READY(1, 0, 1, 2, 3, 4, 5, 6, 7, -6));
        for (int each = 0; each < 8; each++) {
            want_channel(b, each, 1, 2, 0);
        }
        give(b, port, -6, 0);
        closed(b);
    }
}

/* A thread waits on a channel of its own that has the type of the port. */
static void own_channel_is_no_port(void) {
    static const line lines[] = {
        TYPE(0), DEFINITION(1, 3, 4), SLOT(1), SLOT(1), SLOT(0),
        CHOICE(1), CHOICE(1), CHOICE(2), END,
        BRANCH(ALWAYS, NEW(1), 1),
        BRANCH(ALWAYS, SET(2, 0), 2),
        BRANCH(ALWAYS, RECEIVE(1, 2), 3),
        BRANCH(BELOW(2, 0), RECEIVE(0, 2), 3),
    };
    bench *b = OPENED("a channel that is no port", lines);
    walk(b, 0, 2);
    want_thread(b, 0, WAITS(2, 0, 1, 0));
    want_channel(b, 0, 1, 2, 1);
    want_channel(b, 1, 1, 1, 1);
    step_waits(b, 0, 2);
    nobody_at(b, 0);
    closed(b);
}

/* The child receives the port over a channel of channels, in a second slot, and waits there. */
static void port_sent_on(void) {
    static const line lines[] = {
        TYPE(0), TYPE(1), DEFINITION(1, 4, 6), SLOT(1), SLOT(2), SLOT(1), SLOT(0),
        FOUR(CHOICE(1)), CHOICE(1), END,
        BRANCH(ALWAYS, NEW(1), 1),
        BRANCH(ALWAYS, SPAWN, 2, 3),
        BRANCH(ALWAYS, SEND(1, 0), 5),
        BRANCH(ALWAYS, RECEIVE(1, 2), 4),
        BRANCH(ALWAYS, RECEIVE(2, 3), 5),
    };
    bench *b = OPENED("a port sent on", lines);
    walk(b, 0, 2);
    want_thread(b, 0, WAITS(2, 0, 1, -1, 0));
    want_channel(b, 0, 1, 3, 1);
    want_channel(b, 1, 2, 2, 1);
    step_waits(b, 0, 2);
    nobody_at(b, 0);
    want_thread(b, 0, READY(5, 0, 1, -1, 0));
    want_thread(b, 1, READY(4, 0, 1, 0, 0));
    want_channel(b, 0, 1, 3, 0);
    want_channel(b, 1, 2, 2, 0);
    step_takes(b, 1, 3, 0, 0);
    want_thread(b, 1, WAITS(4, 0, 1, 0, 0));
    want_channel(b, 0, 1, 3, 1);
    want_channel(b, 1, 2, 2, 1);
    step_waits(b, 1, 4);
    want_thread(b, 1, READY(5, 0, 1, 0, -3));
    want_channel(b, 0, 1, 3, 0);
    want_channel(b, 1, 2, 2, 0);
    give(b, 0, -3, 1);
    closed(b);
}

void check_ports(void) {
    numbers_in_and_out();
    lowest_thread_then_lowest_branch();
    last_thread_is_met();
    threads_meet_at_a_port();
    eight_ports();
    own_channel_is_no_port();
    port_sent_on();
}
