/* Sends and receives: who waits, who is met, and what becomes of the channels held. */
#include "bench.h"
#include "cases.h"

/* The child takes the number 4 along, the parent has 9; both come to a choice of send and receive. */
static const line send_or_receive[] = {
    TYPE(0), DEFINITION(0, 2, 7), SLOT(1), SLOT(0),
    FOUR(CHOICE(1)), CHOICE(2), END, END,
    BRANCH(ALWAYS, NEW(0), 1),
    BRANCH(ALWAYS, SET(1, 4), 2),
    BRANCH(ALWAYS, SPAWN, 3, 4),
    BRANCH(ALWAYS, SET(1, 9), 4),
    BRANCH(ALWAYS, SEND(0, 1), 5),
    BRANCH(ALWAYS, RECEIVE(0, 1), 6),
};

/* A thread does not meet its own offer, so it waits; nobody else can ever meet it, and a collection takes it. */
static void own_offer_is_not_met(void) {
    static const line lines[] = {
        TYPE(0), DEFINITION(0, 2, 4), SLOT(1), SLOT(0),
        CHOICE(1), CHOICE(1), CHOICE(2), END,
        BRANCH(ALWAYS, NEW(0), 1),
        BRANCH(ALWAYS, SET(1, 4), 2),
        BRANCH(ALWAYS, SEND(0, 1), 3),
        BRANCH(ALWAYS, RECEIVE(0, 1), 3),
    };
    bench *b = OPENED("send and receive of one channel, alone", lines);
    walk(b, 0, 2);
    want_thread(b, 0, WAITS(2, 0, 4));
    want_channel(b, 0, 1, 1, 1);
    step_waits(b, 0, 2);
    run(b, 9, 0, PITHREAD_NONE_READY, PITHREAD_NOBODY);
    step_refused(b, 0, PITHREAD_THREAD);
    want_thread(b, 0, FREE);
    want_channel(b, 0, 0, 0, 0);
    collect(b, 1);
    closed(b);
}

static void own_offer_of_a_type_in_itself(void) {
    static const line lines[] = {
        TYPE(1), DEFINITION(0, 1, 3), SLOT(1),
        CHOICE(1), CHOICE(2), END,
        BRANCH(ALWAYS, NEW(0), 1),
        BRANCH(ALWAYS, RECEIVE(0, 0), 2),
        BRANCH(ALWAYS, SEND(0, 0), 2),
    };
    bench *b = OPENED("a channel over itself, alone", lines);
    walk(b, 0, 1);
    want_thread(b, 0, WAITS(1, 0));
    want_channel(b, 0, 1, 1, 1);
    step_waits(b, 0, 1);
    run(b, 9, 0, PITHREAD_NONE_READY, PITHREAD_NOBODY);
    closed(b);
}

/* Whoever comes second sends, since its send stands first; the one that waited goes on at its own next. */
static void another_offer_is_met(void) {
    bench *b = OPENED("the child meets the parent", send_or_receive);
    walk(b, 0, 5);
    want_thread(b, 0, READY(6, 0, 4));
    want_thread(b, 1, READY(5, 0, 4));
    want_channel(b, 0, 1, 2, 0);
    step_takes(b, 1, 4, 0, 0);
    closed(b);
    b = OPENED("the parent meets the child", send_or_receive);
    walk(b, 0, 4);
    walk(b, 1, 1);
    want_thread(b, 0, READY(5, 0, 9));
    want_thread(b, 1, READY(6, 0, 9));
    want_channel(b, 0, 1, 2, 0);
    step_takes(b, 0, 4, 0, 1);
    closed(b);
}

/* The last thread row and the last channel row take part like any other. */
static void last_rows_meet(void) {
    bench *b = OPENED("the last rows", send_or_receive);
    want_thread(b, 0, FREE);
    want_thread(b, 62, READY(4, 127, 9));
    want_thread(b, 63, WAITS(4, 127, 4));
    want_channel(b, 127, 1, 2, 1);
    impose(b);
    want_thread(b, 62, READY(5, 127, 9));
    want_thread(b, 63, READY(6, 127, 9));
    want_channel(b, 127, 1, 2, 0);
    step_takes(b, 62, 4, 0, 63);
    want_thread(b, 63, FREE);
    want_channel(b, 127, 1, 1, 0);
    step_ends(b, 63, 6);
    want_thread(b, 62, FREE);
    want_channel(b, 127, 0, 0, 0);
    step_ends(b, 62, 5);
    closed(b);
}

static void receiver_meets_waiting_sender(void) {
    static const line lines[] = {
        TYPE(0), DEFINITION(0, 3, 8), SLOT(1), SLOT(0), SLOT(0),
        FOUR(CHOICE(1)), CHOICE(1), CHOICE(1), END, END,
        BRANCH(ALWAYS, NEW(0), 1),
        BRANCH(ALWAYS, SET(1, 8), 2),
        BRANCH(ALWAYS, SPAWN, 3, 5),
        BRANCH(ALWAYS, SET(1, 3), 4),
        BRANCH(ALWAYS, RECEIVE(0, 2), 6),
        BRANCH(ALWAYS, SEND(0, 1), 7),
    };
    bench *b = OPENED("a receiver meets a waiting sender", lines);
    walk(b, 0, 4);
    want_thread(b, 1, WAITS(5, 0, 8));
    want_channel(b, 0, 1, 2, 1);
    step_waits(b, 1, 5);
    want_thread(b, 0, READY(6, 0, 3, 8));
    want_thread(b, 1, READY(7, 0, 8));
    want_channel(b, 0, 1, 2, 0);
    step_takes(b, 0, 4, 0, 1);
    closed(b);
}

/* Threads 1 and 2 wait at the same choice of three receives, the first of them with a false guard. */
static const line two_receivers[] = {
    TYPE(0), DEFINITION(0, 4, 9), SLOT(1), SLOT(0), SLOT(0), SLOT(0),
    FOUR(CHOICE(1)), CHOICE(1), CHOICE(1), CHOICE(3), END, END,
    BRANCH(ALWAYS, NEW(0), 1),
    BRANCH(ALWAYS, SET(1, 5), 2),
    BRANCH(ALWAYS, SPAWN, 3, 6),
    BRANCH(ALWAYS, SPAWN, 4, 6),
    BRANCH(ALWAYS, SEND(0, 1), 5),
    BRANCH(ALWAYS, SEND(0, 1), 7),
    BRANCH(IS(1, 4), RECEIVE(0, 1), 7),
    BRANCH(ALWAYS, RECEIVE(0, 2), 8),
    BRANCH(ALWAYS, RECEIVE(0, 3), 7),
};

static void lowest_thread_then_lowest_branch(void) {
    bench *b = OPENED("two receivers", two_receivers);
    walk(b, 0, 4);
    want_thread(b, 2, WAITS(6, 0, 5));
    want_channel(b, 0, 1, 3, 1);
    step_waits(b, 2, 6);
    want_thread(b, 1, WAITS(6, 0, 5));
    want_channel(b, 0, 1, 3, 2);
    step_waits(b, 1, 6);
    want_word(b, PITHREAD_TURN, 2);
    impose(b);
    want_thread(b, 0, READY(5, 0, 5));
    want_thread(b, 1, READY(8, 0, 5, 5));
    want_channel(b, 0, 1, 3, 1);
    step_takes(b, 0, 4, 0, 1);
    want_thread(b, 0, READY(7, 0, 5));
    want_thread(b, 2, READY(8, 0, 5, 5));
    want_channel(b, 0, 1, 3, 0);
    step_takes(b, 0, 5, 0, 2);
    closed(b);
}

/* A receiver that is ready, not waiting, is not met. */
static void ready_thread_is_not_met(void) {
    bench *b = OPENED("a ready receiver", two_receivers);
    walk(b, 0, 4);
    walk(b, 2, 1);
    want_thread(b, 0, READY(5, 0, 5));
    want_thread(b, 2, READY(8, 0, 5, 5));
    want_channel(b, 0, 1, 3, 0);
    step_takes(b, 0, 4, 0, 2);
    want_thread(b, 0, WAITS(5, 0, 5));
    want_channel(b, 0, 1, 3, 1);
    step_waits(b, 0, 5);
    want_thread(b, 0, READY(7, 0, 5));
    want_thread(b, 1, READY(8, 0, 5, 5));
    want_channel(b, 0, 1, 3, 0);
    step_takes(b, 1, 6, 1, 0);
    closed(b);
}

/* Thread 1 waits on the channel in slot 0, thread 2 on the one in slot 1. */
static const line own_branches[] = {
    TYPE(0), DEFINITION(0, 3, 11), SLOT(1), SLOT(1), SLOT(0),
    FOUR(CHOICE(1)), CHOICE(1), CHOICE(4), CHOICE(4), CHOICE(2), CHOICE(1), CHOICE(1), END,
    BRANCH(ALWAYS, NEW(0), 1),
    BRANCH(ALWAYS, NEW(1), 2),
    BRANCH(ALWAYS, SET(2, 6), 3),
    BRANCH(ALWAYS, SPAWN, 4, 8),
    BRANCH(ALWAYS, SPAWN, 5, 9),
    BRANCH(IS(2, 5), SEND(0, 2), 10),
    BRANCH(ALWAYS, SEND(1, 2), 6),
    BRANCH(ALWAYS, SEND(0, 2), 10),
    BRANCH(ALWAYS, TAU, 10),
    BRANCH(ALWAYS, SEND(1, 2), 10),
    BRANCH(ALWAYS, RECEIVE(0, 2), 10),
    BRANCH(ALWAYS, SEND(0, 2), 7),
    BRANCH(ALWAYS, TAU, 10),
    BRANCH(ALWAYS, SEND(0, 2), 10),
    BRANCH(ALWAYS, TAU, 10),
    BRANCH(ALWAYS, RECEIVE(0, 2), 10),
    BRANCH(ALWAYS, RECEIVE(1, 2), 10),
};

static void own_branches_in_order(void) {
    bench *b = OPENED("own branches in order", own_branches);
    walk(b, 0, 5);
    walk(b, 1, 1);
    walk(b, 2, 1);
    want_thread(b, 0, READY(6, 0, 1, 6));
    want_thread(b, 2, READY(10, 0, 1, 6));
    want_channel(b, 0, 1, 3, 1);
    want_channel(b, 1, 1, 3, 1);
    step_takes(b, 0, 5, 1, 2);
    want_thread(b, 0, READY(7, 0, 1, 6));
    want_thread(b, 1, READY(10, 0, 1, 6));
    want_channel(b, 0, 1, 3, 0);
    want_channel(b, 1, 1, 3, 0);
    step_takes(b, 0, 6, 2, 1);
    want_thread(b, 0, READY(10, 0, 1, 6));
    step_takes(b, 0, 7, 1, PITHREAD_NOBODY);
    closed(b);
}

/* The guard of the receiver is false: it waits and offers nothing, so the sender waits too. */
static void false_guards_offer_nothing(void) {
    static const line lines[] = {
        TYPE(0), DEFINITION(0, 2, 6), SLOT(1), SLOT(0),
        FOUR(CHOICE(1)), CHOICE(2), END,
        BRANCH(ALWAYS, NEW(0), 1),
        BRANCH(ALWAYS, SET(1, 5), 2),
        BRANCH(ALWAYS, SPAWN, 3, 4),
        BRANCH(ALWAYS, SEND(0, 1), 5),
        BRANCH(IS(1, 6), RECEIVE(0, 1), 5),
        BRANCH(BELOW(1, 5), TAU, 5),
    };
    bench *b = OPENED("all guards false", lines);
    walk(b, 0, 3);
    want_thread(b, 1, WAITS(4, 0, 5));
    want_channel(b, 0, 1, 2, 1);
    step_waits(b, 1, 4);
    want_thread(b, 0, WAITS(3, 0, 5));
    want_channel(b, 0, 1, 2, 2);
    step_waits(b, 0, 3);
    run(b, 9, 0, PITHREAD_NONE_READY, PITHREAD_NOBODY);
    closed(b);
}

/* The parent has two channels of a type that carries itself; the child has the first and waits on it. */
#define OVER_ITSELF(value, into)                                                                             \
    {TYPE(1), DEFINITION(0, 2, 6), SLOT(1), SLOT(1), FOUR(CHOICE(1)), CHOICE(1), END,                        \
     BRANCH(ALWAYS, NEW(0), 1), BRANCH(ALWAYS, SPAWN, 2, 4), BRANCH(ALWAYS, NEW(1), 3),                      \
     BRANCH(ALWAYS, SEND(0, value), 5), BRANCH(ALWAYS, RECEIVE(0, into), 5)}

static const line other_over_it[] = OVER_ITSELF(1, 0);
static const line itself_over_it[] = OVER_ITSELF(0, 1);
static const line both_known[] = OVER_ITSELF(1, 1);

static bench *child_waits(bench *b) {
    walk(b, 0, 3);
    want_thread(b, 1, WAITS(4, 0, -1));
    want_channel(b, 0, 1, 2, 1);
    step_waits(b, 1, 4);
    want_thread(b, 0, READY(5, 0, 1));
    return b;
}

/* The receiver gives up the channel on which it received, and the sender is its last holder. */
static void received_into_the_channel(void) {
    bench *b = child_waits(OPENED("received into the channel's slot", other_over_it));
    want_thread(b, 1, READY(5, 1, -1));
    want_channel(b, 0, 1, 1, 0);
    want_channel(b, 1, 1, 2, 0);
    step_takes(b, 0, 3, 0, 1);
    want_thread(b, 0, FREE);
    want_channel(b, 0, 0, 0, 0);
    want_channel(b, 1, 1, 1, 0);
    step_ends(b, 0, 5);
    want_thread(b, 1, FREE);
    want_channel(b, 1, 0, 0, 0);
    step_ends(b, 1, 5);
    closed(b);
}

/* A thread with one channel in two slots is one holder. */
static void sent_over_itself(void) {
    bench *b = child_waits(OPENED("sent over itself", itself_over_it));
    want_thread(b, 1, READY(5, 0, 0));
    want_channel(b, 0, 1, 2, 0);
    step_takes(b, 0, 3, 0, 1);
    want_thread(b, 1, FREE);
    want_channel(b, 0, 1, 1, 0);
    step_ends(b, 1, 5);
    closed(b);
    b = child_waits(OPENED("a second channel of the type", both_known));
    want_thread(b, 1, READY(5, 0, 1));
    want_channel(b, 0, 1, 2, 0);
    want_channel(b, 1, 1, 2, 0);
    step_takes(b, 0, 3, 0, 1);
    closed(b);
}

/* The channel itself is sent and received in the one slot that each has. */
static void one_slot_over_itself(void) {
    static const line lines[] = {
        TYPE(1), DEFINITION(0, 1, 5), SLOT(1),
        FOUR(CHOICE(1)), END,
        BRANCH(ALWAYS, NEW(0), 1),
        BRANCH(ALWAYS, SPAWN, 2, 3),
        BRANCH(ALWAYS, SEND(0, 0), 4),
        BRANCH(ALWAYS, RECEIVE(0, 0), 4),
    };
    bench *b = OPENED("one slot, over itself", lines);
    walk(b, 0, 2);
    want_thread(b, 0, WAITS(2, 0));
    want_channel(b, 0, 1, 2, 1);
    step_waits(b, 0, 2);
    want_thread(b, 0, READY(4, 0));
    want_thread(b, 1, READY(4, 0));
    want_channel(b, 0, 1, 2, 0);
    step_takes(b, 1, 3, 0, 0);
    closed(b);
}

/* The receiver's last own channel is overwritten and freed; a waiting holder counts for all it holds. */
static void received_over_the_last_holder(void) {
    static const line lines[] = {
        TYPE(0), TYPE(1), DEFINITION(0, 2, 7), SLOT(2), SLOT(1),
        FOUR(CHOICE(1)), CHOICE(1), CHOICE(1), END,
        BRANCH(ALWAYS, NEW(0), 1),
        BRANCH(ALWAYS, SPAWN, 2, 4),
        BRANCH(ALWAYS, NEW(1), 3),
        BRANCH(ALWAYS, SEND(0, 1), 6),
        BRANCH(ALWAYS, NEW(1), 5),
        BRANCH(ALWAYS, RECEIVE(0, 1), 6),
    };
    bench *b = OPENED("the last holder receives", lines);
    walk(b, 0, 3);
    walk(b, 1, 1);
    want_thread(b, 1, WAITS(5, 0, 2));
    want_channel(b, 0, 2, 2, 1);
    want_channel(b, 2, 1, 1, 1);
    step_waits(b, 1, 5);
    want_thread(b, 0, READY(6, 0, 1));
    want_thread(b, 1, READY(6, 0, 1));
    want_channel(b, 0, 2, 2, 0);
    want_channel(b, 1, 1, 2, 0);
    want_channel(b, 2, 0, 0, 0);
    step_takes(b, 0, 3, 0, 1);
    closed(b);
}

void check_meetings(void) {
    own_offer_is_not_met();
    own_offer_of_a_type_in_itself();
    another_offer_is_met();
    last_rows_meet();
    receiver_meets_waiting_sender();
    lowest_thread_then_lowest_branch();
    ready_thread_is_not_met();
    own_branches_in_order();
    false_guards_offer_nothing();
    received_into_the_channel();
    sent_over_itself();
    one_slot_over_itself();
    received_over_the_last_holder();
}
