#include "bench.h"

#include <stdio.h>
#include <stdlib.h>
#include <string.h>

#include "checks.h"

#define MOST_TEXT 300

_Static_assert(PITHREAD_STATE_BYTES == 4 * PITHREAD_STATE_WORDS, "a word has four bytes");
_Static_assert(PITHREAD_CHANNEL_ROWS == PITHREAD_THREAD_ROWS + PITHREAD_THREAD_WORDS * PITHREAD_THREADS,
               "channel rows follow the thread rows");
_Static_assert(PITHREAD_STATE_WORDS == PITHREAD_CHANNEL_ROWS + PITHREAD_CHANNEL_WORDS * PITHREAD_CHANNELS,
               "a state ends with the channel rows");
_Static_assert(PITHREAD_THREAD_WORDS == PITHREAD_THREAD_SLOTS + PITHREAD_SLOTS, "a row ends with its slots");

static const char *const names[CALLS] = {"start", "step", "give", "take", "run", "collect"};

bench *opened(const char *name, const line *lines, size_t count) {
    return opened_on(name, table_of(name, lines, count));
}

bench *opened_on(const char *name, uint8_t *table) {
    bench *b = malloc(sizeof *b);
    if (b == NULL) {
        exit(2);
    }
    b->name = name;
    b->table = table;
    b->loaded = copied(b->table, PITHREAD_TABLE_BYTES);
    b->state = filled(PITHREAD_STATE_BYTES, PATTERN);
    b->calls = 0;
    pithread_started started = pithread_start(b->table, PITHREAD_TABLE_BYTES, b->state, PITHREAD_STATE_BYTES);
    check(started.refusal == PITHREAD_DONE, name);
    b->wanted = copied(b->state, PITHREAD_STATE_BYTES);
    b->rights = same_rights(PITHREAD_BOTH_RIGHTS);
    b->granted = same_rights(PITHREAD_BOTH_RIGHTS);
    return b;
}

void closed(bench *b) {
    free(b->table);
    free(b->loaded);
    free(b->state);
    free(b->wanted);
    free(b->rights);
    free(b->granted);
    free(b);
}

void want_word(bench *b, size_t place, int32_t value) {
    put_word(b->wanted, place, value);
}

void want_marks(bench *b, int next_thread, int next_channel, int turn) {
    want_word(b, PITHREAD_NEXT_THREAD, next_thread);
    want_word(b, PITHREAD_NEXT_CHANNEL, next_channel);
    want_word(b, PITHREAD_TURN, turn);
}

void want_thread(bench *b, int thread, const int32_t *row) {
    for (int word = 0; word < PITHREAD_THREAD_WORDS; word++) {
        want_word(b, THREAD(thread, word), row[word]);
    }
}

void want_channel(bench *b, int channel, int type, int holders, int waiting) {
    want_word(b, KIND(channel), type);
    want_word(b, HOLDERS(channel), holders);
    want_word(b, WAITING(channel), waiting);
}

void impose(bench *b) {
    memcpy(b->state, b->wanted, PITHREAD_STATE_BYTES);
}

void adopt(bench *b) {
    memcpy(b->wanted, b->state, PITHREAD_STATE_BYTES);
}

buffers lent(const bench *b, const uint8_t *table, size_t table_length, uint8_t *state, size_t state_length) {
    buffers with = {table, table_length, state, state_length, b->rights, PITHREAD_RIGHTS_BYTES,
                    (uint32_t)b->calls % PITHREAD_SEATS};
    return with;
}

buffers buffers_of(const bench *b, uint8_t *state) {
    return lent(b, b->table, PITHREAD_TABLE_BYTES, state, PITHREAD_STATE_BYTES);
}

/* What every call that names a seat has first. */
#define SEATED(with)                                                                                       \
    (with).table, (with).table_length, (with).state, (with).state_length, (with).rights, (with).rights_length, \
        (with).seat

static answer ask_whole(int call, buffers with) {
    if (call == START) {
        pithread_started started =
            pithread_start(with.table, with.table_length, with.state, with.state_length);
        return (answer){{started.refusal}};
    }
    pithread_collected collected = pithread_collect(SEATED(with));
    return (answer){{collected.refusal, collected.threads}};
}

static answer ask_steps(int call, buffers with, uint32_t number) {
    if (call == STEP) {
        pithread_stepped stepped = pithread_step(SEATED(with), number);
        return (answer){{stepped.refusal, stepped.node, stepped.act, stepped.branch, stepped.partner}};
    }
    pithread_ran ran = pithread_run(SEATED(with), (uint16_t)number);
    return (answer){{ran.refusal, ran.steps, ran.reason, ran.thread}};
}

static answer ask_port(int call, buffers with, uint32_t port, int32_t number) {
    if (call == GIVE) {
        pithread_given given = pithread_give(SEATED(with), port, number);
        return (answer){{given.refusal, given.thread}};
    }
    pithread_taken taken = pithread_take(SEATED(with), port);
    return (answer){{taken.refusal, taken.thread, taken.number}};
}

answer ask(int call, buffers with, uint32_t number, int32_t value) {
    if (call == START || call == COLLECT) {
        return ask_whole(call, with);
    }
    if (call == STEP || call == RUN) {
        return ask_steps(call, with, number);
    }
    return ask_port(call, with, number, value);
}

static void check_answer(const char *name, const char *call, uint32_t number, answer got, answer wanted) {
    char what[MOST_TEXT];
    const int32_t *g = got.numbers;
    const int32_t *w = wanted.numbers;
    snprintf(what, sizeof what, "%s: %s %lu answers %ld %ld %ld %ld %ld, not %ld %ld %ld %ld %ld", name, call,
             (unsigned long)number, (long)g[0], (long)g[1], (long)g[2], (long)g[3], (long)g[4], (long)w[0],
             (long)w[1], (long)w[2], (long)w[3], (long)w[4]);
    check(memcmp(g, w, sizeof got.numbers) == 0, what);
}

/* All words are as wanted; the first one that is not is named. */
static void check_state(const bench *b) {
    char what[MOST_TEXT] = "";
    size_t place = 0;
    while (place < PITHREAD_STATE_WORDS && word_at(b->state, place) == word_at(b->wanted, place)) {
        place++;
    }
    if (place < PITHREAD_STATE_WORDS) {
        snprintf(what, sizeof what, "%s: after call %d word %d is %ld, not %ld", b->name, b->calls, (int)place,
                 (long)word_at(b->state, place), (long)word_at(b->wanted, place));
    }
    check(place == PITHREAD_STATE_WORDS, what);
}

static void expect(bench *b, int call, uint32_t number, int32_t value, answer wanted) {
    b->calls++;
    check_answer(b->name, names[call], number, ask(call, buffers_of(b, b->state), number, value), wanted);
    check_state(b);
    check(memcmp(b->table, b->loaded, PITHREAD_TABLE_BYTES) == 0, b->name);
    check(memcmp(b->rights, b->granted, PITHREAD_RIGHTS_BYTES) == 0, b->name);
}

void step_takes(bench *b, uint32_t thread, int node, int branch, int partner) {
    expect(b, STEP, thread, 0, (answer){{0, node, PITHREAD_BRANCH, branch, partner}});
}

void step_waits(bench *b, uint32_t thread, int node) {
    expect(b, STEP, thread, 0, (answer){{0, node, PITHREAD_WAITS, 0, PITHREAD_NOBODY}});
}

void step_ends(bench *b, uint32_t thread, int node) {
    expect(b, STEP, thread, 0, (answer){{0, node, PITHREAD_ENDED, 0, PITHREAD_NOBODY}});
}

void step_calls(bench *b, uint32_t thread, int node) {
    expect(b, STEP, thread, 0, (answer){{0, node, PITHREAD_CALLED, 0, PITHREAD_NOBODY}});
}

void step_refused(bench *b, uint32_t thread, int ground) {
    expect(b, STEP, thread, 0, (answer){{ground}});
}

void give(bench *b, uint32_t port, int32_t number, int thread) {
    expect(b, GIVE, port, number, (answer){{0, thread}});
}

void take(bench *b, uint32_t port, int thread, int32_t number) {
    expect(b, TAKE, port, 0, (answer){{0, thread, number}});
}

void run(bench *b, uint16_t n, int steps, int reason, int thread) {
    expect(b, RUN, n, 0, (answer){{0, steps, reason, thread}});
}

void collect(bench *b, int threads) {
    expect(b, COLLECT, 0, 0, (answer){{0, threads}});
}

void walk(bench *b, uint32_t thread, int steps) {
    for (int made = 0; made < steps; made++) {
        check(ask(STEP, buffers_of(b, b->state), thread, 0).numbers[0] == PITHREAD_DONE, b->name);
    }
    adopt(b);
}

void settle(bench *b) {
    answer ran = ask(RUN, buffers_of(b, b->state), 1000, 0);
    check(ran.numbers[0] == PITHREAD_DONE && ran.numbers[2] == PITHREAD_NONE_READY, b->name);
    adopt(b);
}

void expect_refused(const char *name, int call, buffers with, uint32_t number, int ground) {
    uint8_t *table = copied(with.table, with.table_length);
    uint8_t *state = copied(with.state, with.state_length);
    uint8_t *rights = copied(with.rights, with.rights_length);
    check_answer(name, names[call], number, ask(call, with, number, 5), (answer){{ground}});
    check(memcmp(table, with.table, with.table_length) == 0, name);
    check(memcmp(state, with.state, with.state_length) == 0, name);
    check(memcmp(rights, with.rights, with.rights_length) == 0, name);
    free(table);
    free(state);
    free(rights);
}

static uint8_t *edited(const bench *b, const edit *edits, size_t count) {
    uint8_t *state = copied(b->state, PITHREAD_STATE_BYTES);
    for (size_t place = 0; place < count; place++) {
        put_word(state, edits[place].place, edits[place].value);
    }
    return state;
}

void unsound(const bench *b, const char *what, const edit *edits, size_t count) {
    static const uint32_t numbers[] = {0, 7}; /* the cases have neither a thread nor a port 7 */
    uint8_t *state = edited(b, edits, count);
    for (int call = STEP; call < CALLS; call++) {
        for (size_t place = 0; place < sizeof numbers / sizeof *numbers; place++) {
            expect_refused(what, call, buffers_of(b, state), numbers[place], PITHREAD_STATE);
        }
    }
    free(state);
}

void sound(const bench *b, const char *what, const edit *edits, size_t count) {
    uint8_t *state = edited(b, edits, count);
    uint8_t *kept = copied(state, PITHREAD_STATE_BYTES);
    answer ran = ask(RUN, buffers_of(b, state), 0, 0);
    check_answer(what, names[RUN], 0, ran, (answer){{0, 0, PITHREAD_ALL_STEPS, PITHREAD_NOBODY}});
    check(memcmp(state, kept, PITHREAD_STATE_BYTES) == 0, what);
    free(state);
    free(kept);
}
