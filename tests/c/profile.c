/*
 * Tests of pithread_profile: profile FOLDER, the folder of the examples.
 *
 * Each table is lent in a buffer of exactly its length, so that a memory checker sees a read outside it, and
 * compared afterwards. Prints how many checks passed; the status is 1 if one failed.
 */
#include <string.h>

#include "checks.h"
#include "damages.h"
#include "files.h"
#include "lines.h"
#include "listing.h"
#include "pithread.h"
#include "words.h"

#define SIZE_OF(list) (sizeof(list) / sizeof *(list))

/* The table of so many bytes gets this answer. */
static void expect(const char *what, const uint8_t *table, size_t length, int refusal, int threads) {
    uint8_t *lent = copied(table, length);
    pithread_profiled profiled = pithread_profile(lent, length);
    check(profiled.refusal == refusal && profiled.threads == threads, what);
    check(memcmp(lent, table, length) == 0, what);
    free(lent);
}

/* The same of a table that is then freed. */
static void expect_made(const char *what, uint8_t *table, int refusal, int threads) {
    expect(what, table, PITHREAD_TABLE_BYTES, refusal, threads);
    free(table);
}

/* The file with these lines gets this answer. */
#define EXPECT_LINES(what, lines, refusal, threads) \
    expect_lines(what, lines, SIZE_OF(lines), refusal, threads)

static void expect_lines(const char *what, const line *lines, size_t count, int refusal, int threads) {
    expect_made(what, table_of(what, lines, count), refusal, threads);
}

typedef struct {
    const char *name;
    int refusal;
    int threads;
} expected;

static void check_examples(const char *folder) {
    static const expected all[] = {
        {"ackermann.txt", PITHREAD_FORBIDDEN_CALL, 0},
        {"countdown.txt", PITHREAD_DONE, 1},
        {"crew.txt", PITHREAD_DONE, 4},
        {"critical.txt", PITHREAD_DONE, 3},
        {"doubler.txt", PITHREAD_FORBIDDEN_CALL, 0},
        {NO_BYTES, PITHREAD_DONE, 1},
        {THREE_LINES, PITHREAD_DONE, 1},
        {"jobs.txt", PITHREAD_DONE, 5},
        {"listing.txt", PITHREAD_DONE, 2},
        {"philosophers.txt", PITHREAD_DONE, 10},
        {"ring_and_chain.txt", PITHREAD_DONE, 6},
        {"sieve.txt", PITHREAD_FORBIDDEN_CALL, 0},
        {"units.txt", PITHREAD_FORBIDDEN_CALL, 0},
        {"workers.txt", PITHREAD_FORBIDDEN_CALL, 0},
        {"refused/call-not-upward.txt", PITHREAD_FORBIDDEN_CALL, 0},
        {"refused/call-not-upward.mended.txt", PITHREAD_DONE, 1},
        {"refused/spawner-calls-itself.txt", PITHREAD_FORBIDDEN_CALL, 0},
        {"refused/spawner-calls-itself.mended.txt", PITHREAD_DONE, 2},
        {"refused/too-many-threads.txt", PITHREAD_MANY_THREADS, 0},
        {"refused/too-many-threads.mended.txt", PITHREAD_DONE, 64},
    };
    for (size_t place = 0; place < SIZE_OF(all); place++) {
        whole_file file = example(folder, all[place].name);
        uint8_t *table = table_of_file(all[place].name, file.bytes, file.length);
        expect_made(all[place].name, table, all[place].refusal, all[place].threads);
        free(file.bytes);
    }
}

/* Lines to which more are added. */
typedef struct {
    line lines[PITHREAD_TABLE_BYTES / 2 / FIELDS];
    size_t count;
} made;

static void add(made *to, int kind, int second, int third, int fourth) {
    const line fields = {kind, second, third, fourth};
    memcpy(to->lines[to->count++], fields, sizeof fields);
}

static void add_spawn(made *to, int next, int child) {
    const line fields = BRANCH(ALWAYS, SPAWN, next, child);
    memcpy(to->lines[to->count++], fields, sizeof fields);
}

static void add_tau(made *to, int next) {
    const line fields = BRANCH(ALWAYS, TAU, next);
    memcpy(to->lines[to->count++], fields, sizeof fields);
}

static uint8_t *table_of_made(const char *what, const made *file) {
    return table_of(what, file->lines, file->count);
}

/* One definition: so many choices with so many branches each, and an end. */
static void add_choices(made *to, int choices, int branches) {
    add(to, 3, 0, 0, choices + 1);
    for (int node = 0; node < choices; node++) {
        add(to, 5, 1, branches, 0);
    }
    add(to, 5, 0, 0, 0);
}

/* So many threads, by one spawn after the other; each child begins at the end. */
static uint8_t *threads_in_a_row(int threads) {
    made file = {.count = 0};
    add_choices(&file, threads - 1, 1);
    for (int next = 1; next < threads; next++) {
        add_spawn(&file, next, threads - 1);
    }
    return table_of_made("threads in a row", &file);
}

/* So many spawns after which parent and child stand at the same node. */
static uint8_t *doublings(int spawns) {
    made file = {.count = 0};
    add_choices(&file, spawns, 1);
    for (int next = 1; next <= spawns; next++) {
        add_spawn(&file, next, next);
    }
    return table_of_made("doublings", &file);
}

/* So many choices, each of which goes on alone or doubles the threads. */
static uint8_t *doubling_choices(int choices) {
    made file = {.count = 0};
    add_choices(&file, choices, 2);
    for (int next = 1; next <= choices; next++) {
        add_tau(&file, next);
        add_spawn(&file, next, next);
    }
    return table_of_made("doubling choices", &file);
}

static void check_bounds(void) {
    for (int threads = 1; threads <= 192; threads++) {
        int passes = threads <= PITHREAD_THREADS;
        int refusal = passes ? PITHREAD_DONE : PITHREAD_MANY_THREADS;
        expect_made("threads in a row", threads_in_a_row(threads), refusal, passes ? threads : 0);
    }
    for (int spawns = 0; spawns <= 6; spawns++) {
        expect_made("doublings", doublings(spawns), PITHREAD_DONE, 1 << spawns);
    }
    for (int spawns = 7; spawns <= 191; spawns++) {
        expect_made("many doublings", doublings(spawns), PITHREAD_MANY_THREADS, 0);
    }
    expect_made("six doubling choices", doubling_choices(6), PITHREAD_DONE, 64);
    expect_made("seven doubling choices", doubling_choices(7), PITHREAD_MANY_THREADS, 0);
    expect_made("191 doubling choices", doubling_choices(191), PITHREAD_MANY_THREADS, 0);
}

/* A file without a spawn. */
static void expect_one_thread(const char *what, whole_file file) {
    expect_made(what, table_of_file(what, file.bytes, file.length), PITHREAD_DONE, 1);
    free(file.bytes);
}

/* Sixteen definitions of one node each: each calls the next, the last one this one or none. */
static void check_chain(const char *what, int last, int refusal) {
    made file = {.count = 0};
    for (int definition = 0; definition < 16; definition++) {
        add(&file, 3, 0, 0, 1);
    }
    for (int definition = 0; definition < 15; definition++) {
        add(&file, 5, 2, definition + 1, 0);
    }
    add(&file, 5, last < 0 ? 0 : 2, last < 0 ? 0 : last, 0);
    expect_made(what, table_of_made(what, &file), refusal, refusal == PITHREAD_DONE ? 1 : 0);
}

static void check_calls(void) {
    static const line apart[] = {
        DEFINITION(0, 0, 1), DEFINITION(0, 0, 1), DEFINITION(0, 0, 1), END, CALL(1), CALL(1),
    };
    static const line again[] = {DEFINITION(0, 0, 2), CHOICE(1), CALL(0), BRANCH(ALWAYS, TAU, 1)};
    static const line by_child[] = {
        DEFINITION(0, 0, 3), CHOICE(1), END, CALL(0), BRANCH(ALWAYS, SPAWN, 1, 2),
    };
    static const line never_spawns[] = {
        DEFINITION(0, 1, 4), SLOT(0), CHOICE(1), CHOICE(2), END, CALL(0),
        BRANCH(ALWAYS, SET(0, 0), 1), BRANCH(IS(0, 1), SPAWN, 2, 2), BRANCH(ALWAYS, TAU, 3),
    };
    static const line between[] = {
        DEFINITION(0, 0, 2), DEFINITION(0, 0, 1), DEFINITION(0, 0, 2),
        CHOICE(1), CALL(1), CALL(1), CHOICE(1), END,
        BRANCH(ALWAYS, SPAWN, 1, 1), BRANCH(ALWAYS, SPAWN, 1, 1),
    };
    EXPECT_LINES("a call down that nobody comes to", apart, PITHREAD_FORBIDDEN_CALL, 0);
    EXPECT_LINES("a definition that repeats", again, PITHREAD_DONE, 1);
    EXPECT_LINES("a child that repeats", by_child, PITHREAD_FORBIDDEN_CALL, 0);
    EXPECT_LINES("a spawn that never goes ahead", never_spawns, PITHREAD_FORBIDDEN_CALL, 0);
    EXPECT_LINES("one that repeats between two that spawn", between, PITHREAD_DONE, 2);
    check_chain("calls through all definitions", -1, PITHREAD_DONE);
    check_chain("the last calls itself", 15, PITHREAD_DONE);
    check_chain("the last calls the one before", 14, PITHREAD_FORBIDDEN_CALL);
    check_chain("the last calls the first", 0, PITHREAD_FORBIDDEN_CALL);
}

/* Ground 8, of a right table and of bytes that are no table either. */
static void check_lengths(const uint8_t *right) {
    static const size_t lengths[] = {0, 1, PITHREAD_STATE_BYTES, PITHREAD_TABLE_BYTES - 1,
                                     PITHREAD_TABLE_BYTES + 1, 2 * PITHREAD_TABLE_BYTES};
    for (size_t place = 0; place < SIZE_OF(lengths); place++) {
        uint8_t *table = resized(right, PITHREAD_TABLE_BYTES, lengths[place]);
        expect("a table's length", table, lengths[place], PITHREAD_BUFFER_LENGTH, 0);
        memset(table, PATTERN, lengths[place]);
        expect("a table's length", table, lengths[place], PITHREAD_BUFFER_LENGTH, 0);
        free(table);
    }
}

/* Ground 9, which comes before those of the profile. */
static void check_tables(const uint8_t *right) {
    for (size_t place = 0; place < DAMAGES; place++) {
        expect_made(damages[place].what, damaged(right, &damages[place]), PITHREAD_TABLE, 0);
    }
    for (int byte = 0; byte < 256; byte += 51) {
        expect_made("a table of one byte repeated", filled(PITHREAD_TABLE_BYTES, byte), PITHREAD_TABLE, 0);
    }
    uint8_t *many = doublings(40);
    many[PITHREAD_TABLE_BYTES - 1] = 1;
    expect_made("a table with a fault and too many threads", many, PITHREAD_TABLE, 0);
}

/* Steps each thread that is not at the last node, until there is none or a row is lacking; answers the
 * ground. */
static int crowd(const uint8_t *table, int last, int *threads) {
    uint8_t *state = filled(PITHREAD_STATE_BYTES, 0);
    uint8_t *rights = same_rights(PITHREAD_MAY_STEP);
    int refusal = pithread_start(table, PITHREAD_TABLE_BYTES, state, PITHREAD_STATE_BYTES).refusal;
    *threads = 1;
    for (uint32_t thread = 0; refusal == PITHREAD_DONE && thread < (uint32_t)*threads;) {
        size_t node = 4 * (PITHREAD_THREAD_ROWS + PITHREAD_THREAD_WORDS * thread + PITHREAD_THREAD_NODE);
        if (state[node] == last) {
            thread++;
        } else {
            refusal = pithread_step(table, PITHREAD_TABLE_BYTES, state, PITHREAD_STATE_BYTES, rights,
                                    PITHREAD_RIGHTS_BYTES, 0, thread)
                          .refusal;
            *threads += refusal == PITHREAD_DONE;
        }
    }
    free(state);
    free(rights);
    return refusal;
}

/* Each step of these files is a spawn: with a bound of 64 all go ahead, with one of 65 the last does not. */
static void check_pledge(void) {
    int threads;
    uint8_t *most = threads_in_a_row(64), *more = threads_in_a_row(65);
    check(crowd(most, 63, &threads) == PITHREAD_DONE && threads == 64, "64 threads");
    check(crowd(more, 64, &threads) == PITHREAD_NO_THREAD_ROW && threads == 64, "65 threads");
    free(most);
    free(more);
    most = doublings(6);
    more = doublings(7);
    check(crowd(most, 6, &threads) == PITHREAD_DONE && threads == 64, "six doublings");
    check(crowd(more, 7, &threads) == PITHREAD_NO_THREAD_ROW && threads == 64, "seven doublings");
    free(most);
    free(more);
}

int main(int count, char **words) {
    if (count != 2) {
        fprintf(stderr, "usage: profile FOLDER\n");
        return 2;
    }
    check_examples(words[1]);
    check_bounds();
    expect_one_thread("the largest file", largest_file());
    expect_one_thread("the ladder", ladder_file());
    check_calls();
    uint8_t *right = table_of("the listing", listing, SIZE_OF(listing));
    check_lengths(right);
    check_tables(right);
    free(right);
    check_pledge();
    return close_checks();
}
