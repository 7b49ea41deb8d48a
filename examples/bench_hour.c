/*
 * An hour at the bench, from a program's side: bench_hour FILE, with the procedure in units.txt.
 *
 * The bench gives the numbers of units at port 0, and each goes into the coil. For each unit the
 * procedure starts a tester, a thread of its own, which asks for a reading and waits until the bench
 * takes it at port 1. Units from 100 on get no reading: their testers wait for good, until a
 * collection takes them away and the bench pulls the units. A number below 0 tells the procedure that
 * there are no more.
 *
 * Two people sit at the bench. The trainee runs the procedure and takes readings, and must not feed
 * the coil; that, and the collections, are for the leader. A list of rights says so, and the engine
 * keeps to it: what the trainee may not do is refused, and the trainee hears nothing else.
 *
 * Shows each call, what its answers mean and what a bench does about them. Status: 0 all went
 * well; 1 the file was refused; 2 it could not be read, or this program has made a mistake.
 */
#include <inttypes.h>
#include <stdio.h>
#include <stdlib.h>
#include <string.h>

#include "pithread.h"

#define UNITS_IN 0
#define READINGS_OUT 1
#define STEPS_AT_ONCE 1000

/* The seats that are in use. */
enum { LEADER = 0, TRAINEE = 1 };
static const char *const people[] = {"leader", "trainee"};

/* Where a tester waits for its reading, and the slot in which it has the number of its unit. */
#define AT_READING 12
#define UNIT 2

static uint8_t table[PITHREAD_TABLE_BYTES];
static uint8_t state[PITHREAD_STATE_BYTES];
static uint8_t rights[PITHREAD_RIGHTS_BYTES];

/* Grounds 1 to 7: the file's author has to mend the line that is named. */
static const char *const file_faults[] = {
    "",
    "the file ends inside a line, or is too long",
    "a field is not a number of six characters, or a newline is missing",
    "the header does not agree with the lines",
    "a number is out of its range",
    "types do not agree",
    "a slot is read before it is surely written",
    "no path leads to this node",
};

/* Grounds 8 to 12 and 18 are mistakes of the calling program; with what it can do about each. Nothing
 * was changed, so it may go on. Null for the other grounds. */
static const char *mistake(int32_t refusal) {
    switch (refusal) {
    case PITHREAD_BUFFER_LENGTH:
        return "a buffer has the wrong length: hand over all of it";
    case PITHREAD_TABLE:
        return "the table is not what loading wrote: load the file again, the state stays good";
    case PITHREAD_RIGHTS:
        return "the list of rights has a number outside 0 to 3, be it of another seat: lay the shop's list in again";
    case PITHREAD_STATE:
        return "the state does not belong to the table, or was damaged: take up a copy of it, or start again";
    case PITHREAD_THREAD:
        return "the thread is not ready, or there is none of this number: look at its row first";
    case PITHREAD_PORT:
        return "there is no such port: the file's header says how many there are";
    default:
        return NULL;
    }
}

/* Reads up to `most` bytes. Answers 1, or 0 if the file cannot be read. */
static int read_procedure(const char *path, uint8_t *bytes, size_t most, size_t *length) {
    FILE *stream = fopen(path, "rb");
    if (stream == NULL) {
        return 0;
    }
    *length = fread(bytes, 1, most, stream);
    int read = !ferror(stream);
    fclose(stream);
    return read;
}

static void report_mistake(FILE *to, const char *call, int32_t refusal) {
    fprintf(to, "%s: refused, ground %" PRId32 ": %s\n", call, refusal, mistake(refusal));
}

/* This program stops where it does not expect a mistake. */
static void stop_if_mistaken(const char *call, int32_t refusal) {
    if (mistake(refusal) != NULL) {
        report_mistake(stderr, call, refusal);
        exit(2);
    }
}

/* Says who called. Ground 19 is no mistake of the program: the person at the seat hears that it is for
 * another to do, and the program does not go on as if it had been done. Answers 1 if it was refused
 * so. */
static int is_denied(const char *call, uint32_t seat, int32_t refusal) {
    printf("%s by the %s: ", call, people[seat]);
    if (refusal != PITHREAD_SEAT) {
        return 0;
    }
    printf("refused, ground %" PRId32 ": this seat has not the right, ask the leader\n", refusal);
    return 1;
}

/* A word of a state or of a list of rights: four bytes, the lowest first. */
static int32_t word_at(const uint8_t *bytes, size_t place) {
    uint32_t bits = 0;
    for (size_t byte = 4; byte > 0; byte--) {
        bits = bits << 8 | bytes[4 * place + byte - 1];
    }
    return (int32_t)bits;
}

static size_t place_of_right(uint32_t seat, uint32_t number) {
    return PITHREAD_SEAT_NUMBERS * (size_t)seat + number;
}

static void set_right(uint32_t seat, uint32_t number, int32_t right) {
    uint8_t *bytes = rights + 4 * place_of_right(seat, number);
    for (size_t byte = 0; byte < 4; byte++) {
        bytes[byte] = (uint8_t)((uint32_t)right >> 8 * byte);
    }
}

static void show_rights(uint32_t seat) {
    printf("rights of the %s:", people[seat]);
    for (uint32_t number = 0; number < PITHREAD_SEAT_NUMBERS; number++) {
        printf(" %" PRId32, word_at(rights, place_of_right(seat, number)));
    }
    printf("\n");
}

/* What the shop allows; docs/SEATS.md has it as a table. All other numbers are 0: the six seats that
 * nobody sits at have no right. */
static void lay_in_rights(void) {
    memset(rights, 0, sizeof rights);
    set_right(LEADER, UNITS_IN, PITHREAD_MAY_GIVE);
    set_right(LEADER, READINGS_OUT, PITHREAD_MAY_TAKE);
    set_right(LEADER, PITHREAD_BENCH_RIGHT, PITHREAD_BOTH_RIGHTS);
    set_right(TRAINEE, READINGS_OUT, PITHREAD_MAY_TAKE);
    set_right(TRAINEE, PITHREAD_BENCH_RIGHT, PITHREAD_MAY_STEP);
    show_rights(LEADER);
    show_rights(TRAINEE);
}

static void load(const char *path) {
    /* Room for one byte more than a file may have, so that a longer one is seen as too long. */
    static uint8_t file[PITHREAD_MOST_FILE_BYTES + 1];
    size_t length;
    if (!read_procedure(path, file, sizeof file, &length)) {
        fprintf(stderr, "%s cannot be read\n", path);
        exit(2);
    }
    pithread_loaded loaded = pithread_load(file, length, table, sizeof table);
    stop_if_mistaken("load", loaded.refusal);
    if (loaded.refusal != PITHREAD_DONE) {
        printf("load: refused, ground %" PRId32 ", line %" PRId32 ": %s\n", loaded.refusal, loaded.line,
               file_faults[loaded.refusal]);
        exit(1);
    }
    printf("load: accepted\n");
}

static void start(void) {
    pithread_started started = pithread_start(table, sizeof table, state, sizeof state);
    stop_if_mistaken("start", started.refusal);
    printf("start: thread 0 is ready\n");
}

static pithread_ran run(uint32_t seat) {
    pithread_ran ran = pithread_run(table, sizeof table, state, sizeof state, rights, sizeof rights, seat,
                                    STEPS_AT_ONCE);
    stop_if_mistaken("run", ran.refusal);
    return ran;
}

static pithread_given give(uint32_t seat, int32_t number) {
    pithread_given given = pithread_give(table, sizeof table, state, sizeof state, rights, sizeof rights, seat,
                                         UNITS_IN, number);
    stop_if_mistaken("give", given.refusal);
    return given;
}

static pithread_taken take(uint32_t seat) {
    pithread_taken taken = pithread_take(table, sizeof table, state, sizeof state, rights, sizeof rights, seat,
                                         READINGS_OUT);
    stop_if_mistaken("take", taken.refusal);
    return taken;
}

/* One step of one thread. Grounds 13 and 14 are no mistakes: the thread stays as it is until a row
 * comes free, and the bench steps others in the meantime. */
static void show_step(uint32_t seat, uint32_t thread) {
    static const char *const acts[] = {"ended", "called", "waits", "took a branch"};
    pithread_stepped stepped =
        pithread_step(table, sizeof table, state, sizeof state, rights, sizeof rights, seat, thread);
    stop_if_mistaken("step", stepped.refusal);
    if (is_denied("step", seat, stepped.refusal)) {
        return;
    }
    if (stepped.refusal != PITHREAD_DONE) {
        printf("thread %" PRIu32 " lacks a row, ground %" PRId32 "\n", thread, stepped.refusal);
        return;
    }
    printf("thread %" PRIu32 " at node %" PRId32 " %s", thread, stepped.node, acts[stepped.act]);
    if (stepped.partner != PITHREAD_NOBODY) {
        printf(", with thread %" PRId32, stepped.partner);
    }
    printf("\n");
}

/* The reason says what comes next. */
static void show_run(uint32_t seat) {
    pithread_ran ran = run(seat);
    if (is_denied("run", seat, ran.refusal)) {
        return;
    }
    printf("%" PRId32 " steps; ", ran.steps);
    switch (ran.reason) {
    case PITHREAD_ALL_STEPS:
        printf("there may be more to do, run again\n");
        break;
    case PITHREAD_NONE_READY:
        printf("none is ready, it is for the bench to give, to take or to collect\n");
        break;
    case PITHREAD_LACKED_THREAD_ROW:
        printf("thread %" PRId32 " cannot start another, collect or let some come to their end\n", ran.thread);
        break;
    case PITHREAD_LACKED_CHANNEL_ROW:
        printf("thread %" PRId32 " cannot make a channel, collect or let others give some up\n", ran.thread);
        break;
    }
}

/* A number that nobody receives stays with the bench, which gives it again later. */
static void show_give(uint32_t seat, int32_t number) {
    pithread_given given = give(seat, number);
    if (is_denied("give", seat, given.refusal)) {
        return;
    }
    if (given.thread == PITHREAD_NOBODY) {
        printf("nobody receives %" PRId32 " now\n", number);
    } else {
        printf("thread %" PRId32 " received %" PRId32 "\n", given.thread, number);
    }
}

static void show_take(uint32_t seat) {
    pithread_taken taken = take(seat);
    if (is_denied("take", seat, taken.refusal)) {
        return;
    }
    if (taken.thread == PITHREAD_NOBODY) {
        printf("nobody sends a reading now\n");
    } else {
        printf("thread %" PRId32 " sent %" PRId32 "\n", taken.thread, taken.number);
    }
}

/* A word of a thread's row. */
static int32_t thread_word(const uint8_t *bytes, size_t thread, size_t word) {
    return word_at(bytes, PITHREAD_THREAD_ROWS + PITHREAD_THREAD_WORDS * thread + word);
}

/* Threads that can never move again are taken away. Which ones, and at what they waited, is seen in
 * a copy of the state from before: the testers among them show the units that have to be pulled. */
static void show_collect(uint32_t seat) {
    static uint8_t before[PITHREAD_STATE_BYTES];
    memcpy(before, state, sizeof before);
    pithread_collected collected =
        pithread_collect(table, sizeof table, state, sizeof state, rights, sizeof rights, seat);
    stop_if_mistaken("collect", collected.refusal);
    if (is_denied("collect", seat, collected.refusal)) {
        return;
    }
    printf("%" PRId32 " threads taken; units to pull:", collected.threads);
    int units = 0;
    for (size_t thread = 0; thread < PITHREAD_THREADS; thread++) {
        int waited = thread_word(before, thread, PITHREAD_THREAD_STATUS) == PITHREAD_WAITING;
        int free_now = thread_word(state, thread, PITHREAD_THREAD_STATUS) == PITHREAD_FREE;
        if (waited && free_now && thread_word(before, thread, PITHREAD_THREAD_NODE) == AT_READING) {
            printf(" %" PRId32, thread_word(before, thread, PITHREAD_THREAD_SLOTS + UNIT));
            units++;
        }
    }
    printf(units > 0 ? "\n" : " none\n");
}

static void show_state(void) {
    int rows[3] = {0, 0, 0};
    for (size_t thread = 0; thread < PITHREAD_THREADS; thread++) {
        rows[thread_word(state, thread, PITHREAD_THREAD_STATUS)]++;
    }
    size_t port = PITHREAD_CHANNEL_ROWS + PITHREAD_CHANNEL_WORDS * READINGS_OUT;
    printf("state: %d threads ready, %d waiting, %d rows free; ", rows[PITHREAD_READY], rows[PITHREAD_WAITING],
           rows[PITHREAD_FREE]);
    printf("%" PRId32 " hold port %d, the bench among them\n", word_at(state, port + PITHREAD_CHANNEL_HOLDERS),
           READINGS_OUT);
}

/* One unit, after the first steps by which the procedure comes to receive it. */
static void one_unit(void) {
    printf("\none unit:\n");
    show_step(TRAINEE, 0);
    show_step(TRAINEE, 0);
    show_take(TRAINEE);
    show_run(TRAINEE);
    show_give(LEADER, 21);
    show_run(TRAINEE);
    show_state();
    show_take(TRAINEE);
    show_run(TRAINEE);
}

/* One unit without a reading. That nobody sends one now does not say that nobody ever will; that the
 * collection takes the tester does. The trainee may neither feed the unit to the coil nor collect: both
 * are refused and change nothing, and the leader does them. */
static void one_unit_to_pull(void) {
    printf("\none unit to pull:\n");
    show_give(TRAINEE, 130);
    show_give(LEADER, 130);
    show_collect(LEADER);
    show_run(TRAINEE);
    show_take(TRAINEE);
    show_state();
    show_collect(TRAINEE);
    show_state();
    show_collect(LEADER);
    show_state();
}

/* Gives a unit and runs. Answers 1 if a thread received it and no thread is ready any more. The refusals
 * are looked at first: of a call that is refused the other numbers say nothing. */
static int feed(int32_t unit) {
    pithread_given given = give(LEADER, unit);
    if (given.refusal != PITHREAD_DONE || given.thread == PITHREAD_NOBODY) {
        return 0;
    }
    pithread_ran ran = run(TRAINEE);
    return ran.refusal == PITHREAD_DONE && ran.reason == PITHREAD_NONE_READY;
}

/* Gives until a thread lacks a row: the testers keep their rows while nobody takes their readings,
 * and those without a reading until they are collected. */
static void many_units(void) {
    int32_t unit = 121;
    printf("\nmany units:\n");
    while (feed(unit)) {
        unit--;
    }
    printf("unit %" PRId32 " found no row\n", unit);
    show_run(TRAINEE);
    show_state();
    show_give(LEADER, unit - 1);
    show_step(TRAINEE, 0);
    show_take(TRAINEE);
    show_run(TRAINEE);
    show_give(LEADER, unit - 1);
    show_run(TRAINEE);
    show_collect(LEADER);
    show_run(TRAINEE);
}

static void all_readings(void) {
    int readings = 0;
    int64_t sum = 0;
    printf("\nall readings:\n");
    pithread_taken taken = take(TRAINEE);
    while (taken.refusal == PITHREAD_DONE && taken.thread != PITHREAD_NOBODY) {
        readings++;
        sum += taken.number;
        run(TRAINEE);
        taken = take(TRAINEE);
    }
    printf("%d readings, their sum is %" PRId64 "\n", readings, sum);
    show_state();
}

/* A collection by the leader with a mistake in it, made on purpose. */
static void show_mistake(size_t state_bytes) {
    pithread_collected collected =
        pithread_collect(table, sizeof table, state, state_bytes, rights, sizeof rights, LEADER);
    if (mistake(collected.refusal) != NULL) {
        report_mistake(stdout, "collect", collected.refusal);
    } else {
        printf("collect: done, though it should be refused\n");
    }
}

/* A buffer handed over in part, a table, a list of rights and a state overwritten; each is made good.
 * The seat is looked at ahead of the state: the trainee does not hear that this one is damaged. */
static void mistakes_made_good(const char *path) {
    static uint8_t copy[PITHREAD_STATE_BYTES];
    printf("\nmistakes:\n");
    memcpy(copy, state, sizeof copy);
    show_mistake(sizeof state / 2);
    memset(table, 0, sizeof table / 2);
    show_mistake(sizeof state);
    load(path);
    set_right(TRAINEE, UNITS_IN, PITHREAD_BOTH_RIGHTS + 1);
    show_mistake(sizeof state);
    lay_in_rights();
    memset(state, 0, sizeof state / 2);
    show_mistake(sizeof state);
    show_collect(TRAINEE);
    memcpy(state, copy, sizeof state);
    show_collect(LEADER);
}

int main(int count, char **words) {
    if (count != 2) {
        fprintf(stderr, "usage: bench_hour FILE\n");
        return 2;
    }
    load(words[1]);
    lay_in_rights();
    start();
    one_unit();
    one_unit_to_pull();
    many_units();
    all_readings();
    mistakes_made_good(words[1]);
    printf("\nthe end:\n");
    show_give(LEADER, -1);
    show_run(TRAINEE);
    show_collect(LEADER);
    show_state();
    return 0;
}
