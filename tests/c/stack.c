/*
 * The stack that the calls take, beside what the header says: stack FILE, with examples/units.txt. The
 * profile is that of a ladder, in which each node rests on the one behind it.
 *
 * Each call is made on a stack of its own that was painted before; it reached as far as the paint is
 * gone. Prints how many checks passed; the status is 1 if one failed.
 */
#define _XOPEN_SOURCE 700
#include <stdio.h>
#include <stdlib.h>
#include <string.h>
#include <ucontext.h>

#include "checks.h"
#include "files.h"
#include "lines.h"
#include "pithread.h"
#include "words.h"

/* The header says about 28,000 and about 12,000. */
enum { MOST_OF_A_LOAD = 28500, MOST_OF_OTHERS = 12500 };

enum { STACK_BYTES = 262144 };

static whole_file file;
static uint8_t table[PITHREAD_TABLE_BYTES];
static uint8_t state[PITHREAD_STATE_BYTES];
static uint8_t *rights;
static uint8_t written[PITHREAD_MOST_FILE_BYTES];
static uint8_t *ladder;

static int32_t nothing(void) {
    return PITHREAD_DONE;
}

static int32_t load(void) {
    return pithread_load(file.bytes, file.length, table, sizeof table).refusal;
}

static int32_t write_file(void) {
    return pithread_write(table, sizeof table, written, sizeof written).refusal;
}

static int32_t profile(void) {
    return pithread_profile(ladder, PITHREAD_TABLE_BYTES).refusal;
}

static int32_t start(void) {
    return pithread_start(table, sizeof table, state, sizeof state).refusal;
}

/* What every call that names a seat has first; the last seat has all rights, as the others. */
#define SEATED table, sizeof table, state, sizeof state, rights, PITHREAD_RIGHTS_BYTES, PITHREAD_SEATS - 1

static int32_t step(void) {
    return pithread_step(SEATED, 0).refusal;
}

static int32_t run(void) {
    return pithread_run(SEATED, 1000).refusal;
}

static int32_t give(void) {
    return pithread_give(SEATED, 0, 130).refusal;
}

static int32_t take(void) {
    return pithread_take(SEATED, 1).refusal;
}

static int32_t collect(void) {
    return pithread_collect(SEATED).refusal;
}

static uint8_t stack[STACK_BYTES];
static ucontext_t back;
static int32_t (*call_to_make)(void);
static int32_t answered;

static void make_call(void) {
    answered = call_to_make();
}

/* How far a call reaches. */
static size_t reached_by(int32_t (*call)(void)) {
    ucontext_t there;
    size_t left = 0;
    memset(stack, PATTERN, sizeof stack);
    getcontext(&there);
    there.uc_stack.ss_sp = stack;
    there.uc_stack.ss_size = sizeof stack;
    there.uc_link = &back;
    call_to_make = call;
    makecontext(&there, make_call, 0);
    swapcontext(&back, &there);
    while (left < sizeof stack && stack[left] == PATTERN) {
        left++;
    }
    return sizeof stack - left;
}

static void check_stack(const char *name, int32_t (*call)(void), size_t most) {
    char what[100];
    size_t without = reached_by(nothing);
    size_t bytes = reached_by(call) - without;
    check(answered == PITHREAD_DONE, name);
    snprintf(what, sizeof what, "%s takes %lu bytes of stack", name, (unsigned long)bytes);
    puts(what);
    check(bytes <= most, what);
}

int main(int count, char **words) {
    if (count != 2) {
        fprintf(stderr, "usage: stack FILE\n");
        return 2;
    }
    file = read_file(words[1], PITHREAD_MOST_FILE_BYTES);
    if (file.bytes == NULL) {
        return 2;
    }
    whole_file rungs = ladder_file();
    ladder = table_of_file("the ladder", rungs.bytes, rungs.length);
    rights = same_rights(PITHREAD_BOTH_RIGHTS);
    load(); /* first once to bind what the archive uses of the C library */
    check_stack("load", load, MOST_OF_A_LOAD);
    check_stack("write", write_file, MOST_OF_OTHERS);
    check_stack("profile", profile, MOST_OF_OTHERS);
    check_stack("start", start, MOST_OF_OTHERS);
    check_stack("step", step, MOST_OF_OTHERS);
    check_stack("run", run, MOST_OF_OTHERS);
    check_stack("give", give, MOST_OF_OTHERS);
    check_stack("take", take, MOST_OF_OTHERS);
    check_stack("collect", collect, MOST_OF_OTHERS);
    free(file.bytes);
    free(rungs.bytes);
    free(ladder);
    free(rights);
    return close_checks();
}
