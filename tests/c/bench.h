/*
 * A bench for one case: its table, its state, and the state that the case wants to see.
 *
 * A case says what is to change in the wanted state and then makes a call. Each call compares the
 * whole answer, every byte of the state with the wanted state, and every byte of the table with
 * what loading wrote. All buffers have exactly their length.
 *
 * Its seats have all rights, and call in turn; seats.c has the cases where they have not.
 */
#ifndef BENCH_H
#define BENCH_H

#include "lines.h"
#include "pithread.h"
#include "words.h"

typedef struct {
    const char *name; /* of the case, for what is printed */
    uint8_t *table;
    uint8_t *loaded; /* the table as loading wrote it */
    uint8_t *state;
    uint8_t *wanted;
    uint8_t *rights;  /* all of them, for every seat */
    uint8_t *granted; /* the same, to compare with */
    int calls;        /* made so far */
} bench;

/* A bench with this file, started. */
#define OPENED(name, lines) opened(name, lines, sizeof(lines) / sizeof *(lines))
bench *opened(const char *name, const line *lines, size_t count);

/* A bench with this table, which it frees in the end, started. */
bench *opened_on(const char *name, uint8_t *table);
void closed(bench *b);

/* The words of a thread row: node and slots; those left out are 0. */
#define ROW(...) ((const int32_t[PITHREAD_THREAD_WORDS]){__VA_ARGS__})
#define READY(...) ROW(PITHREAD_READY, __VA_ARGS__)
#define WAITS(...) ROW(PITHREAD_WAITING, __VA_ARGS__)
#define FREE ROW(PITHREAD_FREE)

/* Places of words in a state. */
#define THREAD(thread, word) ((size_t)(PITHREAD_THREAD_ROWS + PITHREAD_THREAD_WORDS * (thread) + (word)))
#define STATUS(thread) THREAD(thread, PITHREAD_THREAD_STATUS)
#define NODE(thread) THREAD(thread, PITHREAD_THREAD_NODE)
#define VALUE(thread, slot) THREAD(thread, PITHREAD_THREAD_SLOTS + (slot))
#define CHANNEL(channel, word) ((size_t)(PITHREAD_CHANNEL_ROWS + PITHREAD_CHANNEL_WORDS * (channel) + (word)))
#define KIND(channel) CHANNEL(channel, PITHREAD_CHANNEL_TYPE)
#define HOLDERS(channel) CHANNEL(channel, PITHREAD_CHANNEL_HOLDERS)
#define WAITING(channel) CHANNEL(channel, PITHREAD_CHANNEL_WAITING)

/* Changes of the wanted state. */
void want_word(bench *b, size_t place, int32_t value);
void want_marks(bench *b, int next_thread, int next_channel, int turn);
void want_thread(bench *b, int thread, const int32_t *row);
void want_channel(bench *b, int channel, int type, int holders, int waiting);

/* Takes the wanted state as the state, or the state as the wanted one. */
void impose(bench *b);
void adopt(bench *b);

/* Steps of a thread, each with what it answers beyond its act. */
void step_takes(bench *b, uint32_t thread, int node, int branch, int partner);
void step_waits(bench *b, uint32_t thread, int node);
void step_ends(bench *b, uint32_t thread, int node);
void step_calls(bench *b, uint32_t thread, int node);
void step_refused(bench *b, uint32_t thread, int ground);

/* The other calls, with the numbers given and then the numbers answered. */
void give(bench *b, uint32_t port, int32_t number, int thread);
void take(bench *b, uint32_t port, int thread, int32_t number);
void run(bench *b, uint16_t n, int steps, int reason, int thread);
void collect(bench *b, int threads);

/* To come to where a case begins: so many steps of one thread, or a run until none is ready. */
void walk(bench *b, uint32_t thread, int steps);
void settle(bench *b);

/* All calls behind one function. The number is a thread, a port or the n of a run; a start and a collection
 * have none. A start leaves rights and seat out. */
enum { START, STEP, GIVE, TAKE, RUN, COLLECT, CALLS };

typedef struct {
    const uint8_t *table;
    size_t table_length;
    uint8_t *state;
    size_t state_length;
    const uint8_t *rights;
    size_t rights_length;
    uint32_t seat;
} buffers;

/* The table and another state of the bench, or another table and another state, of these lengths; with
 * the bench's rights, and the seat whose turn it is. */
buffers buffers_of(const bench *b, uint8_t *state);
buffers lent(const bench *b, const uint8_t *table, size_t table_length, uint8_t *state, size_t state_length);

typedef struct {
    int32_t numbers[5]; /* in the order of the struct that the call answers, then 0 */
} answer;

answer ask(int call, buffers with, uint32_t number, int32_t value);

/* The call is refused on this ground: all other numbers are 0, all buffers are left alone. */
void expect_refused(const char *name, int call, buffers with, uint32_t number, int ground);

/* Words of a state to be changed. */
typedef struct {
    size_t place;
    int32_t value;
} edit;

#define EDITS(...) (const edit[]){__VA_ARGS__}, sizeof((const edit[]){__VA_ARGS__}) / sizeof(edit)

/* With these edits the state is refused by every call that reads it, or else by none. The bench
 * keeps its own state. */
void unsound(const bench *b, const char *what, const edit *edits, size_t count);
void sound(const bench *b, const char *what, const edit *edits, size_t count);

#endif
