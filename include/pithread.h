/*
 * pithread: an engine for test benches. It loads procedure files and runs their threads.
 *
 * A bench keeps one table and one state. pithread_load writes the table of a procedure file,
 * pithread_start writes the state in which its first thread is about to begin, and the other calls
 * read the table and move the state on. Both are plain bytes: they may be copied, kept in a file
 * and handed over again. pithread_write makes the procedure file of a table again, and
 * pithread_profile tells of a table whether its threads can come to lack a thread row.
 *
 * A bench has eight seats, 0 to 7. Each step, give, take, run and collection names the seat that
 * calls, and hands over a list of rights that says what every seat may do. The list is the caller's
 * too: plain bytes, only read, and kept by no call, so that the next one may bring another.
 *
 * What a caller owes. A buffer is a pointer and its length in bytes. The pointer is not null, not
 * even for a length of 0, and so many bytes behind it may be read and, unless they are const,
 * written. The buffers of one call do not overlap, and nobody else writes to them while it runs.
 *
 * What a call promises. Any bytes, lengths and numbers get an answer. A call reads and writes
 * inside its buffers and nowhere else, keeps no pointer, allocates nothing and always ends. Its
 * answer and what it writes follow from what it was given and from nothing else. A load takes
 * about 28,000 bytes of stack, any other call, a collection too, about 12,000.
 *
 * Every call answers a struct whose first number is 0 if the call was done, or else the number of
 * the ground on which it was refused. A refused call changes no buffer, and the other numbers of
 * its answer are 0, except that a load names a line. If several grounds apply, the answer is the
 * first of them in this order: 1 to 7, 8, 9, 18, 19, 10, and then the others by their numbers. What
 * is wrong with the rights or the seat is answered before anything is told of the state or of what
 * was asked for: a step of thread 99 at a seat without the right is refused on ground 19, not on 11.
 */
#ifndef PITHREAD_H
#define PITHREAD_H

#include <stddef.h>
#include <stdint.h>

#ifdef __cplusplus
extern "C" {
#endif

/* Lengths, in bytes. */
#define PITHREAD_LINE_BYTES 73
#define PITHREAD_MOST_FILE_BYTES 63145
#define PITHREAD_TABLE_BYTES 20760
#define PITHREAD_STATE_BYTES 6156
#define PITHREAD_RIGHTS_BYTES 288

/*
 * The words of a state, for a program that shows one. A word is a signed number of 32 bits, its
 * lowest byte first; word w has the bytes 4 * w to 4 * w + 3.
 *
 * Three words stand alone: the thread row and the channel row at which the search for a free row
 * begins, and the thread row at which the next run begins. Then come the thread rows, each with a
 * status, a node (counted from 0 over the whole file) and the slots; then the channel rows, each
 * with a type, the number of its holders (threads that have it in a slot, each counted once, and
 * the bench for a port) and how many of these are waiting threads. Ports are the first channels.
 *
 * A slot of a channel type has the number of a channel, or -1 before it is written. Slots that the
 * thread's definition does not have, and all words of a row that is free, are 0.
 */
#define PITHREAD_STATE_WORDS 1539
#define PITHREAD_NEXT_THREAD 0
#define PITHREAD_NEXT_CHANNEL 1
#define PITHREAD_TURN 2

/* Thread row t begins at word PITHREAD_THREAD_ROWS + PITHREAD_THREAD_WORDS * t. Then the words
 * inside a row; there are PITHREAD_SLOTS slots, one word each. */
#define PITHREAD_THREADS 64
#define PITHREAD_THREAD_ROWS 3
#define PITHREAD_THREAD_WORDS 18
#define PITHREAD_THREAD_STATUS 0
#define PITHREAD_THREAD_NODE 1
#define PITHREAD_THREAD_SLOTS 2
#define PITHREAD_SLOTS 16

/* Channel row c begins at word PITHREAD_CHANNEL_ROWS + PITHREAD_CHANNEL_WORDS * c. Then the words
 * inside a row. */
#define PITHREAD_CHANNELS 128
#define PITHREAD_CHANNEL_ROWS 1155
#define PITHREAD_CHANNEL_WORDS 3
#define PITHREAD_CHANNEL_TYPE 0
#define PITHREAD_CHANNEL_HOLDERS 1
#define PITHREAD_CHANNEL_WAITING 2

/* The status of a thread row. A free channel row has type 0. */
enum {
    PITHREAD_FREE = 0,
    PITHREAD_READY = 1,
    PITHREAD_WAITING = 2
};

/*
 * The numbers of a list of rights, for a program that writes one. They are words like those of a
 * state: number w of the list has the bytes 4 * w to 4 * w + 3, the lowest first. Each seat has
 * PITHREAD_SEAT_NUMBERS of them, one seat behind the other, so that number k of seat s is number
 * PITHREAD_SEAT_NUMBERS * s + k of the list.
 *
 * Numbers 0 to 7 of a seat say what it may do on the port of that number, whether the file has this
 * port or not: nothing, take, give or both. Number 8, the last, says what it may do with the bench as
 * a whole: nothing, step and run, collect or both. No seat has a right on a port above 7.
 */
#define PITHREAD_SEATS 8
#define PITHREAD_PORTS 8 /* the most that a file may have; as many numbers of a seat are for ports */
#define PITHREAD_SEAT_NUMBERS 9
#define PITHREAD_BENCH_RIGHT 8 /* the place of the last number among those of its seat */

/* What a number of the list may be. Any other is ground 18. */
enum {
    PITHREAD_NO_RIGHT = 0,
    /* For a port. */
    PITHREAD_MAY_TAKE = 1,
    PITHREAD_MAY_GIVE = 2,
    /* For the last number of a seat; the first of the two is the right to run too. */
    PITHREAD_MAY_STEP = 1,
    PITHREAD_MAY_COLLECT = 2,
    /* For each of the nine: the two that it can have, together. */
    PITHREAD_BOTH_RIGHTS = 3
};

/* Grounds of a refusal, in the order in which they are tested: 18 and 19 stand between 9 and 10. */
enum {
    PITHREAD_DONE = 0,

    /* Faults of the procedure file: 1 to 7, from pithread_load. */

    /* The file ends inside a line, or has more than 865 lines. */
    PITHREAD_FILE_LENGTH = 1,
    /* A field is not a number of its form, or a line does not end with a newline. */
    PITHREAD_FIELD = 2,
    /* The header and the lines that follow it do not agree. */
    PITHREAD_COUNTS = 3,
    /* A number is outside its range, or an unused field is not 0. */
    PITHREAD_RANGE = 4,
    /* Types do not agree, or the rule of the ports is broken. */
    PITHREAD_TYPES = 5,
    /* A slot is read that may not have been written. */
    PITHREAD_READ = 6,
    /* No path leads to a node. */
    PITHREAD_UNREACHABLE = 7,

    /* Faults of the program that calls: 8 to 12; and, from the calls that name a seat, faults of the
     * list of rights, 18, and of the seat, 19. */

    /* A buffer has the wrong length. */
    PITHREAD_BUFFER_LENGTH = 8,
    /* No procedure file has this table: it was not written by pithread_load, or changed since. */
    PITHREAD_TABLE = 9,
    /* A number of the list of rights is outside 0 to 3, be it one of the calling seat or not. */
    PITHREAD_RIGHTS = 18,
    /* There is no such seat, or it has not the right to this call. On a port above 7 no seat has one,
     * whatever the list says. */
    PITHREAD_SEAT = 19,
    /* The state is not a sound one for this table: say, pithread_start never wrote it, it belongs
     * to another table, or something other than these calls changed it. Not every such state is
     * found out: one of zeros has no thread, and is sound for a file without ports. */
    PITHREAD_STATE = 10,
    /* There is no such thread row, or its thread is not ready. */
    PITHREAD_THREAD = 11,
    /* The file has no such port. */
    PITHREAD_PORT = 12,

    /* The procedures have grown too large: 13 and 14, from pithread_step. The thread stays ready
     * where it is and can be stepped again once a row is free. */

    /* The step would start a thread, and all 64 thread rows are taken. */
    PITHREAD_NO_THREAD_ROW = 13,
    /* The step would make a channel, and all 128 channel rows are taken. It makes no difference
     * that the step itself would give one up. */
    PITHREAD_NO_CHANNEL_ROW = 14,

    /* A fault of the program that calls: 15, from pithread_write. */

    /* The buffer is shorter than the file that would be written. */
    PITHREAD_SHORT_BUFFER = 15,

    /* The procedure does not keep to the rental-shop profile: 16 and 17, from pithread_profile. It
     * is a right one all the same, and can be started. */

    /* The profile forbids a call: one to a definition of a lower number, or to its own definition,
     * which has a spawn. */
    PITHREAD_FORBIDDEN_CALL = 16,
    /* There can be more threads than thread rows: the thread bound of definition 0 is above 64. */
    PITHREAD_MANY_THREADS = 17
};

/* What a step did. */
enum {
    /* The thread came to its end, and its row is free. */
    PITHREAD_ENDED = 0,
    /* The thread went on at the first node of the definition that it calls. */
    PITHREAD_CALLED = 1,
    /* No branch of the choice could go ahead: the thread waits for another thread or the bench. */
    PITHREAD_WAITS = 2,
    /* A branch of the choice was taken. */
    PITHREAD_BRANCH = 3
};

/* Why a run came to its end. */
enum {
    /* It made as many steps as it was asked for. This is looked at first. */
    PITHREAD_ALL_STEPS = 0,
    /* No thread is ready: all have ended or wait. */
    PITHREAD_NONE_READY = 1,
    /* A thread would start another one, and all thread rows are taken (ground 13). */
    PITHREAD_LACKED_THREAD_ROW = 2,
    /* A thread would make a channel, and all channel rows are taken (ground 14). */
    PITHREAD_LACKED_CHANNEL_ROW = 3
};

/* The number that stands for no thread, in the answer of a call that was done. */
#define PITHREAD_NOBODY (-1)

/* The answer of pithread_load. */
typedef struct {
    int32_t refusal; /* 0, or a ground from 1 to 8 */
    int32_t line;    /* for the grounds 2 to 7 the first line at fault, counted from 1; else 0 */
} pithread_loaded;

/* The answer of pithread_write. */
typedef struct {
    int32_t refusal; /* 0, 8, 9 or 15 */
    int32_t bytes;   /* how many bytes the file has: PITHREAD_LINE_BYTES for each of its lines */
} pithread_written;

/* The answer of pithread_profile. */
typedef struct {
    int32_t refusal; /* 0, 8, 9, 16 or 17 */
    int32_t threads; /* the thread bound of definition 0, from 1 to PITHREAD_THREADS */
} pithread_profiled;

/* The answer of pithread_start. */
typedef struct {
    int32_t refusal; /* 0, 8 or 9 */
} pithread_started;

/* The answer of pithread_step. */
typedef struct {
    int32_t refusal; /* 0, a ground from 8 to 11, 13, 14, 18 or 19 */
    int32_t node;    /* where the thread stood before the step, counted from 0 over the whole file */
    int32_t act;     /* what the step did: PITHREAD_ENDED to PITHREAD_BRANCH */
    int32_t branch;  /* the branch taken, counted from 0 in its choice; 0 for the other acts */
    int32_t partner; /* the thread that was met, or the one that was started; else PITHREAD_NOBODY */
} pithread_stepped;

/* The answer of pithread_give. */
typedef struct {
    int32_t refusal; /* 0, a ground from 8 to 10, 12, 18 or 19 */
    int32_t thread;  /* the thread that received the number, or PITHREAD_NOBODY */
} pithread_given;

/* The answer of pithread_take. */
typedef struct {
    int32_t refusal; /* 0, a ground from 8 to 10, 12, 18 or 19 */
    int32_t thread;  /* the thread that sent the number, or PITHREAD_NOBODY */
    int32_t number;  /* the number that it sent; 0 with PITHREAD_NOBODY */
} pithread_taken;

/* The answer of pithread_run. */
typedef struct {
    int32_t refusal; /* 0, a ground from 8 to 10, 18 or 19 */
    int32_t steps;   /* how many steps were made */
    int32_t reason;  /* why there were no more: PITHREAD_ALL_STEPS to PITHREAD_LACKED_CHANNEL_ROW */
    int32_t thread;  /* for the last two reasons the thread that lacked a row; else PITHREAD_NOBODY */
} pithread_ran;

/* The answer of pithread_collect. */
typedef struct {
    int32_t refusal; /* 0, a ground from 8 to 10, 18 or 19 */
    int32_t threads; /* how many threads were taken */
} pithread_collected;

/*
 * Checks a procedure file and writes its table.
 *
 * The table buffer must have PITHREAD_TABLE_BYTES bytes. It gets 10,380 signed numbers of 16 bits,
 * each with its lower byte first: twelve for each line of the file, then zeros. What was in the
 * buffer before is not read. A file with a fault is refused for that fault even if the table
 * buffer has the wrong length too.
 *
 * A card without bytes is a file of length 0, and loads as a procedure that ends: one definition
 * without slots, whose only node is an end, and no types, branches or ports. The pointer must not be
 * null then either; malloc(0) may answer with null, so point to any byte.
 */
pithread_loaded pithread_load(const uint8_t *file, size_t file_len, uint8_t *table, size_t table_len);

/*
 * Writes the procedure file of a table: loading those bytes gives this table again, and the table of
 * a file gives that file again, byte for byte. Only that of a file of length 0 does not: it gives a
 * file of three lines.
 *
 * The table must have PITHREAD_TABLE_BYTES bytes and be one that pithread_load may write. The buffer
 * for the file may have any length from that of the file on; PITHREAD_MOST_FILE_BYTES are always
 * enough. The file stands at its front, and the bytes behind the file stay as they were. What was in
 * the buffer before is not read.
 */
pithread_written pithread_write(const uint8_t *table, size_t table_len, uint8_t *file, size_t file_len);

/*
 * Tells before anything is started whether a procedure keeps to the rental-shop profile. If so, its
 * threads never come to lack a row: from a start on, whatever steps, runs, gives, takes and
 * collections are called, by whatever seats, no step is refused on ground 13, no run ends for want of
 * a thread row, and there are never more threads than the bound that is answered.
 *
 * Every call of the table has to go to a definition of a higher number, or to its own where no branch
 * of that one is a spawn; ground 16 says that one does not, even if no thread can come to it. And the
 * thread bound of definition 0, counted at its first node, has to be at most 64; ground 17 says that
 * it is not. The bound says how many threads one thread can become, itself included: one at an end,
 * and one where it calls its own definition; where it calls another, as many as at the first node
 * there; at a choice as many as by the branch that has the most; by a branch as many as at the next
 * node, and by a spawn those of the child's node too. Guards make no difference here: a branch counts
 * whether its guard can be true or not.
 *
 * The table must have PITHREAD_TABLE_BYTES bytes and be one that pithread_load may write. It is only
 * read.
 */
pithread_profiled pithread_profile(const uint8_t *table, size_t table_len);

/*
 * All calls below take a table of PITHREAD_TABLE_BYTES bytes, as pithread_load wrote it, and a state
 * of PITHREAD_STATE_BYTES bytes. They only read the table.
 */

/*
 * Writes the state in which one thread, number 0, stands ready at the first node of the file, with
 * the ports in its parameters. What was in the state buffer before is not read. A start names no
 * seat: who may start anew is for the caller to say.
 */
pithread_started pithread_start(const uint8_t *table, size_t table_len, uint8_t *state, size_t state_len);

/*
 * All calls below take the state as an earlier call left it, then a list of rights of
 * PITHREAD_RIGHTS_BYTES bytes, which they only read, and the seat that calls. Each call names the
 * right that the seat has to have.
 *
 * A seat without it learns nothing of the state: the call is refused on ground 19 whatever bytes the
 * state has, and whatever thread, number or n is asked for, so that two benches which differ in their
 * states alone are the same to that seat. With the right, every call is what it would be if there
 * were no seats.
 */

/*
 * Lets one ready thread make one step. The seat has to have PITHREAD_MAY_STEP.
 *
 * At a choice the first branch that can go ahead is taken. A send or receive can if another thread
 * waits with the opposite offer on the same channel; of several such threads the one with the
 * lowest number is met, through its first such branch, and both go on as ready. A sum or difference
 * that does not fit 32 signed bits makes its branch count as one whose guard is false, so that what
 * is stored is always the exact number. Where no branch can go ahead, the thread waits. A branch that
 * starts a thread or makes a channel can go ahead, but without a free row the step is refused (ground
 * 13 or 14); no later branch is tried.
 */
pithread_stepped pithread_step(const uint8_t *table, size_t table_len, uint8_t *state, size_t state_len,
                               const uint8_t *rights, size_t rights_len, uint32_t seat, uint32_t thread);

/*
 * Gives a number to the thread that waits to receive on a port; of several, to the one with the
 * lowest number, through its first such branch. It goes on as ready. If there is none, nothing
 * changes. The seat has to have PITHREAD_MAY_GIVE for this port.
 *
 * A port that no file has, one above 7, is ground 19; one that this file does not have is ground 12
 * for a seat that has the right.
 */
pithread_given pithread_give(const uint8_t *table, size_t table_len, uint8_t *state, size_t state_len,
                             const uint8_t *rights, size_t rights_len, uint32_t seat,
                             uint32_t port, int32_t number);

/*
 * Takes a number from the thread that waits to send on a port; of several, from the one with the
 * lowest number, through its first such branch. It goes on as ready. If there is none, nothing
 * changes. The seat has to have PITHREAD_MAY_TAKE for this port; ports that are not there are refused
 * as by a give.
 */
pithread_taken pithread_take(const uint8_t *table, size_t table_len, uint8_t *state, size_t state_len,
                             const uint8_t *rights, size_t rights_len, uint32_t seat, uint32_t port);

/*
 * Makes up to n steps. Each is a step of the first ready thread from the turn upward, after thread
 * 63 going on with thread 0, and the turn moves to the row behind it. The seat has to have
 * PITHREAD_MAY_STEP, for no step too.
 *
 * A thread that lacks a row ends the run; that is no refusal. The steps made before it stay, the
 * thread stays as it is, and the turn moves past it, so that the next run begins with the others.
 *
 * n has sixteen bits. C cuts a larger number to them without a word: 65,536 asks for no step.
 */
pithread_ran pithread_run(const uint8_t *table, size_t table_len, uint8_t *state, size_t state_len,
                          const uint8_t *rights, size_t rights_len, uint32_t seat, uint16_t n);

/*
 * Takes away every thread that can never move again, whatever calls may follow: each waits, and
 * nobody who may still move has a channel on which it offers anything. The bench counts as one who
 * has the ports and may move, whatever rights its seats have. Rows of such threads become free, and so
 * do channels that nobody has any more. The turn and the rows at which searches begin stay. The seat
 * has to have PITHREAD_MAY_COLLECT.
 */
pithread_collected pithread_collect(const uint8_t *table, size_t table_len, uint8_t *state, size_t state_len,
                                    const uint8_t *rights, size_t rights_len, uint32_t seat);

#ifdef __cplusplus
}
#endif

#endif
