/* The calls of the library, for C and C++. Link target/staticlib/libsolumivaf.a, or libsolumivaf.so beside it: hosts/build writes both (x86-64
 * Linux). hosts/c/return.c is a host to look at.
 *
 * Sizes: a system has N = `tiles` tiles a side, 1 to 16, each with t = `side` numbers a side, 1 to 16, and W = `workers` workers, 1 to 32.
 * Workers, tasks, rows, columns and offsets count from 0.
 *
 * Buffers, all lent by the caller, and their lengths:
 *   matrix    (N * t)^2 numbers: tile after tile, (0,0), (0,1) and so on, each tile row by row
 *   lists     N^2 * t bytes: a row list of t entries for each tile, in the same order
 *   records   N * (N + 1) * (2 * N + 1) / 6, one for each task
 *   busy, task, column   SOLUMIVAF_SLOTS each: slot v says whether worker v is busy, its task and its next column. The first `count` are the
 *             workers lent, and W is their number; the others are not looked at and stay as they are. A byte of `busy` is 0 for an idle
 *             worker, and any other byte is busy. A call leaves 0 for an idle worker, and for a busy one the byte that it had, or 1 where that was 0
 *   number    the run's number, which goes with the workers: how many takes and columns were accepted since the opening, those inside a run among
 *             them. So each of these calls has a number of its own, from 1 on. One number, lent by its address where a call may write it
 *   right, answers       N * t numbers each
 *   text      of a system to write: 7 + N^2 * (7 + 16 * t^2) bytes or more. Of a result: that, N * (N + 1) / 2 * (7 + 2 * t) and 9 more
 * A pointer and the length after it are one slice. A length that differs from the one stated, or a count that differs from W, is refusal 2. The
 * macros below, SOLUMIVAF_MATRIX_LENGTH and so on, compute these lengths.
 *
 * Pointers are never null and are aligned for their type, also where a length is 0. What a call writes through one pointer may not be reached
 * through another of its pointers, and during the call by no other thread. A function keeps no pointer and allocates nothing. So threads that
 * share what is lent share one lock as well, and each holds it during a call.
 *
 * Arithmetic: every thread that calls is in IEEE 754's default mode: it rounds to nearest, ties to even, and keeps subnormal numbers, as operands
 * and as results. The library computes in the calling thread's mode and does not test it: in another mode it gets other bits and refuses nothing.
 * fesetround sets another mode, and so do -ffast-math, -Ofast and -funsafe-math-optimizations where a program or a shared library is linked with
 * them. A thread starts in the mode of the one that starts it. solumivaf_arithmetic() tests the mode in some nanoseconds: ask it before a call.
 *
 * A refusal changes nothing, and has a number and a place:
 *    1  tiles, side or workers is out of range. In a file: on line 1, with that line as the place
 *    2  a length, or the count of the workers lent, is not the one that the sizes call for
 *    3  a number isn't finite: in the matrix at an opening, or on the right side of a solve; its offset. In a file: its line
 *    4  what was lent is damaged: a record is not its task's or has no known mark; tasks and workers do not hold each other; a tie sum is above
 *       what the task's state allows (t * t for a done or failed task, t times its next column for a taken one, 0 otherwise); the run's number is
 *       above what all tasks allow (t + 1 for each finished one, 1 and its next column for each taken one), or below the number of a call in a
 *       record; the worker in a record is not below W; an entry of a list is too large; or a number that the call needs isn't finite. Worker and
 *       calls are looked at in every record, that of an unfinished task too
 *    5  the worker named does not exist, is busy and cannot take, or is idle and has no column to do; the worker
 *    6  the task named does not exist
 *    7  the task named is not ready; the task
 *    8  a solve comes too early; the lowest unfinished task
 *    9  the outcome is overflow, so there is no solution; the task
 *   10  the outcome is singular, so there is no solution; the row
 *   11  a solve meets a number that isn't finite; the stage k of a T-2, the tile row i of a T-4, or the backward row
 *   12  a line of a file is malformed; the line, from 1
 *   13  a frame of a file comes out of order or is of another kind than the one due; the line
 *   14  a file ends too early or goes on too long; the first line that is missing or too many
 *   15  the text lent to a writer is too short
 * Where no place is named it is 0. */
#ifndef SOLUMIVAF_H
#define SOLUMIVAF_H

#include <stddef.h>
#include <stdint.h>
#include <string.h>

#ifdef __cplusplus
extern "C" {
#endif

/* The version of this interface: another one where a function or a struct that crosses has changed. */
#define SOLUMIVAF_VERSION 5

/* Limits: the most tiles a side, numbers a side of a tile, and tasks; the most workers, which is the number of worker slots. */
#define SOLUMIVAF_MOST_TILES 16
#define SOLUMIVAF_MOST_SIDE 16
#define SOLUMIVAF_MOST_TASKS 1496
#define SOLUMIVAF_SLOTS 32

/* The lengths listed above, by N and t in range. An argument is computed more than once. */
#define SOLUMIVAF_RIGHT_LENGTH(tiles, side) ((size_t)(tiles) * (size_t)(side))
#define SOLUMIVAF_MATRIX_LENGTH(tiles, side) (SOLUMIVAF_RIGHT_LENGTH(tiles, side) * SOLUMIVAF_RIGHT_LENGTH(tiles, side))
#define SOLUMIVAF_LISTS_LENGTH(tiles, side) ((size_t)(tiles) * SOLUMIVAF_RIGHT_LENGTH(tiles, side))
#define SOLUMIVAF_RECORDS_LENGTH(tiles) ((size_t)(tiles) * ((size_t)(tiles) + 1) * (2 * (size_t)(tiles) + 1) / 6)
#define SOLUMIVAF_SYSTEM_LENGTH(tiles, side) (7 + (size_t)(tiles) * (size_t)(tiles) * (7 + 16 * (size_t)(side) * (size_t)(side)))
#define SOLUMIVAF_RESULT_LENGTH(tiles, side) \
    (SOLUMIVAF_SYSTEM_LENGTH(tiles, side) + (size_t)(tiles) * ((size_t)(tiles) + 1) / 2 * (7 + 2 * (size_t)(side)) + 9)

/* The refusals, as listed above. */
enum {
    SOLUMIVAF_REFUSED_SIZES = 1,
    SOLUMIVAF_REFUSED_LENGTH = 2,
    SOLUMIVAF_REFUSED_NOT_FINITE = 3,
    SOLUMIVAF_REFUSED_DAMAGED = 4,
    SOLUMIVAF_REFUSED_WORKER = 5,
    SOLUMIVAF_REFUSED_NO_TASK = 6,
    SOLUMIVAF_REFUSED_NOT_READY = 7,
    SOLUMIVAF_REFUSED_TOO_EARLY = 8,
    SOLUMIVAF_REFUSED_OVERFLOW = 9,
    SOLUMIVAF_REFUSED_SINGULAR = 10,
    SOLUMIVAF_REFUSED_SOLVING = 11,
    SOLUMIVAF_REFUSED_MALFORMED = 12,
    SOLUMIVAF_REFUSED_OUT_OF_ORDER = 13,
    SOLUMIVAF_REFUSED_END = 14,
    SOLUMIVAF_REFUSED_SHORT_TEXT = 15
};

/* The kinds of tasks: T-1 to T-4. */
enum { SOLUMIVAF_TASK_FACTOR = 1, SOLUMIVAF_TASK_APPLY = 2, SOLUMIVAF_TASK_COUPLE = 3, SOLUMIVAF_TASK_PAIR = 4 };

/* The marks of a task. From SOLUMIVAF_MARK_DONE on it is finished. */
enum {
    SOLUMIVAF_MARK_WAITING = 0,
    SOLUMIVAF_MARK_TAKEN = 1,
    SOLUMIVAF_MARK_DONE = 2,
    SOLUMIVAF_MARK_FAILED = 3,
    SOLUMIVAF_MARK_SPOILED = 4
};

/* How a run ended, and the outcomes. */
enum { SOLUMIVAF_RUN_FINISHED = 1, SOLUMIVAF_RUN_SPENT = 2 };
enum {
    SOLUMIVAF_OUTCOME_GOOD = 0,
    SOLUMIVAF_OUTCOME_OVERFLOW = 1,
    SOLUMIVAF_OUTCOME_SINGULAR = 2,
    SOLUMIVAF_OUTCOME_UNFINISHED = 3
};

/* A task: its kind (1 to 4 for T-1 to T-4), k, i and j, 0 where the kind has none, its mark: 0 waits, 1 is taken, 2 done, 3 failed, 4 spoiled; the
 * worker that ended it; the sum of its ties; and the numbers of the calls that took and ended it. Worker and calls are 0 until then. They tell the
 * order of work: two runs of a system may differ in them, and in nothing else. A number of more than one byte has its low byte first, and a function
 * below tells it. Sixteen bytes, without padding. */
typedef struct {
    uint8_t kind;
    uint8_t k;
    uint8_t i;
    uint8_t j;
    uint8_t mark;
    uint8_t worker;
    uint8_t ties[2];
    uint8_t took[4];
    uint8_t ended[4];
} solumivaf_record;

/* The sum of a task's ties. A column of T-1 or T-3 searches for its pivot: every other candidate of the pivot's magnitude is a tie, and a pivot of
 * zero has none. The columns that the task has completed count, a failing one does not. T-2, T-4 and spoiled tasks have 0. */
static inline uint16_t solumivaf_ties(solumivaf_record record) {
    return (uint16_t)(record.ties[0] | record.ties[1] << 8);
}

/* The number that four bytes have, the low one first. */
static inline uint32_t solumivaf_number(const uint8_t *bytes) {
    return (uint32_t)bytes[0] | (uint32_t)bytes[1] << 8 | (uint32_t)bytes[2] << 16 | (uint32_t)bytes[3] << 24;
}

/* The number of the take that gave the task to a worker, 0 while it waits. */
static inline uint32_t solumivaf_took(solumivaf_record record) {
    return solumivaf_number(record.took);
}

/* The number of the column call that ended the task, done, failed or spoiled, 0 before that. In a run from its opening no two takes or ends share a
 * number, and a task that had to wait for another one has a took above the other's ended. */
static inline uint32_t solumivaf_ended(solumivaf_record record) {
    return solumivaf_number(record.ended);
}

/* What a call tells: a refusal's number and its place, with number 0 where nothing is refused. Then
 *   run      kind 1 finished, 2 spent; count: the calls made
 *   outcome  kind 0 good, 1 overflow, 2 singular, 3 unfinished; place: the task or the row
 *   write    count: the length written */
typedef struct {
    size_t place;
    uint64_t count;
    uint8_t number;
    uint8_t kind;
} solumivaf_told;

/* What a reading tells: a refusal's number and its place; else N and t, and for a result the outcome's kind and its task or row. */
typedef struct {
    size_t place;
    size_t tiles;
    size_t side;
    uint16_t at;
    uint8_t number;
    uint8_t kind;
} solumivaf_read;

/* Whether a sum or a product has the bits that are due. The operands are volatile, so that it is computed when it is asked; bits are compared, since
 * a comparison of numbers can take a subnormal number for zero. */
static inline int solumivaf_computes(uint64_t left, char operation, uint64_t right, uint64_t due) {
    double x, y;
    memcpy(&x, &left, sizeof x);
    memcpy(&y, &right, sizeof y);
    volatile double a = x, b = y;
    volatile double c = operation == '+' ? a + b : a * b;
    x = c;
    memcpy(&left, &x, sizeof x);
    return left == due;
}

/* Nonzero where the calling thread is in IEEE 754's default mode. */
static inline int solumivaf_arithmetic(void) {
    const uint64_t one = UINT64_C(0x3FF0000000000000), minus_one = UINT64_C(0xBFF0000000000000);
    const uint64_t tie = UINT64_C(0x3CA0000000000000); /* 2^-53, half of the last place of 1 */
    return solumivaf_computes(one, '+', UINT64_C(0x3C30000000000000), one)                /* 1 + 2^-60: not up */
        && solumivaf_computes(minus_one, '+', UINT64_C(0xBC30000000000000), minus_one)    /* -1 - 2^-60: not down */
        && solumivaf_computes(one, '+', UINT64_C(0x3CA0200000000000), one + 1)            /* 1 + (2^-53 + 2^-60): not toward zero */
        && solumivaf_computes(one, '+', tie, one)                                         /* ties to even, below */
        && solumivaf_computes(one + 1, '+', tie, one + 2)                                 /* and above */
        && solumivaf_computes(UINT64_C(0x0010000000000000), '*', UINT64_C(0x3FE0000000000000), UINT64_C(0x0008000000000000)) /* 2^-1022 / 2 */
        && solumivaf_computes(1, '*', UINT64_C(0x7E70000000000000), UINT64_C(0x3B50000000000000)); /* 2^-1074 * 2^1000 */
}

/* The SOLUMIVAF_VERSION of the header that the library was built for. A host compares it with its own before any other call. */
size_t solumivaf_version(void);

/* Starts the work on a matrix, which it reads and leaves as it is. Sets the lists to 0, the records to the tasks in order, all waiting and with no
 * ties, worker or calls, the workers to idle and the run's number to 0; what these held before does not matter. */
solumivaf_told solumivaf_open(size_t tiles, size_t side, size_t workers, const double *matrix, size_t matrix_length, uint8_t *lists,
                              size_t lists_length, solumivaf_record *records, size_t records_length, uint8_t *busy, uint16_t *task,
                              uint8_t *column, size_t count, uint32_t *number);

/* Worker w takes task p. Adds 1 to the run's number, and writes it into the task's record with the mark; writes the worker's slot. */
solumivaf_told solumivaf_take(size_t tiles, size_t side, size_t workers, const double *matrix, size_t matrix_length, const uint8_t *lists,
                              size_t lists_length, solumivaf_record *records, size_t records_length, uint8_t *busy, uint16_t *task,
                              uint8_t *column, size_t count, uint32_t *number, size_t w, size_t p);

/* Worker w does the next column of its task. Adds 1 to the run's number; writes tiles and a list of that task and the worker's slot; where the column
 * is completed, adds the ties of its pivot search to the task's sum; and where the task ends, writes its mark, the worker and the run's number into
 * its record. */
solumivaf_told solumivaf_column(size_t tiles, size_t side, size_t workers, double *matrix, size_t matrix_length, uint8_t *lists,
                                size_t lists_length, solumivaf_record *records, size_t records_length, uint8_t *busy, uint16_t *task,
                                uint8_t *column, size_t count, uint32_t *number, size_t w);

/* Takes and columns, worker after worker from 0 on, until all tasks are finished or `budget` calls are made. Any budget is allowed: UINT64_MAX
 * runs to the end. Writes what these calls write. */
solumivaf_told solumivaf_run(size_t tiles, size_t side, size_t workers, double *matrix, size_t matrix_length, uint8_t *lists,
                             size_t lists_length, solumivaf_record *records, size_t records_length, uint8_t *busy, uint16_t *task,
                             uint8_t *column, size_t count, uint32_t *number, uint64_t budget);

/* The outcome by the marks and the diagonal, or the lowest unfinished task. Writes nothing, and tests nothing but sizes and lengths. */
solumivaf_told solumivaf_outcome(size_t tiles, size_t side, size_t workers, const double *matrix, size_t matrix_length,
                                 const uint8_t *lists, size_t lists_length, const solumivaf_record *records, size_t records_length,
                                 const uint8_t *busy, const uint16_t *task, const uint8_t *column, size_t count, uint32_t number);

/* Solves a factored system for one right side. Writes only the answers, and these only where nothing is refused. */
solumivaf_told solumivaf_solve(size_t tiles, size_t side, size_t workers, const double *matrix, size_t matrix_length, const uint8_t *lists,
                               size_t lists_length, const solumivaf_record *records, size_t records_length, const uint8_t *busy,
                               const uint16_t *task, const uint8_t *column, size_t count, uint32_t number, const double *right,
                               size_t right_length, double *answers, size_t answers_length);

/* Tells N and t by line 1 of a text, of a system or of a result alike, so that a host knows what to lend to a reading. Looks at nothing after line 1
 * and writes nothing. Refusals are those that a reading has for line 1. */
solumivaf_read solumivaf_read_sizes(const uint8_t *text, size_t text_length);

/* Reads a system file. Writes the matrix, which has the length that the text's first line calls for. */
solumivaf_read solumivaf_read_system(const uint8_t *text, size_t text_length, double *matrix, size_t matrix_length);

/* Reads a result file. Writes the matrix and the lists, which have the lengths that the text's first line calls for. */
solumivaf_read solumivaf_read_result(const uint8_t *text, size_t text_length, double *matrix, size_t matrix_length, uint8_t *lists,
                                     size_t lists_length);

/* Writes a system file into the front of the text; the rest of it stays. A NaN is written as 7FF8000000000000. */
solumivaf_told solumivaf_write_system(size_t tiles, size_t side, const double *matrix, size_t matrix_length, uint8_t *text,
                                      size_t text_length);

/* Writes a result file into the front of the text; the rest of it stays. The outcome to write: kind 0 good, 1 overflow at task `place`,
 * any other singular at row `place`. */
solumivaf_told solumivaf_write_result(size_t tiles, size_t side, const double *matrix, size_t matrix_length, const uint8_t *lists,
                                      size_t lists_length, uint8_t kind, uint16_t place, uint8_t *text, size_t text_length);

#ifdef __cplusplus
}
#endif

#endif
