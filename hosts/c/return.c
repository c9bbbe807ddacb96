/* The expected return of a game: factors a system file with two workers and solves it for a right side.
 *
 *   gcc -std=c11 -O2 -I hosts hosts/c/return.c target/staticlib/libsolumivaf.a -o return
 *   ./return SYSTEM RIGHT-SIDE
 *
 * RIGHT-SIDE has N * t decimals, parted by blanks, commas or line ends; from # to the end of its line is comment. Each line printed is a row's
 * number, the 16 digits of its answer's bits, and a decimal that reads back as these bits. What fails is one line on standard error, and status 1. */
#include <ctype.h>
#include <inttypes.h>
#include <stdio.h>
#include <stdlib.h>

#include "solumivaf.h"

#define WORKERS 2
#define ROWS SOLUMIVAF_RIGHT_LENGTH(tiles, side)
#define TASKS SOLUMIVAF_RECORDS_LENGTH(tiles)

static size_t tiles, side;
static double *matrix, *right, *answers;
static uint8_t *lists, busy[SOLUMIVAF_SLOTS], column[SOLUMIVAF_SLOTS];
static uint16_t task[SOLUMIVAF_SLOTS];
static uint32_t calls;
static solumivaf_record *records;
static char text[SOLUMIVAF_SYSTEM_LENGTH(SOLUMIVAF_MOST_TILES, SOLUMIVAF_MOST_SIDE) + 2];

/* What all calls on these buffers are told first. The run's number follows: by its address where a call may write it. */
#define LENT \
    tiles, side, WORKERS, matrix, SOLUMIVAF_MATRIX_LENGTH(tiles, side), lists, SOLUMIVAF_LISTS_LENGTH(tiles, side), records, TASKS, busy, task, \
        column, WORKERS

static void release(void) {
    free(matrix);
    free(lists);
    free(records);
    free(right);
    free(answers);
}

static void fail(const char *where, const char *what) {
    fprintf(stderr, "return: %s: %s\n", where, what);
    exit(EXIT_FAILURE);
}

static void check(const char *where, uint8_t number, size_t place) {
    if (number != 0) {
        fprintf(stderr, "return: %s: refusal %d at place %zu; look it up in solumivaf.h\n", where, number, place);
        exit(EXIT_FAILURE);
    }
}

static void *lend(size_t count, size_t size) {
    void *buffer = calloc(count, size);
    if (buffer == NULL)
        fail("memory", "there is too little; free some and start again");
    return buffer;
}

/* Reads a file into the text, puts a 0 after it and tells its length. */
static size_t read_text(const char *name) {
    FILE *file = fopen(name, "rb");
    if (file == NULL)
        fail(name, "cannot be opened; name a file that can be read");
    size_t length = fread(text, 1, sizeof text - 1, file);
    int whole = feof(file) && !ferror(file);
    if (fclose(file) != 0 || !whole)
        fail(name, "cannot be read, or is longer than the largest system; name another file");
    text[length] = 0;
    return length;
}

/* Reads the system, and lends what its sizes call for. */
static void read_system(const char *name) {
    size_t length = read_text(name);
    solumivaf_read read = solumivaf_read_sizes((const uint8_t *)text, length);
    check(name, read.number, read.place);
    tiles = read.tiles;
    side = read.side;
    matrix = lend(SOLUMIVAF_MATRIX_LENGTH(tiles, side), sizeof *matrix);
    lists = lend(SOLUMIVAF_LISTS_LENGTH(tiles, side), sizeof *lists);
    records = lend(TASKS, sizeof *records);
    right = lend(ROWS, sizeof *right);
    answers = lend(ROWS, sizeof *answers);
    read = solumivaf_read_system((const uint8_t *)text, length, matrix, SOLUMIVAF_MATRIX_LENGTH(tiles, side));
    check(name, read.number, read.place);
}

/* Reads the right side: a decimal for each row, and nothing else. */
static void read_right(const char *name) {
    size_t length = read_text(name);
    int comment = 0;
    for (char *at = text; at < text + length; at++) {
        comment = *at != '\n' && (comment || *at == '#');
        if (comment || *at == ',')
            *at = ' ';
    }
    char *next = text;
    for (size_t row = 0; row < ROWS; row++) {
        const char *start = next;
        right[row] = strtod(start, &next);
        if (next == start || (*next != 0 && !isspace((unsigned char)*next)))
            fail(name, "a decimal is missing or malformed; give one for each row");
    }
    while (isspace((unsigned char)*next))
        next++;
    if (next != text + length)
        fail(name, "text follows the last decimal; give one for each row");
}

/* The workers take turns until every task is finished: a busy one does a column, an idle one takes the first task that is ready. */
static void work(void) {
    size_t finished = 0;
    for (size_t w = 0; finished < TASKS; w = (w + 1) % WORKERS) {
        for (size_t p = finished; p < TASKS && !busy[w]; p++) {
            solumivaf_told told = solumivaf_take(LENT, &calls, w, p);
            if (told.number != SOLUMIVAF_REFUSED_NOT_READY)
                check("take", told.number, told.place);
        }
        if (busy[w]) {
            solumivaf_told told = solumivaf_column(LENT, &calls, w);
            check("column", told.number, told.place);
        }
        while (finished < TASKS && records[finished].mark >= SOLUMIVAF_MARK_DONE)
            finished++;
    }
}

static void print_answers(void) {
    int good = 1;
    for (size_t row = 0; row < ROWS; row++) {
        uint64_t bits;
        memcpy(&bits, &answers[row], sizeof bits);
        good = printf("%zu %016" PRIX64 " %.17g\n", row, bits, answers[row]) > 0 && good;
    }
    if (fclose(stdout) != 0 || !good)
        fail("standard output", "cannot be written; look whether there is room");
}

int main(int count, char **words) {
    if (count != 3)
        fail("usage", "return SYSTEM RIGHT-SIDE");
    if (solumivaf_version() != SOLUMIVAF_VERSION)
        fail("library", "it has another version than solumivaf.h; run hosts/build and compile again");
    if (!solumivaf_arithmetic())
        fail("arithmetic", "the mode is not IEEE 754's default; link without -ffast-math and -Ofast");
    if (atexit(release) != 0)
        fail("memory", "there is too little; free some and start again");
    read_system(words[1]);
    read_right(words[2]);
    solumivaf_told told = solumivaf_open(LENT, &calls);
    check("open", told.number, told.place);
    work();
    told = solumivaf_outcome(LENT, calls);
    check("outcome", told.number, told.place);
    if (told.kind != SOLUMIVAF_OUTCOME_GOOD)
        check(words[1], told.kind == SOLUMIVAF_OUTCOME_OVERFLOW ? SOLUMIVAF_REFUSED_OVERFLOW : SOLUMIVAF_REFUSED_SINGULAR, told.place);
    told = solumivaf_solve(LENT, calls, right, ROWS, answers, ROWS);
    check("solve", told.number, told.place);
    print_answers();
    return EXIT_SUCCESS;
}
