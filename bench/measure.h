/* Measures two ways of doing the same work in one run, in alternating pairs, and prints what they took as lines of one table. */
#ifndef MEASURE_H
#define MEASURE_H

#include <stddef.h>
#include <stdint.h>

enum { MOST_PAIRS = 1001 };
enum side { PROVED, PLAIN, SIDES };

/* What a line of the table is about. */
struct row {
    const char *what;
    size_t bytes; /* that one call takes in; 0 where a figure by the byte means nothing */
    int calls;    /* in a batch */
    /* cycles per byte in table 5 of "Ascon PRF, MAC, and Short-Input MAC" (source document 003), for the i5-6300U and the i5-4200U; null where it has none */
    const char *table5[2];
};

/* One figure of both sides, pair by pair. */
struct figure {
    int pairs;
    double of[SIDES][MOST_PAIRS];
};

void print_heading(void);

/* Prints a line: the medians of a figure, the median and the quartiles of the pairs' ratios and, unless they are null, the medians of what was counted in one call,
   by the byte. */
void print_row(const struct row *row, const char *unit, const struct figure *figure, const struct figure *counts);

/* Has both sides measured once in each pair. The side that goes first changes from pair to pair, so that a drift of the clock favours neither. */
typedef void measurement(enum side side, int pair, void *with);
void alternate(int pairs, measurement *measure, void *with);

/* A batch of calls: as many as the row says, on as many bytes. */
typedef void batch(const struct row *row);

/* A proved function and its peer in plain C, as batches, and the memory that what they give lies in. */
struct peers {
    batch *of[SIDES];
    void *given;
    size_t size;
};

/* Ends the program where a batch of one side, begun with the same memory, leaves something else in it than a batch of the other. */
void agree(const struct row *row, const struct peers *peers);

/* Has the two agree, times them, and prints the row: nanoseconds of one call, in processor time of this process. */
void compare(const struct row *row, const struct peers *peers, int pairs);

/* Bytes to work on. */
void fill(uint8_t *bytes, size_t length);

#endif
