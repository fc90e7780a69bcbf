/* See measure.h. */
#include "measure.h"
#include "counter.h"

#include <stdio.h>
#include <stdlib.h>
#include <string.h>

enum { COLUMNS = 10, WIDEST = 32 };

/* The texts of a line of the table. */
typedef char cells[COLUMNS][WIDEST];

static const int widths[COLUMNS] = {27, 7, 8, 8, 6, 14, 8, 8, 8, 8};

/* Figures are aligned at their right, so that their digits stand below each other. */
static int is_right(int column) { return column >= 2 && column != 5; }

static void print_cells(cells line) {
    for (int i = 0; i < COLUMNS; i++) printf("| %*s ", is_right(i) ? widths[i] : -widths[i], line[i]);
    puts("|");
}

void print_heading(void) {
    char per_byte[WIDEST];
    snprintf(per_byte, sizeof per_byte, "%s/B", counter_unit());
    const char *const titles[COLUMNS] = {"what", "unit", "proved", "plain C", "ratio", "quartiles", per_byte, "plain C", "i5-6300U", "i5-4200U"};
    cells line;
    for (int i = 0; i < COLUMNS; i++) snprintf(line[i], WIDEST, "%s", titles[i]);
    print_cells(line);
    for (int i = 0; i < COLUMNS; i++) {
        memset(line[i], '-', (size_t)widths[i]);
        strcpy(line[i] + widths[i] - is_right(i), is_right(i) ? ":" : "");
    }
    print_cells(line);
}

/* About four digits of a figure. */
static void write_number(char *cell, double x) { snprintf(cell, WIDEST, "%.*f", x < 10 ? 2 : x < 1000 ? 1 : 0, x); }

static int ascending(const void *a, const void *b) {
    double x = *(const double *)a, y = *(const double *)b;
    return (x > y) - (x < y);
}

/* The value with the given share of the others below it: 0.5 for the median, 0.25 and 0.75 for the quartiles. */
static double share(const double *values, int n, double part) {
    double sorted[MOST_PAIRS];
    memcpy(sorted, values, (size_t)n * sizeof *values);
    qsort(sorted, (size_t)n, sizeof *sorted, ascending);
    return sorted[(int)(part * (n - 1))];
}

static void write_ratios(cells line, const struct figure *figure) {
    double ratios[MOST_PAIRS];
    int n = figure->pairs;
    for (int i = 0; i < n; i++) ratios[i] = figure->of[PROVED][i] / figure->of[PLAIN][i];
    double median = share(ratios, n, 0.5);
    int digits = median < 10 ? 3 : 1;
    snprintf(line[4], WIDEST, "%.*f", digits, median);
    snprintf(line[5], WIDEST, "%.*f to %.*f", digits, share(ratios, n, 0.25), digits, share(ratios, n, 0.75));
}

void print_row(const struct row *row, const char *unit, const struct figure *figure, const struct figure *counts) {
    cells line;
    snprintf(line[0], WIDEST, "%s", row->what);
    snprintf(line[1], WIDEST, "%s", unit);
    write_ratios(line, figure);
    for (int side = 0; side < SIDES; side++) {
        write_number(line[2 + side], share(figure->of[side], figure->pairs, 0.5));
        strcpy(line[6 + side], "-");
        if (counts && row->bytes) write_number(line[6 + side], share(counts->of[side], counts->pairs, 0.5) / (double)row->bytes);
        snprintf(line[8 + side], WIDEST, "%s", row->table5[side] ? row->table5[side] : "-");
    }
    print_cells(line);
    fflush(stdout);
}

void alternate(int pairs, measurement *measure, void *with) {
    for (int pair = 0; pair < pairs; pair++) {
        for (int k = 0; k < SIDES; k++) measure((enum side)((pair + k) % SIDES), pair, with);
    }
}

void fill(uint8_t *bytes, size_t length) {
    for (size_t i = 0; i < length; i++) bytes[i] = (uint8_t)(7 * i + i / 251);
}

static _Noreturn void differ(const struct row *row) {
    fprintf(stderr, "%s: the proved code and plain C do not give the same, at %zu bytes\n", row->what, row->bytes);
    exit(1);
}

void agree(const struct row *row, const struct peers *peers) {
    char before[peers->size], proved[peers->size];
    memcpy(before, peers->given, peers->size);
    peers->of[PROVED](row);
    memcpy(proved, peers->given, peers->size);
    memcpy(peers->given, before, peers->size);
    peers->of[PLAIN](row);
    if (memcmp(proved, peers->given, peers->size)) differ(row);
}

/* What is timed, and what it took by the call. */
struct timing {
    const struct row *row;
    const struct peers *peers;
    struct figure times, counts;
};

static void time_batch(enum side side, int pair, void *with) {
    struct timing *t = with;
    struct reading before = read_counters(), after;
    t->peers->of[side](t->row);
    after = read_counters();
    t->times.of[side][pair] = 1e9 * (after.seconds - before.seconds) / t->row->calls;
    t->counts.of[side][pair] = (after.count - before.count) / t->row->calls;
}

void compare(const struct row *row, const struct peers *peers, int pairs) {
    static struct timing t;
    t.row = row;
    t.peers = peers;
    t.times.pairs = t.counts.pairs = pairs;
    agree(row, peers); /* which warms the caches too */
    alternate(pairs, time_batch, &t);
    print_row(row, "ns", &t.times, strcmp(counter_unit(), "-") ? &t.counts : 0);
}
