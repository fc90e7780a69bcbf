/* Prints the table of benchmarks: what is counted, the table itself, and what its columns are. bench/run builds and calls it with the two script programs, a folder
 * to write to, and the number of pairs, of batches and of runs of a script. What it prints names "Ascon PRF, MAC, and Short-Input MAC" (source document 003)
 * by its number; docs/BENCHMARKS.md has the title. */
#include "counter.h"
#include "measure.h"
#include "parts.h"

#include <stdio.h>
#include <stdlib.h>

static void print_columns(int pairs, int script_pairs) {
    printf("\n"
           "- proved, plain C: the median of one call; for scripts that of one line, by a program from its start to its end. All time is processor time.\n"
           "- ratio: proved to plain C in each of %d alternating pairs of batches, or %d of runs of a script; the median. Below 1 the proved code takes less,\n"
           "  but for lines a second, where more is better.\n"
           "- quartiles: half of the pairs' ratios lie between these two.\n"
           "- %s/B, plain C: the median of one call per byte of its message, proved and in plain C.\n"
           "- i5-6300U, i5-4200U: cycles per byte in source document 003's table 5, of other code on these two processors.\n",
           pairs, script_pairs, counter_unit());
}

int main(int count, char **arguments) {
    int pairs = count == 6 ? atoi(arguments[4]) : 0, script_pairs = count == 6 ? atoi(arguments[5]) : 0;
    if (pairs < 1 || pairs > MOST_PAIRS || script_pairs < 1 || script_pairs > MOST_PAIRS) {
        fprintf(stderr, "usage: %s RAMPSCRIPT PLAIN-SCRIPT FOLDER PAIRS SCRIPT-PAIRS\n", arguments[0]);
        return 2;
    }
    print_counter();
    puts("");
    print_heading();
    permutation_rows(pairs);
    sponge_rows(pairs);
    firmware_rows(pairs);
    hub_rows(pairs);
    script_rows(script_pairs, arguments[1], arguments[2], arguments[3]);
    print_columns(pairs, script_pairs);
    return 0;
}
