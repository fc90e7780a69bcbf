/* The proved permutation beside the same in plain C: as a chain of values, and as a call on a lent row. */
#include "testbench.h"
#include "measure.h"
#include "parts.h"
#include "plain.h"

enum { CALLS = 5000 };

static struct {
    uint64_t state[5], answer;
} given = {{0x00400c0000000100u}, 0};

static void proved_chain(const struct row *row) { given.answer = testbench_permute_chain(1, 12, (uint64_t)row->calls); }
static void plain_chain(const struct row *row) { given.answer = plain_permute_chain(1, (uint64_t)row->calls); }

static void proved_row(const struct row *row) {
    for (int i = 0; i < row->calls; i++) given.answer = testbench_permute_row(given.state, 5);
}

static void plain_row(const struct row *row) {
    for (int i = 0; i < row->calls; i++) given.answer = plain_permute_row(given.state, 5);
}

void permutation_rows(int pairs) {
    static const struct row by_value = {"permutation, by value", 0, CALLS, {0, 0}}, lent = {"permutation, lent row", 0, CALLS, {0, 0}};
    static const struct peers chains = {{proved_chain, plain_chain}, &given, sizeof given}, rows = {{proved_row, plain_row}, &given, sizeof given};
    compare(&by_value, &chains, pairs);
    compare(&lent, &rows, pairs);
}
