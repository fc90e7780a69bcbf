/* Feeds through the hub, by value and in place, beside plain C that alters a hub where it lies. A call that is refused is timed too.
 * A batch begins with sixteen opens and ends with one feed more, on both sides; that is one or two microseconds. */
#include "testbench.h"
#include "measure.h"
#include "parts.h"
#include "plain.h"

enum { OPEN = 16, LONGEST = 1024 };

static uint8_t bytes[LONGEST];
static uint32_t ticket;
static uint64_t runs;

#define BATCH(name, feeds)                                                      \
    static void name(const struct row *row) {                                   \
        runs = feeds(ticket, bytes, row->bytes, (size_t)row->calls);            \
    }

BATCH(by_value, testbench_feeds_by_value)
BATCH(in_place, testbench_feeds_in_place)
BATCH(plain, plain_feeds)

static const struct peers copied = {{by_value, plain}, &runs, sizeof runs}, lent = {{in_place, plain}, &runs, sizeof runs};

static const struct {
    struct row row;
    const struct peers *peers;
} accepted[] = {
    {{"feed 0 bytes, by value", 0, 40000, {0, 0}}, &copied},
    {{"feed 1 byte, by value", 1, 20000, {0, 0}}, &copied},
    {{"feed 32 bytes, by value", 32, 4000, {0, 0}}, &copied},
    {{"feed 1,024 bytes, by value", LONGEST, 400, {0, 0}}, &copied},
    {{"feed 0 bytes, in place", 0, 40000, {0, 0}}, &lent},
    {{"feed 1 byte, in place", 1, 20000, {0, 0}}, &lent},
    {{"feed 7 bytes, in place", 7, 10000, {0, 0}}, &lent},
    {{"feed 8 bytes, in place", 8, 10000, {0, 0}}, &lent},
    {{"feed 16 bytes, in place", 16, 10000, {0, 0}}, &lent},
    {{"feed 31 bytes, in place", 31, 8000, {0, 0}}, &lent},
    {{"feed 32 bytes, in place", 32, 8000, {0, 0}}, &lent},
    {{"feed 33 bytes, in place", 33, 8000, {0, 0}}, &lent},
    {{"feed 1,024 bytes, in place", LONGEST, 400, {0, 0}}, &lent},
};
static const struct row refused[2] = {{"feed refused, by value", 0, 40000, {0, 0}}, {"feed refused, in place", 0, 40000, {0, 0}}};

/* Tickets that are open, and two that were never issued. */
static void all_agree(void) {
    for (ticket = 0; ticket <= OPEN + 1; ticket++) {
        for (size_t n = 0; n <= 100; n++) {
            const struct row row = {"hub", n, (int)(n % 5), {0, 0}};
            agree(&row, &copied);
            agree(&row, &lent);
        }
    }
}

void hub_rows(int pairs) {
    fill(bytes, sizeof bytes);
    all_agree();
    ticket = OPEN / 2;
    for (size_t i = 0; i < sizeof accepted / sizeof *accepted; i++) compare(&accepted[i].row, accepted[i].peers, pairs);
    ticket = OPEN + 1;
    compare(&refused[0], &copied, pairs);
    compare(&refused[1], &lent, pairs);
}
