/* The proved sponge beside the same in plain C: both hashes and the MAC of a long message. firmware.c has the MAC of short ones: testbench_sponge takes any mode, and
 * cuts message and output in two for the tests, and so does more than its peer, which a short message would show. */
#include "testbench.h"
#include "measure.h"
#include "parts.h"
#include "plain.h"

enum { MAC = 2, HASH = 3, HASHA = 5, LONG = 65536 };

static uint8_t message[LONG], key[16];

static struct {
    uint8_t out[32];
    uint64_t runs;
} given;

/* The first part is all of the message, and all of the output. A hash has no tag length. */
static void proved_hash(const struct row *row) { given.runs = testbench_sponge(key, 0, message, row->bytes, given.out, 32, HASH, 0, row->bytes, 32); }
static void plain_hash_of(const struct row *row) { given.runs = plain_hash(message, row->bytes, given.out); }
static void proved_hasha(const struct row *row) { given.runs = testbench_sponge(key, 0, message, row->bytes, given.out, 32, HASHA, 0, row->bytes, 32); }
static void plain_hasha_of(const struct row *row) { given.runs = plain_hasha(message, row->bytes, given.out); }
static void proved_mac(const struct row *row) { given.runs = testbench_sponge(key, 16, message, row->bytes, given.out, 16, MAC, 16, row->bytes, 16); }
static void plain_mac_of(const struct row *row) { given.runs = plain_mac(key, message, row->bytes, given.out); }

void sponge_rows(int pairs) {
    static const struct row long_hash = {"hash, long (64 KiB)", LONG, 1, {0, 0}}, long_hasha = {"hasha, long (64 KiB)", LONG, 1, {0, 0}};
    static const struct row long_mac = {"MAC, long (64 KiB)", LONG, 1, {"6.2", "8.4"}};
    static const struct peers hash = {{proved_hash, plain_hash_of}, &given, sizeof given}, hasha = {{proved_hasha, plain_hasha_of}, &given, sizeof given};
    static const struct peers mac = {{proved_mac, plain_mac_of}, &given, sizeof given};
    fill(message, sizeof message);
    fill(key, sizeof key);
    for (size_t n = 0; n <= 200; n++) {
        const struct row row = {"sponge", n, 1, {0, 0}};
        agree(&row, &hash);
        agree(&row, &hasha);
        agree(&row, &mac);
    }
    compare(&long_hash, &hash, pairs);
    compare(&long_hasha, &hasha, pairs);
    compare(&long_mac, &mac, pairs);
}
