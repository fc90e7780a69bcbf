/* What sign firmware calls beside the same in plain C: sealing, which is the MAC of a body written after it, and the short function, of messages as long as those of
 * table 5 of "Ascon PRF, MAC, and Short-Input MAC" (source document 003); and judging. */
#include "measure.h"
#include "parts.h"
#include "plain.h"
#include "firmware.h"

enum { LONGEST = 4096 };

static uint8_t key[16], message[16];

static struct {
    uint8_t out[16], frame[LONGEST + 16];
    uint32_t answer;
} given;

/* The same call again and again. */
#define BATCH(name, call)                                         \
    static void name(const struct row *row) {                     \
        for (int i = 0; i < row->calls; i++) given.answer = call; \
    }

BATCH(proved_seal, ascon_seal_frame(key, 16, given.frame, row->bytes + 16, row->bytes))
BATCH(plain_seal, plain_seal_frame(key, 16, given.frame, row->bytes + 16, row->bytes))
BATCH(proved_verify, ascon_verify_frame(key, 16, given.frame, row->bytes + 16, row->bytes))
BATCH(plain_verify, plain_verify_frame(key, 16, given.frame, row->bytes + 16, row->bytes))
BATCH(proved_short, ascon_prf_short(key, 16, message, row->bytes, given.out, 16, 16))
BATCH(plain_short, plain_prf_short(key, 16, message, row->bytes, given.out, 16, 16))

static const struct peers seal = {{proved_seal, plain_seal}, &given, sizeof given};
static const struct peers verify = {{proved_verify, plain_verify}, &given, sizeof given};
static const struct peers short_function = {{proved_short, plain_short}, &given, sizeof given};

static const struct {
    struct row row;
    const struct peers *peers;
} rows[] = {
    {{"MAC (seal), 1 byte", 1, 1000, {"427", "517"}}, &seal},
    {{"MAC (seal), 8 bytes", 8, 1000, {"48", "64"}}, &seal},
    {{"MAC (seal), 16 bytes", 16, 1000, {"24", "33"}}, &seal},
    {{"MAC (seal), 32 bytes", 32, 500, {"21", "25"}}, &seal},
    {{"MAC (seal), 64 bytes", 64, 500, {"13.3", "16.3"}}, &seal},
    {{"MAC (seal), 1,536 bytes", 1536, 50, {"6.4", "8.7"}}, &seal},
    {{"MAC (seal), 4,096 bytes", LONGEST, 20, {0, 0}}, &seal},
    {{"judge, 32 bytes", 32, 500, {0, 0}}, &verify},
    {{"judge, 4,096 bytes", LONGEST, 20, {0, 0}}, &verify},
    {{"short function, 1 byte", 1, 1000, {"188", "257"}}, &short_function},
    {{"short function, 8 bytes", 8, 1000, {"23", "33"}}, &short_function},
    {{"short function, 16 bytes", 16, 1000, {"12", "17"}}, &short_function},
};

/* A body is judged with a wrong tag, and once it is sealed. */
static void all_agree(void) {
    for (size_t n = 0; n <= 300; n++) {
        const struct row row = {"firmware", n, 1, {0, 0}};
        if (n <= 16) agree(&row, &short_function);
        agree(&row, &verify);
        agree(&row, &seal);
        agree(&row, &verify);
    }
}

void firmware_rows(int pairs) {
    fill(given.frame, sizeof given.frame);
    fill(key, sizeof key);
    fill(message, sizeof message);
    all_agree();
    for (size_t i = 0; i < sizeof rows / sizeof *rows; i++) compare(&rows[i].row, rows[i].peers, pairs);
}
