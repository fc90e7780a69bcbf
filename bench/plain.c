/* See plain.h. The bitsliced form that implementations of Ascon commonly have. */
#include "plain.h"
#include "load.h"

#include <string.h>

static inline uint64_t rotate(uint64_t x, int n) { return x >> n | x << (64 - n); }

/* The last so many of the twelve rounds. In every caller the number is a literal, or becomes one where `hash` is put into its two callers. */
static inline void permute(uint64_t s[5], int rounds) {
    uint64_t x0 = s[0], x1 = s[1], x2 = s[2], x3 = s[3], x4 = s[4];
    for (int i = 12 - rounds; i < 12; i++) {
        x2 ^= (uint64_t)(240 - 15 * i);
        x0 ^= x4;
        x4 ^= x3;
        x2 ^= x1;
        uint64_t t0 = ~x0 & x1, t1 = ~x1 & x2, t2 = ~x2 & x3, t3 = ~x3 & x4, t4 = ~x4 & x0;
        x0 ^= t1;
        x1 ^= t2;
        x2 ^= t3;
        x3 ^= t4;
        x4 ^= t0;
        x1 ^= x0;
        x0 ^= x4;
        x3 ^= x2;
        x2 = ~x2;
        x0 ^= rotate(x0, 19) ^ rotate(x0, 28);
        x1 ^= rotate(x1, 61) ^ rotate(x1, 39);
        x2 ^= rotate(x2, 1) ^ rotate(x2, 6);
        x3 ^= rotate(x3, 10) ^ rotate(x3, 17);
        x4 ^= rotate(x4, 7) ^ rotate(x4, 41);
    }
    s[0] = x0;
    s[1] = x1;
    s[2] = x2;
    s[3] = x3;
    s[4] = x4;
}

uint32_t plain_permute_row(uint64_t *row, size_t length) {
    if (length != 5) return 7;
    permute(row, 12);
    return 0;
}

void plain_permute(uint64_t s[5], int rounds) {
    if (rounds == 8) permute(s, 8);
    else permute(s, 12);
}

uint64_t plain_permute_chain(uint64_t x0, uint64_t times) {
    uint64_t s[5] = {x0, 0, 0, 0, 0};
    for (uint64_t i = 0; i < times; i++) permute(s, 12);
    return s[0];
}

/* A word as eight bytes, in one store. */
static inline void store(uint8_t *bytes, uint64_t x) {
    x = __builtin_bswap64(x);
    memcpy(bytes, &x, 8);
}

/* Fewer than eight bytes and the padding, as a word. */
static inline uint64_t load_last(const uint8_t *bytes, size_t n) {
    uint64_t x = (uint64_t)0x80 << (56 - 8 * n);
    for (size_t i = 0; i < n; i++) x |= (uint64_t)bytes[i] << (56 - 8 * i);
    return x;
}

/* The first run and the last block's have twelve rounds, all others so many. */
static inline uint64_t hash(uint64_t start, int rounds, const uint8_t *message, size_t length, uint8_t out[32]) {
    uint64_t s[5] = {start, 0, 0, 0, 0}, runs = 1;
    permute(s, 12);
    for (; length >= 8; message += 8, length -= 8, runs++) {
        s[0] ^= load(message);
        permute(s, rounds);
    }
    s[0] ^= load_last(message, length);
    permute(s, 12);
    store(out, s[0]);
    for (int i = 1; i < 4; i++) {
        permute(s, rounds);
        store(out + 8 * i, s[0]);
    }
    return runs + 4;
}

uint64_t plain_hash(const uint8_t *message, size_t length, uint8_t out[32]) { return hash(0x00400c0000000100u, 12, message, length, out); }
uint64_t plain_hasha(const uint8_t *message, size_t length, uint8_t out[32]) { return hash(0x00400c0400000100u, 8, message, length, out); }

/* The start word has the tag's length in bits; of the output there is a block. */
static inline uint64_t mac(uint64_t start, const uint8_t key[16], const uint8_t *message, size_t length, uint8_t out[16]) {
    uint64_t s[5] = {start, load(key), load(key + 8), 0, 0}, runs = 1;
    permute(s, 12);
    for (; length >= 32; message += 32, length -= 32, runs++) {
        for (int j = 0; j < 4; j++) s[j] ^= load(message + 8 * j);
        permute(s, 12);
    }
    size_t j = 0;
    for (; length >= 8; message += 8, length -= 8) s[j++] ^= load(message);
    s[j] ^= load_last(message, length);
    s[4] ^= 1;
    permute(s, 12);
    store(out, s[0]);
    store(out + 8, s[1]);
    return runs + 1;
}

uint64_t plain_mac(const uint8_t key[16], const uint8_t *message, size_t length, uint8_t out[16]) { return mac(0x80808c0000000080u, key, message, length, out); }

uint64_t plain_mac_tag(const uint8_t key[16], const uint8_t *message, size_t length, uint8_t *tag, size_t tag_length) {
    uint8_t out[16];
    uint64_t runs = mac(0x80808c0000000000u + 8 * tag_length, key, message, length, out);
    memcpy(tag, out, tag_length);
    return runs;
}

uint32_t plain_seal_frame(const uint8_t *key, size_t key_length, uint8_t *frame, size_t frame_length, size_t body) {
    if (key_length != 16) return 2;
    if (frame_length < 16 || body > frame_length - 16) return 3;
    plain_mac(key, frame, body, frame + body);
    return 0;
}

uint32_t plain_verify_frame(const uint8_t *key, size_t key_length, const uint8_t *frame, size_t frame_length, size_t body) {
    uint8_t tag[16], difference = 0;
    if (key_length != 16) return 2;
    if (frame_length < 16 || body > frame_length - 16) return 3;
    plain_mac(key, frame, body, tag);
    for (size_t i = 0; i < 16; i++) difference |= tag[i] ^ frame[body + i];
    return difference ? 255 : 0;
}

/* Up to sixteen bytes as two words, the first on top; zeros after them. */
static inline void load_short(const uint8_t *bytes, size_t n, uint64_t words[2]) {
    uint8_t filled[16] = {0};
    for (size_t i = 0; i < n; i++) filled[i] = bytes[i];
    words[0] = load(filled);
    words[1] = load(filled + 8);
}

uint32_t plain_prf_short(const uint8_t *key, size_t key_length, const uint8_t *message, size_t message_length, uint8_t *out, size_t out_length,
                         size_t length) {
    uint64_t m[2];
    uint8_t last[16];
    if (key_length != 16) return 2;
    if (message_length > 16) return 5;
    if (length < 1 || length > 16 || out_length != length) return 6;
    load_short(message, message_length, m);
    uint64_t s[5] = {(uint64_t)0x80 << 56 | (uint64_t)message_length << 51 | (uint64_t)0x4c << 40 | (uint64_t)length << 35, load(key), load(key + 8), m[0], m[1]};
    permute(s, 12);
    store(last, s[3] ^ load(key));
    store(last + 8, s[4] ^ load(key + 8));
    for (size_t i = 0; i < length; i++) out[i] = last[16 - length + i];
    return 0;
}

/* A hub that knows MAC tickets alone, so that it needs no mode and nothing drawn; its answer has the two fields that a feed fills. A free place has ticket 0. */
enum { PLACES = 16, RATE = 32, MOST_FED = 16777216 };

struct record {
    uint64_t words[5], runs;
    uint32_t ticket;
    uint64_t fed;
    int feeding;
};

struct hub {
    struct record records[PLACES];
    uint32_t issued;
};

struct answer {
    uint32_t refusal;
    uint64_t runs;
};

static void run(struct record *r) {
    permute(r->words, 12);
    r->runs++;
}

static void absorb(struct record *r, const uint8_t *bytes, size_t length) {
    size_t at = r->fed % RATE;
    r->fed += length;
    while (length) {
        if (at == 0 && length >= RATE) {
            for (int j = 0; j < RATE / 8; j++) r->words[j] ^= load(bytes + 8 * j);
            run(r);
            bytes += RATE;
            length -= RATE;
        } else {
            r->words[at / 8] ^= (uint64_t)*bytes++ << (56 - at % 8 * 8);
            length--;
            at = (at + 1) % RATE;
            if (at == 0) run(r);
        }
    }
}

/* Called, as a main loop would: not inlined into the loop, nor specialised for it. */
__attribute__((noipa)) static struct answer feed(struct hub *h, uint32_t ticket, const uint8_t *bytes, size_t length) {
    struct record *r = h->records;
    if (ticket == 0 || ticket > h->issued) return (struct answer){11, 0};
    while (r < h->records + PLACES && r->ticket != ticket) r++;
    if (r == h->records + PLACES) return (struct answer){12, 0};
    if (!r->feeding) return (struct answer){15, 0};
    if (length > MOST_FED - r->fed) return (struct answer){16, 0};
    absorb(r, bytes, length);
    return (struct answer){0, r->runs};
}

uint64_t plain_feeds(uint32_t ticket, const uint8_t *bytes, size_t length, size_t times) {
    struct hub h;
    memset(&h, 0, sizeof h);
    for (struct record *r = h.records; r < h.records + PLACES; r++) {
        *r = (struct record){.words = {0x80808c0000000080u}, .ticket = ++h.issued, .feeding = 1};
        run(r);
    }
    for (size_t i = 0; i < times; i++) feed(&h, ticket, bytes, length);
    return feed(&h, ticket, bytes, 0).runs;
}
