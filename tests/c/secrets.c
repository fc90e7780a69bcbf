/* Secrets, under valgrind. Keys, messages, bodies and tags are marked as undefined before a call, and memcheck reports each branch and each address that depends on one of their
 * bits. The state lives inside the functions and is made of key and message, so that it becomes undefined with them: every bit of an output must come out undefined. Where the
 * caller holds the state, as the row that is permuted, it is marked itself. Lengths are public, and so refusals and run counts must come out defined. A verdict is public, too,
 * though it depends on every secret: it is marked as defined before it is looked at.
 *
 * Each buffer is a block of the heap of exactly its length, so that a byte read or written outside of it is reported as well. Results are compared with plain C.
 *
 *     valgrind secrets        the functions of include/firmware.h and include/testbench.h: passes where nothing is reported
 *     valgrind secrets FAULT  the same with a function of faulty.h in place of a proved one: passes where that is reported
 *
 * It prints a line for each test, and ends with 'N passed, M failed'. */
#include "testbench.h"
#include "expect.h"
#include "faulty.h"
#include "plain.h"
#include "firmware.h"

#include <stdio.h>
#include <stdlib.h>
#include <string.h>
#include <valgrind/memcheck.h>

enum { MOST = 1200 };

/* The marks of eight bits none of which depends on a secret, and all of which may. */
enum { PUBLIC = 0x00, SECRET = 0xff };

typedef uint32_t short_function(const uint8_t *, size_t, const uint8_t *, size_t, uint8_t *, size_t, size_t);
typedef uint32_t sealing(const uint8_t *, size_t, uint8_t *, size_t, size_t);
typedef uint32_t judging(const uint8_t *, size_t, const uint8_t *, size_t, size_t);
typedef uint64_t feeding(const uint8_t *, size_t, const uint8_t *, size_t, uint8_t *, size_t, uint32_t, uint32_t, size_t, size_t);

struct functions {
    short_function *prf_short;
    sealing *seal;
    judging *verify;
    feeding *parts;
};

/* Those that are tested. */
static struct functions tested = {ascon_prf_short, ascon_seal_frame, ascon_verify_frame, testbench_parts_in_place};

static const size_t bodies[] = {0, 1, 7, 8, 15, 16, 31, 32, 33, 63, 64, 65, 100, 1000};
enum { BODIES = sizeof bodies / sizeof *bodies };

static uint8_t key[MOST], message[MOST];

/* A block of so many bytes, copied from others. */
static void *block(const void *bytes, size_t length) {
    void *copy = malloc(length);
    if (!copy) exit(2);
    memcpy(copy, bytes, length);
    return copy;
}

/* Such a block that is secret. */
static void *secret(const void *bytes, size_t length) {
    void *copy = block(bytes, length);
    VALGRIND_MAKE_MEM_UNDEFINED(copy, length);
    return copy;
}

/* Makes bytes public, so that they may be compared. */
static void reveal(void *bytes, size_t length) { VALGRIND_MAKE_MEM_DEFINED(bytes, length); }

/* Whether all bytes carry a mark. */
static int marked(const void *bytes, size_t length, uint8_t mark) {
    uint8_t marks[MOST];
    if (length > MOST || (length > 0 && VALGRIND_GET_VBITS(bytes, marks, length) != 1)) return 0;
    for (size_t i = 0; i < length; i++) {
        if (marks[i] != mark) return 0;
    }
    return 1;
}

/* ---- the functions of include/firmware.h */

static void short_calls(void) {
    uint8_t expected[16];
    for (size_t m = 0; m <= 16; m++) {
        for (size_t t = 1; t <= 16; t++) {
            uint8_t *k = secret(key, 16), *in = secret(message, m), *out = block(message, t);
            uint32_t answer = tested.prf_short(k, 16, in, m, out, t, t);
            expect(marked(&answer, sizeof answer, PUBLIC), "the short function's answer depends on a secret", m, t);
            expect(marked(out, t, SECRET), "an output that does not depend on the secrets", m, t);
            reveal(out, t);
            plain_prf_short(key, 16, message, m, expected, t, t);
            expect(answer == ASCON_DONE && memcmp(out, expected, t) == 0, "short function", m, t);
            free(k);
            free(in);
            free(out);
        }
    }
}

static void sealed_frames(void) {
    uint8_t expected[MOST];
    for (size_t i = 0; i < BODIES; i++) {
        for (size_t trail = 0; trail <= 5; trail += 5) {
            size_t body = bodies[i], length = body + 16 + trail;
            uint8_t *k = secret(key, 16), *frame = secret(message, length);
            uint32_t answer = tested.seal(k, 16, frame, length, body);
            expect(marked(&answer, sizeof answer, PUBLIC), "sealing's answer depends on a secret", body, trail);
            expect(marked(frame + body, 16, SECRET), "a tag that does not depend on the secrets", body, trail);
            reveal(frame, length);
            memcpy(expected, message, length);
            plain_seal_frame(key, 16, expected, length, body);
            expect(answer == ASCON_DONE && memcmp(frame, expected, length) == 0, "seal", body, trail);
            free(k);
            free(frame);
        }
    }
}

/* A frame that passes (0), and frames that fail: of the tag the first byte is wrong (1), the last (2) or each (3), or of the body the last (4). Some have bytes after the tag. */
static void judged_frames(void) {
    uint8_t sent[MOST];
    for (size_t i = 0; i < BODIES; i++) {
        for (size_t damage = 0; damage < 5; damage++) {
            size_t body = bodies[i], length = body + 16 + damage;
            if (damage == 4 && body == 0) continue;
            memcpy(sent, message, length);
            plain_seal_frame(key, 16, sent, length, body);
            if (damage == 1) sent[body] ^= 0x80;
            if (damage == 2) sent[body + 15] ^= 1;
            for (size_t j = 0; damage == 3 && j < 16; j++) sent[body + j] ^= 0xff;
            if (damage == 4) sent[body - 1] ^= 1;
            uint8_t *k = secret(key, 16), *frame = secret(sent, length);
            uint32_t verdict = tested.verify(k, 16, frame, length, body);
            reveal(&verdict, sizeof verdict);
            reveal(frame, length);
            expect(verdict == (damage ? ASCON_FAILED : ASCON_DONE), "verdict", body, damage);
            expect(verdict == plain_verify_frame(key, 16, sent, length, body), "plain verdict", body, damage);
            expect(memcmp(frame, sent, length) == 0, "a judged frame", body, damage);
            free(k);
            free(frame);
        }
    }
}

static void short_refused(uint32_t number, size_t n, size_t m, size_t lent, size_t t) {
    uint8_t *k = secret(key, n), *in = secret(message, m), *out = secret(message, lent);
    uint32_t answer = tested.prf_short(k, n, in, m, out, lent, t);
    expect(marked(&answer, sizeof answer, PUBLIC), "a refusal depends on a secret", n, m);
    reveal(out, lent);
    expect(answer == number && memcmp(out, message, lent) == 0, "refusal of the short function", n, m);
    free(k);
    free(in);
    free(out);
}

static void frame_refused(uint32_t number, size_t n, size_t length, size_t body) {
    uint8_t *k = secret(key, n), *frame = secret(message, length);
    uint32_t sealed = tested.seal(k, n, frame, length, body), judged = tested.verify(k, n, frame, length, body);
    expect(marked(&sealed, sizeof sealed, PUBLIC) && marked(&judged, sizeof judged, PUBLIC), "a refusal depends on a secret", length, body);
    reveal(frame, length);
    expect(sealed == number && judged == number && memcmp(frame, message, length) == 0, "refusal of a frame", length, body);
    free(k);
    free(frame);
}

static void refused_keys(void) {
    static const size_t keys[] = {0, 1, 15, 17, 32};
    for (size_t i = 0; i < sizeof keys / sizeof *keys; i++) {
        short_refused(ASCON_REFUSED_KEY, keys[i], 4, 8, 8);
        short_refused(ASCON_REFUSED_KEY, keys[i], 17, 0, 17);
        frame_refused(ASCON_REFUSED_KEY, keys[i], 60, 44);
        frame_refused(ASCON_REFUSED_KEY, keys[i], 0, SIZE_MAX);
    }
}

static void refused_messages(void) {
    for (size_t m = 17; m <= 1000; m += 59) short_refused(ASCON_REFUSED_MESSAGE, 16, m, 8, 9);
}

static void refused_outputs(void) {
    for (size_t lent = 0; lent <= 18; lent++) {
        for (size_t t = 0; t <= 18; t++) {
            if (lent != t || t < 1 || t > 16) short_refused(ASCON_REFUSED_OUTPUT, 16, 4, lent, t);
        }
    }
}

static void refused_frames(void) {
    static const size_t lengths[] = {0, 1, 15, 16, 17, 100};
    for (size_t i = 0; i < sizeof lengths / sizeof *lengths; i++) {
        frame_refused(ASCON_REFUSED_FRAME, 16, lengths[i], lengths[i] < 16 ? 0 : lengths[i] - 15);
        frame_refused(ASCON_REFUSED_FRAME, 16, lengths[i], lengths[i]);
        frame_refused(ASCON_REFUSED_FRAME, 16, lengths[i], SIZE_MAX - 15);
    }
}

/* ---- the functions of include/testbench.h */

/* One word of the state is secret, or all are. */
static void permuted_states(void) {
    uint64_t expected[5];
    for (size_t word = 0; word <= 5; word++) {
        uint64_t *row = block(message, 40);
        if (word < 5) VALGRIND_MAKE_MEM_UNDEFINED(row + word, 8);
        else VALGRIND_MAKE_MEM_UNDEFINED(row, 40);
        uint32_t answer = testbench_permute_row(row, 5);
        expect(marked(&answer, sizeof answer, PUBLIC), "the permutation's answer depends on a secret", word, 0);
        expect(marked(row, 40, SECRET), "a state that does not depend on the secrets", word, 0);
        reveal(row, 40);
        memcpy(expected, message, 40);
        plain_permute_row(expected, 5);
        expect(answer == 0 && memcmp(row, expected, 40) == 0, "permute", word, 0);
        free(row);
    }
}

/* The modes whose outputs plain C gives whole, with the lengths of their outputs. That of a MAC is its tag length. */
enum { MAC = 2, HASH = 3, HASHA = 5 };
static const struct {
    uint32_t mode;
    uint8_t length;
} outputs[] = {{MAC, 8}, {MAC, 11}, {MAC, 16}, {HASH, 32}, {HASHA, 32}};
enum { OUTPUTS = sizeof outputs / sizeof *outputs };

static uint64_t plain_output(uint32_t mode, size_t n, uint8_t *out, size_t t) {
    if (mode == MAC) return plain_mac_tag(key, message, n, out, t);
    return mode == HASH ? plain_hash(message, n, out) : plain_hasha(message, n, out);
}

/* The MAC or a hash of n bytes, of which the first part had so many, and the runs made. */
static void expect_output(uint32_t mode, size_t n, size_t first, uint8_t *out, size_t t, uint64_t runs) {
    uint8_t expected[32];
    expect(marked(&runs, sizeof runs, PUBLIC), mode == MAC ? "a MAC's runs depend on a secret" : "a hash's runs depend on a secret", n, first);
    /* Of no bytes a hash, which takes no key, is public. */
    expect(marked(out, t, mode != MAC && n == 0 ? PUBLIC : SECRET), mode == MAC ? "a MAC that does not depend on the secrets" : "a hash that does not depend on the secrets", n, first);
    reveal(out, t);
    uint64_t right = plain_output(mode, n, expected, t);
    expect(runs == right && memcmp(out, expected, t) == 0, mode == MAC ? "MAC" : mode == HASH ? "hash" : "hasha", n, first);
}

/* MACs with tags of three lengths and both hashes of a message in two parts, drawn in two. */
static void sponges(void) {
    for (size_t i = 0; i < BODIES; i++) {
        for (size_t j = 0; j < OUTPUTS; j++) {
            uint32_t mode = outputs[j].mode;
            size_t n = bodies[i], t = outputs[j].length;
            uint8_t *k = secret(key, 16), *in = secret(message, n), *out = block(message, t);
            uint64_t runs = testbench_sponge(k, 16, in, n, out, t, mode, outputs[j].length, n / 3, t / 3);
            expect_output(mode, n, n / 3, out, t, runs);
            free(k);
            free(in);
            free(out);
        }
    }
}

static void fed_often(size_t n) {
    uint8_t *in = secret(message, n);
    uint64_t by_value = testbench_feeds_by_value(5, in, n, 3), in_place = testbench_feeds_in_place(5, in, n, 3);
    expect(marked(&by_value, sizeof by_value, PUBLIC) && marked(&in_place, sizeof in_place, PUBLIC), "a run count depends on a secret", n, 0);
    expect(by_value == plain_feeds(5, message, n, 3) && in_place == by_value, "feeds", n, 0);
    free(in);
}

static void feeds(void) {
    for (size_t n = 0; n <= 40; n++) fed_often(n);
    for (size_t i = 0; i < BODIES; i++) {
        if (bodies[i] > 40) fed_often(bodies[i]);
    }
}

static void fed_in_parts(uint32_t mode, uint32_t t, size_t first, size_t second, size_t rest) {
    size_t n = first + second + rest, key_length = mode == MAC ? 16 : 0;
    uint8_t *k = secret(key, key_length), *in = secret(message, n), *out = block(message, t);
    uint64_t runs = tested.parts(k, key_length, in, n, out, t, mode, t, first, second);
    expect_output(mode, n, first, out, t, runs);
    free(k);
    free(in);
    free(out);
}

/* MACs with tags of three lengths and both hashes of messages whose parts are short. */
static void parts_in_place(void) {
    for (size_t first = 0; first <= 33; first++) {
        for (size_t second = 0; second <= 9; second++) {
            for (size_t rest = 0; rest <= 5; rest += 5) {
                for (size_t i = 0; i < OUTPUTS; i++) fed_in_parts(outputs[i].mode, outputs[i].length, first, second, rest);
            }
        }
    }
}

/* Tag lengths that no ticket has: the open is refused, and nothing is written. */
static void refused_tag_lengths(void) {
    static const uint32_t lengths[] = {0, 7, 17, 255, 256 + 8, UINT32_MAX};
    for (size_t i = 0; i < sizeof lengths / sizeof *lengths; i++) {
        uint8_t *k = secret(key, 16), *in = secret(message, 40), *out = secret(message, 7);
        uint64_t runs = tested.parts(k, 16, in, 40, out, 7, MAC, lengths[i], 8, 3);
        expect(marked(&runs, sizeof runs, PUBLIC), "a refusal depends on a secret", lengths[i], 0);
        reveal(out, 7);
        expect(runs == 0 && memcmp(out, message, 7) == 0, "refusal of a tag length", lengths[i], 0);
        free(k);
        free(in);
        free(out);
    }
}

/* ---- the tests, and the faults that they must find */

static const struct {
    const char *name;
    void (*run)(void);
} tests[] = {
    {"short_calls", short_calls},
    {"sealed_frames", sealed_frames},
    {"judged_frames", judged_frames},
    {"refused_keys", refused_keys},
    {"refused_messages", refused_messages},
    {"refused_outputs", refused_outputs},
    {"refused_frames", refused_frames},
    {"permuted_states", permuted_states},
    {"sponges", sponges},
    {"feeds", feeds},
    {"parts_in_place", parts_in_place},
    {"refused_tag_lengths", refused_tag_lengths},
};

static const struct {
    const char *name;
    struct functions functions;
    void (*run)(void);
} faults[] = {
    {"lookup_by_key", {lookup_by_key, ascon_seal_frame, ascon_verify_frame, testbench_parts_in_place}, short_calls},
    {"branch_on_message", {branch_on_message, ascon_seal_frame, ascon_verify_frame, testbench_parts_in_place}, short_calls},
    {"branch_on_state", {ascon_prf_short, branch_on_state, ascon_verify_frame, testbench_parts_in_place}, sealed_frames},
    {"write_outside", {ascon_prf_short, write_outside, ascon_verify_frame, testbench_parts_in_place}, sealed_frames},
    {"early_exit", {ascon_prf_short, ascon_seal_frame, early_exit, testbench_parts_in_place}, judged_frames},
    {"read_outside", {ascon_prf_short, ascon_seal_frame, read_outside, testbench_parts_in_place}, judged_frames},
    {"branch_on_part", {ascon_prf_short, ascon_seal_frame, ascon_verify_frame, branch_on_part}, parts_in_place},
};

static int passed, failed;

/* Runs a test. It fails where a result is wrong, and where valgrind reports something; of a faulty function, where valgrind reports nothing. */
static void try(const char *name, void (*run)(void), int faulty) {
    unsigned before = VALGRIND_COUNT_ERRORS;
    wrong = 0;
    run();
    unsigned reports = VALGRIND_COUNT_ERRORS - before;
    int holds = !wrong && (reports > 0) == faulty;
    printf("test %s ... %s, reported %u times\n", name, holds ? "ok" : "FAILED", reports);
    if (holds) passed++;
    else failed++;
}

int main(int argc, char **argv) {
    if (!RUNNING_ON_VALGRIND || argc > 2) {
        fputs("usage: valgrind secrets [FAULT]\nWithout valgrind nothing would be found.\n", stderr);
        return 2;
    }
    for (size_t i = 0; i < MOST; i++) {
        key[i] = (uint8_t)(i * 37 + 11);
        message[i] = (uint8_t)(i * 101 + i / 256 + 3);
    }
    for (size_t i = 0; argc == 1 && i < sizeof tests / sizeof *tests; i++) try(tests[i].name, tests[i].run, 0);
    for (size_t i = 0; argc == 2 && i < sizeof faults / sizeof *faults; i++) {
        if (strcmp(faults[i].name, argv[1]) != 0) continue;
        tested = faults[i].functions;
        try(faults[i].name, faults[i].run, 1);
    }
    printf("%d passed, %d failed\n", passed, failed);
    return failed != 0 || passed == 0;
}
