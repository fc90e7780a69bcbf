/* The functions of include/firmware.h, called from C: against the outside vectors, and against plain C (bench/plain.c), which shares nothing with the proved code.
 * It takes the path of the vectors, prints a line for each test, and ends with 'N passed, M failed'. */
#include "expect.h"
#include "plain.h"
#include "firmware.h"

#include <stdio.h>
#include <stdlib.h>
#include <string.h>

enum { BEFORE = 0xa5, MOST = 512, LONG_BODY = 16777217 };

static const uint8_t key[16] = {0, 1, 2, 3, 4, 5, 6, 7, 8, 9, 10, 11, 12, 13, 14, 15};
static const char *vectors;

static void counting(uint8_t *bytes, size_t length) {
    for (size_t i = 0; i < length; i++) bytes[i] = (uint8_t)i;
}

/* Numbers that look random and are the same in every run. */
static uint8_t random_byte(void) {
    static uint32_t state = 1;
    state = state * 1664525u + 1013904223u;
    return (uint8_t)(state >> 24);
}

static void random_bytes(uint8_t *bytes, size_t length) {
    for (size_t i = 0; i < length; i++) bytes[i] = random_byte();
}

static size_t unhex(const char *digits, uint8_t *bytes) {
    size_t n = strlen(digits) / 2;
    for (size_t i = 0; i < n; i++) {
        unsigned byte;
        if (sscanf(digits + 2 * i, "%2x", &byte) != 1) exit(2);
        bytes[i] = (uint8_t)byte;
    }
    return n;
}

/* Calls `each` with the fields of every line that stands below a function's name in the vectors; gives how many there were. */
static int for_each_vector(const char *function, int fields, void (*each)(size_t a, size_t b, const char *output)) {
    FILE *file = fopen(vectors, "r");
    char line[4096], output[4096], name[64] = "";
    int count = 0;
    if (!file) {
        perror(vectors);
        exit(2);
    }
    while (fgets(line, sizeof line, file)) {
        size_t a = 0, b = 0;
        if (!strchr(line, ' ')) {
            if (sscanf(line, "%63s", name) != 1) exit(2);
            continue;
        }
        if (strcmp(name, function) != 0) continue;
        if ((fields == 3 ? sscanf(line, "%zu %zu %4095s", &a, &b, output) : sscanf(line, "%zu %4095s", &a, output)) != fields) exit(2);
        each(a, b, output);
        count++;
    }
    fclose(file);
    return count;
}

/* ---- the short function */

static void short_vector(size_t m, size_t t, const char *output) {
    uint8_t message[16], out[16], expected[16];
    counting(message, m);
    memset(out, BEFORE, sizeof out);
    expect(unhex(output, expected) == t, "a vector's length", m, t);
    expect(ascon_prf_short(key, 16, message, m, out, t, t) == ASCON_DONE, "short function, answer", m, t);
    expect(memcmp(out, expected, t) == 0, "short function, output", m, t);
    for (size_t i = t; i < sizeof out; i++) expect(out[i] == BEFORE, "short function, a byte after the output", m, t);
    expect(plain_prf_short(key, 16, message, m, out, t, t) == 0 && memcmp(out, expected, t) == 0, "plain short function", m, t);
}

static void vectors_of_the_short_function(void) {
    int count = for_each_vector("prf_short", 3, short_vector);
    expect(count == 272, "vectors of the short function", (size_t)count, 272);
}

static void short_function_beside_plain_c(void) {
    uint8_t other[16], message[16], out[16], expected[16];
    for (int round = 0; round < 1000; round++) {
        size_t m = random_byte() % 17, t = 1 + random_byte() % 16;
        random_bytes(other, 16);
        random_bytes(message, 16);
        ascon_prf_short(other, 16, message, m, out, t, t);
        plain_prf_short(other, 16, message, m, expected, t, t);
        expect(memcmp(out, expected, t) == 0, "short function beside plain C", m, t);
    }
}

/* A refusal, by its number; the buffer stays as it is, byte for byte. */
static void short_refused(uint32_t number, size_t key_length, size_t m, size_t out_length, size_t t) {
    uint8_t many[MOST], out[MOST], kept[MOST];
    counting(many, MOST);
    memset(out, BEFORE, MOST);
    memset(kept, BEFORE, MOST);
    expect(ascon_prf_short(many, key_length, many, m, out, out_length, t) == number, "refusal of the short function", key_length, m);
    expect(memcmp(out, kept, MOST) == 0, "a refused buffer", key_length, m);
}

static void refused_keys_of_the_short_function(void) {
    for (size_t n = 0; n <= 300; n++) {
        if (n == 16) continue;
        short_refused(ASCON_REFUSED_KEY, n, 4, 8, 8);
        short_refused(ASCON_REFUSED_KEY, n, 17, 8, 9);
    }
}

static void refused_messages_of_the_short_function(void) {
    for (size_t m = 17; m <= 300; m++) {
        short_refused(ASCON_REFUSED_MESSAGE, 16, m, 8, 8);
        short_refused(ASCON_REFUSED_MESSAGE, 16, m, 8, 9);
    }
}

static void refused_outputs_of_the_short_function(void) {
    for (size_t out = 0; out <= 20; out++) {
        for (size_t t = 0; t <= 20; t++) {
            if (out == t && t >= 1 && t <= 16) continue;
            short_refused(ASCON_REFUSED_OUTPUT, 16, 4, out, t);
        }
    }
    short_refused(ASCON_REFUSED_OUTPUT, 16, 4, 8, SIZE_MAX);
    short_refused(ASCON_REFUSED_OUTPUT, 16, 4, 8, ((size_t)1 << 32) + 8);
}

/* ---- frames */

static void mac_vector(size_t n, size_t none, const char *output) {
    uint8_t frame[2048], body[2048], tag[16];
    (void)none;
    counting(body, n);
    memcpy(frame, body, n);
    expect(unhex(output, tag) == 16, "a vector's length", n, 16);
    expect(ascon_seal_frame(key, 16, frame, n + 16, n) == ASCON_DONE, "seal, answer", n, 0);
    expect(memcmp(frame, body, n) == 0, "seal, body", n, 0);
    expect(memcmp(frame + n, tag, 16) == 0, "seal, tag", n, 0);
    expect(ascon_verify_frame(key, 16, frame, n + 16, n) == ASCON_DONE, "verify", n, 0);
    plain_mac(key, body, n, frame);
    expect(memcmp(frame, tag, 16) == 0, "plain MAC", n, 0);
}

static void vectors_of_the_mac(void) {
    int count = for_each_vector("mac", 2, mac_vector);
    expect(count == 139, "vectors of the MAC", (size_t)count, 139);
}

/* Plain C is held to tags of every length. A frame has one of 16 bytes, which does not begin with a shorter one. */
static void tag_vector(size_t n, size_t t, const char *output) {
    uint8_t body[2048], frame[2048], tag[16], out[17];
    counting(body, n);
    memset(out, BEFORE, sizeof out);
    expect(unhex(output, tag) == t, "a vector's length", n, t);
    plain_mac_tag(key, body, n, out, t);
    expect(memcmp(out, tag, t) == 0, "plain MAC with a tag length", n, t);
    for (size_t i = t; i < sizeof out; i++) expect(out[i] == BEFORE, "plain MAC, a byte after the tag", n, t);
    memcpy(frame, body, n);
    ascon_seal_frame(key, 16, frame, n + 16, n);
    expect((memcmp(frame + n, tag, t) == 0) == (t == 16), "seal, tag of another length", n, t);
}

static void vectors_of_tag_lengths(void) {
    int count = for_each_vector("mac_lengths", 3, tag_vector);
    expect(count == 135, "vectors of tag lengths", (size_t)count, 135);
}

/* Bodies of every length, in frames that begin at every place of a word, with no byte after the tag, a few or many. */
static void every_body_length_at_every_offset(void) {
    static const size_t trails[] = {0, 1, 7, 8, 16, 33};
    uint8_t buffer[MOST], expected[MOST];
    for (size_t body = 0; body <= 300; body++) {
        for (size_t lead = 0; lead <= 8; lead++) {
            for (size_t i = 0; i < sizeof trails / sizeof *trails; i++) {
                size_t length = body + 16 + trails[i];
                random_bytes(buffer, MOST);
                memcpy(expected, buffer, MOST);
                plain_mac(key, expected + lead, body, expected + lead + body);
                expect(ascon_seal_frame(key, 16, buffer + lead, length, body) == ASCON_DONE, "seal", body, lead);
                expect(memcmp(buffer, expected, MOST) == 0, "a byte of the buffer", body, lead);
                expect(ascon_verify_frame(key, 16, buffer + lead, length, body) == ASCON_DONE, "verify", body, lead);
            }
        }
    }
}

static void a_bit_damaged_anywhere(void) {
    uint8_t frame[MOST];
    for (size_t body = 0; body <= 70; body++) {
        random_bytes(frame, MOST);
        ascon_seal_frame(key, 16, frame, body + 20, body);
        for (size_t bit = 0; bit < 8 * (body + 16); bit++) {
            frame[bit / 8] ^= (uint8_t)(1 << bit % 8);
            expect(ascon_verify_frame(key, 16, frame, body + 20, body) == ASCON_FAILED, "a damaged bit", body, bit);
            frame[bit / 8] ^= (uint8_t)(1 << bit % 8);
        }
        frame[body + 16] ^= 1;
        expect(ascon_verify_frame(key, 16, frame, body + 20, body) == ASCON_DONE, "a bit after the tag", body, 0);
    }
}

/* Both calls give the refusal, and the frame stays as it is, byte for byte. */
static void frame_refused(uint32_t number, size_t key_length, size_t frame_length, size_t body) {
    uint8_t many[MOST], frame[MOST], kept[MOST];
    counting(many, MOST);
    random_bytes(frame, MOST);
    memcpy(kept, frame, MOST);
    expect(ascon_seal_frame(many, key_length, frame, frame_length, body) == number, "refusal of sealing", frame_length, body);
    expect(memcmp(frame, kept, MOST) == 0, "a refused frame", frame_length, body);
    expect(ascon_verify_frame(many, key_length, frame, frame_length, body) == number, "refusal of judging", frame_length, body);
    expect(memcmp(frame, kept, MOST) == 0, "a judged frame", frame_length, body);
}

static void refused_keys_of_frames(void) {
    for (size_t n = 0; n <= 300; n++) {
        if (n == 16) continue;
        frame_refused(ASCON_REFUSED_KEY, n, 60, 44);
        frame_refused(ASCON_REFUSED_KEY, n, 60, 45);
        frame_refused(ASCON_REFUSED_KEY, n, 0, SIZE_MAX);
    }
}

static void frames_with_no_room_for_the_tag(void) {
    for (size_t length = 0; length <= 64; length++) {
        for (size_t body = length < 16 ? 0 : length - 15; body <= 80; body++) frame_refused(ASCON_REFUSED_FRAME, 16, length, body);
    }
}

static void huge_body_numbers(void) {
    static const size_t lengths[] = {0, 1, 15, 16, 17, 300};
    for (size_t i = 0; i < sizeof lengths / sizeof *lengths; i++) {
        for (size_t less = 0; less <= 40; less++) frame_refused(ASCON_REFUSED_FRAME, 16, lengths[i], SIZE_MAX - less);
        frame_refused(ASCON_REFUSED_FRAME, 16, lengths[i], (size_t)1 << 63);
        frame_refused(ASCON_REFUSED_FRAME, 16, lengths[i], (size_t)1 << 32);
    }
}

static void a_long_body(void) {
    uint8_t tag[16], *frame = malloc(LONG_BODY + 16);
    if (!frame) exit(2);
    for (size_t i = 0; i < LONG_BODY + 16; i++) frame[i] = (uint8_t)(i % 251);
    plain_mac(key, frame, LONG_BODY, tag);
    expect(ascon_seal_frame(key, 16, frame, LONG_BODY + 16, LONG_BODY) == ASCON_DONE, "seal", LONG_BODY, 0);
    expect(memcmp(frame + LONG_BODY, tag, 16) == 0, "tag", LONG_BODY, 0);
    expect(ascon_verify_frame(key, 16, frame, LONG_BODY + 16, LONG_BODY) == ASCON_DONE, "verify", LONG_BODY, 0);
    frame[LONG_BODY / 2] ^= 1;
    expect(ascon_verify_frame(key, 16, frame, LONG_BODY + 16, LONG_BODY) == ASCON_FAILED, "verify, damaged", LONG_BODY, 0);
    free(frame);
}

int main(int argc, char **argv) {
    static const struct {
        const char *name;
        void (*run)(void);
    } tests[] = {
        {"vectors_of_the_short_function", vectors_of_the_short_function},
        {"short_function_beside_plain_c", short_function_beside_plain_c},
        {"refused_keys_of_the_short_function", refused_keys_of_the_short_function},
        {"refused_messages_of_the_short_function", refused_messages_of_the_short_function},
        {"refused_outputs_of_the_short_function", refused_outputs_of_the_short_function},
        {"vectors_of_the_mac", vectors_of_the_mac},
        {"vectors_of_tag_lengths", vectors_of_tag_lengths},
        {"every_body_length_at_every_offset", every_body_length_at_every_offset},
        {"a_bit_damaged_anywhere", a_bit_damaged_anywhere},
        {"refused_keys_of_frames", refused_keys_of_frames},
        {"frames_with_no_room_for_the_tag", frames_with_no_room_for_the_tag},
        {"huge_body_numbers", huge_body_numbers},
        {"a_long_body", a_long_body},
    };
    int passed = 0, failed = 0;
    if (argc != 2) {
        fputs("usage: firmware VECTORS\n", stderr);
        return 2;
    }
    vectors = argv[1];
    for (size_t i = 0; i < sizeof tests / sizeof *tests; i++) {
        wrong = 0;
        tests[i].run();
        printf("test %s ... %s\n", tests[i].name, wrong ? "FAILED" : "ok");
        if (wrong) failed++;
        else passed++;
    }
    printf("%d passed, %d failed\n", passed, failed);
    return failed != 0;
}
