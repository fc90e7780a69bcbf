/* See faulty.h. What is volatile keeps the compiler from leaving the fault out. */
#include "faulty.h"

#include "testbench.h"
#include "plain.h"
#include "firmware.h"

static volatile uint8_t table[256], store;

uint32_t lookup_by_key(const uint8_t *key, size_t key_length, const uint8_t *message, size_t message_length, uint8_t *out, size_t out_length, size_t length) {
    if (key_length > 0) store = table[key[0]];
    return ascon_prf_short(key, key_length, message, message_length, out, out_length, length);
}

uint32_t branch_on_message(const uint8_t *key, size_t key_length, const uint8_t *message, size_t message_length, uint8_t *out, size_t out_length, size_t length) {
    if (message_length > 0 && message[message_length - 1] > 100) store = 1;
    return ascon_prf_short(key, key_length, message, message_length, out, out_length, length);
}

uint32_t branch_on_state(const uint8_t *key, size_t key_length, uint8_t *frame, size_t frame_length, size_t body) {
    uint32_t answer = ascon_seal_frame(key, key_length, frame, frame_length, body);
    if (answer == ASCON_DONE && frame[body] > 100) store = 1;
    return answer;
}

uint32_t early_exit(const uint8_t *key, size_t key_length, const uint8_t *frame, size_t frame_length, size_t body) {
    uint8_t tag[16];
    if (key_length != 16) return ASCON_REFUSED_KEY;
    if (frame_length < 16 || body > frame_length - 16) return ASCON_REFUSED_FRAME;
    plain_mac(key, frame, body, tag);
    for (size_t i = 0; i < 16; i++) {
        if (tag[i] != frame[body + i]) return ASCON_FAILED;
    }
    return ASCON_DONE;
}

uint32_t read_outside(const uint8_t *key, size_t key_length, const uint8_t *frame, size_t frame_length, size_t body) {
    store = frame[frame_length];
    return ascon_verify_frame(key, key_length, frame, frame_length, body);
}

uint32_t write_outside(const uint8_t *key, size_t key_length, uint8_t *frame, size_t frame_length, size_t body) {
    frame[frame_length] = 0;
    return ascon_seal_frame(key, key_length, frame, frame_length, body);
}

uint64_t branch_on_part(const uint8_t *key, size_t key_length, const uint8_t *message, size_t message_length, uint8_t *out, size_t out_length,
                        uint32_t mode, uint32_t tag_length, size_t first, size_t second) {
    if (second > 0 && first < message_length && message[first] > 100) store = 1;
    return testbench_parts_in_place(key, key_length, message, message_length, out, out_length, mode, tag_length, first, second);
}
