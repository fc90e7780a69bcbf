/* A sensor's frame from end to end: its key is derived from the master key, a frame is sealed, judged, and judged again after damage on the way.
 *
 * Build: ./build firmware && cc -std=c99 -Iinclude -o target/firmware examples/firmware.c target/staticlib/libfirmware.a */
#include "firmware.h"

#include <stdio.h>
#include <string.h>

/* The key of a sensor: the short function of its name, 16 bytes, under the master key. Gives the answer of the short function. */
static uint32_t derive_key(const uint8_t master[ASCON_KEY_LENGTH], const char *name, uint8_t sensor[ASCON_KEY_LENGTH]) {
    return ascon_prf_short(master, ASCON_KEY_LENGTH, (const uint8_t *)name, strlen(name), sensor, ASCON_KEY_LENGTH, ASCON_KEY_LENGTH);
}

static void print_hex(const char *what, const uint8_t *bytes, size_t length) {
    printf("%s ", what);
    for (size_t i = 0; i < length; i++) printf("%02x", bytes[i]);
    putchar('\n');
}

/* What a verdict's number means. */
static const char *meaning(uint32_t answer) {
    switch (answer) {
    case ASCON_DONE: return "passes";
    case ASCON_FAILED: return "fails";
    default: return "is refused";
    }
}

int main(void) {
    /* Every installation has a master key of its own. */
    static const uint8_t master[ASCON_KEY_LENGTH] = {0, 1, 2, 3, 4, 5, 6, 7, 8, 9, 10, 11, 12, 13, 14, 15};
    static const char text[] = "deck 3: 17 free";
    enum { BODY = sizeof text - 1 };
    uint8_t key[ASCON_KEY_LENGTH], frame[BODY + ASCON_TAG_LENGTH];

    /* A name of more than 16 bytes would be refused with 5, and the key would stay unset: never go on after a refusal. */
    if (derive_key(master, "ramp 2 sensor 07", key) != ASCON_DONE) return 1;
    print_hex("key  ", key, sizeof key);

    /* The body first, and room for the tag behind it. */
    memcpy(frame, text, BODY);
    if (ascon_seal_frame(key, sizeof key, frame, sizeof frame, BODY) != ASCON_DONE) return 1;
    print_hex("frame", frame, sizeof frame);

    /* Whoever has the key judges the frame. Anything but 0 means: do not show this on a sign. */
    printf("as sent, it %s\n", meaning(ascon_verify_frame(key, sizeof key, frame, sizeof frame, BODY)));

    /* One bit damaged on the way: "deck 2" for "deck 3". */
    frame[5] ^= 1;
    printf("damaged, it %s\n", meaning(ascon_verify_frame(key, sizeof key, frame, sizeof frame, BODY)));
    frame[5] ^= 1;

    /* The last byte lost on the way: the tag does not fit any more. */
    printf("cut short, it %s\n", meaning(ascon_verify_frame(key, sizeof key, frame, sizeof frame - 1, BODY)));
    return 0;
}
