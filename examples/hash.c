/* Hashes a message, and judges a tag.
 *
 *     ./build testbench
 *     cc -Iinclude -o target/hash examples/hash.c target/staticlib/libtestbench.a && target/hash
 */
#include "testbench.h"

#include <stdio.h>

enum { MAC = 2, HASH = 3 };

static void print_hex(const uint8_t *bytes, size_t length) {
    for (size_t i = 0; i < length; i++) printf("%02x", bytes[i]);
    putchar('\n');
}

int main(void) {
    const uint8_t key[16] = {0, 1, 2, 3, 4, 5, 6, 7, 8, 9, 10, 11, 12, 13, 14, 15};
    const uint8_t message[1] = {0};
    uint8_t hash[32], tag[16];
    uint64_t runs;

    /* The hash of one zero byte: first its 32 bytes, then how many times the state was permuted. It takes no key, so none of its bytes are lent, and has no
     * tag length. */
    runs = testbench_sponge(key, 0, message, sizeof message, hash, sizeof hash, HASH, 0, sizeof message, sizeof hash);
    print_hex(hash, sizeof hash);
    printf("%llu\n", (unsigned long long)runs);

    /* The tag of no bytes at all, and the verdict on it: 1, it passes. */
    testbench_sponge(key, sizeof key, message, 0, tag, sizeof tag, MAC, sizeof tag, 0, sizeof tag);
    print_hex(tag, sizeof tag);
    printf("%u\n", (unsigned)testbench_tag(key, sizeof key, message, 0, tag, sizeof tag, sizeof tag));

    /* One bit of it damaged: 0, it fails. */
    tag[15] ^= 1;
    printf("%u\n", (unsigned)testbench_tag(key, sizeof key, message, 0, tag, sizeof tag, sizeof tag));
    return 0;
}
