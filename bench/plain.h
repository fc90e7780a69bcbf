/* The same functions in plain C, as the proved code's peers: compiled by gcc -O3, in a file of their own so that nothing is inlined into the timing loop. The tests
 * from C compare with them too. */
#ifndef PLAIN_H
#define PLAIN_H

#include <stddef.h>
#include <stdint.h>

uint32_t plain_permute_row(uint64_t *row, size_t length);
uint64_t plain_permute_chain(uint64_t x0, uint64_t times);

/* Permutes five words, by eight rounds, or by twelve for any other number. */
void plain_permute(uint64_t s[5], int rounds);

/* Both hashes and the MAC of a message, 32 and 16 bytes, and the MAC with tags of another length, of at most 16 bytes; the answer is how many times the state was
 * permuted. */
uint64_t plain_hash(const uint8_t *message, size_t length, uint8_t out[32]);
uint64_t plain_hasha(const uint8_t *message, size_t length, uint8_t out[32]);
uint64_t plain_mac(const uint8_t key[16], const uint8_t *message, size_t length, uint8_t out[16]);
uint64_t plain_mac_tag(const uint8_t key[16], const uint8_t *message, size_t length, uint8_t *tag, size_t tag_length);

/* The functions of include/firmware.h. */
uint32_t plain_prf_short(const uint8_t *key, size_t key_length, const uint8_t *message, size_t message_length, uint8_t *out, size_t out_length,
                         size_t length);
uint32_t plain_seal_frame(const uint8_t *key, size_t key_length, uint8_t *frame, size_t frame_length, size_t body);
uint32_t plain_verify_frame(const uint8_t *key, size_t key_length, const uint8_t *frame, size_t frame_length, size_t body);

/* Feeds to a ticket of a hub that is altered where it lies; include/testbench.h has the proved two. */
uint64_t plain_feeds(uint32_t ticket, const uint8_t *bytes, size_t length, size_t times);

#endif
