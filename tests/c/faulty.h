/* Functions of include/firmware.h and include/testbench.h that answer and write what they should, and have a fault that tests/c/secrets.c must find: otherwise it could find none. */
#ifndef FAULTY_H
#define FAULTY_H

#include <stddef.h>
#include <stdint.h>

/* An address, and a branch, that depend on a secret: a table's entry by a byte of the key, and a jump over a store by a byte of the message. */
uint32_t lookup_by_key(const uint8_t *key, size_t key_length, const uint8_t *message, size_t message_length, uint8_t *out, size_t out_length, size_t length);
uint32_t branch_on_message(const uint8_t *key, size_t key_length, const uint8_t *message, size_t message_length, uint8_t *out, size_t out_length, size_t length);

/* The same by a byte of the state: the first that the permutation gives for the tag. */
uint32_t branch_on_state(const uint8_t *key, size_t key_length, uint8_t *frame, size_t frame_length, size_t body);

/* A comparison of tags that ends with the first byte that differs. */
uint32_t early_exit(const uint8_t *key, size_t key_length, const uint8_t *frame, size_t frame_length, size_t body);

/* A byte read after the frame's last, and one written. */
uint32_t read_outside(const uint8_t *key, size_t key_length, const uint8_t *frame, size_t frame_length, size_t body);
uint32_t write_outside(const uint8_t *key, size_t key_length, uint8_t *frame, size_t frame_length, size_t body);

/* A branch by the first byte of a message's second part. */
uint64_t branch_on_part(const uint8_t *key, size_t key_length, const uint8_t *message, size_t message_length, uint8_t *out, size_t out_length,
                        uint32_t mode, uint32_t tag_length, size_t first, size_t second);

#endif
