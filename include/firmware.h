/* Ascon for sign firmware: the C functions of target/staticlib/libfirmware.a, which `./build firmware` writes for x86-64.
 *
 * A sign derives its key from a master key by the short function, seals the frames that it sends, and judges the frames that it gets.
 *
 * Each function answers with one number:
 *     0    done, or the frame passes
 *     255  the frame fails: its tag is not the one of its body under this key
 *     2    refused: the key is not of 16 bytes
 *     3    refused: the body and 16 bytes after it do not fit into the frame
 *     5    refused: the message of the short function is longer than 16 bytes
 *     6    refused: the output of the short function is not to be of 1 to 16 bytes, or its buffer has another length
 * Checks are made in the order that stands at each function, and the first that fails answers. A refused call writes nothing.
 *
 * What a call answers and writes is proved, for all keys, buffers and numbers (crates/firmware/src/lib.rt). The caller's part is:
 *     - Each pointer is valid for as many bytes as the length after it says, and is not null, not even for a length of 0.
 *     - The buffer that a call writes overlaps no other buffer of the call.
 * Nothing is kept between calls and nothing is allocated, so that any number of threads may call at once.
 * The code branches on lengths, on the number of a round and on the verdict, and on no byte of a key, a message, a body or a tag, and no address depends on one. That is so
 * by its text and is not proved; of the compiled code tests/c/secrets.c finds it under valgrind.
 * The stack may keep copies of a key's bytes after a call. */
#ifndef FIRMWARE_H
#define FIRMWARE_H

#include <stddef.h>
#include <stdint.h>

/* Lengths are of type size_t, and of 64 bits. */
#if SIZE_MAX != UINT64_MAX
#error "libfirmware.a is for x86-64, where size_t has 64 bits"
#endif

#ifdef __cplusplus
extern "C" {
#endif

/* The lengths, in bytes, and the answers. */
#define ASCON_KEY_LENGTH 16
#define ASCON_TAG_LENGTH 16
#define ASCON_LONGEST_SHORT_MESSAGE 16
#define ASCON_LONGEST_SHORT_OUTPUT 16

#define ASCON_DONE 0
#define ASCON_REFUSED_KEY 2
#define ASCON_REFUSED_FRAME 3
#define ASCON_REFUSED_MESSAGE 5
#define ASCON_REFUSED_OUTPUT 6
#define ASCON_FAILED 255

/* The short function, Ascon-PRFshort: writes `length` bytes to `out` for a message under a key. Checks 2, 5, 6.
 *     key, key_length          the key, of 16 bytes
 *     message, message_length  the message, of at most 16 bytes
 *     out, out_length          where the output goes; out_length equals `length`
 *     length                   how many bytes of output, 1 to 16. It enters the computation: an output is not to be had by cutting a longer one
 * Answers 0, 2, 5 or 6. */
uint32_t ascon_prf_short(const uint8_t *key, size_t key_length, const uint8_t *message, size_t message_length, uint8_t *out, size_t out_length,
                         size_t length);

/* Seals a frame: writes the tag of the body, its Ascon-MAC, to the 16 bytes after the body. Checks 2, 3.
 *     key, key_length      the key, of 16 bytes
 *     frame, frame_length  the body, the 16 bytes for the tag, and what else there is; only those 16 bytes are written
 *     body                 the length of the body, of any size: body + 16 is at most frame_length
 * Answers 0, 2 or 3. */
uint32_t ascon_seal_frame(const uint8_t *key, size_t key_length, uint8_t *frame, size_t frame_length, size_t body);

/* Judges a frame: compares the 16 bytes after the body with the tag of the body, each byte whatever the others are. Checks 2, 3.
 *     key, key_length      the key, of 16 bytes
 *     frame, frame_length  the body, the tag, and what else there is; nothing is written
 *     body                 the length of the body, of any size: body + 16 is at most frame_length
 * Answers 0 where the frame passes, 255 where it fails, else 2 or 3. */
uint32_t ascon_verify_frame(const uint8_t *key, size_t key_length, const uint8_t *frame, size_t frame_length, size_t body);

#ifdef __cplusplus
}
#endif

#endif
