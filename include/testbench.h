/* The Ascon permutation and sponge, the runs of frames, and feeds through the hub, for the test bench: the C functions of target/staticlib/libtestbench.a, which
 * `./build testbench` writes.
 *
 * All are proved; crates/testbench/src has what each promises. They keep nothing between calls and allocate nothing.
 * C is trusted to hand over valid buffers of the lengths that it names, of which the one written to overlaps no other. No pointer is null, not even to no bytes. */
#ifndef TESTBENCH_H
#define TESTBENCH_H

#include <stddef.h>
#include <stdint.h>

/* Lengths are of type size_t, and of 64 bits. */
#if SIZE_MAX != UINT64_MAX
#error "libtestbench.a is for x86-64, where size_t has 64 bits"
#endif

#ifdef __cplusplus
extern "C" {
#endif

/* Permutes the five words x0 to x4 of `row`, by twelve rounds, and gives 0.
 * A `length` other than 5 is refused: the answer is 7, and the row stays as it is. */
uint32_t testbench_permute_row(uint64_t *row, size_t length);

/* Permutes the state x0, 0, 0, 0, 0 `times` times over, each time by the last `rounds` of the twelve rounds, and gives its first word.
 * More than twelve rounds means all twelve. */
uint64_t testbench_permute_chain(uint64_t x0, uint64_t rounds, uint64_t times);

/* Writes `out_length` bytes of the output of a mode for a message, and gives how many times the state was permuted.
 * The modes: 1 PRF, 2 MAC, 3 hash, 4 XOF, 5 HASHA, 6 XOFA. Modes 1 and 2 take a key of 16 bytes; of a longer one the first 16 count, and a shorter one is followed
 * by zeros. Modes 3 to 6 take no notice of a key. Mode 2 is the MAC with tags of `tag_length` bytes, 0 to 255; the other modes take no notice of that.
 * The message is fed in two parts, the first of `cut` bytes, and the output is drawn in two, the first of `first` bytes; a number past the end is the end.
 * Neither number makes a difference to what is written or given.
 * Any number of bytes may be fed and drawn: the limits of a ticket are the hub's.
 * A `mode` that is not 1 to 6 is answered 0, and nothing is written. */
uint64_t testbench_sponge(const uint8_t *key, size_t key_length, const uint8_t *message, size_t message_length, uint8_t *out, size_t out_length,
                          uint32_t mode, uint8_t tag_length, size_t cut, size_t first);

/* Gives 1 where the `given` bytes of the tag are the message's whole MAC with tags of `tag_length` bytes, and 0 where they are not, or are more or fewer. Where
 * `tag_length` is more than 16, the first 16 bytes of that MAC's output are the whole; where it is 0, no bytes are.
 * The key is taken as by testbench_sponge. Of a tag that has the right length every byte is looked at, whatever the others are. */
uint32_t testbench_tag(const uint8_t *key, size_t key_length, const uint8_t *message, size_t message_length, const uint8_t *tag, size_t given,
                       uint8_t tag_length);

/* Seal and judge a frame as include/firmware.h's functions do, with the same checks, and give the runs that were made, floor(body / 32) + 2; 0 where it is refused. */
uint64_t testbench_seal_runs(const uint8_t *key, size_t key_length, uint8_t *frame, size_t frame_length, size_t body);
uint64_t testbench_verify_runs(const uint8_t *key, size_t key_length, const uint8_t *frame, size_t frame_length, size_t body);

/* Opens sixteen MAC tickets, 1 to 16, under a key of sixteen zero bytes, with tags of 16 bytes, in an empty hub; feeds `bytes` to `ticket` so many times; and gives
 * the run count that a feed of no bytes to it then answers with, or 0 where that is refused. In the first the hub goes from call to call by value; in the second it
 * stays in its memory. Both give the same. */
uint64_t testbench_feeds_by_value(uint32_t ticket, const uint8_t *bytes, size_t length, size_t times);
uint64_t testbench_feeds_in_place(uint32_t ticket, const uint8_t *bytes, size_t length, size_t times);

/* Opens ticket 1 of a mode under a key, in mode 2 with tags of `tag_length` bytes, in an empty hub; feeds it the message in three parts, the first of `first` bytes
 * and the second of `second`, where a number past the end is the end, in a hub that stays in its memory; draws `out_length` bytes into `out`; and gives the run count
 * that the draw answers with.
 * By the checks of the calls modes 1 and 2 take a key of 16 bytes and modes 3 to 6 one of none, mode 2 takes a `tag_length` of 8 to 16, which the other modes take no
 * notice of, at most 16,777,216 bytes are fed, and of modes 1, 4 and 6 at most 1,048,576 bytes are drawn, of mode 2 at most `tag_length`, of modes 3 and 5 at most 32.
 * A feed that is refused is left out. Where the open or the draw is refused, the answer is 0, and nothing is written. */
uint64_t testbench_parts_in_place(const uint8_t *key, size_t key_length, const uint8_t *message, size_t message_length, uint8_t *out, size_t out_length,
                                  uint32_t mode, uint32_t tag_length, size_t first, size_t second);

#ifdef __cplusplus
}
#endif

#endif
