/* The shaping of one block for C99 and C++: link with libbench_block.a, which `tools/archives bench_block` makes in target/staticlib.
 *
 * A block is eight whole numbers, lent as a pointer and a length. The archive is for x86-64 Linux, as libframe_coder.a is; what
 * crates/frame_coder/frame_coder.h says for firmware holds for it too (992 bytes of text, no undefined symbols, no data).
 * What a caller has to see to, since nothing here can test it:
 *   - a pointer is valid for as many elements as the length says, and aligned; where the length is 0 it may be anything, null too:
 *     the answer is false before anything is read or written;
 *   - `block` and `least` do not overlap;
 *   - nobody else writes to them during the call.
 */
#ifndef BLOCK_H
#define BLOCK_H

#include <stdbool.h>
#include <stddef.h>
#include <stdint.h>

#ifdef __cplusplus
extern "C" {
#endif

/* Writes the least member of the block's class for the scale 2^(k + 1), of several the first in
 * reading order, as under an even number, and answers true; or answers false and writes nothing,
 * where k is over 6, a length is not 8, or a coordinate is outside -16777216 .. 16777216. */
bool block_least(uint32_t k, const int32_t *block, size_t block_len, int32_t *least, size_t least_len);

#ifdef __cplusplus
}
#endif

#endif
