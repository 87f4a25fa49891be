/* Sending by document 01's mask test at every position, for C99 and C++: link with libbench_plain.a, which
 * `tools/archives bench_plain` makes in target/staticlib.
 *
 * A program that sends frames needs none of it: coder_send of frame_coder.h gives the same, many times faster. It is here to be
 * measured and compared. The archive is for x86-64 Linux, as libframe_coder.a is; what a caller has to see to, and what is said for
 * firmware, is what crates/frame_coder/frame_coder.h says of coder_send (8148 bytes of text, no undefined symbols, no data).
 */
#ifndef PLAIN_H
#define PLAIN_H

#include <stddef.h>
#include <stdint.h>

#ifdef __cplusplus
extern "C" {
#endif

/* As coder_send with no bit free, to the last answer: writes the frame that is sent under the number and answers its energy, or answers minus the
 * refusal number and writes nothing. */
int64_t plain_send(uint8_t kind, uint8_t grade, uint32_t number, const uint8_t *message, size_t message_len, int32_t *frame,
                   size_t frame_len);

#ifdef __cplusplus
}
#endif

#endif
