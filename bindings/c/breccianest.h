/*
 * Breccianest for C and C++: a household's file in, what `bill` or `notice`
 * writes out.
 *
 * Link with libbreccianest.a (x86-64 Linux). The library needs only memcpy
 * and memset, keeps nothing between calls, takes no memory of its own but the
 * stack, and may be called from several threads at once.
 */
#ifndef BRECCIANEST_H
#define BRECCIANEST_H

#include <stddef.h>
#include <stdint.h>

#ifdef __cplusplus
extern "C" {
#endif

/* The longest input in bytes. For a longer one all functions return SIZE_MAX. */
#define BRECCIANEST_LONGEST_INPUT ((uint64_t)1 << 48)

/* The most closed days in a list, and the last day that may be listed. */
#define BRECCIANEST_MOST_CLOSED 400
#define BRECCIANEST_LAST_CLOSED_DAY 36524

/*
 * Works a whole input: lines of lower-case hexadecimal, a frame a line, each
 * ended by LF; the last may lack it. Any bytes are an input: a line that is no
 * frame is answered with number 40.
 *
 * Returns the size of the whole output. If that is at most output_len, the
 * output is in the first bytes of `output` and the others are as they were. If
 * it is greater, nothing was written: call again with a buffer of that size.
 *
 * Each pointer and length are those of a buffer; a pointer may be null where
 * its length is 0. The buffers should not overlap, and nothing should write to
 * the input or the closed days during the call: if they do, the bytes in
 * `output` and the size returned are those of no input. Even then no byte
 * outside `output` is written.
 */

/* A frame for each line: number, volumes, net, interest, unpaid, credit. */
size_t breccianest_bill(const uint8_t *input, size_t input_len,
                        uint8_t *output, size_t output_len);

/* A line for each item that is open at the end of the input, oldest first. */
size_t breccianest_notice(const uint8_t *input, size_t input_len,
                          uint8_t *output, size_t output_len);

/*
 * The same by a list of closed days, on which no item is due: day numbers,
 * strictly rising, at most 400, each at most 36,524. closed_len is how many
 * they are. A list that breaks these bounds is safe: every line is answered
 * with number 14, and there are no notices. No days are the functions above.
 */
size_t breccianest_bill_closed(const uint8_t *input, size_t input_len,
                               const uint16_t *closed, size_t closed_len,
                               uint8_t *output, size_t output_len);
size_t breccianest_notice_closed(const uint8_t *input, size_t input_len,
                                 const uint16_t *closed, size_t closed_len,
                                 uint8_t *output, size_t output_len);

#ifdef __cplusplus
}
#endif

#endif
