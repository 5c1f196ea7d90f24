/* The scope checker as a C library (x86-64 Linux). After `make install`, `pkg-config --cflags --libs janorembe` says how to build with it;
 * without, link target/staticlib/libcapi.a, which `tools/archive capi` writes. docs/FORMATS.md has every record of both streams to the byte.
 * The functions are total: any bytes and any lengths get an answer. They allocate nothing and keep nothing between
 * calls, so threads may call them at the same time over buffers of their own. */
#ifndef JANOREMBE_H
#define JANOREMBE_H

#include <stddef.h>
#include <stdint.h>

#ifdef __cplusplus
extern "C" {
#endif

/* Measure and writer return a number; with it comes a place:
 *
 *   0  done; the place is 0
 *   1  text over 16,777,216 bytes; 0
 *   2  work area under 16 * (N + 1) words, N the number of tokens; the words needed
 *   3  a byte that is neither white space nor printable; its offset
 *   4  a comment that is never closed; the offset of its `$(`
 *   5  a token that the grammar does not allow there, also one in a comment that has $( or $) in it; its offset
 *   6  the text ends in a statement or an open group; its length
 *   7  a frame with over 4,095 variables; the offset of its statement
 *   8  frame buffer too short; the bytes needed (writer only)
 *   9  diagnostics buffer too short; the bytes needed (writer only)
 *
 * Numbers 3, 4 and 5 also have a line: one more than the count of byte 10 before the place. All other numbers have line 0.
 *
 * Both write eight numbers into answer:
 *
 *   answer[0]  the place
 *   answer[1]  0
 *   answer[2]  the line
 *   answer[3]  bytes of the frame stream
 *   answer[4]  bytes of the diagnostics stream
 *   answer[5]  0
 *   answer[6]  number of frames: the records of the frame stream
 *   answer[7]  0
 *
 * If the number is not 0, all but the place and the line are 0.
 *
 * text, text_length      the bytes to check; only read
 * work, work_length      32-bit words to work in, and how many (words, not bytes). What they hold before means nothing;
 *                        afterwards they all are 0, whatever the number
 * full                   0 for frames with mandatory variables only, any other number for full frames. Number 7 counts all
 *                        variables in either case
 *
 * The buffers and answer must not overlap; work is aligned to 4 bytes and answer to 8, as C's own arrays are. No pointer may
 * be null: with a length of 0 any other will do. */

/* Measures a text: the bytes that both streams need, and the number of frames. The words that it needs can be asked for: with
 * a work_length of 0 the number is 2 (or 1), and the place says them. */
uint32_t janorembe_measure(const uint8_t *text, size_t text_length,
                           uint32_t *work, size_t work_length,
                           uint32_t full, uint64_t answer[8]);

/* Checks a text and writes the frames of its statements and the diagnostics. It repeats every check, so a text need not have
 * been measured; over buffers as long as the measure says the number is the measure's.
 *
 * frames, frames_length  if the number is 0, its first answer[3] bytes are the frame stream; nothing else of it is changed
 * diags, diags_length    if the number is 0, its first answer[4] bytes are the diagnostics stream; nothing else is changed */
uint32_t janorembe_write(const uint8_t *text, size_t text_length,
                         uint32_t *work, size_t work_length,
                         uint8_t *frames, size_t frames_length,
                         uint8_t *diags, size_t diags_length,
                         uint32_t full, uint64_t answer[8]);

/* Looks a label up in a frame stream. The whole stream is walked first. Returns a number:
 *
 *   0   found; the place is the offset of the first record with this label
 *  10   a record that is not well framed; the offset of the first one. One of kind 1, as streams had them before kind 4,
 *       needs its stub string
 *  11   no such label; 0
 *
 * frames, frames_length  a frame stream: the used bytes that the writer wrote, not the whole buffer; only read
 * label, label_length    the label, compared byte for byte; only read
 * place                  takes the place
 *
 * No pointer may be null; place must not overlap the others. */
uint32_t janorembe_lookup(const uint8_t *frames, size_t frames_length,
                          const uint8_t *label, size_t label_length,
                          uint64_t *place);

/* Turns the kind 1 records of a frame stream, whose variable has 128 added to its last byte, into kind 4 with the plain variable.
 * All other records stay as they are, so the stream keeps its length. Returns a number:
 *
 *   0   done; the place is 0
 *   8   out is too short; the bytes needed
 *  10   a record that does not fit its layout to the last byte; the offset of the first one
 *
 * stream, stream_length  a frame stream; only read
 * out, out_length        if the number is 0, its first answer[1] bytes are the new stream; nothing else of it is changed
 * answer                 takes the place, and the bytes used; 0 if the number is not 0
 *
 * No pointer may be null; the buffers and answer must not overlap, and answer is aligned to 8 bytes. */
uint32_t janorembe_convert(const uint8_t *stream, size_t stream_length,
                           uint8_t *out, size_t out_length,
                           uint64_t answer[2]);

/* What a record of a frame stream holds. Returns 0, or 10 if no well framed record stands at this place.
 *
 * frames, frames_length  a frame stream; only read
 * place                  where the record starts, as look-up answers it; any number
 * view                   takes six numbers: the kind (1 to 4); where the label starts, from the record's first byte, and its
 *                        length; V, M and the hypothesis count. UINT64_MAX stands for a number that the record does not
 *                        hold, as V in a record of kind 4; the place and the length of a label that is not there are 0
 *
 * No pointer may be null; view must not overlap frames, and is aligned to 8 bytes. */
uint32_t janorembe_view(const uint8_t *frames, size_t frames_length,
                        uint64_t place,
                        uint64_t view[6]);

#ifdef __cplusplus
}
#endif

#endif
