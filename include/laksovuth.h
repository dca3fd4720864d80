/* Laksovuth for C callers: the proved calls of crate capi, in the archive that `./archive capi` makes (x86-64 only today).

   Each call answers a number of enum laksovuth_answer: 0 for done, 1 to 13 for document 01's refusals, from 14 on how a piece or a
   batch stands. An out-parameter gets the value named for it, and 0 where the answer has none. What each call does is stated, and
   proved, in crates/capi; what C must see to is that every pointer is valid for its length (also at length 0), that what a call writes
   overlaps nothing else it is given, and that a size_t has 64 bits. */
#ifndef LAKSOVUTH_H
#define LAKSOVUTH_H

#include <stddef.h>
#include <stdint.h>

#ifdef __cplusplus
extern "C" {
#endif

enum laksovuth_answer {
    LAKSOVUTH_DONE = 0,
    LAKSOVUTH_EMPTY_FRAME = 1,
    LAKSOVUTH_INVALID_FRAME = 2,
    LAKSOVUTH_TARGET_BUF_TOO_SMALL = 3,
    LAKSOVUTH_DEST_BUF_TOO_SMALL = 4,
    LAKSOVUTH_TOO_LONG = 5,
    LAKSOVUTH_BAD_STATE = 6,
    LAKSOVUTH_BAD_LENGTH = 7,
    LAKSOVUTH_BAD_RECORD = 8,
    LAKSOVUTH_STALE = 9,
    LAKSOVUTH_AHEAD = 10,
    LAKSOVUTH_NO_ROOM = 11,
    LAKSOVUTH_BEYOND_CLOSE = 12,
    LAKSOVUTH_CONFLICT = 13,
    LAKSOVUTH_MORE = 14,
    LAKSOVUTH_OPEN = 15,
    LAKSOVUTH_MISSING = 16,
    LAKSOVUTH_COMPLETE = 17,
    LAKSOVUTH_DIFFERS = 18
};

/* ---- One-shot calls. Bytes of dest past those that an answer counts stay as they were, and a refusal leaves all of dest as it was, except
   where a call says otherwise. */

/* How many bytes the encoding of n bytes adds at most, to *size; or TOO_LONG. */
uint8_t laksovuth_max_encoding_overhead(size_t n, size_t *size);

/* How long the encoding of n bytes is at most, to *size; or TOO_LONG. */
uint8_t laksovuth_max_encoding_length(size_t n, size_t *size);

/* Writes the encoding of src to the front of dest and its length to *size; or TOO_LONG, DEST_BUF_TOO_SMALL. */
uint8_t laksovuth_encode(const uint8_t *src, size_t src_len, uint8_t *dest, size_t dest_len, size_t *size);

/* The same with a zero before and after, both counted. */
uint8_t laksovuth_encode_including_sentinels(const uint8_t *src, size_t src_len, uint8_t *dest, size_t dest_len, size_t *size);

/* The encoding with each byte XORed with the sentinel. */
uint8_t laksovuth_encode_with_sentinel(const uint8_t *src, size_t src_len, uint8_t *dest, size_t dest_len, uint8_t sentinel, size_t *size);

/* Decodes the first frame of src to the front of dest. Zeros before it are skipped, and a zero that is missing at the end of src is supplied.
   DONE: its size to *size, and to *parsed how much of src it took with the zeros before it and its own, if that is there. EMPTY_FRAME: src_len
   is 0. INVALID_FRAME: src holds zeros alone, or the frame ends inside a group; the bytes decoded before stand in dest, and *size counts
   them. TARGET_BUF_TOO_SMALL: dest is filled with the frame's first bytes. *parsed is 0 with a refusal. */
uint8_t laksovuth_decode(const uint8_t *src, size_t src_len, uint8_t *dest, size_t dest_len, size_t *size, size_t *parsed);

/* Decodes the body at the buffer's front where it stands: up to the first zero or the buffer's end. Other than laksovuth_decode it skips no
   zeros before the body (a buffer that starts with one is INVALID_FRAME, *size 0), leaves the zero after it out of *parsed, and counts
   whole groups alone with INVALID_FRAME: *size is the bytes of those before the short one, each with its following zero, and they stand at
   the buffer's front. EMPTY_FRAME: buf_len is 0. There is no other refusal. */
uint8_t laksovuth_decode_in_place(uint8_t *buf, size_t buf_len, size_t *size, size_t *parsed);

/* Decodes a body whose bytes are XORed with the sentinel, by the rule of laksovuth_decode_in_place, to the front of dest: its size to
   *size; or EMPTY_FRAME, INVALID_FRAME with *size as there, TARGET_BUF_TOO_SMALL, with dest as it was. */
uint8_t laksovuth_decode_with_sentinel(const uint8_t *src, size_t src_len, uint8_t *dest, size_t dest_len, uint8_t sentinel, size_t *size);

/* ---- The stream */

/* Writes a message of 1 to 15 records of 16 bytes as a frame: its encoding and one zero, their length to *size; or BAD_LENGTH, BAD_RECORD with
   the record's number in *record, DEST_BUF_TOO_SMALL, with dest as it was. 242 bytes of room are always enough. */
uint8_t laksovuth_write_frame(const uint8_t *message, size_t message_len, uint8_t *dest, size_t dest_len, size_t *size, size_t *record);

/* How many numbers a receiving side keeps. They are the calls' own: a caller who writes to them is not always noticed. */
size_t laksovuth_state_length(void);

/* Opens a batch on a table of 16 bytes a slot, 4,096 slots at most: DONE, with state written; or BAD_STATE if state_len is not
   laksovuth_state_length(). The table's bytes are not read or changed. */
uint8_t laksovuth_open(uint64_t *state, size_t state_len, uint16_t batch, const uint8_t *table, size_t table_len);

/* Takes a piece up to the end of its first frame or refusal; *consumed is how many of its bytes it took. To be called again while bytes of
   the piece are left, but not after BAD_STATE, which takes none.
   MORE: all of the piece was taken and no frame ended: it ended inside one, or it was empty, idle zeros, or the rest of a frame that had no
   room. OPEN, MISSING (how many: *value), COMPLETE, DIFFERS: a frame was taken, and so the batch stands.
   INVALID_FRAME (bytes decoded: *value), BAD_LENGTH, and BAD_RECORD to CONFLICT (which record, from 0: *record): the frame was refused whole; table
   and batch are as they were. TARGET_BUF_TOO_SMALL: likewise, and what is left of the frame is skipped, through its zero.
   BAD_STATE: the numbers name no states, or states that 01 calls bad with this buffer and table (a shorter table than was opened, say);
   nothing was taken or changed.
   Give every call the same buffer, at least 240 bytes, and the same table. In the buffer stands what is decoded so far. */
uint8_t laksovuth_receive(uint64_t *state, size_t state_len, uint8_t *buffer, size_t buffer_len, uint8_t *table, size_t table_len,
                          const uint8_t *piece, size_t piece_len, size_t *value, size_t *record, size_t *consumed);

/* How the batch stands: OPEN, MISSING (how many: *missing), COMPLETE, DIFFERS or BAD_STATE; and the weight so far, 0 with BAD_STATE. */
uint8_t laksovuth_stands(const uint64_t *state, size_t state_len, const uint8_t *table, size_t table_len, size_t *missing, uint64_t *total);

#ifdef __cplusplus
}
#endif

#endif
