/* The proved converter from EBU STL to EBU-TT, the reason for a refusal, and a check in lumps, for callers in C. Link
   libmilursake.a. */
#ifndef MILURSAKE_H
#define MILURSAKE_H

#include <stddef.h>
#include <stdint.h>

#ifdef __cplusplus
extern "C" {
#endif

/*
 * Converts the file to a document at the start of `out`. Returns 0, or the number of the refusal (1 to 16).
 *
 * The caller owns all three buffers, and lends them for the call: nothing is kept, nothing is allocated, nothing is freed.
 * `file` is only read. The buffers must not overlap. A pointer must not be null, also where its length is 0.
 *
 * mode     the break mode; any number but 1 and 2 is refusal 1
 * out      after 0 the document and then the old bytes; after a refusal the old bytes
 * answer   as many as it has room for of: number, place, length, subtitle sets, comment sets, continuation blocks,
 *          user blocks, spans
 *
 * Refusal 16 tells in `length` how long `out` must be.
 *
 * Calls may run at the same time, each with buffers of its own. A call needs less than MILURSAKE_STACK bytes of stack,
 * however long the file is; this is measured (tests/from_c.c) and not proved.
 */
#define MILURSAKE_STACK 80000

uint64_t milursake_convert(const uint8_t *file, size_t file_len, uint64_t mode, uint8_t *out, size_t out_len,
                           uint64_t *answer, size_t answer_len);

/*
 * Tells why a file is refused. Returns the number that milursake_convert would return for a buffer of `room` bytes; nothing
 * is converted. What is said above of buffers, pointers, calls at the same time and the stack holds here too.
 *
 * mode     the break mode, as above
 * room     the length of the buffer; it counts for refusal 16 only
 * reason   as many as it has room for of: number, block, offset, 1 or 0 for a byte or none, the byte or 0
 *
 * number   as above, 0 for a file that is accepted
 * block    the place of milursake_convert's answer: the block, or the first block of the set, counted from 0
 * offset   of the first byte in the file that breaks the rule: of the field, code, accent pair, run of row ends or row; the
 *          length of the file, with no byte, for 0, 1, 2, 16 and a set open at the end
 * byte     the byte of the file at the offset
 */
uint64_t milursake_explain(const uint8_t *file, size_t file_len, uint64_t mode, uint64_t room, uint64_t *reason,
                           size_t reason_len);

/*
 * Checks a file that comes in lumps: open once, feed lump after lump, close. Closing gives the answer of milursake_convert on
 * the joined file for a buffer of `room` bytes, however the file was cut; nothing is converted. What is said above of
 * buffers, pointers and the stack holds here too.
 *
 * The caller owns the store, MILURSAKE_CHECK_STORE bytes, and keeps it from call to call; nothing else is kept. It needs no
 * alignment and holds no pointers: between two calls it may be moved or copied, and each copy goes on by itself. Two checks
 * may run at the same time, each on a store of its own.
 *
 * open     starts anew, whatever stands in the store; `mode` and `room` as above
 * feed     takes the next bytes of the file, any number of them or none; `lump` is only read
 * close    returns the number; `answer` as for milursake_convert
 *
 * After the close, feeding and closing change nothing, and closing repeats the answer. What is closed early is answered as
 * the file that was fed so far.
 *
 * A store of another length is left as it is, by all three. So is one that is no state of an opened check, by feed and close.
 * Closing either is answered as for break mode 0: number 1, the rest 0. A store whose bytes the caller changes may still pass
 * for a check; its answer is then that of no file, and nothing but the store and `answer` is written.
 */
#define MILURSAKE_CHECK_STORE 28936

void milursake_check_open(uint8_t *store, size_t store_len, uint64_t mode, uint64_t room);

void milursake_check_feed(uint8_t *store, size_t store_len, const uint8_t *lump, size_t lump_len);

uint64_t milursake_check_close(uint8_t *store, size_t store_len, uint64_t *answer, size_t answer_len);

#ifdef __cplusplus
}
#endif

#endif
