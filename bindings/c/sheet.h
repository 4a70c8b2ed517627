/*
 * The proved checker of emission sheets, the proved listing of a programme's start, the proved gain of a plain factor and the proved check
 * of the block times of a live frame, for host players in C.
 * Link with crates/host/out/libhost.a, which `tools/build host` writes; it needs no other library.
 */
#ifndef SHEET_H
#define SHEET_H

#include <stddef.h>
#include <stdint.h>

#ifdef __cplusplus
extern "C" {
#endif

/*
 * Both calls on a sheet are lent a list of language words right after it, langs_len bytes: two for each word, high first, the words
 * strictly rising; an odd last byte is ignored. A word is 1024 times the first letter of a code of three letters plus 32 times the second
 * plus the third, a = 1 to z = 26. A sheet may use the codes of three letters that are listed, and those from qaa to qtz without a list;
 * rule 6 refuses all others. examples/langs is the list of ISO 639-2. A list is judged before the sheet: if it is not strictly rising, that
 * is rule 33, whatever the sheet. No list of more than 65,536 words rises.
 *
 * Each of them uses the list that it is lent and no other: a sheet is accepted or not relative to that list. Sheet and list are only read
 * and may overlap.
 */

/*
 * The verdict on a sheet of sheet_len bytes: 0 if it is accepted, else
 *
 *     1,000,000 * rule + 100,000 * section + record
 *
 * with the first broken rule, 33 or 1 to 24, and its place, where section 0 is the header and a record is below 100,000.
 * So 14300000 is rule 14, section 3, record 0, and 33000000 is a list that is not strictly rising.
 *
 * Every length and all bytes are answered, of the sheet and of the list. The bytes are read and never written, none beyond sheet_len or
 * langs_len is touched, and they must not change during the call. With a length of 0 that pointer is not followed and may be NULL.
 * Nothing is kept from call to call, so threads may call at the same time. Tables stand on the stack: a thread that calls needs 512 KiB
 * of it.
 */
uint32_t sheet_check(const uint8_t *sheet, size_t sheet_len, const uint8_t *langs, size_t langs_len);

/*
 * Lists the tracks that sound when a programme of a sheet of sheet_len bytes starts. Programmes count from 0. Each track is written
 * to the buffer as two bytes, high first. The answer is the number of tracks, or the number of a refusal negated; the first that
 * applies is given:
 *
 *     -25    the sheet is not accepted with this list, which is also so if the list is not strictly rising, or is level 0
 *     -27    no such programme
 *     -32    buffer_len is less than two bytes for each track
 *
 * The tracks are those of active objects by rising index, children in list order, tracks in list order; one that two active objects
 * list is there twice. No sheet has more than 28, so 56 bytes are always enough.
 *
 * Every length, all bytes and every number are answered. Bytes of the buffer after the last track stay as they are, and a refusal
 * changes none. Sheet and list are read and never written, must not change during the call and must not overlap the buffer; no byte
 * beyond sheet_len, langs_len or buffer_len is touched. With a length of 0 that pointer is not followed and may be NULL. Nothing is kept
 * from call to call, so threads may call at the same time, each with a buffer of its own and with 512 KiB of stack.
 */
int32_t sheet_start_listing(const uint8_t *sheet, size_t sheet_len, const uint8_t *langs, size_t langs_len, uint32_t programme,
                            uint8_t *buffer, size_t buffer_len);

/*
 * The gain of a plain factor in millionths: the least tenth of a dB that is not below it, -600 to 210, or
 *
 *     -32768      silence: the factor is 0
 *     34000000    refusal 34: the factor is above 11220184, which is 21 dB
 *
 * 1 to 1000 give -600, 1000000 gives 0 and 1000001 gives 1. Every number is answered. Nothing is kept from call to call, so threads may
 * call at the same time.
 */
int32_t gain_of_factor(uint32_t millionths);

/*
 * Whether the blocks of one channel conform to a live frame of so many microseconds: 0 if they do, else the number of an error; the first
 * that applies is given:
 *
 *     35    an initialising block is not first
 *     36    a length or a start is bad, or numbers are left over, which are no whole block
 *     37    there is no block at all, or the lengths do not add up to the frame
 *
 * The numbers are three to a block: its start and its length in microseconds, and 0, or any other number if it is initialising. So count
 * is three times the number of blocks: it counts numbers, not bytes and not blocks. The start and length of an initialising block are not
 * read and it is ignored in all sums. Each other length is 0 or at least 5000, and each start is the sum of the earlier lengths. Sums are
 * exact and may pass 32 bits.
 *
 * Every frame length, every count and all numbers are answered. The numbers are in this machine's byte order, and aligned as uint32_t is.
 * They are read and never written, none beyond count is touched, and they must not change during the call. With a count of 0 the pointer
 * is not followed and may be NULL. Nothing is kept from call to call, so threads may call at the same time.
 */
uint32_t frame_check(uint32_t frame, const uint32_t *numbers, size_t count);

#ifdef __cplusplus
}
#endif

#endif
