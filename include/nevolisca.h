/* Batch planner and committer: the seven services, from the static library libnode.a.
 *
 * Every service returns one word.
 *   Refused:  the refusal number in the upper 32 bits, its place in the lower 32.
 *   Else:     the upper 32 bits are 0; the lower 32 are the count or length named below, 0 where there is none.
 * On a refusal nothing lent changes. Lists and texts may have any length and content: the services check it.
 *
 * What the caller owes: a pointer is aligned and not null, also where its length is 0, and has as many entries
 * as its length says; what is lent to be filled overlaps nothing else that is lent in the same call.
 * This no service can check. Where a pointer is null or astray, or lists overlap, nothing that stands here is certain:
 * not what is returned, not what is filled, not that other memory stays, and not that the call returns.
 * Nothing is kept after the return, and there is no state between calls.
 *
 * No. | Given when                                                         | Place
 * ----+--------------------------------------------------------------------+----------------------------------------
 *   1 | page not of 512 bytes                                              | 0
 *   2 | check differs                                                      | byte 508
 *   3 | mark or byte 3 wrong                                               | byte 0 or 3, the lower that is wrong
 *   4 | r or w above 32                                                    | byte 1 or 2, the lower that is wrong
 *   5 | 8r + 12w above 500                                                 | byte 1
 *   6 | read keys not rising, or above 1023                                | first byte of the lowest bad read
 *   7 | read version of another form                                       | that byte plus 2
 *   8 | write keys not rising, or above 1023                               | first byte of the lowest bad write
 *   9 | kind neither 0 nor 1, or delete with value                         | that byte plus 2
 *  10 | spare byte not zero                                                | lowest spare byte that is not zero
 *  11 | batch over 32768 bytes or no multiple of 512                       | 0
 *  12 | state lists unequal, empty or over 1024                            | 0
 *  13 | state entry of another form, or present or deleted with block not  | lowest key
 *     | below n                                                            |
 *  14 | verdicts or order shorter than m, or out batch shorter than 512m,  | 0
 *     | each where it is lent                                              |
 *  15 | ticket already on an earlier page                                  | lowest such page
 *  16 | key not below K                                                    | lowest such page
 *  17 | page index not below the whole pages lent                          | 0
 *  18 | text not of the form                                               | 0
 *  19 | figure outside signed 64 bits                                      | 0
 *  20 | text buffer shorter than the text                                  | 0
 *
 * m is the number of pages of a batch, K the length of the state lists.
 * A byte is the offset of the fault within the page. Read i starts at byte 8 + 8i, write i at 8 + 8r + 12i; of two keys that
 * do not rise, the later is bad. Writing a page gives the byte that the count or the entry would have, whatever the index.
 * A service on a batch gives 512 times the page plus the byte: 1564 is byte 28 of page 3.
 *
 * The forms that the table speaks of:
 *   version of a read   of a present key: any block with a place of 0 to 63; of a deleted one: any block with a place of
 *                       32768 to 32831; of an absent one, which was never written: block 0 and place 65535
 *   state entry         present: any block below n with a place of 0 to 63, and any value; deleted: any block below n
 *                       with a place of 32768 to 32831, and value 0; absent: block 0, place 65535 and value 0.
 *                       Block 4 with place 65535 is none of them, nor is place 64, 32767 or 32832.
 *   text                an optional minus, whole tonnes without needless leading zeros (a lone 0 is needed), a comma,
 *                       exactly three digits, and nothing else. "-0,000" is no figure. "68,400" and "-0,050" are of the
 *                       form; "684", "68,4", "068,400", ",400", "+1,000" and "" are not.
 *   page                512 bytes, all numbers little-endian: byte 0 the mark, hex 54; bytes 1 and 2 r and w; byte 3
 *                       zero; bytes 4 to 7 the ticket; from byte 8 on r reads of 8 bytes (key 2, place 2, block 4), then
 *                       w writes of 12 bytes (key 2, kind 2, value 8 signed); spare bytes up to 507, which are zero;
 *                       bytes 508 to 511 the check, the sum over bytes 0 to 507 of (offset + 1) times the byte.
 * Keys rise strictly within the reads and within the writes; one key may stand in both.
 */
#ifndef NEVOLISCA_H
#define NEVOLISCA_H

#include <stddef.h>
#include <stdint.h>

#ifdef __cplusplus
extern "C" {
#endif

/* The two halves of a word. */
#define NEVOLISCA_REFUSAL(word) ((uint32_t)((word) >> 32))
#define NEVOLISCA_PLACE(word) ((uint32_t)(word))
/* Of the place of a batch's refusal of 2 to 10: the page, and the byte in it. */
#define NEVOLISCA_BAD_PAGE(word) (NEVOLISCA_PLACE(word) / NEVOLISCA_PAGE)
#define NEVOLISCA_BAD_BYTE(word) (NEVOLISCA_PLACE(word) % NEVOLISCA_PAGE)
#define NEVOLISCA_COUNT(word) ((uint32_t)(word))

/* Sizes: the bytes of a page and of a full batch, the entries of an array, the bytes of the longest text. */
#define NEVOLISCA_PAGE 512
#define NEVOLISCA_BATCH 32768
#define NEVOLISCA_ENTRIES 32
#define NEVOLISCA_TEXT 21

/* Places of versions. A put by the page at place i leaves place i, a delete i + NEVOLISCA_DELETED; a key never written has
 * block 0 and place NEVOLISCA_ABSENT. Which of the three a key of the state is can be told from its place.
 */
#define NEVOLISCA_DELETED 32768
#define NEVOLISCA_ABSENT 65535
#define NEVOLISCA_IS_PRESENT(place) ((place) < 64)

/* A transaction is lent as a head and six arrays.
 *   head         the number of reads r, the number of writes w, the ticket
 *   read_keys, read_places, read_blocks       read i: its key, and the place and block of the version it names
 *   write_keys, write_kinds, write_values     write i: its key, its kind (0 puts, 1 deletes), its value
 * A key never written is read at block 0, place 65535, a deleted one at the block and place that its delete left: a read
 * that names the one does not pass on the other. Entries beyond r and w count for nothing.
 */

/* Reads the page of len bytes.
 * Lent: the page. Filled: head and all 32 entries of each array, zeros beyond r and w.
 * Returns 0, or the first refusal of 1 to 10, for 2 to 10 with the byte as its place.
 */
uint64_t nevolisca_read_page(const uint8_t *page, size_t len,
                             uint32_t head[3],
                             uint16_t read_keys[32], uint16_t read_places[32], uint32_t read_blocks[32],
                             uint16_t write_keys[32], uint16_t write_kinds[32], int64_t write_values[32]);

/* Writes a transaction as the page at an index of a batch of len bytes.
 * Lent: the index, head and the six arrays. Filled: bytes 512 * index to 512 * index + 511 of the batch; the others stay.
 * Returns 0, or the first refusal of 4 to 9, with the byte that would be wrong as its place, then 17.
 */
uint64_t nevolisca_write_page(uint8_t *batch, size_t len, size_t index,
                              const uint32_t head[3],
                              const uint16_t read_keys[32], const uint16_t read_places[32], const uint32_t read_blocks[32],
                              const uint16_t write_keys[32], const uint16_t write_kinds[32], const int64_t write_values[32]);

/* The state is three lists of one length K, 1 to 1024: key k is entry k of blocks, places and values. Every entry that is
 * not absent has a block below n.
 *
 * The ordinary batch: plans a batch of m pages under the number n and commits the kept ones, in one call.
 * Lent: batch, n, and the state. Filled:
 *   verdicts                 the first m: 0 kept, 1 stale, 2 cycle
 *   order                    the first k: the page indexes of the kept, in schedule order
 *   blocks, places, values   the state after the kept pages, in that order; the page at place p of it leaves version (n, p)
 *                            where it puts, and (n, p + 32768) and value 0 where it deletes, also on an absent key
 * Further entries stay. All is as nevolisca_plan and then nevolisca_commit of the first 512k bytes of its out batch leave it;
 * no out batch is lent, and no page is copied. None of the kept fails.
 * Returns k, the kept count, or the first refusal, in the order of nevolisca_plan; 14 asks for verdicts and order only.
 */
uint64_t nevolisca_plan_and_commit(const uint8_t *batch, size_t len,
                                   uint32_t *blocks, size_t blocks_len,
                                   uint16_t *places, size_t places_len,
                                   int64_t *values, size_t values_len,
                                   uint32_t n,
                                   uint8_t *verdicts, size_t verdicts_len,
                                   uint8_t *order, size_t order_len);

/* Plans a batch of m pages over a state under the number n, and changes no state.
 * Lent: batch, blocks, places, values, n. Filled:
 *   verdicts   the first m: 0 kept, 1 stale, 2 cycle
 *   order      the first k: the page indexes of the kept, in schedule order
 *   out        the first 512k bytes: the kept pages in that order
 * Further entries stay. Returns k, the kept count, or the first refusal of 11, 12, 13, 14, then the lowest bad page
 * with its first number of 2 to 10 and 512 times the page plus the byte as its place, then 15, then 16.
 */
uint64_t nevolisca_plan(const uint8_t *batch, size_t len,
                        const uint32_t *blocks, size_t blocks_len,
                        const uint16_t *places, size_t places_len,
                        const int64_t *values, size_t values_len,
                        uint32_t n,
                        uint8_t *verdicts, size_t verdicts_len,
                        uint8_t *order, size_t order_len,
                        uint8_t *out, size_t out_len);

/* Commits a batch of m pages to a state under the number n.
 * Lent: batch, n, and the state. Filled:
 *   blocks, places, values   the state after the passing pages; the page at index i leaves version (n, i) where it puts,
 *                            and (n, i + 32768) and value 0 where it deletes, also on an absent key
 *   verdicts                 the first m: 0 passes, 3 fails; further entries stay
 * Returns the number of passing pages, or the first refusal, in the order of nevolisca_plan; 14 asks for verdicts only.
 */
uint64_t nevolisca_commit(const uint8_t *batch, size_t len,
                          uint32_t *blocks, size_t blocks_len,
                          uint16_t *places, size_t places_len,
                          int64_t *values, size_t values_len,
                          uint32_t n,
                          uint8_t *verdicts, size_t verdicts_len);

/* Reads a tonnage text of len bytes: kilograms written as tonnes, as "68,400" or "-0,050".
 * Lent: the text. Filled: *kilograms.
 * Returns 0, or 18, then 19.
 */
uint64_t nevolisca_read_tonnage(const uint8_t *text, size_t len, int64_t *kilograms);

/* Writes kilograms as a tonnage text to the front of a buffer of len bytes; 21 are always enough.
 * Lent: the figure. Filled: the front of text; the bytes after it stay, and no zero ends it.
 * Returns the length of the text, or 20.
 */
uint64_t nevolisca_write_tonnage(uint8_t *text, size_t len, int64_t kilograms);

#ifdef __cplusplus
}
#endif

#endif
