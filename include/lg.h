/* The grant index for C: each call is the proved entry point of its name, lg_list and lg_list_holding are list's under its two choices
 * (document 01, "The plain book", "The tree", "The grants file" and "Faults"; document 02, "Show grants that cover the entire shift", "Each
 * cell knows its father", "Same grants, same bytes" and "Door record against panel record").
 *
 * Link with libc_api.a.
 *
 * Ranges of quarters are half-open, in grants and in the boxes of lg_list and lg_list_holding: quarter_from is covered, quarter_to is not.
 * Of staff and of doors, both ends belong to the range. The last quarter that a grant can cover is 65534.
 *
 * A pool is `pool_words` words and nothing outside them. A file is `file_bytes` bytes. A record of openings is `door_bytes` or
 * `panel_bytes` bytes: entries of 8 bytes. Lengths are in elements. Each pointer must be valid for its length and aligned for its type,
 * and memory that a call may change must not overlap the call's other memory. Every call is safe on any contents: a pool that no call
 * made is refused (1, 9) or answered, and never followed outside its words.
 *
 * A pool of capacity C, 1 to 2048, is 3 + 11 x C words: C, the root's cell, the first free cell, and then cells 1 to C, of eleven words
 * each. Those of a live grant's cell are its left child, its right child, number, rank x 2 + kind, staff from, staff to, door from, door to,
 * quarter from, quarter to, and its parent: from there the parents lead up to the root's cell, whose own is 0. A link of 0 leads nowhere. A
 * free cell has the next free one in its first word and zeros in the others. Cells of an earlier library had ten words, without the parent:
 * its pools are refused (1). Make them anew.
 *
 * Don't compare pools: with the same live grants, and the same C, they may hold other words, since the order of the calls shapes the tree.
 * What lg_list, lg_list_holding and lg_decide answer and what lg_write writes goes by the live grants alone. Two pools have the same live
 * grants exactly if lg_write gives the same bytes for doors 0 to 65535.
 *
 * Threads: no call keeps state or takes a lock. Calls on memory of their own may run side by side. Calls that leave a pool as it was
 * (lg_list, lg_list_holding, lg_decide, lg_count, lg_write, lg_match) may share it. A call that changes it (lg_start, lg_grant, lg_revoke,
 * lg_load) needs it alone: two at once can lose a grant that both accepted, and break the links. No call changes a file that it is given,
 * or a record of openings: calls may share them.
 *
 * Stack: no call allocates. A call needs at most LG_STACK_BYTES beside what its caller has on the stack, on any pool, file and record;
 * measured on x86-64 with the archive that `tools/build c_api` makes (tests/stack): lg_list and lg_list_holding 27,264 bytes,
 * lg_compare_openings 26,824, lg_write and lg_match 25,264, lg_grant, lg_revoke, lg_decide and lg_count 19,120, the others 1,432.
 *
 * Every call returns one word:
 *
 *     bits 0 to 7     the fault's number in the table below; 0: accepted
 *     bits 8 to 31    a
 *     bits 32 to 63   b
 *
 * a and b are 0 where a call below does not name them. A refused call leaves all memory as it was.
 *
 *      1  not a pool: its length is no pool's, or its first word is not its capacity (lg_start and lg_load ask only for the length)
 *      2  staff or doors end before they start, or quarters cover nothing: their from is not below their to
 *      3  the number is 0
 *      4  the kind is above 1
 *      5  the number is already live
 *      6  no cell is free; in lg_load, the file has more grants than the pool has cells
 *      7  the number is not live
 *      8  the list is too short; a = count needed
 *      9  the pool's links are broken: one leads outside the cells, too deep, to more cells than there are, or to a cell whose parent is
 *         another than the cell that it leads from (the root's is 0)
 *     10  the file is not 1 to 68 whole blocks, or the block is not in it
 *     11  a block's mark, number, record count or fill is wrong, or in block 0 its n, the block count or the door order; b = the block.
 *         The mark is LGF2. A file with the older mark, LGF1, has closed quarters: it must be cut anew
 *     12  a block's check is wrong; b = the block
 *     13  a record is wrong: number 0 or not above the last, kind above 1, staff or doors that end before they start, quarters whose from
 *         is not below their to, more than 1,000 doors at a rank below 200, doors of the file that it does not touch; b = the block
 *     14  the lent bytes are too few; b = length needed
 *     16  the grant is over more than 1,000 doors and its rank is below 200
 *     24  a record of openings is not whole entries, or has more than 4,096
 *     25  in a record of openings an entry's quarter is below that of the entry before it
 */
#ifndef LG_H
#define LG_H

#include <stddef.h>
#include <stdint.h>

#ifdef __cplusplus
extern "C" {
#endif

/* No call needs more stack: see above. */
#define LG_STACK_BYTES 32768

#define LG_FAULT(word) ((unsigned)((word) & 0xFFu))
#define LG_A(word) ((uint32_t)(((word) >> 8) & 0xFFFFFFu))
#define LG_B(word) ((uint32_t)((word) >> 32))

/* The two numbers in b of lg_compare_openings. */
#define LG_LEFT_IN_DOOR(word) (LG_B(word) >> 16)
#define LG_LEFT_IN_PANEL(word) (LG_B(word) & 0xFFFFu)

/* Makes an empty index in memory of a pool's length: 3 + 11 x C words for a capacity C of 1 to 2048. The words that it held
 * do not matter.
 * Refuses 1. Leaves: an empty pool. */
uint64_t lg_start(uint16_t *pool, size_t pool_words);

/* Adds a grant. kind: 0 bars, 1 opens. It covers the quarters from quarter_from on, up to and without quarter_to.
 * Refuses 1, 3, 4, 2, 16, 9, 5 and 6, in this order. Leaves: the pool with the grant live. */
uint64_t lg_grant(uint16_t *pool, size_t pool_words, uint16_t number, uint8_t rank, uint8_t kind, uint16_t staff_from,
                  uint16_t staff_to, uint16_t door_from, uint16_t door_to, uint16_t quarter_from, uint16_t quarter_to);

/* Drops the grant of a number.
 * Refuses 1, 3, 9 and 7, in this order. Leaves: the pool without the grant. */
uint64_t lg_revoke(uint16_t *pool, size_t pool_words, uint16_t number);

/* The numbers of the live grants that touch a box, ascending, from the start of the list. A grant touches a box when it covers one of its
 * staff numbers, one of its doors and one of its quarters. A grant that ends when the box begins, or begins when it ends, does not. Grants
 * that hold the box touch it too.
 * Accepted: a = how many were written. Refuses 1, 2, 9 and 8 (a = count needed), in this order.
 * Leaves: the numbers in the list; elements past them, and the pool, stay. */
uint64_t lg_list(const uint16_t *pool, size_t pool_words, uint16_t staff_from, uint16_t staff_to, uint16_t door_from,
                 uint16_t door_to, uint16_t quarter_from, uint16_t quarter_to, uint16_t *list, size_t list_words);

/* The same for the live grants that hold a box. A grant holds a box when it covers all of its staff numbers, all of its doors and all of
 * its quarters: the box lies inside it, and may end where it ends.
 * Accepted: a = how many were written. Refuses 1, 2, 9 and 8 (a = count needed), in this order; 1, 2 and 9 exactly where lg_list does. The
 * list needs no room for grants that only touch the box.
 * Leaves: the numbers in the list; elements past them, and the pool, stay. */
uint64_t lg_list_holding(const uint16_t *pool, size_t pool_words, uint16_t staff_from, uint16_t staff_to, uint16_t door_from,
                         uint16_t door_to, uint16_t quarter_from, uint16_t quarter_to, uint16_t *list, size_t list_words);

/* What decides at a point: the live grant of the highest rank that holds it, at equal rank the one of the highest number.
 * No grant covers quarter 65535: there the answer is none on every pool, no link is followed, and 9 does not come.
 * Accepted: a = 0 none, 1 opens, 2 barred. Refuses 1 and 9, in this order.
 * Leaves: with 1 and 2, out = number, rank, kind, staff from, staff to, door from, door to, quarter from, quarter to, 0; otherwise
 * out stays. The pool stays. */
uint64_t lg_decide(const uint16_t *pool, size_t pool_words, uint16_t staff, uint16_t door, uint16_t quarter, uint16_t out[10]);

/* Accepted: a = live grants, b = the capacity less a. Refuses 1 and 9, in this order. Leaves: everything as it was. */
uint64_t lg_count(const uint16_t *pool, size_t pool_words);

/* Writes the grants file of the doors: all live grants that touch them, whole, ascending by number. 34,816 bytes are always enough.
 * Accepted: b = the file's length in bytes. Refuses 1, 2, 9 and 14 (b = length needed), in this order.
 * Leaves: the file in the bytes; bytes past it, and the pool, stay. */
uint64_t lg_write(const uint16_t *pool, size_t pool_words, uint16_t door_from, uint16_t door_to, uint8_t *bytes, size_t byte_count);

/* Makes the pool what lg_start and then the file's grants, in their order, make it. The words that it held do not matter.
 * Refuses 1, then 10, then for each block rising 12, 11 and 13 (b = block), then 6. Leaves: a pool with the file's grants live. */
uint64_t lg_load(uint16_t *pool, size_t pool_words, const uint8_t *file, size_t file_bytes);

/* Holds the pool's live grants that touch the file's doors against the file.
 * Accepted: a = 0 where they are equal, else the lowest grant number at which they differ: absent from one, or unequal. On a pool that no
 * calls made, a = 0 may also stand for a cell with number 0, which no file holds.
 * Refuses 1, then 10, then for each block rising 12, 11 and 13 (b = block), then 9. Leaves: everything as it was. */
uint64_t lg_match(const uint16_t *pool, size_t pool_words, const uint8_t *file, size_t file_bytes);

/* The verdict on one block of a file, judged alone.
 * Refuses 10, 12 (b = block) and 11 (b = block), in this order. Leaves: everything as it was. */
uint64_t lg_block(const uint8_t *file, size_t file_bytes, uint64_t block);

/* The part of the file that the records of a block occupy.
 * a = its length in bytes, b = where it starts in the file; both 0 where lg_block refuses the block, and for block 0, which has no
 * records. The fault's number is always 0. Leaves: everything as it was. */
uint64_t lg_block_part(const uint8_t *file, size_t file_bytes, uint64_t block);

/* Holds the door record against the panel record. A record has an entry for each opening, 8 bytes, high byte first: door (2), quarter
 * (2), staff (4). It has up to 4,096 entries, or none; their quarters do not fall and may repeat, doors and staff come in any order.
 * Entries are equal when all 8 bytes are. Where both records have an entry, it agrees as often as the record has it that has it less
 * often; the others are left. Both records may be the same memory.
 * Accepted: a = how many agree, b = left in the door record x 65,536 + left in the panel record. Refuses 24, tested on both records, and
 * then 25. Leaves: everything as it was. */
uint64_t lg_compare_openings(const uint8_t *door_record, size_t door_bytes, const uint8_t *panel_record, size_t panel_bytes);

#ifdef __cplusplus
}
#endif

#endif
