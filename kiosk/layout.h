/*
 * Where things lie on a device of the clubhouse store: the questions that the store's own library answers, for C11 and C++.
 *
 * All numbers are 64 bits wide. A device is 0, 1 or 2. A place is an address and a length, in bytes. Each number of an answer has a function of
 * its own, all with the same arguments. The result, by the function whose name ends in `_result`, is 0 where the question is answered; where it
 * is not 0, each of the other numbers is 0.
 *
 * Any numbers may be given. No function reads or writes memory of the caller's, and each returns. That each answers as the store's library
 * does, for all numbers, is proved: crates/kiosk/src/lib.rt. Link with libkiosk.a, which `kiosk/check` builds (x86-64).
 */
#ifndef CLUBHOUSE_LAYOUT_H
#define CLUBHOUSE_LAYOUT_H

#include <stdint.h>

#ifdef __cplusplus
extern "C" {
#endif

/*
 * WHICH PLACE THIS IS: what could lie there, not what is stored
 */

/* 0: answered; 1: there is no such device. */
uint64_t layout_place_result(uint64_t device, uint64_t addr, uint64_t len);

/* 1: superblock 1; 2: superblock 2; 3: whole blocks of the journal, perhaps none; 4: at a table area's address, not empty, no longer than the area;
 * 5: at the start of a node block, perhaps empty, no longer than a block, and blocks past the device's 128 count too; 0: none of these, or the
 * result isn't 0. */
uint64_t layout_place_kind(uint64_t device, uint64_t addr, uint64_t len);

/*
 * WHETHER TWO PLACES OVERLAP, the one of len1 bytes at addr1 and the one of len2 bytes at addr2
 *
 * They do where each ends past the other's address; an end may be past 64 bits. So an empty place overlaps one that begins before it and ends past
 * it, and doesn't overlap itself.
 */

/* 0: answered; 1: there is no such device. */
uint64_t layout_overlap_result(uint64_t device, uint64_t addr1, uint64_t len1, uint64_t addr2, uint64_t len2);

/* 1: yes; 0: no, or the result isn't 0. */
uint64_t layout_overlap(uint64_t device, uint64_t addr1, uint64_t len1, uint64_t addr2, uint64_t len2);

/*
 * THE ADDRESS OF THE OTHER TABLE AREA
 */

/* 0: answered; 1: there is no such device. */
uint64_t layout_other_table_result(uint64_t device, uint64_t addr);

/* For the address of table area 1: that of area 2. For any other address, of neither area too: that of area 1. 0: the result isn't 0. */
uint64_t layout_other_table_addr(uint64_t device, uint64_t addr);

/*
 * THE FRONT PART OF A RANGE OF THE JOURNAL
 *
 * The range has `blocks` blocks of 4096 bytes, any number of them, from block `start` of the journal on. Blocks are counted from 0, and after the
 * journal's last block comes its first. The front part is what lies up to the journal's end. The caller has the journal in memory, in an area of
 * `bytes` bytes: 65536 for device 0, 262144 for device 1, 1048576 for device 2. The part's start and length are told in bytes of that area,
 * and their sum is at most `bytes`.
 */

/* 0: answered; 1: there is no such device, or the journal has no block `start`; 23: neither, and the journal doesn't have `bytes` bytes. */
uint64_t layout_front_result(uint64_t device, uint64_t bytes, uint64_t start, uint64_t blocks);

/* Where in the area the front part begins, in bytes; 0 too where the range has no blocks, or the result isn't 0. */
uint64_t layout_front_start(uint64_t device, uint64_t bytes, uint64_t start, uint64_t blocks);

/* How many bytes the front part has; 0 where the range has no blocks, or the result isn't 0. */
uint64_t layout_front_len(uint64_t device, uint64_t bytes, uint64_t start, uint64_t blocks);

/*
 * THE BACK PART OF A RANGE OF THE JOURNAL
 *
 * What the same range has past the journal's end, from the journal's first block on, told in bytes of the same area. A range of more blocks than
 * the journal has is refused.
 */

/* 0: answered; 1: there is no such device, or the journal has no block `start`, or fewer than `blocks` blocks;
 * 23: none of these, and the journal doesn't have `bytes` bytes. */
uint64_t layout_back_result(uint64_t device, uint64_t bytes, uint64_t start, uint64_t blocks);

/* Where in the area the back part begins, in bytes: always 0, the journal's first byte. */
uint64_t layout_back_start(uint64_t device, uint64_t bytes, uint64_t start, uint64_t blocks);

/* How many bytes the back part has; 0 where the range doesn't go past the journal's end, or the result isn't 0. */
uint64_t layout_back_len(uint64_t device, uint64_t bytes, uint64_t start, uint64_t blocks);

#ifdef __cplusplus
}
#endif

#endif
