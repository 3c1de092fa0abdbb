/* One block of 65,536 bytes in which two sheets are checked at the same time. It has a part for each: a scratch, and behind it a result
 * that has room for any one type.
 */
#ifndef BLOCK_H
#define BLOCK_H

#include "velgrodis.h"

#define BLOCK_BYTES 65536
#define RESULT_BYTES VG_TYPE_BYTES
#define PART_BYTES (VG_SCRATCH_BYTES + RESULT_BYTES)

_Static_assert(2 * PART_BYTES <= BLOCK_BYTES, "a part of the block for each sheet");

/* One file of a program includes this, so that it has one block. */
static uint8_t block[BLOCK_BYTES];

#endif
