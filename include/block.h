/*
 * Sealed blocks of a prescription card, for the dispenser's C program.
 *
 * A block is BLOCK_SIZE bytes: the sheet number (4 bytes), the place in the
 * sheet (4), the payload (PAYLOAD_SIZE), and the sums A (4) and B (4) over the
 * first 504 bytes. Numbers are stored with the high byte first.
 *
 * A pointer and the length after it lend the function that many bytes, for
 * the time of the call. The pointer must not be NULL, not even with length 0.
 * Neither function keeps a pointer, allocates, or touches anything but what it
 * is lent. So both may be called from any thread, as long as no other thread
 * writes to the same bytes during the call.
 *
 * Link with libblock.a (tools/archive block writes it as
 * target/staticlib/libblock.a, for x86-64 Linux). seal and check are global
 * names: the program can have no other global function of these names.
 * pagunlit.h with libpagunlit.a has both functions too, and a program links
 * one of the two archives.
 */
#ifndef BLOCK_H
#define BLOCK_H

#include <stddef.h>
#include <stdint.h>

#ifdef __cplusplus
extern "C" {
#endif

#define BLOCK_SIZE 512
#define PAYLOAD_SIZE 496

/* What seal and check return. */
#define BLOCK_SEALED 0       /* seal: the sealed block is written */
#define BLOCK_DAMAGED 0      /* check: a stored sum is not that of the bytes */
#define BLOCK_HOLDS 1        /* check: both stored sums are those of the bytes */
#define BLOCK_WRONG_LENGTH 3 /* either: a length is not as asked; nothing was changed */

/*
 * Writes the sealed block of a sheet, a place and a payload over all of
 * `block`. Any 32-bit sheet and place will do.
 *
 * payload, payload_length: read only. The length is PAYLOAD_SIZE.
 * block, block_length: written, whatever it held before. The length is
 *     BLOCK_SIZE. It must not overlap the payload: copy a payload that stands
 *     in the block itself out first.
 *
 * Returns BLOCK_SEALED, or BLOCK_WRONG_LENGTH if a length is another; then no
 * byte was changed.
 */
uint32_t seal(uint32_t sheet, uint32_t place,
              const uint8_t *payload, size_t payload_length,
              uint8_t *block, size_t block_length);

/*
 * Whether the check of a block holds: its stored A and B are the sums over its
 * first 504 bytes. It says nothing of which sheet and place the block carries.
 *
 * What it catches: a sealed block in which one byte or two have changed, or two
 * unequal neighbours have traded places, never gives BLOCK_HOLDS. Where that
 * ends: three changed bytes can (neighbours changed by +1, -2 and +1 leave both
 * sums as they were).
 *
 * block, block_length: read only. The length is BLOCK_SIZE.
 *
 * Returns BLOCK_HOLDS or BLOCK_DAMAGED, or BLOCK_WRONG_LENGTH if the length is
 * another.
 */
uint32_t check(const uint8_t *block, size_t block_length);

#ifdef __cplusplus
}
#endif

#endif
