/* The fault line of a DP32 pitch axis: one line of text that tells why an axis has halted.
 *
 * A fault is seven numbers:
 *   axis         the axis that halted, 1 to 3
 *   stage        what the access was for: 1 fetch (the instruction), 2 displ (its displacement), 3 load, 4 store
 *   instruction  the address of the instruction that halted, any 32-bit number
 *   access       the address that it accessed, any 32-bit number
 *   cause        why the access was refused: 1 absent (no such cell), 2 fixed (a cell that cannot be written)
 *   origin       the address at the card or layer that refused it, any 32-bit number
 *   layer        how many layers lie above that one, 0 to 255
 *
 * Its line has them in this order, parted by single spaces, and ends with byte 10 (a line feed); no zero byte follows:
 *   A1 load 00000000 00001000 absent 00001000 L000
 * Addresses have eight hexadecimal digits in small letters, the layer three decimal ones.
 *
 * dp32_fault_line writes the line to the front of a buffer of `size` bytes, which `line` points to, and answers the
 * line's length in bytes, 46 to 48, the line feed included. The bytes of the buffer after the line stay as they were.
 *
 * It answers minus the number of a refusal, and then writes nothing, if
 *   46  a field is out of its range; this is tested first
 *   45  the buffer has fewer than 48 bytes, however long this line would be
 *
 * `line` must point to `size` bytes that may be read and written, and that nothing else uses during the call.
 */
#ifndef DP32_FAULT_LINE_H
#define DP32_FAULT_LINE_H

#include <stddef.h>
#include <stdint.h>

#ifdef __cplusplus
extern "C" {
#endif

/* A buffer of this size does for every line. */
#define DP32_FAULT_LINE_SIZE 48

#define DP32_REFUSED_BUFFER 45
#define DP32_REFUSED_FIELD 46

int32_t dp32_fault_line(uint32_t axis, uint32_t stage, uint32_t instruction, uint32_t access, uint32_t cause,
                        uint32_t origin, uint32_t layer, uint8_t *line, size_t size);

#ifdef __cplusplus
}
#endif

#endif
