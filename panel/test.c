/* Calls dp32_fault_line as a panel would, and prints what it answers and what the buffer holds then.
 * Every buffer is full of '.' before, and lies between two guards that must not change.
 */
#include <inttypes.h>
#include <stdio.h>
#include <string.h>

#include "dp32_fault_line.h"

enum { LARGEST = 60, GUARD = 8 };

static int damaged = 0;

static void call(uint32_t axis, uint32_t stage, uint32_t instruction, uint32_t access, uint32_t cause, uint32_t origin,
                 uint32_t layer, size_t size) {
    uint8_t space[GUARD + LARGEST + GUARD];
    uint8_t *line = space + GUARD;
    int32_t answer;
    size_t i;

    memset(space, '.', sizeof space);
    memset(space, '#', GUARD);
    memset(line + size, '#', GUARD);
    answer = dp32_fault_line(axis, stage, instruction, access, cause, origin, layer, line, size);
    printf("%4" PRId32 " ", answer);
    for (i = 0; i < size; i++) {
        if (line[i] == '\n') {
            printf("$");
        } else {
            putchar(line[i]);
        }
    }
    printf("\n");
    for (i = 0; i < GUARD; i++) {
        damaged |= space[i] != '#' || line[size + i] != '#';
    }
}

int main(void) {
    uint32_t stage, cause;

    printf("each stage and cause\n");
    for (stage = 1; stage <= 4; stage++) {
        for (cause = 1; cause <= 2; cause++) {
            call(1, stage, 0, 0x1000, cause, 0x1000, 0, LARGEST);
        }
    }
    printf("each axis\n");
    call(1, 3, 0, 0x1000, 1, 0x1000, 0, LARGEST);
    call(2, 3, 0, 0x1000, 1, 0x1000, 0, LARGEST);
    call(3, 3, 0, 0x1000, 1, 0x1000, 0, LARGEST);
    printf("addresses, each in its place\n");
    call(1, 4, 0xffffffff, 0x12345678, 2, 0x9abcdef0, 7, LARGEST);
    call(1, 4, 0, 1, 2, 0xa, 7, LARGEST);
    printf("layers\n");
    call(2, 1, 0, 0, 1, 0, 9, LARGEST);
    call(2, 1, 0, 0, 1, 0, 10, LARGEST);
    call(2, 1, 0, 0, 1, 0, 99, LARGEST);
    call(2, 1, 0, 0, 1, 0, 100, LARGEST);
    call(2, 1, 0, 0, 1, 0, 255, LARGEST);
    printf("a buffer of exactly 48 bytes, and of 47\n");
    call(1, 1, 0, 0x1000, 1, 0x1000, 0, 48);
    call(1, 3, 0, 0x1000, 2, 0x1000, 0, 48);
    call(1, 1, 0, 0x1000, 1, 0x1000, 0, 47);
    call(1, 3, 0, 0x1000, 2, 0x1000, 0, 47);
    call(1, 3, 0, 0x1000, 2, 0x1000, 0, 0);
    printf("each field out of range\n");
    call(0, 3, 0, 0x1000, 1, 0x1000, 0, LARGEST);
    call(4, 3, 0, 0x1000, 1, 0x1000, 0, LARGEST);
    call(257, 3, 0, 0x1000, 1, 0x1000, 0, LARGEST);
    call(1, 0, 0, 0x1000, 1, 0x1000, 0, LARGEST);
    call(1, 5, 0, 0x1000, 1, 0x1000, 0, LARGEST);
    call(1, 3, 0, 0x1000, 0, 0x1000, 0, LARGEST);
    call(1, 3, 0, 0x1000, 3, 0x1000, 0, LARGEST);
    call(1, 3, 0, 0x1000, 1, 0x1000, 256, LARGEST);
    call(1, 3, 0, 0x1000, 1, 0x1000, 0xffffffff, LARGEST);
    printf("a field is tested before the buffer\n");
    call(0, 3, 0, 0x1000, 1, 0x1000, 0, 47);
    call(1, 3, 0, 0x1000, 1, 0x1000, 256, 0);
    printf(damaged ? "bytes outside a buffer were written\n" : "no byte outside a buffer was written\n");
    return damaged;
}
