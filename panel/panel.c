/* A crew panel: prints the fault line of a halted axis, and then its fields by name.
 *
 * usage: panel AXIS STAGE INSTRUCTION ACCESS CAUSE ORIGIN LAYER
 * Each is a number from 0 to 4294967295, decimal or hexadecimal after 0x. A fault that has no line is refused: the
 * number of the refusal is printed, and the status is 1. Anything else on the command line gives status 2.
 */
#include <errno.h>
#include <inttypes.h>
#include <stdio.h>
#include <stdlib.h>
#include <string.h>

#include "dp32_fault_line.h"

enum { AXIS, STAGE, INSTRUCTION, ACCESS, CAUSE, ORIGIN, LAYER, FIELDS };

/* Reads a number, decimal or hexadecimal after 0x; answers 0 for anything else. */
static int read_number(const char *text, uint32_t *number) {
    int hexadecimal = text[0] == '0' && (text[1] == 'x' || text[1] == 'X');
    const char *digits = hexadecimal ? text + 2 : text;
    const char *allowed = hexadecimal ? "0123456789abcdefABCDEF" : "0123456789";
    unsigned long long value;

    if (digits[0] == '\0' || digits[strspn(digits, allowed)] != '\0') {
        return 0;
    }
    errno = 0;
    value = strtoull(digits, NULL, hexadecimal ? 16 : 10);
    if (errno != 0 || value > UINT32_MAX) {
        return 0;
    }
    *number = (uint32_t)value;
    return 1;
}

/* The line's own words for the stage and the cause are its second and its fifth. */
static void print_word(const char *name, const char *line, int which) {
    size_t length;

    for (; which > 1; which--) {
        line = strchr(line, ' ') + 1;
    }
    length = strcspn(line, " \n");
    printf("%-12s %.*s\n", name, (int)length, line);
}

int main(int count, char **arguments) {
    uint32_t field[FIELDS];
    char line[DP32_FAULT_LINE_SIZE + 1];
    int32_t answer;
    int i;

    if (count != FIELDS + 1) {
        fprintf(stderr, "usage: panel AXIS STAGE INSTRUCTION ACCESS CAUSE ORIGIN LAYER\n");
        return 2;
    }
    for (i = 0; i < FIELDS; i++) {
        if (!read_number(arguments[i + 1], &field[i])) {
            fprintf(stderr, "panel: not a 32-bit number: %s\n", arguments[i + 1]);
            return 2;
        }
    }
    answer = dp32_fault_line(field[AXIS], field[STAGE], field[INSTRUCTION], field[ACCESS], field[CAUSE], field[ORIGIN],
                             field[LAYER], (uint8_t *)line, DP32_FAULT_LINE_SIZE);
    if (answer < 0) {
        printf("refused %" PRId32 "\n", -answer);
        return 1;
    }
    line[answer] = '\0';
    printf("%s", line);
    printf("%-12s %" PRIu32 "\n", "axis", field[AXIS]);
    print_word("stage", line, 2);
    printf("%-12s %08" PRIx32 "\n", "instruction", field[INSTRUCTION]);
    printf("%-12s %08" PRIx32 "\n", "access", field[ACCESS]);
    print_word("cause", line, 5);
    printf("%-12s %08" PRIx32 "\n", "origin", field[ORIGIN]);
    printf("%-12s %" PRIu32 "\n", "layer", field[LAYER]);
    return 0;
}
