/* A plain interpreter of the DP32's instruction set, for comparing speed only: nothing of the model rests on it.
 * usage: dp32 COUNT WORD WORD ..   runs up to COUNT instructions of the words, from address 0 of 65,536 words. */
#include <stdbool.h>
#include <stdint.h>
#include <stdio.h>
#include <stdlib.h>

enum { WORDS = 65536 };
enum stage { NONE, FETCH, DISPL, LOAD, STORE };

static uint32_t memory[WORDS];
static uint32_t registers[256];
static uint32_t pc;
static bool v, n, z;
static enum stage fault;
static uint32_t fault_access;

static bool halt(enum stage stage, uint32_t access)
{
    fault = stage;
    fault_access = access;
    return false;
}

static void result(uint8_t r3, uint32_t word, bool overflow)
{
    registers[r3] = word;
    v = overflow;
    n = word >> 31;
    z = word == 0;
    pc += 1;
}

static void arithmetic(uint8_t op, uint8_t r3, int32_t a, int32_t b)
{
    int64_t exact;
    switch (op) {
    case 0: exact = (int64_t)a + b; break;
    case 1: exact = (int64_t)a - b; break;
    case 2:
        exact = (int64_t)a * b;
        if (exact > INT32_MAX) { result(r3, INT32_MAX, true); return; }
        if (exact < INT32_MIN) { result(r3, 0x80000000u, true); return; }
        break;
    default:
        if (b == 0) { result(r3, a >= 0 ? 0x7fffffffu : 0x80000000u, true); return; }
        result(r3, (uint32_t)((int64_t)a / b), false);
        return;
    }
    result(r3, (uint32_t)exact, exact > INT32_MAX || exact < INT32_MIN);
}

static bool step(void)
{
    if (pc >= WORDS) return halt(FETCH, pc);
    uint32_t word = memory[pc];
    uint8_t op = word >> 24, r3 = word >> 16, r1 = word >> 8, r2 = word;
    uint32_t offset = (uint32_t)(int8_t)r2, past = pc + 1, address;
    switch (op) {
    case 0x00: case 0x01: case 0x02: case 0x03:
        arithmetic(op, r3, (int32_t)registers[r1], (int32_t)registers[r2]);
        return true;
    case 0x10: case 0x11: case 0x12: case 0x13:
        arithmetic(op - 0x10, r3, (int32_t)registers[r1], (int8_t)r2);
        return true;
    case 0x04: registers[r3] = registers[r1] & registers[r2]; z = registers[r3] == 0; pc = past; return true;
    case 0x05: registers[r3] = registers[r1] | registers[r2]; z = registers[r3] == 0; pc = past; return true;
    case 0x06: registers[r3] = registers[r1] ^ registers[r2]; z = registers[r3] == 0; pc = past; return true;
    case 0x07: registers[r3] = registers[r1] & ~registers[r2]; z = registers[r3] == 0; pc = past; return true;
    case 0x20: case 0x21:
        if (past >= WORDS) return halt(DISPL, past);
        offset = memory[past];
        past += 1;
        /* fall through */
    case 0x30: case 0x31:
        address = registers[r1] + offset;
        if (address >= WORDS) return halt(op & 1 ? STORE : LOAD, address);
        if (op & 1) memory[address] = registers[r3];
        else registers[r3] = memory[address];
        pc = past;
        return true;
    case 0x40: case 0x41: case 0x50: case 0x51: {
        bool taken = ((v && (word >> 18 & 1)) || (n && (word >> 17 & 1)) || (z && (word >> 16 & 1))) == (word >> 19 & 1);
        if (op < 0x50) {
            if (!taken) { pc = past + 1; return true; }
            if (past >= WORDS) return halt(DISPL, past);
            offset = memory[past];
            past += 1;
        }
        pc = !taken ? past : (op & 1 ? registers[r1] : past) + offset;
        return true;
    }
    default:
        pc = past;
        return true;
    }
}

int main(int argc, char **argv)
{
    if (argc < 2) return 2;
    uint64_t count = strtoull(argv[1], NULL, 0), done = 0;
    for (int i = 2; i < argc; i++) memory[i - 2] = (uint32_t)strtoul(argv[i], NULL, 0);
    while (done < count && step()) done++;
    if (fault) done++;
    printf("instruction %llu %s\n", (unsigned long long)done, fault ? "halted" : "done");
    uint32_t live = 0;
    for (int r = 0; r < 256; r++) live += registers[r] != 0;
    printf("registers %u\n", live);
    for (int r = 0; r < 256; r++) if (registers[r]) printf("r%d %08x\n", r, registers[r]);
    printf("flags V%d N%d Z%d\npc %08x\n", v, n, z, pc);
    return 0;
}
