/* A plain state machine of the DP32's clock table, for comparing speed only: nothing of the model rests on it.
 * usage: dp32_clock COUNT WORD WORD ..   runs up to COUNT clocks of the words, from address 0 of 65,536 words. */
#include <stdbool.h>
#include <stdint.h>
#include <stdio.h>
#include <stdlib.h>

enum { WORDS = 65536 };
enum state { FETCH_0, FETCH_1, FETCH_2, DECODE, DISP_FETCH_0, DISP_FETCH_1, DISP_FETCH_2, EXECUTE_0, EXECUTE_1, EXECUTE_2 };
enum answer { ON, WAITING, DONE, IGNORED, HALTED };
static const char *const state_names[] = { "fetch_0", "fetch_1", "fetch_2", "decode", "disp_fetch_0", "disp_fetch_1",
    "disp_fetch_2", "execute_0", "execute_1", "execute_2" };
static const char *const answer_names[] = { "on", "waiting", "done", "ignored", "halted" };

static uint32_t memory[WORDS];
static uint32_t registers[256];
static uint32_t pc, start, instruction, displacement, address;
static bool v, n, z, halted;
static enum state state;
static bool pending;
static uint8_t pending_register;
static uint32_t pending_word;

/* the card's transfer, and what a poll answers */
static struct { bool being, write; uint32_t address, word, waits; } transfer;
static const uint32_t waits;

static void begin(bool write, uint32_t at, uint32_t word)
{
    transfer.being = true;
    transfer.write = write;
    transfer.address = at;
    transfer.word = word;
    transfer.waits = waits;
}

static enum answer poll(uint32_t *word)
{
    if (transfer.waits > 0) { transfer.waits--; return WAITING; }
    transfer.being = false;
    if (transfer.address >= WORDS) return HALTED;
    if (transfer.write) memory[transfer.address] = transfer.word;
    *word = memory[transfer.address];
    return ON;
}

static void latch(uint8_t r3, uint32_t word)
{
    pending = true;
    pending_register = r3;
    pending_word = word;
}

static void result(uint8_t r3, uint32_t word, bool overflow)
{
    latch(r3, word);
    v = overflow;
    n = word >> 31;
    z = word == 0;
}

static void logical(uint8_t r3, uint32_t word)
{
    latch(r3, word);
    z = word == 0;
}

static void arithmetic(uint8_t op, uint8_t r3, int32_t a, int32_t b)
{
    int64_t exact;
    switch (op) {
    case 0: exact = (int64_t)a + b; break;
    case 1: exact = (int64_t)a - b; break;
    case 2:
        exact = (int64_t)a * b;
        if (exact > INT32_MAX) { result(r3, INT32_MAX, true); return; }
        if (exact < INT32_MIN) { result(r3, 0x80000000u, true); return; }
        break;
    default:
        if (b == 0) { result(r3, a >= 0 ? 0x7fffffffu : 0x80000000u, true); return; }
        result(r3, (uint32_t)((int64_t)a / b), false);
        return;
    }
    result(r3, (uint32_t)exact, exact > INT32_MAX || exact < INT32_MIN);
}

static bool taken(void)
{
    uint32_t w = instruction;
    return ((v && (w >> 18 & 1)) || (n && (w >> 17 & 1)) || (z && (w >> 16 & 1))) == (w >> 19 & 1);
}

static enum answer end(enum answer answer)
{
    state = FETCH_0;
    return answer;
}

static enum answer go(enum state next)
{
    state = next;
    return ON;
}

/* a poll whose word goes where it says, and then the next state, or done */
static enum answer polled(uint32_t *word, enum state next)
{
    enum answer answer = poll(word);
    if (answer == WAITING) return WAITING;
    if (answer == HALTED) { halted = true; pc = start; return end(HALTED); }
    return next == FETCH_0 ? end(DONE) : go(next);
}

static enum answer decode(void)
{
    displacement = (uint32_t)(int8_t)instruction;
    switch (instruction >> 24) {
    case 0x00: case 0x01: case 0x02: case 0x03: case 0x04: case 0x05: case 0x06: case 0x07:
    case 0x10: case 0x11: case 0x12: case 0x13: case 0x30: case 0x31:
        return go(EXECUTE_0);
    case 0x20: case 0x21: return go(DISP_FETCH_0);
    case 0x40: case 0x41: return go(taken() ? DISP_FETCH_0 : EXECUTE_0);
    case 0x50: case 0x51: return taken() ? go(EXECUTE_0) : end(DONE);
    default: return end(IGNORED);
    }
}

static enum answer execute(void)
{
    uint8_t op = instruction >> 24, r3 = instruction >> 16, r1 = instruction >> 8, r2 = instruction;
    switch (op) {
    case 0x00: case 0x01: case 0x02: case 0x03:
        arithmetic(op, r3, (int32_t)registers[r1], (int32_t)registers[r2]);
        return end(DONE);
    case 0x10: case 0x11: case 0x12: case 0x13:
        arithmetic(op - 0x10, r3, (int32_t)registers[r1], (int32_t)displacement);
        return end(DONE);
    case 0x04: logical(r3, registers[r1] & registers[r2]); return end(DONE);
    case 0x05: logical(r3, registers[r1] | registers[r2]); return end(DONE);
    case 0x06: logical(r3, registers[r1] ^ registers[r2]); return end(DONE);
    case 0x07: logical(r3, registers[r1] & ~registers[r2]); return end(DONE);
    case 0x20: case 0x21: case 0x30: case 0x31:
        address = registers[r1] + displacement;
        return go(EXECUTE_1);
    default:
        if (!taken()) pc += 1;
        else pc = (op & 1 ? registers[r1] : pc) + displacement;
        return end(DONE);
    }
}

static enum answer clock_once(void)
{
    switch (state) {
    case FETCH_0:
        if (pending) { registers[pending_register] = pending_word; pending = false; }
        start = pc;
        return go(FETCH_1);
    case FETCH_1: begin(false, pc, 0); pc += 1; return go(FETCH_2);
    case FETCH_2: return polled(&instruction, DECODE);
    case DECODE: return decode();
    case DISP_FETCH_0: return go(DISP_FETCH_1);
    case DISP_FETCH_1: begin(false, pc, 0); pc += 1; return go(DISP_FETCH_2);
    case DISP_FETCH_2: return polled(&displacement, EXECUTE_0);
    case EXECUTE_0: return execute();
    case EXECUTE_1:
        begin(instruction >> 24 & 1, address, registers[instruction >> 16 & 255]);
        return go(EXECUTE_2);
    default: {
        uint32_t word = 0;
        bool load = !transfer.write;
        enum answer answer = polled(&word, FETCH_0);
        if (load && answer == DONE) latch(instruction >> 16, word);
        return answer;
    }
    }
}

int main(int argc, char **argv)
{
    if (argc < 2) return 2;
    uint64_t count = strtoull(argv[1], NULL, 0), done = 0;
    for (int i = 2; i < argc; i++) memory[i - 2] = (uint32_t)strtoul(argv[i], NULL, 0);
    enum state was = FETCH_0;
    enum answer answer = ON;
    while (done < count && !halted) { was = state; answer = clock_once(); done++; }
    printf("clock %llu %s %s\n", (unsigned long long)done, state_names[was], answer_names[answer]);
    if (pending) registers[pending_register] = pending_word;
    uint32_t live = 0;
    for (int r = 0; r < 256; r++) live += registers[r] != 0;
    printf("registers %u\n", live);
    for (int r = 0; r < 256; r++) if (registers[r]) printf("r%d %08x\n", r, registers[r]);
    printf("flags V%d N%d Z%d\npc %08x\n", v, n, z, pc);
    return 0;
}
