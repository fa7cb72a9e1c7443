/*
 * A naive interpreter of the integer instructions of SPARC V8, to compare with: each word is taken apart every time that it
 * is executed. As under `bare`, the image lies in 1 MiB of memory at 0x40000000, and windows are spilled and filled by
 * themselves. Call 2 ends the run; every other call and every trap ends it with status 1.
 *
 * usage: naive IMAGE TICKS
 */
#include <stdint.h>
#include <stdio.h>
#include <stdlib.h>

#define BASE 0x40000000u
#define SIZE 0x100000u
#define WINDOWS 8

enum {
    FETCH = 0x01, ILLEGAL = 0x02, PRIVILEGED = 0x03, FLOAT = 0x04, OVERFLOW = 0x05, UNDERFLOW = 0x06, UNALIGNED = 0x07,
    ACCESS = 0x09, TAGGED = 0x0a, COPROCESSOR = 0x24, DIVISION = 0x2a, HYPERCALL = 0xf0,
};

static uint8_t memory[SIZE];
static uint32_t globals[8], windows[16 * WINDOWS];
static uint32_t pc = BASE, npc = BASE + 4, y;
static unsigned cwp = WINDOWS - 1, invalid;
static int n, z, v, c;
static unsigned long ticks;

static void end(int status)
{
    printf("END exec=%lu pc=%08x\n", ticks, pc);
    exit(status);
}

static void trap(unsigned type)
{
    fprintf(stderr, "naive: trap %02x\n", type);
    end(1);
}

/* Registers. The ins of a window are the outs of the next one. */

static uint32_t *in_window(unsigned window, unsigned r)
{
    return r < 24 ? &windows[16 * window + r - 8] : &windows[16 * ((window + 1) % WINDOWS) + r - 24];
}

static uint32_t get(unsigned r)
{
    return r < 8 ? globals[r] : *in_window(cwp, r);
}

static void put(unsigned r, uint32_t value)
{
    if (r >= 8)
        *in_window(cwp, r) = value;
    else if (r != 0)
        globals[r] = value;
}

static uint32_t second(uint32_t word)
{
    return word >> 13 & 1 ? (uint32_t)((int32_t)(word << 19) >> 19) : get(word & 31);
}

/* Memory. */

static uint8_t *at(uint32_t address, uint32_t size, unsigned fault)
{
    if (address - BASE > SIZE - size)
        trap(fault);
    return &memory[address - BASE];
}

static uint8_t *place(uint32_t address, uint32_t size)
{
    if (address % size != 0)
        trap(UNALIGNED);
    return at(address, size, ACCESS);
}

static uint32_t word_at(const uint8_t *bytes)
{
    return (uint32_t)bytes[0] << 24 | (uint32_t)bytes[1] << 16 | (uint32_t)bytes[2] << 8 | bytes[3];
}

static void put_word(uint8_t *bytes, uint32_t value)
{
    bytes[0] = (uint8_t)(value >> 24);
    bytes[1] = (uint8_t)(value >> 16);
    bytes[2] = (uint8_t)(value >> 8);
    bytes[3] = (uint8_t)value;
}

/* The instruction after this one, and a transfer with a delay slot. */

static void go_on(void)
{
    pc = npc;
    npc += 4;
}

static void go_to(uint32_t target)
{
    pc = npc;
    npc = target;
}

static int holds(unsigned condition)
{
    int told = 0;
    switch (condition & 7) {
    case 1: told = z; break;
    case 2: told = z | (n ^ v); break;
    case 3: told = n ^ v; break;
    case 4: told = c | z; break;
    case 5: told = c; break;
    case 6: told = n; break;
    case 7: told = v; break;
    }
    return told != (int)(condition >> 3);
}

static void branch(uint32_t word)
{
    unsigned condition = word >> 25 & 15, annul = word >> 29 & 1;
    uint32_t target = pc + 4 * (uint32_t)((int32_t)(word << 10) >> 10);
    if (holds(condition)) {
        if (annul && condition == 8) {
            pc = target;
            npc = target + 4;
        } else {
            go_to(target);
        }
    } else {
        if (annul)
            go_on();
        go_on();
    }
}

static void branch_or_sethi(uint32_t word)
{
    switch (word >> 22 & 7) {
    case 2: branch(word); break;
    case 4: put(word >> 25 & 31, word << 10); go_on(); break;
    case 6: trap(FLOAT); break;
    case 7: trap(COPROCESSOR); break;
    default: trap(ILLEGAL);
    }
}

/* Windows. */

static void spill(void)
{
    unsigned window = (invalid + WINDOWS - 1) % WINDOWS;
    uint32_t stack = *in_window(window, 14);
    if (stack % 8 != 0)
        trap(OVERFLOW);
    uint8_t *bytes = at(stack, 64, OVERFLOW);
    for (unsigned k = 0; k < 16; k++)
        put_word(bytes + 4 * k, *in_window(window, 16 + k));
    invalid = window;
}

static void fill(void)
{
    uint32_t frame = get(30);
    if (frame % 8 != 0)
        trap(UNDERFLOW);
    const uint8_t *bytes = at(frame, 64, UNDERFLOW);
    for (unsigned k = 0; k < 16; k++)
        *in_window(invalid, 16 + k) = word_at(bytes + 4 * k);
    invalid = (invalid + 1) % WINDOWS;
}

static void save(unsigned rd, uint32_t value)
{
    unsigned below = (cwp + WINDOWS - 1) % WINDOWS;
    if (below == invalid)
        spill();
    cwp = below;
    put(rd, value);
    go_on();
}

static void restore(unsigned rd, uint32_t value)
{
    unsigned above = (cwp + 1) % WINDOWS;
    if (above == invalid)
        fill();
    cwp = above;
    put(rd, value);
    go_on();
}

/* Arithmetic. */

static void set_codes(uint32_t result, int overflow, int carry)
{
    n = (int)(result >> 31);
    z = result == 0;
    v = overflow;
    c = carry;
}

static int added_over(uint32_t a, uint32_t b, uint32_t sum)
{
    return (int)((~(a ^ b) & (a ^ sum)) >> 31);
}

static int taken_over(uint32_t a, uint32_t b, uint32_t difference)
{
    return (int)(((a ^ b) & (a ^ difference)) >> 31);
}

static uint32_t product(int with_sign, uint32_t a, uint32_t b)
{
    uint64_t whole = with_sign ? (uint64_t)((int64_t)(int32_t)a * (int32_t)b) : (uint64_t)a * b;
    y = (uint32_t)(whole >> 32);
    return (uint32_t)whole;
}

static uint32_t unsigned_quotient(uint32_t a, uint32_t b, int *overflow)
{
    if (b == 0)
        trap(DIVISION);
    uint64_t whole = ((uint64_t)y << 32 | a) / b;
    *overflow = whole > UINT32_MAX;
    return *overflow ? UINT32_MAX : (uint32_t)whole;
}

static uint32_t signed_quotient(uint32_t a, uint32_t b, int *overflow)
{
    if (b == 0)
        trap(DIVISION);
    int64_t dividend = (int64_t)((uint64_t)y << 32 | a), divisor = (int32_t)b;
    /* The one quotient that 64 bits do not hold. */
    int64_t whole = dividend == INT64_MIN && divisor == -1 ? INT64_MAX : dividend / divisor;
    *overflow = whole < INT32_MIN || whole > INT32_MAX;
    return *overflow ? (whole < 0 ? 0x80000000u : 0x7fffffffu) : (uint32_t)whole;
}

/* Selectors 0x00 to 0x1f, of which bit 4 sets the condition codes. */
static void arithmetic(unsigned selector, unsigned rd, uint32_t a, uint32_t b)
{
    uint32_t result = 0, with = selector & 8 ? (uint32_t)c : 0;
    int overflow = 0, carry = 0;
    switch (selector & 15) {
    case 0x0: case 0x8:
        result = a + b + with;
        carry = ((uint64_t)a + b + with) >> 32 != 0;
        overflow = added_over(a, b, result);
        break;
    case 0x4: case 0xc:
        result = a - b - with;
        carry = (uint64_t)b + with > a;
        overflow = taken_over(a, b, result);
        break;
    case 0x1: result = a & b; break;
    case 0x2: result = a | b; break;
    case 0x3: result = a ^ b; break;
    case 0x5: result = a & ~b; break;
    case 0x6: result = a | ~b; break;
    case 0x7: result = a ^ ~b; break;
    case 0xa: case 0xb: result = product(selector & 1, a, b); break;
    case 0xe: result = unsigned_quotient(a, b, &overflow); break;
    case 0xf: result = signed_quotient(a, b, &overflow); break;
    default: trap(ILLEGAL);
    }
    if (selector & 16)
        set_codes(result, overflow, carry);
    put(rd, result);
    go_on();
}

static void tagged(unsigned selector, unsigned rd, uint32_t a, uint32_t b)
{
    uint32_t result = selector & 1 ? a - b : a + b;
    int overflow = (selector & 1 ? taken_over(a, b, result) : added_over(a, b, result)) | (((a | b) & 3) != 0);
    if (overflow && selector >= 0x22)
        trap(TAGGED);
    set_codes(result, overflow, selector & 1 ? b > a : result < a);
    put(rd, result);
    go_on();
}

static void multiply_step(unsigned rd, uint32_t a, uint32_t b)
{
    uint32_t shifted = a >> 1 | (uint32_t)(n ^ v) << 31, addend = y & 1 ? b : 0, result = shifted + addend;
    y = y >> 1 | a << 31;
    set_codes(result, added_over(shifted, addend, result), result < shifted);
    put(rd, result);
    go_on();
}

static void shift(unsigned selector, unsigned rd, uint32_t a, unsigned by)
{
    put(rd, selector == 0x25 ? a << by : selector == 0x26 ? a >> by : (uint32_t)((int32_t)a >> by));
    go_on();
}

static void read_y(unsigned rd, unsigned rs1)
{
    if (rs1 == 0)
        put(rd, y);
    else if (rs1 != 15 || rd != 0)
        trap(ILLEGAL);
    go_on();
}

static void write_y(unsigned rd, uint32_t value)
{
    if (rd != 0)
        trap(ILLEGAL);
    y = value;
    go_on();
}

static void jump(unsigned rd, uint32_t target)
{
    if (target % 4 != 0)
        trap(UNALIGNED);
    put(rd, pc);
    go_to(target);
}

static void write_console(uint32_t address, uint32_t size)
{
    if (size > 1024) {
        put(8, (uint32_t)-3);
        return;
    }
    fwrite(at(address, size, ACCESS), 1, size, stdout);
    put(8, size);
}

static void call(unsigned number)
{
    if (number == 32) {
        write_console(get(9), get(10));
        return;
    }
    ticks++;
    end(number == 2 ? 0 : 1);
}

static void software_trap(unsigned condition, uint32_t number)
{
    int taken = holds(condition);
    if (taken && 0x80 + number % 128 != HYPERCALL)
        trap(0x80 + number % 128);
    go_on();
    if (taken)
        call(get(8));
}

static void calculate(uint32_t word)
{
    unsigned selector = word >> 19 & 63, rd = word >> 25 & 31, rs1 = word >> 14 & 31;
    uint32_t a = get(rs1), b = second(word);
    if (selector < 0x20) {
        arithmetic(selector, rd, a, b);
        return;
    }
    switch (selector) {
    case 0x20: case 0x21: case 0x22: case 0x23: tagged(selector, rd, a, b); break;
    case 0x24: multiply_step(rd, a, b); break;
    case 0x25: case 0x26: case 0x27: shift(selector, rd, a, b & 31); break;
    case 0x28: read_y(rd, rs1); break;
    case 0x29: case 0x2a: case 0x2b: case 0x31: case 0x32: case 0x33: case 0x39: trap(PRIVILEGED); break;
    case 0x30: write_y(rd, a ^ b); break;
    case 0x34: case 0x35: trap(FLOAT); break;
    case 0x36: case 0x37: trap(COPROCESSOR); break;
    case 0x38: jump(rd, a + b); break;
    case 0x3a: software_trap(rd & 15, a + b); break;
    case 0x3b: go_on(); break;
    case 0x3c: save(rd, a + b); break;
    case 0x3d: restore(rd, a + b); break;
    default: trap(ILLEGAL);
    }
}

/* Loads and stores. */

static void load_double(unsigned rd, uint32_t address)
{
    if (rd & 1)
        trap(ILLEGAL);
    const uint8_t *bytes = place(address, 8);
    uint32_t high = word_at(bytes), low = word_at(bytes + 4);
    put(rd, high);
    put(rd + 1, low);
}

static void store_double(unsigned rd, uint32_t address)
{
    if (rd & 1)
        trap(ILLEGAL);
    uint8_t *bytes = place(address, 8);
    put_word(bytes, get(rd));
    put_word(bytes + 4, get(rd + 1));
}

static void store_half(uint8_t *bytes, uint32_t value)
{
    bytes[0] = (uint8_t)(value >> 8);
    bytes[1] = (uint8_t)value;
}

static uint32_t half_at(const uint8_t *bytes)
{
    return (uint32_t)bytes[0] << 8 | bytes[1];
}

static void swap(unsigned rd, uint8_t *bytes)
{
    uint32_t old = word_at(bytes);
    put_word(bytes, get(rd));
    put(rd, old);
}

static void set_byte(unsigned rd, uint8_t *byte)
{
    put(rd, *byte);
    *byte = 0xff;
}

static void access(uint32_t word)
{
    unsigned rd = word >> 25 & 31;
    uint32_t address = get(word >> 14 & 31) + second(word);
    switch (word >> 19 & 63) {
    case 0x00: put(rd, word_at(place(address, 4))); break;
    case 0x01: put(rd, *place(address, 1)); break;
    case 0x02: put(rd, half_at(place(address, 2))); break;
    case 0x03: load_double(rd, address); break;
    case 0x04: put_word(place(address, 4), get(rd)); break;
    case 0x05: *place(address, 1) = (uint8_t)get(rd); break;
    case 0x06: store_half(place(address, 2), get(rd)); break;
    case 0x07: store_double(rd, address); break;
    case 0x09: put(rd, (uint32_t)(int8_t)*place(address, 1)); break;
    case 0x0a: put(rd, (uint32_t)(int16_t)half_at(place(address, 2))); break;
    case 0x0d: set_byte(rd, place(address, 1)); break;
    case 0x0f: swap(rd, place(address, 4)); break;
    case 0x10: case 0x11: case 0x12: case 0x13: case 0x14: case 0x15: case 0x16: case 0x17: case 0x19: case 0x1a:
    case 0x1d: case 0x1f: case 0x26: case 0x36: trap(PRIVILEGED); break;
    case 0x20: case 0x21: case 0x23: case 0x24: case 0x25: case 0x27: trap(FLOAT); break;
    case 0x30: case 0x31: case 0x33: case 0x34: case 0x35: case 0x37: trap(COPROCESSOR); break;
    default: trap(ILLEGAL);
    }
    go_on();
}

static void step(void)
{
    uint32_t word = word_at(at(pc, 4, FETCH));
    switch (word >> 30) {
    case 0: branch_or_sethi(word); break;
    case 1: put(15, pc); go_to(pc + (word << 2)); break;
    case 2: calculate(word); break;
    default: access(word);
    }
}

static int read_image(const char *name)
{
    FILE *file = fopen(name, "rb");
    if (file == NULL)
        return 0;
    size_t size = fread(memory, 1, SIZE, file);
    fclose(file);
    return size != 0;
}

int main(int count, char **words)
{
    if (count != 3 || !read_image(words[1])) {
        fprintf(stderr, "usage: naive IMAGE TICKS\n");
        return 2;
    }
    for (unsigned long most = strtoul(words[2], NULL, 10); ticks < most; ticks++)
        step();
    end(0);
}
