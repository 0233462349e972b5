/* Part of plain.c: registers by their codes, and the arithmetic with its flags. */
#ifndef PLAIN_SUMS_H
#define PLAIN_SUMS_H

#include "plain_access.h"

/* ── registers ── */

static uint8_t *byte_register(struct machine *m, union pair *xx, unsigned code)
{
    switch (code) {
    case 0: return &B;
    case 1: return &C;
    case 2: return &D;
    case 3: return &E;
    case 4: return &xx->b.h;
    case 5: return &xx->b.l;
    default: return &A;
    }
}

static uint16_t *word_register(struct machine *m, union pair *xx, unsigned code)
{
    switch (code) {
    case 0: return &BC;
    case 1: return &DE;
    case 2: return &xx->w;
    default: return &SP;
    }
}

ALWAYS bool holds(const struct machine *m, unsigned cc)
{
    static const uint8_t flag[4] = { FZ, FC, FP, FS };
    return !(F & flag[cc >> 1]) == !(cc & 1);
}

/* ── arithmetic ── */

ALWAYS unsigned sz(uint8_t r) { return (r & FS) | (r ? 0 : FZ); }
ALWAYS unsigned szp(uint8_t r) { return sz(r) | (__builtin_parity(r) ? 0 : FP); }

ALWAYS void add(struct machine *m, uint8_t v, unsigned carry)
{
    unsigned r = A + v + carry;
    F = (F & KEPT) | sz(r) | ((A ^ v ^ r) & FH) | ((A ^ r) & (v ^ r) & 0x80) >> 5 | r >> 8;
    A = r;
}

ALWAYS unsigned subtract(struct machine *m, uint8_t v, unsigned carry)
{
    unsigned r = A - v - carry;
    F = (F & KEPT) | sz(r) | ((A ^ v ^ r) & FH) | ((A ^ v) & (A ^ r) & 0x80) >> 5 | FN | (r >> 8 & FC);
    return r;
}

ALWAYS void add8(struct machine *m, uint8_t v) { add(m, v, 0); }
ALWAYS void adc8(struct machine *m, uint8_t v) { add(m, v, F & FC); }
ALWAYS void sub8(struct machine *m, uint8_t v) { A = subtract(m, v, 0); }
ALWAYS void sbc8(struct machine *m, uint8_t v) { A = subtract(m, v, F & FC); }
ALWAYS void and8(struct machine *m, uint8_t v) { A &= v; F = (F & KEPT) | szp(A) | FH; }
ALWAYS void xor8(struct machine *m, uint8_t v) { A ^= v; F = (F & KEPT) | szp(A); }
ALWAYS void or8(struct machine *m, uint8_t v) { A |= v; F = (F & KEPT) | szp(A); }
ALWAYS void cp8(struct machine *m, uint8_t v) { subtract(m, v, 0); }

static void alu(struct machine *m, unsigned operation, uint8_t v)
{
    switch (operation) {
    case 0: add8(m, v); break;
    case 1: adc8(m, v); break;
    case 2: sub8(m, v); break;
    case 3: sbc8(m, v); break;
    case 4: and8(m, v); break;
    case 5: xor8(m, v); break;
    case 6: or8(m, v); break;
    default: cp8(m, v); break;
    }
}

ALWAYS uint8_t inc8(struct machine *m, uint8_t v)
{
    uint8_t r = v + 1;
    F = (F & (KEPT | FC)) | sz(r) | ((v ^ r) & FH) | (v == 0x7F ? FP : 0);
    return r;
}

ALWAYS uint8_t dec8(struct machine *m, uint8_t v)
{
    uint8_t r = v - 1;
    F = (F & (KEPT | FC)) | sz(r) | ((v ^ r) & FH) | (v == 0x80 ? FP : 0) | FN;
    return r;
}

/* ADD XX,RR (1962): S, Z and V stay. */
ALWAYS uint16_t add_pair(struct machine *m, uint16_t x, uint16_t y)
{
    unsigned r = x + y;
    F = (F & (KEPT | FS | FZ | FP)) | ((x ^ y ^ r) >> 8 & FH) | r >> 16;
    return r;
}

static uint16_t add16(struct machine *m, uint16_t x, uint16_t y, unsigned carry)
{
    unsigned r = x + y + carry;
    F = (F & KEPT) | (r >> 8 & FS) | (r & 0xFFFF ? 0 : FZ) | ((x ^ y ^ r) >> 8 & FH)
        | ((x ^ r) & (y ^ r) & 0x8000) >> 13 | r >> 16;
    return r;
}

static uint16_t sub16(struct machine *m, uint16_t x, uint16_t y, unsigned carry)
{
    unsigned r = x - y - carry;
    F = (F & KEPT) | (r >> 8 & FS) | (r & 0xFFFF ? 0 : FZ) | ((x ^ y ^ r) >> 8 & FH)
        | ((x ^ y) & (x ^ r) & 0x8000) >> 13 | FN | (r >> 16 & FC);
    return r;
}

/* ADDW, SUBW, CPW by bits 3 and 0 of the operation code. */
static void word_sum(struct machine *m, uint8_t op, uint16_t v)
{
    if (op & 1)
        sub16(m, HL, v, 0);
    else if (op & 8)
        HL = sub16(m, HL, v, 0);
    else
        HL = add16(m, HL, v, 0);
}

static void negate_a(struct machine *m)
{
    uint8_t a = A, r = -a;
    F = (F & KEPT) | sz(r) | ((a ^ r) & FH) | (a != 0x80 ? FP : 0) | FN | (a ? FC : 0);
    A = r;
}

static void negate_hl(struct machine *m)
{
    uint16_t x = HL, r = -x;
    F = (F & KEPT) | (r >> 8 & FS) | (r ? 0 : FZ) | ((x ^ r) >> 8 & FH) | (x == 0x8000 ? FP : 0) | FN | (x ? FC : 0);
    HL = r;
}

/* MULT and MULTU (bit 0): H and N stay (5052, 5114). */
static void multiply(struct machine *m, uint8_t op, uint8_t v)
{
    bool carry, negative = false;
    if (op & 1) {
        unsigned r = A * v;
        carry = r > 0xFF;
        HL = r;
    } else {
        int r = (int8_t)A * (int8_t)v;
        carry = r < -0x80 || r >= 0x80;
        negative = r < 0;
        HL = r;
    }
    F = (F & (KEPT | FH | FN)) | (negative ? FS : 0) | (HL ? 0 : FZ) | carry;
}

/* MULTW and MULTUW (bit 0) (5176, 5235). */
static void multiply_word(struct machine *m, uint8_t op, uint16_t v)
{
    uint32_t product;
    bool carry, negative = false;
    if (op & 1) {
        product = (uint32_t)HL * v;
        carry = product > 0xFFFF;
    } else {
        int32_t r = (int32_t)(int16_t)HL * (int16_t)v;
        carry = r < -0x8000 || r >= 0x8000;
        negative = r < 0;
        product = r;
    }
    F = (F & (KEPT | FH | FN)) | (negative ? FS : 0) | (product ? 0 : FZ) | carry;
    DE = product >> 16;
    HL = product;
}

/* RLCA, RRCA, RLA, RRA: S, Z and P stay. */
static void rotate_a(struct machine *m, unsigned operation)
{
    uint8_t out = operation & 1 ? A & 1 : A >> 7;
    uint8_t in = operation & 2 ? F & FC : out;
    A = operation & 1 ? A >> 1 | in << 7 : A << 1 | in;
    F = (F & (KEPT | FS | FZ | FP)) | out;
}

/* The rows 0 to 7 after CB: RLC, RRC, RL, RR, SLA, SRA, TSET, SRL. */
static uint8_t rotate(struct machine *m, unsigned operation, uint8_t v)
{
    uint8_t r, out = operation & 1 ? v & 1 : v >> 7;
    switch (operation) {
    case 0: r = v << 1 | out; break;
    case 1: r = v >> 1 | out << 7; break;
    case 2: r = v << 1 | (F & FC); break;
    case 3: r = v >> 1 | (F & FC) << 7; break;
    case 4: r = v << 1; break;
    case 5: r = v >> 1 | (v & 0x80); break;
    case 6: F = (F & ~FS) | (v & FS); return 0xFF;  /* 7159: the other flags stay */
    default: r = v >> 1; break;
    }
    F = (F & KEPT) | szp(r) | out;
    return r;
}

/* An operation code after CB on the value v, BIT apart. */
static uint8_t changed(struct machine *m, uint8_t op, uint8_t v)
{
    unsigned bit = 1 << (op >> 3 & 7);
    switch (op >> 6) {
    case 0: return rotate(m, op >> 3 & 7, v);
    case 2: return v & ~bit;
    default: return v | bit;
    }
}

static void test_bit(struct machine *m, uint8_t op, uint8_t v)  /* 2165: S, P and C stay */
{
    F = (F & ~(FZ | FH | FN)) | FH | (v >> (op >> 3 & 7) & 1 ? 0 : FZ);
}

#endif
