/* Part of plain.c: the operation codes after CB, DD CB d, FD CB d and ED. */
#ifndef PLAIN_ED_H
#define PLAIN_ED_H

#include "plain_sums.h"

/* ── openings CB, DD CB d, FD CB d ── */

static int bits_at(LENT, uint16_t pc, uint8_t op, uint16_t a)
{
    uint32_t p;
    unsigned n;
    uint8_t v;
    READ(DATA, a, v);
    if (op >> 6 == 1) {
        test_bit(m, op, v);
    } else {
        TRY(reach(m, len, e, DATA, true, a, &p, &n));
        mem[p] = changed(m, op, v);
        mark(m, n);
    }
    DONE;
}

static int cb_page(LENT, uint16_t pc)
{
    uint8_t op;
    FETCH(op);
    if ((op & 7) == 6)
        return bits_at(LEND, pc, op, HL);
    uint8_t *r = byte_register(m, &m->hl, op & 7);
    if (op >> 6 == 1)
        test_bit(m, op, *r);
    else
        *r = changed(m, op, *r);
    DONE;
}

static int index_cb_page(LENT, uint16_t pc, uint16_t base)
{
    uint8_t d, op;
    FETCH(d);
    FETCH(op);
    if ((op & 7) != 6)
        NONE;
    return bits_at(LEND, pc, op, base + (int8_t)d);
}

/* ── control registers ── */

/* LDCTL between XX and the register that C names (4345); one that is not listed in document 01 is left out. */
static int load_control(LENT, uint16_t pc, uint16_t *xx, bool from)
{
    (void)mem, (void)len;
    if (C != 0x00 && C != 0x04 && C != 0x06 && C != 0x08 && C != 0x10)
        NONE;
    PRIVILEGED;
    uint16_t v = *xx;
    switch (C) {
    case 0x00: if (from) *xx = m->msr; else m->msr = v & MSR_BITS; break;
    case 0x04: if (from) *xx = m->limit; else m->limit = v & LIMIT_BITS; break;
    case 0x06: if (from) *xx = m->vector; else m->vector = v & VECTOR_BITS; break;
    case 0x08: if (from) *xx = m->iopage; else m->iopage = v; break;
    default: if (from) *xx = m->tcr; else m->tcr = v & TCR_BITS; break;
    }
    DONE;
}

/* Pops MSR, then PC, from the system stack (5990, box). */
static int return_long(LENT)
{
    uint16_t msr, pc;
    PRIVILEGED;
    READ16(DATA, m->ssp, msr);
    READ16(DATA, m->ssp + 2, pc);
    m->ssp += 4;
    m->msr = msr & MSR_BITS;
    DONE;
}

/* ── block instructions: one repetition is one step ── */

static int block_move(LENT, uint16_t pc, uint8_t op)
{
    uint8_t v;
    uint16_t way = op & 8 ? -1 : 1;
    READ(DATA, HL, v);
    WRITE(DATA, DE, v);
    HL += way;
    DE += way;
    BC--;
    F = (F & ~(FH | FP | FN)) | (BC ? FP : 0);
    if (op & 0x10 && BC)
        return 0;
    DONE;
}

static int block_compare(LENT, uint16_t pc, uint8_t op)
{
    uint8_t v;
    READ(DATA, HL, v);
    uint8_t r = A - v;
    HL += op & 8 ? -1 : 1;
    BC--;
    F = (F & (KEPT | FC)) | sz(r) | ((A ^ v ^ r) & FH) | (BC ? FP : 0) | FN;
    if (op & 0x10 && BC && r)
        return 0;
    DONE;
}

/* ── opening ED ── */

static int ed_page(LENT, uint16_t pc)
{
    uint8_t op, v, *r;
    uint16_t nn, *rr;
    struct place at;
    FETCH(op);
    switch (op) {
    /* LDA HL,src 4289 */
    case 0x02: case 0x0A: case 0x12: case 0x1A: case 0x22: case 0x2A: case 0x32: case 0x3A:
        TRY(wide_place(LEND, &pc, op >> 3 & 7, &at));
        HL = at.a;
        DONE;
    /* LD dst,A 4054 */
    case 0x03: case 0x0B: case 0x13: case 0x1B: case 0x23: case 0x2B: case 0x33: case 0x3B:
        TRY(wide_place(LEND, &pc, op >> 3 & 7, &at));
        WRITE(at.space, at.a, A);
        DONE;
    /* LD HL,src 4840 */
    case 0x04: case 0x0C: case 0x14: case 0x1C: case 0x24: case 0x2C: case 0x34: case 0x3C:
        TRY(wide_place(LEND, &pc, op >> 3 & 7, &at));
        READ16(at.space, at.a, nn);
        HL = nn;
        DONE;
    case 0x05: case 0x0D: case 0x15: case 0x1D: case 0x25: case 0x2D: case 0x35: case 0x3D:
        TRY(wide_place(LEND, &pc, op >> 3 & 7, &at));
        WRITE16(at.space, at.a, HL);
        DONE;
    /* LD RR,(HL) and back 4928 */
    case 0x06: case 0x16: case 0x26: case 0x36:
        READ16(DATA, HL, nn);
        *word_register(m, &m->hl, op >> 4 & 3) = nn;
        DONE;
    case 0x0E: case 0x1E: case 0x2E: case 0x3E:
        WRITE16(DATA, HL, *word_register(m, &m->hl, op >> 4 & 3));
        DONE;
    /* EX A,src 3220 */
    case 0x07: case 0x0F: case 0x17: case 0x1F: case 0x27: case 0x2F: case 0x3F:
        r = byte_register(m, &m->hl, op >> 3 & 7);
        v = *r;
        *r = A;
        A = v;
        DONE;
    case 0x37:
        READ(DATA, HL, v);
        WRITE(DATA, HL, A);
        A = v;
        DONE;

    /* IN, TSTI, OUT by (C) */
    case 0x40: case 0x48: case 0x50: case 0x58: case 0x60: case 0x68: case 0x70: case 0x78:
        return port(m, e, BC, 0);
    case 0x41: case 0x49: case 0x51: case 0x59: case 0x61: case 0x69: case 0x79:
        return port(m, e, BC, 1);
    case 0x42: case 0x52: case 0x62: case 0x72:
        HL = sub16(m, HL, *word_register(m, &m->hl, op >> 4 & 3), F & FC);
        DONE;
    case 0x4A: case 0x5A: case 0x6A: case 0x7A:
        HL = add16(m, HL, *word_register(m, &m->hl, op >> 4 & 3), F & FC);
        DONE;
    /* LD (addr),RR and back, except HL 4957 */
    case 0x43: case 0x53: case 0x73:
        FETCH16(nn);
        WRITE16(DATA, nn, *word_register(m, &m->hl, op >> 4 & 3));
        DONE;
    case 0x4B: case 0x5B: case 0x7B:
        FETCH16(nn);
        READ16(DATA, nn, nn);
        *word_register(m, &m->hl, op >> 4 & 3) = nn;
        DONE;
    case 0x44: negate_a(m); DONE;
    case 0x4C: negate_hl(m); DONE;
    case 0x55: return return_long(LEND);
    case 0x64: HL = (int8_t)A; DONE;                    /* EXTS A 3275 */
    case 0x6C: DE = H & 0x80 ? 0xFFFF : 0; DONE;        /* EXTS HL 3316 */
    case 0x6D: HL = add16(m, HL, (int8_t)A, 0); DONE;   /* ADD HL,A 1830 */
    case 0x66: return load_control(LEND, pc, &HL, true);
    case 0x6E: return load_control(LEND, pc, &HL, false);
    case 0x71:                                          /* SC 6782 */
        FETCH16(nn);
        e->second = pc;
        return ends(e, 4, nn);
    case 0x77: FETCH(v); PRIVILEGED; m->msr &= ~(v & MSR_ENABLES); DONE;    /* DI 2766 */
    case 0x7F: FETCH(v); PRIVILEGED; m->msr |= v & MSR_ENABLES; DONE;       /* EI 3091 */

    case 0x87: PRIVILEGED; HL = m->usp; DONE;
    case 0x8F: PRIVILEGED; m->usp = HL; DONE;
    case 0x84: case 0x8C: case 0x94: case 0x9C: case 0xA4: case 0xAC: case 0xB4: case 0xBC:
    case 0x85: case 0x8D: case 0x95: case 0x9D: case 0xA5: case 0xAD: case 0xB5: case 0xBD:
    case 0x97: case 0x9F: case 0xA6: case 0xA7: case 0xAE: case 0xAF:
        return ends(e, m->tcr & TCR_EXTENDED ? 9 : 5, m->pc);
    case 0x82: case 0x8A: case 0x92: case 0x9A: case 0xA2: case 0xAA: case 0xB2: case 0xBA: case 0xB7:
        return port(m, e, BC, 0);
    case 0x83: case 0x8B: case 0x93: case 0x9B: case 0xA3: case 0xAB: case 0xB3: case 0xBB: case 0xBF:
        return port(m, e, BC, 1);
    case 0xA0: case 0xA8: case 0xB0: case 0xB8:
        return block_move(LEND, pc, op);
    case 0xA1: case 0xA9: case 0xB1: case 0xB9:
        return block_compare(LEND, pc, op);

    case 0xC0: case 0xC8: case 0xD0: case 0xD8: case 0xE0: case 0xE8: case 0xF8:
    case 0xC1: case 0xC9: case 0xD1: case 0xD9: case 0xE1: case 0xE9: case 0xF9:
        multiply(m, op, *byte_register(m, &m->hl, op >> 3 & 7));
        DONE;
    case 0xF0: case 0xF1:
        READ(DATA, HL, v);
        multiply(m, op, v);
        DONE;
    case 0xC2: case 0xD2: case 0xE2: case 0xF2: case 0xC3: case 0xD3: case 0xE3: case 0xF3:
        multiply_word(m, op, *word_register(m, &m->hl, op >> 4 & 3));
        DONE;
    case 0xC6: case 0xD6: case 0xE6: case 0xF6:         /* ADDW */
    case 0xCE: case 0xDE: case 0xEE: case 0xFE:         /* SUBW */
    case 0xC7: case 0xD7: case 0xE7: case 0xF7:         /* CPW */
        rr = word_register(m, &m->hl, op >> 4 & 3);
        word_sum(m, op, *rr);
        DONE;
    case 0xEF: v = H; H = L; L = v; DONE;               /* EX H,L 3170 */
    default:
        NONE;
    }
}

#endif
