/* Part of plain.c: the operation codes after DD, FD, DD ED and FD ED. */
#ifndef PLAIN_INDEX_H
#define PLAIN_INDEX_H

#include "plain_ed.h"

/* ── openings DD ED and FD ED ── */

static int index_ed_page(LENT, uint16_t pc, bool fd)
{
    union pair *xy = fd ? &m->iy : &m->ix;
    uint8_t op, v, *r;
    uint16_t nn;
    struct place at;
    FETCH(op);
    switch (op) {
    case 0x02: case 0x0A: case 0x12: case 0x1A: case 0x22: case 0x2A: case 0x32: case 0x3A:
        TRY(wide_place(LEND, &pc, op >> 3 & 7, &at));
        xy->w = at.a;
        DONE;
    case 0x04: case 0x0C: case 0x14: case 0x1C: case 0x24: case 0x2C: case 0x34: case 0x3C:
        TRY(wide_place(LEND, &pc, op >> 3 & 7, &at));
        READ16(at.space, at.a, nn);
        xy->w = nn;
        DONE;
    case 0x05: case 0x0D: case 0x15: case 0x1D: case 0x25: case 0x2D: case 0x35: case 0x3D:
        TRY(wide_place(LEND, &pc, op >> 3 & 7, &at));
        WRITE16(at.space, at.a, xy->w);
        DONE;
    /* LD RR,(XY + d) and back: RR is BC, DE, HL, SP (4958) */
    case 0x06: case 0x16: case 0x26: case 0x36:
        TRY(byte_place(LEND, &pc, fd, 6, 0, &at));
        READ16(DATA, at.a, nn);
        *word_register(m, &m->hl, op >> 4 & 3) = nn;
        DONE;
    case 0x0E: case 0x1E: case 0x2E: case 0x3E:
        TRY(byte_place(LEND, &pc, fd, 6, 0, &at));
        WRITE16(DATA, at.a, *word_register(m, &m->hl, op >> 4 & 3));
        DONE;
    /* EX A,src */
    case 0x3F:
        if (fd)
            NONE;
        /* fall through */
    case 0x07: case 0x0F: case 0x17: case 0x1F: case 0x37:
        TRY(byte_place(LEND, &pc, fd, op >> 3 & 7, 0, &at));
        READ(at.space, at.a, v);
        WRITE(at.space, at.a, A);
        A = v;
        DONE;
    case 0x27: case 0x2F:
        r = byte_register(m, xy, op >> 3 & 7);
        v = *r;
        *r = A;
        A = v;
        DONE;

    case 0x78: case 0x79:
        if (fd)
            NONE;
        /* fall through */
    case 0x40: case 0x48: case 0x50: case 0x58: case 0x41: case 0x49: case 0x51: case 0x59:
        TRY(byte_place(LEND, &pc, fd, op >> 3 & 7, 0, &at));
        return port(m, e, BC, op & 1);
    case 0x60: case 0x68: case 0x61: case 0x69:
        return port(m, e, BC, op & 1);
    case 0x42: case 0x52: case 0x62: case 0x72:
        xy->w = sub16(m, xy->w, *word_register(m, xy, op >> 4 & 3), F & FC);
        DONE;
    case 0x4A: case 0x5A: case 0x6A: case 0x7A:
        xy->w = add16(m, xy->w, *word_register(m, xy, op >> 4 & 3), F & FC);
        DONE;
    case 0x6D: xy->w = add16(m, xy->w, (int8_t)A, 0); DONE;
    case 0x66: return load_control(LEND, pc, &xy->w, true);
    case 0x6E: return load_control(LEND, pc, &xy->w, false);
    case 0x87: PRIVILEGED; xy->w = m->usp; DONE;
    case 0x8F: PRIVILEGED; m->usp = xy->w; DONE;

    case 0xF8: case 0xF9:
        if (fd) {
            FETCH(v);
            multiply(m, op, v);
            DONE;
        }
        /* fall through */
    case 0xC0: case 0xC8: case 0xD0: case 0xD8: case 0xF0: case 0xC1: case 0xC9: case 0xD1: case 0xD9: case 0xF1:
        TRY(byte_place(LEND, &pc, fd, op >> 3 & 7, 0, &at));
        READ(at.space, at.a, v);
        multiply(m, op, v);
        DONE;
    case 0xE0: case 0xE8: case 0xE1: case 0xE9:
        multiply(m, op, *byte_register(m, xy, op >> 3 & 7));
        DONE;
    case 0xE2: case 0xE3: multiply_word(m, op, xy->w); DONE;
    case 0xE6: case 0xEE: case 0xE7: word_sum(m, op, xy->w); DONE;
    case 0xF2: case 0xF3: case 0xF6: case 0xFE: case 0xF7:
        if (fd) {
            FETCH16(nn);
            if (op & 4)
                word_sum(m, op, nn);
            else
                multiply_word(m, op, nn);
            DONE;
        }
        /* fall through */
    case 0xC2: case 0xC3: case 0xC6: case 0xCE: case 0xC7:
    case 0xD2: case 0xD3: case 0xD6: case 0xDE: case 0xD7:
        TRY(word_place(LEND, &pc, fd, op >> 4 & 3, 0, &at));
        READ16(at.space, at.a, nn);
        if (op & 4)
            word_sum(m, op, nn);
        else
            multiply_word(m, op, nn);
        DONE;
    default:
        NONE;
    }
}

/* ── openings DD and FD ── */

static int index_page(LENT, uint16_t pc, bool fd)
{
    union pair *xy = fd ? &m->iy : &m->ix;
    uint8_t op, v;
    uint16_t nn;
    uint32_t p;
    unsigned n;
    struct place at;
    FETCH(op);
    switch (op) {
    case 0xCB: return index_cb_page(LEND, pc, xy->w);
    case 0xED: return index_ed_page(LEND, pc, fd);

    /* LDW dst,nn 4775 */
    case 0x01: case 0x11: case 0x31:
        if (fd)
            NONE;
        TRY(word_place(LEND, &pc, fd, op >> 4, 2, &at));
        FETCH16(nn);
        WRITE16(at.space, at.a, nn);
        DONE;
    /* INCW, DECW 3588, 2752 */
    case 0x33: case 0x3B:
        if (fd)
            NONE;
        /* fall through */
    case 0x03: case 0x13: case 0x0B: case 0x1B:
        TRY(word_place(LEND, &pc, fd, op >> 4, 0, &at));
        READ16(at.space, at.a, nn);
        WRITE16(at.space, at.a, op & 8 ? nn - 1 : nn + 1);
        DONE;
    case 0x23: xy->w++; DONE;
    case 0x2B: xy->w--; DONE;
    /* INC, DEC 3521, 2729 */
    case 0x3C: case 0x3D:
        if (fd)
            NONE;
        /* fall through */
    case 0x04: case 0x0C: case 0x14: case 0x1C: case 0x34: case 0x05: case 0x0D: case 0x15: case 0x1D: case 0x35:
        TRY(byte_place(LEND, &pc, fd, op >> 3, 0, &at));
        READ(at.space, at.a, v);
        TRY(reach(m, len, e, at.space, true, at.a, &p, &n));
        mem[p] = op & 1 ? dec8(m, v) : inc8(m, v);
        mark(m, n);
        DONE;
    case 0x24: xy->b.h = inc8(m, xy->b.h); DONE;
    case 0x2C: xy->b.l = inc8(m, xy->b.l); DONE;
    case 0x25: xy->b.h = dec8(m, xy->b.h); DONE;
    case 0x2D: xy->b.l = dec8(m, xy->b.l); DONE;
    /* LD dst,n 4191 */
    case 0x3E:
        if (fd)
            NONE;
        /* fall through */
    case 0x06: case 0x0E: case 0x16: case 0x1E: case 0x36:
        TRY(byte_place(LEND, &pc, fd, op >> 3, 1, &at));
        FETCH(v);
        WRITE(at.space, at.a, v);
        DONE;
    case 0x26: FETCH(v); xy->b.h = v; DONE;
    case 0x2E: FETCH(v); xy->b.l = v; DONE;
    case 0x09: case 0x19: case 0x29: case 0x39:
        xy->w = add_pair(m, xy->w, *word_register(m, xy, op >> 4));
        DONE;
    /* JAR, JAF 3940, 3934 */
    case 0x20: case 0x28:
        if (fd)
            NONE;
        FETCH(v);
        if (m->bank[op == 0x28 ? BANK_AF : BANK_OTHERS])
            pc += (int8_t)v;
        DONE;
    case 0x21: FETCH16(nn); xy->w = nn; DONE;
    case 0x22: FETCH16(nn); WRITE16(DATA, nn, xy->w); DONE;
    case 0x2A: FETCH16(nn); READ16(DATA, nn, nn); xy->w = nn; DONE;

    /* LD with the halves of XY 4227 to 4229 */
    case 0x44: case 0x45: case 0x4C: case 0x4D: case 0x54: case 0x55: case 0x5C: case 0x5D: case 0x7C: case 0x7D:
    case 0x60: case 0x61: case 0x62: case 0x63: case 0x64: case 0x65: case 0x67:
    case 0x68: case 0x69: case 0x6A: case 0x6B: case 0x6C: case 0x6D: case 0x6F:
        *byte_register(m, xy, op >> 3 & 7) = *byte_register(m, xy, op & 7);
        DONE;
    /* LD R,(XY + d) and back: H and L themselves (4233, 4247) */
    case 0x46: case 0x4E: case 0x56: case 0x5E: case 0x66: case 0x6E: case 0x7E:
        TRY(byte_place(LEND, &pc, fd, 6, 0, &at));
        READ(DATA, at.a, v);
        *byte_register(m, &m->hl, op >> 3 & 7) = v;
        DONE;
    case 0x70: case 0x71: case 0x72: case 0x73: case 0x74: case 0x75: case 0x77:
        TRY(byte_place(LEND, &pc, fd, 6, 0, &at));
        WRITE(DATA, at.a, *byte_register(m, &m->hl, op & 7));
        DONE;
    case 0x78: case 0x79: case 0x7A: case 0x7B:
        TRY(byte_place(LEND, &pc, fd, op & 7, 0, &at));
        READ(at.space, at.a, v);
        A = v;
        DONE;

    /* POP dst, PUSH src 5762, 5809 */
    case 0xC1: case 0xD1: case 0xF1:
        if (fd)
            NONE;
        TRY(word_place(LEND, &pc, fd, op >> 4 & 3, 0, &at));
        READ16(DATA, SP, nn);
        WRITE16(at.space, at.a, nn);
        SP += 2;
        DONE;
    case 0xF5:
        if (fd) {
            FETCH16(nn);
            PUSH(nn);
            DONE;
        }
        /* fall through */
    case 0xC5: case 0xD5:
        if (fd)
            NONE;
        TRY(word_place(LEND, &pc, fd, op >> 4 & 3, 0, &at));
        READ16(at.space, at.a, nn);
        PUSH(nn);
        DONE;
    case 0xE1: POP(xy->w); DONE;
    case 0xE5: PUSH(xy->w); DONE;
    case 0xE3:
        READ16(DATA, SP, nn);
        WRITE16(DATA, SP, xy->w);
        xy->w = nn;
        DONE;
    case 0xEB: nn = xy->w; xy->w = HL; HL = nn; DONE;
    case 0xF9: SP = xy->w; DONE;
    case 0xE9: pc = xy->w; DONE;

    /* JP, CALL: (HL) after DD, <addr> after FD 3944, 2212 */
    case 0xC3:
        if (!fd)
            NONE;
        /* fall through */
    case 0xC2: case 0xCA: case 0xD2: case 0xDA: case 0xE2: case 0xEA: case 0xF2: case 0xFA:
        TRY(word_place(LEND, &pc, false, fd ? 3 : 0, 0, &at));
        if (op == 0xC3 || holds(m, op >> 3 & 7))
            pc = at.a;
        DONE;
    case 0xCD: case 0xC4: case 0xCC: case 0xD4: case 0xDC: case 0xE4: case 0xEC: case 0xF4: case 0xFC:
        TRY(word_place(LEND, &pc, false, fd ? 3 : 0, 0, &at));
        if (op == 0xCD || holds(m, op >> 3 & 7)) {
            PUSH(pc);
            pc = at.a;
        }
        DONE;

    default:                        /* 80 to BF: the eight on A */
        if (op >> 6 != 2 || (fd && (op & 7) == 7))
            NONE;
        if ((op & 7) == 4) {
            v = xy->b.h;
        } else if ((op & 7) == 5) {
            v = xy->b.l;
        } else {
            TRY(byte_place(LEND, &pc, fd, op & 7, 0, &at));
            READ(at.space, at.a, v);
        }
        alu(m, op >> 3 & 7, v);
        DONE;
    }
}

#endif
