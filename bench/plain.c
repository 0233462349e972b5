/* The plain interpreter: one function for each opening byte sequence, each a switch over the operation code; here those
   without an opening, and the calls. Line numbers in comments are of the manual. PC and registers change only where an
   instruction completes, so that an early return leaves the machine as it was. The parts are headers, so that the
   compiler sees them as one. */
#include "plain_host.h"
#include "plain_index.h"

/* ── no opening ── */

static void swap(union pair *x, union pair *y)
{
    union pair t = *x;
    *x = *y;
    *y = t;
}

#define LD_ROW(code, r) \
    case code + 0: r = B; break; \
    case code + 1: r = C; break; \
    case code + 2: r = D; break; \
    case code + 3: r = E; break; \
    case code + 4: r = H; break; \
    case code + 5: r = L; break; \
    case code + 6: READ(DATA, HL, v); r = v; break; \
    case code + 7: r = A; break;

#define ALU_ROW(k, operation) \
    case 0x80 + 8 * k: operation(m, B); break; \
    case 0x81 + 8 * k: operation(m, C); break; \
    case 0x82 + 8 * k: operation(m, D); break; \
    case 0x83 + 8 * k: operation(m, E); break; \
    case 0x84 + 8 * k: operation(m, H); break; \
    case 0x85 + 8 * k: operation(m, L); break; \
    case 0x86 + 8 * k: READ(DATA, HL, v); operation(m, v); break; \
    case 0x87 + 8 * k: operation(m, A); break; \
    case 0xC6 + 8 * k: FETCH(v); operation(m, v); break;

#define REG_ROW(k, r) \
    case 0x04 + 8 * k: r = inc8(m, r); break; \
    case 0x05 + 8 * k: r = dec8(m, r); break; \
    case 0x06 + 8 * k: FETCH(v); r = v; break;

#define PAIR_ROW(k, rr) \
    case 0x01 + 16 * k: FETCH16(nn); rr = nn; break; \
    case 0x03 + 16 * k: rr++; break; \
    case 0x09 + 16 * k: HL = add_pair(m, HL, rr); break; \
    case 0x0B + 16 * k: rr--; break;

#define CONDITION_ROW(k) \
    case 0xC0 + 8 * k: if (holds(m, k)) POP(pc); break; \
    case 0xC2 + 8 * k: FETCH16(nn); if (holds(m, k)) pc = nn; break; \
    case 0xC4 + 8 * k: FETCH16(nn); if (holds(m, k)) { PUSH(pc); pc = nn; } break; \
    case 0xC7 + 8 * k: PUSH(pc); pc = 8 * k; break;

ALWAYS int step(LENT)
{
    uint16_t pc = m->pc, nn;
    uint8_t op, v;
    uint32_t p;
    unsigned n;
    FETCH(op);
    switch (op) {
    case 0xCB: return cb_page(LEND, pc);
    case 0xDD: return index_page(LEND, pc, false);
    case 0xED: return ed_page(LEND, pc);
    case 0xFD: return index_page(LEND, pc, true);

    case 0x00: break;
    PAIR_ROW(0, BC)
    PAIR_ROW(1, DE)
    PAIR_ROW(2, HL)
    PAIR_ROW(3, SP)
    REG_ROW(0, B)
    REG_ROW(1, C)
    REG_ROW(2, D)
    REG_ROW(3, E)
    REG_ROW(4, H)
    REG_ROW(5, L)
    REG_ROW(7, A)
    case 0x34: case 0x35:
        READ(DATA, HL, v);
        TRY(reach(m, len, e, DATA, true, HL, &p, &n));
        mem[p] = op & 1 ? dec8(m, v) : inc8(m, v);
        mark(m, n);
        break;
    case 0x36: FETCH(v); WRITE(DATA, HL, v); break;
    case 0x02: WRITE(DATA, BC, A); break;
    case 0x12: WRITE(DATA, DE, A); break;
    case 0x0A: READ(DATA, BC, v); A = v; break;
    case 0x1A: READ(DATA, DE, v); A = v; break;
    case 0x22: FETCH16(nn); WRITE16(DATA, nn, HL); break;
    case 0x2A: FETCH16(nn); READ16(DATA, nn, nn); HL = nn; break;
    case 0x32: FETCH16(nn); WRITE(DATA, nn, A); break;
    case 0x3A: FETCH16(nn); READ(DATA, nn, v); A = v; break;
    case 0x07: case 0x0F: case 0x17: case 0x1F: rotate_a(m, op >> 3); break;
    case 0x08: swap(&m->af, &m->af2); m->bank[BANK_AF] ^= 1; break;
    case 0x10: FETCH(v); if (--B) pc += (int8_t)v; break;
    case 0x18: FETCH(v); pc += (int8_t)v; break;
    case 0x20: case 0x28: case 0x30: case 0x38:
        FETCH(v);
        if (holds(m, op >> 3 & 3))
            pc += (int8_t)v;
        break;
    case 0x27: NONE;                                                        /* DAA */
    case 0x2F: A = ~A; F |= FH | FN; break;
    case 0x37: F = (F & ~(FH | FN)) | FC; break;
    case 0x3F: F = ((F & ~(FH | FN)) | (F & FC ? FH : 0)) ^ FC; break;      /* CCF 2278 */

    LD_ROW(0x40, B)
    LD_ROW(0x48, C)
    LD_ROW(0x50, D)
    LD_ROW(0x58, E)
    LD_ROW(0x60, H)
    LD_ROW(0x68, L)
    LD_ROW(0x78, A)
    case 0x70: WRITE(DATA, HL, B); break;
    case 0x71: WRITE(DATA, HL, C); break;
    case 0x72: WRITE(DATA, HL, D); break;
    case 0x73: WRITE(DATA, HL, E); break;
    case 0x74: WRITE(DATA, HL, H); break;
    case 0x75: WRITE(DATA, HL, L); break;
    case 0x77: WRITE(DATA, HL, A); break;
    case 0x76:                                                              /* HALT 3369 */
        PRIVILEGED;
        if (m->msr & MSR_BREAK)
            return ends(e, 7, m->pc);
        m->pc = pc;
        return ends(e, 6, 0);

    ALU_ROW(0, add8)
    ALU_ROW(1, adc8)
    ALU_ROW(2, sub8)
    ALU_ROW(3, sbc8)
    ALU_ROW(4, and8)
    ALU_ROW(5, xor8)
    ALU_ROW(6, or8)
    ALU_ROW(7, cp8)

    CONDITION_ROW(0)
    CONDITION_ROW(1)
    CONDITION_ROW(2)
    CONDITION_ROW(3)
    CONDITION_ROW(4)
    CONDITION_ROW(5)
    CONDITION_ROW(6)
    CONDITION_ROW(7)
    case 0xC1: POP(BC); break;
    case 0xD1: POP(DE); break;
    case 0xE1: POP(HL); break;
    case 0xF1: POP(m->af.w); break;
    case 0xC5: PUSH(BC); break;
    case 0xD5: PUSH(DE); break;
    case 0xE5: PUSH(HL); break;
    case 0xF5: PUSH(m->af.w); break;
    case 0xC3: FETCH16(nn); pc = nn; break;
    case 0xC9: POP(pc); break;
    case 0xCD: FETCH16(nn); PUSH(pc); pc = nn; break;
    case 0xE9: pc = HL; break;
    case 0xD3: FETCH(v); return port(m, e, A << 8 | v, 1);
    case 0xDB: FETCH(v); return port(m, e, A << 8 | v, 0);
    case 0xD9:
        swap(&m->bc, &m->bc2);
        swap(&m->de, &m->de2);
        swap(&m->hl, &m->hl2);
        m->bank[BANK_OTHERS] ^= 1;
        break;
    case 0xE3: READ16(DATA, SP, nn); WRITE16(DATA, SP, HL); HL = nn; break;
    case 0xEB: swap(&m->de, &m->hl); break;
    case 0xF3: PRIVILEGED; m->msr &= ~MSR_ENABLES; break;
    case 0xFB: PRIVILEGED; m->msr |= MSR_ENABLES; break;
    case 0xF9: SP = HL; break;
    }
    m->pc = pc;
    return 0;
}

int plain_refusal(const struct machine *m, size_t len)
{
    if (len == 0 || len % 4096 || len > 16 * 4096)
        return 1;
    bool barred = m->msr & ~MSR_BITS || m->tcr & ~TCR_BITS || m->limit & ~LIMIT_BITS || m->vector & ~VECTOR_BITS
        || m->mmu & ~MMU_BITS;
    return barred ? 2 : 0;
}

int plain_step(struct machine *m, uint8_t *mem, size_t len, struct event *e)
{
    memset(e, 0, sizeof *e);
    return step(m, mem, len, e);
}

unsigned plain_run(struct machine *m, uint8_t *mem, size_t len, unsigned budget, struct event *e)
{
    unsigned done = 0;
    memset(e, 0, sizeof *e);
    while (done < budget && step(m, mem, len, e) == 0)
        done++;
    return done;
}
