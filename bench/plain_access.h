/* Part of plain.c: names, events, memory through translation (chapter 7), and where operands lie (chapter 4). */
#ifndef PLAIN_ACCESS_H
#define PLAIN_ACCESS_H

#include "plain.h"
#include <stdbool.h>
#include <string.h>

#define ALWAYS static inline __attribute__((always_inline))
#define RARELY static __attribute__((noinline, cold))

enum { FS = 0x80, FZ = 0x40, FH = 0x10, FP = 0x04, FN = 0x02, FC = 0x01, KEPT = 0x28 };
enum { MSR_USER = 0x4000, MSR_BREAK = 0x1000, MSR_ENABLES = 0x7F };
enum { TCR_NO_USER_IO = 4, TCR_EXTENDED = 2 };
enum { MSR_BITS = 0x537F, TCR_BITS = 0x07, LIMIT_BITS = 0xFFF0, VECTOR_BITS = 0xFFF0, MMU_BITS = 0xCC1F };
enum { VALID = 8, PROTECTED = 4, MODIFIED = 1 };
enum { DATA = 0, PROGRAM = 8 };     /* what a separated access adds to its descriptor's number */
enum { UNTRANSLATED = 32 };

#define A m->af.b.h
#define F m->af.b.l
#define B m->bc.b.h
#define C m->bc.b.l
#define D m->de.b.h
#define E m->de.b.l
#define H m->hl.b.h
#define L m->hl.b.l
#define BC m->bc.w
#define DE m->de.w
#define HL m->hl.w
#define IX m->ix.w
#define IY m->iy.w
#define SP (*(m->msr & MSR_USER ? &m->usp : &m->ssp))

/* ── events ── */

RARELY int ends(struct event *e, int number, uint32_t first)
{
    e->number = number;
    e->first = first;
    return number;
}

RARELY void violates(struct machine *m, struct event *e, unsigned n)
{
    m->mmu = (m->mmu & ~0x1F) | n;
    e->second = m->pc;
    ends(e, 1, n);
}

RARELY void absent(struct event *e, uint32_t p)
{
    ends(e, 2, p);
}

#define NONE return ends(e, 9, m->pc)
#define PRIVILEGED do { if (m->msr & MSR_USER) return ends(e, 3, m->pc); } while (0)

RARELY int port(struct machine *m, struct event *e, uint16_t low, int out)
{
    if (m->msr & MSR_USER && m->tcr & TCR_NO_USER_IO)
        return ends(e, 3, m->pc);
    e->second = out;
    return ends(e, 8, (uint32_t)m->iopage << 16 | low);
}

/* ── memory ── */

/* The physical address p of a logical one, and its descriptor n; false, with the event, where there is none. */
ALWAYS bool reach(struct machine *m, size_t len, struct event *e, unsigned space, bool write, uint16_t a,
                  uint32_t *p, unsigned *n)
{
    unsigned user = m->msr & MSR_USER;
    unsigned control = user ? m->mmu >> 14 : m->mmu >> 10 & 3;  /* 2 translate, 1 separate */
    if (control & 2) {
        unsigned k = control & 1 ? space | a >> 13 : a >> 12;
        k |= user ? 0 : 16;
        unsigned d = m->page[k];
        if (!(d & VALID) || (write && d & PROTECTED)) {
            violates(m, e, k);
            return false;
        }
        *p = control & 1 ? (d >> 5) << 13 | (a & 0x1FFF) : (d >> 4) << 12 | (a & 0xFFF);
        *n = k;
    } else {
        *p = a;
        *n = UNTRANSLATED;
    }
    if (*p >= len) {
        absent(e, *p);
        return false;
    }
    return true;
}

ALWAYS void mark(struct machine *m, unsigned n)
{
    if (n != UNTRANSLATED)
        m->page[n] |= MODIFIED;
}

ALWAYS bool get(struct machine *m, const uint8_t *mem, size_t len, struct event *e, unsigned space, uint16_t a,
                uint8_t *v)
{
    uint32_t p;
    unsigned n;
    if (!reach(m, len, e, space, false, a, &p, &n))
        return false;
    *v = mem[p];
    return true;
}

ALWAYS bool put(struct machine *m, uint8_t *mem, size_t len, struct event *e, unsigned space, uint16_t a, uint8_t v)
{
    uint32_t p;
    unsigned n;
    if (!reach(m, len, e, space, true, a, &p, &n))
        return false;
    mem[p] = v;
    mark(m, n);
    return true;
}

static inline bool get16(struct machine *restrict m, const uint8_t *restrict mem, size_t len, struct event *e,
                         unsigned space, uint16_t a, uint16_t *v)
{
    uint8_t l, h;
    if (!get(m, mem, len, e, space, a, &l) || !get(m, mem, len, e, space, a + 1, &h))
        return false;
    *v = l | h << 8;
    return true;
}

/* Both bytes are checked before either is stored. */
static inline bool put16(struct machine *restrict m, uint8_t *restrict mem, size_t len, struct event *e,
                         unsigned space, uint16_t a, uint16_t v)
{
    uint32_t p, q;
    unsigned n, k;
    if (!reach(m, len, e, space, true, a, &p, &n) || !reach(m, len, e, space, true, a + 1, &q, &k))
        return false;
    mem[p] = v;
    mem[q] = v >> 8;
    mark(m, n);
    mark(m, k);
    return true;
}

/* An access that can't be made ends the step with its event. */
#define TRY(access) do { if (!(access)) return e->number; } while (0)
#define FETCH(v) do { TRY(get(m, mem, len, e, PROGRAM, pc, &(v))); pc++; } while (0)
#define FETCH16(v) do { TRY(get16(m, mem, len, e, PROGRAM, pc, &(v))); pc += 2; } while (0)
#define READ(space, a, v) TRY(get(m, mem, len, e, space, a, &(v)))
#define READ16(space, a, v) TRY(get16(m, mem, len, e, space, a, &(v)))
#define WRITE(space, a, v) TRY(put(m, mem, len, e, space, a, v))
#define WRITE16(space, a, v) TRY(put16(m, mem, len, e, space, a, v))
#define PUSH(v) do { WRITE16(DATA, SP - 2, v); SP -= 2; } while (0)
#define POP(v) do { uint16_t w_; READ16(DATA, SP, w_); SP += 2; (v) = w_; } while (0)
#define DONE do { m->pc = pc; return 0; } while (0)

/* What every function below is lent. */
#define LENT struct machine *restrict m, uint8_t *restrict mem, size_t len, struct event *e
#define LEND m, mem, len, e

/* ── operands in memory ── */

struct place {
    uint16_t a;
    uint8_t space;
};

static bool relative(LENT, uint16_t *pc, unsigned after, struct place *at)  /* 1028: from the next instruction */
{
    uint16_t dd;
    if (!get16(m, mem, len, e, PROGRAM, *pc, &dd))
        return false;
    *pc += 2;
    *at = (struct place){ *pc + after + dd, PROGRAM };
    return true;
}

static bool based(LENT, uint16_t *pc, uint16_t base, struct place *at)
{
    uint16_t dd;
    if (!get16(m, mem, len, e, PROGRAM, *pc, &dd))
        return false;
    *pc += 2;
    *at = (struct place){ base + dd, DATA };
    return true;
}

/* The field of the ED forms of LDA, LD A and LD XX: SR, BX, RA, X. */
static bool wide_place(LENT, uint16_t *pc, unsigned field, struct place *at)
{
    switch (field) {
    case 0: return based(LEND, pc, SP, at);
    case 1: *at = (struct place){ HL + IX, DATA }; return true;
    case 2: *at = (struct place){ HL + IY, DATA }; return true;
    case 3: *at = (struct place){ IX + IY, DATA }; return true;
    case 4: return relative(LEND, pc, 0, at);
    case 5: return based(LEND, pc, IX, at);
    case 6: return based(LEND, pc, IY, at);
    default: return based(LEND, pc, HL, at);
    }
}

/* The field of byte operands after DD (SR, BX, SX, DA) and FD (RA, X, SX); after counts the bytes behind the place. */
static bool byte_place(LENT, uint16_t *pc, bool fd, unsigned field, unsigned after, struct place *at)
{
    uint8_t d;
    switch (field) {
    case 0:
        return fd ? relative(LEND, pc, after, at) : based(LEND, pc, SP, at);
    case 1:
        if (fd)
            return based(LEND, pc, IX, at);
        *at = (struct place){ HL + IX, DATA };
        return true;
    case 2:
        if (fd)
            return based(LEND, pc, IY, at);
        *at = (struct place){ HL + IY, DATA };
        return true;
    case 3:
        if (fd)
            return based(LEND, pc, HL, at);
        *at = (struct place){ IX + IY, DATA };
        return true;
    case 6:
        if (!get(m, mem, len, e, PROGRAM, *pc, &d))
            return false;
        ++*pc;
        *at = (struct place){ (fd ? IY : IX) + (int8_t)d, DATA };
        return true;
    default:                        /* 7, after DD only */
        return based(LEND, pc, 0, at);
    }
}

/* The field of word operands after DD: (HL), (addr), <addr>; after FD: (IX + dd), (IY + dd). */
static bool word_place(LENT, uint16_t *pc, bool fd, unsigned field, unsigned after, struct place *at)
{
    if (fd)
        return based(LEND, pc, field ? IY : IX, at);
    if (field == 0) {
        *at = (struct place){ HL, DATA };
        return true;
    }
    return field == 1 ? based(LEND, pc, 0, at) : relative(LEND, pc, after, at);
}

#endif
