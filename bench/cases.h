/* Part of compare.c: random records, memories and events, with more of the values at which something turns than chance
   would give. */
#ifndef CASES_H
#define CASES_H

#include "plain.h"
#include "z280.h"
#include <stdbool.h>
#include <string.h>

enum { MOST = Z280_MOST_FRAMES * Z280_FRAME, GUARD = Z280_FRAME };

static uint64_t state;

static uint64_t next(void)          /* splitmix64 */
{
    uint64_t z = state += 0x9E3779B97F4A7C15u;
    z = (z ^ z >> 30) * 0xBF58476D1CE4E5B9u;
    z = (z ^ z >> 27) * 0x94D049BB133111EBu;
    return z ^ z >> 31;
}

static unsigned below(unsigned n) { return (next() >> 32) * n >> 32; }
static bool one_in(unsigned n) { return below(n) == 0; }

#define ONE_OF(type, ...) ((const type[]){ __VA_ARGS__ }[below(sizeof (const type[]){ __VA_ARGS__ } / sizeof (type))])

/* Values at which sums and products turn. */
static uint8_t odd_byte(void) { return ONE_OF(uint8_t, 0, 1, 2, 0x40, 0x7F, 0x80, 0xFE, 0xFF); }
static uint16_t odd_word(void) { return ONE_OF(uint16_t, 0, 1, 2, 0x7FFF, 0x8000, 0xFFFF); }

/* A word: any, or one at a page's border, or where sums turn; odd: the last only. */
static uint16_t word(bool odd)
{
    switch (odd ? below(2) : below(6)) {
    case 0: return odd_word();
    case 1: return odd_byte() << 8 | odd_byte();
    case 2: return (below(16) << 12) + below(7) - 4;
    default: return next();
    }
}

/* The mode's two bits of MMU control: 2 translate, 1 separate. */
static unsigned control_of(const struct machine *m) { return m->msr & 0x4000 ? m->mmu >> 14 : m->mmu >> 10 & 3; }

/* Where a byte is put that the machine is to find at the address a; -1 where it can't reach it anyway. */
static long place_of(const struct machine *m, size_t len, bool program, uint16_t a)
{
    unsigned control = control_of(m), first = m->msr & 0x4000 ? 0 : 16, d;
    unsigned long p = a;
    if (control == 3) {
        d = m->page[first + (program ? 8 : 0) + a / 8192];
        p = d / 32 * 8192ul + a % 8192;
    } else if (control == 2) {
        d = m->page[first + a / 4096];
        p = d / 16 * 4096ul + a % 4096;
    }
    return p < len ? (long)p : -1;
}

static void any_machine(struct machine *m, unsigned frames)
{
    uint16_t *pairs[] = { &m->af.w, &m->bc.w, &m->de.w, &m->hl.w, &m->af2.w, &m->bc2.w, &m->de2.w, &m->hl2.w, &m->ix.w,
                          &m->iy.w, &m->pc, &m->ssp, &m->usp };
    bool clean = below(2);          /* every page there and open */
    bool odd = one_in(4);
    for (unsigned i = 0; i < sizeof pairs / sizeof *pairs; i++)
        *pairs[i] = word(odd);
    m->pc = one_in(3) ? (below(16) << 12) - 1 - below(6) : word(false);
    m->bank[0] = below(2);
    m->bank[1] = below(2);
    m->msr = next() & 0x537F;
    m->tcr = next() & 7;
    m->iopage = next();
    m->limit = next() & 0xFFF0;
    m->vector = one_in(3) ? next() & 0xFFF0 : below(frames) << 4;
    m->mmu = next() & 0xCC1F;
    unsigned kind = below(3);       /* translation off, on, separated */
    if (m->msr & 0x4000)
        m->mmu = (m->mmu & ~0xC000) | (kind == 0 ? below(2) << 14 : kind == 1 ? 0x8000 : 0xC000);
    else
        m->mmu = (m->mmu & ~0x0C00) | (kind == 0 ? below(2) << 10 : kind == 1 ? 0x0800 : 0x0C00);
    for (int i = 0; i < 32; i++) {
        unsigned frame = below(frames), bits = next() & 3;
        if (!clean && one_in(16))
            frame = one_in(2) ? frames : next() & 0xFFF;
        bits |= clean || !one_in(8) ? 8 : 0;
        bits |= !clean && one_in(6) ? 4 : 0;
        m->page[i] = frame << 4 | bits;
    }
}

/* ── leads ── */

/* What runs before the compared code: its length, then the bytes of one instruction that most machines complete. */
static const uint8_t leads[][5] = {
    { 1, 0x04 }, { 1, 0x1D }, { 1, 0x2F }, { 1, 0x37 }, { 1, 0x3F }, { 1, 0x87 }, { 1, 0xA7 }, { 1, 0x78 }, { 1, 0x23 },
    { 1, 0x09 }, { 1, 0xD9 }, { 1, 0x08 }, { 1, 0xEB }, { 1, 0x7E }, { 1, 0x77 }, { 1, 0x34 }, { 1, 0xC5 }, { 1, 0xF1 },
    { 1, 0xE3 }, { 2, 0x18, 0x00 }, { 2, 0x20, 0x00 }, { 2, 0x10, 0x00 }, { 2, 0xCB, 0x0F }, { 2, 0xCB, 0x5E },
    { 2, 0xCB, 0xC6 }, { 2, 0xDD, 0x23 }, { 2, 0xFD, 0x19 }, { 3, 0xDD, 0x7E, 0x01 }, { 3, 0xFD, 0x77, 0xFF },
    { 3, 0xFD, 0x35, 0x80 }, { 4, 0xDD, 0xCB, 0x7F, 0x46 }, { 4, 0xFD, 0xCB, 0x00, 0xBE }, { 2, 0xED, 0x5A },
    { 2, 0xED, 0x42 }, { 2, 0xED, 0xA0 }, { 2, 0xED, 0xA9 }, { 2, 0xED, 0xEF }, { 2, 0xED, 0xC1 }, { 2, 0xED, 0xC6 },
    { 2, 0xED, 0x16 }, { 3, 0xDD, 0xED, 0xC2 }, { 4, 0xFD, 0xED, 0xF0, 0x00 }, { 2, 0xDD, 0xEB }, { 2, 0xFD, 0xE5 },
};

/* Leads and then the code, as they stand from PC on. */
struct line {
    uint8_t bytes[64];
    unsigned length, steps;         /* of the leads; the code's bytes stand behind them */
};

static void lead(struct line *l, unsigned length, const uint8_t *bytes)
{
    memcpy(l->bytes + l->length, bytes, length);
    l->length += length;
    l->steps++;
}

/* One to six leads; now and then LDCTL to the other mode; now and then a byte of the code comes by a store of its own. */
static void any_line(const struct machine *m, const uint8_t *code, struct line *l)
{
    l->length = l->steps = 0;
    for (int n = 1 + below(6); n > 0; n--) {
        const uint8_t *any = leads[below(sizeof leads / sizeof *leads)];
        lead(l, any[0], any + 1);
    }
    if (!(m->msr & 0x4000) && one_in(4)) {
        lead(l, 2, (uint8_t[]){ 0x0E, 0x00 });                              /* LD C,0 */
        lead(l, 3, (uint8_t[]){ 0x21, m->msr, 0x40 | m->msr >> 8 });        /* LD HL,MSR as a user's */
        lead(l, 2, (uint8_t[]){ 0xED, 0x6E });                              /* LDCTL (C),HL */
    }
    memcpy(l->bytes + l->length, code, 8);
    if (one_in(4)) {
        unsigned i = below(3);
        uint16_t at = m->pc + l->length + 5 + i;
        lead(l, 2, (uint8_t[]){ 0x3E, code[i] });                           /* LD A,code */
        lead(l, 3, (uint8_t[]){ 0x32, at, at >> 8 });                       /* LD (at),A */
        memcpy(l->bytes + l->length, code, 8);
        l->bytes[l->length + i] ^= 1 + below(255);
    }
}

/* An event for delivery: most can be delivered, the others are next to those that can. */
static void any_event(uint8_t *event)
{
    uint16_t number = one_in(6) ? below(12) : ONE_OF(uint16_t, 1, 3, 4, 7);
    uint32_t first = number == 1 ? below(32) : word(false);
    uint32_t second = number == 1 || number == 4 ? word(false) : 0;
    if (one_in(8))
        first = ONE_OF(uint32_t, 31, 32, 33, 255, 256, 0xFFFF, 0x10000, 0xFFFFFFFF);
    if (one_in(8))
        second = ONE_OF(uint32_t, 0, 1, 0xFFFF, 0x10000, 0x1000000, 0xFFFFFFFF);
    if (one_in(16))
        number += ONE_OF(uint16_t, 0x100, 0x8000);
    uint16_t steps = next();        /* not to be looked at */
    const uint32_t values[] = { number | (uint32_t)steps << 16, first, second };
    for (int i = 0; i < Z280_ANSWER; i++)
        event[i] = values[i / 4] >> 8 * (i % 4);
}

#endif
