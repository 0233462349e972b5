/* Part of plain.c: delivering a trap and making a page valid, by document 01's section of that name. */
#ifndef PLAIN_HOST_H
#define PLAIN_HOST_H

#include "plain_access.h"

struct trap {
    unsigned offset, count;
    uint16_t words[3];              /* in the order in which they are pushed */
};

/* False where the event can't be delivered. */
static bool trap_of(const struct machine *m, const struct event *e, struct trap *t)
{
    bool alone = e->first <= 0xFFFF && e->second == 0;
    bool both = e->first <= 0xFFFF && e->second <= 0xFFFF;
    switch (e->number) {
    case 1: *t = (struct trap){ 0x4C, 2, { e->second, m->msr } }; return both && e->first < 32;
    case 3: *t = (struct trap){ 0x54, 2, { e->first, m->msr } }; return alone;
    case 4: *t = (struct trap){ 0x50, 3, { e->second, m->msr, e->first } }; return both;
    case 7: *t = (struct trap){ 0x40, 2, { e->first, m->msr } }; return alone;
    default: return false;
    }
}

int plain_deliver(struct machine *m, uint8_t *mem, size_t len, const struct event *e)
{
    struct machine s = *m;
    struct trap t;
    struct event fault;
    uint32_t p[6];
    unsigned n[6];
    if (!trap_of(m, e, &t))
        return 8;
    s.msr &= ~MSR_USER;             /* pushes go by system data translation */
    for (unsigned i = 0; i < t.count; i++) {
        s.ssp -= 2;
        for (unsigned k = 0; k < 2; k++)
            if (!reach(&s, len, &fault, DATA, true, s.ssp + k, &p[2 * i + k], &n[2 * i + k]))
                return 9;
    }
    uint32_t vector = (uint32_t)(m->vector >> 4) << 12 | t.offset;
    if (vector + 4 > len)
        return 9;
    for (unsigned i = 0; i < 2 * t.count; i++) {
        mem[p[i]] = t.words[i / 2] >> 8 * (i % 2);
        mark(&s, n[i]);
    }
    s.msr = (mem[vector] | mem[vector + 1] << 8) & MSR_BITS;
    s.pc = mem[vector + 2] | mem[vector + 3] << 8;
    *m = s;
    return 0;
}

int plain_make_valid(struct machine *m, unsigned n)
{
    if (n > 31)
        return 6;
    if (m->page[n] & VALID)
        return 7;
    m->page[n] |= VALID;
    return 0;
}

#endif
