/* The stored form of document 01, section "Stored form": 808 bits, most significant first. One list of fields in order
   serves both ways. */
#include "plain.h"
#include <string.h>

struct bits {
    uint8_t *form;
    const uint8_t *from;
    unsigned at;
};

static void put_bits(struct bits *s, unsigned width, unsigned v)
{
    for (unsigned i = width; i-- > 0; s->at++)
        if (v >> i & 1)
            s->form[s->at / 8] |= 0x80 >> s->at % 8;
}

static unsigned get_bits(struct bits *s, unsigned width)
{
    unsigned v = 0;
    for (unsigned i = 0; i < width; i++, s->at++)
        v = v << 1 | (s->from[s->at / 8] >> (7 - s->at % 8) & 1);
    return v;
}

/* F(field, width, bits dropped below it) */
#define REGISTERS(F) \
    F(m->af.w, 16, 0) F(m->bc.w, 16, 0) F(m->de.w, 16, 0) F(m->hl.w, 16, 0) \
    F(m->af2.w, 16, 0) F(m->bc2.w, 16, 0) F(m->de2.w, 16, 0) F(m->hl2.w, 16, 0) \
    F(m->ix.w, 16, 0) F(m->iy.w, 16, 0) F(m->pc, 16, 0) F(m->ssp, 16, 0) F(m->usp, 16, 0) \
    F(m->bank[BANK_AF], 1, 0) F(m->bank[BANK_OTHERS], 1, 0) \
    F(m->msr, 16, 0) F(m->tcr, 3, 0) F(m->iopage, 8, 0) F(m->limit, 12, 4) F(m->vector, 12, 4) F(m->mmu, 16, 0)

void form_pack(const struct machine *m, unsigned frames, uint8_t *form)
{
    struct bits s = { .form = form };
    memset(form, 0, FORM_BYTES);
    put_bits(&s, 8, 1);
    put_bits(&s, 4, frames - 1);
#define PUT(field, width, low) put_bits(&s, width, (field) >> low);
    REGISTERS(PUT)
    for (int i = 0; i < 32; i++)
        put_bits(&s, 16, m->page[i]);
}

int form_unpack(struct machine *m, unsigned *frames, const uint8_t *form, size_t len)
{
    struct bits s = { .from = form };
    if (len != FORM_BYTES)
        return 3;
    if (get_bits(&s, 8) != 1)
        return 4;
    *frames = get_bits(&s, 4) + 1;  /* 1 to 16: refusal 10 can't come */
#define GET(field, width, low) field = get_bits(&s, width) << low;
    REGISTERS(GET)
    for (int i = 0; i < 32; i++)
        m->page[i] = get_bits(&s, 16);
    if (plain_refusal(m, 4096))
        return 2;
    return get_bits(&s, 7) ? 5 : 0;
}
