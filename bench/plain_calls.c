/* The calls of z280.h over the plain interpreter, written from the header's text. */
#include "plain.h"
#include <string.h>

enum { ANSWER_BYTES = 12 };

/* The form's refusals; 1 unless the memory is exactly its frames; 3 unless there are 12 bytes of answer or event. */
static int taken(struct machine *m, unsigned *frames, const uint8_t *form, size_t form_len, size_t len, size_t bytes)
{
    int refusal = form_unpack(m, frames, form, form_len);
    if (refusal)
        return refusal;
    if (len != *frames * 4096ul)
        return 1;
    return bytes == ANSWER_BYTES ? 0 : 3;
}

static void put_number(uint8_t *to, unsigned bytes, uint32_t v)
{
    for (unsigned i = 0; i < bytes; i++)
        to[i] = v >> 8 * i;
}

static uint32_t number_at(const uint8_t *from, unsigned bytes)
{
    uint32_t v = 0;
    for (unsigned i = bytes; i-- > 0;)
        v = v << 8 | from[i];
    return v;
}

static void put_answer(uint8_t *answer, const struct event *e, unsigned steps)
{
    put_number(answer, 2, e->number);
    put_number(answer + 2, 2, steps);
    put_number(answer + 4, 4, e->first);
    put_number(answer + 8, 4, e->second);
}

uint8_t plain_call_reset(uint8_t *form, size_t form_len, uint8_t frames)
{
    struct machine m = { 0 };
    if (form_len != FORM_BYTES)
        return 3;
    if (frames < 1 || frames > 16)
        return 1;
    form_pack(&m, frames, form);
    return 0;
}

/* One step, or a run of up to budget steps; either leaves the machine in its form and the event in the answer. */
static uint8_t worked(uint8_t *form, size_t form_len, uint8_t *mem, size_t len, int single, uint16_t budget,
                      uint8_t *answer, size_t answer_len)
{
    struct machine m;
    struct event e;
    unsigned frames;
    int refusal = taken(&m, &frames, form, form_len, len, answer_len);
    if (refusal)
        return refusal;
    unsigned steps = single ? plain_step(&m, mem, len, &e) == 0 : plain_run(&m, mem, len, budget, &e);
    form_pack(&m, frames, form);
    put_answer(answer, &e, steps);
    return 0;
}

uint8_t plain_call_step(uint8_t *form, size_t form_len, uint8_t *mem, size_t len, uint8_t *answer, size_t answer_len)
{
    return worked(form, form_len, mem, len, 1, 0, answer, answer_len);
}

uint8_t plain_call_run(uint8_t *form, size_t form_len, uint8_t *mem, size_t len, uint16_t budget, uint8_t *answer,
                       size_t answer_len)
{
    return worked(form, form_len, mem, len, 0, budget, answer, answer_len);
}

uint8_t plain_call_deliver(uint8_t *form, size_t form_len, uint8_t *mem, size_t len, const uint8_t *event,
                           size_t event_len)
{
    struct machine m;
    unsigned frames;
    int refusal = taken(&m, &frames, form, form_len, len, event_len);
    if (refusal)
        return refusal;
    struct event e = { number_at(event, 2), number_at(event + 4, 4), number_at(event + 8, 4) };
    refusal = plain_deliver(&m, mem, len, &e);
    if (!refusal)
        form_pack(&m, frames, form);
    return refusal;
}

uint8_t plain_call_make_valid(uint8_t *form, size_t form_len, uint8_t descriptor)
{
    struct machine m;
    unsigned frames;
    int refusal = form_unpack(&m, &frames, form, form_len);
    if (!refusal)
        refusal = plain_make_valid(&m, descriptor);
    if (!refusal)
        form_pack(&m, frames, form);
    return refusal;
}
