/* Stands in for the library: z280.h over the plain interpreter, to try the harness itself. With -DWRONG each call has an
   error that compare must find: WRONG is 1 to 5, for step, run, delivery, making valid and reset; 6 is a run again, that
   does not see its own stores into code. */
#include "plain.h"
#include "z280.h"
#include <string.h>

#ifndef WRONG
#define WRONG 0
#endif

uint8_t z280_reset(uint8_t *form, size_t form_len, uint8_t frames)
{
    if (WRONG == 5 && frames == 0)
        return 1;                   /* before the length was looked at */
    return plain_call_reset(form, form_len, frames);
}

uint8_t z280_step(uint8_t *form, size_t form_len, uint8_t *memory, size_t memory_len, uint8_t *answer, size_t answer_len)
{
    uint8_t refusal = plain_call_step(form, form_len, memory, memory_len, answer, answer_len);
    if (WRONG == 1 && !refusal)
        answer[2] = 1;              /* counted, completed or not */
    return refusal;
}

/* Where translation is off, the first byte of each instruction is the one of before the call. */
static void stale_run(uint8_t *form, uint8_t *memory, size_t len, uint16_t budget, uint8_t *answer)
{
    static uint8_t before[Z280_MOST_FRAMES * Z280_FRAME];
    struct machine m;
    unsigned frames, done = 0;
    memcpy(before, memory, len);
    for (; done < budget; done++) {
        form_unpack(&m, &frames, form, FORM_BYTES);
        uint8_t *code = m.pc < len && !(m.mmu & 0x8800) ? memory + m.pc : memory, now = *code;
        uint8_t old = *code = before[code - memory];
        plain_call_step(form, FORM_BYTES, memory, len, answer, Z280_ANSWER);
        if (*code == old)
            *code = now;
        if (answer[0])
            break;
    }
    answer[2] = done;
    answer[3] = done >> 8;
}

uint8_t z280_run(uint8_t *form, size_t form_len, uint8_t *memory, size_t memory_len, uint16_t budget, uint8_t *answer,
                 size_t answer_len)
{
    uint8_t refusal = plain_call_run(form, form_len, memory, memory_len, WRONG == 6 ? 0 : budget, answer, answer_len);
    if (WRONG == 2 && !refusal && form[5] == 0xFF)
        form[3] ^= 0x10;            /* a bit of F turned over, now and then */
    if (WRONG == 6 && !refusal)
        stale_run(form, memory, memory_len, budget, answer);
    return refusal;
}

uint8_t z280_deliver(uint8_t *form, size_t form_len, uint8_t *memory, size_t memory_len, const uint8_t *event,
                     size_t event_len)
{
    uint8_t refusal = plain_call_deliver(form, form_len, memory, memory_len, event, event_len);
    return WRONG == 3 && refusal == 9 ? 8 : refusal;
}

uint8_t z280_make_valid(uint8_t *form, size_t form_len, uint8_t descriptor)
{
    uint8_t refusal = plain_call_make_valid(form, form_len, descriptor);
    if (WRONG == 4 && !refusal && descriptor == 31)
        form[100] ^= 0x80;          /* the modified bit too */
    return refusal;
}
