/* The proved Z280 machine for C: link libz280.a (tools/make.sh library). What each call promises stands in crates/z280/specs/Calls.antt
   and crates/lent/specs/Lent.antt.

   A machine is its stored form, Z280_FORM bytes in the host's own buffer; its memory is lent, exactly the frames of
   Z280_FRAME bytes that the form names, physical address 0 first. Nothing is kept between calls.

   Each call answers the number of its refusal, 0 for none; the first number in its order that has cause. A refused call
   leaves form, memory and answer as they were. The buffers of a call do not overlap, and each has the length that comes
   with it; a null pointer may come with length 0. */
#ifndef Z280_H
#define Z280_H

#include <stddef.h>
#include <stdint.h>

enum { Z280_FORM = 101, Z280_FRAME = 4096, Z280_MOST_FRAMES = 16, Z280_ANSWER = 12 };

/* An answer, and an event handed to delivery, is Z280_ANSWER bytes, numbers low byte first:
     0, 1    event, 0 to 9
     2, 3    completed steps; of a step 1 where the event is 0, else 0; not looked at in an event handed to delivery
     4 to 7  first value: of event 1 the descriptor; 2 physical address; 3, 5, 7, 9 its address; 4 operand; 8 port
     8 to 11 second value: of event 1 its address; 4 next address; 8 direction, input 0 and output 1
   A value that the event doesn't carry is 0. */

/* Refusal numbers: 1 memory, or frame count, isn't 1 to 16 whole frames, or not those that the form names; 2 a bit that may
   not be set is set; 3 form, answer or event of another length; 4 version isn't 1; 5 a padding bit is set; 6 descriptor
   number above 31; 7 descriptor already valid; 8 event can't be delivered; 9 fatal: a push or vector read violates or lacks
   memory; 10 stored frame count isn't 1 to 16. */

#ifdef __cplusplus
extern "C" {
#endif

/* Writes the form of the reset record, zero throughout, with so many frames. Looks at no old byte. Refusals 3, 1. */
uint8_t z280_reset(uint8_t *form, size_t form_len, uint8_t frames);

/* One step. Refusals 3, 4, 10, 2, 5 of the form; 1; 3 of the answer. */
uint8_t z280_step(uint8_t *form, size_t form_len, uint8_t *memory, size_t memory_len, uint8_t *answer, size_t answer_len);

/* Up to budget steps, to the first event other than 0; budget 0 completes nothing. Refusals as of a step. */
uint8_t z280_run(uint8_t *form, size_t form_len, uint8_t *memory, size_t memory_len, uint16_t budget, uint8_t *answer,
                 size_t answer_len);

/* Delivers the trap of event 1, 3, 4 or 7. Refusals 3, 4, 10, 2, 5 of the form; 1; 3 of the event; 8, 9. By 8 are refused
   all other events, a descriptor above 31, an address or operand above 65,535, and a second value in event 3 or 7. */
uint8_t z280_deliver(uint8_t *form, size_t form_len, uint8_t *memory, size_t memory_len, const uint8_t *event,
                     size_t event_len);

/* Sets the valid bit of a descriptor, 0 to 31. Refusals 3, 4, 10, 2, 5 of the form; 6, 7. */
uint8_t z280_make_valid(uint8_t *form, size_t form_len, uint8_t descriptor);

#ifdef __cplusplus
}
#endif

#endif
