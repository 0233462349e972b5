/* A plain interpreter of the machine of document 01, record in memory: the baseline of the speed figures and the other
   side of the comparison. Written from the manual's pages; nothing of the proved machine is used. */
#ifndef PLAIN_H
#define PLAIN_H

#include <stddef.h>
#include <stdint.h>

/* A register pair; the halves as a little endian host lays them out. */
union pair {
    uint16_t w;
    struct { uint8_t l, h; } b;
};

enum { BANK_AF, BANK_OTHERS };

struct machine {
    union pair af, bc, de, hl;      /* the bank in use */
    union pair af2, bc2, de2, hl2;  /* the alternates */
    union pair ix, iy;
    uint16_t pc, ssp, usp;
    uint8_t bank[2];                /* 1: the alternate is in use */
    uint8_t tcr, iopage;
    uint16_t msr, limit, vector, mmu;
    uint16_t page[32];              /* 0 to 15 user, 16 to 31 system */
};

/* Events by document 01's numbers, with the values that it names in its order; what is not carried is zero. */
struct event {
    uint16_t number;
    uint32_t first;                 /* 1: descriptor; 2: physical address; 3, 5, 7, 9: its address; 4: operand; 8: port */
    uint32_t second;                /* 1: its address; 4: the next address; 8: direction, 0 in, 1 out */
};

/* 1: memory isn't 1 to 16 whole frames; 2: a bit that may not be set is set; else 0. */
int plain_refusal(const struct machine *m, size_t len);

/* One step; answers the event's number. The memory must be whole frames (plain_refusal). */
int plain_step(struct machine *m, uint8_t *mem, size_t len, struct event *e);

/* Steps until an event other than 0 or the budget; answers the steps that completed. */
unsigned plain_run(struct machine *m, uint8_t *mem, size_t len, unsigned budget, struct event *e);

/* Delivers the trap of an event; answers 0, 8 or 9, and changes nothing but where it answers 0. */
int plain_deliver(struct machine *m, uint8_t *mem, size_t len, const struct event *e);

/* Sets a descriptor's valid bit; answers 0, 6 or 7. */
int plain_make_valid(struct machine *m, unsigned n);

/* The stored form of 101 bytes. */
enum { FORM_BYTES = 101 };
void form_pack(const struct machine *m, unsigned frames, uint8_t *form);
int form_unpack(struct machine *m, unsigned *frames, const uint8_t *form, size_t len);  /* refusal, or 0 */

/* The calls of z280.h over all this. */
uint8_t plain_call_reset(uint8_t *form, size_t form_len, uint8_t frames);
uint8_t plain_call_step(uint8_t *form, size_t form_len, uint8_t *mem, size_t len, uint8_t *answer, size_t answer_len);
uint8_t plain_call_run(uint8_t *form, size_t form_len, uint8_t *mem, size_t len, uint16_t budget, uint8_t *answer,
                       size_t answer_len);
uint8_t plain_call_deliver(uint8_t *form, size_t form_len, uint8_t *mem, size_t len, const uint8_t *event,
                           size_t event_len);
uint8_t plain_call_make_valid(uint8_t *form, size_t form_len, uint8_t descriptor);

#endif
