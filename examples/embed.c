/* A host in C: resets a machine, lends it a frame, runs a guest and delivers its traps. The guest makes a system call, and its
   handler halts. */
#include "z280.h"
#include <stdio.h>
#include <string.h>

static uint8_t form[Z280_FORM], memory[Z280_FRAME];

static unsigned word_at(const uint8_t *p) { return p[0] | p[1] << 8; }
static unsigned value_at(const uint8_t *p) { return word_at(p) | word_at(p + 2) << 16; }

/* A refusal is a mistake of this host. */
static int refused(const char *call, uint8_t number)
{
    if (number)
        fprintf(stderr, "%s: refused %u\n", call, number);
    return number;
}

int main(void)
{
    static const uint8_t guest[] = { 0x31, 0x00, 0x08,              /* 0000 LD SP,0800h */
                                     0xED, 0x71, 0x34, 0x12 };      /* 0003 SC 1234h */
    static const uint8_t vector[] = { 0x00, 0x00, 0x00, 0x01 };     /* 0050 MSR 0000h, PC 0100h */
    static const uint8_t handler[] = { 0x00, 0x76 };                /* 0100 NOP; HALT */
    uint8_t answer[Z280_ANSWER];

    memcpy(memory, guest, sizeof guest);
    memcpy(memory + 0x50, vector, sizeof vector);
    memcpy(memory + 0x100, handler, sizeof handler);
    if (refused("reset", z280_reset(form, sizeof form, 1)))
        return 1;
    for (;;) {
        if (refused("run", z280_run(form, sizeof form, memory, sizeof memory, 1000, answer, sizeof answer)))
            return 1;
        unsigned event = word_at(answer);
        printf("event %u steps %u first %04X second %04X\n", event, word_at(answer + 2), value_at(answer + 4),
               value_at(answer + 8));
        if (event != 1 && event != 3 && event != 4 && event != 7)
            return 0;
        if (refused("deliver", z280_deliver(form, sizeof form, memory, sizeof memory, answer, sizeof answer)))
            return 1;
    }
}
