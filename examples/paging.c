/* Three guests in user mode, each with eight pages that may be kept out until they are first touched. The host brings a
   page in on event 1 and makes it valid; the instruction then comes again. Shown for some choices of pages that wait,
   and tried for all 256: steps, registers and memory of each guest do not depend on the choice. Status 1 where they
   do. */
#include "z280.h"
#include <stdio.h>
#include <string.h>

enum { GUESTS = 3, PAGES = 8, MEMORY = PAGES * Z280_FRAME, SLICE = 500, CHOICES = 1 << PAGES };

/* Fields of the stored form: the first bit's place, counted from the most significant bit of byte 0. */
enum { AT_HL = 60, AT_PC = 172, AT_USP = 204, AT_MSR = 222, AT_MMU = 273, AT_DESCRIPTOR = 289 };
enum { USER = 0x4000, USER_TRANSLATE = 0x8000, LAST_FAULT = 0x1F, VALID = 8 };

struct program {
    const char *name, *does;
    uint16_t start, length;
    const uint8_t *code;
};

static const uint8_t copy_code[] = {
    0x21, 0x00, 0x1F,                    /* 0000        LD HL,1F00h       */
    0x01, 0xDC, 0x05,                    /* 0003        LD BC,1500        */
    0x3E, 0x07,                          /* 0006        LD A,7            */
    0x77,                                /* 0008 fill:  LD (HL),A         */
    0xC6, 0x1D,                          /* 0009        ADD A,1Dh         */
    0x23,                                /* 000B        INCW HL           */
    0x0B,                                /* 000C        DECW BC           */
    0x57, 0x78, 0xB1, 0x7A,              /* 000D        LD D,A; LD A,B; OR A,C; LD A,D */
    0x20, 0xF5,                          /* 0011        JR NZ,fill        */
    0x21, 0x00, 0x1F,                    /* 0013        LD HL,1F00h       */
    0x11, 0x80, 0x3F,                    /* 0016        LD DE,3F80h       */
    0x01, 0xDC, 0x05,                    /* 0019        LD BC,1500        */
    0xED, 0xB0,                          /* 001C        LDIR              */
    0x21, 0x80, 0x3F,                    /* 001E        LD HL,3F80h       */
    0x01, 0xDC, 0x05,                    /* 0021        LD BC,1500        */
    0x11, 0x00, 0x00,                    /* 0024        LD DE,0           */
    0x7E, 0x83, 0x5F,                    /* 0027 sum:   LD A,(HL); ADD A,E; LD E,A */
    0x30, 0x01, 0x14,                    /* 002A        JR NC,over; INC D */
    0x23, 0x0B,                          /* 002D over:  INCW HL; DECW BC  */
    0x78, 0xB1,                          /* 002F        LD A,B; OR A,C    */
    0x20, 0xF4,                          /* 0031        JR NZ,sum         */
    0xEB,                                /* 0033        EX DE,HL          */
    0xED, 0x71, 0x00, 0x00,              /* 0034        SC 0              */
};

static const uint8_t stack_code[] = {
    0x21, 0x00, 0x00,                    /* 5000        LD HL,0           */
    0x01, 0xDC, 0x05,                    /* 5003        LD BC,1500        */
    0xCD, 0x0D, 0x50,                    /* 5006        CALL add          */
    0xED, 0x71, 0x00, 0x00,              /* 5009        SC 0              */
    0x78, 0xB1, 0xC8,                    /* 500D add:   LD A,B; OR A,C; RET Z */
    0xC5, 0x0B,                          /* 5010        PUSH BC; DECW BC  */
    0xCD, 0x0D, 0x50,                    /* 5012        CALL add          */
    0xC1, 0x09, 0xC9,                    /* 5015        POP BC; ADD HL,BC; RET */
};

static const uint8_t sieve_code[] = {
    0x11, 0x02, 0x00,                    /* 6FF0        LD DE,2           */
    0x21, 0x00, 0x0F,                    /* 6FF3 next:  LD HL,0F00h       */
    0x19, 0x7E, 0xB7,                    /* 6FF6        ADD HL,DE; LD A,(HL); OR A,A */
    0x20, 0x0C,                          /* 6FF9        JR NZ,skip        */
    0x19,                                /* 6FFB mark:  ADD HL,DE         */
    0xFD, 0xED, 0xF7, 0xD0, 0x16,        /* 6FFC        CPW HL,16D0h      */
    0x30, 0x04,                          /* 7001        JR NC,skip        */
    0x36, 0x01,                          /* 7003        LD (HL),1         */
    0x18, 0xF4,                          /* 7005        JR mark           */
    0x13, 0x7B,                          /* 7007 skip:  INCW DE; LD A,E   */
    0xFE, 0x2D,                          /* 7009        CP A,45           */
    0x20, 0xE6,                          /* 700B        JR NZ,next        */
    0x21, 0x02, 0x0F,                    /* 700D        LD HL,0F02h       */
    0x11, 0x00, 0x00,                    /* 7010        LD DE,0           */
    0x7E, 0xB7,                          /* 7013 count: LD A,(HL); OR A,A */
    0x20, 0x01, 0x13,                    /* 7015        JR NZ,over; INCW DE */
    0x23,                                /* 7018 over:  INCW HL           */
    0xFD, 0xED, 0xF7, 0xD0, 0x16,        /* 7019        CPW HL,16D0h      */
    0x20, 0xF3,                          /* 701E        JR NZ,count       */
    0xEB,                                /* 7020        EX DE,HL          */
    0xED, 0x71, 0x00, 0x00,              /* 7021        SC 0              */
};

static const struct program programs[GUESTS] = {
    { "copy", "moves 1,500 bytes over page borders and adds them up", 0x0000, sizeof copy_code, copy_code },
    { "stack", "adds 1 to 1,500 by 1,500 nested calls", 0x5000, sizeof stack_code, stack_code },
    { "sieve", "counts the primes below 2,000; its code lies on two pages", 0x6FF0, sizeof sieve_code, sieve_code },
};

struct guest {
    uint8_t form[Z280_FORM], memory[MEMORY];
    uint8_t disc[MEMORY];                /* the pages before they come in */
    int out[PAGES], order[PAGES], faults, done;
    unsigned long steps;
};

static unsigned get(const uint8_t *form, unsigned at)
{
    unsigned value = 0;
    for (unsigned bit = at; bit < at + 16; bit++)
        value = value << 1 | (form[bit / 8] >> (7 - bit % 8) & 1);
    return value;
}

static void put(uint8_t *form, unsigned at, unsigned value)
{
    for (unsigned i = 0; i < 16; i++) {
        unsigned bit = at + i, mask = 0x80 >> bit % 8;
        form[bit / 8] = (value >> (15 - i) & 1) ? form[bit / 8] | mask : form[bit / 8] & ~mask;
    }
}

/* A page lies in another frame than its own number's. */
static unsigned frame_of(int page)
{
    return PAGES - 1 - page;
}

static void bring_in(struct guest *g, int page)
{
    memcpy(g->memory + frame_of(page) * Z280_FRAME, g->disc + page * Z280_FRAME, Z280_FRAME);
    g->out[page] = 0;
}

static void begin(struct guest *g, const struct program *p, unsigned waiting)
{
    memset(g, 0, sizeof *g);
    memset(g->memory, 0xDB, sizeof g->memory);     /* no guest may see these bytes */
    memcpy(g->disc + p->start, p->code, p->length);
    z280_reset(g->form, sizeof g->form, PAGES);
    put(g->form, AT_PC, p->start);
    put(g->form, AT_USP, 0x3001);                  /* odd: a word lies on two pages at each border */
    put(g->form, AT_MSR, USER);
    put(g->form, AT_MMU, USER_TRANSLATE);
    for (int page = 0; page < PAGES; page++) {
        g->out[page] = waiting >> page & 1;
        put(g->form, AT_DESCRIPTOR + 16 * page, frame_of(page) << 4 | (g->out[page] ? 0 : VALID));
        if (!g->out[page])
            bring_in(g, page);
    }
}

/* Works a slice of a guest's time. Answers 0 where something happened that this host does not expect. */
static int work(struct guest *g)
{
    uint8_t answer[Z280_ANSWER];
    if (z280_run(g->form, sizeof g->form, g->memory, sizeof g->memory, SLICE, answer, sizeof answer))
        return 0;
    g->steps += answer[2] | answer[3] << 8;
    switch (answer[0]) {
    case 0:
        return 1;
    case 1: {
        int page = answer[4];
        if (page >= PAGES || !g->out[page])
            return 0;
        bring_in(g, page);
        g->order[g->faults++] = page;
        return z280_make_valid(g->form, sizeof g->form, page) == 0;
    }
    case 4:
        g->done = 1;
        return 1;
    default:
        return 0;
    }
}

/* Three guests by turns, a slice each, until all have made their system call. */
static int run_all(struct guest g[GUESTS], unsigned waiting)
{
    for (int i = 0; i < GUESTS; i++)
        begin(&g[i], &programs[i], waiting);
    while (!g[0].done || !g[1].done || !g[2].done)
        for (int i = 0; i < GUESTS; i++)
            if (!g[i].done && !work(&g[i]))
                return 0;
    return 1;
}

/* Brings the rest in, and takes away what the host itself did: valid bits and the last faulting descriptor. */
static void settle(struct guest *g)
{
    for (int page = 0; page < PAGES; page++) {
        if (g->out[page])
            bring_in(g, page);
        put(g->form, AT_DESCRIPTOR + 16 * page, get(g->form, AT_DESCRIPTOR + 16 * page) & ~VALID);
    }
    put(g->form, AT_MMU, get(g->form, AT_MMU) & ~LAST_FAULT);
}

static int same(const struct guest *a, const struct guest *b)
{
    return a->steps == b->steps && !memcmp(a->form, b->form, Z280_FORM) && !memcmp(a->memory, b->memory, MEMORY);
}

static void show(const struct guest *g, const char *name, unsigned waiting)
{
    char pages[PAGES + 1] = "", came[3 * PAGES] = "-";
    for (int page = 0; page < PAGES; page++)
        pages[page] = waiting >> page & 1 ? '0' + page : '.';
    for (int i = 0; i < g->faults; i++)
        snprintf(came + 2 * i, 3, "%d ", g->order[i]);
    printf("%-10s %-6s %6d  %-13s %7lu   %04X\n", pages, name, g->faults, came, g->steps, get(g->form, AT_HL));
}

static int shown(unsigned waiting)
{
    static const unsigned choices[] = { 0x00, 0xFF, 0x55, 0xAA, 0x0F, 0xF0 };
    for (size_t i = 0; i < sizeof choices / sizeof *choices; i++)
        if (choices[i] == waiting)
            return 1;
    return 0;
}

int main(void)
{
    static struct guest plain[GUESTS], g[GUESTS];
    unsigned different = 0;
    for (int i = 0; i < GUESTS; i++)
        printf("%-6s %s\n", programs[i].name, programs[i].does);
    printf("\npages that guest  faults  came in        steps   result (HL)\nwait\n");
    for (unsigned waiting = 0; waiting < CHOICES; waiting++) {
        if (!run_all(g, waiting)) {
            printf("a guest stopped that should not have\n");
            return 1;
        }
        for (int i = 0; i < GUESTS; i++) {
            if (shown(waiting))
                show(&g[i], programs[i].name, waiting);
            settle(&g[i]);
            different += waiting && !same(&plain[i], &g[i]);
        }
        if (!waiting)
            memcpy(plain, g, sizeof plain);
    }
    if (different)
        printf("\n%u of %d runs differ from the one in which no page waits\n", different, GUESTS * CHOICES);
    else
        printf("\nall %d choices of waiting pages: same steps, same registers, same memory\n", CHOICES);
    return different != 0;
}
