/* libz80ex as a program of program.h, where Debian's package libz80ex-dev is installed: bench/run defines Z80EX then. It
   has neither modes nor translation; its memory is the 64 KiB array behind two callbacks. */
#include "program.h"

#ifndef Z80EX

const struct program *const z80ex_program = NULL;

#else

#include <z80ex/z80ex.h>

static Z80EX_CONTEXT *cpu;

static Z80EX_BYTE read_byte(Z80EX_CONTEXT *c, Z80EX_WORD a, int first, void *memory)
{
    (void)c, (void)first;
    return ((uint8_t *)memory)[a];
}

static void write_byte(Z80EX_CONTEXT *c, Z80EX_WORD a, Z80EX_BYTE v, void *memory)
{
    (void)c;
    ((uint8_t *)memory)[a] = v;
}

static void prepare(const struct setting *s)
{
    struct machine m;
    prepare_guest(&m, s);
    if (!cpu)
        cpu = z80ex_create(read_byte, mem, write_byte, mem, NULL, NULL, NULL, NULL, NULL, NULL);
    if (!cpu)
        stopped("z80ex");
    z80ex_reset(cpu);
    for (Z80_REG_T r = regAF; r <= regIY; r++)
        z80ex_set_reg(cpu, r, 0);
    z80ex_set_reg(cpu, regPC, m.pc);
    z80ex_set_reg(cpu, regSP, m.ssp);
}

/* One instruction, or one repetition of a block instruction, which sets PC back. z80ex_step takes CB, ED, DD and FD for
   steps of their own; the code behind DD CB d is taken with the CB. */
static void step(void)
{
    do
        z80ex_step(cpu);
    while (z80ex_last_op_type(cpu));
}

static void run(long calls)
{
    while (calls-- > 0)
        for (unsigned i = 0; i < STEPS; i++)
            step();
}

static unsigned home(void)
{
    unsigned steps = 0;
    for (; z80ex_get_reg(cpu, regPC) != GUEST_AT; steps++) {
        if (steps == STEPS)
            stopped("z80ex");
        step();
    }
    return steps;
}

/* The registers; nothing else of the record is touched. */
static void record(struct machine *m)
{
    union pair *pairs[] = { &m->af, &m->bc, &m->de, &m->hl, &m->af2, &m->bc2, &m->de2, &m->hl2, &m->ix, &m->iy };
    for (Z80_REG_T r = regAF; r <= regIY; r++)
        pairs[r]->w = z80ex_get_reg(cpu, r);
    m->pc = z80ex_get_reg(cpu, regPC);
    m->ssp = z80ex_get_reg(cpu, regSP);
}

static const struct program program = { "z80ex", prepare, run, home, record };
const struct program *const z80ex_program = &program;

#endif
