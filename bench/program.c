/* The plain interpreter and the library's calls as programs of program.h. */
#include "program.h"
#include "z280.h"
#include <stdio.h>
#include <stdlib.h>
#include <string.h>

uint8_t mem[LEN];

void prepare_guest(struct machine *m, const struct setting *s)
{
    memset(m, 0, sizeof *m);
    memset(mem, 0, LEN);
    memcpy(mem + GUEST_AT, s->guest->code, s->guest->bytes);
    for (int i = 0; i < GUEST_PAIRS; i++) {
        mem[GUEST_DATA + 2 * i] = 17 * i;
        mem[GUEST_DATA + 2 * i + 1] = 250 - 31 * i;
    }
    m->pc = GUEST_AT;
    m->ssp = m->usp = GUEST_STACK;
    m->msr = s->user ? 0x4000 : 0;
    m->mmu = s->kind == OFF ? 0 : s->kind == ON ? 0x8800 : 0xCC00;
    for (int i = 0; i < 32; i++)    /* every page to its own frame, valid */
        m->page[i] = (s->kind == SEPARATED ? i % 8 * 2 : i % 16) << 4 | 8;
}

void stopped(const char *who)
{
    fprintf(stderr, "%s left the guest's loop\n", who);
    exit(1);
}

/* ── plain ── */

static struct machine machine;

static void prepare_plain(const struct setting *s) { prepare_guest(&machine, s); }

static void run_plain(long calls)
{
    struct event e;
    while (calls-- > 0)
        if (plain_run(&machine, mem, LEN, STEPS, &e) != STEPS)
            stopped("plain");
}

static unsigned home_plain(void)
{
    struct event e;
    unsigned steps = 0;
    for (; machine.pc != GUEST_AT; steps++)
        if (steps == STEPS || plain_step(&machine, mem, LEN, &e))
            stopped("plain");
    return steps;
}

static void record_plain(struct machine *m) { *m = machine; }

const struct program plain_program = { "plain", prepare_plain, run_plain, home_plain, record_plain };

/* ── z280 ── */

static uint8_t form[Z280_FORM], answer[Z280_ANSWER];

static void prepare_z280(const struct setting *s)
{
    struct machine m;
    prepare_guest(&m, s);
    form_pack(&m, FRAMES, form);
}

static void run_z280(long calls)
{
    while (calls-- > 0)
        if (z280_run(form, sizeof form, mem, LEN, STEPS, answer, sizeof answer) || answer[0] || answer[1])
            stopped("z280");
}

static void record_z280(struct machine *m)
{
    unsigned frames;
    if (form_unpack(m, &frames, form, sizeof form))
        stopped("z280");
}

static unsigned home_z280(void)
{
    struct machine m;
    unsigned steps = 0;
    for (record_z280(&m); m.pc != GUEST_AT; record_z280(&m), steps++)
        if (steps == STEPS || z280_step(form, sizeof form, mem, LEN, answer, sizeof answer) || answer[0] || answer[1])
            stopped("z280");
    return steps;
}

const struct program z280_program = { "z280", prepare_z280, run_z280, home_z280, record_z280 };
