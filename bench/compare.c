/* Compares the proved machine with the plain interpreter, call by call: both are lent equal buffers, and afterwards the
   refusal and every byte of form, memory, answer and of what stands around them must agree. Every operation code after
   every opening byte sequence, by a step or a short run, from random records and memories, and behind other instructions
   in one call or in several; delivery, making valid and reset; and all five with causes for refusal, one or several at
   once.
   Usage: compare [seed [rounds]]; a round is up to 9 * 256 steps and runs. Exit status 1 on a mismatch. */
#include "cases.h"
#include <stdio.h>
#include <stdlib.h>

enum { SHOWN = 10, ROOM = Z280_FORM + 8, ANSWER_ROOM = Z280_ANSWER + 4 };
enum { RESET, STEP, RUN, DELIVER, MAKE_VALID, CALLS };
static const char *const call_names[CALLS] = { "reset", "step", "run", "deliver", "make_valid" };

static const uint8_t openings[9][2] = { { 0 }, { 0xCB }, { 0xED }, { 0xDD }, { 0xFD }, { 0xDD, 0xCB }, { 0xFD, 0xCB },
                                        { 0xDD, 0xED }, { 0xFD, 0xED } };
static const uint8_t opening_bytes[9] = { 0, 1, 1, 1, 1, 2, 2, 2, 2 };
static const char *const opening_names[9] = { "none", "CB", "ED", "DD", "FD", "DD CB d", "FD CB d", "DD ED", "FD ED" };

/* What one machine is lent, and what it answers. */
struct side {
    uint8_t form[ROOM], answer[ANSWER_ROOM], refusal;
    uint8_t mem[MOST + GUARD];
};

static struct side plain, proved;

/* A call's lengths and numbers; answer_len is the event's in delivery. */
struct call {
    int kind;
    size_t form_len, len, answer_len;
    uint16_t budget;
    uint8_t frames, descriptor;
};

static unsigned long cases, mismatches, by_code[9][256], by_event[10], by_refusal[CALLS][11];
static bool known[9][256], completed[9][256][6];

/* How a warm case comes to its code; how many were made, and how many completed every step before the code's. */
enum { ONE_RUN, STEPS, RUNS, WAYS };
static const char *const way_names[WAYS] = { "one run", "steps", "runs" };
static unsigned long warm[WAYS], led[WAYS];

static void call_proved(const struct call *c, struct side *s)
{
    switch (c->kind) {
    case RESET: s->refusal = z280_reset(s->form, c->form_len, c->frames); break;
    case STEP: s->refusal = z280_step(s->form, c->form_len, s->mem, c->len, s->answer, c->answer_len); break;
    case RUN: s->refusal = z280_run(s->form, c->form_len, s->mem, c->len, c->budget, s->answer, c->answer_len); break;
    case DELIVER: s->refusal = z280_deliver(s->form, c->form_len, s->mem, c->len, s->answer, c->answer_len); break;
    case MAKE_VALID: s->refusal = z280_make_valid(s->form, c->form_len, c->descriptor); break;
    }
}

static void call_plain(const struct call *c, struct side *s)
{
    switch (c->kind) {
    case RESET: s->refusal = plain_call_reset(s->form, c->form_len, c->frames); break;
    case STEP: s->refusal = plain_call_step(s->form, c->form_len, s->mem, c->len, s->answer, c->answer_len); break;
    case RUN:
        s->refusal = plain_call_run(s->form, c->form_len, s->mem, c->len, c->budget, s->answer, c->answer_len);
        break;
    case DELIVER: s->refusal = plain_call_deliver(s->form, c->form_len, s->mem, c->len, s->answer, c->answer_len); break;
    case MAKE_VALID: s->refusal = plain_call_make_valid(s->form, c->form_len, c->descriptor); break;
    }
}

/* ── printing ── */

static uint32_t number_at(const uint8_t *from, unsigned bytes)
{
    uint32_t v = 0;
    for (unsigned i = bytes; i-- > 0;)
        v = v << 8 | from[i];
    return v;
}

static void show_answer(const char *who, const struct side *s)
{
    printf("  %-7s refusal %u, event %u, steps %u, first %X, second %X\n", who, s->refusal, number_at(s->answer, 2),
           number_at(s->answer + 2, 2), number_at(s->answer + 4, 4), number_at(s->answer + 8, 4));
}

static void show_machine(const char *who, const struct machine *m)
{
    printf("  %-7s AF %04X (", who, m->af.w);
    for (int i = 0; i < 8; i++)
        putchar(m->af.b.l & 0x80 >> i ? "SZ5H3PNC"[i] : '-');
    printf(") BC %04X DE %04X HL %04X IX %04X IY %04X PC %04X SSP %04X USP %04X\n", m->bc.w, m->de.w, m->hl.w, m->ix.w,
           m->iy.w, m->pc, m->ssp, m->usp);
    printf("          AF' %04X BC' %04X DE' %04X HL' %04X banks %u%u", m->af2.w, m->bc2.w, m->de2.w, m->hl2.w,
           m->bank[0], m->bank[1]);
    printf(" MSR %04X TCR %02X page %02X limit %04X vector %04X MMU %04X\n", m->msr, m->tcr, m->iopage, m->limit,
           m->vector, m->mmu);
}

static void show_forms(const uint8_t *before)
{
    struct machine m = { 0 }, x = { 0 }, y = { 0 };
    unsigned f;
    int r = form_unpack(&m, &f, before, Z280_FORM), rx = form_unpack(&x, &f, plain.form, Z280_FORM),
        ry = form_unpack(&y, &f, proved.form, Z280_FORM);
    printf("  forms read by refusal %d before, %d plain, %d proved\n", r, rx, ry);
    show_machine("before", &m);
    show_machine("plain", &x);
    show_machine("proved", &y);
    for (int i = 0; i < 32; i++)
        if (x.page[i] != y.page[i])
            printf("  descriptor %d: %04X before, %04X plain, %04X proved\n", i, m.page[i], x.page[i], y.page[i]);
}

static void show_case(const struct call *c, const uint8_t *before, const uint8_t *bytes)
{
    unsigned shown = 0;
    printf("case %lu: %s, lengths %zu, %zu, %zu, budget %u, frames %u, descriptor %u", cases, call_names[c->kind],
           c->form_len, c->len, c->answer_len, c->budget, c->frames, c->descriptor);
    for (int i = 0; bytes && i < 7; i++)
        printf("%s %02X", i ? "" : "; bytes at PC:", bytes[i]);
    printf("\n");
    show_forms(before);
    show_answer("plain", &plain);
    show_answer("proved", &proved);
    for (unsigned i = 0; i < MOST + GUARD && shown < 8; i++)
        if (plain.mem[i] != proved.mem[i]) {
            printf("  memory %05X: %02X plain, %02X proved\n", i, plain.mem[i], proved.mem[i]);
            shown++;
        }
}

/* ── the cases ── */

/* Both have the plain side's form and answer; true where they agree afterwards. */
static bool agree(const struct call *c, const uint8_t *bytes)
{
    uint8_t before[ROOM];
    memcpy(before, plain.form, ROOM);
    memcpy(proved.form, plain.form, ROOM);
    memcpy(proved.answer, plain.answer, ANSWER_ROOM);
    call_proved(c, &proved);
    call_plain(c, &plain);
    cases++;
    by_refusal[c->kind][plain.refusal]++;
    if (plain.refusal == proved.refusal && !memcmp(plain.form, proved.form, ROOM)
        && !memcmp(plain.answer, proved.answer, ANSWER_ROOM) && !memcmp(plain.mem, proved.mem, MOST + GUARD))
        return true;
    if (mismatches++ < SHOWN)
        show_case(c, before, bytes);
    memcpy(proved.mem, plain.mem, MOST + GUARD);
    return false;
}

static void refill(void)
{
    for (unsigned i = 0; i < MOST + GUARD; i += 8) {
        uint64_t v = next();
        memcpy(plain.mem + i, &v, 8);
    }
    memcpy(proved.mem, plain.mem, MOST + GUARD);
}

static void poke(long p, uint8_t v)
{
    if (p >= 0)
        plain.mem[p] = proved.mem[p] = v;
}

static struct call whole_call(int kind, unsigned frames)
{
    return (struct call){ .kind = kind, .form_len = Z280_FORM, .len = frames * Z280_FRAME, .answer_len = Z280_ANSWER };
}

/* The code after the opening, with what may follow it; C names a control register where that matters. */
static void code_bytes(struct machine *m, unsigned o, unsigned code, uint8_t *bytes)
{
    unsigned k = opening_bytes[o];
    if (o != 0 && (code == 0x66 || code == 0x6E) && !one_in(4))
        m->bc.b.l = ONE_OF(uint8_t, 0x00, 0x04, 0x06, 0x08, 0x10);
    for (int i = 0; i < 8; i++)
        bytes[i] = one_in(4) ? odd_byte() : next();
    memcpy(bytes, openings[o], k);
    if (o == 5 || o == 6)
        k++;
    bytes[k] = code;
}

/* Bytes from PC on; a word where HL points. */
static void place_bytes(const struct machine *m, size_t len, const uint8_t *bytes, unsigned count)
{
    uint16_t there = one_in(3) ? m->af.b.h : odd_word();
    for (int i = 0; i < 2; i++)
        poke(place_of(m, len, false, m->hl.w + i), there >> 8 * i);
    for (unsigned i = 0; i < count; i++)
        poke(place_of(m, len, true, m->pc + i), bytes[i]);
}

/* Most times a trap's answer is delivered as it came. */
static void after_event(struct call c, unsigned event)
{
    by_event[event]++;
    bool trap = event == 1 || event == 3 || event == 4 || event == 7;
    if (trap ? !one_in(4) : one_in(16)) {
        c.kind = DELIVER;
        agree(&c, NULL);
    }
}

/* A step or a run from a random record. */
static void one_case(unsigned o, unsigned code)
{
    struct machine m;
    uint8_t bytes[8];
    unsigned frames = one_in(2) ? 16 : 1 + below(16);
    struct call c = whole_call(one_in(3) ? RUN : STEP, frames);
    any_machine(&m, frames);
    code_bytes(&m, o, code, bytes);
    place_bytes(&m, c.len, bytes, 8);
    c.budget = c.kind == STEP || one_in(4) ? 1 : below(24);
    form_pack(&m, frames, plain.form);
    memset(plain.answer, 0xA5, ANSWER_ROOM);
    if (!agree(&c, bytes))
        by_code[o][code]++;
    unsigned event = number_at(plain.answer, 2), control = control_of(&m);
    if (c.budget == 1 && event != 9 && event != 1 && event != 2)
        known[o][code] = true;
    if (c.budget == 1 && event == 0)
        completed[o][code][(control < 2 ? 0 : control - 1) + (m.msr & 0x4000 ? 3 : 0)] = true;
    after_event(c, event);
}

/* The code as the last of several steps: in one call, by steps, or by shorter runs, each call compared. */
static void warm_case(unsigned o, unsigned code)
{
    struct machine m, user;
    struct line l;
    uint8_t bytes[8];
    unsigned frames = one_in(2) ? 16 : 1 + below(16), way = below(WAYS), event = 0;
    struct call c = whole_call(way == STEPS ? STEP : RUN, frames);
    any_machine(&m, frames);
    code_bytes(&m, o, code, bytes);
    any_line(&m, bytes, &l);
    user = m;
    user.msr |= 0x4000;             /* for a line that changes the mode */
    place_bytes(&user, c.len, l.bytes, l.length + 8);
    place_bytes(&m, c.len, l.bytes, l.length + 8);
    form_pack(&m, frames, plain.form);
    unsigned left = l.steps + 1;
    bool agreed = true;
    while (left > 0 && event == 0) {
        c.budget = way == ONE_RUN ? left : way == STEPS ? 1 : 1 + below(left);
        memset(plain.answer, 0xA5, ANSWER_ROOM);
        agreed &= agree(&c, l.bytes);
        event = number_at(plain.answer, 2);
        left -= number_at(plain.answer + 2, 2);
    }
    by_code[o][code] += !agreed;
    warm[way]++;
    led[way] += left < 2;
    after_event(c, event);
}

/* Delivery, making valid or reset with nothing amiss in the buffers. */
static void other_case(int kind)
{
    struct machine m;
    unsigned frames = one_in(2) ? 16 : 1 + below(16);
    struct call c = whole_call(kind, frames);
    any_machine(&m, frames);
    c.descriptor = one_in(8) ? ONE_OF(uint8_t, 31, 32, 33, 63, 128, 255) : below(32);
    if (kind == MAKE_VALID)
        m.page[c.descriptor % 32] ^= below(2) << 3;
    form_pack(&m, frames, plain.form);
    any_event(plain.answer);
    c.frames = one_in(8) ? ONE_OF(uint8_t, 0, 17, 18, 128, 255) : 1 + below(16);
    if (kind == RESET)
        for (int i = 0; i < Z280_FORM; i++)
            plain.form[i] = next();
    agree(&c, NULL);
}

/* Any of the five with causes for refusal, each now and then, so that their order shows. */
static void refused_case(void)
{
    struct machine m;
    unsigned frames = 1 + below(16);
    struct call c = whole_call(below(CALLS), frames);
    any_machine(&m, frames);
    if (one_in(4))
        m.msr |= ONE_OF(uint16_t, 0x0080, 0x0400, 0x0800, 0x2000, 0x8000);
    else if (one_in(4))
        m.mmu |= ONE_OF(uint16_t, 0x0020, 0x0040, 0x0080, 0x0100, 0x0200, 0x1000, 0x2000);
    form_pack(&m, frames, plain.form);
    if (one_in(6))
        c.form_len = ONE_OF(size_t, 0, 1, 100, 102, 108);
    if (one_in(6))
        plain.form[0] = ONE_OF(uint8_t, 0, 2, 3, 255);
    if (one_in(3))
        plain.form[100] |= 1 << below(7);
    if (one_in(3))
        c.len = ONE_OF(size_t, 0, 1, Z280_FRAME - 1, Z280_FRAME, Z280_FRAME + 1, MOST - 1, MOST, MOST + 1, MOST + GUARD);
    any_event(plain.answer);
    if (one_in(3))
        c.answer_len = ONE_OF(size_t, 0, 1, 11, 13, 16);
    c.budget = below(9);
    c.descriptor = below(40);
    c.frames = below(20);
    agree(&c, NULL);
}

static void summary(void)
{
    printf("events:");
    for (int i = 0; i < 10; i++)
        printf(" %d: %lu", i, by_event[i]);
    printf("\n");
    for (int k = 0; k < CALLS; k++) {
        printf("%-10s by refusal:", call_names[k]);
        for (int r = 0; r < 11; r++)
            if (by_refusal[k][r])
                printf(" %d: %lu", r, by_refusal[k][r]);
        printf("\n");
    }
    for (int w = 0; w < WAYS; w++)
        printf("warm by %-8s %lu cases, %lu completed every step before the code's\n", way_names[w], warm[w], led[w]);
    for (int o = 0; o < 9; o++) {
        unsigned here = 0, ran = 0, everywhere = 0;
        for (int b = 0; b < 256; b++) {
            unsigned ways = 0;
            for (int w = 0; w < 6; w++)
                ways += completed[o][b][w];
            here += known[o][b];
            ran += ways > 0;
            everywhere += ways == 6;
        }
        printf("after %-8s %3u codes known; %3u completed, %3u of them off, on and separated in both modes\n",
               opening_names[o], here, ran, everywhere);
    }
    for (int o = 0; o < 9; o++)
        for (int b = 0; b < 256; b++)
            if (by_code[o][b])
                printf("mismatch after %s, code %02X: %lu\n", opening_names[o], b, by_code[o][b]);
    printf("%lu cases, %lu mismatches\n", cases, mismatches);
}

int main(int argc, char **argv)
{
    state = argc > 1 ? strtoull(argv[1], NULL, 0) : 1;
    unsigned long rounds = argc > 2 ? strtoul(argv[2], NULL, 0) : 300;
    for (unsigned long i = 0; i < rounds; i++) {
        refill();
        for (unsigned o = 0; o < 9; o++)
            for (unsigned code = 0; code < 256; code++)
                if (i < 8 || i % 4 == 0 || known[o][code]) {    /* a code that only gives event 9 takes fewer turns */
                    one_case(o, code);
                    if (one_in(5))
                        warm_case(o, code);
                }
        for (int j = 0; j < 64; j++) {
            other_case(DELIVER);
            other_case(MAKE_VALID);
            other_case(RESET);
            refused_case();
        }
    }
    summary();
    return mismatches != 0;
}
