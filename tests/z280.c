/* Each call of z280.h: what it does on known steps of document 01, each of its refusals in their order, null pointers of
   length 0, and every byte that must stay. Prints what is wrong and a total; exit status 1 where something is.
   Usage: z280 [exact], the second under valgrind. */
#include "lent.h"

enum { RESET, STEP, RUN, DELIVER, MAKE_VALID, CALLS };
static const char *const names[CALLS] = { "reset", "step", "run", "deliver", "make_valid" };

/* A host with its machine: the form, up to 16 frames, the last answer. */
struct host {
    uint8_t form[Z280_FORM + 1], memory[Z280_MOST_FRAMES * Z280_FRAME + 1], answer[Z280_ANSWER + 1];
    size_t form_len, memory_len, answer_len;
    uint16_t budget;
    uint8_t frames, descriptor;
};

static struct host h;

/* The call over copies; then the bytes that may change are taken back, all others must have stayed. */
static uint8_t call(int kind)
{
    struct lent l;
    uint8_t *const from[BUFFERS] = { h.form, h.memory, h.answer };
    const size_t lengths[BUFFERS] = { h.form_len, h.memory_len, h.answer_len };
    uint8_t refusal = 255;
    for (int i = 0; i < BUFFERS; i++)
        lend(&l.b[i], from[i], lengths[i]);
    struct buffer *f = &l.b[FORM], *m = &l.b[MEMORY], *a = &l.b[ANSWER];
    switch (kind) {
    case RESET: refusal = z280_reset(f->at, f->len, h.frames); break;
    case STEP: refusal = z280_step(f->at, f->len, m->at, m->len, a->at, a->len); break;
    case RUN: refusal = z280_run(f->at, f->len, m->at, m->len, h.budget, a->at, a->len); break;
    case DELIVER: refusal = z280_deliver(f->at, f->len, m->at, m->len, a->at, a->len); break;
    case MAKE_VALID: refusal = z280_make_valid(f->at, f->len, h.descriptor); break;
    }
    bool works = kind == STEP || kind == RUN;
    check(guarded(f) && guarded(m) && guarded(a), "bytes around a buffer changed");
    check(!refusal || (stayed(f) && stayed(m) && stayed(a)), "a refused call changed a byte");
    check(works || stayed(a), "an event changed");
    check(works || kind == DELIVER || stayed(m), "memory changed");
    for (int i = 0; i < BUFFERS; i++) {
        if (lengths[i])
            memcpy(from[i], l.b[i].at, lengths[i]);
        give_back(&l.b[i]);
    }
    return refusal;
}

static void expect(int kind, uint8_t refusal, const char *what)
{
    uint8_t got = call(kind);
    tests++;
    if (got != refusal) {
        wrong++;
        printf("wrong: %s, %s: refusal %u, not %u\n", names[kind], what, got, refusal);
    }
}

static void expect_answer(unsigned event, unsigned steps, uint32_t first, uint32_t second, const char *what)
{
    const uint8_t *a = h.answer;
    bool holds = number_at(a, 2) == event && number_at(a + 2, 2) == steps && number_at(a + 4, 4) == first
        && number_at(a + 8, 4) == second;
    tests++;
    if (!holds) {
        wrong++;
        printf("wrong: %s: event %u, steps %u, first %X, second %X\n", what, number_at(a, 2), number_at(a + 2, 2),
               number_at(a + 4, 4), number_at(a + 8, 4));
    }
}

static void expect_field(unsigned at, unsigned v, const char *what) { check(field(h.form, at, 16) == v, what); }

/* From reset, with bytes at physical address 0. */
static void start(unsigned frames, const uint8_t *code, size_t n)
{
    memset(&h, 0, sizeof h);
    memset(h.form, 0x5A, sizeof h.form);
    memset(h.answer, 0x5A, sizeof h.answer);
    h.form_len = Z280_FORM;
    h.memory_len = frames * Z280_FRAME;
    h.answer_len = Z280_ANSWER;
    h.frames = frames;
    expect(RESET, 0, "any frames");
    memcpy(h.memory, code, n);
}

#define START(frames, ...) start(frames, (const uint8_t[]){ __VA_ARGS__ }, sizeof (const uint8_t[]){ __VA_ARGS__ })

static void set_event(unsigned number, uint32_t first, uint32_t second)
{
    const uint32_t values[] = { number | 0x77770000u, first, second };   /* the steps are not looked at */
    for (int i = 0; i < Z280_ANSWER; i++)
        h.answer[i] = values[i / 4] >> 8 * (i % 4);
}

/* ── what the calls do ── */

static void resets(void)
{
    for (unsigned frames = 1; frames <= 16; frames++) {
        uint8_t form[Z280_FORM] = { 1, (frames - 1) << 4 };
        START(frames, 0);
        check(!memcmp(form, h.form, Z280_FORM), "the reset record is zero throughout");
    }
}

/* Every event, with its values: 0, 6, and those that delivery takes. */
static void events(void)
{
    START(1, 0x00, 0x76);
    expect(STEP, 0, "NOP");
    expect_answer(0, 1, 0, 0, "NOP completes");
    expect(STEP, 0, "HALT");
    expect_answer(6, 0, 0, 0, "halted");
    expect_field(PC, 2, "PC past HALT");

    START(4, 0);
    set_field(h.form, MSR, 16, 0x4000);
    set_field(h.form, MMU, 16, 0x8000);
    set_field(h.form, PC, 16, 0x3ABC);
    expect(STEP, 0, "an invalid page");
    expect_answer(1, 0, 3, 0x3ABC, "descriptor, its address");
    expect_field(MMU, 0x8003, "the last faulting descriptor");

    START(1, 0x76);
    set_field(h.form, MSR, 16, 0x4000);
    expect(STEP, 0, "HALT in user mode");
    expect_answer(3, 0, 0, 0, "privileged");

    START(1, 0xED, 0x71, 0x34, 0x12);
    expect(STEP, 0, "a system call");
    expect_answer(4, 0, 0x1234, 4, "operand, next address");
    expect_field(PC, 0, "PC stays at a system call");

    START(1, 0x00, 0x76);
    set_field(h.form, MSR, 16, 0x1000);
    h.budget = 9;
    expect(RUN, 0, "break on halt");
    expect_answer(7, 1, 1, 0, "its address");
}

/* 2, 5, 8 and 9. */
static void other_events(void)
{
    START(1, 0);
    set_field(h.form, PC, 16, 0x1000);
    expect(STEP, 0, "no memory");
    expect_answer(2, 0, 0x1000, 0, "physical address");

    START(1, 0x00, 0xED, 0x84);
    h.budget = 9;
    expect(RUN, 0, "extended");
    expect_answer(5, 1, 1, 0, "its address");

    START(1, 0xD3, 0x01);
    set_field(h.form, AF, 16, 0xBC00);
    set_field(h.form, IOPAGE, 8, 0xDE);
    expect(STEP, 0, "a port");
    expect_answer(8, 0, 0xDEBC01, 1, "port, output");
    h.memory[0] = 0xDB;
    expect(STEP, 0, "a port");
    expect_answer(8, 0, 0xDEBC01, 0, "port, input");

    START(1, 0x00, 0xED, 0x00);
    h.budget = 9;
    expect(RUN, 0, "no instruction");
    expect_answer(9, 1, 1, 0, "its address");
}

static void runs(void)
{
    START(1, 0x00, 0x76);
    h.budget = 1000;
    expect(RUN, 0, "NOP, HALT");
    expect_answer(6, 1, 0, 0, "stop 6 steps 1");
    expect_field(PC, 2, "pc 0002");
    START(1, 0x00);
    expect(RUN, 0, "budget 0");
    expect_answer(0, 0, 0, 0, "budget 0 completes nothing");
    START(16, 0x00);
    h.budget = 65535;
    expect(RUN, 0, "the largest budget");
    expect_answer(0, 65535, 0, 0, "65,535 NOPs");
    expect_field(PC, 65535, "65,535 NOPs");
    START(1, 0x00);
    h.budget = 65535;
    expect(RUN, 0, "past the memory");
    expect_answer(2, 4096, 4096, 0, "a frame of NOPs, then no memory");
}

/* P11: user PUSH across two withheld pages, each made valid when it is asked for. */
static void withheld(void)
{
    START(3, 0);
    h.memory[2 * Z280_FRAME] = 0xC5;
    set_field(h.form, BC, 16, 0xABCD);
    set_field(h.form, MSR, 16, 0x4000);
    set_field(h.form, MMU, 16, 0x8000);
    set_field(h.form, PC, 16, 0x2000);
    set_field(h.form, USP, 16, 0x1001);
    for (unsigned i = 0; i < 3; i++)
        set_field(h.form, PAGE + 16 * i, 16, i << 4 | (i == 2 ? 8 : 0));
    for (unsigned i = 0; i < 2; i++) {
        expect(STEP, 0, "a withheld page");
        expect_answer(1, 0, i, 0x2000, "descriptor 0, then 1");
        h.descriptor = i;
        expect(MAKE_VALID, 0, "a withheld page");
        expect_field(PAGE + 16 * i, i << 4 | 8, "the valid bit alone");
        expect(MAKE_VALID, 7, "already valid");
    }
    expect(STEP, 0, "both pages are there");
    expect_answer(0, 1, 0, 0, "the push completes");
    expect_field(USP, 0x0FFF, "user SP");
    check(h.memory[0x0FFF] == 0xCD && h.memory[0x1000] == 0xAB, "the word lies across the pages");
    expect_field(PAGE, 0x0009, "page 0 is marked");
    expect_field(PAGE + 16, 0x0019, "page 1 is marked");
}

/* Each trap is delivered as its answer came: by its vector, with its words. */
static void delivers(void)
{
    START(2, 0xED, 0x71, 0x34, 0x12);
    set_field(h.form, SSP, 16, 0x2000);
    set_field(h.form, MSR, 16, 0x0155);
    memcpy(h.memory + 0x50, (const uint8_t[]){ 0x03, 0xFF, 0x78, 0x56 }, 4);
    expect(STEP, 0, "a system call");
    expect(DELIVER, 0, "the answer as it came");
    check(!memcmp(h.memory + 0x1FFA, (const uint8_t[]){ 0x34, 0x12, 0x55, 0x01, 0x04, 0x00 }, 6),
          "operand, MSR, PC from 1FFAh upward");
    expect_field(SSP, 0x1FFA, "SP after a system call");
    expect_field(MSR, 0x5303, "new MSR, without the bits that may not be set");
    expect_field(PC, 0x5678, "new PC");

    static const struct { unsigned event, offset; uint32_t first, second; } traps[] = {
        { 1, 0x4C, 31, 0xFFFF }, { 3, 0x54, 0xFFFF, 0 }, { 7, 0x40, 0xFFFF, 0 },
    };
    for (unsigned i = 0; i < 3; i++) {
        START(2, 0);
        set_field(h.form, VECTOR, 12, 1);
        set_field(h.form, SSP, 16, 0x0004);
        h.memory[0x1000 + traps[i].offset + 2] = 1 + i;
        set_event(traps[i].event, traps[i].first, traps[i].second);
        expect(DELIVER, 0, "a trap");
        check(number_at(h.memory, 4) == 0xFFFF0000u, "MSR, address");
        expect_field(SSP, 0, "SP after two words");
        expect_field(PC, 1 + i, "the trap's own vector");
    }
}

/* ── refusals ── */

/* What can be amiss, in an order in which each hides all after it; reset and making valid have fewer. */
enum { LENGTH, WRONG_VERSION, BARRED, PADDED, WRONG_MEMORY, WRONG_ANSWER, CAUSES };
static const uint8_t numbers[CAUSES] = { 3, 4, 2, 5, 1, 3 };

static void spoil(int cause, unsigned way)
{
    static const unsigned barred[] = { 222, 224, 226, 227, 230, 275, 276, 279, 280, 281, 282, 283 };
    switch (cause) {
    case LENGTH: h.form_len = (const size_t[]){ 0, 1, 100, 102 }[way % 4]; break;
    case WRONG_VERSION: h.form[0] = (const uint8_t[]){ 0, 2, 3, 255 }[way % 4]; break;
    case BARRED: set_field(h.form, barred[way % 12], 1, 1); break;
    case PADDED: set_field(h.form, PADDING + way % 7, 1, 1); break;
    case WRONG_MEMORY: h.memory_len = (const size_t[]){ 0, 1, 4095, 8191, 8193, 12288, 65536, 65537 }[way % 8]; break;
    case WRONG_ANSWER: h.answer_len = (const size_t[]){ 0, 1, 11, 13 }[way % 4]; break;
    }
}

/* Every set of causes, each in many ways: the first in order gives the number. Number 10 can't come: four bits name 1 to
   16 frames. */
static void orders(void)
{
    for (unsigned set = 1; set < 1u << CAUSES; set++)
        for (unsigned way = 0; way < 12; way++)
            for (int kind = STEP; kind < CALLS; kind++) {
                unsigned seen = kind == MAKE_VALID ? set & ((1u << WRONG_MEMORY) - 1) : set;
                int first = 0;
                START(2, 0x00);
                set_event(9, 0, 0);         /* 8, had it come to that */
                h.descriptor = 32;          /* 6, likewise */
                for (int c = 0; c < CAUSES; c++)
                    if (set >> c & 1)
                        spoil(c, way + c);
                while (seen && !(seen >> first & 1))
                    first++;
                expect(kind, seen ? numbers[first] : 6, "causes for refusal");
            }
}

static void reset_refusals(void)
{
    for (unsigned frames = 0; frames < 256; frames++) {
        START(1, 0);
        h.frames = frames;
        expect(RESET, frames < 1 || frames > 16 ? 1 : 0, "frames");
        for (unsigned i = 0; i < 4; i++) {
            h.form_len = (const size_t[]){ 0, 1, 100, 102 }[i];
            expect(RESET, 3, "the length comes before the frames");
        }
    }
}

static void delivery_refusals(void)
{
    static const struct { uint32_t number, first, second; } not[] = {
        { 0, 0, 0 }, { 2, 0, 0 }, { 5, 0, 0 }, { 6, 0, 0 }, { 8, 0, 0 }, { 9, 0, 0 }, { 10, 0, 0 }, { 0x101, 0, 0 },
        { 0x8003, 0, 0 }, { 1, 32, 0 }, { 1, 0x100, 0 }, { 1, 0x80000000, 0 }, { 1, 0, 0x10000 }, { 1, 0, 0xFFFFFFFF },
        { 3, 0x10000, 0 }, { 3, 0, 1 }, { 3, 0, 0x1000000 }, { 4, 0x10000, 0 }, { 4, 0, 0x10000 }, { 7, 0x10000, 0 },
        { 7, 0, 1 }, { 7, 0, 0x80000000 },
    };
    for (unsigned i = 0; i < sizeof not / sizeof *not; i++)
        for (unsigned sp = 0; sp < 2; sp++) {
            START(1, 0);
            set_field(h.form, SSP, 16, sp ? 0x8000 : 0x800);    /* 8 comes before 9 */
            set_event(not[i].number, not[i].first, not[i].second);
            expect(DELIVER, 8, "can't be delivered");
        }
    for (unsigned i = 0; i < 4; i++) {
        START(1, 0);
        set_event((const uint8_t[]){ 1, 3, 4, 7 }[i], 0, 0);
        set_field(h.form, SSP, 16, 0x1002);
        expect(DELIVER, 9, "the first push lacks memory");
        set_field(h.form, SSP, 16, 2);
        expect(DELIVER, 9, "a later push lacks memory");
        set_field(h.form, SSP, 16, 0x800);
        set_field(h.form, VECTOR, 12, 1);
        expect(DELIVER, 9, "the vector lacks memory");
        set_field(h.form, VECTOR, 12, 0);
        set_field(h.form, MMU, 16, 0x0800);
        expect(DELIVER, 9, "a push violates");
    }
}

static void validity_refusals(void)
{
    for (unsigned n = 0; n < 256; n++) {
        START(1, 0);
        h.descriptor = n;
        uint8_t form[Z280_FORM];
        memcpy(form, h.form, Z280_FORM);
        expect(MAKE_VALID, n > 31 ? 6 : 0, "descriptor 0 to 31");
        if (n > 31)
            continue;
        set_field(form, PAGE + 16 * n, 16, 8);
        check(!memcmp(form, h.form, Z280_FORM), "the valid bit alone");
        expect(MAKE_VALID, 7, "already valid");
    }
}

/* Frame 0Fh of 16 is backed, 10h gives event 2. */
static void last_frame(void)
{
    for (unsigned frame = 15; frame <= 16; frame++) {
        START(16, 0);
        set_field(h.form, MMU, 16, 0x0800);
        set_field(h.form, PAGE + 16 * 16, 16, frame << 4 | 8);
        expect(STEP, 0, "the last frame");
        expect_answer(frame == 15 ? 0 : 2, frame == 15, frame == 15 ? 0 : 0x10000, 0, "the last frame");
    }
}

int main(int argc, char **argv)
{
    exact = argc > 1 && !strcmp(argv[1], "exact");
    resets();
    events();
    other_events();
    runs();
    withheld();
    delivers();
    orders();
    reset_refusals();
    delivery_refusals();
    validity_refusals();
    last_frame();
    printf("%u tests, %u wrong\n", tests, wrong);
    return wrong != 0;
}
