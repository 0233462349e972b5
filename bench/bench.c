/* One table: guest instructions per second of the library's z280_run, of the plain interpreter and of libz80ex, on the
   same guests; and the time to read and to write a stored form.
   bench [rounds [calls]]: all in one process, turn about; the best round by processor time counts.
   bench one z280|plain|z80ex GUEST off|on|separated calls [user]: one program alone, for callgrind. */
#include "guest.h"
#include "z280.h"
#include <stdio.h>
#include <stdlib.h>
#include <string.h>
#include <time.h>

static const char *const kinds[KINDS] = { "off", "on", "separated" };

static double seconds(void)
{
    struct timespec t;
    clock_gettime(CLOCK_PROCESS_CPUTIME_ID, &t);
    return t.tv_sec + t.tv_nsec * 1e-9;
}

static void keep_least(double *best, double t)
{
    if (*best == 0 || t < *best)
        *best = t;
}

/* ── what a program leaves ── */

/* At the head of the loop, and the steps from the last call's end to there. */
struct rest {
    struct machine m;
    uint8_t mem[LEN];
    unsigned steps;
};

static void leave(const struct program *p, struct rest *r)
{
    r->steps = p->home();
    p->record(&r->m);
    memcpy(r->mem, mem, LEN);
}

/* Bits 3 and 5 of F stay in the Z280 and follow the result in libz80ex. BIT changes S and P in libz80ex only; in the
   guests, an instruction that sets both comes before F is stored, and before the head of the loop. */
static void drop_flags(struct rest *r, const struct guest *g)
{
    r->m.af.b.l &= ~0x28;
    r->m.af2.b.l &= ~0x28;
    if (g->flags_at >= 0)
        r->mem[g->flags_at] &= ~0x28;
}

static void same(const char *who, const struct rest *x, const struct rest *y)
{
    uint8_t form[2][FORM_BYTES];
    form_pack(&x->m, FRAMES, form[0]);
    form_pack(&y->m, FRAMES, form[1]);
    if (x->steps == y->steps && !memcmp(form[0], form[1], FORM_BYTES) && !memcmp(x->mem, y->mem, LEN))
        return;
    fprintf(stderr, "%s and plain differ after the guest\n", who);
    exit(1);
}

/* ── instructions per second ── */

struct row {
    struct setting setting;
    double plain, z280, z80ex;      /* seconds of the best round */
};

static void time_one(const struct program *p, const struct setting *s, long calls, double *best)
{
    p->prepare(s);
    double t = seconds();
    p->run(calls);
    keep_least(best, seconds() - t);
}

/* Plain, library and, in the one row without modes and translation, libz80ex; they must leave the same behind. */
static void take_round(struct row *r, long calls)
{
    static struct rest plain, other;
    time_one(&plain_program, &r->setting, calls, &r->plain);
    leave(&plain_program, &plain);
    time_one(&z280_program, &r->setting, calls, &r->z280);
    leave(&z280_program, &other);
    same("z280", &other, &plain);
    if (!z80ex_program || r->setting.kind != OFF || r->setting.user)
        return;
    time_one(z80ex_program, &r->setting, calls, &r->z80ex);
    leave(z80ex_program, &other);
    drop_flags(&plain, r->setting.guest);
    drop_flags(&other, r->setting.guest);
    same("z80ex", &other, &plain);
}

/* All rows of one guest stand beside the one figure of libz80ex. */
static void show_row(const struct row *r, double n, double z80ex)
{
    printf("%-10s %-7s %-11s %9.1f %9.1f", r->setting.guest->name, r->setting.user ? "user" : "system",
           kinds[r->setting.kind], n / r->z280, n / r->plain);
    if (r->z80ex)
        printf(" %9.1f", n / r->z80ex);
    else
        printf(" %9s", "-");
    printf(" %11.2f", r->plain / r->z280);
    if (z80ex)
        printf(" %11.2f\n", z80ex / r->z280);
    else
        printf(" %11s\n", "-");
}

static struct row rows[GUESTS][2 * KINDS];

static void time_guests(long calls)
{
    for (int g = 0; g < GUESTS; g++)
        for (int k = 0; k < 2 * KINDS; k++) {
            rows[g][k].setting = (struct setting){ &guests[g], k % KINDS, k / KINDS };
            take_round(&rows[g][k], calls);
        }
}

static void show_guests(long calls)
{
    printf("%-10s %-7s %-11s %9s %9s %9s %11s %11s\n", "guest", "mode", "translation", "z280", "plain", "z80ex",
           "z280:plain", "z280:z80ex");
    for (int g = 0; g < GUESTS; g++)
        for (int k = 0; k < 2 * KINDS; k++)
            show_row(&rows[g][k], calls * (double)STEPS / 1e6, rows[g][0].z80ex);
}

/* ── the stored form ── */

enum { FORM_CALLS = 20000 };

static uint8_t form[Z280_FORM], answer[Z280_ANSWER];

static uint8_t both_z280(void) { return z280_run(form, sizeof form, mem, LEN, 0, answer, sizeof answer); }
static uint8_t both_plain(void) { return plain_call_run(form, sizeof form, mem, LEN, 0, answer, sizeof answer); }
static uint8_t read_z280(void) { return z280_make_valid(form, sizeof form, 31); }
static uint8_t read_plain(void) { return plain_call_make_valid(form, sizeof form, 31); }
static uint8_t write_z280(void) { return z280_reset(form, sizeof form, FRAMES); }
static uint8_t write_plain(void) { return plain_call_reset(form, sizeof form, FRAMES); }

struct form_row {
    const char *name;
    uint8_t (*z280)(void), (*plain)(void), refusal;
    double best[2];
};

static struct form_row form_rows[] = {
    { .name = "read and write: run of budget 0", .z280 = both_z280, .plain = both_plain },
    { .name = "read: make_valid, refused by 7", .z280 = read_z280, .plain = read_plain, .refusal = 7 },
    { .name = "write: reset", .z280 = write_z280, .plain = write_plain },
};
enum { FORM_ROWS = sizeof form_rows / sizeof *form_rows };

/* From the record that the last guest leaves, every descriptor valid; z280 and plain must leave the same form. */
static void time_form(struct form_row *r)
{
    uint8_t left[2][Z280_FORM];
    struct machine m;
    plain_program.record(&m);
    for (int who = 0; who < 2; who++) {
        uint8_t (*call)(void) = who ? r->plain : r->z280;
        unsigned others = 0;
        form_pack(&m, FRAMES, form);
        double t = seconds();
        for (int i = 0; i < FORM_CALLS; i++)
            others += call() != r->refusal;
        keep_least(&r->best[who], seconds() - t);
        memcpy(left[who], form, sizeof form);
        if (others || memcmp(left[who], left[0], sizeof form)) {
            fprintf(stderr, "%s: another refusal or form\n", r->name);
            exit(1);
        }
    }
}

static void show_forms(void)
{
    printf("\n%-31s %9s %9s %21s\n", "stored form, ns a call", "z280", "plain", "z280:plain");
    for (const struct form_row *r = form_rows; r < form_rows + FORM_ROWS; r++)
        printf("%-31s %9.0f %9.0f %21.2f\n", r->name, r->best[0] * 1e9 / FORM_CALLS, r->best[1] * 1e9 / FORM_CALLS,
               r->best[0] / r->best[1]);
}

/* ── one program alone ── */

static int one(int argc, char **argv)
{
    struct setting s = { .user = argc > 6 };
    const struct program *p = NULL, *all[] = { &z280_program, &plain_program, z80ex_program };
    if (argc < 6)
        return fprintf(stderr, "bench one z280|plain|z80ex GUEST off|on|separated calls [user]\n"), 2;
    for (int i = 0; i < 3; i++)
        if (all[i] && !strcmp(argv[2], all[i]->name))
            p = all[i];
    for (int g = 0; g < GUESTS; g++)
        if (!strcmp(argv[3], guests[g].name))
            s.guest = &guests[g];
    while (s.kind < KINDS && strcmp(argv[4], kinds[s.kind]))
        s.kind++;
    if (!p || !s.guest || s.kind == KINDS)
        return fprintf(stderr, "bench one: %s %s %s is not here\n", argv[2], argv[3], argv[4]), 2;
    p->prepare(&s);
    p->run(atol(argv[5]));
    printf("%ld guest instructions\n", atol(argv[5]) * STEPS);
    return 0;
}

int main(int argc, char **argv)
{
    if (argc > 1 && !strcmp(argv[1], "one"))
        return one(argc, argv);
    int rounds = argc > 1 ? atoi(argv[1]) : 7;
    long calls = argc > 2 ? atol(argv[2]) : 40;
    if (rounds < 1 || calls < 1)
        return fprintf(stderr, "bench [rounds [calls]]: each at least 1\n"), 2;
    for (int i = 0; i < rounds; i++) {
        time_guests(calls);
        for (int k = 0; k < FORM_ROWS; k++)
            time_form(&form_rows[k]);
    }
    printf("million guest instructions per second; best of %d rounds of %ld instructions, processor time\n", rounds,
           calls * STEPS);
    show_guests(calls);
    show_forms();
    return 0;
}
