/* The programs that are timed, behind one face, and the guest that they run. Each has one machine; the memory is shared,
   and belongs to the program that was prepared last. */
#ifndef PROGRAM_H
#define PROGRAM_H

#include "plain.h"

enum { FRAMES = 16, LEN = FRAMES * 4096, STEPS = 65535 };   /* a call is STEPS steps */
enum { OFF, ON, SEPARATED, KINDS };
enum { GUEST_AT = 0x0100, GUEST_DATA = 0x2000, GUEST_PAIRS = 32, GUEST_STACK = 0x3F00 };

struct guest {
    const char *name;
    const uint8_t *code;            /* a loop from GUEST_AT on */
    size_t bytes;
    long flags_at;                  /* where it pushes F, or -1 */
};

struct setting {
    const struct guest *guest;
    int kind, user;
};

struct program {
    const char *name;
    void (*prepare)(const struct setting *s);
    void (*run)(long calls);
    unsigned (*home)(void);         /* steps on to the head of the loop; answers how many it took */
    void (*record)(struct machine *m);
};

extern uint8_t mem[LEN];
extern const struct program plain_program, z280_program;
extern const struct program *const z80ex_program;   /* NULL where libz80ex is not installed */

/* The guest in memory, and the record that it starts from. */
void prepare_guest(struct machine *m, const struct setting *s);

/* Says that a program did not keep to the guest's loop, and ends with status 1. */
void stopped(const char *who);

#endif
