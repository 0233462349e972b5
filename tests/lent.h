/* Part of z280.c: buffers as a host lends them, each with guard bytes on both sides, or (exact) of its very length from
   malloc, so that valgrind sees every byte beside it. A buffer of length 0 is a null pointer. */
#ifndef LENT_H
#define LENT_H

#include "z280.h"
#include <stdbool.h>
#include <stdio.h>
#include <stdlib.h>
#include <string.h>

enum { GUARD = 64, GUARD_BYTE = 0xA5 };
enum { FORM, MEMORY, ANSWER, BUFFERS };

static bool exact;
static unsigned tests, wrong;

static void check(bool holds, const char *what)
{
    tests++;
    if (!holds) {
        wrong++;
        printf("wrong: %s\n", what);
    }
}

struct buffer {
    uint8_t *base, *at, *kept;      /* kept: the bytes as they were */
    size_t len;
};

/* What a call is lent; delivery's event stands in the answer's place. */
struct lent {
    struct buffer b[BUFFERS];
};

static void lend(struct buffer *b, const uint8_t *bytes, size_t len)
{
    size_t guard = exact || !len ? 0 : GUARD;
    b->len = len;
    b->base = len ? malloc(len + 2 * guard) : NULL;
    b->kept = malloc(len + 1);
    b->at = len ? b->base + guard : NULL;
    if (!len)
        return;
    memset(b->base, GUARD_BYTE, len + 2 * guard);
    memcpy(b->at, bytes, len);
    memcpy(b->kept, bytes, len);
}

static bool stayed(const struct buffer *b) { return !b->len || !memcmp(b->at, b->kept, b->len); }

static bool guarded(const struct buffer *b)
{
    for (int i = 0; !exact && b->len && i < GUARD; i++)
        if (b->base[i] != GUARD_BYTE || b->at[b->len + i] != GUARD_BYTE)
            return false;
    return true;
}

static void give_back(struct buffer *b)
{
    free(b->base);
    free(b->kept);
}

/* ── the form's fields: their first bits and widths, most significant bit first ── */

enum { VERSION = 0, FRAMES = 8, AF = 12, BC = 28, PC = 172, SSP = 188, USP = 204, MSR = 222, IOPAGE = 241, VECTOR = 261,
       MMU = 273, PAGE = 289, PADDING = 801 };

static unsigned field(const uint8_t *form, unsigned at, unsigned width)
{
    unsigned v = 0;
    for (unsigned i = at; i < at + width; i++)
        v = v << 1 | (form[i / 8] >> (7 - i % 8) & 1);
    return v;
}

static void set_field(uint8_t *form, unsigned at, unsigned width, unsigned v)
{
    for (unsigned i = 0; i < width; i++) {
        unsigned bit = at + i, one = v >> (width - 1 - i) & 1;
        form[bit / 8] = (form[bit / 8] & ~(0x80 >> bit % 8)) | (one ? 0x80 >> bit % 8 : 0);
    }
}

static uint32_t number_at(const uint8_t *from, unsigned bytes)
{
    uint32_t v = 0;
    for (unsigned i = bytes; i-- > 0;)
        v = v << 8 | from[i];
    return v;
}

#endif
