/* Comparing, for fields.c, buffers.c and header.c: each difference is printed, and counted for the exit status. */
#ifndef SAME_H
#define SAME_H

#include <inttypes.h>
#include <stddef.h>
#include <stdio.h>

#include "jugnayap.h"

static int compared, different;

static void same(const char *call, const char *what, size_t place, int64_t got, int64_t wanted)
{
    compared++;
    if (got == wanted)
        return;
    different++;
    printf("%s: %s[%zu] is %" PRId64 " and not %" PRId64 "\n", call, what, place, got, wanted);
}

#define COUNT(array) (sizeof(array) / sizeof(array)[0])

/* A field of `got` and `wanted`, and an array of them. A field alone is its own place 0. */
#define SAME(field) same(call, #field, 0, got.field, wanted.field)
#define SAME_ALL(field) \
    for (size_t i = 0; i < COUNT(got.field); i++) \
        same(call, #field, i, got.field[i], wanted.field[i])

static void same_verdict(const char *call, JugnayapVerdict got, JugnayapVerdict wanted)
{
    SAME(number);
    SAME(kind);
    SAME(value);
    SAME(sole);
}

/* The program's last line, and its exit status. */
static int account(const char *program)
{
    printf("%s: %d compared, %d different\n", program, compared, different);
    return different == 0 ? 0 : 1;
}

#endif
