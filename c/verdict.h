/* A verdict as a line of text, for example.c and judge.c. */
#ifndef VERDICT_H
#define VERDICT_H

#include <inttypes.h>
#include <stdio.h>

#include "jugnayap.h"

static void print_verdict(JugnayapVerdict v)
{
    if (v.number != 0)
        printf("refused %" PRIu32 "\n", v.number);
    else if (v.kind == JUGNAYAP_BROKEN)
        printf("check %" PRId64 " broken\n", v.value);
    else if (v.kind == JUGNAYAP_PASSED)
        printf(v.sole ? "certified sole\n" : "certified\n");
    else
        printf("gap %" PRId64 "\n", v.value);
}

#endif
