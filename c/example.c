/* Decodes a frame, a round at a time, and has the word judged: one check on bits 0, 1 and 2. */
#include <inttypes.h>
#include <stdio.h>

#include "jugnayap.h"
#include "verdict.h"

enum { BITS = 3, CHECKS = 1, EDGES = 3, CERTIFICATE = JUGNAYAP_CERTIFICATE_LENGTH(CHECKS) };

static const uint8_t code[] = {3, 0, 1, 0, 0, 0, 3, 0, 0, 0, 1, 0, 2, 0};
static const int16_t frame[BITS] = {4000, 4000, -2000};

/* The buffers of one run. */
typedef struct {
    int32_t spins[BITS], copies[EDGES], offsets[EDGES], sums[BITS];
    uint32_t multipliers[CHECKS], masks[CHECKS], depths[CHECKS];
    uint8_t word[BITS], certificate[CERTIFICATE];
} Buffers;

static JugnayapCalled one_round(JugnayapRun run, Buffers *b)
{
    return jugnayap_rounds(code, sizeof code, frame, BITS, run, 1, b->spins, BITS, b->copies, EDGES,
                           b->offsets, EDGES, b->sums, BITS, b->multipliers, CHECKS, b->masks, CHECKS,
                           b->depths, CHECKS, b->word, BITS, b->certificate, CERTIFICATE);
}

static void print_round(uint32_t round, const Buffers *b)
{
    printf("round %" PRIu32 " spins", round);
    for (int i = 0; i < BITS; i++)
        printf(" %" PRId32, b->spins[i]);
    printf(" multiplier %" PRIu32 " mask %" PRIu32 " depth %" PRIu32 " copies", b->multipliers[0], b->masks[0],
           b->depths[0]);
    for (int i = 0; i < EDGES; i++)
        printf(" %" PRId32, b->copies[i]);
    printf("\n");
}

static JugnayapVerdict judged(const Buffers *b)
{
    return jugnayap_judge(code, sizeof code, frame, BITS, b->word, BITS, b->certificate,
                          jugnayap_certificate_length(b->certificate));
}

static void print_certified(uint32_t rounds, const Buffers *b)
{
    printf("word ");
    for (int i = 0; i < BITS; i++)
        printf("%d", b->word[i]);
    JugnayapAgreement a = jugnayap_agreement(code, sizeof code, frame, BITS, b->word, BITS);
    printf("\nrounds %" PRIu32 "\nagreement %" PRId64 "\ncertificate", rounds, a.agreement);
    for (size_t i = 0; i < jugnayap_certificate_length(b->certificate); i++)
        printf(" %02X", b->certificate[i]);
    printf("\njudge ");
    print_verdict(judged(b));
}

int main(void)
{
    if (jugnayap_version() != JUGNAYAP_VERSION) {
        fprintf(stderr, "compiled for version %d, linked with %" PRIu32 "\n", JUGNAYAP_VERSION,
                jugnayap_version());
        return 1;
    }
    Buffers b = {0};
    JugnayapCalled called =
        jugnayap_start(code, sizeof code, b.copies, EDGES, b.offsets, EDGES, b.sums, BITS);
    while (called.number == 0 && called.run.status == JUGNAYAP_RUNNING) {
        called = one_round(called.run, &b);
        if (called.number == 0)
            print_round(called.run.rounds, &b);
    }
    if (called.number != 0)
        printf("refused %" PRIu32 "\n", called.number);
    else if (called.run.status == JUGNAYAP_CERTIFIED)
        print_certified(called.run.rounds, &b);
    else
        printf("spent %" PRIu32 "\n", called.run.rounds);
    return 0;
}
