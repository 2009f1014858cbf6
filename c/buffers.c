/* Answer, record and all buffers of starts and calls for rounds, held to worked examples. Says what
 * differs; exit status 0 only if nothing does. */
#include <string.h>

#include "jugnayap.h"
#include "same.h"

enum { BITS = 3, CHECKS = 1, EDGES = 3, CERTIFICATE = JUGNAYAP_CERTIFICATE_LENGTH(CHECKS) };
enum { ROUNDS = JUGNAYAP_MAX_ROUNDS };

#include "lent.h"

static const uint8_t code[] = {3, 0, 1, 0, 0, 0, 3, 0, 0, 0, 1, 0, 2, 0};
static const int16_t leaning[BITS] = {4000, 4000, -2000};
static const JugnayapRun fresh = {.rounds = 0, .status = JUGNAYAP_RUNNING};

/* Each buffer is lent with one element more than is needed, and has one more that is not lent. */
enum { LENT = 1, SPARE = 2 };

#define ARRAY(element, name, need, first) element name[need + SPARE];
typedef struct {
    EACH_BUFFER(ARRAY)
} Buffers;

#define MORE(element, name, need, first) need + LENT,
static const Lengths lent = {EACH_BUFFER(MORE)};
static const Lengths none = {0};

static void same_called(const char *call, JugnayapCalled got, JugnayapCalled wanted)
{
    SAME(number);
    SAME(run.rounds);
    SAME(run.status);
}

static void same_buffers(const char *call, Buffers got, Buffers wanted)
{
#define SAME_BUFFER(element, name, need, first) SAME_ALL(name);
    EACH_BUFFER(SAME_BUFFER)
}

/* Numbers that no call writes, different in each buffer; copies, offsets and sums are of no run. */
static Buffers junk(void)
{
    Buffers b;
#define FILL(element, name, need, first) \
    for (int i = 0; i < need + SPARE; i++) \
        b.name[i] = (element)(first + i);
    EACH_BUFFER(FILL)
    return b;
}

static Buffers started(void)
{
    Buffers b = junk();
    memset(b.copies, 0, EDGES * sizeof b.copies[0]);
    memset(b.offsets, 0, EDGES * sizeof b.offsets[0]);
    memset(b.sums, 0, BITS * sizeof b.sums[0]);
    return b;
}

/* What a round shows. */
typedef struct {
    int32_t spins[BITS], copies[EDGES], offsets[EDGES], sums[BITS];
    uint32_t multiplier, mask, depth;
} Shown;

static void show(Buffers *b, const Shown *round)
{
    memcpy(b->spins, round->spins, sizeof round->spins);
    memcpy(b->copies, round->copies, sizeof round->copies);
    memcpy(b->offsets, round->offsets, sizeof round->offsets);
    memcpy(b->sums, round->sums, sizeof round->sums);
    b->multipliers[0] = round->multiplier;
    b->masks[0] = round->mask;
    b->depths[0] = round->depth;
}

static void show_certified(Buffers *b, const Shown *round, const uint8_t *word, const uint8_t *certificate,
                           size_t length)
{
    show(b, round);
    memcpy(b->word, word, BITS);
    memcpy(b->certificate, certificate, length);
}

/* ---- starts ---- */

static JugnayapCalled start(size_t code_len, size_t copies, size_t offsets, size_t sums, Buffers *b)
{
    return jugnayap_start(code, code_len, b->copies, copies, b->offsets, offsets, b->sums, sums);
}

/* A start writes E copies, E offsets and n sums; refused, it leaves them. */
static void starts(void)
{
    Buffers b = junk();
    same_called("copies short", start(sizeof code, 2, 4, 4, &b),
                (JugnayapCalled){.number = JUGNAYAP_REFUSED_BUFFER_SHORT});
    same_called("offsets short", start(sizeof code, 4, 2, 4, &b),
                (JugnayapCalled){.number = JUGNAYAP_REFUSED_BUFFER_SHORT});
    same_called("sums short", start(sizeof code, 4, 4, 2, &b),
                (JugnayapCalled){.number = JUGNAYAP_REFUSED_BUFFER_SHORT});
    same_called("code a byte short", start(sizeof code - 1, 4, 4, 4, &b),
                (JugnayapCalled){.number = JUGNAYAP_REFUSED_LENGTH_WRONG});
    same_called("nothing lent", jugnayap_start(code, sizeof code, NULL, 0, NULL, 0, NULL, 0),
                (JugnayapCalled){.number = JUGNAYAP_REFUSED_BUFFER_SHORT});
    same_buffers("refused start", b, junk());
    same_called("start", start(sizeof code, 4, 4, 4, &b), (JugnayapCalled){.number = 0, .run = fresh});
    same_buffers("start", b, started());
}

/* ---- calls for rounds ---- */

static JugnayapCalled rounds(const int16_t *frame, JugnayapRun run, uint32_t wanted, Lengths n, Buffers *b)
{
    return jugnayap_rounds(code, sizeof code, frame, BITS, run, wanted EACH_BUFFER(LEND));
}

static JugnayapCalled rounds_on_nothing(const int16_t *frame, size_t frame_len, JugnayapRun run,
                                        uint32_t wanted)
{
#define LEND_NONE(element, name, need, first) , NULL, 0
    return jugnayap_rounds(code, sizeof code, frame, frame_len, run, wanted EACH_BUFFER(LEND_NONE));
}

/* One round more of a run that goes on: the record after it, and what it leaves. */
static void goes_on(const char *what, const int16_t *frame, JugnayapRun run, const Shown *shown, Buffers *b,
                    Buffers *wanted)
{
    JugnayapRun after = {run.rounds + 1, JUGNAYAP_RUNNING};
    same_called(what, rounds(frame, run, 1, lent, b), (JugnayapCalled){.run = after});
    show(wanted, shown);
    same_buffers(what, *b, *wanted);
}

/* (4000, 4000, -2000), a round at a time: word 000 after round 3. In rounds 2 and 3 spin plus offset goes
 * beyond U, and the depth is that of the clipped numbers. */
static void three_rounds(void)
{
    static const Shown shown[] = {
        {{4000, 4000, -2000}, {2032, 2032, -32}, {1968, 1968, -1968}, {64, 64, 1936}, 1968, 4, 5904},
        {{4064, 4064, -64}, {2698, 2698, 1302}, {3334, 3334, -3334}, {-636, -636, 4636}, 3334, 4, 6128},
        {{3364, 3364, 2636}, {3365, 3365, 2635}, {3333, 3333, -3333}, {32, 32, 5968}, 3333, 4, 4794}};
    static const uint8_t word[] = {0, 0, 0}, certificate[] = {1, 0, 1, 0, 0, 0, 0x05, 0x0D, 0, 0, 4, 0, 0, 0};
    const JugnayapRun first = {1, JUGNAYAP_RUNNING}, second = {2, JUGNAYAP_RUNNING},
                      third = {3, JUGNAYAP_CERTIFIED};
    Buffers b = started(), wanted = started();
    same_called("0 rounds", rounds(leaning, fresh, 0, lent, &b), (JugnayapCalled){.run = fresh});
    same_buffers("0 rounds", b, wanted);
    goes_on("round 1", leaning, fresh, &shown[0], &b, &wanted);
    goes_on("round 2", leaning, first, &shown[1], &b, &wanted);
    same_called("round 3", rounds(leaning, second, 1, lent, &b), (JugnayapCalled){.run = third});
    show_certified(&wanted, &shown[2], word, certificate, sizeof certificate);
    same_buffers("round 3", b, wanted);
    same_called("round 4", rounds(leaning, third, 1, lent, &b),
                (JugnayapCalled){.number = JUGNAYAP_REFUSED_RUN_ENDED, .run = third});
    same_buffers("round 4", b, wanted);
}

/* (-4000, -4000, -2000) in one call: word 110 after round 3. No more is lent than is needed. */
static void two_ones(void)
{
    static const int16_t frame[BITS] = {-4000, -4000, -2000};
    static const Shown last = {
        {-3364, -3364, 2636}, {-3365, -3365, 2635}, {-3333, -3333, -3333}, {-32, -32, 5968}, 3333, 7, 4794};
    static const uint8_t word[] = {1, 1, 0}, certificate[] = {1, 0, 1, 0, 0, 0, 0x05, 0x0D, 0, 0, 7, 0, 0, 0};
    Buffers b = started(), wanted = started();
    same_called("word 110", rounds(frame, fresh, ROUNDS, needed, &b),
                (JugnayapCalled){.run = {.rounds = 3, .status = JUGNAYAP_CERTIFIED}});
    show_certified(&wanted, &last, word, certificate, sizeof certificate);
    same_buffers("word 110", b, wanted);
}

/* (10, 10, 10) needs no cut: 4 bytes of the certificate are written, and just these are judged. */
static void no_cut(void)
{
    static const int16_t frame[BITS] = {10, 10, 10};
    static const Shown last = {{10, 10, 10}, {10, 10, 10}, {0, 0, 0}, {10, 10, 10}, 0, 0, 0};
    static const uint8_t word[] = {0, 0, 0}, certificate[] = {0, 0, 1, 0};
    Buffers b = started(), wanted = started();
    same_called("no cut", rounds(frame, fresh, 5, lent, &b),
                (JugnayapCalled){.run = {.rounds = 1, .status = JUGNAYAP_CERTIFIED}});
    show_certified(&wanted, &last, word, certificate, sizeof certificate);
    same_buffers("no cut", b, wanted);
    same_verdict("4 + 10q bytes",
                 jugnayap_judge(code, sizeof code, frame, BITS, b.word, BITS, b.certificate,
                                jugnayap_certificate_length(b.certificate)),
                 (JugnayapVerdict){.kind = JUGNAYAP_PASSED, .sole = 1});
    same_verdict("all bytes lent",
                 jugnayap_judge(code, sizeof code, frame, BITS, b.word, BITS, b.certificate, CERTIFICATE),
                 (JugnayapVerdict){.number = JUGNAYAP_REFUSED_CERTIFICATE_WRONG});
}

/* (1, 4096, 0) has a cut in round 1 and none in round 2, done by two calls or by one. */
static void cut_once(void)
{
    static const int16_t frame[BITS] = {1, JUGNAYAP_UNIT, 0};
    static const Shown shown[] = {{{1, 4096, 0}, {0, 4095, 1}, {1, 1, -1}, {-1, 4094, 2}, 1, 4, 1},
                                  {{0, 4096, 2}, {1, 4096, 1}, {0, 1, 0}, {1, 4095, 1}, 0, 0, 0}};
    const JugnayapRun first = {1, JUGNAYAP_RUNNING}, second = {2, JUGNAYAP_RUNNING};
    Buffers b = started(), wanted = started();
    goes_on("cut", frame, fresh, &shown[0], &b, &wanted);
    goes_on("cut no more", frame, first, &shown[1], &b, &wanted);
    b = started();
    same_called("both rounds", rounds(frame, fresh, 2, lent, &b), (JugnayapCalled){.run = second});
    same_buffers("both rounds", b, wanted);
}

/* A frame of zeros, from the start and resumed: all is 0, and word and certificate stay. */
static void spent(void)
{
    static const int16_t frame[BITS] = {0, 0, 0};
    static const Shown last = {0};
    static const uint32_t done[] = {0, 1000, ROUNDS - 1}, wants[] = {ROUNDS, ROUNDS, 1};
    const JugnayapRun end = {.rounds = ROUNDS, .status = JUGNAYAP_SPENT};
    for (size_t i = 0; i < COUNT(done); i++) {
        Buffers b = started(), wanted = started();
        JugnayapRun run = {.rounds = done[i], .status = JUGNAYAP_RUNNING};
        same_called("spent", rounds(frame, run, wants[i], lent, &b), (JugnayapCalled){.run = end});
        show(&wanted, &last);
        same_buffers("spent", b, wanted);
    }
}

/* ---- refused calls: the record comes back as handed in, and no buffer changes ---- */

static void refused(const char *call, uint32_t number, JugnayapRun run, uint32_t wanted, Lengths n, Buffers b)
{
    const Buffers before = b;
    same_called(call, rounds(leaning, run, wanted, n, &b), (JugnayapCalled){.number = number, .run = run});
    same_buffers(call, b, before);
}

static void refused_records(void)
{
    static const struct {
        const char *call;
        uint32_t number;
        JugnayapRun run;
        uint32_t wanted;
    } cases[] = {{"1025 rounds", JUGNAYAP_REFUSED_ASKED_TOO_MUCH, {7, JUGNAYAP_RUNNING}, ROUNDS + 1},
                 {"4294967295 rounds", JUGNAYAP_REFUSED_ASKED_TOO_MUCH, {9, JUGNAYAP_SPENT}, UINT32_MAX},
                 {"certified before", JUGNAYAP_REFUSED_RUN_ENDED, {3, JUGNAYAP_CERTIFIED}, 1},
                 {"spent before", JUGNAYAP_REFUSED_RUN_ENDED, {ROUNDS, JUGNAYAP_SPENT}, 1},
                 {"spent after 70000", JUGNAYAP_REFUSED_RUN_ENDED, {70000, JUGNAYAP_SPENT}, 0},
                 {"running after 1024", JUGNAYAP_REFUSED_RUN_DAMAGED, {ROUNDS, JUGNAYAP_RUNNING}, 0},
                 {"running after 1025", JUGNAYAP_REFUSED_RUN_DAMAGED, {ROUNDS + 1, JUGNAYAP_RUNNING}, 1},
                 {"running after 4294967295", JUGNAYAP_REFUSED_RUN_DAMAGED, {UINT32_MAX, JUGNAYAP_RUNNING}, 1},
                 {"status 3", JUGNAYAP_REFUSED_RUN_DAMAGED, {5, 3}, 1},
                 {"status 4294967295", JUGNAYAP_REFUSED_RUN_DAMAGED, {UINT32_MAX, UINT32_MAX}, 1}};
    for (size_t i = 0; i < COUNT(cases); i++)
        refused(cases[i].call, cases[i].number, cases[i].run, cases[i].wanted, lent, started());
}

static void refused_lengths(void)
{
    const JugnayapRun run = {.rounds = 2, .status = 9};
    Lengths n = needed;
#define SHORT(element, name, need, first) \
    n.name--; \
    refused(#name " short", JUGNAYAP_REFUSED_BUFFER_SHORT, run, 1, n, started()); \
    refused(#name " short, 0 rounds", JUGNAYAP_REFUSED_BUFFER_SHORT, fresh, 0, n, started()); \
    n.name++;
    EACH_BUFFER(SHORT)
    refused("nothing lent", JUGNAYAP_REFUSED_BUFFER_SHORT, run, 1, none, started());
    same_called("nothing lent, NULL", rounds_on_nothing(leaning, BITS, run, 1),
                (JugnayapCalled){.number = JUGNAYAP_REFUSED_BUFFER_SHORT, .run = run});
}

static void refused_edges(void)
{
    const JugnayapRun run = {.rounds = 2, .status = JUGNAYAP_RUNNING};
    refused("no start", JUGNAYAP_REFUSED_RUN_DAMAGED, run, 1, lent, junk());
    Buffers b = started();
    b.sums[2] = b.copies[2] = -JUGNAYAP_UNIT - 1;
    refused("copy -4097", JUGNAYAP_REFUSED_RUN_DAMAGED, run, 1, lent, b);
    b = started();
    b.offsets[1] = 2 * 8192 + 1;
    b.sums[1] = -b.offsets[1];
    refused("offset 16385 after 2 rounds", JUGNAYAP_REFUSED_RUN_DAMAGED, run, 1, lent, b);
}

/* Copies and offsets that 2 rounds may leave, with their sums; what is past the third sum is of no run. */
static Buffers half_done(void)
{
    static const int32_t copies[EDGES] = {JUGNAYAP_UNIT, 0, -7}, offsets[EDGES] = {-2 * 8192, 5, 0},
                         sums[BITS] = {JUGNAYAP_UNIT + 2 * 8192, -5, -7};
    Buffers b = started();
    memcpy(b.copies, copies, sizeof copies);
    memcpy(b.offsets, offsets, sizeof offsets);
    memcpy(b.sums, sums, sizeof sums);
    return b;
}

/* Sums off by these; together they may come to nothing. */
static void refused_sums(void)
{
    static const int32_t off[][BITS] = {{1, 0, 0},   {0, -1, 0},      {0, 0, 1},             {1, -1, 0},
                                        {3, -1, -2}, {0, 0, 1 << 24}, {0, INT32_MIN + 5, 0}, {0, 0, INT32_MAX}};
    const JugnayapRun run = {.rounds = 2, .status = JUGNAYAP_RUNNING}, end = {2, JUGNAYAP_CERTIFIED};
    for (size_t i = 0; i < COUNT(off); i++) {
        Buffers b = half_done();
        for (size_t bit = 0; bit < BITS; bit++)
            b.sums[bit] += off[i][bit];
        refused("wrong sums", JUGNAYAP_REFUSED_RUN_DAMAGED, run, 1, lent, b);
        refused("wrong sums, 0 rounds", JUGNAYAP_REFUSED_RUN_DAMAGED, run, 0, lent, b);
        refused("wrong sums, run ended", JUGNAYAP_REFUSED_RUN_ENDED, end, 1, lent, b);
    }
    Buffers b = half_done();
    same_called("true sums", rounds(leaning, run, 0, lent, &b), (JugnayapCalled){.run = run});
    same_buffers("true sums", b, half_done());
}

static void refused_frames(void)
{
    static const int16_t too_large[BITS] = {4000, 4000, JUGNAYAP_MAX_FRAME + 1};
    const JugnayapRun run = {.rounds = 70000, .status = 9};
    Buffers b = started();
    same_called("frame out of range", rounds(too_large, run, ROUNDS + 1, lent, &b),
                (JugnayapCalled){.number = JUGNAYAP_REFUSED_FRAME_RANGE, .run = run});
    same_called("no frame, no buffers", rounds_on_nothing(NULL, 0, run, ROUNDS + 1),
                (JugnayapCalled){.number = JUGNAYAP_REFUSED_FRAME_LENGTH, .run = run});
    same_buffers("refused frames", b, started());
}

int main(void)
{
    starts();
    three_rounds();
    two_ones();
    no_cut();
    cut_once();
    spent();
    refused_records();
    refused_lengths();
    refused_edges();
    refused_sums();
    refused_frames();
    return account("buffers");
}
