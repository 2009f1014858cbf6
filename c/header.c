/* The numbers that the header states, held to what the library answers: its version, each limit at its last
 * number and one past it, the lengths, what a round leaves of its cuts, and the refusals that fields.c and
 * buffers.c don't meet. Says what differs; exit status 0 only if nothing does. */
#include <string.h>

#include "jugnayap.h"
#include "same.h"

/* Enough for any code. */
enum {
    BITS = JUGNAYAP_MAX_BITS,
    CHECKS = JUGNAYAP_MAX_CHECKS,
    EDGES = JUGNAYAP_MAX_EDGES,
    CERTIFICATE = JUGNAYAP_MAX_CERTIFICATE
};

#include "lent.h"

static void same_number(const char *call, uint32_t got, uint32_t wanted)
{
    same(call, "number", 0, got, wanted);
}

static uint8_t *put(uint8_t *at, size_t value, size_t bytes)
{
    for (size_t i = 0; i < bytes; i++)
        *at++ = (uint8_t)(value >> 8 * i);
    return at;
}

static void versions(void)
{
    char text[32];
    snprintf(text, sizeof text, "%d.%d.%d", JUGNAYAP_VERSION_MAJOR, JUGNAYAP_VERSION_MINOR,
             JUGNAYAP_VERSION_PATCH);
    same_number("version", jugnayap_version(), JUGNAYAP_VERSION);
    same("version", "text", 0, strcmp(text, JUGNAYAP_VERSION_STRING), 0);
}

/* ---- codes ---- */

/* Checks of `degree` members, and a last one of `last`. Each takes the bits after those of the check before,
 * and begins again where they are used up. */
typedef struct {
    size_t bits, checks, degree, last;
} Shape;

/* All limits at once, but for the degrees. */
static const Shape largest = {JUGNAYAP_MAX_BITS, JUGNAYAP_MAX_CHECKS, 4,
                              JUGNAYAP_MAX_EDGES - 4 * (JUGNAYAP_MAX_CHECKS - 1)};

/* One check on bits 0, 1 and 2; and 300 such, each on bits of its own. */
static const Shape three = {3, 1, 3, 3}, apart = {900, 300, 3, 3};

/* Room for an edge too many. */
typedef struct {
    uint8_t bytes[JUGNAYAP_CODE_LENGTH(JUGNAYAP_MAX_CHECKS, JUGNAYAP_MAX_EDGES + 1)];
    size_t length;
} Code;

static size_t edges_of(Shape s)
{
    return (s.checks - 1) * s.degree + s.last;
}

static size_t degree_of(Shape s, size_t check)
{
    return check + 1 < s.checks ? s.degree : s.last;
}

static Code code_of(Shape s)
{
    Code code = {.length = JUGNAYAP_CODE_LENGTH(s.checks, edges_of(s))};
    uint8_t *at = put(put(code.bytes, s.bits, 2), s.checks, 2);
    for (size_t i = 0; i < s.checks; i++)
        at = put(put(at, i * s.degree, 2), degree_of(s, i), 2);
    for (size_t i = 0; i < s.checks; i++)
        for (size_t k = 0; k < degree_of(s, i); k++)
            at = put(at, i * s.degree % s.bits + k, 2);
    return code;
}

static void same_shape(const char *call, Shape s, uint32_t refusal)
{
    const Code code = code_of(s);
    const JugnayapTable got = jugnayap_check_table(code.bytes, code.length);
    const size_t accepted = refusal == 0;
    same_number(call, got.number, refusal);
    same(call, "bits", 0, got.bits, (int64_t)(accepted * s.bits));
    same(call, "checks", 0, got.checks, (int64_t)(accepted * s.checks));
    same(call, "edges", 0, got.edges, (int64_t)(accepted * edges_of(s)));
}

static void codes(void)
{
    const size_t degree = JUGNAYAP_MAX_DEGREE;
    Shape bit_more = largest, edge_more = largest;
    bit_more.bits++;
    edge_more.last++;
    same_shape("the largest code", largest, 0);
    same_shape("a bit more", bit_more, JUGNAYAP_REFUSED_SIZE_RANGE);
    same_shape("an edge more", edge_more, JUGNAYAP_REFUSED_START_WRONG);
    same_shape("a check more", (Shape){1, JUGNAYAP_MAX_CHECKS + 1, 1, 1}, JUGNAYAP_REFUSED_SIZE_RANGE);
    same_shape("the largest check", (Shape){degree, 1, degree, degree}, 0);
    same_shape("a member more", (Shape){degree + 1, 1, degree + 1, degree + 1}, JUGNAYAP_REFUSED_COUNT_RANGE);
    same_shape("a check without members", (Shape){3, 2, 3, 0}, 0);
    same_shape("all but one without", (Shape){1, JUGNAYAP_MAX_CHECKS, 0, 1}, 0);
    same_shape("all without", (Shape){1, JUGNAYAP_MAX_CHECKS, 0, 0}, JUGNAYAP_REFUSED_BIT_DEGREE);
    same_shape("a bit in all checks that it may be in", (Shape){1, degree, 1, 1}, 0);
    same_shape("in one more", (Shape){1, degree + 1, 1, 1}, JUGNAYAP_REFUSED_BIT_DEGREE);
    same_shape("a member that is no bit", (Shape){3, 1, 4, 4}, JUGNAYAP_REFUSED_MEMBER_WRONG);
}

/* ---- frames and spins ---- */

static void frame_of(int16_t number, uint32_t refusal)
{
    const Code code = code_of(three);
    const int16_t frame[3] = {number, 0, 0};
    const uint8_t word[3] = {0, 0, 0};
    const JugnayapAgreement got = jugnayap_agreement(code.bytes, code.length, frame, 3, word, 3);
    same_number("frame", got.number, refusal);
    same("frame", "agreement", 0, got.agreement, refusal == 0 ? number : 0);
}

static void point_of(int32_t spin, uint32_t refusal)
{
    const Code code = code_of(three);
    const int32_t spins[3] = {spin, 0, 0};
    same_number("spin", jugnayap_search_cut(code.bytes, code.length, spins, 3, 0).number, refusal);
}

static void frames_and_points(void)
{
    frame_of(JUGNAYAP_MAX_FRAME, 0);
    frame_of(-JUGNAYAP_MAX_FRAME, 0);
    frame_of(JUGNAYAP_MAX_FRAME + 1, JUGNAYAP_REFUSED_FRAME_RANGE);
    frame_of(-JUGNAYAP_MAX_FRAME - 1, JUGNAYAP_REFUSED_FRAME_RANGE);
    point_of(JUGNAYAP_UNIT, 0);
    point_of(-JUGNAYAP_UNIT, 0);
    point_of(JUGNAYAP_UNIT + 1, JUGNAYAP_REFUSED_POINT_WRONG);
    point_of(-JUGNAYAP_UNIT - 1, JUGNAYAP_REFUSED_POINT_WRONG);
}

/* ---- runs ---- */

#define ARRAY(element, name, need, first) element name[need];
static struct {
    EACH_BUFFER(ARRAY)
} left, *const b = &left;

static JugnayapCalled decoded(const Code *code, const int16_t *frame, size_t bits, uint32_t wanted,
                              size_t room)
{
    Lengths n = needed;
    n.certificate = room;
    JugnayapCalled start = jugnayap_start(code->bytes, code->length, left.copies, n.copies, left.offsets,
                                          n.offsets, left.sums, n.sums);
    same_number("start", start.number, 0);
    return jugnayap_rounds(code->bytes, code->length, frame, bits, start.run, wanted EACH_BUFFER(LEND));
}

/* A frame of zeros takes all rounds. */
static void rounds(void)
{
    static const int16_t zeros[JUGNAYAP_MAX_BITS];
    const Code code = code_of(three), large = code_of(largest);
    JugnayapCalled got = decoded(&code, zeros, 3, JUGNAYAP_MAX_ROUNDS, CERTIFICATE);
    same_number("all rounds", got.number, 0);
    same("all rounds", "rounds", 0, got.run.rounds, JUGNAYAP_MAX_ROUNDS);
    same("all rounds", "status", 0, got.run.status, JUGNAYAP_SPENT);
    got = decoded(&code, zeros, 3, JUGNAYAP_MAX_ROUNDS + 1, CERTIFICATE);
    same_number("a round more", got.number, JUGNAYAP_REFUSED_ASKED_TOO_MUCH);
    got = decoded(&large, zeros, BITS, 1, CERTIFICATE);
    same_number("the longest certificate", got.number, 0);
    got = decoded(&large, zeros, BITS, 1, CERTIFICATE - 1);
    same_number("a byte less", got.number, JUGNAYAP_REFUSED_BUFFER_SHORT);
}

/* 300 frames of three bits in one, each with a cut: the certificate's q takes both of its bytes. */
static void written_length(void)
{
    const Code code = code_of(apart);
    int16_t frame[900];
    for (size_t i = 0; i < COUNT(frame); i++)
        frame[i] = i % 3 < 2 ? 4000 : -2000;
    same("300 cuts", "status", 0, decoded(&code, frame, COUNT(frame), 3, CERTIFICATE).run.status,
         JUGNAYAP_CERTIFIED);
    const size_t length = jugnayap_certificate_length(left.certificate);
    same("300 cuts", "length", 0, (int64_t)length, JUGNAYAP_CERTIFICATE_LENGTH(300));
    same_verdict("300 cuts",
                 jugnayap_judge(code.bytes, code.length, frame, COUNT(frame), left.word, COUNT(frame),
                                left.certificate, length),
                 (JugnayapVerdict){.kind = JUGNAYAP_PASSED, .sole = 1});
}

/* One check on one bit at -U: no cut is deeper. */
static void deepest_cut(void)
{
    static const int16_t frame[1] = {-JUGNAYAP_MAX_FRAME};
    static const int32_t spins[1] = {-JUGNAYAP_UNIT};
    const Code code = code_of((Shape){1, 1, 1, 1});
    same("deepest cut", "depth", 0, jugnayap_search_cut(code.bytes, code.length, spins, 1, 0).depth,
         JUGNAYAP_MAX_DEPTH);
    same_number("deepest cut", decoded(&code, frame, 1, 1, CERTIFICATE).number, 0);
    same("deepest cut", "depths", 0, left.depths[0], JUGNAYAP_MAX_DEPTH);
}

/* Masks and depths, where other numbers stood, are the cut search's at copy plus offset, clipped. Each bit
 * has one edge here, and the edge has the bit's number. */
static void cuts_of_a_round(uint32_t wanted)
{
    const Code code = code_of(apart);
    int16_t frame[900];
    int32_t spins[900];
    size_t cuts = 0;
    for (size_t i = 0; i < COUNT(frame); i++)
        frame[i] = (int16_t)((int)(i * i * 7919 % 16383) - JUGNAYAP_MAX_FRAME);
    memset(left.masks, 0xFF, sizeof left.masks);
    memset(left.depths, 0xFF, sizeof left.depths);
    same("cuts", "rounds", 0, decoded(&code, frame, COUNT(frame), wanted, CERTIFICATE).run.rounds, wanted);
    for (size_t i = 0; i < COUNT(spins); i++) {
        const int32_t whole = left.copies[i] + left.offsets[i];
        spins[i] = whole > JUGNAYAP_UNIT ? JUGNAYAP_UNIT : whole < -JUGNAYAP_UNIT ? -JUGNAYAP_UNIT : whole;
    }
    for (size_t i = 0; i < 300; i++) {
        const JugnayapCut got = jugnayap_search_cut(code.bytes, code.length, spins, COUNT(spins), i);
        same("cuts", "masks", i, left.masks[i], got.mask);
        same("cuts", "depths", i, left.depths[i], got.depth);
        cuts += got.depth != 0;
    }
    same("cuts", "some but not all", 0, 0 < cuts && cuts < 300, 1);
}

/* A second check without members: its multiplier, mask and depth become 0, and no entry names it. */
static void check_without_members(void)
{
    static const int16_t frame[3] = {4000, 4000, -2000};
    const Code code = code_of((Shape){3, 2, 3, 0});
    left.multipliers[1] = left.masks[1] = left.depths[1] = 7;
    const JugnayapCalled got = decoded(&code, frame, 3, 3, CERTIFICATE);
    same("no members", "status", 0, got.run.status, JUGNAYAP_CERTIFIED);
    same("no members", "multipliers", 0, left.multipliers[0], 3333);
    same("no members", "multipliers", 1, left.multipliers[1], 0);
    same("no members", "masks", 0, left.masks[0], 4);
    same("no members", "masks", 1, left.masks[1], 0);
    same("no members", "depths", 0, left.depths[0], 4794);
    same("no members", "depths", 1, left.depths[1], 0);
    const size_t length = jugnayap_certificate_length(left.certificate);
    same("no members", "length", 0, (int64_t)length, JUGNAYAP_CERTIFICATE_LENGTH(1));
    same_verdict("no members",
                 jugnayap_judge(code.bytes, code.length, frame, 3, left.word, 3, left.certificate, length),
                 (JugnayapVerdict){.kind = JUGNAYAP_PASSED, .sole = 1});
}

/* ---- certificates of two entries on each check of the largest code, as far as q goes ---- */

typedef struct {
    size_t entries, scale, multiplier;
    uint8_t masks[2]; /* of the two */
} Entries;

static void same_entries(const char *call, Entries e, uint32_t refusal)
{
    static const int16_t frame[JUGNAYAP_MAX_BITS];
    static const uint8_t zeros[JUGNAYAP_MAX_BITS];
    const Code code = code_of(largest);
    uint8_t bytes[JUGNAYAP_CERTIFICATE_LENGTH(JUGNAYAP_MAX_ENTRIES + 1)];
    uint8_t *at = put(put(bytes, e.entries, 2), e.scale, 2);
    for (size_t i = 0; i < e.entries; i++)
        at = put(put(at, i / 2, 2), e.multiplier, 4);
    for (size_t i = 0; i < e.entries; i++)
        at = put(at, e.masks[i % 2], 4);
    const JugnayapVerdict got =
        jugnayap_judge(code.bytes, code.length, frame, COUNT(frame), zeros, COUNT(zeros), bytes,
                       jugnayap_certificate_length(bytes));
    same_number(call, got.number, refusal);
}

static void certificates(void)
{
    same_entries("all at their limits",
                 (Entries){JUGNAYAP_MAX_ENTRIES, JUGNAYAP_MAX_SCALE, JUGNAYAP_MAX_MULTIPLIER, {1, 2}}, 0);
    same_entries("an entry more", (Entries){JUGNAYAP_MAX_ENTRIES + 1, 1, 1, {1, 2}},
                 JUGNAYAP_REFUSED_CERTIFICATE_WRONG);
    same_entries("a larger scale", (Entries){2, JUGNAYAP_MAX_SCALE + 1, 1, {1, 2}},
                 JUGNAYAP_REFUSED_SCALE_RANGE);
    same_entries("a larger multiplier", (Entries){2, 1, JUGNAYAP_MAX_MULTIPLIER + 1, {1, 2}},
                 JUGNAYAP_REFUSED_ENTRY_RANGE);
    same_entries("two ones", (Entries){2, 1, 1, {3, 4}}, JUGNAYAP_REFUSED_MASK_WRONG);
    same_entries("masks that fall", (Entries){2, 1, 1, {2, 1}}, JUGNAYAP_REFUSED_ENTRY_ORDER);
}

int main(void)
{
    versions();
    codes();
    frames_and_points();
    rounds();
    written_length();
    deepest_cut();
    for (uint32_t wanted = 1; wanted <= 4; wanted++)
        cuts_of_a_round(wanted);
    check_without_members();
    certificates();
    return account("header");
}
