/* Every field that table, cut search, judge and agreement answer, held to worked examples. Says what
 * differs; exit status 0 only if nothing does. */
#include <string.h>

#include "jugnayap.h"
#include "same.h"

enum { UNIT = JUGNAYAP_UNIT, BITS = 3, CERTIFICATE = JUGNAYAP_CERTIFICATE_LENGTH(1) };

/* One check on bits 0, 1 and 2, and the (7,4) Hamming code: checks on 0 2 4 6, 1 2 5 6 and 3 4 5 6, so that
 * n, m and E are three different numbers. */
static const uint8_t three[] = {3, 0, 1, 0, 0, 0, 3, 0, 0, 0, 1, 0, 2, 0};
static const uint8_t hamming[] = {7, 0, 3, 0, 0, 0, 4, 0, 4, 0, 4, 0, 8, 0, 4, 0, 0, 0, 2, 0,
                                  4, 0, 6, 0, 1, 0, 2, 0, 5, 0, 6, 0, 3, 0, 4, 0, 5, 0, 6, 0};

/* Three checks, of which only the second has members: bits 0, 1 and 2. */
static const uint8_t shortened[] = {3, 0, 3, 0, 0, 0, 0, 0, 0, 0, 3, 0, 3, 0, 0, 0, 0, 0, 1, 0, 2, 0};

/* One check on one bit. */
static const uint8_t one[] = {1, 0, 1, 0, 0, 0, 1, 0, 0, 0};

static const int16_t leaning[BITS] = {4000, 4000, -2000};
static const int16_t too_large[BITS] = {4000, 4000, JUGNAYAP_MAX_FRAME + 1};

static void same_table(const char *call, JugnayapTable got, JugnayapTable wanted)
{
    SAME(number);
    SAME(bits);
    SAME(checks);
    SAME(edges);
}

static void same_cut(const char *call, JugnayapCut got, JugnayapCut wanted)
{
    SAME(number);
    SAME(mask);
    SAME(depth);
}

static void same_agreement(const char *call, JugnayapAgreement got, JugnayapAgreement wanted)
{
    SAME(number);
    SAME(agreement);
}

static void tables(void)
{
    same_table("table", jugnayap_check_table(hamming, sizeof hamming),
               (JugnayapTable){.number = 0, .bits = 7, .checks = 3, .edges = 12});
    same_table("table with checks without members", jugnayap_check_table(shortened, sizeof shortened),
               (JugnayapTable){.number = 0, .bits = 3, .checks = 3, .edges = 3});
    same_table("table a byte short", jugnayap_check_table(hamming, sizeof hamming - 1),
               (JugnayapTable){.number = JUGNAYAP_REFUSED_LENGTH_WRONG});
    same_table("no table", jugnayap_check_table(NULL, 0),
               (JugnayapTable){.number = JUGNAYAP_REFUSED_HEADER_SHORT});
}

static void cuts(void)
{
    int32_t spins[7] = {UNIT, UNIT, UNIT, UNIT, UNIT, -UNIT, UNIT};
    const int32_t cut[BITS] = {1365, 1365, -1367};
    same_cut("check 2, whose third member leans",
             jugnayap_search_cut(hamming, sizeof hamming, spins, 7, 2),
             (JugnayapCut){.mask = 4, .depth = 8192});
    same_cut("check 0, which is met", jugnayap_search_cut(hamming, sizeof hamming, spins, 7, 0),
             (JugnayapCut){.mask = 0});
    same_cut("check 3 of 3", jugnayap_search_cut(hamming, sizeof hamming, spins, 7, 3),
             (JugnayapCut){.number = JUGNAYAP_REFUSED_ASKED_TOO_MUCH});
    same_cut("no spins", jugnayap_search_cut(hamming, sizeof hamming, NULL, 0, 2),
             (JugnayapCut){.number = JUGNAYAP_REFUSED_POINT_WRONG});
    spins[6] = UNIT + 1;
    same_cut("spin 4097", jugnayap_search_cut(hamming, sizeof hamming, spins, 7, 2),
             (JugnayapCut){.number = JUGNAYAP_REFUSED_POINT_WRONG});
    for (size_t check = 0; check < 3; check++)
        same_cut("checks without members on either side",
                 jugnayap_search_cut(shortened, sizeof shortened, cut, BITS, check),
                 (JugnayapCut){.mask = check == 1 ? 4 : 0, .depth = check == 1 ? 1 : 0});
}

/* Left sides of 2U, of one less and of more; two with two spins below 0, where the smallest changes sides; and
 * 0. On one member the left side is U plus the spin, so that each depth is met. */
static void depths(void)
{
    static const struct {
        const char *call;
        int32_t spins[BITS];
        uint32_t mask, depth;
    } cases[] = {{"1365 1365 -1366", {1365, 1365, -1366}, 0, 0},
                 {"1365 1365 -1367", {1365, 1365, -1367}, 4, 1},
                 {"0 0 0", {0, 0, 0}, 0, 0},
                 {"-4000 -4000 100", {-4000, -4000, 100}, 7, 3804},
                 {"-4000 4000 -100", {-4000, 4000, -100}, 1, 3804},
                 {"-4096 -4096 -4096", {-UNIT, -UNIT, -UNIT}, 7, 8192}};
    for (size_t i = 0; i < COUNT(cases); i++)
        same_cut(cases[i].call, jugnayap_search_cut(three, sizeof three, cases[i].spins, BITS, 0),
                 (JugnayapCut){.mask = cases[i].mask, .depth = cases[i].depth});
    for (int32_t spin = -UNIT; spin <= UNIT; spin++)
        same_cut("one member", jugnayap_search_cut(one, sizeof one, &spin, 1, 0),
                 (JugnayapCut){.mask = spin < UNIT, .depth = (uint32_t)(UNIT - spin)});
}

/* One entry, mask 4, on word 000. */
static JugnayapVerdict judged_at(uint8_t scale, const int16_t *frame, uint16_t multiplier, size_t length)
{
    const uint8_t word[BITS] = {0, 0, 0};
    const uint8_t certificate[CERTIFICATE + 1] = {
        1, 0, scale, 0, 0, 0, (uint8_t)multiplier, (uint8_t)(multiplier >> 8), 0, 0, 4};
    return jugnayap_judge(three, sizeof three, frame, BITS, word, BITS, certificate, length);
}

static JugnayapVerdict judged(const int16_t *frame, uint16_t multiplier, size_t length)
{
    return judged_at(1, frame, multiplier, length);
}

static void verdicts(void)
{
    const uint8_t word[7] = {0, 0, 0, 1, 0, 0, 0}, empty[] = {0, 0, 1, 0};
    const int16_t frame[7] = {10, 10, 10, 10, 10, 10, 10};
    same_verdict("word that breaks check 2",
                 jugnayap_judge(hamming, sizeof hamming, frame, 7, word, 7, empty, sizeof empty),
                 (JugnayapVerdict){.kind = JUGNAYAP_BROKEN, .value = 2});
    same_verdict("frame out of range", judged(too_large, 2000, CERTIFICATE),
                 (JugnayapVerdict){.number = JUGNAYAP_REFUSED_FRAME_RANGE});
    same_verdict("certificate longer than 4 + 10q", judged(leaning, 2000, CERTIFICATE + 1),
                 (JugnayapVerdict){.number = JUGNAYAP_REFUSED_CERTIFICATE_WRONG});
    same_verdict("multiplier 0", judged(leaning, 0, CERTIFICATE),
                 (JugnayapVerdict){.number = JUGNAYAP_REFUSED_ENTRY_RANGE});
    same_verdict("no frame", jugnayap_judge(three, sizeof three, NULL, 0, NULL, 0, NULL, 0),
                 (JugnayapVerdict){.number = JUGNAYAP_REFUSED_FRAME_LENGTH});
}

/* The frame (4000, 4000, -2000) and word 000: at scale S and multiplier b the reduced numbers are 4000S - b,
 * 4000S - b and b - 2000S. None is below 0 from b = 2000S to 4000S, and some are 0 at each end. */
static void marks(void)
{
    static const struct {
        const char *call;
        uint8_t scale;
        uint16_t multiplier;
        JugnayapVerdict verdict;
    } cases[] = {{"1999", 1, 1999, {.kind = JUGNAYAP_GAP, .value = 2}},
                 {"2000", 1, 2000, {.kind = JUGNAYAP_PASSED, .sole = 0}},
                 {"2001", 1, 2001, {.kind = JUGNAYAP_PASSED, .sole = 1}},
                 {"3333", 1, 3333, {.kind = JUGNAYAP_PASSED, .sole = 1}},
                 {"3999", 1, 3999, {.kind = JUGNAYAP_PASSED, .sole = 1}},
                 {"4000", 1, 4000, {.kind = JUGNAYAP_PASSED, .sole = 0}},
                 {"4001", 1, 4001, {.kind = JUGNAYAP_GAP, .value = 4}},
                 {"13999 at scale 7", 7, 13999, {.kind = JUGNAYAP_GAP, .value = 2}},
                 {"14000 at scale 7", 7, 14000, {.kind = JUGNAYAP_PASSED, .sole = 0}},
                 {"14001 at scale 7", 7, 14001, {.kind = JUGNAYAP_PASSED, .sole = 1}},
                 {"27999 at scale 7", 7, 27999, {.kind = JUGNAYAP_PASSED, .sole = 1}},
                 {"28000 at scale 7", 7, 28000, {.kind = JUGNAYAP_PASSED, .sole = 0}},
                 {"28001 at scale 7", 7, 28001, {.kind = JUGNAYAP_GAP, .value = 4}}};
    for (size_t i = 0; i < COUNT(cases); i++)
        same_verdict(cases[i].call, judged_at(cases[i].scale, leaning, cases[i].multiplier, CERTIFICATE),
                     cases[i].verdict);
}

/* One check on one bit, word 0, mask 1: the reduced number is the frame's plus the multiplier. Multiplier 0
 * stands for no entry. 0 is the only codeword, whatever the mark. */
static void marks_of_one_bit(void)
{
    static const struct {
        const char *call;
        int16_t number;
        uint8_t multiplier;
        JugnayapVerdict verdict;
    } cases[] = {{"0, no entry", 0, 0, {.kind = JUGNAYAP_PASSED, .sole = 0}},
                 {"1, no entry", 1, 0, {.kind = JUGNAYAP_PASSED, .sole = 1}},
                 {"-1, no entry", -1, 0, {.kind = JUGNAYAP_GAP, .value = 2}},
                 {"0, multiplier 1", 0, 1, {.kind = JUGNAYAP_PASSED, .sole = 1}},
                 {"-5, multiplier 4", -5, 4, {.kind = JUGNAYAP_GAP, .value = 2}},
                 {"-5, multiplier 5", -5, 5, {.kind = JUGNAYAP_PASSED, .sole = 0}},
                 {"-5, multiplier 6", -5, 6, {.kind = JUGNAYAP_PASSED, .sole = 1}}};
    for (size_t i = 0; i < COUNT(cases); i++) {
        const uint8_t word[] = {0}, entries = cases[i].multiplier != 0;
        const uint8_t certificate[CERTIFICATE] = {entries, 0, 1, 0, 0, 0, cases[i].multiplier, 0, 0, 0, 1};
        same_verdict(cases[i].call,
                     jugnayap_judge(one, sizeof one, &cases[i].number, 1, word, 1, certificate,
                                    jugnayap_certificate_length(certificate)),
                     cases[i].verdict);
    }
}

/* One check on bits 0 and 1, word 00, masks 1 and 2 with the greatest multiplier each. They cancel: the reduced
 * numbers are the frame's. Where one is 0 the word is alone, too; where both are, 11 agrees as well. */
static void marks_of_two_masks(void)
{
    static const uint8_t two[] = {2, 0, 1, 0, 0, 0, 2, 0, 0, 0, 1, 0}, word[] = {0, 0};
    static const uint8_t certificate[] = {2, 0, 1, 0, 0, 0, 0xFF, 0xFF, 0xFF, 0, 0, 0, 0xFF, 0xFF, 0xFF, 0,
                                          1, 0, 0, 0, 2, 0, 0, 0};
    static const struct {
        const char *call;
        int16_t frame[2];
        uint32_t sole;
    } cases[] = {{"7 and 9", {7, 9}, 1}, {"7 and 0", {7, 0}, 0}, {"0 and 9", {0, 9}, 0}, {"0 and 0", {0, 0}, 0}};
    for (size_t i = 0; i < COUNT(cases); i++)
        same_verdict(cases[i].call,
                     jugnayap_judge(two, sizeof two, cases[i].frame, 2, word, 2, certificate,
                                    sizeof certificate),
                     (JugnayapVerdict){.kind = JUGNAYAP_PASSED, .sole = cases[i].sole});
}

/* An entry on one of three checks of which only the second has members; scale 1, word 000. */
static JugnayapVerdict judged_on(uint8_t check, uint16_t multiplier, uint8_t mask)
{
    const uint8_t word[BITS] = {0, 0, 0};
    const uint8_t certificate[CERTIFICATE] = {
        1, 0, 1, 0, check, 0, (uint8_t)multiplier, (uint8_t)(multiplier >> 8), 0, 0, mask};
    return jugnayap_judge(shortened, sizeof shortened, leaning, BITS, word, BITS, certificate, CERTIFICATE);
}

/* No mask fits a check without members. */
static void checks_without_members(void)
{
    same_verdict("check 1", judged_on(1, 2000, 4), (JugnayapVerdict){.kind = JUGNAYAP_PASSED, .sole = 0});
    same_verdict("check 1, sole", judged_on(1, 3333, 4), (JugnayapVerdict){.kind = JUGNAYAP_PASSED, .sole = 1});
    for (uint8_t mask = 0; mask < 8; mask++) {
        same_verdict("check 0, without members", judged_on(0, 2000, mask),
                     (JugnayapVerdict){.number = JUGNAYAP_REFUSED_MASK_WRONG});
        same_verdict("check 2, without members", judged_on(2, 1, mask),
                     (JugnayapVerdict){.number = JUGNAYAP_REFUSED_MASK_WRONG});
    }
    same_verdict("multiplier 0 on no members", judged_on(0, 0, 1),
                 (JugnayapVerdict){.number = JUGNAYAP_REFUSED_ENTRY_RANGE});
}

/* A gap of more than 32 bits: one check on 32 bits, the masks 1, 2, 4, 7 and 8 with the greatest
 * multiplier b each, and a frame of zeros. The reduced numbers have sizes b (bits 0 to 2), 3b (bit 3) and
 * 5b (the other 28), 146b in all; the multipliers add 5 x 30b. */
static void large_gap(void)
{
    const uint8_t masks[5] = {1, 2, 4, 7, 8}, word[32] = {0};
    const int16_t frame[32] = {0};
    uint8_t code[JUGNAYAP_CODE_LENGTH(1, 32)] = {32, 0, 1, 0, 0, 0, 32, 0};
    uint8_t certificate[JUGNAYAP_CERTIFICATE_LENGTH(5)] = {5, 0, 1, 0};
    for (int i = 0; i < 32; i++)
        code[8 + 2 * i] = (uint8_t)i;
    for (int i = 0; i < 5; i++) {
        memset(certificate + 4 + 6 * i + 2, 0xFF, 3);
        certificate[4 + 6 * 5 + 4 * i] = masks[i];
    }
    same_verdict("large gap",
                 jugnayap_judge(code, sizeof code, frame, 32, word, 32, certificate, sizeof certificate),
                 (JugnayapVerdict){.kind = JUGNAYAP_GAP, .value = INT64_C(296) * JUGNAYAP_MAX_MULTIPLIER});
}

static void agreements(void)
{
    const uint8_t zeros[BITS] = {0, 0, 0}, ones[BITS] = {1, 1, 0}, two[BITS] = {0, 0, 2};
    same_agreement("word 000", jugnayap_agreement(three, sizeof three, leaning, BITS, zeros, BITS),
                   (JugnayapAgreement){.agreement = 6000});
    same_agreement("word 110", jugnayap_agreement(three, sizeof three, leaning, BITS, ones, BITS),
                   (JugnayapAgreement){.agreement = -10000});
    same_agreement("word 002", jugnayap_agreement(three, sizeof three, leaning, BITS, two, BITS),
                   (JugnayapAgreement){.number = JUGNAYAP_REFUSED_WORD_WRONG});
    same_agreement("frame out of range",
                   jugnayap_agreement(three, sizeof three, too_large, BITS, zeros, BITS),
                   (JugnayapAgreement){.number = JUGNAYAP_REFUSED_FRAME_RANGE});
}

int main(void)
{
    tables();
    cuts();
    depths();
    verdicts();
    marks();
    marks_of_one_bit();
    marks_of_two_masks();
    checks_without_members();
    large_gap();
    agreements();
    return account("fields");
}
