/* Jugnayap: a proved LP decoder for sparse parity-check codes, and a proved judge of anybody's certificates.
 *
 * A frame number is positive where the bit is likelier 0: it is the log-likelihood ratio
 * ln(P(bit is 0) / P(bit is 1)) times a gain of your choice, as a whole number.
 *
 * Formats (file numbers are little-endian; U is 4096; docs/FORMATS.md has more):
 *   code         n and m (16 bits each: bits, checks), then m entries of start and count (16 bits each),
 *                then the bodies: bit numbers, 16 bits each, strictly ascending within a check. The first
 *                start is 0, each later one the start before it plus its count. E is the sum of counts:
 *                an edge is one body number. 4 + 4m + 2E bytes. A check with count 0 is met by every word
 *                and never cut.
 *   frame        n numbers from -8191 to 8191.
 *   word         n bytes, each 0 or 1.
 *   spins        n numbers from -U to U; +U is bit 0, -U is bit 1.
 *   certificate  q and scale (16 bits each), then q entries of check number (16 bits) and multiplier
 *                (32 bits), then q masks (32 bits). 4 + 10q bytes. Entries ascend strictly by check, then
 *                mask. A mask has an odd number of ones, all below the check's degree, which is its count;
 *                bit k is the check's k-th member, from 0.
 *
 * Each call is total: any bytes, numbers and lengths may be handed in, and what is wrong with them is
 * answered by number, 0 for nothing. The caller owes only what C itself asks: a pointer is aligned and
 * good for the stated count of elements, and a buffer that is written (those without const) overlaps no
 * other buffer of the same call, written or read. Buffers that are only read may overlap, or be one. A
 * pointer with length 0 is never read and may be NULL.
 *
 * There is no global state and no allocation. Calls may run at the same time on different buffers, and
 * may share buffers that none of them writes. Each call needs less than 64 KiB of stack. Of the C library
 * memcpy and memset are needed, and nothing else. */
#ifndef JUGNAYAP_H
#define JUGNAYAP_H

#include <stddef.h>
#include <stdint.h>

#ifdef __cplusplus
extern "C" {
#endif

/* The version of this header. jugnayap_version() is that of the library that the program runs with. */
#define JUGNAYAP_VERSION_MAJOR 0
#define JUGNAYAP_VERSION_MINOR 4
#define JUGNAYAP_VERSION_PATCH 0
#define JUGNAYAP_VERSION_STRING "0.4.0"
#define JUGNAYAP_VERSION \
    (JUGNAYAP_VERSION_MAJOR * 10000 + JUGNAYAP_VERSION_MINOR * 100 + JUGNAYAP_VERSION_PATCH)

#define JUGNAYAP_UNIT 4096               /* U */
#define JUGNAYAP_MAX_BITS 2048           /* n, from 1 */
#define JUGNAYAP_MAX_CHECKS 2048         /* m, from 1 */
#define JUGNAYAP_MAX_DEGREE 32           /* members of a check, from 0, and checks of a bit, from 1 */
#define JUGNAYAP_MAX_EDGES 8192          /* E */
#define JUGNAYAP_MAX_FRAME 8191          /* a frame number, from -8191 */
#define JUGNAYAP_MAX_ROUNDS 1024         /* of a run */
#define JUGNAYAP_MAX_DEPTH 8192          /* of a cut, from 1; 2U */
#define JUGNAYAP_MAX_ENTRIES 4096        /* a certificate's q, from 0 */
#define JUGNAYAP_MAX_SCALE 1023          /* its scale, from 1 */
#define JUGNAYAP_MAX_MULTIPLIER 16777215 /* an entry's multiplier, from 1 */

/* Lengths in bytes: of a code; of the certificate buffer that jugnayap_rounds needs, which is that of a
 * certificate with an entry for each check; and the longest such buffer. */
#define JUGNAYAP_CODE_LENGTH(checks, edges) (4 + 4 * (checks) + 2 * (edges))
#define JUGNAYAP_CERTIFICATE_LENGTH(checks) (4 + 10 * (checks))
#define JUGNAYAP_MAX_CERTIFICATE JUGNAYAP_CERTIFICATE_LENGTH(JUGNAYAP_MAX_CHECKS)

/* The length of a certificate that stands in a buffer of any length: q is in its first two bytes. */
static inline size_t jugnayap_certificate_length(const uint8_t *certificate)
{
    size_t entries = certificate[0] + 256u * certificate[1];
    return JUGNAYAP_CERTIFICATE_LENGTH(entries);
}

/* Refusals. Of several the first is answered, in the order that the call states, where "the code's" are
 * HEADER_SHORT, SIZE_RANGE, LENGTH_WRONG if the m entries don't fit, COUNT_RANGE, START_WRONG, LENGTH_WRONG,
 * MEMBER_WRONG, BIT_DEGREE. */
enum JugnayapRefusal {
    /* because of what was handed in */
    JUGNAYAP_REFUSED_HEADER_SHORT = 1,       /* code under 4 bytes */
    JUGNAYAP_REFUSED_SIZE_RANGE = 2,         /* n or m out of range */
    JUGNAYAP_REFUSED_COUNT_RANGE = 3,        /* a count above JUGNAYAP_MAX_DEGREE */
    JUGNAYAP_REFUSED_START_WRONG = 4,        /* a start wrong, or E above JUGNAYAP_MAX_EDGES */
    JUGNAYAP_REFUSED_LENGTH_WRONG = 5,       /* code not as long as its contents say */
    JUGNAYAP_REFUSED_MEMBER_WRONG = 6,       /* a member not below n, or not ascending */
    JUGNAYAP_REFUSED_BIT_DEGREE = 7,         /* a bit in no check, or in too many */
    JUGNAYAP_REFUSED_FRAME_LENGTH = 8,       /* frame not n long */
    JUGNAYAP_REFUSED_FRAME_RANGE = 9,        /* a frame number out of range */
    JUGNAYAP_REFUSED_CERTIFICATE_WRONG = 10, /* certificate's length wrong, or q too large */
    JUGNAYAP_REFUSED_SCALE_RANGE = 11,       /* scale out of range */
    JUGNAYAP_REFUSED_ENTRY_RANGE = 12,       /* an entry's check or multiplier out of range */
    JUGNAYAP_REFUSED_MASK_WRONG = 13,        /* an even number of ones, or one that is no member */
    JUGNAYAP_REFUSED_ENTRY_ORDER = 14,       /* an entry not above the one before */
    JUGNAYAP_REFUSED_WORD_WRONG = 15,        /* word not n long, or a byte above 1 */
    JUGNAYAP_REFUSED_POINT_WRONG = 16,       /* not n spins, or one outside -U..U */
    JUGNAYAP_REFUSED_ASKED_TOO_MUCH = 17,    /* check not below m, or rounds above JUGNAYAP_MAX_ROUNDS */
    /* because of how the run stands */
    JUGNAYAP_REFUSED_BUFFER_SHORT = 41,      /* a lent buffer too short */
    JUGNAYAP_REFUSED_RUN_ENDED = 42,         /* run already certified or spent */
    JUGNAYAP_REFUSED_RUN_DAMAGED = 43        /* 1024 rounds or more in a running run, a copy outside -U..U, an
                                                offset beyond 8192 x rounds done, a bit's sum that is not that
                                                of copy less offset over its edges, or an unknown status */
};

/* In each answer `number` is 0, or the refusal's number; the fields after it are then 0, but for `run`
 * where jugnayap_rounds says otherwise. So test `number` first: a refused verdict has kind 0 and value 0,
 * which reads like "check 0 broken", and a refused start has rounds 0 and status 0, which reads like a
 * fresh run. Keep your own record then. */

typedef struct {
    uint32_t number;
    uint32_t bits, checks, edges; /* n, m and E */
} JugnayapTable;

typedef struct {
    uint32_t number;
    uint32_t mask;  /* the violated set, or 0 for no cut */
    uint32_t depth; /* by how much its inequality falls short, or 0 for no cut */
} JugnayapCut;

/* JugnayapVerdict.kind */
#define JUGNAYAP_BROKEN 0
#define JUGNAYAP_PASSED 1
#define JUGNAYAP_GAP 2

typedef struct {
    uint32_t number;
    uint32_t kind;
    int64_t value; /* JUGNAYAP_BROKEN: the first broken check; JUGNAYAP_PASSED: 0; JUGNAYAP_GAP: the gap */
    uint32_t sole; /* JUGNAYAP_PASSED: 1 if the certificate shows that nothing else agrees as well as the word.
                      0, which the other kinds always have, claims nothing: it need not mean a tie */
} JugnayapVerdict;

typedef struct {
    uint32_t number;
    int64_t agreement;
} JugnayapAgreement;

/* JugnayapRun.status */
#define JUGNAYAP_RUNNING 0
#define JUGNAYAP_CERTIFIED 1
#define JUGNAYAP_SPENT 2

/* A run's record: the rounds done, and whether the run is running, certified or spent. The caller keeps
 * it and hands it on, with the buffers, as the last call left it. */
typedef struct {
    uint32_t rounds;
    uint32_t status;
} JugnayapRun;

typedef struct {
    uint32_t number;
    JugnayapRun run;
} JugnayapCalled;

/* The library's version, as JUGNAYAP_VERSION counts it. */
uint32_t jugnayap_version(void);

/* Checks a code. Refusals: the code's. */
JugnayapTable jugnayap_check_table(const uint8_t *code, size_t code_len);

/* The cut search: the violated odd set V of the check's members at these spins, as a mask, and its depth, or
 * none. None is answered exactly if no odd V is violated; at most one ever is. V's inequality: the sum over V
 * of (U + spin), plus the sum over the others of (U - spin), is at least 2U. The depth is by how much the
 * inequality falls short: 2U less the left side, 1 to 8192.
 * Refusals: the code's, POINT_WRONG, ASKED_TOO_MUCH (check). */
JugnayapCut jugnayap_search_cut(const uint8_t *code, size_t code_len,
                                const int32_t *spins, size_t spins_len,
                                size_t check);

/* Judges a word and anybody's certificate: the first check that the word breaks; if there is none,
 * passed for gap 0, else the gap, which is then positive. A word that passes has the best agreement of
 * all codewords, and of all points of the relaxation.
 *
 * `sole` is 1 if the word passes and no bit's reduced number is 0, and 0 otherwise. The reduced number is the
 * certificate's scale times the bit's frame number, plus each multiplier whose mask holds the bit, minus each
 * whose check holds the bit and whose mask doesn't. Where `sole` is 1, each other codeword and each other
 * point of the relaxation has a strictly smaller agreement, whoever wrote the certificate. Where it is 0,
 * nothing is claimed: the word may be alone all the same, and another certificate may show it.
 *
 * The certificate's length is exact: jugnayap_certificate_length, where its buffer may be longer.
 * Refusals: the code's, FRAME_LENGTH, FRAME_RANGE, WORD_WRONG, CERTIFICATE_WRONG, SCALE_RANGE, then entry by
 * entry ENTRY_RANGE, MASK_WRONG, ENTRY_ORDER. */
JugnayapVerdict jugnayap_judge(const uint8_t *code, size_t code_len,
                               const int16_t *frame, size_t frame_len,
                               const uint8_t *word, size_t word_len,
                               const uint8_t *certificate, size_t certificate_len);

/* The agreement of a word with a frame: the sum of the frame's numbers, added where the bit is 0 and
 * subtracted where it is 1. Refusals: the code's, FRAME_LENGTH, FRAME_RANGE, WORD_WRONG. */
JugnayapAgreement jugnayap_agreement(const uint8_t *code, size_t code_len,
                                     const int16_t *frame, size_t frame_len,
                                     const uint8_t *word, size_t word_len);

/* Starts a run: zeroes the first E copies and offsets and the first n sums, and gives the fresh record
 * {0, JUGNAYAP_RUNNING}. Refusals: the code's, BUFFER_SHORT (copies E, offsets E, sums n). A refused start
 * changes no buffer. Elements past the first E, and n, never change. */
JugnayapCalled jugnayap_start(const uint8_t *code, size_t code_len,
                              int32_t *copies, size_t copies_len,
                              int32_t *offsets, size_t offsets_len,
                              int32_t *sums, size_t sums_len);

/* Does the rounds wanted, 0 to JUGNAYAP_MAX_ROUNDS, or fewer if the run ends: certified by a word that meets
 * all checks and has gap 0, or spent after JUGNAYAP_MAX_ROUNDS in all without one. `run` is the record after
 * the call, and its status the answer.
 *
 * Lengths needed: spins n; copies, offsets E; sums n; multipliers, masks, depths m; word n;
 * certificate JUGNAYAP_CERTIFICATE_LENGTH(m). What is past them never changes.
 *
 * A call that does a round leaves that of the last one: each bit's spin, each edge's copy and offset (in
 * the order of the bodies), each bit's sum, each check's multiplier, mask and depth, all 0 for no cut. Only a
 * call that certifies writes word and certificate, the latter 4 + 10q bytes with q the cuts of the last round,
 * in check order, scale 1; what is past them stays. 0 rounds change nothing.
 *
 * Mask and depth are the cut search's at copy plus offset of the check's edges, as the round leaves them,
 * clipped to -U..U.
 *
 * A bit's sum is that of copy less offset over its edges; a round adds it to the bit's frame number. Each
 * call, also one for 0 rounds, compares the first n sums with copies and offsets before its rounds.
 *
 * Refusals: the code's, FRAME_LENGTH, FRAME_RANGE, ASKED_TOO_MUCH (wanted), BUFFER_SHORT, RUN_ENDED,
 * RUN_DAMAGED. A refused call gives `run` back as handed in and changes no buffer. */
JugnayapCalled jugnayap_rounds(const uint8_t *code, size_t code_len,
                               const int16_t *frame, size_t frame_len,
                               JugnayapRun run, uint32_t wanted,
                               int32_t *spins, size_t spins_len,
                               int32_t *copies, size_t copies_len,
                               int32_t *offsets, size_t offsets_len,
                               int32_t *sums, size_t sums_len,
                               uint32_t *multipliers, size_t multipliers_len,
                               uint32_t *masks, size_t masks_len,
                               uint32_t *depths, size_t depths_len,
                               uint8_t *word, size_t word_len,
                               uint8_t *certificate, size_t certificate_len);

#ifdef __cplusplus
}
#endif

#endif
