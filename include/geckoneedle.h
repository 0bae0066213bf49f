/*
 * Geckoneedle: a soft-output MIMO detector (single tree search, clipped max-log soft values) for
 * up to four spatial streams of IEEE 802.11, BPSK to 256-QAM. The library is for x86-64.
 *
 * Every call reads one memory and fills another. It returns how many entries it wrote, from the
 * first place on, and alters none behind them; or minus a refusal's number, and alters nothing.
 * This is proved, for every content and every length. The proof stands on what C asks of the
 * caller: pointers are not NULL (not even with a length of 0), aligned, and valid for their length;
 * the two memories do not overlap, and nobody else writes to either during the call.
 *
 * Calls keep no state, allocate nothing and may be made from any number of threads.
 * Stack, measured: detect 28 KiB, read 13 KiB, write below 1 KiB; 64 KiB are enough.
 * geckoneedle_text.h has the refusals in words, and a decoder for replies.
 */
#ifndef GECKONEEDLE_H
#define GECKONEEDLE_H

#include <stddef.h>
#include <stdint.h>

#define GECKONEEDLE_VERSION "0.7.0" /* 0, the requests that have landed, corrections */

/* At most: vectors of a block, bits of a label, bytes of a record, numbers that it is made of. */
#define GECKONEEDLE_VECTORS_MAX 64
#define GECKONEEDLE_LABEL_BITS_MAX 24
#define GECKONEEDLE_RECORD_MAX (19 + 129 * GECKONEEDLE_VECTORS_MAX)
#define GECKONEEDLE_NUMBERS_MAX (6 + 49 * GECKONEEDLE_VECTORS_MAX)
/* The reply buffer that a block of m streams, q bits a symbol and n vectors asks for; at most. */
#define GECKONEEDLE_REPLY_ROOM(m, q, n) \
    ((size_t)7 + (size_t)(n) * ((size_t)9 + (size_t)4 * (size_t)(m) * (size_t)(q)))
#define GECKONEEDLE_REPLY_MAX \
    GECKONEEDLE_REPLY_ROOM(1, GECKONEEDLE_LABEL_BITS_MAX, GECKONEEDLE_VECTORS_MAX)

#ifdef __cplusplus
extern "C" {
#endif

/* Refusals. Checks go number by number, each read and then ranged; the first to fail decides. */
enum geckoneedle_refusal {
    GECKONEEDLE_REFUSED_OPENING = 1,     /* not 43 42 52 31, 32 or 33; the writer: not 1, 2 or 3 */
    GECKONEEDLE_REFUSED_ENDS = 2,        /* the record, or the list of numbers, ends early */
    GECKONEEDLE_REFUSED_MALFORMED = 3,   /* a fourth group that isn't the last, or a needless 0 */
    GECKONEEDLE_REFUSED_STREAMS = 4,     /* M is not 1 to 4 */
    GECKONEEDLE_REFUSED_WIDTH = 5,       /* Q is not 1, 2, 4, 6 or 8 */
    GECKONEEDLE_REFUSED_VECTORS = 6,     /* N is not 1 to 64 */
    GECKONEEDLE_REFUSED_CLIP = 7,        /* C is not 0 to 16,777,215 */
    GECKONEEDLE_REFUSED_SHARE = 8,       /* D is not M to 17,043,520 */
    GECKONEEDLE_REFUSED_DIAGONAL = 9,    /* a diagonal entry of R is not 1 to 2,047 */
    GECKONEEDLE_REFUSED_ENTRY = 10,      /* a part of an entry right of it is not -2,047 to 2,047 */
    GECKONEEDLE_REFUSED_RECEIVED = 11,   /* a part of y is not -131,071 to 131,071 */
    GECKONEEDLE_REFUSED_PRIOR = 12,      /* a prior is not -1,048,575 to 1,048,575 */
    GECKONEEDLE_REFUSED_TRAILING = 13,   /* something follows the last prior */
    GECKONEEDLE_REFUSED_BUFFER = 14,     /* the memory to fill is too short; checked last */
    GECKONEEDLE_REFUSED_FOUR_WIDE = 15,  /* Q is 8 and M is 4; checked after 5, before N is read */
    GECKONEEDLE_REFUSED_WEAK_VALUE = 16, /* W is not 0 to C; checked after 7, before D is read */
    GECKONEEDLE_REFUSED_OWNER = 17       /* an owner is not 1 to 4; checked before its vector's R */
};

/*
 * Makes the record of a block from its whole numbers, as follows, and returns its length in bytes.
 * The opening is 1, 2 or 3 for a record that begins 43 42 52 31, 32 or 33; a record's own is
 * record[3] - 0x30. Refusals 1, first of all; 2, 4 to 13, 15 to 17; then 14: record_len too small.
 *     M, Q, N  streams, bits a symbol, vectors
 *     C, W     the clip, and not with opening 1 the weak value, which a stopped vector may report
 *     D        each vector's share of nodes: an owner's n vectors may walk n x D nodes in all, each
 *              as many as those before it left, and M are kept back for each after it
 * then for each vector
 *     owner    1 to 4, with opening 3 only; else all vectors have one owner. What an owner's vectors
 *              are answered does not depend on the others'
 * and, where y = R s + noise, the M symbols s on odd whole amplitudes (Q = 4:
 * -3, -1, 1, 3 on both axes; Q = 1: -1, 1) and mapped as IEEE 802.11 says, without its factor:
 *     R        upper triangular, by rows: the diagonal entry, which is real, then real and
 *              imaginary part of each entry right of it
 *     y        real and imaginary part of each row
 *     priors   M x Q, stream 1 first: log (P(bit is 0) / P(bit is 1)), times the noise variance
 * These are 5 + N x (M x M + 2 x M + M x Q) numbers, with W one more, and with owners N more. In
 * the record they stand behind the opening, coded as in the reply, folded if they may be negative.
 */
int64_t geckoneedle_write(uint32_t opening, const int32_t *numbers, size_t count,
                          uint8_t *record, size_t record_len);

/* The way back: the very numbers that make this record. 1 to 13, 15 to 17; 14: count too small. */
int64_t geckoneedle_read(const uint8_t *record, size_t record_len, int32_t *numbers, size_t count);

/*
 * Detects one block: takes its record, writes the reply. Refusals 1 to 13, 15 to 17; then 14 where
 * reply_len is below GECKONEEDLE_REPLY_ROOM(M, Q, N), even if the reply itself would be shorter.
 * The reply: 43 42 53 31; M, Q, N; then for each vector
 *     mark     0: the search was complete; 1: it was stopped, as no nodes were left to it
 *     nodes    how many it walked, at least M
 *     label    the best label's M x Q bits as one number, stream 1 first, its first bit highest; of
 *              equally good ones that with less prior cost, and only then the smallest number
 *     values   M x Q soft values, scaled as the priors are and without them (extrinsic), clipped to
 *              -C .. C; positive says 0. Each is folded: n as 2n if n >= 0, else -2n - 1
 * Numbers are groups of seven bits, low ones first, the high bit set on all groups but the last.
 * A stopped vector reports over the labels that it reached: a bit for which all of them agree gets
 * +W or -W, so that the host chooses how far to trust it. With opening 1 that is +C or -C.
 */
int64_t geckoneedle_detect(const uint8_t *record, size_t record_len,
                           uint8_t *reply, size_t reply_len);

#ifdef __cplusplus
}
#endif
#endif
