/*
 * Beside geckoneedle.h, for hosts in C: refusals in words, and a decoder for replies. This is plain
 * C, tested and not proved. It keeps no state, allocates nothing and prints nothing.
 *
 *     int64_t returned = geckoneedle_detect(record, record_len, reply, sizeof reply);
 *     if (returned < 0) {
 *         puts(geckoneedle_refusal_text(-returned));
 *     } else if (geckoneedle_reply_begin(&decoder, reply, (size_t)returned) > 0) {
 *         while (geckoneedle_reply_next(&decoder, &vector) == 1) {
 *             use(vector.label, vector.soft);
 *         }
 *     }
 */
#ifndef GECKONEEDLE_TEXT_H
#define GECKONEEDLE_TEXT_H

#include "geckoneedle.h"

#ifdef __cplusplus
extern "C" {
#endif

/* What is wrong with what is refused by this number; 1, 2, 13, 14 in geckoneedle_detect's words. */
const char *geckoneedle_refusal_text(int64_t number);

/*
 * What a number must be that geckoneedle_write refuses by this one, as "1 to 4": the opening that it
 * is told, or one of the list. NULL where a refusal is not about what a number is.
 */
const char *geckoneedle_range_text(int64_t number);

/* A reply that is being decoded. It belongs to the caller, as do the bytes that it points to. */
struct geckoneedle_reply {
    uint32_t streams; /* M */
    uint32_t bits;    /* Q, the bits of a symbol */
    uint32_t vectors; /* N */
    uint32_t given;   /* how many of them geckoneedle_reply_next has given */
    const uint8_t *bytes;
    size_t length;
    size_t at; /* the index of the next byte to read */
};

/* What a reply says of one vector. */
struct geckoneedle_vector {
    int stopped; /* 0: its search was complete; 1: the allowance stopped it */
    uint32_t nodes;
    uint32_t label;                           /* the first bit is the highest of M x Q */
    int32_t soft[GECKONEEDLE_LABEL_BITS_MAX]; /* a value for each bit, the first first; then 0 */
};

/* Why bytes are no reply. They are checked number by number; the first check to fail decides. */
enum geckoneedle_fault {
    GECKONEEDLE_FAULT_OPENING = 1,     /* the first four bytes are missing or not 43 42 53 31 */
    GECKONEEDLE_FAULT_ENDS = 2,        /* the bytes end before a number's last group */
    GECKONEEDLE_FAULT_MALFORMED = 3,   /* a number is longer than four groups or than it need be */
    GECKONEEDLE_FAULT_STREAMS = 4,     /* M is not 1 to 4 */
    GECKONEEDLE_FAULT_WIDTH = 5,       /* Q is not 1, 2, 4, 6 or 8 */
    GECKONEEDLE_FAULT_FOUR_WIDE = 6,   /* Q is 8 and M is 4 */
    GECKONEEDLE_FAULT_VECTORS = 7,     /* N is not 1 to 64 */
    GECKONEEDLE_FAULT_MARK = 8,        /* a mark is neither 0 nor 1 */
    GECKONEEDLE_FAULT_NODES = 9,       /* a count of nodes is larger than any tree */
    GECKONEEDLE_FAULT_LABEL = 10,      /* a label has more than M x Q bits */
    GECKONEEDLE_FAULT_SOFT_VALUE = 11, /* a soft value is beyond any clip */
    GECKONEEDLE_FAULT_TRAILING = 12    /* bytes follow the last soft value */
};

/*
 * Checks the whole of a reply and gets ready to decode it; reads no byte beyond `length`. Returns
 * how many vectors it has, or minus a fault's number, and then leaves `reply` as it was.
 */
int geckoneedle_reply_begin(struct geckoneedle_reply *reply, const uint8_t *bytes, size_t length);

/*
 * Decodes the next vector. Returns 1; or 0 where none is left, and then leaves both as they were.
 * (Or minus a fault's number, likewise: only if the bytes were altered since they were checked.)
 */
int geckoneedle_reply_next(struct geckoneedle_reply *reply, struct geckoneedle_vector *vector);

/* What is wrong with bytes that are no reply, by the fault's number. */
const char *geckoneedle_fault_text(int fault);

#ifdef __cplusplus
}
#endif

#endif
