/* Refusals in words, and the decoder for replies. Compiles as C99 and as C++. */
#include "geckoneedle_text.h"

#include <string.h>

/* A refusal's words: of a record, and of a number for the writer, which may be of either sign. */
struct refusal {
    const char *words;
    const char *range;
};

/* A refusal that says the same of both. */
#define RANGED(subject, range) {subject " not " range, range}

/* By refusal number: document 01's table, and document 02's 15 to 17. */
static const struct refusal REFUSALS[] = {
    {"", NULL},
    {"the first four bytes are missing or are none of 43 42 52 31, 43 42 52 32 and 43 42 52 33",
     "1, 2 or 3"},
    {"the record ends before the last group of a number", NULL},
    {"a number has four groups and no last one, or ends in a group of 0 that it does not need",
     NULL},
    RANGED("the number of streams M is", "1 to 4"),
    RANGED("the bits of a symbol Q are", "1, 2, 4, 6 or 8"),
    RANGED("the number of vectors N is", "1 to 64"),
    {"the clip C is above 16777215", "0 to 16777215"},
    RANGED("the share D is", "M to 17043520"),
    RANGED("an entry on R's diagonal is", "1 to 2047"),
    RANGED("a part of an entry right of R's diagonal is", "-2047 to 2047"),
    RANGED("a part of y is", "-131071 to 131071"),
    RANGED("a prior is", "-1048575 to 1048575"),
    {"bytes follow the last prior", NULL},
    {"the reply buffer is shorter than 7 + N x (9 + 4 x M x Q) bytes", NULL},
    {"the bits of a symbol Q are 8, which at most three streams may have, and M is 4",
     "1, 2, 4 or 6, since at most three streams may have 8"},
    RANGED("the weak value W is", "0 to C"),
    RANGED("a vector's owner is", "1 to 4"),
};

static int is_known(int64_t number)
{
    return number > 0 && number < (int64_t)(sizeof REFUSALS / sizeof REFUSALS[0]);
}

const char *geckoneedle_refusal_text(int64_t number)
{
    return is_known(number) ? REFUSALS[number].words : "a refusal that this program does not know";
}

const char *geckoneedle_range_text(int64_t number)
{
    return is_known(number) ? REFUSALS[number].range : NULL;
}

const char *geckoneedle_fault_text(int fault)
{
    switch (fault) {
    case GECKONEEDLE_FAULT_OPENING:
        return "the first four bytes are missing or are not 43 42 53 31";
    case GECKONEEDLE_FAULT_ENDS:
        return "the reply ends before the last group of a number";
    case GECKONEEDLE_FAULT_MALFORMED:
        return REFUSALS[GECKONEEDLE_REFUSED_MALFORMED].words;
    case GECKONEEDLE_FAULT_STREAMS:
        return REFUSALS[GECKONEEDLE_REFUSED_STREAMS].words;
    case GECKONEEDLE_FAULT_WIDTH:
        return REFUSALS[GECKONEEDLE_REFUSED_WIDTH].words;
    case GECKONEEDLE_FAULT_FOUR_WIDE:
        return REFUSALS[GECKONEEDLE_REFUSED_FOUR_WIDE].words;
    case GECKONEEDLE_FAULT_VECTORS:
        return REFUSALS[GECKONEEDLE_REFUSED_VECTORS].words;
    case GECKONEEDLE_FAULT_MARK:
        return "a vector's mark is neither 0 nor 1";
    case GECKONEEDLE_FAULT_NODES:
        return "a vector's nodes are more than 17043520";
    case GECKONEEDLE_FAULT_LABEL:
        return "a label has more than M x Q bits";
    case GECKONEEDLE_FAULT_SOFT_VALUE:
        return "a soft value is not -16777215 to 16777215";
    case GECKONEEDLE_FAULT_TRAILING:
        return "bytes follow the last soft value";
    default:
        return "a fault that this program does not know";
    }
}

/* The largest that a reply has: nodes of a tree (four streams of 64 points), and a clip, folded. */
static const uint32_t NODES_MOST = 17043520;
static const uint32_t FOLDED_MOST = 2 * 16777215;

static const uint8_t OPENING[] = {0x43, 0x42, 0x53, 0x31};

/* The next number, at most four groups. Returns 0, or minus a fault. */
static int take_number(struct geckoneedle_reply *reply, uint32_t *number)
{
    uint32_t sum = 0;
    for (unsigned shift = 0; shift < 28; shift += 7) {
        if (reply->at >= reply->length) {
            return -GECKONEEDLE_FAULT_ENDS;
        }
        uint8_t group = reply->bytes[reply->at++];
        sum |= (uint32_t)(group & 127u) << shift;
        if (group < 128) {
            *number = sum;
            /* A last group of 0 after another adds nothing: the number has a shorter form. */
            return group == 0 && shift > 0 ? -GECKONEEDLE_FAULT_MALFORMED : 0;
        }
    }
    return -GECKONEEDLE_FAULT_MALFORMED;
}

/* The next number; `fault` where it is not `least` to `most`. Returns 0, or minus a fault. */
static int take_ranged(struct geckoneedle_reply *reply, uint32_t least, uint32_t most, int fault,
                       uint32_t *number)
{
    int wrong = take_number(reply, number);
    if (wrong == 0 && (*number < least || *number > most)) {
        wrong = -fault;
    }
    return wrong;
}

/* M, Q and N. Returns 0, or minus a fault. */
static int take_sizes(struct geckoneedle_reply *reply)
{
    int wrong = take_ranged(reply, 1, 4, GECKONEEDLE_FAULT_STREAMS, &reply->streams);
    if (wrong == 0) {
        wrong = take_ranged(reply, 1, 8, GECKONEEDLE_FAULT_WIDTH, &reply->bits);
    }
    if (wrong == 0 && reply->bits > 1 && reply->bits % 2 == 1) {
        wrong = -GECKONEEDLE_FAULT_WIDTH;
    }
    if (wrong == 0 && reply->streams * reply->bits > GECKONEEDLE_LABEL_BITS_MAX) {
        wrong = -GECKONEEDLE_FAULT_FOUR_WIDE;
    }
    if (wrong == 0) {
        wrong = take_ranged(reply, 1, GECKONEEDLE_VECTORS_MAX, GECKONEEDLE_FAULT_VECTORS,
                            &reply->vectors);
    }
    return wrong;
}

/* n at least 0 is folded to 2n, n below 0 to -2n - 1. */
static int32_t unfolded(uint32_t number)
{
    int32_t half = (int32_t)(number >> 1);
    return number % 2 == 0 ? half : -half - 1;
}

/* M x Q soft values. Returns 0, or minus a fault. */
static int take_soft_values(struct geckoneedle_reply *reply, int32_t *soft)
{
    int wrong = 0;
    for (uint32_t bit = 0; bit < reply->streams * reply->bits && wrong == 0; bit++) {
        uint32_t folded = 0;
        wrong = take_ranged(reply, 0, FOLDED_MOST, GECKONEEDLE_FAULT_SOFT_VALUE, &folded);
        soft[bit] = unfolded(folded);
    }
    return wrong;
}

/* A vector, which has zeros behind its soft values. Returns 0, or minus a fault. */
static int take_vector(struct geckoneedle_reply *reply, struct geckoneedle_vector *vector)
{
    uint32_t mark = 0;
    uint32_t label_most = ((uint32_t)1 << (reply->streams * reply->bits)) - 1;
    memset(vector, 0, sizeof *vector);
    int wrong = take_ranged(reply, 0, 1, GECKONEEDLE_FAULT_MARK, &mark);
    vector->stopped = (int)mark;
    if (wrong == 0) {
        wrong = take_ranged(reply, 0, NODES_MOST, GECKONEEDLE_FAULT_NODES, &vector->nodes);
    }
    if (wrong == 0) {
        wrong = take_ranged(reply, 0, label_most, GECKONEEDLE_FAULT_LABEL, &vector->label);
    }
    return wrong == 0 ? take_soft_values(reply, vector->soft) : wrong;
}

int geckoneedle_reply_next(struct geckoneedle_reply *reply, struct geckoneedle_vector *vector)
{
    struct geckoneedle_reply rest = *reply;
    struct geckoneedle_vector found;
    if (reply->given == reply->vectors) {
        return reply->at == reply->length ? 0 : -GECKONEEDLE_FAULT_TRAILING;
    }
    int wrong = take_vector(&rest, &found);
    if (wrong != 0) {
        return wrong;
    }
    rest.given++;
    *reply = rest;
    *vector = found;
    return 1;
}

int geckoneedle_reply_begin(struct geckoneedle_reply *reply, const uint8_t *bytes, size_t length)
{
    struct geckoneedle_reply whole = {0, 0, 0, 0, bytes, length, sizeof OPENING};
    struct geckoneedle_vector vector;
    if (length < sizeof OPENING || memcmp(bytes, OPENING, sizeof OPENING) != 0) {
        return -GECKONEEDLE_FAULT_OPENING;
    }
    int more = take_sizes(&whole);
    if (more != 0) {
        return more;
    }
    /* Once through to the end, so that the caller gets no vector of what is no reply. */
    struct geckoneedle_reply rest = whole;
    do {
        more = geckoneedle_reply_next(&rest, &vector);
    } while (more == 1);
    if (more != 0) {
        return more;
    }
    *reply = whole;
    return (int)whole.vectors;
}
