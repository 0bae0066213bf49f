/*
 * Tests the decoder of geckoneedle_text.h. Every reply that it is given lies at the end of a memory
 * block of its own, so that valgrind sees a byte read beyond it.
 *
 * replies RECORD...: takes the reply to each accepted record whole, cut off behind each byte, with
 * a byte more, and with each byte altered. Of a long reply each byte gets its eight bits turned one
 * by one, of a short one all other values.
 * replies -l <LIST: each line of the list has bytes in hexadecimal, a bar, and the sentence that
 * they are refused with, or "a reply" where they are one.
 *
 * Exit status: 0 if the decoder does as it should, 1 if not, 2 for wrong arguments or no memory.
 */
#include <stdio.h>
#include <stdlib.h>
#include <string.h>

#include "geckoneedle_text.h"
#include "reading.h"

/* A reply of up to so many bytes is a short one. */
enum { SHORT_LENGTH = 400 };

/* Bytes that are made one after the other, as many as a reply may have and one. */
struct bytes {
    size_t length;
    uint8_t at[GECKONEEDLE_REPLY_MAX + 1];
};

/* What was tried, and what was wrong. */
struct tally {
    unsigned long tried;
    unsigned long accepted;
    unsigned long wrong;
};

static void put_number(struct bytes *bytes, uint32_t number)
{
    for (; number > 127; number >>= 7) {
        bytes->at[bytes->length++] = (uint8_t)(number % 128 + 128);
    }
    bytes->at[bytes->length++] = (uint8_t)number;
}

/* What the detector would have written to say the same: the one form that a vector has. */
static void put_vector(struct bytes *bytes, const struct geckoneedle_vector *vector, uint32_t bits)
{
    put_number(bytes, (uint32_t)vector->stopped);
    put_number(bytes, vector->nodes);
    put_number(bytes, vector->label);
    for (uint32_t bit = 0; bit < bits; bit++) {
        int32_t soft = vector->soft[bit];
        put_number(bytes, soft >= 0 ? 2 * (uint32_t)soft : 2 * (uint32_t)-soft - 1);
    }
}

/* Whether what was decoded, written anew, is the very bytes, and the decoder ends where N says. */
static int is_written_back(struct geckoneedle_reply *reply, const uint8_t *bytes, size_t length)
{
    static struct bytes again;
    struct geckoneedle_vector vector;
    uint32_t bits = reply->streams * reply->bits;
    uint32_t count = 0;
    memcpy(again.at, "CBS1", 4);
    again.length = 4;
    put_number(&again, reply->streams);
    put_number(&again, reply->bits);
    put_number(&again, reply->vectors);
    while (geckoneedle_reply_next(reply, &vector) == 1) {
        put_vector(&again, &vector, bits);
        count++;
        for (uint32_t bit = bits; bit < GECKONEEDLE_LABEL_BITS_MAX; bit++) {
            if (vector.soft[bit] != 0) {
                return 0;
            }
        }
    }
    int is_ended = count == reply->vectors && geckoneedle_reply_next(reply, &vector) == 0;
    return is_ended && again.length == length && memcmp(again.at, bytes, length) == 0;
}

/*
 * Decodes a copy. Returns what the decoder says: how many vectors, or minus a fault. Counts as
 * wrong a reply that it accepts and takes for another, and a refusal that alters something.
 */
static int decode(const uint8_t *bytes, size_t length, struct tally *tally)
{
    struct geckoneedle_reply reply, before;
    uint8_t *copy = (uint8_t *)malloc(length == 0 ? 1 : length);
    if (copy == NULL) {
        fprintf(stderr, "replies: no memory\n");
        exit(2);
    }
    /* At the block's end: of no bytes, too. */
    uint8_t *begin = copy + (length == 0 ? 1 : 0);
    memcpy(begin, bytes, length);
    memset(&reply, 0xA5, sizeof reply);
    memcpy(&before, &reply, sizeof reply);
    int said = geckoneedle_reply_begin(&reply, begin, length);
    int is_right = said > 0 ? is_written_back(&reply, bytes, length)
                            : said < 0 && memcmp(&before, &reply, sizeof reply) == 0;
    tally->tried++;
    tally->accepted += said > 0;
    tally->wrong += !is_right;
    free(copy);
    return said;
}

/* A reply that has to get this answer. */
static void demand(const uint8_t *bytes, size_t length, int answer, const char *what,
                   struct tally *tally)
{
    unsigned long wrong = tally->wrong;
    int said = decode(bytes, length, tally);
    if (said != answer || tally->wrong > wrong) {
        fprintf(stderr, "%s, %lu bytes: the decoder says %d where %d is due\n", what,
                (unsigned long)length, said, answer);
        tally->wrong = wrong + 1;
    }
}

/* Each beginning of a reply, which lacks something, and a byte more than the reply. */
static void cut(struct bytes *reply, const char *path, struct tally *tally)
{
    for (size_t length = 0; length < reply->length; length++) {
        int fault = length < 4 ? GECKONEEDLE_FAULT_OPENING : GECKONEEDLE_FAULT_ENDS;
        demand(reply->at, length, -fault, path, tally);
    }
    reply->at[reply->length] = 0;
    demand(reply->at, reply->length + 1, -GECKONEEDLE_FAULT_TRAILING, path, tally);
}

/* Each byte altered. What then is still a reply must be decoded to what it now says. */
static void alter(struct bytes *reply, const char *path, struct tally *tally)
{
    unsigned long wrong = tally->wrong;
    int is_short = reply->length <= SHORT_LENGTH;
    for (size_t at = 0; at < reply->length; at++) {
        uint8_t kept = reply->at[at];
        for (unsigned turned = 1; turned < 256; turned = is_short ? turned + 1 : 2 * turned) {
            reply->at[at] = (uint8_t)(kept ^ turned);
            int said = decode(reply->at, reply->length, tally);
            /* Altered, an opening is none. */
            tally->wrong += at < 4 && said != -GECKONEEDLE_FAULT_OPENING;
        }
        reply->at[at] = kept;
    }
    if (tally->wrong > wrong) {
        fprintf(stderr, "%s: of its replies with a byte altered %lu are decoded wrongly\n", path,
                tally->wrong - wrong);
    }
}

/* One record. Returns 0, or 1 if its file cannot be read. */
static int try_record(const char *path, struct tally *tally)
{
    static struct record record;
    static struct bytes reply;
    if (read_record(path, &record) != 0) {
        return 1;
    }
    int64_t returned =
        geckoneedle_detect(record.bytes, record.length, reply.at, GECKONEEDLE_REPLY_MAX);
    if (returned < 0) {
        return 0;
    }
    reply.length = (size_t)returned;
    /* Behind the opening, M and Q, which are a byte each, stands N, and it is a byte too. */
    demand(reply.at, reply.length, reply.at[6], path, tally);
    cut(&reply, path, tally);
    alter(&reply, path, tally);
    return 0;
}

/* The bytes in front of the bar. Returns the bar, or NULL where there is none or something else. */
static char *take_bytes(char *line, struct bytes *bytes)
{
    bytes->length = 0;
    while (*line != '|' && bytes->length < sizeof bytes->at) {
        char *end = line;
        unsigned long byte = strtoul(line, &end, 16);
        if (end == line || byte > 255) {
            return NULL;
        }
        bytes->at[bytes->length++] = (uint8_t)byte;
        line = end;
    }
    return *line == '|' ? line : NULL;
}

/* One line of the list. */
static void try_line(char *line, struct tally *tally)
{
    static struct bytes bytes;
    unsigned long wrong = tally->wrong;
    line[strcspn(line, "\n")] = '\0';
    char *bar = take_bytes(line, &bytes);
    if (bar == NULL) {
        fprintf(stderr, "no line of a list: %s\n", line);
        tally->wrong++;
        return;
    }
    int said = decode(bytes.at, bytes.length, tally);
    const char *words = said > 0 ? "a reply" : geckoneedle_fault_text(-said);
    if (strcmp(words, bar + 1) != 0 || tally->wrong > wrong) {
        fprintf(stderr, "%s: the decoder says: %s\n", line, words);
        tally->wrong = wrong + 1;
    }
}

int main(int count, char **words)
{
    struct tally tally = {0, 0, 0};
    char line[1024];
    int failed = 0;
    if (count == 2 && strcmp(words[1], "-l") == 0) {
        while (fgets(line, sizeof line, stdin) != NULL) {
            try_line(line, &tally);
        }
    } else {
        for (int at = 1; at < count; at++) {
            failed |= try_record(words[at], &tally);
        }
    }
    if (tally.tried == 0) {
        fprintf(stderr, "usage: replies RECORD..., replies -l <LIST\n");
        return 2;
    }
    printf("%lu replies tried, %lu accepted, %lu decoded wrongly\n", tally.tried, tally.accepted,
           tally.wrong);
    return failed || tally.wrong > 0;
}
