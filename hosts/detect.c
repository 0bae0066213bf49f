/*
 * detect [-b BYTES] FILE...: runs the detector on record files and prints what it answers, a line for each vector, or why it refuses.
 * BYTES is the length of the reply buffer that it is given, enough for every record unless said.
 *
 * Exit status: 0 if every record was accepted, 1 if a file could not be read or a record was refused, 2 for wrong arguments.
 */
#include <inttypes.h>
#include <stdio.h>
#include <stdlib.h>
#include <string.h>

#include "geckoneedle_text.h"
#include "reading.h"

static void print_refusal(const char *path, int64_t number)
{
    printf("%s: refused by %" PRId64 ": %s\n", path, number, geckoneedle_refusal_text(number));
}

static const char *plural(uint32_t count)
{
    return count == 1 ? "" : "s";
}

/* A vector's line: mark, nodes, label, soft values. */
static void print_vector(const struct geckoneedle_vector *vector, uint32_t index, uint32_t label_bits)
{
    printf("  vector %" PRIu32 ": %s after %" PRIu32 " node%s, label %" PRIu32 ", soft values", index,
           vector->stopped ? "stopped" : "complete", vector->nodes, plural(vector->nodes), vector->label);
    for (uint32_t bit = 0; bit < label_bits; bit++) {
        printf(" %" PRId32, vector->soft[bit]);
    }
    printf("\n");
}

/* Prints a reply. Returns 0, or 1 if it is not what geckoneedle.h says, which the library's proof rules out. */
static int print_reply(const char *path, const uint8_t *bytes, size_t length)
{
    struct geckoneedle_reply reply;
    struct geckoneedle_vector vector;
    int vectors = geckoneedle_reply_begin(&reply, bytes, length);
    if (vectors < 0) {
        fprintf(stderr, "%s: the detector wrote no reply: %s\n", path, geckoneedle_fault_text(-vectors));
        return 1;
    }
    printf("%s: %d vector%s of %" PRIu32 " stream%s, %" PRIu32 " bit%s each\n", path, vectors, plural(reply.vectors), reply.streams,
           plural(reply.streams), reply.bits, plural(reply.bits));
    while (geckoneedle_reply_next(&reply, &vector) == 1) {
        print_vector(&vector, reply.given, reply.streams * reply.bits);
    }
    return 0;
}

/* One file. Returns 0 if its record was accepted. */
static int run(const char *path, size_t room)
{
    static struct record record;
    static uint8_t reply[GECKONEEDLE_REPLY_MAX];
    if (read_record(path, &record) != 0) {
        return 1;
    }
    int64_t returned = geckoneedle_detect(record.bytes, record.length, reply, room);
    if (returned < 0) {
        print_refusal(path, -returned);
        return 1;
    }
    return print_reply(path, reply, (size_t)returned);
}

/* Takes a buffer length from the arguments. Returns 0 if it is one. */
static int take_room(const char *word, size_t *room)
{
    char *end = NULL;
    unsigned long number = strtoul(word, &end, 10);
    int is_number = word[0] >= '0' && word[0] <= '9' && *end == '\0';
    if (!is_number || number > GECKONEEDLE_REPLY_MAX) {
        fprintf(stderr, "detect: a reply buffer has 0 to %zu bytes, and not %s\n", GECKONEEDLE_REPLY_MAX, word);
        return 1;
    }
    *room = (size_t)number;
    return 0;
}

int main(int count, char **words)
{
    size_t room = GECKONEEDLE_REPLY_MAX;
    int first = 1;
    if (count > 2 && strcmp(words[1], "-b") == 0) {
        if (take_room(words[2], &room) != 0) {
            return 2;
        }
        first = 3;
    }
    if (first >= count) {
        fprintf(stderr, "usage: detect [-b BYTES] FILE...\n");
        return 2;
    }
    int failed = 0;
    for (int at = first; at < count; at++) {
        failed |= run(words[at], room);
    }
    if (fflush(stdout) != 0 || ferror(stdout)) {
        fprintf(stderr, "detect: the output cannot be written\n");
        return 1;
    }
    return failed;
}
