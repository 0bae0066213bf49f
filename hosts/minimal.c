/*
 * minimal <RECORD: a small host. Prints the label and the soft values of each vector of the record
 * on standard input, or why it is refused. hosts/test.sh builds it against an installed library, by
 *     cc minimal.c $(pkg-config --cflags --libs geckoneedle) -o minimal
 */
#include <geckoneedle.h>
#include <geckoneedle_text.h>
#include <stdio.h>

int main(void)
{
    /* A byte more than any record has, so that what is too long is refused and not cut. */
    static uint8_t record[GECKONEEDLE_RECORD_MAX + 1], bytes[GECKONEEDLE_REPLY_MAX];
    struct geckoneedle_reply reply;
    struct geckoneedle_vector vector;
    size_t length = fread(record, 1, sizeof record, stdin);
    int64_t returned = geckoneedle_detect(record, length, bytes, sizeof bytes);
    if (returned < 0) {
        printf("refused: %s\n", geckoneedle_refusal_text(-returned));
        return 1;
    }
    if (geckoneedle_reply_begin(&reply, bytes, (size_t)returned) < 0) {
        return 2; /* Never: what the detector writes is a reply. */
    }
    while (geckoneedle_reply_next(&reply, &vector) == 1) {
        printf("label %lu:", (unsigned long)vector.label);
        for (unsigned bit = 0; bit < reply.streams * reply.bits; bit++) {
            printf(" %ld", (long)vector.soft[bit]);
        }
        printf("%s\n", vector.stopped ? " (stopped)" : "");
    }
    return 0;
}
