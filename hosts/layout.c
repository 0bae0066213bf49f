#include "layout.h"

#include <inttypes.h>

#include "numbers.h"

/* The numbers that may stand before the first vector, and before each. */
#define STREAMS "M, the number of streams"
#define WIDTH "Q, the bits of a symbol"
#define VECTORS "N, the number of vectors"
#define CLIP "C, the clip"
#define WEAK_VALUE "W, the weak value"
#define SHARE "D, the share"
#define OWNER "owner"

/* Those that a record has, in their order: how many, their letters, and what each is; and how many owners stand before each vector. */
struct header {
    size_t count;
    const char *letters;
    const char *places[6];
    size_t owners;
};

/* By opening, from 1 on. */
static const struct header HEADERS[] = {
    {5, "M Q N C D", {STREAMS, WIDTH, VECTORS, CLIP, SHARE}, 0},
    {6, "M Q N C W D", {STREAMS, WIDTH, VECTORS, CLIP, WEAK_VALUE, SHARE}, 0},
    {6, "M Q N C W D", {STREAMS, WIDTH, VECTORS, CLIP, WEAK_VALUE, SHARE}, 1},
};

static const struct header *header_of(uint32_t opening)
{
    return &HEADERS[opening - 1];
}

/* How many numbers a row of R has, rows counted from 1: the diagonal entry, and two for each entry right of it. */
static size_t row_numbers(size_t streams, size_t row)
{
    return 1 + 2 * (streams - row);
}

/* Real and imaginary parts take turns. */
static const char *part(size_t at)
{
    return at % 2 == 0 ? "real part" : "imaginary part";
}

/* A number of R, which has `streams` squared of them, row by row. */
static void print_entry(FILE *file, size_t at, size_t streams)
{
    size_t row = 1;
    while (at >= row_numbers(streams, row)) {
        at -= row_numbers(streams, row);
        row++;
    }
    if (at == 0) {
        fprintf(file, "R's row %zu, diagonal entry", row);
    } else {
        fprintf(file, "R's row %zu, %s of the entry in column %zu", row, part(at - 1), row + 1 + (at - 1) / 2);
    }
}

/* A number of a vector: R, then y, then the priors. */
static void print_vector_place(FILE *file, size_t at, size_t streams, size_t bits)
{
    size_t matrix = streams * streams;
    size_t received = 2 * streams;
    if (at < matrix) {
        print_entry(file, at, streams);
    } else if (at < matrix + received) {
        fprintf(file, "y's row %zu, %s", (at - matrix) / 2 + 1, part(at - matrix));
    } else {
        size_t prior = at - matrix - received;
        fprintf(file, "prior of stream %zu, bit %zu", prior / bits + 1, prior % bits + 1);
    }
}

void print_place(FILE *file, uint32_t opening, size_t index, const int32_t *numbers)
{
    const struct header *header = header_of(opening);
    if (index < header->count) {
        fprintf(file, "%s", header->places[index]);
        return;
    }
    size_t streams = (size_t)numbers[0];
    size_t bits = (size_t)numbers[1];
    size_t in_vector = header->owners + streams * streams + 2 * streams + streams * bits;
    size_t at = (index - header->count) % in_vector;
    fprintf(file, "vector %zu, ", (index - header->count) / in_vector + 1);
    if (at < header->owners) {
        fprintf(file, OWNER);
    } else {
        print_vector_place(file, at - header->owners, streams, bits);
    }
}

/* Prints so many numbers, and returns where the next one stands. */
static const int32_t *print_numbers(const int32_t *next, size_t count)
{
    for (size_t at = 0; at < count; at++) {
        printf("%s%" PRId32, at == 0 ? "" : " ", next[at]);
    }
    return next + count;
}

/* A line for each row of R, one for y, and one for each stream's priors. Returns where the next vector stands. */
static const int32_t *print_vector(const int32_t *next, size_t streams, size_t bits)
{
    for (size_t row = 1; row <= streams; row++) {
        next = print_numbers(next, row_numbers(streams, row));
        printf("   # R, row %zu\n", row);
    }
    next = print_numbers(next, 2 * streams);
    printf("   # y\n");
    for (size_t stream = 1; stream <= streams; stream++) {
        next = print_numbers(next, bits);
        printf("   # priors, stream %zu\n", stream);
    }
    return next;
}

void print_text(uint32_t opening, const int32_t *numbers)
{
    const struct header *header = header_of(opening);
    if (opening != OPENING_UNSAID) {
        printf(OPENING_WORD " %" PRIu32 "\n", opening);
    }
    const int32_t *next = print_numbers(numbers, header->count);
    printf("   # %s\n", header->letters);
    for (int32_t vector = 1; vector <= numbers[2]; vector++) {
        printf("# vector %" PRId32 "\n", vector);
        if (header->owners > 0) {
            next = print_numbers(next, header->owners);
            printf("   # " OWNER "\n");
        }
        next = print_vector(next, (size_t)numbers[0], (size_t)numbers[1]);
    }
}
