/*
 * threads ROUNDS FILE...: runs the detector on record files from two threads at once, ROUNDS times each, every thread with buffers of its
 * own, and holds each returned number, every byte of the buffer and the nodes that the reply tells to those of a single-threaded run before.
 *
 * Exit status: 0 if all are equal, 1 if one differs or a file could not be read, 2 for wrong arguments or no memory.
 */
#define _POSIX_C_SOURCE 200809L

#include <pthread.h>
#include <stdio.h>
#include <stdlib.h>
#include <string.h>

#include "geckoneedle_text.h"
#include "reading.h"

enum { THREADS = 2 };

/* A record, and what the single-threaded run made of it. */
struct expected {
    struct record record;
    int64_t returned;
    uint8_t reply[GECKONEEDLE_REPLY_MAX];
    int64_t nodes;
};

/* What all threads read, and none writes. */
struct work {
    const struct expected *all;
    size_t count;
    unsigned long rounds;
    pthread_barrier_t *start;
};

/* A thread's own memory. */
struct own {
    const struct work *work;
    /* Whether it takes the records from the last to the first, so that two threads are at different ones. */
    int is_backward;
    struct record record;
    uint8_t reply[GECKONEEDLE_REPLY_MAX];
    unsigned long differing;
};

/* Runs the detector over a buffer that has the same bytes before each call. */
static int64_t detect(const struct record *record, uint8_t *reply)
{
    memset(reply, 0xA5, GECKONEEDLE_REPLY_MAX);
    return geckoneedle_detect(record->bytes, record->length, reply, GECKONEEDLE_REPLY_MAX);
}

/* The nodes of all vectors of a reply, 0 where there is none since the record was refused, or minus a fault where the bytes are no reply. */
static int64_t nodes_walked(const uint8_t *reply, int64_t returned)
{
    struct geckoneedle_reply decoder;
    struct geckoneedle_vector vector;
    int64_t nodes = 0;
    int vectors = returned < 0 ? 0 : geckoneedle_reply_begin(&decoder, reply, (size_t)returned);
    if (vectors <= 0) {
        return vectors;
    }
    while (geckoneedle_reply_next(&decoder, &vector) == 1) {
        nodes += vector.nodes;
    }
    return nodes;
}

static void compare(struct own *own, const struct expected *expected)
{
    own->record = expected->record;
    int64_t returned = detect(&own->record, own->reply);
    int is_same = returned == expected->returned && memcmp(own->reply, expected->reply, sizeof own->reply) == 0;
    if (!is_same || nodes_walked(own->reply, returned) != expected->nodes) {
        own->differing++;
    }
}

static void *run(void *argument)
{
    struct own *own = argument;
    const struct work *work = own->work;
    pthread_barrier_wait(work->start);
    for (unsigned long round = 0; round < work->rounds; round++) {
        for (size_t at = 0; at < work->count; at++) {
            compare(own, &work->all[own->is_backward ? work->count - 1 - at : at]);
        }
    }
    return NULL;
}

/* Runs all threads and waits for them. Returns how many answers differ, or -1 if a thread could not be started. */
static long run_threads(const struct expected *all, size_t count, unsigned long rounds)
{
    /* Static, so that they are there as long as any thread is. */
    static struct own owns[THREADS];
    static struct work work;
    static pthread_barrier_t start;
    pthread_t threads[THREADS];
    long differing = 0;
    work = (struct work){all, count, rounds, &start};
    if (pthread_barrier_init(&start, NULL, THREADS) != 0) {
        return -1;
    }
    for (int at = 0; at < THREADS; at++) {
        owns[at].work = &work;
        owns[at].is_backward = at % 2;
        if (pthread_create(&threads[at], NULL, run, &owns[at]) != 0) {
            /* Threads that wait at the barrier end with the program. */
            return -1;
        }
    }
    for (int at = 0; at < THREADS; at++) {
        pthread_join(threads[at], NULL);
        differing += (long)owns[at].differing;
    }
    pthread_barrier_destroy(&start);
    return differing;
}

/* Reads the files and runs the detector on each. Returns 0, or 1 if a file could not be read, or if what the detector wrote is no reply. */
static int run_single(struct expected *all, size_t count, char **paths)
{
    for (size_t at = 0; at < count; at++) {
        if (read_record(paths[at], &all[at].record) != 0) {
            return 1;
        }
        all[at].returned = detect(&all[at].record, all[at].reply);
        all[at].nodes = nodes_walked(all[at].reply, all[at].returned);
        if (all[at].nodes < 0) {
            fprintf(stderr, "%s: the detector wrote no reply: %s\n", paths[at], geckoneedle_fault_text((int)-all[at].nodes));
            return 1;
        }
    }
    return 0;
}

int main(int count, char **words)
{
    unsigned long rounds = count > 2 ? strtoul(words[1], NULL, 10) : 0;
    if (rounds == 0) {
        fprintf(stderr, "usage: threads ROUNDS FILE...\n");
        return 2;
    }
    size_t files = (size_t)(count - 2);
    struct expected *all = calloc(files, sizeof *all);
    if (all == NULL) {
        fprintf(stderr, "threads: no memory\n");
        return 2;
    }
    if (run_single(all, files, words + 2) != 0) {
        free(all);
        return 1;
    }
    long differing = run_threads(all, files, rounds);
    free(all);
    if (differing < 0) {
        fprintf(stderr, "threads: a thread could not be started\n");
        return 2;
    }
    printf("%zu records, %d threads, %lu rounds each: %ld answers differ from the single-threaded run\n", files, THREADS, rounds, differing);
    return differing == 0 ? 0 : 1;
}
