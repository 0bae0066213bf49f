/* Reading a record file, for the host programs. */
#ifndef READING_H
#define READING_H

#include <stddef.h>
#include <stdint.h>

#include "geckoneedle.h"

/* A record file's bytes. */
struct record {
    size_t length;
    uint8_t bytes[GECKONEEDLE_RECORD_MAX];
};

/* Says what is wrong with a file, behind whatever has been printed so far, with the system's reason unless `error` is 0. Returns 1. */
int complain(const char *path, const char *what, int error);

/* Reads the file. Returns 0, or 1 after a message on standard error: the file is missing, unreadable or too large for a record. */
int read_record(const char *path, struct record *record);

#endif
