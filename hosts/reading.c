#include "reading.h"

#include <errno.h>
#include <stdio.h>
#include <string.h>

int complain(const char *path, const char *what, int error)
{
    fflush(stdout);
    if (error != 0) {
        fprintf(stderr, "%s: %s: %s\n", path, what, strerror(error));
    } else {
        fprintf(stderr, "%s: %s\n", path, what);
    }
    return 1;
}

int read_record(const char *path, struct record *record)
{
    errno = 0;
    FILE *file = fopen(path, "rb");
    if (file == NULL) {
        return complain(path, "the file cannot be opened", errno);
    }
    record->length = fread(record->bytes, 1, sizeof record->bytes, file);
    /* One byte more, if there is one, makes it too large. */
    int is_too_large = record->length == sizeof record->bytes && fgetc(file) != EOF;
    int failed = ferror(file);
    int error = errno;
    fclose(file);
    if (failed) {
        return complain(path, "the file cannot be read", error);
    }
    if (is_too_large) {
        char what[80];
        snprintf(what, sizeof what, "the file is too large, a record has at most %d bytes", GECKONEEDLE_RECORD_MAX);
        return complain(path, what, 0);
    }
    return 0;
}
