/*
 * record [-o RECORD] [NUMBERS]: makes a block record of a text of its opening and its whole numbers. The text is standard input where no file
 * is named, and the record goes to standard output where no -o is given. geckoneedle.h says which numbers in which order, numbers.h how they
 * are written.
 * record -n RECORD: the way back, a record's numbers as a text, with comments that say what is what.
 *
 * A text or record that is refused is said on standard error, with the place and the reason, and then no file is made or altered.
 *
 * Exit status: 0 if all is well, 1 if something was refused or a file could not be read or written, 2 for wrong arguments.
 */
#include <errno.h>
#include <inttypes.h>
#include <stdio.h>
#include <string.h>

#include "geckoneedle_text.h"
#include "layout.h"
#include "numbers.h"
#include "reading.h"

/* The record of the list's first `count` numbers, or minus the refusal's number. Which openings there are is the library's to say. */
static int64_t write_first(const struct numbers *list, size_t count, uint8_t *record, size_t room)
{
    return geckoneedle_write((uint32_t)list->opening, list->values, count, record, room);
}

/*
 * The index of the number for which a list is refused, by another refusal than 1 and 2. geckoneedle_write checks number by number, and the first
 * check that fails decides. So under the same opening a beginning of the list that has the refused number is refused as the whole list is, and
 * one that ends before it is not: all its numbers pass, and it gets 2 where M, Q and N call for more, else 14, since it is lent no memory.
 * (crates/records/proofs/Beginnings.antt has the proof.) The number is the last of the shortest beginning that is refused as the whole list is,
 * and no range is checked here a second time. These are at most as many calls as a record has numbers.
 */
static size_t refused_index(const struct numbers *list, int64_t refusal)
{
    uint8_t none[1];
    size_t index = 0;
    while (index + 1 < list->count && write_first(list, index + 1, none, 0) != -refusal) {
        index++;
    }
    return index;
}

/* The list ends where a number is due. */
static void explain_end(const char *name, const struct numbers *list)
{
    if (list->count == 0) {
        fprintf(stderr, "%s: there is no number, and number 1 is due: ", name);
    } else {
        unsigned long line = list->positions[list->count - 1].line;
        fprintf(stderr, "%s: the numbers end after number %zu (line %lu), and number %zu is due: ", name, list->count, line, list->count + 1);
    }
    print_place(stderr, (uint32_t)list->opening, list->count, list->values);
}

/* The opening is none that the library knows. */
static void explain_opening(const char *name, const struct numbers *list)
{
    struct position at = list->opening_position;
    fprintf(stderr, "%s: line %lu, column %lu: the opening is %" PRId32 ": it must be %s", name, at.line, at.column, list->opening,
            geckoneedle_range_text(GECKONEEDLE_REFUSED_OPENING));
}

/* The number before it that a range goes by, if it goes by one. */
static void explain_bound(const struct numbers *list, int64_t refusal)
{
    if (refusal == GECKONEEDLE_REFUSED_SHARE || refusal == GECKONEEDLE_REFUSED_FOUR_WIDE) {
        fprintf(stderr, ", and M is %" PRId32, list->values[0]);
    } else if (refusal == GECKONEEDLE_REFUSED_WEAK_VALUE) {
        fprintf(stderr, ", and C is %" PRId32, list->values[3]);
    }
}

/* A number is outside its range, or one too many. */
static void explain_number(const char *name, const struct numbers *list, int64_t refusal)
{
    size_t index = refused_index(list, refusal);
    struct position at = list->positions[index];
    fprintf(stderr, "%s: line %lu, column %lu: number %zu ", name, at.line, at.column, index + 1);
    if (refusal == GECKONEEDLE_REFUSED_TRAILING) {
        fprintf(stderr, "follows the last prior; M, Q and N call for %zu numbers", index);
        return;
    }
    fprintf(stderr, "is %" PRId32 ": ", list->values[index]);
    print_place(stderr, (uint32_t)list->opening, index, list->values);
    fprintf(stderr, ": it must be %s", geckoneedle_range_text(refusal));
    explain_bound(list, refusal);
}

/* Says why a list is refused. Returns 1. */
static int explain(const char *name, const struct numbers *list, int64_t refusal)
{
    if (refusal == GECKONEEDLE_REFUSED_OPENING) {
        explain_opening(name, list);
    } else if (refusal == GECKONEEDLE_REFUSED_ENDS) {
        explain_end(name, list);
    } else if (refusal == GECKONEEDLE_REFUSED_TRAILING || geckoneedle_range_text(refusal) != NULL) {
        explain_number(name, list, refusal);
    } else {
        fprintf(stderr, "%s: %s", name, geckoneedle_refusal_text(refusal));
    }
    fprintf(stderr, " (refused by %" PRId64 ")\n", refusal);
    return 1;
}

/* Writes a record to a file, or to standard output where `path` is NULL. Returns 0, or 1 after a message. */
static int put_record(const char *path, const uint8_t *bytes, size_t length)
{
    const char *name = path == NULL ? "standard output" : path;
    errno = 0;
    FILE *file = path == NULL ? stdout : fopen(path, "wb");
    if (file == NULL) {
        return complain(name, "the record cannot be written", errno);
    }
    int is_written = fwrite(bytes, 1, length, file) == length && fflush(file) == 0;
    int is_closed = path == NULL || fclose(file) == 0;
    /* Where it fails a part of the record may be there. It passes for no record: one that is cut short is refused. */
    return is_written && is_closed ? 0 : complain(name, "the record cannot be written", errno);
}

/* Makes a record of a text; NULL is standard input, or output. Returns 0, or 1 after a message. */
static int make_record(const char *text, const char *path)
{
    static struct numbers list;
    static uint8_t record[GECKONEEDLE_RECORD_MAX];
    const char *name = text == NULL ? "standard input" : text;
    if (read_numbers(text, name, &list) != 0) {
        return 1;
    }
    int64_t returned = write_first(&list, list.count, record, sizeof record);
    if (returned < 0) {
        return explain(name, &list, -returned);
    }
    return put_record(path, record, (size_t)returned);
}

/* Prints a record's numbers. Returns 0, or 1 after a message. */
static int show_numbers(const char *path)
{
    static struct record record;
    static int32_t numbers[GECKONEEDLE_NUMBERS_MAX];
    if (read_record(path, &record) != 0) {
        return 1;
    }
    int64_t returned = geckoneedle_read(record.bytes, record.length, numbers, GECKONEEDLE_NUMBERS_MAX);
    if (returned < 0) {
        fprintf(stderr, "%s: refused by %" PRId64 ": %s\n", path, -returned, geckoneedle_refusal_text(-returned));
        return 1;
    }
    print_text(record.bytes[3] - (uint32_t)0x30, numbers);
    if (fflush(stdout) != 0 || ferror(stdout)) {
        fprintf(stderr, "record: the output cannot be written\n");
        return 1;
    }
    return 0;
}

static int complain_of_arguments(void)
{
    fprintf(stderr, "usage: record [-o RECORD] [NUMBERS], record -n RECORD\n");
    return 2;
}

int main(int count, char **words)
{
    if (count == 3 && strcmp(words[1], "-n") == 0) {
        return show_numbers(words[2]);
    }
    int has_output = count > 2 && strcmp(words[1], "-o") == 0;
    int first = has_output ? 3 : 1;
    const char *output = has_output ? words[2] : NULL;
    const char *text = count > first ? words[first] : NULL;
    if (count > first + 1 || (text != NULL && text[0] == '-')) {
        return complain_of_arguments();
    }
    if (text != NULL && output != NULL && strcmp(text, output) == 0) {
        fprintf(stderr, "record: the record would take the place of its own text, %s\n", text);
        return 2;
    }
    return make_record(text, output);
}
