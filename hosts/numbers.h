/*
 * Reading a text of whole numbers, for the host program that makes records.
 *
 * A text may begin with the word `opening` and a number, which geckoneedle_write is told; the numbers behind it are the list. A number is
 * decimal, with a sign or none. Blanks, tabs and line ends stand between words; `#` starts a comment, to the end of its line.
 */
#ifndef NUMBERS_H
#define NUMBERS_H

#include <stddef.h>
#include <stdint.h>

#include "geckoneedle.h"

/*
 * How many numbers of a text are kept: one more than any record has. So many are refused, if not for one of them then by 13, and checks go in
 * their order; what follows could not change that, and is not read.
 */
enum { NUMBERS_KEPT = GECKONEEDLE_NUMBERS_MAX + 1 };

/* The word in front of an opening, and the opening of a text that does not begin with this word. */
#define OPENING_WORD "opening"
enum { OPENING_UNSAID = 1 };

/* A place in a text, both counted from 1, a column for each byte. */
struct position {
    unsigned long line;
    unsigned long column;
};

/* A text's opening and its list, and where each number begins. An opening that is not said has no position. */
struct numbers {
    int32_t opening;
    struct position opening_position;
    size_t count;
    int32_t values[NUMBERS_KEPT];
    struct position positions[NUMBERS_KEPT];
};

/*
 * Reads a file, or standard input where `path` is NULL; `name` is what messages call it. Returns 0, or 1 after a message on standard error: the
 * file is missing or unreadable, or a word in it is no whole number or is beyond 32 bits, and so beyond any number of a record, or `opening` has
 * no number behind it. Which openings there are is not checked here.
 */
int read_numbers(const char *path, const char *name, struct numbers *numbers);

#endif
