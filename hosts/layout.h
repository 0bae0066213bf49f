/*
 * Which number of a record is what, for the host program that makes records: by its index, and by the opening, M and Q alone. The opening is one
 * that geckoneedle_write takes.
 */
#ifndef LAYOUT_H
#define LAYOUT_H

#include <stddef.h>
#include <stdint.h>
#include <stdio.h>

/*
 * Says what the number at this index is, counted from 0. Where it belongs to a vector, `numbers` must begin with an M and a Q that are within
 * their ranges.
 */
void print_place(FILE *file, uint32_t opening, size_t index, const int32_t *numbers);

/* Prints all numbers of a record on standard output as a text: one thing to a line, and a comment that says what it is. */
void print_text(uint32_t opening, const int32_t *numbers);

#endif
