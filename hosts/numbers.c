#include "numbers.h"

#include <errno.h>
#include <stdio.h>
#include <string.h>

#include "reading.h"

/* How many characters of a word a message shows. */
enum { SHOWN = 40 };

/* A text that is being read: its next character, EOF at its end, and where that one stands. */
struct text {
    FILE *file;
    const char *name;
    int next;
    struct position at;
};

/* A word of a text, taken character by character. */
struct word {
    struct position at;
    size_t length;
    char shown[SHOWN];
    int is_negative;
    int has_digits;
    /* Whether it has a character that a whole number does not. */
    int has_others;
    /* Stops growing above 32 bits, so that a word may have any length. */
    uint64_t magnitude;
};

/* To the next character. */
static void step(struct text *text)
{
    if (text->next == '\n') {
        text->at.line++;
        text->at.column = 1;
    } else {
        text->at.column++;
    }
    text->next = getc(text->file);
}

/* A carriage return counts as a blank, so lines may end as they do on Windows. */
static int is_blank(int character)
{
    return character == ' ' || character == '\t' || character == '\r' || character == '\n';
}

static void skip_comment(struct text *text)
{
    while (text->next != '\n' && text->next != EOF) {
        step(text);
    }
}

/* Over blanks and comments, to the next word or the end. */
static void skip_to_word(struct text *text)
{
    while (is_blank(text->next) || text->next == '#') {
        if (text->next == '#') {
            skip_comment(text);
        } else {
            step(text);
        }
    }
}

static void add_digit(struct word *word, int digit)
{
    word->has_digits = 1;
    if (word->magnitude <= UINT32_MAX) {
        word->magnitude = 10 * word->magnitude + (uint64_t)digit;
    }
}

static void add_character(struct word *word, int character)
{
    if (character >= '0' && character <= '9') {
        add_digit(word, character - '0');
    } else if (word->length == 0 && (character == '-' || character == '+')) {
        word->is_negative = character == '-';
    } else {
        word->has_others = 1;
    }
    if (word->length < SHOWN) {
        word->shown[word->length] = (char)character;
    }
    word->length++;
}

/* Takes the word that begins here, and goes on to the next word or the end. */
static struct word next_word(struct text *text)
{
    struct word word = {.at = text->at};
    while (text->next != EOF && text->next != '#' && !is_blank(text->next)) {
        add_character(&word, text->next);
        step(text);
    }
    skip_to_word(text);
    return word;
}

static int is_opening_word(const struct word *word)
{
    size_t length = sizeof OPENING_WORD - 1;
    return word->length == length && memcmp(word->shown, OPENING_WORD, length) == 0;
}

/* What is seen on any terminal, and the other bytes in hexadecimal. */
static void print_shown(const struct word *word)
{
    for (size_t at = 0; at < word->length && at < SHOWN; at++) {
        unsigned char byte = (unsigned char)word->shown[at];
        fprintf(stderr, byte > 32 && byte < 127 ? "%c" : "\\x%02X", byte);
    }
    fprintf(stderr, "%s", word->length > SHOWN ? "..." : "");
}

/* Says what is wrong with a word, which stands between quotes or none. Returns 1. */
static int refuse(const struct text *text, const struct word *word, const char *quote, const char *what)
{
    fprintf(stderr, "%s: line %lu, column %lu: %s", text->name, word->at.line, word->at.column, quote);
    print_shown(word);
    fprintf(stderr, "%s %s\n", quote, what);
    return 1;
}

/* The number that a word is. Returns 0, or 1 after a message. */
static int take_value(const struct text *text, const struct word *word, int32_t *value)
{
    if (word->has_others || !word->has_digits) {
        return refuse(text, word, "'", "is not a whole number");
    }
    int64_t number = word->is_negative ? -(int64_t)word->magnitude : (int64_t)word->magnitude;
    if (number > INT32_MAX) {
        return refuse(text, word, "", "is too large for any number of a record");
    }
    if (number < INT32_MIN) {
        return refuse(text, word, "", "is too small for any number of a record");
    }
    *value = (int32_t)number;
    return 0;
}

/* Takes a word as the next number of the list. Returns 0, or 1 after a message. */
static int take_number(const struct text *text, const struct word *word, struct numbers *numbers)
{
    size_t index = numbers->count++;
    numbers->positions[index] = word->at;
    return take_value(text, word, &numbers->values[index]);
}

/* Takes the first word: as a number of the list, or where it is `opening`, with the word behind it. Returns 0, or 1 after a message. */
static int take_first(struct text *text, struct numbers *numbers)
{
    struct word word = next_word(text);
    if (!is_opening_word(&word)) {
        return take_number(text, &word, numbers);
    }
    if (text->next == EOF) {
        return refuse(text, &word, "'", "has no number behind it");
    }
    word = next_word(text);
    numbers->opening_position = word.at;
    return take_value(text, &word, &numbers->opening);
}

/* All words of a text, as many as are kept. Returns 0, or 1 after a message. */
static int take_numbers(struct text *text, struct numbers *numbers)
{
    text->next = getc(text->file);
    skip_to_word(text);
    int failed = text->next == EOF ? 0 : take_first(text, numbers);
    while (!failed && text->next != EOF && numbers->count < NUMBERS_KEPT) {
        struct word word = next_word(text);
        failed = take_number(text, &word, numbers);
    }
    return failed;
}

int read_numbers(const char *path, const char *name, struct numbers *numbers)
{
    errno = 0;
    struct text text = {.file = path == NULL ? stdin : fopen(path, "rb"), .name = name, .at = {1, 1}};
    if (text.file == NULL) {
        return complain(name, "the file cannot be opened", errno);
    }
    numbers->opening = OPENING_UNSAID;
    numbers->count = 0;
    int failed = take_numbers(&text, numbers);
    int is_unreadable = ferror(text.file);
    int error = errno;
    if (path != NULL) {
        fclose(text.file);
    }
    return !failed && is_unreadable ? complain(name, "the file cannot be read", error) : failed;
}
