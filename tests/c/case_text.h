/* The values in a line of tests/cases, read from the left: tests/cases/README.md says what they are. */
#ifndef CASE_TEXT_H
#define CASE_TEXT_H

#include <stddef.h>
#include <stdint.h>

enum { LARGEST_MEMORY = 110000, LONGEST_LINE = 20000 };

/* The line that is read: where it stands, what is left of it, and whether it was found to be no case. */
typedef struct {
    const char *file;
    int number;
    const char *rest;
    int malformed;
} case_line;

extern case_line line;

/* Says that something is wrong in this line; no_case also skips what is left of it. */
void fault(const char *what);
void no_case(const char *what);

int skips(const char *text);        /* goes behind this text, if it is next */
void expect_text(const char *text); /* the same, and no case otherwise */

/* Choices: every combination of them is a call of its own. A line is read from its start for each:
 * first_combination before the first time, read_again before each time, next_combination after it (0
 * after the last one). */
void first_combination(void);
void read_again(void);
int next_combination(void);
size_t choices_read(void);

uint64_t plain_number(void);           /* no choice of numbers */
uint64_t number_value(void);
size_t bytes_value(uint8_t *bytes);    /* at most LARGEST_MEMORY; gives their count */
size_t words_value(uint8_t *bytes);    /* the same; gives the count of bytes */

#endif
