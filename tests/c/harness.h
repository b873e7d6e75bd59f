/* What the C tests share: named tests, memory with guards, a driver's line, random numbers. */
#ifndef HARNESS_H
#define HARNESS_H

#include "giamuvich.h"

/* A test begins with its name and lasts until the next one begins. It fails if a CHECK in it does.
 * finish_tests prints the count as its last line and returns the program's exit status. */
void begin_test(const char *name);
void check_fact(int holds, const char *fact, const char *file, int line);
int finish_tests(void);
#define CHECK(fact) check_fact((fact) != 0, #fact, __FILE__, __LINE__)

/* Guarded memory: exactly `size` bytes. A touch of the byte after them ends the program, by a page
 * that cannot be accessed or, for memory of malloc, by the address sanitizer (which sees the test's
 * own code and memcpy, not the inside of the archive: hence the pages). The bytes just before them
 * are painted and looked at. `kept` is a copy of the content, made by keep(). */
typedef struct {
    uint8_t *at;
    size_t size;
    uint8_t *kept;
    int pages;
} guarded;

enum memory_kind { FENCED_PAGES, EXACT_MALLOC };
void use_memory(enum memory_kind kind);

guarded guard(size_t size, uint8_t paint);
guarded guard_copy(const void *bytes, size_t size);
void give_back(guarded *memory);
uint64_t *words_of(const guarded *memory);
size_t word_count(const guarded *memory);

void keep(guarded *memory);
/* The content from `from` on is as kept, and the guard before the memory is whole. */
int same_from(const guarded *memory, size_t from);
int unchanged(const guarded *memory);

/* The settings of a link. Minimal links use the limit alone. */
typedef struct {
    int minimal;
    uint64_t start_block, end_block, data_limit;
} settings;

settings hybrid(uint64_t data_limit); /* 0B and 1C */
settings minimal(uint64_t data_limit);
size_t need_of(settings link);     /* the bytes that the reader's buffer must have */
size_t overhead_of(settings link); /* a block's bytes besides its data: 15 or 3 */

/* The six functions, by the kind of the link. */
uint64_t read_part(settings link, guarded *state, const uint8_t *part, size_t part_length,
                   guarded *buffer, guarded *verdict);
uint64_t check_block(settings link, const uint8_t *block, size_t length, guarded *verdict);
uint64_t write_block(settings link, uint64_t type, const guarded *content, guarded *buffer,
                     size_t start, guarded *report);

/* The verdict says: a block accepted, of this type, with its data there; or refused so. */
int says_accepted(const guarded *verdict, uint64_t type, uint64_t data_offset, uint64_t data_length);
int says_refused(const guarded *verdict, uint64_t number, uint64_t forbidden_offset);

/* A list of verdicts, as a driver gets them from a stream that comes in parts. */
enum { LISTED = 64 };
typedef struct {
    size_t count;
    uint64_t words[LISTED][GMV_VERDICT_WORDS]; /* GMV_VERDICT_USED: bytes of the stream read by then */
    uint64_t state[GMV_READER_WORDS];          /* at the stream's end */
} listing;

/* Reads the bytes in parts of `size` bytes each, or of random sizes from 0 to 7 where size is 0. The
 * buffer is painted with 55 first and left for the caller to look at and give back. */
listing read_stream(settings link, const uint8_t *bytes, size_t length, size_t size, guarded *buffer);
int same_listing(const listing *a, const listing *b);

/* Random numbers that are the same in each run. */
void seed_random(uint64_t seed);
uint64_t random_below(uint64_t bound);
uint8_t random_data_byte(void);

/* The cases of a file of tests/cases, and one case as such a file has it, made here. */
void run_cases_of(const char *path);
void run_case(const char *file, int number_of_line, const char *format, ...)
    __attribute__((format(printf, 3, 4)));
#define CASE(...) run_case(__FILE__, __LINE__, __VA_ARGS__)

/* The groups of tests. */
void test_constants(void);
void test_cases(void);
void test_round_trips(void);
void test_settings(void);
void test_random(void);
void test_sweeps(void);
void test_message_trips(void);
void test_link(void);
void test_dialogue(void);
void test_master_sweeps(void);
void test_master_dialogue(void);
void test_turning(void);
void test_state_words(void);
void test_caller_memory(void);
void test_duties(void);
void test_stack(void);
void test_instructions(void);
void test_version(void);

#endif
