#define _DEFAULT_SOURCE /* mmap's MAP_ANONYMOUS */
#include "harness.h"

#include <stdio.h>
#include <stdlib.h>
#include <string.h>
#include <sys/mman.h>
#include <unistd.h>

/* ---- tests */

static char current[128]; /* the test's name */
static int facts_failed, tests_passed, tests_failed;

static void end_test(void)
{
    if (!current[0])
        return;
    printf("%s %s\n", facts_failed ? "FAILED" : "ok", current);
    if (facts_failed)
        tests_failed++;
    else
        tests_passed++;
    current[0] = '\0';
}

void begin_test(const char *name)
{
    end_test();
    snprintf(current, sizeof current, "%s", name);
    facts_failed = 0;
}

void check_fact(int holds, const char *fact, const char *file, int line)
{
    if (holds)
        return;
    if (facts_failed++ < 3)
        printf("%s:%d: not so: %s\n", file, line, fact);
}

int finish_tests(void)
{
    end_test();
    printf("c: %d passed, %d failed\n", tests_passed, tests_failed);
    return tests_failed == 0 && tests_passed > 0 ? 0 : 1;
}

static void broken(const char *what)
{
    printf("the tests themselves failed: %s\n", what);
    exit(2);
}

/* ---- guarded memory */

enum { GUARD = 64, AREA_SIZE = 1 << 17, PAGE_AREAS = 8 };

static const uint8_t guard_paint = 0xA5;
static enum memory_kind memory_kind = FENCED_PAGES;
static uint8_t *area_end[PAGE_AREAS]; /* where the fence behind an area begins */
static int area_used[PAGE_AREAS];

void use_memory(enum memory_kind kind)
{
    memory_kind = kind;
}

static uint8_t *new_area(void)
{
    size_t page = (size_t)sysconf(_SC_PAGESIZE);
    uint8_t *start =
        mmap(NULL, AREA_SIZE + 2 * page, PROT_NONE, MAP_PRIVATE | MAP_ANONYMOUS, -1, 0);

    if (start == MAP_FAILED || mprotect(start + page, AREA_SIZE, PROT_READ | PROT_WRITE) != 0)
        broken("no memory between fences");
    return start + page + AREA_SIZE;
}

/* Memory that ends where an inaccessible page begins. */
static uint8_t *page_memory(size_t size)
{
    for (int i = 0; i < PAGE_AREAS; i++)
        if (!area_used[i]) {
            if (!area_end[i])
                area_end[i] = new_area();
            area_used[i] = 1;
            return area_end[i] - size;
        }
    broken("more memory guarded at once than there are areas");
    return NULL;
}

static uint8_t *malloc_memory(size_t size)
{
    uint8_t *start = malloc(GUARD + size);

    if (!start)
        broken("no memory");
    return start + GUARD;
}

guarded guard(size_t size, uint8_t paint)
{
    guarded memory = {NULL, size, malloc(size + 1), memory_kind == FENCED_PAGES};

    if (!memory.kept || size + GUARD > AREA_SIZE)
        broken("no memory of that size");
    memory.at = memory.pages ? page_memory(size) : malloc_memory(size);
    memset(memory.at - GUARD, guard_paint, GUARD);
    memset(memory.at, paint, size);
    keep(&memory);
    return memory;
}

guarded guard_copy(const void *bytes, size_t size)
{
    guarded memory = guard(size, 0);

    if (size > 0)
        memcpy(memory.at, bytes, size);
    keep(&memory);
    return memory;
}

void give_back(guarded *memory)
{
    free(memory->kept);
    if (memory->pages) {
        for (int i = 0; i < PAGE_AREAS; i++)
            if (area_end[i] == memory->at + memory->size)
                area_used[i] = 0;
    } else {
        free(memory->at - GUARD);
    }
    memory->at = NULL;
}

uint64_t *words_of(const guarded *memory)
{
    return (uint64_t *)(void *)memory->at;
}

size_t word_count(const guarded *memory)
{
    return memory->size / sizeof(uint64_t);
}

void keep(guarded *memory)
{
    if (memory->size > 0)
        memcpy(memory->kept, memory->at, memory->size);
}

int same_from(const guarded *memory, size_t from)
{
    for (size_t i = 1; i <= GUARD; i++)
        if (memory->at[-(ptrdiff_t)i] != guard_paint)
            return 0;
    return from >= memory->size ||
           memcmp(memory->at + from, memory->kept + from, memory->size - from) == 0;
}

int unchanged(const guarded *memory)
{
    return same_from(memory, 0);
}

/* ---- links */

settings hybrid(uint64_t data_limit)
{
    settings link = {0, 0x0B, 0x1C, data_limit};
    return link;
}

settings minimal(uint64_t data_limit)
{
    settings link = {1, 0x0B, 0x1C, data_limit};
    return link;
}

size_t need_of(settings link)
{
    return (size_t)link.data_limit + (link.minimal ? 0 : 12);
}

size_t overhead_of(settings link)
{
    return link.minimal ? 3 : 15;
}

uint64_t read_part(settings link, guarded *state, const uint8_t *part, size_t part_length,
                   guarded *buffer, guarded *verdict)
{
    if (link.minimal)
        return gmv_minimal_read(link.data_limit, words_of(state), word_count(state), part,
                                part_length, buffer->at, buffer->size, words_of(verdict),
                                word_count(verdict));
    return gmv_hybrid_read(link.start_block, link.end_block, link.data_limit, words_of(state),
                           word_count(state), part, part_length, buffer->at, buffer->size,
                           words_of(verdict), word_count(verdict));
}

uint64_t check_block(settings link, const uint8_t *block, size_t length, guarded *verdict)
{
    if (link.minimal)
        return gmv_minimal_check(link.data_limit, block, length, words_of(verdict),
                                 word_count(verdict));
    return gmv_hybrid_check(link.start_block, link.end_block, link.data_limit, block, length,
                            words_of(verdict), word_count(verdict));
}

uint64_t write_block(settings link, uint64_t type, const guarded *content, guarded *buffer,
                     size_t start, guarded *report)
{
    if (link.minimal)
        return gmv_minimal_write(link.data_limit, content->at, content->size, buffer->at,
                                 buffer->size, start, words_of(report), word_count(report));
    return gmv_hybrid_write(link.start_block, link.end_block, link.data_limit, type, content->at,
                            content->size, buffer->at, buffer->size, start, words_of(report),
                            word_count(report));
}

int says_accepted(const guarded *verdict, uint64_t type, uint64_t data_offset, uint64_t data_length)
{
    const uint64_t *words = words_of(verdict);

    return words[GMV_VERDICT_FOUND] == 1 && words[GMV_VERDICT_NUMBER] == GMV_OK &&
           words[GMV_VERDICT_FORBIDDEN_OFFSET] == 0 && words[GMV_VERDICT_TYPE] == type &&
           words[GMV_VERDICT_DATA_OFFSET] == data_offset &&
           words[GMV_VERDICT_DATA_LENGTH] == data_length;
}

int says_refused(const guarded *verdict, uint64_t number, uint64_t forbidden_offset)
{
    const uint64_t *words = words_of(verdict);

    return words[GMV_VERDICT_FOUND] == 1 && words[GMV_VERDICT_NUMBER] == number &&
           words[GMV_VERDICT_FORBIDDEN_OFFSET] == forbidden_offset &&
           words[GMV_VERDICT_TYPE] == 0 && words[GMV_VERDICT_DATA_OFFSET] == 0 &&
           words[GMV_VERDICT_DATA_LENGTH] == 0;
}

/* ---- streams */

/* Reads one part to its end, call by call, and lists the verdicts. */
static void read_whole_part(settings link, guarded *state, const uint8_t *bytes, size_t start,
                            size_t end, guarded *buffer, guarded *verdict, listing *list)
{
    size_t at = start;

    do {
        guarded part = guard_copy(bytes + at, end - at);
        uint64_t answer = read_part(link, state, part.at, part.size, buffer, verdict);
        const uint64_t *words = words_of(verdict);

        CHECK(answer == GMV_OK);
        CHECK(unchanged(&part));
        give_back(&part);
        if (answer != GMV_OK)
            return;
        CHECK(words[GMV_VERDICT_USED] <= end - at);
        CHECK(words[GMV_VERDICT_FOUND] == 1 || words[GMV_VERDICT_USED] == end - at);
        at += words[GMV_VERDICT_USED];
        CHECK(words_of(state)[GMV_READER_POSITION] == at);
        CHECK(words_of(state)[GMV_READER_BODY_LENGTH] <= need_of(link) + 1);
        if (words[GMV_VERDICT_FOUND] == 1 && list->count < LISTED) {
            memcpy(list->words[list->count], words, sizeof list->words[0]);
            list->words[list->count++][GMV_VERDICT_USED] = at;
        }
    } while (at < end);
}

listing read_stream(settings link, const uint8_t *bytes, size_t length, size_t size, guarded *buffer)
{
    listing list = {0, {{0}}, {0}};
    guarded state = guard(GMV_READER_WORDS * sizeof(uint64_t), 0xEE);
    guarded verdict = guard(GMV_VERDICT_WORDS * sizeof(uint64_t), 0xEE);
    size_t at = 0;

    *buffer = guard(need_of(link), 0x55);
    CHECK(gmv_reader_fresh(words_of(&state), word_count(&state)) == GMV_OK);
    while (at < length) {
        size_t step = size > 0 ? size : random_below(8);
        size_t end = step < length - at ? at + step : length;

        read_whole_part(link, &state, bytes, at, end, buffer, &verdict, &list);
        at = end;
    }
    CHECK(same_from(buffer, buffer->size));
    memcpy(list.state, state.at, sizeof list.state);
    give_back(&state);
    give_back(&verdict);
    return list;
}

int same_listing(const listing *a, const listing *b)
{
    return a->count == b->count &&
           memcmp(a->words, b->words, a->count * sizeof a->words[0]) == 0;
}

/* ---- random numbers (xorshift) */

static uint64_t random_state = 1;

void seed_random(uint64_t seed)
{
    random_state = seed;
}

uint64_t random_below(uint64_t bound)
{
    random_state ^= random_state << 13;
    random_state ^= random_state >> 7;
    random_state ^= random_state << 17;
    return (random_state >> 11) % bound;
}

uint8_t random_data_byte(void)
{
    uint64_t pick = random_below(0x60);

    return pick == 0 ? '\r' : (uint8_t)(0x1F + pick);
}
