/* Settings: the defaults, and every pair of SB and EB: 1 exactly where one is outside its range, in
 * every function of blocks and before all else. */
#include "harness.h"

#include <string.h>

enum { WORD = sizeof(uint64_t) };

typedef struct {
    guarded state, part, buffer, verdict, report;
} memory;

static memory new_memory(void)
{
    static const uint8_t bytes[] = {'x', 'y', 'z'};
    memory m;

    m.state = guard(GMV_READER_WORDS * WORD, 0);
    m.part = guard_copy(bytes, sizeof bytes);
    m.buffer = guard(40, 0x55);
    m.verdict = guard(GMV_VERDICT_WORDS * WORD, 0xEE);
    m.report = guard(GMV_REPORT_WORDS * WORD, 0xEE);
    return m;
}

static void end_memory(memory *m)
{
    give_back(&m->state);
    give_back(&m->part);
    give_back(&m->buffer);
    give_back(&m->verdict);
    give_back(&m->report);
}

static int all_unchanged(const memory *m)
{
    return unchanged(&m->state) && unchanged(&m->part) && unchanged(&m->buffer) &&
           unchanged(&m->verdict) && unchanged(&m->report);
}

/* The three functions of the link refuse with 1 and change nothing. */
static void refused_everywhere(settings link, memory *m)
{
    CHECK(read_part(link, &m->state, m->part.at, m->part.size, &m->buffer, &m->verdict) ==
          GMV_SETTING);
    CHECK(check_block(link, m->part.at, m->part.size, &m->verdict) == GMV_SETTING);
    CHECK(write_block(link, 'D', &m->part, &m->buffer, 0, &m->report) == GMV_SETTING);
    CHECK(all_unchanged(m));
}

/* They take the setting. What they then do is not the matter here, only that it is not 1. */
static void taken_everywhere(settings link, memory *m)
{
    CHECK(read_part(link, &m->state, m->part.at, m->part.size, &m->buffer, &m->verdict) !=
          GMV_SETTING);
    CHECK(check_block(link, m->part.at, m->part.size, &m->verdict) != GMV_SETTING);
    CHECK(write_block(link, 'D', &m->part, &m->buffer, 0, &m->report) != GMV_SETTING);
    keep(&m->state);
    keep(&m->buffer);
    keep(&m->verdict);
    keep(&m->report);
}

static void refused_or_taken(int allowed, settings link, memory *m)
{
    if (allowed)
        taken_everywhere(link, m);
    else
        refused_everywhere(link, m);
}

/* Document 01: refused if the two are equal, or if either is CR or lies in 20 to 7E. */
static int byte_allowed(uint64_t value)
{
    return value <= 255 && value != 0x0D && !(value >= 0x20 && value <= 0x7E);
}

static void every_start_and_end_byte(void)
{
    memory m = new_memory();

    for (uint64_t start = 0; start <= 300; start++)
        for (uint64_t end = 0; end <= 300; end++) {
            settings link = {0, start, end, 4};

            refused_or_taken(byte_allowed(start) && byte_allowed(end) && start != end, link, &m);
        }
    end_memory(&m);
}

/* The defaults are what a minimal block has, and what document 01's cases have. */
static void defaults(void)
{
    static const uint8_t p1[] = "\x0B" "D23\r" "00005" "067" "\x1C\r";
    uint8_t block[32];
    uint64_t report[GMV_REPORT_WORDS];

    CHECK(GMV_START_BLOCK_DEFAULT == 0x0B && GMV_END_BLOCK_DEFAULT == 0x1C);
    CHECK(gmv_minimal_write(1, NULL, 0, block, sizeof block, 0, report, GMV_REPORT_WORDS) ==
          GMV_OK);
    CHECK(report[GMV_REPORT_BLOCK_LENGTH] == 3);
    CHECK(block[0] == GMV_START_BLOCK_DEFAULT && block[1] == GMV_END_BLOCK_DEFAULT);
    CHECK(gmv_hybrid_write(GMV_START_BLOCK_DEFAULT, GMV_END_BLOCK_DEFAULT, 1, 'D', NULL, 0, block,
                           sizeof block, 0, report, GMV_REPORT_WORDS) == GMV_OK);
    CHECK(report[GMV_REPORT_BLOCK_LENGTH] == sizeof p1 - 1);
    CHECK(memcmp(block, p1, sizeof p1 - 1) == 0);
}

void test_settings(void)
{
    begin_test("settings: 0B and 1C are the defaults, and a minimal block's");
    defaults();
    begin_test("settings: SB and EB from 0 to 300, all pairs");
    every_start_and_end_byte();
}
