/* What is written reads back, at the limits and at every offset of the buffer. */
#include "harness.h"

#include <string.h>

static guarded random_content(size_t length)
{
    guarded content = guard(length, 0);

    for (size_t i = 0; i < length; i++)
        content.at[i] = random_data_byte();
    keep(&content);
    return content;
}

/* The written bytes, checked whole, are an accepted block with this content. */
static void checks_back(settings link, uint64_t type, const guarded *block, const guarded *content)
{
    guarded verdict = guard(GMV_VERDICT_WORDS * sizeof(uint64_t), 0xEE);
    size_t start = link.minimal ? 1 : 5;

    CHECK(check_block(link, block->at, block->size, &verdict) == GMV_OK);
    CHECK(says_accepted(&verdict, type, start, content->size));
    CHECK(memcmp(block->at + start, content->at, content->size) == 0);
    give_back(&verdict);
}

/* Read in parts, they give one verdict, with the last byte, and the buffer has the content. */
static void reads_back(settings link, uint64_t type, const guarded *block, const guarded *content,
                       size_t part_size)
{
    guarded buffer;
    listing list = read_stream(link, block->at, block->size, part_size, &buffer);
    size_t start = link.minimal ? 0 : 4;

    CHECK(list.count == 1);
    CHECK(list.words[0][GMV_VERDICT_USED] == block->size);
    CHECK(list.words[0][GMV_VERDICT_NUMBER] == GMV_OK);
    CHECK(list.words[0][GMV_VERDICT_TYPE] == type);
    CHECK(list.words[0][GMV_VERDICT_DATA_OFFSET] == start);
    CHECK(list.words[0][GMV_VERDICT_DATA_LENGTH] == content->size);
    CHECK(memcmp(buffer.at + start, content->at, content->size) == 0);
    give_back(&buffer);
}

static void round_trip(settings link, uint64_t type, guarded *content)
{
    guarded block = guard(content->size + overhead_of(link), 0x55);
    guarded report = guard(GMV_REPORT_WORDS * sizeof(uint64_t), 0xEE);

    CHECK(write_block(link, type, content, &block, 0, &report) == GMV_OK);
    CHECK(words_of(&report)[GMV_REPORT_BLOCK_LENGTH] == block.size);
    CHECK(words_of(&report)[GMV_REPORT_FORBIDDEN_OFFSET] == 0);
    CHECK(unchanged(content));
    checks_back(link, type, &block, content);
    reads_back(link, type, &block, content, block.size);
    if (block.size < 1000) {
        reads_back(link, type, &block, content, 1);
        reads_back(link, type, &block, content, 0);
    }
    give_back(&block);
    give_back(&report);
}

/* One byte over the limit is refused, with the report written and the buffer as it was. */
static void one_too_many(settings link)
{
    guarded content = random_content(link.data_limit + 1);
    guarded block = guard(content.size + overhead_of(link), 0x55);
    guarded report = guard(GMV_REPORT_WORDS * sizeof(uint64_t), 0xEE);

    CHECK(write_block(link, 'D', &content, &block, 0, &report) == GMV_LONG);
    CHECK(words_of(&report)[GMV_REPORT_BLOCK_LENGTH] == 0);
    CHECK(words_of(&report)[GMV_REPORT_FORBIDDEN_OFFSET] == 0);
    CHECK(unchanged(&block));
    give_back(&content);
    give_back(&block);
    give_back(&report);
}

static void around_limit(settings link)
{
    const size_t limit = link.data_limit;
    const size_t lengths[] = {0, 1, 2, limit / 2, limit - 1, limit};

    for (size_t i = 0; i < sizeof lengths / sizeof lengths[0]; i++)
        if (lengths[i] <= limit) {
            guarded content = random_content(lengths[i]);

            round_trip(link, 'D', &content);
            give_back(&content);
        }
    one_too_many(link);
}

static void around_limits(const char *name, settings link)
{
    const uint64_t limits[] = {1, 2, 3, 12, 13, 127, 128, 245, 4096, 99993, 99994};

    begin_test(name);
    for (size_t i = 0; i < sizeof limits / sizeof limits[0]; i++) {
        link.data_limit = limits[i];
        around_limit(link);
    }
}

static void every_short_length(settings link)
{
    for (size_t length = 0; length <= link.data_limit; length++) {
        guarded content = random_content(length);

        round_trip(link, 'D', &content);
        give_back(&content);
    }
}

static void nak_blocks(settings link)
{
    for (const char *reason = "CXBG"; *reason; reason++) {
        guarded content = guard_copy(reason, 1);

        round_trip(link, 'N', &content);
        give_back(&content);
    }
}

static void other_settings(void)
{
    const uint64_t pairs[][2] = {{0x00, 0xFF}, {0xFF, 0x00}, {0x7F, 0x80}, {0x1C, 0x0B},
                                 {0x02, 0x03}, {0x1F, 0x0C}, {0x0E, 0x0A}};

    for (size_t i = 0; i < sizeof pairs / sizeof pairs[0]; i++) {
        settings link = {0, pairs[i][0], pairs[i][1], 40};

        every_short_length(link);
        nak_blocks(link);
    }
}

/* Only the block's bytes change, wherever in the buffer it is put. */
static void at_offset(settings link, size_t start, size_t after)
{
    guarded content = random_content(9);
    size_t length = content.size + overhead_of(link);
    guarded buffer = guard(start + length + after, 0x55);
    guarded report = guard(GMV_REPORT_WORDS * sizeof(uint64_t), 0xEE);
    guarded block;

    CHECK(write_block(link, 'D', &content, &buffer, start, &report) == GMV_OK);
    CHECK(words_of(&report)[GMV_REPORT_BLOCK_LENGTH] == length);
    CHECK(memcmp(buffer.at, buffer.kept, start) == 0);
    CHECK(same_from(&buffer, start + length));
    block = guard_copy(buffer.at + start, length);
    checks_back(link, 'D', &block, &content);
    give_back(&block);
    give_back(&content);
    give_back(&buffer);
    give_back(&report);
}

static void at_every_offset(settings link)
{
    for (size_t start = 0; start < 40; start++) {
        at_offset(link, start, 0);
        at_offset(link, start, 1);
        at_offset(link, start, 33);
    }
}

/* A byte is written, and read, exactly if it is 20 to 7E or CR. */
static void byte_value(settings link, unsigned value, size_t offset)
{
    guarded content = guard(5, 'x');
    guarded block = guard(content.size + overhead_of(link), 0x55);
    guarded report = guard(GMV_REPORT_WORDS * sizeof(uint64_t), 0xEE);
    int allowed = value == '\r' || (value >= 0x20 && value <= 0x7E);
    uint64_t answer;

    content.at[offset] = (uint8_t)value;
    answer = write_block(link, 'D', &content, &block, 0, &report);
    CHECK(answer == (allowed ? GMV_OK : GMV_BYTE));
    CHECK(words_of(&report)[GMV_REPORT_BLOCK_LENGTH] == (allowed ? block.size : 0));
    CHECK(words_of(&report)[GMV_REPORT_FORBIDDEN_OFFSET] == (allowed ? 0 : offset));
    CHECK(allowed || unchanged(&block));
    if (allowed)
        checks_back(link, 'D', &block, &content);
    give_back(&content);
    give_back(&block);
    give_back(&report);
}

static void every_byte_value(settings link)
{
    for (unsigned value = 0; value < 256; value++)
        for (size_t offset = 0; offset < 5; offset++)
            byte_value(link, value, offset);
}

void test_round_trips(void)
{
    around_limits("hybrid data blocks around each limit read back", hybrid(1));
    around_limits("minimal blocks around each limit read back", minimal(1));
    begin_test("hybrid data blocks of every short length read back");
    every_short_length(hybrid(70));
    begin_test("minimal blocks of every short length read back");
    every_short_length(minimal(70));
    begin_test("NAK blocks read back");
    nak_blocks(hybrid(1));
    nak_blocks(hybrid(4096));
    begin_test("blocks with other SB and EB read back");
    other_settings();
    begin_test("hybrid block at every offset, nothing else of the buffer changes");
    at_every_offset(hybrid(128));
    begin_test("minimal block at every offset, nothing else of the buffer changes");
    at_every_offset(minimal(128));
    begin_test("hybrid writer takes exactly the allowed data bytes");
    every_byte_value(hybrid(128));
    begin_test("minimal writer takes exactly the allowed data bytes");
    every_byte_value(minimal(128));
}
