/* Random bytes, parts and state words: every call answers, keeps to its memory, and agrees with the
 * others. Exact verdicts on random input are the host tests' part. */
#include "harness.h"

#include <string.h>

enum { WORD = sizeof(uint64_t), LONGEST = 60 };

static settings random_link(void)
{
    static const uint64_t pairs[][2] = {{0x0B, 0x1C}, {0x0B, 0x1C}, {0x00, 0xFF}, {0x7F, 0x80}};
    const uint64_t *pair = pairs[random_below(4)];
    settings link = {random_below(3) == 0, pair[0], pair[1], 1 + random_below(30)};

    if (link.minimal) {
        link.start_block = 0x0B;
        link.end_block = 0x1C;
    }
    return link;
}

/* A byte that often matters to the block rules. */
static uint8_t random_line_byte(settings link)
{
    switch (random_below(8)) {
    case 0:
        return (uint8_t)link.start_block;
    case 1:
        return (uint8_t)link.end_block;
    case 2:
        return '\r';
    case 3:
        return (uint8_t)random_below(256);
    default:
        return random_data_byte();
    }
}

/* A good block of random data at bytes[at], if it fits. Returns its length or 0. */
static size_t random_block(settings link, uint8_t *bytes, size_t at, size_t size)
{
    guarded content = guard(random_below(link.data_limit + 1), 0);
    guarded block = guard_copy(bytes + at, size - at);
    uint64_t report[GMV_REPORT_WORDS] = {0, 0};
    guarded words = guard_copy(report, sizeof report);
    size_t length;

    for (size_t i = 0; i < content.size; i++)
        content.at[i] = random_data_byte();
    write_block(link, 'D', &content, &block, 0, &words);
    length = words_of(&words)[GMV_REPORT_BLOCK_LENGTH];
    memcpy(bytes + at, block.at, length);
    give_back(&content);
    give_back(&block);
    give_back(&words);
    return length;
}

static size_t random_stream(settings link, uint8_t *bytes, size_t size)
{
    size_t length = random_below(size + 1), at = 0;

    while (at < length) {
        size_t block = random_below(4) == 0 ? random_block(link, bytes, at, length) : 0;

        at += block;
        if (block == 0)
            bytes[at++] = random_line_byte(link);
        else if (random_below(3) == 0)
            bytes[at - 1 - random_below(block)] = random_line_byte(link);
    }
    return length;
}

/* The verdicts and the buffer are the same in however many parts the stream came. */
static void parts_do_not_matter(void)
{
    for (int round = 0; round < 3000; round++) {
        settings link = random_link();
        uint8_t bytes[LISTED];
        size_t length = random_stream(link, bytes, sizeof bytes);
        guarded whole_buffer, byte_buffer, random_buffer;
        listing whole = read_stream(link, bytes, length, LISTED, &whole_buffer);
        listing by_byte = read_stream(link, bytes, length, 1, &byte_buffer);
        listing by_chance = read_stream(link, bytes, length, 0, &random_buffer);

        CHECK(same_listing(&whole, &by_byte));
        CHECK(same_listing(&whole, &by_chance));
        CHECK(memcmp(whole_buffer.at, byte_buffer.at, whole_buffer.size) == 0);
        CHECK(memcmp(whole_buffer.at, random_buffer.at, whole_buffer.size) == 0);
        give_back(&whole_buffer);
        give_back(&byte_buffer);
        give_back(&random_buffer);
    }
}

/* What the check has to say of bytes for which the stream has these verdicts. */
static uint64_t check_after_stream(settings link, const uint8_t *bytes, size_t length,
                                   const listing *list)
{
    int one_at_the_end = list->count == 1 && list->words[0][GMV_VERDICT_USED] == length;

    if (length > 0 && bytes[0] == link.start_block && one_at_the_end)
        return list->words[0][GMV_VERDICT_NUMBER];
    return GMV_SHAPE;
}

static void check_answers_as_the_stream(void)
{
    for (int round = 0; round < 6000; round++) {
        settings link = random_link();
        uint8_t bytes[LISTED];
        size_t length = random_stream(link, bytes, sizeof bytes);
        guarded buffer, block, verdict;
        listing list;

        if (length > 0 && random_below(8) > 0)
            bytes[0] = (uint8_t)link.start_block;
        list = read_stream(link, bytes, length, 0, &buffer);
        block = guard_copy(bytes, length);
        verdict = guard(GMV_VERDICT_WORDS * WORD, 0xEE);
        CHECK(check_block(link, block.at, length, &verdict) ==
              check_after_stream(link, bytes, length, &list));
        CHECK(unchanged(&block));
        CHECK(same_from(&verdict, verdict.size));
        give_back(&buffer);
        give_back(&block);
        give_back(&verdict);
    }
}

/* Any content of the state words: small, near what the need is, or anything. */
static uint64_t random_word(settings link)
{
    switch (random_below(4)) {
    case 0:
        return random_below(4);
    case 1:
        return need_of(link) - 2 + random_below(5);
    case 2:
        return UINT64_MAX - random_below(LONGEST + 10);
    default:
        return random_below(1u << 20) << random_below(44);
    }
}

/* The answer that is due before a byte is read. */
static uint64_t early_answer(const uint64_t *state, size_t part_length)
{
    if (state[GMV_READER_PHASE] > 2 || part_length > UINT64_MAX - state[GMV_READER_POSITION])
        return GMV_STATE;
    return GMV_OK;
}

static void check_found_verdict(const uint64_t *words, settings link)
{
    uint64_t number = words[GMV_VERDICT_NUMBER];

    CHECK(number == GMV_OK || (number >= GMV_BYTE && number <= GMV_INTERRUPTED));
    CHECK(!link.minimal || (number != GMV_COUNT && number != GMV_CHECK));
    CHECK(number == GMV_BYTE || words[GMV_VERDICT_FORBIDDEN_OFFSET] == 0);
    CHECK(words[GMV_VERDICT_FORBIDDEN_OFFSET] < link.data_limit);
    CHECK(words[GMV_VERDICT_USED] >= 1);
    if (number == GMV_OK) {
        CHECK(words[GMV_VERDICT_TYPE] == 'D' || (words[GMV_VERDICT_TYPE] == 'N' && !link.minimal));
        CHECK(words[GMV_VERDICT_DATA_OFFSET] == (link.minimal ? 0 : 4));
        CHECK(words[GMV_VERDICT_DATA_LENGTH] <= link.data_limit);
    } else {
        CHECK(words[GMV_VERDICT_TYPE] == 0 && words[GMV_VERDICT_DATA_OFFSET] == 0 && words[GMV_VERDICT_DATA_LENGTH] == 0);
    }
}

static void check_no_verdict(const uint64_t *words, size_t part_length)
{
    for (int i = 0; i < GMV_VERDICT_USED; i++)
        CHECK(words[i] == 0);
    CHECK(words[GMV_VERDICT_USED] == part_length);
}

static void check_state_after(const uint64_t *before, const uint64_t *after, uint64_t used)
{
    CHECK(after[GMV_READER_PHASE] <= 2);
    CHECK(after[GMV_READER_POSITION] == before[GMV_READER_POSITION] + used);
}

static void any_state(void)
{
    settings link = random_link();
    uint64_t before[GMV_READER_WORDS];
    uint8_t bytes[LONGEST];
    size_t length = random_below(LONGEST);
    size_t over = random_below(4);
    guarded state, part, buffer, verdict;
    uint64_t answer;

    for (int i = 0; i < GMV_READER_WORDS; i++)
        before[i] = random_word(link);
    if (random_below(8) > 0)
        before[GMV_READER_PHASE] = random_below(3);
    for (size_t i = 0; i < length; i++)
        bytes[i] = random_line_byte(link);
    state = guard_copy(before, sizeof before);
    part = guard_copy(bytes, length);
    buffer = guard(need_of(link) + over, random_data_byte());
    verdict = guard(GMV_VERDICT_WORDS * WORD, 0xEE);

    answer = read_part(link, &state, part.at, part.size, &buffer, &verdict);
    CHECK(answer == early_answer(before, length));
    CHECK(unchanged(&part));
    CHECK(same_from(&buffer, need_of(link)));
    CHECK(same_from(&state, state.size) && same_from(&verdict, verdict.size));
    if (answer != GMV_OK) {
        CHECK(unchanged(&state) && unchanged(&buffer) && unchanged(&verdict));
    } else {
        const uint64_t *words = words_of(&verdict);

        CHECK(words[GMV_VERDICT_FOUND] <= 1);
        CHECK(words[GMV_VERDICT_USED] <= length);
        if (words[GMV_VERDICT_FOUND])
            check_found_verdict(words, link);
        else
            check_no_verdict(words, length);
        check_state_after(before, words_of(&state), words[GMV_VERDICT_USED]);
    }
    give_back(&state);
    give_back(&part);
    give_back(&buffer);
    give_back(&verdict);
}

static void random_state_words(void)
{
    for (int round = 0; round < 150000; round++)
        any_state();
}

void test_random(void)
{
    begin_test("random streams: parts do not matter to verdicts and buffer");
    parts_do_not_matter();
    begin_test("random bytes: the check answers as the stream does");
    check_answers_as_the_stream();
    begin_test("random state words: every content is answered");
    random_state_words();
}
