/* Reading, checking and writing blocks. An input is a list of acts under one link's settings. */
#include "fuzz.h"

#include <stdlib.h>
#include <string.h>

enum { WORD = sizeof(uint64_t), LONGEST_DATA = 80, MOST_VERDICTS = 64 };

static enum function by_kind(settings link, enum function hybrid)
{
    /* each minimal function stands behind its hybrid one */
    return link.minimal ? hybrid + 1 : hybrid;
}

/* ---- What comes from the line ---- */

static memory take_data(input *in)
{
    input part = take_part(in, take_byte(in) % LONGEST_DATA);

    return part.length == 0 ? new_empty(in) : new_copy(part.bytes, part.length);
}

/* Data that a block may have: the input's bytes made printable. */
static memory take_good_data(input *in, size_t limit)
{
    memory data = take_data(in);

    if (data.length > limit && take_byte(in) < 200) {
        memory shorter = new_copy(data.bytes, limit);

        end_memory(&data);
        data = shorter;
    }
    for (size_t i = 0; i < data.length; i++)
        if (!is_data_byte(data.bytes[i]))
            data.bytes[i] = (uint8_t)(0x20 + data.bytes[i] % 0x5F);
    return data;
}

/* Alters what the sum and the count stand for, or any byte. */
static void alter_block(input *in, settings link, memory *block)
{
    uint8_t choice = take_byte(in);

    if (choice < 64)
        return;
    if (choice < 96 && !link.minimal && block->length >= 15)
        memcpy(block->bytes + block->length - 5, choice & 1 ? "999" : "256", 3);
    else
        alter(in, block);
}

static memory take_block(input *in, settings link)
{
    memory block = new_memory(0);
    uint8_t type = take_byte(in);
    memory data = take_good_data(in, link.data_limit);

    if (type >= 192 && !link.minimal) {
        append_block(&block, link, 'N', (const uint8_t *)&"CXBG?"[type % 5], 1);
    } else {
        if (type >= 160)
            alter(in, &data);
        append_block(&block, link, type >= 152 ? type : 'D', data.bytes, data.length);
    }
    end_memory(&data);
    alter_block(in, link, &block);
    return block;
}

/* A stream: blocks, single characters of the block rules, and bytes of the input. */
static memory take_stream(input *in, settings link)
{
    memory stream = new_memory(0);
    size_t pieces = take_below(in, 6);

    while (pieces-- > 0) {
        uint8_t choice = take_byte(in);
        uint8_t characters[] = {(uint8_t)link.start_block, (uint8_t)link.end_block, '\r', choice};
        memory piece = choice < 128 ? take_block(in, link)
                     : choice < 192 ? new_copy(characters + choice % 4, 1)
                                    : take_data(in);

        append(&stream, piece.bytes, piece.length);
        end_memory(&piece);
    }
    return stream;
}

/* ---- Reading ---- */

typedef struct {
    size_t count;
    uint64_t words[MOST_VERDICTS][GMV_VERDICT_WORDS];
} listing;

static memory fresh_state(void)
{
    call c = {.function = call_reader_fresh, .state = new_memory(GMV_READER_WORDS * WORD)};

    oracle(perform(&c) == GMV_OK, "a fresh reader");
    return c.state;
}

/* Reads one part to its end and lists the verdicts, with the bytes of the stream read by then. */
static void read_all(call *c, const uint8_t *bytes, size_t length, listing *list)
{
    size_t used = 0;

    do {
        uint64_t *words = list->words[list->count % MOST_VERDICTS];

        c->content = new_copy(length > 0 ? bytes + used : NULL, length - used);
        oracle(perform(c) == GMV_OK, "a part is read");
        end_memory(&c->content);
        memcpy(words, c->result.bytes, GMV_VERDICT_WORDS * WORD);
        used += words[GMV_VERDICT_USED];
        words[GMV_VERDICT_USED] = get_word(&c->state, GMV_READER_POSITION);
        list->count += words[GMV_VERDICT_FOUND];
        if (words[GMV_VERDICT_FOUND])
            count_outcome(READ_BLOCK, words[GMV_VERDICT_NUMBER]);
    } while (used < length && list->count < MOST_VERDICTS);
}

/* Reads the stream in one part where `parts` is null, else in parts of the lengths that it gives. */
static void read_stream(call *c, const memory *stream, input *parts, listing *list)
{
    size_t from = 0;

    list->count = 0;
    do {
        size_t rest = stream->length - from;
        size_t length = parts ? take_below(parts, 9) : rest;

        if (length > rest || (parts && !has_more(parts)))
            length = rest;
        read_all(c, stream->bytes ? stream->bytes + from : NULL, length, list);
        from += length;
    } while (from < stream->length && list->count < MOST_VERDICTS);
}

static call new_reading(settings link, uint8_t paint)
{
    call c = {.function = by_kind(link, call_hybrid_read), .link = link, .state = fresh_state(),
              .result = new_memory(GMV_VERDICT_WORDS * WORD), .buffer = new_memory(capacity_of(link) + 3)};

    memset(c.buffer.bytes, paint, c.buffer.length);
    return c;
}

/* The same verdicts, state and buffer, however the stream comes. */
static void act_stream(input *in, settings link)
{
    static listing whole, parted;
    memory stream;
    call one, many;

    if (!settings_are_valid(link, 1))
        return;
    one = new_reading(link, 0x55);
    many = new_reading(link, 0x55);
    stream = take_stream(in, link);
    read_stream(&one, &stream, NULL, &whole);
    read_stream(&many, &stream, in, &parted);
    oracle(whole.count == parted.count, "as many verdicts in parts as in one");
    oracle(memcmp(whole.words, parted.words, whole.count * sizeof whole.words[0]) == 0,
           "the same verdicts in parts as in one");
    oracle(same_memory(&one.state, &many.state) && same_memory(&one.buffer, &many.buffer),
           "the same state and buffer in parts as in one");
    end_memory(&stream);
    end_call(&one);
    end_call(&many);
}

/* One read of any state, with any lengths. */
static void act_read(input *in, settings link)
{
    size_t start, need = capacity_of(link);
    call c = {.function = by_kind(link, call_hybrid_read), .link = link};

    c.buffer = take_buffer(in, need <= 100006 ? need : 64, &start);
    c.state = take_words(in, GMV_READER_WORDS);
    c.result = take_words(in, GMV_VERDICT_WORDS);
    for (size_t i = 0; i < count_words(&c.state); i++)
        set_word(&c.state, i, take_word(in));
    if (count_words(&c.state) > 0 && take_byte(in) < 224)
        set_word(&c.state, GMV_READER_PHASE, get_word(&c.state, GMV_READER_PHASE) % 3);
    c.content = take_stream(in, link);
    perform(&c);
    end_call(&c);
}

static void act_fresh(input *in, settings link)
{
    call c = {.function = call_reader_fresh, .link = link, .state = take_words(in, GMV_READER_WORDS)};

    perform(&c);
    end_call(&c);
}

/* ---- Checking ---- */

/* The check says what the stream, in any parts, says of bytes that are one block; else 5. */
static void compare_with_stream(const call *c, uint64_t number, input *parts)
{
    static listing list;
    int minimal = c->function == call_minimal_check;
    settings link = c->link;
    call stream;
    int is_block;

    link.minimal = minimal;
    stream = new_reading(link, 0x33);
    read_stream(&stream, &c->content, parts, &list);
    is_block = c->content.length > 0 && c->content.bytes[0] == (minimal ? 0x0B : link.start_block) &&
               list.count == 1 && list.words[0][GMV_VERDICT_USED] == c->content.length;
    oracle(number == (is_block ? list.words[0][GMV_VERDICT_NUMBER] : (uint64_t)GMV_SHAPE),
           "the check is the stream's");
    end_call(&stream);
}

static void act_check(input *in, settings link)
{
    call c = {.function = by_kind(link, call_hybrid_check), .link = link};
    uint64_t number;

    c.result = take_words(in, GMV_VERDICT_WORDS);
    c.content = take_byte(in) < 224 ? take_block(in, link) : take_stream(in, link);
    number = perform(&c);
    if (number != GMV_SETTING && number != GMV_TOO_SHORT)
        compare_with_stream(&c, number, in);
    end_call(&c);
}

/* ---- Writing ---- */

/* What was written is accepted, with the same data, by the check and by the reader. */
static void read_back(const call *written, input *parts)
{
    size_t length = get_word(&written->result, GMV_REPORT_BLOCK_LENGTH);
    const uint8_t *block = written->buffer.bytes + written->start;
    int minimal = written->function == call_minimal_write;
    call c = {.function = by_kind(written->link, call_hybrid_check), .link = written->link,
              .content = new_copy(block, length), .result = new_memory(GMV_VERDICT_WORDS * WORD)};
    size_t offset;

    oracle(length == written->content.length + (minimal ? 3 : 15), "a block's length");
    oracle(perform(&c) == GMV_OK, "what is written is accepted");
    oracle(get_word(&c.result, GMV_VERDICT_TYPE) == (minimal ? 'D' : written->number), "a written type");
    oracle(get_word(&c.result, GMV_VERDICT_DATA_LENGTH) == written->content.length, "a written length");
    offset = get_word(&c.result, GMV_VERDICT_DATA_OFFSET);
    oracle(written->content.length == 0 ||
               memcmp(block + offset, written->content.bytes, written->content.length) == 0,
           "written data reads back");
    compare_with_stream(&c, GMV_OK, parts);
    end_call(&c);
}

static void act_write(input *in, settings link)
{
    call c = {.function = by_kind(link, call_hybrid_write), .link = link};
    uint8_t choice = take_byte(in);

    c.number = choice < 128 ? 'D' : choice < 192 ? 'N' : take_word(in);
    if (c.number == 'N')
        c.content = new_copy(&"CXBG?"[choice % 5], 1);
    else
        c.content = choice % 8 ? take_good_data(in, link.data_limit) : take_data(in);
    if (choice % 8 == 1)
        alter(in, &c.content);
    c.buffer = take_buffer(in, c.content.length + overhead_of(link), &c.start);
    c.result = take_words(in, GMV_REPORT_WORDS);
    if (perform(&c) == GMV_OK)
        read_back(&c, in);
    end_call(&c);
}

void fuzz_blocks(input *in)
{
    static void (*const acts[])(input *, settings) = {act_stream, act_check, act_write, act_read, act_fresh};
    settings link = take_settings(in);
    int count = 0;

    do {
        acts[take_below(in, 5)](in, link);
    } while (++count < 4 && has_more(in));
}
