/* Header fields read, and answers, control messages and control blocks written and read back. */
#include "fuzz.h"

#include <string.h>

enum { WORD = sizeof(uint64_t) };

/* ---- Reading ---- */

/* A message whose answer can be read has a header that can be read. */
static void act_read(input *in)
{
    call header = {.function = call_header_read}, answer = {.function = call_answer_read};
    uint64_t number;

    header.content = take_any_message(in);
    answer.content = new_copy(header.content.bytes, header.content.length);
    header.result = take_words(in, GMV_HEADER_WORDS);
    answer.result = take_words(in, GMV_ANSWER_WORDS);
    number = perform(&header);
    if (perform(&answer) == GMV_OK)
        oracle(number != GMV_HEAD, "an answer has a header");
    if (number == GMV_OK) {
        uint64_t length = get_word(&header.result, GMV_HEADER_CONTROL_ID_LENGTH);

        oracle(length >= 1 && length <= 20, "a control ID has 1 to 20 bytes");
        oracle(get_word(&header.result, GMV_HEADER_CONTROL_ID_OFFSET) + length < header.content.length,
               "a control ID stands before the CR");
    }
    end_call(&header);
    end_call(&answer);
}

/* Goes through a message field by field: the fields and what ends them are the message, in order. */
static void act_fields(input *in)
{
    call c = {.function = call_field_next, .content = take_any_message(in)};
    uint64_t position = 0;

    c.result = new_memory(GMV_NEXT_WORDS * WORD);
    for (;;) {
        c.number = position;
        oracle(perform(&c) == GMV_OK, "a field is asked for");
        count_outcome(FIELD_DELIMITER, get_word(&c.result, GMV_NEXT_DELIMITER));
        if (get_word(&c.result, GMV_NEXT_FOUND) == 0)
            break;
        oracle(get_word(&c.result, GMV_NEXT_OFFSET) == position, "a field begins where it was asked for");
        position += get_word(&c.result, GMV_NEXT_LENGTH);
        position += get_word(&c.result, GMV_NEXT_DELIMITER) != GMV_DELIMITER_MESSAGE_END;
        oracle(get_word(&c.result, GMV_NEXT_POSITION) == position, "the next field follows");
    }
    oracle(position == c.content.length, "the fields are the whole message");
    end_call(&c);
}

/* One field, from any position on. */
static void act_next(input *in)
{
    call c = {.function = call_field_next, .content = take_any_message(in)};

    c.number = take_word(in);
    c.result = take_words(in, GMV_NEXT_WORDS);
    perform(&c);
    end_call(&c);
}

/* ---- Writing ---- */

static int field_is(const memory *message, const memory *words, size_t offset, const memory *expected)
{
    memory found = {message->bytes + get_word(words, offset), get_word(words, offset + 1)};

    return same_memory(&found, expected);
}

static void read_answer_back(const call *written)
{
    call header = {.function = call_header_read}, answer = {.function = call_answer_read};
    size_t length = get_word(&written->result, GMV_REPORT_MESSAGE_LENGTH);

    header.content = new_copy(written->buffer.bytes + written->start, length);
    answer.content = new_copy(written->buffer.bytes + written->start, length);
    header.result = new_memory(GMV_HEADER_WORDS * WORD);
    answer.result = new_memory(GMV_ANSWER_WORDS * WORD);
    oracle(perform(&header) == GMV_OK && perform(&answer) == GMV_OK, "a written answer is read");
    oracle(field_is(&header.content, &header.result, GMV_HEADER_CONTROL_ID_OFFSET, &written->content) &&
               field_is(&answer.content, &answer.result, GMV_ANSWER_CONTROL_ID_OFFSET, &written->content),
           "a written control ID reads back");
    oracle(get_word(&answer.result, GMV_ANSWER_CODE) == written->code, "a written code reads back");
    oracle(get_word(&answer.result, GMV_ANSWER_EXPECTED_FIELD) == GMV_FIELD_NUMBER &&
               get_word(&answer.result, GMV_ANSWER_EXPECTED_NUMBER) == written->number,
           "a written number reads back");
    oracle(length <= 128, "an answer fits into a block of every link");
    end_call(&header);
    end_call(&answer);
}

static void act_answer(input *in)
{
    call c = {.function = call_answer_write};
    input id = take_part(in, take_below(in, 24));
    uint8_t choice = take_byte(in);

    c.content = id.length == 0 ? new_empty(in) : new_copy(id.bytes, id.length);
    for (size_t i = 0; choice < 192 && i < c.content.length; i++)
        c.content.bytes[i] = (uint8_t)('0' + c.content.bytes[i] % 64);
    c.code = choice % 64 ? 1u + choice % 3u : take_word(in);
    c.number = take_word(in);
    c.buffer = take_buffer(in, 38 + 2 * c.content.length + 15, &c.start);
    c.result = take_words(in, GMV_REPORT_WORDS);
    if (perform(&c) == GMV_OK)
        read_answer_back(&c);
    end_call(&c);
}

static void read_control_back(const call *written, const uint8_t *message, size_t length)
{
    call c = {.function = call_header_read, .content = new_copy(message, length),
              .result = new_memory(GMV_HEADER_WORDS * WORD)};

    oracle(perform(&c) == GMV_OK, "a written control message is read");
    oracle(get_word(&c.result, GMV_HEADER_SEQUENCE_FIELD) == GMV_FIELD_NUMBER &&
               get_word(&c.result, GMV_HEADER_SEQUENCE_NUMBER) == written->number,
           "a written control number reads back");
    end_call(&c);
}

static void take_control(input *in, call *c, size_t overhead)
{
    uint8_t choice = take_byte(in);

    c->content = choice == 255 ? new_empty(in) : new_copy("ADT", 3);
    alter(in, &c->content);
    c->number = choice < 112 ? 0 : choice < 224 ? GMV_MINUS_ONE : take_word(in);
    c->buffer = take_buffer(in, overhead + (c->number == 0 ? 31 : 33), &c->start);
    c->result = take_words(in, GMV_REPORT_WORDS);
}

static void act_control(input *in)
{
    call c = {.function = call_control_write};

    take_control(in, &c, 0);
    if (perform(&c) == GMV_OK)
        read_control_back(&c, c.buffer.bytes + c.start, get_word(&c.result, GMV_REPORT_MESSAGE_LENGTH));
    end_call(&c);
}

static void act_control_block(input *in)
{
    call c = {.link = take_link(in)}, check = {.link = c.link};
    size_t length;

    c.function = c.link.minimal ? call_minimal_control_block : call_hybrid_control_block;
    take_control(in, &c, overhead_of(c.link));
    if (perform(&c) == GMV_OK) {
        length = get_word(&c.result, GMV_REPORT_BLOCK_LENGTH);
        check.function = c.link.minimal ? call_minimal_check : call_hybrid_check;
        check.content = new_copy(c.buffer.bytes + c.start, length);
        check.result = new_memory(GMV_VERDICT_WORDS * WORD);
        oracle(perform(&check) == GMV_OK, "a written control block is accepted");
        read_control_back(&c, check.content.bytes + get_word(&check.result, GMV_VERDICT_DATA_OFFSET),
                          get_word(&check.result, GMV_VERDICT_DATA_LENGTH));
        end_call(&check);
    }
    end_call(&c);
}

void fuzz_messages(input *in)
{
    static void (*const acts[])(input *) = {act_read,    act_answer, act_control, act_control_block,
                                            act_fields, act_next};
    int count = 0;

    do {
        acts[take_below(in, 6)](in);
    } while (++count < 4 && has_more(in));
}
