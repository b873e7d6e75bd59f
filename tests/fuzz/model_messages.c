/* What the header says of messages: the fields read, answers, control messages and control blocks. */
#include "fuzz.h"

#include <stdio.h>
#include <string.h>

/* ---- Fields ---- */

/* The end of the segment that begins at `from` and with these four bytes: the offset of its CR, or the
 * message's length where there is no such segment. */
static size_t end_of_segment(const memory *message, size_t from, const char *begins)
{
    size_t end = from;

    if (message->length - from < 4 || memcmp(message->bytes + from, begins, 4) != 0)
        return message->length;
    while (end < message->length && message->bytes[end] != '\r')
        end++;
    return end;
}

/* The field after this many bars of the segment from `from` up to `end`. */
static field field_after(const memory *message, size_t from, size_t end, int bars)
{
    field f = {from, 0};

    while (f.offset < end && bars > 0)
        bars -= message->bytes[f.offset++] == '|';
    if (bars > 0)
        return f;
    while (f.offset + f.length < end && message->bytes[f.offset + f.length] != '|')
        f.length++;
    return f;
}

/* The number in a field of a message, and what the field holds. */
static uint64_t read_number(const memory *message, field f, uint64_t bound, uint64_t *number)
{
    const uint8_t *digits = message->bytes + f.offset;
    uint64_t value = 0;

    *number = 0;
    if (f.length == 0)
        return GMV_FIELD_MISSING;
    if (f.length == 2 && memcmp(digits, "-1", 2) == 0) {
        *number = GMV_MINUS_ONE;
        return GMV_FIELD_NUMBER;
    }
    for (size_t i = 0; i < f.length; i++) {
        if (f.length > 15 || digits[i] < '0' || digits[i] > '9')
            return GMV_FIELD_NOT_NUMBER;
        value = value * 10 + (digits[i] - '0');
    }
    if (value > bound)
        return GMV_FIELD_NOT_NUMBER;
    *number = value;
    return GMV_FIELD_NUMBER;
}

static size_t header_end(const memory *message) { return end_of_segment(message, 0, "MSH|"); }

int find_header(const memory *message, header_fields *found)
{
    size_t end = header_end(message);

    if (end == message->length)
        return 0;
    found->control_id = field_after(message, 0, end, 9);
    found->sequence = field_after(message, 0, end, 12);
    found->sequence_field =
        read_number(message, found->sequence, GREATEST_SENT, &found->sequence_number);
    return found->control_id.length >= 1 && found->control_id.length <= 20;
}

static uint64_t read_code(const memory *message, field f)
{
    static const char *const codes[] = {"AA", "AE", "AR"};

    for (uint64_t i = 0; i < 3; i++)
        if (f.length == 2 && memcmp(message->bytes + f.offset, codes[i], 2) == 0)
            return i + 1;
    return GMV_CODE_OTHER;
}

int find_answer(const memory *message, answer_fields *found)
{
    header_fields header;
    size_t from, end;

    if (!find_header(message, &header))
        return 0;
    from = header_end(message) + 1;
    end = end_of_segment(message, from, "MSA|");
    if (end == message->length)
        return 0;
    found->code = field_after(message, from, end, 1);
    found->control_id = field_after(message, from, end, 2);
    found->expected = field_after(message, from, end, 4);
    found->code_number = read_code(message, found->code);
    found->expected_field =
        read_number(message, found->expected, GREATEST_EXPECTED, &found->expected_number);
    return 1;
}

static uint64_t model_header(call *c)
{
    header_fields found;

    if (count_words(&c->result) < GMV_HEADER_WORDS)
        return GMV_TOO_SHORT;
    if (!find_header(&c->content, &found))
        return GMV_HEAD;
    set_word(&c->result, GMV_HEADER_CONTROL_ID_OFFSET, found.control_id.offset);
    set_word(&c->result, GMV_HEADER_CONTROL_ID_LENGTH, found.control_id.length);
    set_word(&c->result, GMV_HEADER_SEQUENCE_OFFSET, found.sequence.offset);
    set_word(&c->result, GMV_HEADER_SEQUENCE_LENGTH, found.sequence.length);
    set_word(&c->result, GMV_HEADER_SEQUENCE_FIELD, found.sequence_field);
    set_word(&c->result, GMV_HEADER_SEQUENCE_NUMBER, found.sequence_number);
    return GMV_OK;
}

static uint64_t model_answer(call *c)
{
    answer_fields found;

    if (count_words(&c->result) < GMV_ANSWER_WORDS)
        return GMV_TOO_SHORT;
    if (!find_answer(&c->content, &found))
        return GMV_HEAD;
    set_word(&c->result, GMV_ANSWER_CODE_OFFSET, found.code.offset);
    set_word(&c->result, GMV_ANSWER_CODE_LENGTH, found.code.length);
    set_word(&c->result, GMV_ANSWER_CODE, found.code_number);
    set_word(&c->result, GMV_ANSWER_CONTROL_ID_OFFSET, found.control_id.offset);
    set_word(&c->result, GMV_ANSWER_CONTROL_ID_LENGTH, found.control_id.length);
    set_word(&c->result, GMV_ANSWER_EXPECTED_OFFSET, found.expected.offset);
    set_word(&c->result, GMV_ANSWER_EXPECTED_LENGTH, found.expected.length);
    set_word(&c->result, GMV_ANSWER_EXPECTED_FIELD, found.expected_field);
    set_word(&c->result, GMV_ANSWER_EXPECTED_NUMBER, found.expected_number);
    return GMV_OK;
}

/* The next field of the message, up to a bar, CR or the end; behind the end there is none. */
static uint64_t model_next(call *c)
{
    size_t length = c->content.length, end = c->number;
    int found = c->number < length;
    uint64_t delimiter = found ? GMV_DELIMITER_MESSAGE_END : GMV_DELIMITER_NONE;

    if (count_words(&c->result) < GMV_NEXT_WORDS)
        return GMV_TOO_SHORT;
    while (end < length && c->content.bytes[end] != '|' && c->content.bytes[end] != '\r')
        end++;
    if (end < length)
        delimiter = c->content.bytes[end] == '|' ? GMV_DELIMITER_SEPARATOR
                                                 : GMV_DELIMITER_SEGMENT_END;
    set_word(&c->result, GMV_NEXT_FOUND, found);
    set_word(&c->result, GMV_NEXT_OFFSET, found ? c->number : 0);
    set_word(&c->result, GMV_NEXT_LENGTH, end - c->number);
    set_word(&c->result, GMV_NEXT_DELIMITER, delimiter);
    set_word(&c->result, GMV_NEXT_POSITION, end < length ? end + 1 : end);
    return GMV_OK;
}

/* ---- Writing ---- */

void append_answer(memory *m, const uint8_t *id, size_t id_length, uint64_t code, uint64_t number)
{
    static const char *const codes[] = {"AA", "AE", "AR"};

    append_text(m, "MSH|^~\\&|||||||ACK|");
    append(m, id, id_length);
    append_text(m, "|P|2.3.1\rMSA|");
    append_text(m, codes[code - 1]);
    append_text(m, "|");
    append(m, id, id_length);
    append_text(m, "||");
    append_number(m, number);
    append_text(m, "\r");
}

void append_control(memory *m, const char *type, uint64_t number)
{
    append_text(m, "MSH|^~\\&|||||||");
    append_text(m, type);
    append_text(m, "|");
    append_number(m, number);
    append_text(m, "|P|2.3.1|");
    append_number(m, number);
    append_text(m, "\r");
}

static void write_report(call *c, uint64_t length, uint64_t forbidden_offset)
{
    set_word(&c->result, GMV_REPORT_MESSAGE_LENGTH, length);
    set_word(&c->result, GMV_REPORT_FORBIDDEN_OFFSET, forbidden_offset);
}

/* The number that refuses a control ID, or 0. */
static uint64_t refuse_control_id(const memory *id, size_t *forbidden)
{
    for (*forbidden = 0; *forbidden < id->length; ++*forbidden)
        if (!is_data_byte(id->bytes[*forbidden]))
            return GMV_BYTE;
    *forbidden = 0;
    if (id->length < 1 || id->length > 20 || memchr(id->bytes, '|', id->length) ||
        memchr(id->bytes, '\r', id->length))
        return GMV_HEAD;
    return GMV_OK;
}

static uint64_t model_answer_write(call *c)
{
    memory answer = new_memory(0);
    size_t forbidden = 0;
    uint64_t number = GMV_OK;

    if (c->code < GMV_CODE_AA || c->code > GMV_CODE_AR)
        return GMV_SETTING;
    append_answer(&answer, c->content.bytes, c->content.length, c->code, c->number);
    if (count_words(&c->result) < GMV_REPORT_WORDS || !buffer_holds(c, answer.length)) {
        number = GMV_TOO_SHORT;
    } else {
        number = refuse_control_id(&c->content, &forbidden);
        if (number == GMV_OK && c->number != GMV_MINUS_ONE &&
            (c->number == 0 || c->number > GREATEST_EXPECTED))
            number = GMV_NUMBER;
        if (number == GMV_OK)
            write_into_buffer(c, &answer);
        write_report(c, number == GMV_OK ? answer.length : 0, forbidden);
    }
    end_memory(&answer);
    return number;
}

static int is_type(const memory *type)
{
    for (size_t i = 0; i < type->length; i++)
        if (type->bytes[i] < 'A' || type->bytes[i] > 'Z')
            return 0;
    return type->length == 3;
}

/* The control message, by itself or as a block of the link. */
static uint64_t model_control(call *c, const settings *link)
{
    memory message = new_memory(0), block = new_memory(0);
    char type[4] = {0};
    uint64_t number = GMV_OK;

    if (link && !settings_are_valid(*link, LEAST_LINK_LIMIT))
        return GMV_SETTING;
    if (!is_type(&c->content) || (c->number != 0 && c->number != GMV_MINUS_ONE))
        return GMV_SETTING;
    memcpy(type, c->content.bytes, 3);
    append_control(&message, type, c->number);
    if (link)
        append_block(&block, *link, 'D', message.bytes, message.length);
    else
        append(&block, message.bytes, message.length);
    if (count_words(&c->result) < GMV_REPORT_WORDS || !buffer_holds(c, block.length)) {
        number = GMV_TOO_SHORT;
    } else {
        write_into_buffer(c, &block);
        write_report(c, block.length, 0);
    }
    end_memory(&message);
    end_memory(&block);
    return number;
}

uint64_t model_messages(call *c)
{
    settings link = c->link;

    link.minimal = c->function == call_minimal_control_block;
    switch (c->function) {
    case call_header_read:
        return model_header(c);
    case call_answer_read:
        return model_answer(c);
    case call_field_next:
        return model_next(c);
    case call_answer_write:
        return model_answer_write(c);
    case call_control_write:
        return model_control(c, NULL);
    default:
        return model_control(c, &link);
    }
}
