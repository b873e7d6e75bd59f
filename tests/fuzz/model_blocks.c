/* What the header says of blocks: the verdict on one, reading, checking and writing. */
#include "fuzz.h"

#include <stdio.h>
#include <string.h>

int is_data_byte(uint8_t byte) { return byte == '\r' || (byte >= 0x20 && byte <= 0x7E); }

static int is_block_character(uint64_t character)
{
    return character <= 255 && character != '\r' && (character < 0x20 || character > 0x7E);
}

int settings_are_valid(settings link, uint64_t least_limit)
{
    if (link.data_limit < least_limit || link.data_limit > GREATEST_LIMIT)
        return 0;
    return link.minimal || (is_block_character(link.start_block) && is_block_character(link.end_block) &&
                            link.start_block != link.end_block);
}

size_t overhead_of(settings link) { return link.minimal ? 3 : 15; }

size_t capacity_of(settings link) { return link.data_limit + (link.minimal ? 0 : 12); }

static settings characters_of(settings link)
{
    if (link.minimal) {
        link.start_block = 0x0B;
        link.end_block = 0x1C;
    }
    return link;
}

/* ---- Writing ---- */

void append_block(memory *m, settings link, uint8_t type, const uint8_t *data, size_t length)
{
    settings set = characters_of(link);
    uint8_t head[5] = {(uint8_t)set.start_block, type, '2', '3', '\r'};
    uint8_t tail[2] = {(uint8_t)set.end_block, '\r'};
    uint8_t sum = 0;
    char digits[32];

    append(m, head, link.minimal ? 1 : 5);
    append(m, data, length);
    for (size_t i = 0; i < 5; i++)
        sum ^= head[i];
    for (size_t i = 0; i < length; i++)
        sum ^= data[i];
    snprintf(digits, sizeof digits, "%05lu%03u", (unsigned long)length + 5, (unsigned)sum);
    if (!link.minimal)
        append_text(m, digits);
    append(m, tail, 2);
}

int buffer_holds(const call *c, size_t length)
{
    return c->start <= c->buffer.length && length <= c->buffer.length - c->start;
}

void write_into_buffer(call *c, const memory *bytes)
{
    memcpy(c->buffer.bytes + c->start, bytes->bytes, bytes->length);
}

static size_t first_forbidden(const uint8_t *data, size_t length)
{
    size_t i = 0;

    while (i < length && is_data_byte(data[i]))
        i++;
    return i;
}

static int is_reason(const uint8_t *data, size_t length)
{
    return length == 1 && (*data == 'C' || *data == 'X' || *data == 'B' || *data == 'G');
}

/* Writes the report; with 0 the block too. */
static uint64_t model_write(call *c, settings link)
{
    size_t length = c->content.length, forbidden = first_forbidden(c->content.bytes, length);
    uint64_t number = GMV_OK;
    memory block = new_memory(0);

    if (!settings_are_valid(link, 1))
        return GMV_SETTING;
    if (count_words(&c->result) < GMV_REPORT_WORDS || !buffer_holds(c, length + overhead_of(link)))
        return GMV_TOO_SHORT;
    if (length > link.data_limit)
        number = GMV_LONG;
    else if (!link.minimal && c->number != 'D' && !(c->number == 'N' && is_reason(c->content.bytes, length)))
        number = GMV_SHAPE;
    else if (forbidden < length)
        number = GMV_BYTE;
    if (number == GMV_OK) {
        append_block(&block, link, (uint8_t)c->number, c->content.bytes, length);
        write_into_buffer(c, &block);
    }
    set_word(&c->result, GMV_REPORT_BLOCK_LENGTH, block.length);
    set_word(&c->result, GMV_REPORT_FORBIDDEN_OFFSET, number == GMV_BYTE ? forbidden : 0);
    end_memory(&block);
    return number;
}

/* ---- The verdict on the bytes between SB and EB ---- */

typedef struct {
    uint64_t number, forbidden_offset, type, data_length;
} judgement;

static judgement refused(uint64_t number, uint64_t forbidden_offset)
{
    judgement j = {number, forbidden_offset, 0, 0};

    return j;
}

static judgement accepted(uint64_t type, uint64_t data_length)
{
    judgement j = {GMV_OK, 0, type, data_length};

    return j;
}

static judgement judge_minimal(const uint8_t *body, size_t length)
{
    size_t forbidden = first_forbidden(body, length);

    return forbidden < length ? refused(GMV_BYTE, forbidden) : accepted('D', length);
}

/* The block as it would be written; with the sum 999 instead of the computed one it passes too. */
static judgement judge_hybrid(settings link, const uint8_t *body, size_t length)
{
    size_t data_length = length - 12, forbidden;
    judgement j;
    memory written = new_memory(0);

    if (length < 12 || (body[0] != 'D' && body[0] != 'N') || memcmp(body + 1, "23\r", 3) != 0)
        return refused(GMV_SHAPE, 0);
    if (body[0] == 'N' && !is_reason(body + 4, data_length))
        return refused(GMV_SHAPE, 0);
    forbidden = first_forbidden(body + 4, data_length);
    if (forbidden < data_length)
        return refused(GMV_BYTE, forbidden);
    append_block(&written, link, body[0], body + 4, data_length);
    j = accepted(body[0], data_length);
    if (memcmp(written.bytes + 5 + data_length, body + 4 + data_length, 5) != 0)
        j = refused(GMV_COUNT, 0);
    else if (memcmp(written.bytes + 10 + data_length, body + 9 + data_length, 3) != 0 &&
             memcmp("999", body + 9 + data_length, 3) != 0)
        j = refused(GMV_CHECK, 0);
    end_memory(&written);
    return j;
}

static judgement judge(settings link, const uint8_t *body, uint64_t length, uint8_t after)
{
    if (length > capacity_of(link))
        return refused(GMV_LONG, 0);
    if (after != '\r')
        return refused(GMV_SHAPE, 0);
    return link.minimal ? judge_minimal(body, length) : judge_hybrid(link, body, length);
}

static void write_verdict(memory *verdict, settings link, uint64_t offset, judgement j)
{
    set_word(verdict, GMV_VERDICT_FOUND, 1);
    set_word(verdict, GMV_VERDICT_OFFSET, offset);
    set_word(verdict, GMV_VERDICT_NUMBER, j.number);
    set_word(verdict, GMV_VERDICT_FORBIDDEN_OFFSET, j.forbidden_offset);
    set_word(verdict, GMV_VERDICT_TYPE, j.type);
    set_word(verdict, GMV_VERDICT_DATA_OFFSET, j.number == GMV_OK && !link.minimal ? 4 : 0);
    set_word(verdict, GMV_VERDICT_DATA_LENGTH, j.data_length);
}

/* ---- Reading, a byte at a time ---- */

typedef struct {
    uint64_t phase, body_length, block_offset, position;
} reader;

static void keep_byte(reader *r, settings link, memory *buffer, uint8_t byte)
{
    if (r->body_length < capacity_of(link))
        buffer->bytes[r->body_length] = byte;
    if (r->body_length <= capacity_of(link))
        r->body_length++;
}

static void enter(reader *r, uint64_t phase, uint64_t block_offset)
{
    r->phase = phase;
    r->body_length = 0;
    r->block_offset = block_offset;
}

/* Returns 1 with a verdict. */
static int model_byte(reader *r, settings link, memory *buffer, uint8_t byte, memory *verdict)
{
    int starts = byte == link.start_block, found = 0;
    uint64_t here = r->position++;

    if (r->phase == 1 && byte == link.end_block) {
        r->phase = 2;
    } else if (r->phase == 1 && !starts) {
        keep_byte(r, link, buffer, byte);
    } else if (r->phase != 0) {
        judgement j = r->phase == 1 ? refused(GMV_INTERRUPTED, 0)
                                    : judge(link, buffer->bytes, r->body_length, byte);

        write_verdict(verdict, link, r->block_offset, j);
        enter(r, 0, 0);
        found = 1;
    }
    if (starts)
        enter(r, 1, here);
    return found;
}

static void model_part(reader *r, settings link, const memory *part, memory *buffer, memory *verdict)
{
    size_t used = 0;
    int found = 0;

    for (size_t i = 0; i < GMV_VERDICT_WORDS; i++)
        set_word(verdict, i, 0);
    while (used < part->length && !found)
        found = model_byte(r, link, buffer, part->bytes[used++], verdict);
    set_word(verdict, GMV_VERDICT_USED, used);
}

static uint64_t model_read(call *c, settings link)
{
    reader r;

    if (!settings_are_valid(link, 1))
        return GMV_SETTING;
    if (count_words(&c->state) < GMV_READER_WORDS || count_words(&c->result) < GMV_VERDICT_WORDS ||
        c->buffer.length < capacity_of(link))
        return GMV_TOO_SHORT;
    memcpy(&r, c->state.bytes, sizeof r);
    if (r.phase > 2 || r.position > UINT64_MAX - c->content.length)
        return GMV_STATE;
    model_part(&r, link, &c->content, &c->buffer, &c->result);
    memcpy(c->state.bytes, &r, sizeof r);
    return GMV_OK;
}

/* The stream's answer where it gives exactly one verdict, at the last byte of a block from SB on. */
static uint64_t model_check(call *c, settings link)
{
    reader r = {0, 0, 0, 0};
    memory buffer;

    if (!settings_are_valid(link, 1))
        return GMV_SETTING;
    if (count_words(&c->result) < GMV_VERDICT_WORDS)
        return GMV_TOO_SHORT;
    buffer = new_memory(capacity_of(link));
    model_part(&r, link, &c->content, &buffer, &c->result);
    end_memory(&buffer);
    if (c->content.length == 0 || c->content.bytes[0] != link.start_block ||
        !get_word(&c->result, GMV_VERDICT_FOUND) ||
        get_word(&c->result, GMV_VERDICT_USED) != c->content.length)
        write_verdict(&c->result, link, 0, refused(GMV_SHAPE, 0));
    set_word(&c->result, GMV_VERDICT_USED, c->content.length);
    if (get_word(&c->result, GMV_VERDICT_NUMBER) == GMV_OK)
        set_word(&c->result, GMV_VERDICT_DATA_OFFSET, link.minimal ? 1 : 5);
    return get_word(&c->result, GMV_VERDICT_NUMBER);
}

static uint64_t model_fresh(call *c)
{
    if (count_words(&c->state) < GMV_READER_WORDS)
        return GMV_TOO_SHORT;
    memset(c->state.bytes, 0, GMV_READER_WORDS * sizeof(uint64_t));
    return GMV_OK;
}

uint64_t model_blocks(call *c)
{
    settings link = c->link;

    link.minimal = c->function == call_minimal_read || c->function == call_minimal_check ||
                   c->function == call_minimal_write;
    link = characters_of(link);
    switch (c->function) {
    case call_reader_fresh:
        return model_fresh(c);
    case call_hybrid_read:
    case call_minimal_read:
        return model_read(c, link);
    case call_hybrid_check:
    case call_minimal_check:
        return model_check(c, link);
    default:
        return model_write(c, link);
    }
}
