/* The input, memory of exact size, and choices that several fuzzers make. */
#include "fuzz.h"

#include <stdio.h>
#include <stdlib.h>
#include <string.h>

enum { WORD = sizeof(uint64_t) };

void oracle(int holds, const char *words)
{
    if (holds)
        return;
    fprintf(stderr, "ORACLE: %s\n", words);
    abort();
}

/* ---- The input ---- */

int has_more(const input *in) { return in->length > 0; }

uint8_t take_byte(input *in)
{
    if (in->length == 0)
        return 0;
    in->length--;
    return *in->bytes++;
}

size_t take_below(input *in, size_t bound) { return take_byte(in) % bound; }

uint64_t take_word(input *in)
{
    static const uint64_t limits[] = {
        0, 1, 2, 3, 4, 7, 8, 11, 12, 15, 23, 68, 78, 99, 100, 127, 128, 129, 254, 255, 256, 4096,
        99993, 99994, 99995, 100006, UINT32_MAX, UINT64_C(4294967296), GREATEST_SENT - 1, GREATEST_SENT,
        GREATEST_EXPECTED, GREATEST_EXPECTED + 1, INT64_MAX, UINT64_C(9223372036854775808),
        UINT64_MAX - 99994, UINT64_MAX - 16, UINT64_MAX - 2, UINT64_MAX - 1, UINT64_MAX};
    uint8_t choice = take_byte(in);
    uint64_t word = 0;

    if (choice < 128)
        return choice % 32;
    if (choice < 232)
        return limits[(size_t)(choice - 128) % (sizeof limits / sizeof limits[0])];
    if (choice < 244)
        return take_byte(in);
    for (int i = 0; i < WORD; i++)
        word = word << 8 | take_byte(in);
    return word;
}

input take_part(input *in, size_t longest)
{
    input part = {in->bytes, in->length < longest ? in->length : longest};

    in->bytes += part.length;
    in->length -= part.length;
    return part;
}

/* ---- Memory ---- */

memory new_memory(size_t length)
{
    memory m = {NULL, length};

    if (length > 0) {
        m.bytes = malloc(length);
        oracle(m.bytes != NULL, "the fuzzer has memory");
        memset(m.bytes, 0xA5, length);
    }
    return m;
}

memory new_copy(const void *bytes, size_t length)
{
    memory m = new_memory(length);

    if (length > 0)
        memcpy(m.bytes, bytes, length);
    return m;
}

memory new_empty(input *in)
{
    memory m = {NULL, 0};

    if (take_byte(in) & 1)
        m.bytes = malloc(0);
    return m;
}

void end_memory(memory *m)
{
    free(m->bytes);
    m->bytes = NULL;
    m->length = 0;
}

int same_memory(const memory *a, const memory *b)
{
    return a->length == b->length && (a->length == 0 || memcmp(a->bytes, b->bytes, a->length) == 0);
}

void append(memory *m, const void *bytes, size_t length)
{
    memory longer = new_memory(m->length + length);

    if (m->length > 0)
        memcpy(longer.bytes, m->bytes, m->length);
    if (length > 0)
        memcpy(longer.bytes + m->length, bytes, length);
    end_memory(m);
    *m = longer;
}

void append_text(memory *m, const char *text) { append(m, text, strlen(text)); }

void append_decimal(memory *m, uint64_t number)
{
    char digits[24];

    snprintf(digits, sizeof digits, "%llu", (unsigned long long)number);
    append_text(m, digits);
}

void append_number(memory *m, uint64_t number)
{
    if (number == GMV_MINUS_ONE)
        append_text(m, "-1");
    else
        append_decimal(m, number);
}

uint64_t get_word(const memory *m, size_t index)
{
    uint64_t word;

    memcpy(&word, m->bytes + index * WORD, WORD);
    return word;
}

void set_word(memory *m, size_t index, uint64_t word) { memcpy(m->bytes + index * WORD, &word, WORD); }

size_t count_words(const memory *m) { return m->length / WORD; }

/* Neighbours differ, so that a byte copied from the wrong offset shows. */
static memory new_painted(size_t length, uint8_t paint)
{
    memory m = new_memory(length);

    for (size_t i = 0; i < length; i++)
        m.bytes[i] = (uint8_t)(paint * 7 + i);
    return m;
}

memory take_words(input *in, size_t count)
{
    uint8_t choice = take_byte(in);

    if (choice >= 248)
        count = choice % 2 ? count - 1 : take_below(in, count);
    else if (choice >= 224)
        count += choice % 4;
    return count == 0 ? new_empty(in) : new_painted(count * WORD, choice);
}

memory take_buffer(input *in, size_t need, size_t *start)
{
    uint8_t choice = take_byte(in);
    size_t length;

    *start = choice < 64 ? 0 : choice % 8;
    length = *start + need;
    if (choice >= 252)
        length = length > 0 ? length - 1 : 0;
    else if (choice >= 248)
        length = take_byte(in);
    else if (choice >= 128)
        length += choice % 5;
    if (choice == 251 || choice == 246)
        *start = take_word(in);
    if (choice == 247)
        *start = length - take_below(in, 64);
    return length == 0 ? new_empty(in) : new_painted(length, choice);
}

/* ---- Choices ---- */

static uint64_t take_limit(input *in)
{
    static const uint64_t limits[] = {1, 2, 3, 7, 8, 16, 30, 64};
    uint8_t choice = take_byte(in);

    if (choice < 224)
        return limits[choice % 8];
    if (choice < 228)
        return choice % 2 ? GREATEST_LIMIT : 4096;
    return choice < 236 ? LEAST_LINK_LIMIT : take_word(in);
}

static settings take_characters(input *in, settings link)
{
    uint8_t choice = take_byte(in);

    if (choice >= 192) {
        link.start_block = take_byte(in);
        link.end_block = take_byte(in);
    }
    if (choice >= 240) {
        link.start_block = take_word(in);
        link.end_block = take_word(in);
    }
    return link;
}

settings take_settings(input *in)
{
    settings link = {take_byte(in) & 1, 0x0B, 0x1C, 0};

    link.data_limit = take_limit(in);
    return link.minimal ? link : take_characters(in, link);
}

settings take_link(input *in)
{
    uint8_t choice = take_byte(in);
    settings link = {choice & 1, 0x0B, 0x1C, LEAST_LINK_LIMIT};

    if (choice >= 252)
        link.data_limit = choice & 2 ? GREATEST_LIMIT : 4096;
    else if (choice >= 240)
        link.data_limit = take_word(in);
    else
        link.data_limit += choice % 8;
    return link.minimal ? link : take_characters(in, link);
}

/* A byte at or beside a limit of what data, digits and letters may be, or any. */
static uint8_t take_near_byte(input *in)
{
    static const uint8_t limits[] = {0x00, 0x0A, 0x0B, 0x0C, 0x0D, 0x0E, 0x1B, 0x1C, 0x1D, 0x1F, 0x20,
                                     0x2F, '0',  '9',  ':',  '@',  'A',  'Z',  '[',  '|',  '-',  0x7D,
                                     0x7E, 0x7F, 0x80, 0xFF};
    uint8_t choice = take_byte(in);

    return choice < 64 ? limits[choice % sizeof limits] : choice;
}

/* Alters seldom: a byte set, one left out, one put in, or the end left off. */
void alter(input *in, memory *m)
{
    uint8_t choice = take_byte(in);
    size_t at;
    memory kept;

    if (choice < 160 || m->length == 0)
        return;
    at = take_byte(in) % m->length;
    if (choice < 208) {
        m->bytes[at] = take_near_byte(in);
        return;
    }
    kept = new_copy(m->bytes, at);
    if (choice < 232) {
        append(&kept, m->bytes + at + 1, m->length - at - 1);
    } else if (choice < 248) {
        uint8_t byte = take_near_byte(in);

        append(&kept, &byte, 1);
        append(&kept, m->bytes + at, m->length - at);
    }
    end_memory(m);
    *m = kept;
}

/* A number as it may stand in a field: seldom with zeros before it, or a byte behind it. */
static void append_field_number(input *in, memory *m, uint64_t number)
{
    uint8_t choice = take_byte(in), byte;

    if (choice >= 232)
        append(m, "00000000000000", choice % 15);
    append_number(m, number);
    if (choice >= 208 && choice < 232) {
        byte = take_near_byte(in);
        append(m, &byte, 1);
    }
}

memory take_message(input *in, uint64_t number)
{
    memory m = new_memory(0);

    append_text(&m, "MSH|^~\\&|||||||ADT|");
    append_number(&m, number);
    append_text(&m, "|P|2.3.1|");
    append_field_number(in, &m, number);
    append_text(&m, "\r");
    if (take_byte(in) >= 192) {
        input more = take_part(in, take_byte(in));

        append(&m, more.bytes, more.length);
    }
    alter(in, &m);
    return m;
}

memory take_answer(input *in, uint64_t id, uint64_t code, uint64_t number)
{
    static const char *const codes[] = {"CA", "AA", "AE", "AR"};
    memory m = new_memory(0);

    append_text(&m, "MSH|^~\\&|||||||ACK|");
    append_number(&m, id);
    append_text(&m, "|P|2.3.1\rMSA|");
    append_text(&m, codes[code % 4]);
    append_text(&m, "|");
    append_number(&m, id);
    append_text(&m, "||");
    append_field_number(in, &m, number);
    append_text(&m, "\r");
    alter(in, &m);
    return m;
}

/* Segments whose fields are pieces of the input, so that bars and CRs stand where they matter. */
static void append_segment(input *in, memory *m, const char *begins)
{
    size_t bars = take_below(in, 16);

    append_text(m, begins);
    for (size_t i = 0; i < bars; i++) {
        uint8_t choice = take_byte(in);
        input part = {NULL, 0};

        if (choice >= 192)
            part = take_part(in, choice % 24);
        else if (choice >= 128)
            append_number(m, take_word(in));
        else if (choice >= 120)
            append_text(m, choice & 1 ? "AA" : "AR");
        append(m, part.bytes, part.length);
        append_text(m, "|");
    }
    append_text(m, "\r");
}

memory take_any_message(input *in)
{
    uint8_t choice = take_byte(in);
    memory m = new_memory(0);

    if (choice < 64)
        return take_answer(in, take_word(in), take_byte(in), take_word(in));
    if (choice < 96)
        return take_message(in, take_word(in));
    if (choice < 224) {
        append_segment(in, &m, "MSH|");
        append_segment(in, &m, "MSA|");
        alter(in, &m);
    } else {
        input part = take_part(in, 64);

        m = part.length == 0 ? new_empty(in) : new_copy(part.bytes, part.length);
    }
    return m;
}
