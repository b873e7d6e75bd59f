/* What the header says of the receiver. */
#include "fuzz.h"

#include <string.h>

enum { LONGEST_ID = 20, ID_BYTES = 24 };

/* A row of the table: the answer's code and number (0: -1), the transaction or 0, and what is expected
 * then (0: none). */
typedef struct {
    uint64_t code, number, transaction, expected;
} row;

static row find_row(uint64_t field, uint64_t n, uint64_t expected, uint64_t application)
{
    const row stays = {GMV_CODE_AA, expected, 0, expected}, rejected = {GMV_CODE_AR, expected, 0, expected};
    const row resynchronized = {GMV_CODE_AA, 0, 0, 0}, taken = {application, n, n, n + 1};

    if (field != GMV_FIELD_NUMBER)
        return rejected;
    if (n == GMV_MINUS_ONE)
        return resynchronized;
    if (n == 0)
        return stays;
    return expected == 0 || expected == n ? taken : rejected;
}

/* ---- The words of a state ---- */

static row open_row(const memory *state)
{
    row r = {get_word(state, GMV_RECEIVER_CODE), get_word(state, GMV_RECEIVER_NUMBER),
             get_word(state, GMV_RECEIVER_TRANSACTION), get_word(state, GMV_RECEIVER_NEW_EXPECTED)};

    return r;
}

static int same_row(const row *a, const row *b)
{
    return a->code == b->code && a->number == b->number && a->transaction == b->transaction &&
           a->expected == b->expected;
}

/* Does the table give this row for the expected number, by some MSH-13 and some verdict? */
static int table_gives(const row *open, uint64_t expected)
{
    const uint64_t numbers[] = {GMV_MINUS_ONE, 0, open->transaction};

    for (size_t i = 0; i < 3; i++)
        for (uint64_t application = GMV_CODE_AA; application <= GMV_CODE_AE; application++) {
            row given = find_row(GMV_FIELD_NUMBER, numbers[i], expected, application);

            if ((i < 2 || open->transaction <= GREATEST_SENT) && same_row(&given, open))
                return 1;
            given = find_row(GMV_FIELD_MISSING, 0, expected, application);
            if (same_row(&given, open))
                return 1;
        }
    return 0;
}

static void read_id(const memory *state, uint8_t *id)
{
    for (size_t i = 0; i < ID_BYTES; i++)
        id[i] = (uint8_t)(get_word(state, GMV_RECEIVER_CONTROL_ID + i / 8) >> 8 * (i % 8));
}

static int answer_carries_id(const memory *state)
{
    uint64_t length = get_word(state, GMV_RECEIVER_CONTROL_ID_LENGTH);
    uint8_t id[ID_BYTES];

    if (length < 1 || length > LONGEST_ID)
        return 0;
    read_id(state, id);
    for (size_t i = 0; i < length; i++)
        if (!is_data_byte(id[i]) || id[i] == '|' || id[i] == '\r')
            return 0;
    return 1;
}

static int is_open(const memory *state) { return get_word(state, GMV_RECEIVER_CODE) != 0; }

static int is_state(const memory *state)
{
    uint64_t expected = get_word(state, GMV_RECEIVER_EXPECTED);
    row open = open_row(state);

    if (expected > GREATEST_EXPECTED)
        return 0;
    return !is_open(state) || (table_gives(&open, expected) && answer_carries_id(state));
}

/* With no decision open. */
static void close_state(memory *state, uint64_t expected)
{
    for (size_t i = 0; i < GMV_RECEIVER_WORDS; i++)
        set_word(state, i, i == GMV_RECEIVER_EXPECTED ? expected : 0);
}

static void open_state(memory *state, const row *r, const uint8_t *id, size_t length)
{
    uint64_t words[] = {r->code, r->number, r->transaction, r->expected, length, 0, 0, 0};

    for (size_t i = 0; i < length; i++)
        words[5 + i / 8] |= (uint64_t)id[i] << 8 * (i % 8);
    for (size_t i = 0; i < 8; i++)
        set_word(state, GMV_RECEIVER_CODE + i, words[i]);
}

/* ---- The decision ---- */

static int has_readable_id(const memory *data, header_fields *found)
{
    if (!find_header(data, found))
        return 0;
    for (size_t i = 0; i < found->control_id.length; i++)
        if (!is_data_byte(data->bytes[found->control_id.offset + i]))
            return 0;
    return 1;
}

static void tell_decision(call *c, uint64_t block, int opened, const row *r, int changes)
{
    set_word(&c->result, GMV_DECISION_BLOCK, block);
    set_word(&c->result, GMV_DECISION_OPENED, (uint64_t)opened);
    set_word(&c->result, GMV_DECISION_TRANSACTION, r->transaction);
    set_word(&c->result, GMV_DECISION_EXPECTED, r->expected);
    set_word(&c->result, GMV_DECISION_CHANGES, (uint64_t)changes);
}

static uint64_t refuse_decision(const call *c)
{
    if ((c->code != GMV_CODE_AA && c->code != GMV_CODE_AE) ||
        (c->block_type != GMV_DATA_BLOCK && c->block_type != GMV_NAK_BLOCK))
        return GMV_SETTING;
    if (count_words(&c->state) < GMV_RECEIVER_WORDS || count_words(&c->result) < GMV_DECISION_WORDS)
        return GMV_TOO_SHORT;
    return is_state(&c->state) && !is_open(&c->state) ? GMV_OK : GMV_STATE;
}

static uint64_t model_decide(call *c)
{
    uint64_t number = refuse_decision(c), expected;
    header_fields found;
    row r = {0, 0, 0, 0};

    if (number != GMV_OK)
        return number;
    expected = r.expected = get_word(&c->state, GMV_RECEIVER_EXPECTED);
    if (c->block_type == GMV_NAK_BLOCK) {
        tell_decision(c, GMV_OK, 0, &r, 0);
    } else if (!has_readable_id(&c->content, &found)) {
        tell_decision(c, GMV_HEAD, 0, &r, 0);
    } else {
        r = find_row(found.sequence_field, found.sequence_number, expected, c->code);
        open_state(&c->state, &r, c->content.bytes + found.control_id.offset, found.control_id.length);
        tell_decision(c, GMV_OK, 1, &r, r.expected != expected);
    }
    return GMV_OK;
}

/* ---- The report, and the N reply ---- */

static uint64_t refuse_reply(const call *c, settings link, int code_is_valid, int needs_open)
{
    if (!settings_are_valid(link, LEAST_LINK_LIMIT) || !code_is_valid)
        return GMV_SETTING;
    if (count_words(&c->state) < GMV_RECEIVER_WORDS || count_words(&c->result) < GMV_REPORT_WORDS ||
        !buffer_holds(c, link.data_limit + overhead_of(link)))
        return GMV_TOO_SHORT;
    return is_state(&c->state) && is_open(&c->state) == needs_open ? GMV_OK : GMV_STATE;
}

/* The reply goes into the buffer, and its length into the report. */
static void write_reply(call *c, memory *reply)
{
    if (reply->length > 0)
        write_into_buffer(c, reply);
    set_word(&c->result, GMV_REPORT_BLOCK_LENGTH, reply->length);
    set_word(&c->result, GMV_REPORT_FORBIDDEN_OFFSET, 0);
    end_memory(reply);
}

static uint64_t model_answer(call *c, settings link)
{
    uint64_t number = refuse_reply(c, link, c->code == GMV_NOT_STORED || c->code == GMV_STORED, 1), expected;
    memory answer = new_memory(0), reply = new_memory(0);
    uint8_t id[ID_BYTES];
    row open;

    if (number != GMV_OK)
        return number;
    open = open_row(&c->state);
    expected = get_word(&c->state, GMV_RECEIVER_EXPECTED);
    if (c->code == GMV_STORED) {
        read_id(&c->state, id);
        append_answer(&answer, id, get_word(&c->state, GMV_RECEIVER_CONTROL_ID_LENGTH), open.code,
                      open.number == 0 ? GMV_MINUS_ONE : open.number);
        append_block(&reply, link, 'D', answer.bytes, answer.length);
        expected = open.expected;
    }
    close_state(&c->state, expected);
    write_reply(c, &reply);
    end_memory(&answer);
    return GMV_OK;
}

static uint64_t model_nak(call *c)
{
    uint64_t number = refuse_reply(c, c->link, c->block_number >= 3 && c->block_number <= 9, 0);
    memory reply = new_memory(0);
    uint8_t reason = 'G';

    if (number != GMV_OK)
        return number;
    if (c->block_number == GMV_COUNT)
        reason = 'C';
    else if (c->block_number == GMV_CHECK)
        reason = 'X';
    else if (c->block_number == GMV_LONG)
        reason = 'B';
    append_block(&reply, c->link, 'N', &reason, 1);
    write_reply(c, &reply);
    return GMV_OK;
}

uint64_t model_receiver(call *c)
{
    settings link = c->link;

    link.minimal = c->function == call_minimal_answer;
    switch (c->function) {
    case call_receiver_decide:
        return model_decide(c);
    case call_hybrid_answer:
    case call_minimal_answer:
        return model_answer(c, link);
    case call_hybrid_nak:
        return model_nak(c);
    default:
        break;
    }
    if (count_words(&c->state) < GMV_RECEIVER_WORDS)
        return GMV_TOO_SHORT;
    close_state(&c->state, 0);
    return GMV_OK;
}
