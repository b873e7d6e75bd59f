/* The receiver: an input is a list of acts of one receiver and its driver, under one link's settings:
 * decisions, reports, N replies, crashes, and words that are altered. */
#include "fuzz.h"

#include <string.h>

enum { WORD = sizeof(uint64_t), MOST_ACTS = 12 };

/* A receiver, and what is known of the decision that is open: what was expected before it, what its
 * report said, and the control ID of its block. Nothing is known where words were altered. */
typedef struct {
    settings link;
    memory state;
    int is_known;
    uint64_t before, transaction, expected;
    memory id;
} history;

static int is_whole(const memory *state) { return count_words(state) >= GMV_RECEIVER_WORDS; }

static int is_open(const memory *state)
{
    return is_whole(state) && get_word(state, GMV_RECEIVER_CODE) != 0;
}

static uint64_t expected_by(const memory *state)
{
    return count_words(state) > 0 ? get_word(state, GMV_RECEIVER_EXPECTED) : 0;
}

/* The call takes the state, and gives it back. */
static uint64_t perform_on(history *h, call *c)
{
    uint64_t number;

    c->state = h->state;
    number = perform(c);
    h->state = c->state;
    c->state.bytes = NULL;
    c->state.length = 0;
    return number;
}

/* ---- Decisions ---- */

/* A number that matters to a receiver that expects this one. */
static uint64_t take_number(input *in, uint64_t expected)
{
    uint8_t choice = take_byte(in);

    if (choice < 128)
        return expected == 0 ? 1u + choice % 16u : expected;
    if (choice < 160)
        return expected - 1 + choice % 3;
    if (choice < 192)
        return choice & 1 ? GMV_MINUS_ONE : 0;
    return take_word(in);
}

static memory take_request(input *in, uint64_t expected)
{
    uint8_t choice = take_byte(in);
    memory m = new_memory(0);

    if (choice < 208)
        return take_message(in, take_number(in, expected));
    if (choice < 240) {
        append_text(&m, "MSH|^~\\&|||||||ADT|");
        append(&m, in->bytes, in->length < 20 ? in->length : 20);
        append_text(&m, choice & 1 ? "|P|2.3.1||\r" : "|P|2.3.1|1x|\r");
        return m;
    }
    return choice & 1 ? new_empty(in) : take_any_message(in);
}

/* What a decision opened is kept beside it, until it is reported. */
static void note_decision(history *h, const call *c, uint64_t before)
{
    header_fields found;

    oracle(find_header(&c->content, &found), "a decision is on a message with a header");
    end_memory(&h->id);
    h->id = new_copy(c->content.bytes + found.control_id.offset, found.control_id.length);
    h->before = before;
    h->transaction = get_word(&c->result, GMV_DECISION_TRANSACTION);
    h->expected = get_word(&c->result, GMV_DECISION_EXPECTED);
    h->is_known = 1;
    oracle(h->transaction == 0 || h->expected == h->transaction + 1, "a transaction and the next number");
    oracle(h->transaction == 0 || before == 0 || before == h->transaction,
           "a transaction is the expected one");
    oracle(h->transaction != 0 || h->expected == before || h->expected == 0, "what is expected stays");
    oracle((h->expected != before) == (get_word(&c->result, GMV_DECISION_CHANGES) == 1),
           "what differs from what is expected is a change");
}

static void look_at_decision(history *h, const call *c, const memory *before)
{
    uint64_t opened = get_word(&c->result, GMV_DECISION_OPENED), outcome = 0;

    oracle(expected_by(&h->state) == expected_by(before), "a decision leaves what is expected");
    oracle(!is_open(before), "one decision at a time: no block is taken while one is open");
    oracle(opened <= 1, "a decision is opened or not");
    oracle(opened == 0 || c->block_type == GMV_DATA_BLOCK, "an N block opens no decision");
    if (opened == 0) {
        oracle(same_memory(&h->state, before), "a block that is dropped or refused changes no word");
    } else {
        oracle(is_open(&h->state), "a decision that was opened is open");
        note_decision(h, c, expected_by(before));
        outcome = h->transaction != 0 ? 3 : 1 + get_word(&c->result, GMV_DECISION_CHANGES);
    }
    count_outcome(DECISION, outcome);
    count_outcome(DECIDED_BLOCK, get_word(&c->result, GMV_DECISION_BLOCK));
}

static void act_decide(input *in, history *h)
{
    call c = {.function = call_receiver_decide, .link = h->link};
    memory before = h->state.length == 0 ? new_memory(0) : new_copy(h->state.bytes, h->state.length);
    uint8_t choice = take_byte(in);

    c.block_type = choice % 16 == 1 ? GMV_NAK_BLOCK : choice % 32 == 2 ? take_word(in) : GMV_DATA_BLOCK;
    c.code = choice % 32 == 3 ? take_word(in) : 1u + choice / 32 % 2u;
    c.content = take_request(in, expected_by(&h->state));
    c.result = take_words(in, GMV_DECISION_WORDS);
    if (perform_on(h, &c) == GMV_OK)
        look_at_decision(h, &c, &before);
    end_memory(&before);
    end_call(&c);
}

/* ---- Replies ---- */

/* The reply is one block of this type that is accepted. Returns its data, as a part of the buffer. */
static memory read_reply(const call *c, int minimal, uint64_t type)
{
    call check = {.function = minimal ? call_minimal_check : call_hybrid_check, .link = c->link};
    memory data;

    check.content = new_copy(c->buffer.bytes + c->start, get_word(&c->result, GMV_REPORT_BLOCK_LENGTH));
    check.result = new_memory(GMV_VERDICT_WORDS * WORD);
    oracle(perform(&check) == GMV_OK, "a reply is accepted");
    oracle(get_word(&check.result, GMV_VERDICT_TYPE) == type, "an N block answers refused blocks alone");
    data = new_copy(check.content.bytes + get_word(&check.result, GMV_VERDICT_DATA_OFFSET),
                    get_word(&check.result, GMV_VERDICT_DATA_LENGTH));
    end_call(&check);
    return data;
}

/* The answer is that of the block that was decided on, with this code. */
static void read_answer(const history *h, const call *c, uint64_t code)
{
    memory data = read_reply(c, c->function == call_minimal_answer, GMV_DATA_BLOCK);
    answer_fields found;

    oracle(find_answer(&data, &found), "an answer can be read");
    oracle(found.code_number == code, "an answer has the code of its decision");
    if (h->is_known)
        oracle(found.control_id.length == h->id.length &&
                   memcmp(data.bytes + found.control_id.offset, h->id.bytes, h->id.length) == 0,
               "an answer has the control ID of the block decided on");
    end_memory(&data);
}

static void look_at_report(history *h, const call *c, const memory *before, const memory *buffer)
{
    uint64_t length = get_word(&c->result, GMV_REPORT_BLOCK_LENGTH), expected = expected_by(&h->state);
    uint64_t code = get_word(before, GMV_RECEIVER_CODE);

    oracle(is_open(before), "a report is of a decision that is open");
    oracle(!is_open(&h->state), "no decision is open after its report");
    if (c->code == GMV_NOT_STORED) {
        oracle(length == 0 && same_memory(&c->buffer, buffer), "a failure gives nothing to send");
        oracle(expected == expected_by(before), "a failure leaves what was expected");
        count_outcome(REPORTED, 0);
    } else {
        read_answer(h, c, code);
        oracle(expected == get_word(before, GMV_RECEIVER_NEW_EXPECTED), "success expects what was decided");
        oracle(!h->is_known || expected == h->expected, "success expects what the decision said");
        count_outcome(REPORTED, code);
    }
    h->is_known = 0;
}

static size_t need_of(const history *h)
{
    return h->link.data_limit <= GREATEST_LIMIT ? h->link.data_limit + overhead_of(h->link) : 200;
}

static void act_report(input *in, history *h)
{
    call c = {.function = h->link.minimal ? call_minimal_answer : call_hybrid_answer, .link = h->link};
    memory before = h->state.length == 0 ? new_memory(0) : new_copy(h->state.bytes, h->state.length), buffer;
    uint8_t choice = take_byte(in);

    c.code = choice % 32 == 3 ? take_word(in) : choice % 3 == 0 ? GMV_NOT_STORED : GMV_STORED;
    c.buffer = take_buffer(in, need_of(h), &c.start);
    c.result = take_words(in, GMV_REPORT_WORDS);
    buffer = c.buffer.length == 0 ? new_memory(0) : new_copy(c.buffer.bytes, c.buffer.length);
    if (perform_on(h, &c) == GMV_OK)
        look_at_report(h, &c, &before, &buffer);
    end_memory(&before);
    end_memory(&buffer);
    end_call(&c);
}

static void act_nak(input *in, history *h)
{
    call c = {.function = call_hybrid_nak, .link = h->link};
    uint8_t choice = take_byte(in);
    memory data;

    c.link.minimal = 0;
    c.block_number = choice % 32 == 3 ? take_word(in) : 3u + choice % 7u;
    c.buffer = take_buffer(in, need_of(h) + 12, &c.start);
    c.result = take_words(in, GMV_REPORT_WORDS);
    if (perform_on(h, &c) == GMV_OK) {
        oracle(!is_open(&h->state), "no N reply while a decision is open");
        data = read_reply(&c, 0, GMV_NAK_BLOCK);
        end_memory(&data);
        count_outcome(NAK_REPLY, c.block_number);
    }
    end_call(&c);
}

/* ---- What happens to the words otherwise ---- */

static void crash(history *h)
{
    for (size_t i = 1; i < count_words(&h->state); i++)
        set_word(&h->state, i, 0);
    h->is_known = 0;
}

/* A decision of the table, as words that no act here made; most often one of its words is then altered. */
static void invent(input *in, history *h)
{
    uint8_t choice = take_byte(in);
    uint64_t n = take_byte(in) % 4 + 1u, e = choice & 4 ? n : 0;
    const uint64_t rows[][4] = {{GMV_CODE_AA, n, n, n + 1}, {GMV_CODE_AE, n, n, n + 1}, {GMV_CODE_AA, e, 0, e},
                                {GMV_CODE_AR, e, 0, e}, {GMV_CODE_AA, 0, 0, 0}};

    h->is_known = 0;
    if (!is_whole(&h->state))
        return;
    set_word(&h->state, GMV_RECEIVER_EXPECTED, e);
    for (size_t i = 0; i < 4; i++)
        set_word(&h->state, GMV_RECEIVER_CODE + i, rows[choice / 8 % 5][i]);
    set_word(&h->state, GMV_RECEIVER_CONTROL_ID_LENGTH, 1u + take_byte(in) % 20u);
    for (size_t i = 0; i < 3; i++)
        set_word(&h->state, GMV_RECEIVER_CONTROL_ID + i, UINT64_C(0x3736353433323130));
}

static void alter_word(input *in, history *h)
{
    size_t count = count_words(&h->state), index = count > 0 ? take_below(in, count) : 0;
    uint8_t choice = take_byte(in);

    if (count == 0)
        return;
    h->is_known = 0;
    if (choice < 128)
        set_word(&h->state, index, get_word(&h->state, index) ^ UINT64_C(1) << choice % 64);
    else if (choice < 192)
        set_word(&h->state, index, get_word(&h->state, take_below(in, count)) + choice % 3 - 1);
    else
        set_word(&h->state, index, take_word(in));
}

static void act(input *in, history *h)
{
    uint8_t choice = take_byte(in);

    if (choice < 96)
        act_decide(in, h);
    else if (choice < 176)
        act_report(in, h);
    else if (choice < 208)
        act_nak(in, h);
    else if (choice < 216)
        crash(h);
    else if (choice < 236)
        invent(in, h);
    else
        alter_word(in, h);
}

void fuzz_receiver(input *in)
{
    history h = {.link = take_link(in), .state = take_words(in, GMV_RECEIVER_WORDS)};
    call fresh = {.function = call_receiver_fresh};
    uint8_t choice = take_byte(in);

    if (choice < 192)
        perform_on(&h, &fresh);
    if (choice % 4 == 1 && count_words(&h.state) > 0)
        set_word(&h.state, GMV_RECEIVER_EXPECTED, take_word(in));
    for (int i = 0; i < MOST_ACTS && has_more(in); i++)
        act(in, &h);
    end_memory(&h.state);
    end_memory(&h.id);
}
