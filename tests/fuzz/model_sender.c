/* What the header says of the sender. */
#include "fuzz.h"

#include <string.h>

typedef struct {
    uint64_t first, delivered, last, resynchronized, frozen, waiting, sends;
} sender;

typedef struct {
    uint64_t send, send_number, sends, event, delivered, code, block, forbidden_offset;
} report;

/* ---- The words that encode a state ---- */

static int waits_rightly(const sender *s)
{
    int sent = s->sends >= 1 && s->sends <= 100;

    switch (s->waiting) {
    case GMV_WAITING_CLOSED:
        return s->sends == 0;
    case GMV_WAITING_IDLE:
        return s->resynchronized && !s->frozen && s->delivered == s->last && s->sends == 0;
    case GMV_WAITING_RESYNCHRONIZE:
        return !s->resynchronized && !s->frozen && sent;
    case GMV_WAITING_QUERY:
        return s->resynchronized && !s->frozen && sent;
    case GMV_WAITING_TRANSACTION:
        return s->resynchronized && !s->frozen && s->delivered < s->last && sent;
    default:
        return 0;
    }
}

static int is_state(const sender *s)
{
    return s->first >= 1 && s->first <= GREATEST_SENT && s->first - 1 <= s->delivered &&
           s->delivered <= s->last && s->last <= GREATEST_SENT && s->resynchronized <= 1 &&
           s->frozen <= 1 && (s->resynchronized || s->delivered == s->first - 1) && waits_rightly(s);
}

/* ---- What the acts do ---- */

static void send_waiting(const sender *s, report *r)
{
    r->sends = s->sends;
    r->send = s->waiting < GMV_WAITING_RESYNCHRONIZE ? GMV_SEND_NOTHING : s->waiting - 1;
    if (s->waiting == GMV_WAITING_TRANSACTION)
        r->send_number = s->delivered + 1;
}

static void close_circuit(sender *s)
{
    s->waiting = GMV_WAITING_CLOSED;
    s->sends = 0;
}

/* The next transaction begins to wait, if it was submitted. */
static void go_on(sender *s, report *r)
{
    int due = s->delivered < s->last;

    s->waiting = due ? GMV_WAITING_TRANSACTION : GMV_WAITING_IDLE;
    s->sends = due ? 1 : 0;
    send_waiting(s, r);
}

static void deliver(sender *s, report *r, uint64_t code)
{
    s->delivered++;
    r->event = GMV_EVENT_DELIVERED;
    r->delivered = s->delivered;
    r->code = code;
    go_on(s, r);
}

static void freeze(sender *s, report *r)
{
    s->frozen = 1;
    close_circuit(s);
    r->sends = 0;
    r->event = GMV_EVENT_FROZE;
}

static void fall_due(sender *s, report *r, uint64_t resends)
{
    r->sends = s->sends;
    if (s->waiting == GMV_WAITING_IDLE)
        return;
    if (s->sends < resends + 1) {
        s->sends++;
        send_waiting(s, r);
        return;
    }
    close_circuit(s);
    r->event = GMV_EVENT_ABANDONED;
}

static void hear(sender *s, report *r, const answer_fields *answer)
{
    uint64_t code = answer->code_number, e = answer->expected_number, next = s->delivered + 1;
    int counts = answer->expected_field == GMV_FIELD_NUMBER, accepts = counts && code == GMV_CODE_AA;
    int none = e == GMV_MINUS_ONE;

    if (s->waiting == GMV_WAITING_RESYNCHRONIZE && accepts && none) {
        s->resynchronized = 1;
        go_on(s, r);
    } else if (s->waiting == GMV_WAITING_QUERY && accepts &&
               (none ? s->delivered == s->first - 1 : e == next)) {
        go_on(s, r);
    } else if (s->waiting == GMV_WAITING_QUERY && accepts && e == next + 1 && next <= s->last) {
        deliver(s, r, 0);
    } else if (s->waiting == GMV_WAITING_TRANSACTION && counts && e == next &&
               (code == GMV_CODE_AA || code == GMV_CODE_AE)) {
        deliver(s, r, code);
    } else if (s->waiting == GMV_WAITING_TRANSACTION && counts && e == next + 1 && code == GMV_CODE_AR) {
        deliver(s, r, 0);
    } else {
        freeze(s, r);
    }
}

static int answers_waiting(const call *c, const sender *s, const answer_fields *answer)
{
    memory id = new_memory(0), heard;
    int same;

    if (s->waiting == GMV_WAITING_RESYNCHRONIZE)
        append_text(&id, "-1");
    else
        append_decimal(&id, s->waiting == GMV_WAITING_QUERY ? 0 : s->delivered + 1);
    heard.bytes = c->content.bytes + answer->control_id.offset;
    heard.length = answer->control_id.length;
    same = same_memory(&id, &heard);
    end_memory(&id);
    return same;
}

static uint64_t model_block(call *c, sender *s, report *r)
{
    answer_fields answer;
    int is_data = c->block_number == GMV_OK && c->block_type != GMV_NAK_BLOCK;

    if (s->waiting == GMV_WAITING_CLOSED)
        return GMV_STATE;
    r->block = c->block_number;
    if (is_data && !find_answer(&c->content, &answer)) {
        r->block = GMV_HEAD;
        is_data = 0;
    }
    if (!is_data) {
        fall_due(s, r, c->number);
        return GMV_OK;
    }
    r->sends = s->sends;
    if (s->waiting == GMV_WAITING_IDLE)
        return GMV_OK;
    if (answers_waiting(c, s, &answer))
        hear(s, r, &answer);
    else
        r->event = GMV_EVENT_DROPPED;
    return GMV_OK;
}

static int is_next(const call *c, const header_fields *found, uint64_t next)
{
    memory plain = new_memory(0), id = {c->content.bytes + found->control_id.offset,
                                        found->control_id.length};
    int same;

    append_decimal(&plain, next);
    same = same_memory(&plain, &id);
    end_memory(&plain);
    return same && next <= GREATEST_SENT && found->sequence_field == GMV_FIELD_NUMBER &&
           found->sequence_number == next;
}

static uint64_t model_submit(call *c, sender *s, report *r)
{
    header_fields found;
    size_t i = 0;

    if (s->frozen)
        return GMV_STATE;
    if (c->content.length > c->link.data_limit)
        return GMV_LONG;
    while (i < c->content.length && is_data_byte(c->content.bytes[i]))
        i++;
    if (i < c->content.length) {
        r->forbidden_offset = i;
        return GMV_BYTE;
    }
    if (!find_header(&c->content, &found))
        return GMV_HEAD;
    if (!is_next(c, &found, s->last + 1))
        return GMV_NUMBER;
    s->last++;
    if (s->waiting == GMV_WAITING_IDLE)
        go_on(s, r);
    return GMV_OK;
}

static uint64_t model_circuit(call *c, sender *s, report *r)
{
    int is_open = s->waiting != GMV_WAITING_CLOSED;

    if (c->function == call_sender_open) {
        if (is_open || s->frozen)
            return GMV_STATE;
        s->waiting = s->resynchronized ? GMV_WAITING_QUERY : GMV_WAITING_RESYNCHRONIZE;
        s->sends = 1;
        send_waiting(s, r);
        return GMV_OK;
    }
    if (c->function == call_sender_reset) {
        if (!s->frozen)
            return GMV_STATE;
        s->frozen = 0;
        return GMV_OK;
    }
    if (!is_open)
        return GMV_STATE;
    if (c->function == call_sender_timer) {
        fall_due(s, r, c->number);
        return GMV_OK;
    }
    close_circuit(s);
    r->sends = 0;
    return GMV_OK;
}

/* A refusal by 1 or 2, or 0. */
static uint64_t refuse(const call *c)
{
    int takes_resends = c->function == call_sender_timer || c->function == call_sender_block;

    if (c->function == call_sender_submit &&
        (c->link.data_limit < LEAST_LINK_LIMIT || c->link.data_limit > GREATEST_LIMIT))
        return GMV_SETTING;
    if (takes_resends && c->number > 99)
        return GMV_SETTING;
    if (c->function == call_sender_block && c->block_number != GMV_OK &&
        (c->block_number < GMV_BYTE || c->block_number > GMV_INTERRUPTED))
        return GMV_SETTING;
    if (count_words(&c->state) < GMV_SENDER_WORDS || count_words(&c->result) < GMV_ACT_WORDS)
        return GMV_TOO_SHORT;
    return GMV_OK;
}

static uint64_t model_act(call *c)
{
    sender s;
    report r = {0, 0, 0, 0, 0, 0, 0, 0};
    uint64_t number = refuse(c);

    if (number != GMV_OK)
        return number;
    memcpy(&s, c->state.bytes, sizeof s);
    number = GMV_STATE;
    if (is_state(&s)) {
        r.sends = s.sends;
        if (c->function == call_sender_submit)
            number = model_submit(c, &s, &r);
        else if (c->function == call_sender_block)
            number = model_block(c, &s, &r);
        else
            number = model_circuit(c, &s, &r);
    }
    memcpy(c->state.bytes, &s, sizeof s);
    memcpy(c->result.bytes, &r, sizeof r);
    return number;
}

uint64_t model_sender(call *c)
{
    sender s = {c->number, c->number - 1, c->number - 1, 0, 0, 0, 0};

    if (c->function != call_sender_fresh)
        return model_act(c);
    if (c->number < 1 || c->number > GREATEST_SENT)
        return GMV_SETTING;
    if (count_words(&c->state) < GMV_SENDER_WORDS)
        return GMV_TOO_SHORT;
    memcpy(c->state.bytes, &s, sizeof s);
    return GMV_OK;
}
