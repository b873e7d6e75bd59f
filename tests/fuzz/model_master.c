/* What the header says of the X3.28 sending station, the master. */
#include "fuzz.h"

#include <string.h>

enum { MOST_RESENDS = 5 };

/* The words of a state and of a report, in the header's order. */
typedef struct {
    uint64_t phase, message_length, block_size, offset, resends, count;
    uint64_t last_reply, interrupted, enquired, may_receive;
} master;

typedef struct {
    uint64_t send, number, ending, offset, length, acknowledged, done, end, count, resends;
} report;

/* The words 6 and 7 go together. */
static int goes_together(const master *m)
{
    switch (m->last_reply) {
    case GMV_REPLY_NONE:
        return m->interrupted == 0 && m->count == 0 && m->offset == 0;
    case GMV_REPLY_ACK:
    case GMV_REPLY_NAK:
        return m->interrupted <= 1;
    case GMV_REPLY_RINT:
        return m->interrupted == 1;
    default:
        return 0;
    }
}

static int has_no_block(const master *m)
{
    return m->message_length == 0 && m->block_size == 0 && m->offset == 0 && m->resends == 0 &&
           m->enquired == 0 && m->may_receive == 0;
}

static int is_state(const master *m)
{
    if (m->phase == GMV_MASTER_CLOSED)
        return has_no_block(m) && m->last_reply == 0 && m->interrupted == 0;
    if (m->phase == GMV_MASTER_IDLE)
        return has_no_block(m) && goes_together(m);
    return m->phase == GMV_MASTER_WAITING && m->block_size >= 1 && m->resends <= MOST_RESENDS &&
           (m->offset == 0 || m->offset < m->message_length) && goes_together(m) && m->enquired <= 1 &&
           (m->may_receive == 0 || (m->may_receive == 1 && m->interrupted == 1));
}

/* The number of the block out: 1 at first, and 0 after 7. */
static uint64_t number_out(const master *m) { return (m->count % 8 + 1) % 8; }

static uint64_t number_before(uint64_t number) { return number == 0 ? 7 : number - 1; }

/* The bytes of the message from the block out on. */
static uint64_t bytes_left(const master *m) { return m->message_length - m->offset; }

static int is_last_block(const master *m) { return bytes_left(m) <= m->block_size; }

static void send_block(master *m, report *r)
{
    m->enquired = 0;
    r->send = GMV_MASTER_SEND_BLOCK;
    r->number = number_out(m);
    r->ending = is_last_block(m) ? GMV_ETX : GMV_ETB;
    r->offset = m->offset;
    r->length = is_last_block(m) ? bytes_left(m) : m->block_size;
}

static void end_opening(master *m, report *r, uint64_t how)
{
    const master ended = {.phase = GMV_MASTER_CLOSED, .count = m->count};

    *m = ended;
    r->end = how;
    if (how != GMV_MASTER_END_BY_SLAVE)
        r->send = GMV_MASTER_SEND_EOT;
}

/* No block is out from now on, and the opening goes on. */
static void end_message(master *m)
{
    const master idle = {.phase = GMV_MASTER_IDLE,
                         .count = m->count,
                         .last_reply = m->last_reply,
                         .interrupted = m->interrupted};

    *m = idle;
}

static void send_again(master *m, report *r)
{
    if (m->resends == MOST_RESENDS) {
        end_opening(m, r, GMV_MASTER_END_FAILED);
        return;
    }
    m->resends++;
    send_block(m, r);
}

static void acknowledge(master *m, report *r)
{
    if (m->count == UINT64_MAX)
        return;
    r->acknowledged = 1;
    r->done = is_last_block(m);
    m->count++;
    if (m->may_receive) {
        end_opening(m, r, GMV_MASTER_END_REVERSED);
    } else if (r->done) {
        end_message(m);
    } else {
        m->offset += m->block_size;
        m->resends = 0;
        send_block(m, r);
    }
}

/* A RINT that may be an old one again: judged before it is noted. */
static int is_doubtful(const master *m)
{
    return m->last_reply == GMV_REPLY_RINT || (m->last_reply == GMV_REPLY_NAK && m->enquired);
}

static void note_reply(const call *c, master *m)
{
    if (c->code != GMV_REPLY_DAMAGED)
        m->last_reply = c->code;
    if (c->code == GMV_REPLY_RINT)
        m->interrupted = 1;
}

static void take_reply(const call *c, master *m, report *r)
{
    const int doubtful = is_doubtful(m);
    const int is_ack = c->code == GMV_REPLY_ACK, is_rint = c->code == GMV_REPLY_RINT;

    if (m->phase == GMV_MASTER_CLOSED)
        return;
    if (c->code == GMV_REPLY_EOT) {
        end_opening(m, r, GMV_MASTER_END_BY_SLAVE);
        return;
    }
    note_reply(c, m);
    if (m->phase == GMV_MASTER_IDLE)
        return;
    if ((is_ack && c->number == number_out(m)) || (is_rint && !doubtful))
        acknowledge(m, r);
    else if ((is_ack && c->number == number_before(number_out(m))) || c->code == GMV_REPLY_NAK || is_rint)
        send_again(m, r);
}

static void start_message(const call *c, master *m, report *r)
{
    m->phase = GMV_MASTER_WAITING;
    m->message_length = c->number;
    m->block_size = c->code;
    send_block(m, r);
}

static void may_receive(master *m, report *r)
{
    if (m->phase == GMV_MASTER_IDLE)
        end_opening(m, r, GMV_MASTER_END_REVERSED);
    else
        m->may_receive = 1;
}

static void enquire(master *m, report *r)
{
    m->enquired = 1;
    r->send = GMV_MASTER_SEND_ENQ;
}

static void act(const call *c, master *m, report *r)
{
    const master opened = {.phase = GMV_MASTER_IDLE};

    if (c->function == call_master_open)
        *m = opened;
    else if (c->function == call_master_start)
        start_message(c, m, r);
    else if (c->function == call_master_reply)
        take_reply(c, m, r);
    else if (c->function == call_master_close)
        end_opening(m, r, GMV_MASTER_END_BY_DRIVER);
    else if (c->function == call_master_enquire)
        enquire(m, r);
    else if (c->function == call_master_may_receive)
        may_receive(m, r);
    else if (m->phase == GMV_MASTER_WAITING)
        send_again(m, r);
    r->count = m->count;
    r->resends = m->resends;
}

static int applies(const call *c, const master *m)
{
    switch (c->function) {
    case call_master_start:
    case call_master_close:
        return m->phase == GMV_MASTER_IDLE;
    case call_master_enquire:
        return m->phase == GMV_MASTER_WAITING;
    case call_master_may_receive:
        return m->interrupted == 1; /* none came to a closed one */
    default:
        return 1;
    }
}

static uint64_t model_act(call *c)
{
    master m;
    report r = {0};

    if (c->function == call_master_start && c->code == 0)
        return GMV_SETTING;
    if (c->function == call_master_reply && (c->code < GMV_REPLY_ACK || c->code > GMV_REPLY_RINT))
        return GMV_SETTING;
    if (count_words(&c->state) < GMV_MASTER_WORDS || count_words(&c->result) < GMV_MASTER_REPORT_WORDS)
        return GMV_TOO_SHORT;
    memcpy(&m, c->state.bytes, sizeof m);
    if (c->function != call_master_open && (!is_state(&m) || !applies(c, &m)))
        return GMV_STATE;
    act(c, &m, &r);
    memcpy(c->state.bytes, &m, sizeof m);
    memcpy(c->result.bytes, &r, sizeof r);
    return GMV_OK;
}

uint64_t model_master(call *c)
{
    if (c->function != call_master_fresh)
        return model_act(c);
    if (count_words(&c->state) < GMV_MASTER_WORDS)
        return GMV_TOO_SHORT;
    memset(c->state.bytes, 0, GMV_MASTER_WORDS * sizeof(uint64_t));
    return GMV_OK;
}
