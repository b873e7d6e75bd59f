/* What the header says of the X3.28 receiving station. */
#include "fuzz.h"

#include <string.h>

/* The words of a state and of a report, in the header's order. */
typedef struct {
    uint64_t open, expected, held, last_reply, interrupt;
} station;

typedef struct {
    uint64_t reply, reply_number, complete, message_length;
} report;

/* The pairs of last reply and interrupt that the header names. */
static int is_pair(const station *s)
{
    switch (s->last_reply) {
    case GMV_REPLY_NONE:
        return s->interrupt <= GMV_INTERRUPT_PENDING && s->expected == 1 && s->held == 0;
    case GMV_REPLY_ACK:
        return s->interrupt <= GMV_INTERRUPT_PENDING;
    case GMV_REPLY_NAK:
        return s->interrupt <= GMV_INTERRUPT_GIVEN;
    case GMV_REPLY_RINT:
        return s->interrupt == GMV_INTERRUPT_GIVEN;
    default:
        return 0;
    }
}

static int is_state(const station *s)
{
    if (s->open == 0)
        return s->expected == 0 && s->held == 0 && s->last_reply == 0 && s->interrupt == 0;
    return s->open == 1 && s->expected <= 7 && is_pair(s);
}

static int fits(const call *c, const station *s)
{
    return s->held <= c->buffer.length && c->content.length <= c->buffer.length - s->held;
}

static void append_text_held(call *c, station *s, report *r)
{
    if (c->content.length > 0)
        memcpy(c->buffer.bytes + s->held, c->content.bytes, c->content.length);
    s->held += c->content.length;
    if (c->code == GMV_ETX) {
        r->complete = 1;
        r->message_length = s->held;
        s->held = 0;
    }
    s->expected = (s->expected + 1) % 8;
}

/* The number just before the expected one: 7 where that is 0. */
static uint64_t number_before(const station *s)
{
    return s->expected == 0 ? 7 : s->expected - 1;
}

static void reply_nak(station *s, report *r)
{
    r->reply = s->last_reply = GMV_REPLY_NAK;
}

/* An ACK is one since the last RINT: another may be asked for. One that is pending stays so. */
static void reply_ack(station *s, report *r, uint64_t number)
{
    r->reply = s->last_reply = GMV_REPLY_ACK;
    r->reply_number = number;
    if (s->interrupt == GMV_INTERRUPT_GIVEN)
        s->interrupt = GMV_INTERRUPT_NONE;
}

static void reply_rint(station *s, report *r)
{
    r->reply = s->last_reply = GMV_REPLY_RINT;
    s->interrupt = GMV_INTERRUPT_GIVEN;
}

static void close_station(station *s)
{
    const station closed = {0};

    *s = closed;
}

static void take_expected(call *c, station *s, report *r)
{
    if (!fits(c, s)) {
        r->reply = GMV_REPLY_EOT;
        close_station(s);
        return;
    }
    append_text_held(c, s, r);
    if (s->interrupt == GMV_INTERRUPT_PENDING)
        reply_rint(s, r);
    else
        reply_ack(s, r, c->number);
}

static void take_block(call *c, station *s, report *r)
{
    if (c->number == s->expected)
        take_expected(c, s, r);
    else if (c->number == number_before(s))
        reply_ack(s, r, c->number);
    else
        reply_nak(s, r);
}

/* The last reply once more; where there was none a NAK, which is the last one then. */
static void repeat_reply(station *s, report *r)
{
    if (s->last_reply == GMV_REPLY_NONE)
        s->last_reply = GMV_REPLY_NAK;
    r->reply = s->last_reply;
    if (r->reply == GMV_REPLY_ACK)
        r->reply_number = number_before(s);
}

static void act(call *c, station *s, report *r)
{
    const station opened = {.open = 1, .expected = 1};

    if (c->function == call_station_open)
        *s = opened;
    else if (c->function == call_station_end)
        close_station(s);
    else if (!s->open)
        return;
    else if (c->function == call_station_block)
        take_block(c, s, r);
    else if (c->function == call_station_bare_enq)
        repeat_reply(s, r);
    else if (c->function == call_station_interrupt)
        s->interrupt = GMV_INTERRUPT_PENDING;
    else
        reply_nak(s, r);
}

/* A RINT is asked for where the station is open, and none is pending or given. */
static int applies(const call *c, const station *s)
{
    return c->function != call_station_interrupt || (s->open && s->interrupt == GMV_INTERRUPT_NONE);
}

static uint64_t model_act(call *c)
{
    station s;
    report r = {0, 0, 0, 0};

    if (c->function == call_station_block && c->code != GMV_ETX && c->code != GMV_ETB)
        return GMV_SETTING;
    if (count_words(&c->state) < GMV_STATION_WORDS || count_words(&c->result) < GMV_STATION_REPORT_WORDS)
        return GMV_TOO_SHORT;
    memcpy(&s, c->state.bytes, sizeof s);
    if (c->function != call_station_open && (!is_state(&s) || !applies(c, &s)))
        return GMV_STATE;
    act(c, &s, &r);
    memcpy(c->state.bytes, &s, sizeof s);
    memcpy(c->result.bytes, &r, sizeof r);
    return GMV_OK;
}

uint64_t model_station(call *c)
{
    if (c->function != call_station_fresh)
        return model_act(c);
    if (count_words(&c->state) < GMV_STATION_WORDS)
        return GMV_TOO_SHORT;
    memset(c->state.bytes, 0, GMV_STATION_WORDS * sizeof(uint64_t));
    return GMV_OK;
}
