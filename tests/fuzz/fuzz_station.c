/* The X3.28 receiving station: an input is a list of units that one station is told of, and of wishes for
 * RINT. Beside the model, replies are compared with what was told since the opening, and not with the
 * words of the state. */
#include "fuzz.h"

#include <string.h>

enum { WORD = sizeof(uint64_t) };

/* One station, and what the units since it was opened say of it. */
typedef struct {
    memory state, buffer;
    memory text; /* of the message that is not yet complete */
    uint64_t appended;
    uint64_t last_reply, last_number; /* GMV_REPLY_NONE: no reply since the opening */
    int is_asked;                     /* for RINT, which was not yet given */
    int is_given;                     /* RINT, and no ACK since */
    int is_reached;                   /* by acts since an opening */
} history;

static uint64_t word_of(const history *h, size_t index)
{
    return count_words(&h->state) > index ? get_word(&h->state, index) : 0;
}

static uint64_t told(const call *c, size_t index) { return get_word(&c->result, index); }

static void forget(history *h)
{
    end_memory(&h->text);
    h->appended = 0;
    h->last_reply = GMV_REPLY_NONE;
    h->is_asked = 0;
    h->is_given = 0;
}

/* ---- Oracles on texts ---- */

/* The buffer's start holds the texts that were appended, and a complete message is all of them. */
static void compare_text(history *h, const call *c)
{
    int complete = told(c, GMV_STATION_COMPLETE) == 1;
    uint64_t reply = told(c, GMV_STATION_REPLY);
    int accepted = reply == GMV_REPLY_ACK || reply == GMV_REPLY_RINT;
    size_t length;

    if (accepted && c->number == (h->appended + 1) % 8) {
        oracle(reply == (h->is_asked ? GMV_REPLY_RINT : GMV_REPLY_ACK),
               "a block is answered RINT exactly where one was asked for");
        append(&h->text, c->content.bytes, c->content.length);
        h->appended++;
    }
    length = complete ? told(c, GMV_STATION_MESSAGE_LENGTH) : word_of(h, GMV_STATION_HELD);
    oracle(length == h->text.length, "the text held is what was appended");
    oracle(length == 0 || memcmp(h->buffer.bytes, h->text.bytes, length) == 0,
           "the buffer's start holds the texts in order");
    oracle(word_of(h, GMV_STATION_EXPECTED) == (h->appended + 1) % 8, "the next number is expected");
    if (complete)
        end_memory(&h->text);
}

static int same_first_words(const memory *a, const memory *b, size_t count)
{
    return memcmp(a->bytes, b->bytes, count * WORD) == 0;
}

/* A block that is not the expected one, judged by what was appended and not by the words of the state:
 * the newest one again (0 right after an opening, where there is none), or any other. */
static void compare_dropped(const history *h, const call *c, const history *before)
{
    uint64_t newest = h->appended % 8, reply = told(c, GMV_STATION_REPLY);
    uint64_t reply_number = told(c, GMV_STATION_REPLY_NUMBER);

    if (c->number == newest) {
        if (h->appended > 0)
            count_outcome(STATION_DUPLICATE, newest);
        oracle(reply == GMV_REPLY_ACK && reply_number == newest,
               "the newest block again is answered ACK");
    } else {
        oracle(reply == GMV_REPLY_NAK, "a block neither expected nor the newest is answered NAK");
    }
    oracle(told(c, GMV_STATION_COMPLETE) == 0, "a dropped block completes nothing");
    oracle(same_first_words(&before->state, &h->state, GMV_STATION_LAST_REPLY) &&
               same_memory(&before->buffer, &h->buffer),
           "a dropped block changes nothing but the last reply");
}

/* ---- Oracles on replies ---- */

/* A bare ENQ to an open station: the last reply again, and nothing else changes. */
static void compare_enquired(history *h, const call *c, const history *before)
{
    int was_none = h->last_reply == GMV_REPLY_NONE;
    uint64_t reply = was_none ? GMV_REPLY_NAK : h->last_reply;

    oracle(told(c, GMV_STATION_REPLY) == reply, "a bare ENQ is answered by the last reply");
    oracle(reply != GMV_REPLY_ACK || told(c, GMV_STATION_REPLY_NUMBER) == h->last_number,
           "the last ACK is given again with its number");
    oracle(was_none || same_memory(&before->state, &h->state), "a bare ENQ changes nothing");
    oracle(same_first_words(&before->state, &h->state, GMV_STATION_LAST_REPLY) &&
               get_word(&before->state, GMV_STATION_INTERRUPT) == word_of(h, GMV_STATION_INTERRUPT),
           "a bare ENQ changes nothing but the last reply");
    h->last_reply = reply;
}

static int may_ask(const history *h)
{
    return word_of(h, GMV_STATION_OPEN) == 1 && !h->is_asked && !h->is_given;
}

static void note_reply(history *h, const call *c)
{
    uint64_t reply = told(c, GMV_STATION_REPLY);

    if (reply == GMV_REPLY_NONE)
        return;
    h->last_reply = reply;
    h->last_number = told(c, GMV_STATION_REPLY_NUMBER);
    if (reply == GMV_REPLY_ACK)
        h->is_given = 0;
    if (reply == GMV_REPLY_RINT) {
        h->is_asked = 0;
        h->is_given = 1;
    }
}

/* An act on a station whose history is known. */
static void compare_reply(history *h, const call *c, const history *before)
{
    int is_open = get_word(&before->state, GMV_STATION_OPEN) == 1;

    if (c->function == call_station_bare_enq) {
        if (is_open)
            compare_enquired(h, c, before);
        return;
    }
    if (c->function == call_station_interrupt) {
        oracle(may_ask(h), "a RINT is asked for with none pending, and an ACK since the last");
        h->is_asked = 1;
    }
    if (is_open && (c->function == call_station_bad || c->function == call_station_enquiry))
        oracle(told(c, GMV_STATION_REPLY) == GMV_REPLY_NAK, "what is bad is answered NAK");
    note_reply(h, c);
}

static void compare_state(history *h, const call *c, const history *before)
{
    int closed = word_of(h, GMV_STATION_OPEN) == 0;

    oracle(told(c, GMV_STATION_REPLY) != GMV_REPLY_EOT || closed, "EOT closes");
    if (h->is_reached && !closed && c->function == call_station_block)
        compare_text(h, c);
    if (h->is_reached)
        compare_reply(h, c, before);
    if (c->function == call_station_open || closed)
        forget(h);
    if (c->function == call_station_open)
        h->is_reached = 1;
}

/* The acts leave a state, and the wish alone is refused in one. */
static void compare_refused(const history *h, const call *c, uint64_t number)
{
    if (!h->is_reached || number != GMV_STATE)
        return;
    oracle(c->function == call_station_interrupt, "what the acts leave is a state");
    oracle(!may_ask(h), "a RINT is refused with none pending, and an ACK since the last");
}

/* A block that an open station has to drop. */
static int is_dropped(const history *h, const call *c)
{
    return c->function == call_station_block && h->is_reached && word_of(h, GMV_STATION_OPEN) == 1 &&
           c->number != (h->appended + 1) % 8;
}

static void count_outcomes(const call *c)
{
    count_outcome(STATION_REPLY, told(c, GMV_STATION_REPLY));
    if (c->function == call_station_bare_enq)
        count_outcome(STATION_ENQUIRED, told(c, GMV_STATION_REPLY));
}

static void act(history *h, call *c, input *in)
{
    history before = {.state = new_copy(h->state.bytes, h->state.length),
                      .buffer = new_copy(h->buffer.bytes, h->buffer.length)};
    int dropped = is_dropped(h, c);
    uint64_t number;

    c->result = take_words(in, GMV_STATION_REPORT_WORDS);
    c->state = h->state;
    c->buffer = h->buffer;
    number = perform(c);
    if (number == GMV_OK) {
        count_outcomes(c);
        if (dropped)
            compare_dropped(h, c, &before);
        compare_state(h, c, &before);
    } else {
        oracle(same_memory(&before.state, &h->state), "a refused act leaves the state equal");
        compare_refused(h, c, number);
    }
    end_memory(&before.state);
    end_memory(&before.buffer);
    end_memory(&c->content);
    end_memory(&c->result);
}

/* The expected number, the one just before it, any of 0 to 7, or any at all. */
static uint64_t take_number(const history *h, uint8_t choice, input *in)
{
    uint64_t expected = word_of(h, GMV_STATION_EXPECTED);

    if (choice < 128)
        return expected;
    if (choice < 160)
        return (expected + 7) % 8;
    return choice < 224 ? choice % 8 : take_word(in);
}

static void act_block(history *h, input *in)
{
    uint8_t choice = take_byte(in);
    input text = take_part(in, take_byte(in) % 20);
    call c = {.function = call_station_block, .code = choice & 1 ? GMV_ETX : GMV_ETB};

    c.number = take_number(h, choice, in);
    if (choice % 32 == 30)
        c.code = take_word(in);
    c.content = text.length == 0 ? new_empty(in) : new_copy(text.bytes, text.length);
    act(h, &c, in);
}

static void act_other(history *h, input *in)
{
    static const enum function functions[] = {call_station_open,      call_station_bad,
                                              call_station_enquiry,   call_station_end,
                                              call_station_fresh,     call_station_bare_enq,
                                              call_station_interrupt, call_station_interrupt};
    call c = {.function = functions[take_below(in, 8)]};

    if (c.function != call_station_fresh) {
        act(h, &c, in);
        return;
    }
    c.state = h->state;
    if (perform(&c) == GMV_OK)
        forget(h);
}

/* Any words, most often such that a state is near. */
static void set_any_state(history *h, input *in)
{
    uint8_t choice = take_byte(in);
    uint64_t words[] = {take_below(in, 8) != 0, take_below(in, 9), take_below(in, 24),
                        take_below(in, 7), take_below(in, 4)};

    h->is_reached = 0;
    if (choice >= 128)
        words[choice % GMV_STATION_WORDS] = take_word(in);
    for (size_t i = 0; i < GMV_STATION_WORDS && i < count_words(&h->state); i++)
        set_word(&h->state, i, words[i]);
}

void fuzz_station(input *in)
{
    static void (*const acts[])(history *, input *) = {act_block, act_block, act_block, act_other,
                                                       act_other, act_other, act_other, set_any_state};
    size_t start, length = take_byte(in) % 48;
    history h = {.state = take_words(in, GMV_STATION_WORDS), .buffer = take_buffer(in, length, &start)};
    call open = {.function = call_station_open};

    act(&h, &open, in);
    for (int i = 0; i < 24 && has_more(in); i++)
        acts[take_below(in, 8)](&h, in);
    end_memory(&h.state);
    end_memory(&h.buffer);
    end_memory(&h.text);
}
