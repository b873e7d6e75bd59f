/* The X3.28 sending station: an input is a list of acts on one master. Beside the model, each report is
 * compared with what the acts since the opening say, and not with the words of the state. */
#include "fuzz.h"

#include <string.h>

enum { WORD = sizeof(uint64_t), MOST_SENDS = 6 };

/* One master, and what the acts and reports since it was opened say of it. */
typedef struct {
    memory state;
    int is_reached; /* by acts since an opening, or since it was fresh */
    int is_open, is_out;
    uint64_t acknowledged;                       /* blocks, since the opening */
    uint64_t message_length, block_size, parts_end; /* where the parts that were sent end */
    uint64_t sends;                              /* of the block out */
    uint64_t block[GMV_MASTER_REPORT_ACKNOWLEDGED]; /* the words that first named it */
    uint64_t last_reply;                         /* undamaged, since the opening */
    int is_interrupted;                          /* a RINT came */
    int is_enquired;                             /* what was sent last is ENQ */
    int may_receive;                             /* the driver said so, and a block was out */
} history;

/* What an act is, by the history. */
enum meaning { NOTHING, CAUSE, ACCEPTANCE, EOT_CAME };

static uint64_t word_of(const history *h, size_t index)
{
    return count_words(&h->state) > index ? get_word(&h->state, index) : 0;
}

static uint64_t told(const call *c, size_t index) { return get_word(&c->result, index); }

/* ---- Oracles on what acts leave ---- */

/* A RINT that may be an old one again. */
static int is_doubtful(const history *h)
{
    return h->last_reply == GMV_REPLY_RINT || (h->last_reply == GMV_REPLY_NAK && h->is_enquired);
}

static enum meaning meaning_of(const history *h, const call *c)
{
    if (!h->is_open)
        return NOTHING;
    if (c->function == call_master_reply && c->code == GMV_REPLY_EOT)
        return EOT_CAME;
    if (!h->is_out || c->code == GMV_REPLY_DAMAGED)
        return NOTHING;
    if (c->function == call_master_timer || c->code == GMV_REPLY_NAK)
        return CAUSE;
    if (c->code == GMV_REPLY_RINT)
        return is_doubtful(h) ? CAUSE : ACCEPTANCE;
    if (c->number == (h->acknowledged + 1) % 8)
        return ACCEPTANCE;
    return c->number == h->acknowledged % 8 ? CAUSE : NOTHING;
}

/* The parts that are sent first join to the message, and their numbers go on over the opening. */
static void compare_first_send(history *h, const call *c)
{
    uint64_t length = told(c, GMV_MASTER_REPORT_LENGTH), ending = told(c, GMV_MASTER_REPORT_ENDING);
    int is_last;

    oracle(told(c, GMV_MASTER_REPORT_SEND) == GMV_MASTER_SEND_BLOCK, "the next block is sent");
    oracle(told(c, GMV_MASTER_REPORT_NUMBER) == (h->acknowledged + 1) % 8,
           "the numbers go on over the opening");
    oracle(told(c, GMV_MASTER_REPORT_OFFSET) == h->parts_end, "a part begins where the last one ended");
    oracle(length <= h->message_length - h->parts_end, "a part is inside the message");
    h->parts_end += length;
    is_last = h->parts_end == h->message_length;
    oracle(length == h->block_size || (length < h->block_size && is_last),
           "a part has the block size, and only the last is shorter");
    oracle(ending == (is_last ? GMV_ETX : GMV_ETB), "ETX ends the last block, ETB all others");
    h->is_out = 1;
    h->is_enquired = 0;
    h->sends = 1;
    memcpy(h->block, c->result.bytes, sizeof h->block);
}

/* No block is out from now on. */
static void leave(history *h, int is_open)
{
    h->is_open = is_open;
    h->is_out = 0;
    h->is_enquired = 0;
    h->may_receive = 0;
    if (!is_open) {
        h->last_reply = GMV_REPLY_NONE;
        h->is_interrupted = 0;
    }
}

static void compare_reversal(history *h, const call *c)
{
    oracle(told(c, GMV_MASTER_REPORT_SEND) == GMV_MASTER_SEND_EOT &&
               told(c, GMV_MASTER_REPORT_END) == GMV_MASTER_END_REVERSED,
           "where the driver may receive and no block is out, EOT is sent and the opening reversed");
    leave(h, 0);
}

static void compare_acceptance(history *h, const call *c)
{
    int was_last = h->parts_end == h->message_length;

    h->acknowledged++;
    oracle(told(c, GMV_MASTER_REPORT_ACKNOWLEDGED) == 1, "an acceptance acknowledges the block out");
    oracle(told(c, GMV_MASTER_REPORT_DONE) == (uint64_t)was_last,
           "a message is done when its last part is acknowledged");
    if (h->may_receive) {
        compare_reversal(h, c);
        return;
    }
    if (!was_last) {
        compare_first_send(h, c);
        return;
    }
    oracle(told(c, GMV_MASTER_REPORT_SEND) == GMV_MASTER_SEND_NOTHING, "after the last part nothing is sent");
    leave(h, 1);
}

/* A cause to send again: the same block, at most six times, and then EOT. */
static void compare_cause(history *h, const call *c)
{
    if (told(c, GMV_MASTER_REPORT_SEND) == GMV_MASTER_SEND_BLOCK) {
        h->sends++;
        h->is_enquired = 0;
        oracle(h->sends <= MOST_SENDS, "a block is sent at most six times");
        oracle(memcmp(h->block, c->result.bytes, sizeof h->block) == 0,
               "what is sent again is the block out");
        return;
    }
    oracle(h->sends == MOST_SENDS, "an opening fails after six sends and not before");
    oracle(told(c, GMV_MASTER_REPORT_SEND) == GMV_MASTER_SEND_EOT &&
               told(c, GMV_MASTER_REPORT_END) == GMV_MASTER_END_FAILED,
           "a block that was sent six times brings EOT and failure");
    leave(h, 0);
}

/* The words but those that note the replies are as they were. */
static int same_but_noted(const memory *before, const memory *after)
{
    for (size_t i = 0; i < GMV_MASTER_WORDS; i++)
        if (i != GMV_MASTER_LAST_REPLY && i != GMV_MASTER_INTERRUPTED &&
            get_word(before, i) != get_word(after, i))
            return 0;
    return 1;
}

/* While the master is open, each undamaged reply is noted. */
static void note_reply(history *h, const call *c)
{
    if (!h->is_open || c->function != call_master_reply || c->code == GMV_REPLY_DAMAGED ||
        c->code == GMV_REPLY_EOT)
        return;
    h->last_reply = c->code;
    if (c->code == GMV_REPLY_RINT)
        h->is_interrupted = 1;
}

static void compare_reply(history *h, const call *c, const memory *before)
{
    enum meaning meaning = meaning_of(h, c);

    note_reply(h, c);
    oracle(meaning == ACCEPTANCE || told(c, GMV_MASTER_REPORT_ACKNOWLEDGED) == 0,
           "nothing but an acceptance acknowledges the block out");
    if (meaning == ACCEPTANCE)
        compare_acceptance(h, c);
    else if (meaning == CAUSE)
        compare_cause(h, c);
    else
        oracle(told(c, GMV_MASTER_REPORT_SEND) == GMV_MASTER_SEND_NOTHING, "there is no cause to send");
    if (meaning == NOTHING)
        oracle(same_but_noted(before, &h->state), "what means nothing changes nothing but what is noted");
    if (meaning == EOT_CAME) {
        oracle(told(c, GMV_MASTER_REPORT_END) == GMV_MASTER_END_BY_SLAVE, "EOT ends the opening");
        leave(h, 0);
    }
}

static void compare_enquiry(history *h, const call *c)
{
    oracle(told(c, GMV_MASTER_REPORT_SEND) == GMV_MASTER_SEND_ENQ &&
               told(c, GMV_MASTER_REPORT_END) == GMV_MASTER_END_NONE,
           "an enquiry sends ENQ");
    h->is_enquired = 1;
}

/* The driver may receive: with a block out it ends later. */
static void compare_leave(history *h, const call *c)
{
    if (!h->is_out) {
        compare_reversal(h, c);
        return;
    }
    oracle(told(c, GMV_MASTER_REPORT_SEND) == GMV_MASTER_SEND_NOTHING &&
               told(c, GMV_MASTER_REPORT_END) == GMV_MASTER_END_NONE,
           "with a block out the leave sends and ends nothing");
    h->may_receive = 1;
}

/* Does the act of the driver apply? */
static int applies(const history *h, const call *c)
{
    switch (c->function) {
    case call_master_start:
    case call_master_close:
        return h->is_open && !h->is_out;
    case call_master_enquire:
        return h->is_open && h->is_out;
    case call_master_may_receive:
        return h->is_open && h->is_interrupted;
    default:
        return 1;
    }
}

static void compare_opened(history *h)
{
    leave(h, 0);
    h->is_open = 1;
    h->is_reached = 1;
    h->acknowledged = 0;
}

static void compare_driver(history *h, const call *c)
{
    oracle(applies(h, c), "an act that does not apply is refused");
    if (c->function == call_master_open) {
        compare_opened(h);
    } else if (c->function == call_master_start) {
        h->message_length = c->number;
        h->block_size = c->code;
        h->parts_end = 0;
        compare_first_send(h, c);
    } else if (c->function == call_master_enquire) {
        compare_enquiry(h, c);
    } else if (c->function == call_master_may_receive) {
        compare_leave(h, c);
    } else {
        oracle(told(c, GMV_MASTER_REPORT_SEND) == GMV_MASTER_SEND_EOT &&
                   told(c, GMV_MASTER_REPORT_END) == GMV_MASTER_END_BY_DRIVER,
               "closing sends EOT");
        leave(h, 0);
    }
}

static void compare_done(history *h, const call *c, const memory *before)
{
    if (c->function == call_master_reply || c->function == call_master_timer)
        compare_reply(h, c, before);
    else
        compare_driver(h, c);
    oracle(told(c, GMV_MASTER_REPORT_COUNT) == h->acknowledged &&
               word_of(h, GMV_MASTER_COUNT) == h->acknowledged,
           "the count is that of the blocks acknowledged");
    oracle(told(c, GMV_MASTER_REPORT_RESENDS) == (h->is_out ? h->sends - 1 : 0),
           "the resends told are those that were made");
    oracle(word_of(h, GMV_MASTER_LAST_REPLY) == h->last_reply &&
               word_of(h, GMV_MASTER_INTERRUPTED) == (uint64_t)h->is_interrupted,
           "the words note the last reply, and whether a RINT came");
    oracle((told(c, GMV_MASTER_REPORT_END) == GMV_MASTER_END_NONE) ==
               (h->is_open || word_of(h, GMV_MASTER_PHASE) == get_word(before, GMV_MASTER_PHASE)),
           "an end is told once");
}

static void compare_refused(const history *h, const call *c, uint64_t number, const memory *before)
{
    oracle(same_memory(before, &h->state), "a refused act leaves the state equal");
    if (h->is_reached && number == GMV_STATE)
        oracle(!applies(h, c), "what the acts leave is a state, and an act that applies is not refused");
}

/* ---- The acts ---- */

/* What became of a RINT: 0 nothing, 1 it is an acceptance, 2 and the opening is reversed, 3 it is refused. */
static uint64_t fate_of_rint(const call *c)
{
    if (told(c, GMV_MASTER_REPORT_ACKNOWLEDGED) == 0)
        return told(c, GMV_MASTER_REPORT_SEND) == GMV_MASTER_SEND_NOTHING ? 0 : 3;
    return told(c, GMV_MASTER_REPORT_END) == GMV_MASTER_END_REVERSED ? 2 : 1;
}

static void count_outcomes(const call *c)
{
    if (c->function == call_master_reply && c->code == GMV_REPLY_RINT)
        count_outcome(MASTER_RINT, fate_of_rint(c));
    count_outcome(MASTER_SEND, told(c, GMV_MASTER_REPORT_SEND));
    count_outcome(MASTER_END, told(c, GMV_MASTER_REPORT_END));
    if (told(c, GMV_MASTER_REPORT_SEND) != GMV_MASTER_SEND_BLOCK)
        return;
    count_outcome(MASTER_NUMBER, told(c, GMV_MASTER_REPORT_NUMBER));
    count_outcome(MASTER_RESENDS, told(c, GMV_MASTER_REPORT_RESENDS));
}

static void act(history *h, call *c, input *in)
{
    memory before = new_copy(h->state.bytes, h->state.length);
    uint64_t number;

    c->result = take_words(in, GMV_MASTER_REPORT_WORDS);
    c->state = h->state;
    number = perform(c);
    if (number != GMV_OK) {
        compare_refused(h, c, number, &before);
    } else {
        count_outcomes(c);
        if (h->is_reached || c->function == call_master_open)
            compare_done(h, c, &before);
    }
    end_memory(&before);
    end_memory(&c->result);
}

/* An ACK with the number of the block out, with the one just before, another, or one whose lowest bits
 * alone are right; or any other reply. */
static void act_reply(history *h, input *in)
{
    uint8_t choice = take_byte(in);
    uint64_t count = word_of(h, GMV_MASTER_COUNT) % 8;
    call c = {.function = call_master_reply, .code = GMV_REPLY_ACK, .number = (count + 1) % 8};

    if (choice >= 72 && choice < 112)
        c.code = GMV_REPLY_RINT;
    else if (choice >= 112 && choice < 144)
        c.number = count;
    else if (choice >= 144 && choice < 160)
        c.number = choice % 8;
    else if (choice >= 160 && choice < 168)
        c.number += UINT64_C(8) << take_below(in, 61);
    else if (choice >= 168 && choice < 176)
        c.number = take_word(in);
    else if (choice >= 176 && choice < 224)
        c.code = GMV_REPLY_NAK;
    else if (choice >= 224 && choice < 240)
        c.code = GMV_REPLY_DAMAGED;
    else if (choice >= 240 && choice < 248)
        c.code = GMV_REPLY_EOT;
    else if (choice >= 248)
        c.code = take_word(in);
    act(h, &c, in);
}

static void act_timer(history *h, input *in)
{
    call c = {.function = call_master_timer};

    act(h, &c, in);
}

/* An enquiry, or the leave to receive. */
static void act_turn(history *h, input *in)
{
    call c = {.function = take_byte(in) % 4 < 3 ? call_master_enquire : call_master_may_receive};

    act(h, &c, in);
}

/* Most often a few blocks with or without a rest; seldom any length and size. */
static void act_start(history *h, input *in)
{
    uint8_t choice = take_byte(in);
    call c = {.function = call_master_start, .number = choice % 24, .code = 1 + take_below(in, 8)};

    if (choice >= 208)
        c.number = take_word(in);
    if (choice >= 232)
        c.code = take_word(in);
    act(h, &c, in);
}

static void act_other(history *h, input *in)
{
    static const enum function functions[] = {call_master_open, call_master_close, call_master_close,
                                              call_master_fresh};
    call c = {.function = functions[take_below(in, 4)]};

    if (c.function != call_master_fresh) {
        act(h, &c, in);
        return;
    }
    c.state = h->state;
    if (perform(&c) != GMV_OK)
        return;
    leave(h, 0);
    h->is_reached = 1;
    h->acknowledged = 0;
}

/* Any words, most often such that a state is near. */
static void set_any_state(history *h, input *in)
{
    uint8_t choice = take_byte(in);
    uint64_t words[] = {take_below(in, 4), take_below(in, 24), take_below(in, 6), take_below(in, 24),
                        take_below(in, 7), take_word(in),      take_below(in, 7), take_below(in, 8) < 7,
                        take_below(in, 8) < 4, take_below(in, 8) < 3};

    h->is_reached = 0;
    if (choice < 96) {
        words[GMV_MASTER_PHASE] = GMV_MASTER_WAITING;
    } else if (choice < 128) {
        memset(&words[GMV_MASTER_MESSAGE_LENGTH], 0, 4 * WORD);
        memset(&words[GMV_MASTER_ENQUIRED], 0, 2 * WORD);
    }
    if (choice >= 192 || choice % 8 == 0)
        words[choice % GMV_MASTER_WORDS] = take_word(in);
    for (size_t i = 0; i < GMV_MASTER_WORDS && i < count_words(&h->state); i++)
        set_word(&h->state, i, words[i]);
}

void fuzz_master(input *in)
{
    static void (*const acts[])(history *, input *) = {act_reply, act_reply, act_reply, act_timer,
                                                       act_start, act_start, act_turn,  act_turn,
                                                       act_other, set_any_state};
    history h = {.state = take_words(in, GMV_MASTER_WORDS)};
    call open = {.function = call_master_open};

    act(&h, &open, in);
    for (int i = 0; i < 40 && has_more(in); i++)
        acts[take_below(in, 10)](&h, in);
    end_memory(&h.state);
}
