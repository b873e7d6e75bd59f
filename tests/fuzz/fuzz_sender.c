/* The sender: an input is a list of acts on one sender, with crashes of its host between them. */
#include "fuzz.h"

#include <string.h>

enum { WORD = sizeof(uint64_t) };

/* One sender, and what its reports have said so far. */
typedef struct {
    memory state;
    uint64_t resends;
    uint64_t sends; /* named since what waits began to wait */
    int is_reached; /* the state was reached by acts, with one resends: the counts hold */
} history;

static uint64_t word_of(const history *h, size_t index)
{
    return count_words(&h->state) > index ? get_word(&h->state, index) : 0;
}

/* ---- Oracles on what acts leave ---- */

static int is_waiting(uint64_t waiting) { return waiting >= GMV_WAITING_RESYNCHRONIZE; }

/* The sends reported are those that were named, and are at most resends + 1. */
static void compare_sends(history *h, const call *c, int began)
{
    uint64_t waiting = word_of(h, GMV_SENDER_WAITING), sends = get_word(&c->result, GMV_ACT_SENDS);
    uint64_t event = get_word(&c->result, GMV_ACT_EVENT), send = get_word(&c->result, GMV_ACT_SEND);

    if (began)
        h->sends = 0;
    h->sends += send != GMV_SEND_NOTHING;
    if (is_waiting(waiting) || event == GMV_EVENT_ABANDONED)
        oracle(sends == h->sends, "the sends reported are those that were named");
    else
        oracle(sends == 0, "with nothing waiting there are no sends");
    oracle(sends <= h->resends + 1, "sends are at most resends + 1");
    oracle(event != GMV_EVENT_ABANDONED || sends == h->resends + 1, "given up when all sends are spent");
}

/* The order of the numbers, and which may change. */
static void compare_numbers(const history *h, const memory *before, const call *c)
{
    uint64_t old_delivered = get_word(before, GMV_SENDER_DELIVERED);
    uint64_t delivered = word_of(h, GMV_SENDER_DELIVERED), last = word_of(h, GMV_SENDER_LAST);

    oracle(get_word(before, GMV_SENDER_FIRST) == word_of(h, GMV_SENDER_FIRST), "first stays");
    oracle(delivered <= last, "what is delivered was submitted");
    oracle(delivered == old_delivered + (get_word(&c->result, GMV_ACT_EVENT) == GMV_EVENT_DELIVERED),
           "each delivery is reported, and is of the next number");
    oracle(last == get_word(before, GMV_SENDER_LAST) + (c->function == call_sender_submit),
           "submitting alone takes a number");
    if (get_word(&c->result, GMV_ACT_SEND) == GMV_SEND_TRANSACTION)
        oracle(get_word(&c->result, GMV_ACT_SEND_NUMBER) == delivered + 1,
               "the transaction after what is delivered is sent");
}

/* A valid state is one again: told of to an act that applies to every open or closed sender. */
static void stays_a_state(const history *h)
{
    int is_open = word_of(h, GMV_SENDER_WAITING) != GMV_WAITING_CLOSED;
    int is_frozen = word_of(h, GMV_SENDER_FROZEN) == 1;
    call c = {.function = is_open ? call_sender_ended : is_frozen ? call_sender_reset : call_sender_open,
              .state = new_copy(h->state.bytes, h->state.length), .result = new_memory(GMV_ACT_WORDS * WORD)};

    oracle(perform(&c) == GMV_OK, "an act leaves a state");
    end_call(&c);
}

/* Performs an act on the history's sender. */
static void act(history *h, call *c, input *in)
{
    memory before = new_copy(h->state.bytes, h->state.length);
    uint64_t number, waiting;
    int began;

    c->result = take_words(in, GMV_ACT_WORDS);
    c->state = h->state;
    number = perform(c);
    h->state = c->state;
    if (number == GMV_OK) {
        waiting = word_of(h, GMV_SENDER_WAITING);
        began = waiting != get_word(&before, GMV_SENDER_WAITING) ||
                word_of(h, GMV_SENDER_DELIVERED) != get_word(&before, GMV_SENDER_DELIVERED);
        began = began && get_word(&c->result, GMV_ACT_EVENT) != GMV_EVENT_ABANDONED;
        count_outcome(SENDER_EVENT, get_word(&c->result, GMV_ACT_EVENT));
        count_outcome(SENDER_SEND, get_word(&c->result, GMV_ACT_SEND));
        compare_numbers(h, &before, c);
        stays_a_state(h);
        if (h->is_reached)
            compare_sends(h, c, began);
    } else {
        oracle(same_memory(&h->state, &before), "a refused act leaves the state equal");
    }
    end_memory(&before);
    c->state.bytes = NULL;
    c->state.length = 0;
    end_call(c);
}

/* ---- The acts ---- */

static void act_submit(history *h, input *in)
{
    uint8_t choice = take_byte(in);
    uint64_t next = word_of(h, GMV_SENDER_LAST) + 1;
    call c = {.function = call_sender_submit, .link = {0, 0, 0, LEAST_LINK_LIMIT}};

    if (choice >= 240)
        c.link.data_limit = take_word(in);
    c.content = choice == 239 ? new_empty(in)
                              : take_message(in, choice < 208 ? next : next - 2 + choice % 4);
    act(h, &c, in);
}

static void act_circuit(history *h, input *in)
{
    static const enum function functions[] = {call_sender_open, call_sender_open, call_sender_ended,
                                              call_sender_reset};
    call c = {.function = functions[take_below(in, 4)]};

    act(h, &c, in);
}

static uint64_t take_resends(history *h, input *in)
{
    if (take_byte(in) < 240)
        return h->resends;
    h->is_reached = 0;
    return take_word(in);
}

static void act_timer(history *h, input *in)
{
    call c = {.function = call_sender_timer};

    c.number = take_resends(h, in);
    act(h, &c, in);
}

static void act_refused(history *h, input *in)
{
    uint8_t choice = take_byte(in);
    call c = {.function = call_sender_block, .block_type = choice & 1 ? GMV_NAK_BLOCK : GMV_DATA_BLOCK};

    c.number = take_resends(h, in);
    c.block_number = choice < 96 ? 0 : choice < 240 ? 3u + choice % 6u : take_word(in);
    c.content = choice & 2 ? take_any_message(in) : new_empty(in);
    act(h, &c, in);
}

/* An answer, most often to what waits and with a number near it. */
static void act_answer(history *h, input *in)
{
    static const uint64_t ids[] = {0, 0, GMV_MINUS_ONE, 0};
    uint64_t waiting = word_of(h, GMV_SENDER_WAITING), next = word_of(h, GMV_SENDER_DELIVERED) + 1;
    uint64_t id = waiting >= GMV_WAITING_TRANSACTION ? next : ids[waiting];
    uint8_t choice = take_byte(in);
    uint64_t code = choice % 16 < 10 ? (uint64_t)GMV_CODE_AA : choice % 4;
    uint64_t number = choice < 64 ? GMV_MINUS_ONE : choice < 208 ? next + choice / 16 % 3 : take_word(in);
    call c = {.function = call_sender_block, .block_type = GMV_DATA_BLOCK};

    if (choice % 32 == 31)
        id = take_word(in);
    if (waiting == GMV_WAITING_TRANSACTION && choice < 64)
        number = next;
    c.number = take_resends(h, in);
    c.content = take_answer(in, id, code, number);
    act(h, &c, in);
}

/* The host crashes: what is persisted is restored, and no circuit is open. */
static void crash(history *h, input *in)
{
    (void)in;
    for (size_t i = GMV_SENDER_PERSISTED_WORDS; i < GMV_SENDER_WORDS && i < count_words(&h->state); i++)
        set_word(&h->state, i, 0);
}

/* Any words, most often such that a state is near. */
static void set_any_state(history *h, input *in)
{
    uint64_t first = take_word(in), delivered = first - 1 + take_below(in, 4);
    uint64_t words[] = {first, delivered, delivered + take_below(in, 4), take_below(in, 3) != 0,
                        take_below(in, 8) == 1, take_below(in, 5), take_byte(in) % 103};
    uint8_t choice = take_byte(in);

    h->is_reached = 0;
    if (words[GMV_SENDER_WAITING] < GMV_WAITING_RESYNCHRONIZE && choice % 16 != 1)
        words[GMV_SENDER_SENDS] = 0;
    if (choice >= 224)
        words[choice % GMV_SENDER_WORDS] = take_word(in);
    for (size_t i = 0; i < GMV_SENDER_WORDS && i < count_words(&h->state); i++)
        set_word(&h->state, i, words[i]);
}

static void begin(history *h, input *in)
{
    uint8_t choice = take_byte(in);
    call c = {.function = call_sender_fresh, .number = 1u + choice % 16u};

    if (choice >= 128) /* often near the last number */
        c.number = choice < 176 ? GREATEST_SENT - choice % 3 : take_word(in);
    h->state = take_words(in, GMV_SENDER_WORDS);
    h->resends = choice % 4 == 3 ? take_below(in, 100) : choice % 4;
    h->sends = 0;
    c.state = h->state;
    h->is_reached = perform(&c) == GMV_OK;
    if (!h->is_reached || choice % 16 == 5)
        set_any_state(h, in);
}

void fuzz_sender(input *in)
{
    static void (*const acts[])(history *, input *) = {act_submit, act_circuit, act_answer, act_answer,
                                                       act_timer, act_refused, crash};
    history h;

    begin(&h, in);
    for (int i = 0; i < 24 && has_more(in); i++)
        acts[take_below(in, 7)](&h, in);
    end_memory(&h.state);
}
