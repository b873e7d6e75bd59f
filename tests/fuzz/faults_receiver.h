/* The receiver's faults (faults.h). Each is a receiver that breaks one sentence of document 02, request 1,
 * or writes where it refuses. */
#ifndef FAULTS_RECEIVER_H
#define FAULTS_RECEIVER_H

/* The state before the call. */
typedef struct {
    uint64_t words[GMV_RECEIVER_WORDS];
} receiver_before;

static int is_report(const call *c)
{
    return c->function == call_hybrid_answer || c->function == call_minimal_answer;
}

static void restore_decision(call *c, const receiver_before *b)
{
    for (size_t i = GMV_RECEIVER_CODE; i < GMV_RECEIVER_WORDS; i++)
        set_word(&c->state, i, b->words[i]);
}

/* A decision that is refused, as one is open, writes its report all the same. */
static void break_reported(call *c, const receiver_before *b, uint64_t number)
{
    (void)b;
    if (c->function == call_receiver_decide && number == GMV_STATE)
        set_word(&c->result, GMV_DECISION_BLOCK, 0);
}

/* The answer is in the caller's hands though what it answers is not stored. */
static void break_leaking(call *c, const receiver_before *b, uint64_t number)
{
    call other = *c;
    uint64_t words[GMV_RECEIVER_WORDS], told[GMV_REPORT_WORDS];

    if (!is_report(c) || number != GMV_OK || c->code != GMV_NOT_STORED)
        return;
    memcpy(words, b->words, sizeof words);
    other.code = GMV_STORED;
    other.state.bytes = (uint8_t *)words;
    other.state.length = sizeof words;
    other.result.bytes = (uint8_t *)told;
    other.result.length = sizeof told;
    invoke(&other);
}

/* A failure leaves the new number expected. */
static void break_advancing(call *c, const receiver_before *b, uint64_t number)
{
    if (is_report(c) && number == GMV_OK && c->code == GMV_NOT_STORED)
        set_word(&c->state, GMV_RECEIVER_EXPECTED, b->words[GMV_RECEIVER_NEW_EXPECTED]);
}

/* The decision is still open after its report: its answer can be had twice. */
static void break_lasting(call *c, const receiver_before *b, uint64_t number)
{
    if (is_report(c) && number == GMV_OK && c->code == GMV_STORED)
        restore_decision(c, b);
}

/* A block that is dropped or refused changes the words of the state. */
static void break_dropping(call *c, const receiver_before *b, uint64_t number)
{
    if (c->function != call_receiver_decide || number != GMV_OK || get_word(&c->result, GMV_DECISION_OPENED) == 1)
        return;
    set_word(&c->state, GMV_RECEIVER_NUMBER, b->words[GMV_RECEIVER_NUMBER] + 1);
}

/* The answer carries another control ID than that of the block. */
static void mistake_id(call *c)
{
    uint64_t id = get_word(&c->state, GMV_RECEIVER_CONTROL_ID);

    if (is_report(c) && c->code == GMV_STORED)
        set_word(&c->state, GMV_RECEIVER_CONTROL_ID, id ^ 1);
}

/* Words are taken for a decision of the table that are none. */
static void tolerate_words(call *c)
{
    uint64_t transaction = get_word(&c->state, GMV_RECEIVER_TRANSACTION);

    if (is_report(c) && transaction != 0)
        set_word(&c->state, GMV_RECEIVER_NEW_EXPECTED, transaction + 1);
}

/* Whether a call is one that hides the open decision: an N reply, or the dropping of an N block, whose
 * report then stands where that of the decision stood. */
static int hides_decision(const call *c)
{
    const int is_n_block = c->function == call_receiver_decide && c->block_type == GMV_NAK_BLOCK;

    return (c->function == call_hybrid_nak && is_planted("hasty")) || (is_n_block && is_planted("overwriting"));
}

static void break_receiver(call *c, const receiver_before *b, uint64_t number)
{
    static const struct {
        const char *name;
        void (*break_act)(call *, const receiver_before *, uint64_t);
    } faults[] = {{"reported", break_reported}, {"leaking", break_leaking}, {"advancing", break_advancing},
                  {"lasting", break_lasting}, {"dropping", break_dropping}};

    for (size_t i = 0; i < sizeof faults / sizeof faults[0]; i++)
        if (is_planted(faults[i].name))
            faults[i].break_act(c, b, number);
}

static uint64_t invoke_receiver_library(call *c)
{
    const int is_whole = count_words(&c->state) >= GMV_RECEIVER_WORDS;
    receiver_before b = {{0}};
    uint64_t number;

    for (size_t i = 0; i < GMV_RECEIVER_WORDS && is_whole; i++)
        b.words[i] = get_word(&c->state, i);
    if (is_whole && is_planted("mistaken"))
        mistake_id(c);
    if (is_whole && is_planted("tolerant"))
        tolerate_words(c);
    if (is_whole && hides_decision(c))
        set_word(&c->state, GMV_RECEIVER_CODE, 0);
    number = invoke(c);
    /* what was changed before a call that leaves the state is as it was */
    if (is_whole && (hides_decision(c) || (is_report(c) && number != GMV_OK)))
        restore_decision(c, &b);
    if (is_whole)
        break_receiver(c, &b, number);
    return number;
}

#endif
