/* The master's faults (faults.h). Each is a master that breaks one sentence of document 02, request 3 or
 * 14. */
#ifndef FAULTS_MASTER_H
#define FAULTS_MASTER_H

/* The state before the call. */
typedef struct {
    uint64_t words[GMV_MASTER_WORDS];
    int is_waiting;
} master_before;

static uint64_t told_by_master(const call *c, size_t index) { return get_word(&c->result, index); }

static void set_both(call *c, size_t of_state, size_t of_report, uint64_t word)
{
    set_word(&c->state, of_state, word);
    set_word(&c->result, of_report, word);
}

static void set_words(memory *m, size_t count, uint64_t word)
{
    for (size_t i = 0; i < count; i++)
        set_word(m, i, word);
}

/* As after six sends: EOT, and closed. */
static void fail_master(call *c)
{
    uint64_t count = get_word(&c->state, GMV_MASTER_COUNT);

    set_words(&c->state, GMV_MASTER_WORDS, 0);
    set_words(&c->result, GMV_MASTER_REPORT_WORDS, 0);
    set_both(c, GMV_MASTER_COUNT, GMV_MASTER_REPORT_COUNT, count);
    set_word(&c->result, GMV_MASTER_REPORT_SEND, GMV_MASTER_SEND_EOT);
    set_word(&c->result, GMV_MASTER_REPORT_END, GMV_MASTER_END_FAILED);
}

static int is_resend(const call *c)
{
    return told_by_master(c, GMV_MASTER_REPORT_SEND) == GMV_MASTER_SEND_BLOCK &&
           told_by_master(c, GMV_MASTER_REPORT_RESENDS) > 0;
}

/* A resend is not counted. */
static void break_uncounted(call *c, const master_before *b)
{
    if (is_resend(c))
        set_both(c, GMV_MASTER_RESENDS, GMV_MASTER_REPORT_RESENDS, b->words[GMV_MASTER_RESENDS]);
}

/* Four resends, and then failure. */
static void break_early(call *c, const master_before *b)
{
    (void)b;
    if (is_resend(c) && told_by_master(c, GMV_MASTER_REPORT_RESENDS) == 5)
        fail_master(c);
}

/* The count stays as it was. */
static void break_unraised(call *c, const master_before *b)
{
    if (told_by_master(c, GMV_MASTER_REPORT_ACKNOWLEDGED) == 1)
        set_both(c, GMV_MASTER_COUNT, GMV_MASTER_REPORT_COUNT, b->words[GMV_MASTER_COUNT]);
}

/* The last block ends with ETB. */
static void break_ending(call *c, const master_before *b)
{
    (void)b;
    if (told_by_master(c, GMV_MASTER_REPORT_ENDING) == GMV_ETX)
        set_word(&c->result, GMV_MASTER_REPORT_ENDING, GMV_ETB);
}

/* EOT counts as an ACK of the block out. */
static void break_eot(call *c, const master_before *b)
{
    if (told_by_master(c, GMV_MASTER_REPORT_END) != GMV_MASTER_END_BY_SLAVE || !b->is_waiting)
        return;
    set_word(&c->result, GMV_MASTER_REPORT_ACKNOWLEDGED, 1);
    set_both(c, GMV_MASTER_COUNT, GMV_MASTER_REPORT_COUNT, b->words[GMV_MASTER_COUNT] + 1);
}

/* Six resends, and then failure: what the library counts as five is the sixth where the words say so. */
static uint64_t invoke_late(call *c, const master_before *b)
{
    const uint64_t resends = b->words[GMV_MASTER_RESENDS];
    const int is_sixth = b->is_waiting && resends == 6;
    call as_before = *c;
    uint64_t number;

    if (is_sixth)
        set_word(&c->state, GMV_MASTER_RESENDS, 5);
    number = invoke(c);
    if (number == GMV_OK && b->is_waiting && resends == 5 &&
        told_by_master(c, GMV_MASTER_REPORT_END) == GMV_MASTER_END_FAILED) {
        for (size_t i = 0; i < GMV_MASTER_WORDS; i++)
            set_word(&c->state, i, b->words[i]);
        set_word(&c->state, GMV_MASTER_RESENDS, 4);
        as_before.function = call_master_timer; /* names the block again */
        invoke(&as_before);
        set_both(c, GMV_MASTER_RESENDS, GMV_MASTER_REPORT_RESENDS, 6);
    } else if (is_sixth && get_word(&c->state, GMV_MASTER_RESENDS) == 5) {
        set_word(&c->state, GMV_MASTER_RESENDS, 6);
        if (number == GMV_OK)
            set_word(&c->result, GMV_MASTER_REPORT_RESENDS, 6);
    }
    return number;
}

/* The number of a block where numbers begin anew with each message. */
static uint64_t number_in_message(uint64_t offset, uint64_t block_size)
{
    return (offset / block_size + 1) % 8;
}

static uint64_t invoke_restart(call *c, const master_before *b)
{
    const uint64_t given = c->number, count = b->words[GMV_MASTER_COUNT] % 8;
    uint64_t number, own;

    if (c->function == call_master_reply && b->is_waiting && b->words[GMV_MASTER_BLOCK_SIZE] > 0) {
        own = number_in_message(b->words[GMV_MASTER_OFFSET], b->words[GMV_MASTER_BLOCK_SIZE]);
        c->number = given == own ? (count + 1) % 8 : given == (own + 7) % 8 ? count : 8;
    }
    number = invoke(c);
    c->number = given;
    if (number == GMV_OK && told_by_master(c, GMV_MASTER_REPORT_SEND) == GMV_MASTER_SEND_BLOCK)
        set_word(&c->result, GMV_MASTER_REPORT_NUMBER,
                 number_in_message(get_word(&c->state, GMV_MASTER_OFFSET),
                                   get_word(&c->state, GMV_MASTER_BLOCK_SIZE)));
    return number;
}

/* The ACK with the number just before is taken for that of the block out. */
static uint64_t invoke_before(call *c, const master_before *b)
{
    const uint64_t given = c->number, count = b->words[GMV_MASTER_COUNT] % 8;
    uint64_t number;

    if (c->function == call_master_reply && b->is_waiting && given == count)
        c->number = (count + 1) % 8;
    number = invoke(c);
    c->number = given;
    return number;
}

/* A damaged reply is taken for a NAK, as appendix C.3.6.2 has it. */
static uint64_t invoke_damaged(call *c)
{
    const uint64_t given = c->code;
    uint64_t number;

    if (c->function == call_master_reply && given == GMV_REPLY_DAMAGED)
        c->code = GMV_REPLY_NAK;
    number = invoke(c);
    c->code = given;
    return number;
}

/* ---- request 14 */

/* A RINT after a RINT is taken. */
static uint64_t invoke_twice(call *c, const master_before *b)
{
    const int is_doubtful = b->is_waiting && b->words[GMV_MASTER_LAST_REPLY] == GMV_REPLY_RINT &&
                            c->function == call_master_reply && c->code == GMV_REPLY_RINT;
    uint64_t number;

    if (is_doubtful)
        set_word(&c->state, GMV_MASTER_LAST_REPLY, GMV_REPLY_ACK);
    number = invoke(c);
    if (is_doubtful && number != GMV_OK)
        set_word(&c->state, GMV_MASTER_LAST_REPLY, GMV_REPLY_RINT);
    return number;
}

/* A RINT after a NAK is taken, though what was sent last is ENQ. */
static uint64_t invoke_after_nak(call *c, const master_before *b)
{
    const int is_doubtful = b->is_waiting && b->words[GMV_MASTER_LAST_REPLY] == GMV_REPLY_NAK &&
                            b->words[GMV_MASTER_ENQUIRED] == 1 && c->function == call_master_reply &&
                            c->code == GMV_REPLY_RINT;
    uint64_t number;

    if (is_doubtful)
        set_word(&c->state, GMV_MASTER_ENQUIRED, 0);
    number = invoke(c);
    if (is_doubtful && number != GMV_OK)
        set_word(&c->state, GMV_MASTER_ENQUIRED, 1);
    return number;
}

/* A damaged reply is noted. */
static void break_noted(call *c, const master_before *b)
{
    if (c->function == call_master_reply && c->code == GMV_REPLY_DAMAGED && b->is_waiting)
        set_word(&c->state, GMV_MASTER_LAST_REPLY, GMV_REPLY_ACK);
}

/* A reply that comes with no block out is not noted. */
static void break_unnoted(call *c, const master_before *b)
{
    if (c->function == call_master_reply && b->words[GMV_MASTER_PHASE] == GMV_MASTER_IDLE &&
        get_word(&c->state, GMV_MASTER_PHASE) == GMV_MASTER_IDLE)
        set_word(&c->state, GMV_MASTER_LAST_REPLY, b->words[GMV_MASTER_LAST_REPLY]);
}

/* A refused RINT is not counted as a resend. */
static void break_refused(call *c, const master_before *b)
{
    if (c->function == call_master_reply && c->code == GMV_REPLY_RINT)
        break_uncounted(c, b);
}

/* The leave ends the opening with the block still out. */
static void break_leave(call *c, const master_before *b)
{
    if (c->function != call_master_may_receive || !b->is_waiting)
        return;
    fail_master(c);
    set_word(&c->result, GMV_MASTER_REPORT_END, GMV_MASTER_END_REVERSED);
}

/* An enquiry counts as a resend. */
static void break_enquiry(call *c, const master_before *b)
{
    if (c->function == call_master_enquire && b->words[GMV_MASTER_RESENDS] < 5)
        set_both(c, GMV_MASTER_RESENDS, GMV_MASTER_REPORT_RESENDS, b->words[GMV_MASTER_RESENDS] + 1);
}

/* A reversal with the message's last block does not tell that it is done. */
static void break_undone(call *c, const master_before *b)
{
    (void)b;
    if (told_by_master(c, GMV_MASTER_REPORT_END) == GMV_MASTER_END_REVERSED)
        set_word(&c->result, GMV_MASTER_REPORT_DONE, 0);
}

static uint64_t invoke_master_broken(call *c, const master_before *b)
{
    static const struct {
        const char *name;
        void (*break_report)(call *, const master_before *);
    } faults[] = {{"uncounted", break_uncounted}, {"early", break_early}, {"unraised", break_unraised},
                  {"ending", break_ending}, {"eot", break_eot}, {"noted", break_noted},
                  {"unnoted", break_unnoted}, {"refused", break_refused}, {"leave", break_leave},
                  {"enquiry", break_enquiry}, {"undone", break_undone}};
    uint64_t number;

    if (is_planted("late"))
        return invoke_late(c, b);
    if (is_planted("restart"))
        return invoke_restart(c, b);
    if (is_planted("before"))
        return invoke_before(c, b);
    if (is_planted("damaged"))
        return invoke_damaged(c);
    if (is_planted("twice"))
        return invoke_twice(c, b);
    if (is_planted("after_nak"))
        return invoke_after_nak(c, b);
    number = invoke(c);
    for (size_t i = 0; number == GMV_OK && i < sizeof faults / sizeof faults[0]; i++)
        if (is_planted(faults[i].name))
            faults[i].break_report(c, b);
    return number;
}

static uint64_t invoke_master_library(call *c)
{
    master_before b = {{0}, 0};

    for (size_t i = 0; i < GMV_MASTER_WORDS && count_words(&c->state) >= GMV_MASTER_WORDS; i++)
        b.words[i] = get_word(&c->state, i);
    b.is_waiting = b.words[GMV_MASTER_PHASE] == GMV_MASTER_WAITING;
    return c->function == call_master_fresh ? invoke(c) : invoke_master_broken(c, &b);
}

#endif
