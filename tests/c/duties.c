/* What the header tells the author of a driver to do beside the calls, run on the library: what comes
 * of it, and what comes of the other way. docs/HOST.md has each duty. */
#include "harness.h"

#include <string.h>

enum { LIMIT = 128, LONGEST_BLOCK = LIMIT + 3, MOST = 8 };

/* A text and its length, which leaves out C's closing zero byte. */
#define TEXT(text) (const uint8_t *)text, sizeof text - 1

#define REQUEST(number) "MSH|^~\\&|||||||ADT|" number "|P|2.3.1|" number "\r"
#define ANSWER(code, id, number) \
    "MSH|^~\\&|||||||ACK|" id "|P|2.3.1\rMSA|" code "|" id "||" number "\r"

/* ---- a receiver's host, on a minimal link */

typedef struct {
    uint64_t state[GMV_RECEIVER_WORDS], decision[GMV_DECISION_WORDS], report[GMV_REPORT_WORDS];
    uint64_t expected; /* as it is persisted */
    uint8_t reply[LONGEST_BLOCK];
    uint64_t stored[MOST];
    size_t count;   /* transactions stored */
    unsigned asked; /* how often the application was asked */
} receiving_host;

static receiving_host new_receiving_host(void)
{
    receiving_host h;

    memset(&h, 0, sizeof h);
    CHECK(gmv_receiver_fresh(h.state, GMV_RECEIVER_WORDS) == GMV_OK);
    return h;
}

static uint64_t decide(receiving_host *h, uint64_t *state, uint64_t application, const uint8_t *data,
                       size_t length)
{
    return gmv_receiver_decide(application, GMV_DATA_BLOCK, data, length, state, GMV_RECEIVER_WORDS,
                               h->decision, GMV_DECISION_WORDS);
}

/* Stores what the decision says, as one act. */
static void store(receiving_host *h)
{
    h->expected = h->decision[GMV_DECISION_EXPECTED];
    if (h->decision[GMV_DECISION_TRANSACTION] == 0)
        return;
    CHECK(h->count < MOST);
    h->stored[h->count++ % MOST] = h->decision[GMV_DECISION_TRANSACTION];
}

static uint64_t report(receiving_host *h, uint64_t stored)
{
    return gmv_minimal_answer(LIMIT, stored, h->state, GMV_RECEIVER_WORDS, h->reply, LONGEST_BLOCK, 0,
                              h->report, GMV_REPORT_WORDS);
}

/* A crash, or a start from what is persisted: the open decision is lost. */
static void restart(receiving_host *h)
{
    memset(h->state, 0, sizeof h->state);
    h->state[GMV_RECEIVER_EXPECTED] = h->expected;
}

static int replied(const receiving_host *h, const uint8_t *answer, size_t length)
{
    return h->report[GMV_REPORT_BLOCK_LENGTH] == length + 3 &&
           memcmp(h->reply + 1, answer, length) == 0;
}

/* ---- blocks are offered in the order in which they were read */

/* Decided, stored, reported. */
static void offer(receiving_host *h, const uint8_t *data, size_t length)
{
    CHECK(decide(h, h->state, GMV_CODE_AA, data, length) == GMV_OK);
    store(h);
    CHECK(report(h, GMV_STORED) == GMV_OK);
}

/* The second -1 is refused by 11 while the first is open: nothing changes. */
static receiving_host second_refused(void)
{
    receiving_host h = new_receiving_host();

    CHECK(decide(&h, h.state, GMV_CODE_AA, TEXT(REQUEST("-1"))) == GMV_OK);
    CHECK(decide(&h, h.state, GMV_CODE_AA, TEXT(REQUEST("-1"))) == GMV_STATE);
    store(&h);
    CHECK(report(&h, GMV_STORED) == GMV_OK);
    CHECK(h.state[GMV_RECEIVER_EXPECTED] == 0 && h.count == 0);
    return h;
}

/* Run 11 of docs/LINK.md: offered after 1, whose answer is lost, it has 1 stored twice. */
static void offered_late(void)
{
    receiving_host h = second_refused();

    offer(&h, TEXT(REQUEST("1")));
    offer(&h, TEXT(REQUEST("-1")));
    offer(&h, TEXT(REQUEST("1")));
    CHECK(h.count == 2 && h.stored[0] == 1 && h.stored[1] == 1);
}

/* Offered again before 1, or dropped, it does not. */
static void offered_in_order(void)
{
    receiving_host again = second_refused(), dropped = second_refused();

    offer(&again, TEXT(REQUEST("-1")));
    offer(&again, TEXT(REQUEST("1")));
    offer(&again, TEXT(REQUEST("1")));
    CHECK(again.count == 1 && replied(&again, TEXT(ANSWER("AR", "1", "2"))));
    offer(&dropped, TEXT(REQUEST("1")));
    offer(&dropped, TEXT(REQUEST("1")));
    CHECK(dropped.count == 1 && replied(&dropped, TEXT(ANSWER("AR", "1", "2"))));
}

/* ---- reports are true, and of the decision that is open */

/* Reported stored and not: the answer is there, and 1 is nowhere. */
static void false_success(void)
{
    receiving_host h = new_receiving_host();

    CHECK(decide(&h, h.state, GMV_CODE_AA, TEXT(REQUEST("1"))) == GMV_OK);
    CHECK(report(&h, GMV_STORED) == GMV_OK);
    CHECK(h.count == 0 && replied(&h, TEXT(ANSWER("AA", "1", "1"))));
}

/* Until it is reported there is no answer: what the decision wrote is no block, and the reply is as it
 * was. Failed, there is none either, and 1 is due again. */
static void failure(void)
{
    receiving_host h = new_receiving_host();
    const uint8_t untouched[LONGEST_BLOCK] = {0};

    CHECK(decide(&h, h.state, GMV_CODE_AA, TEXT(REQUEST("1"))) == GMV_OK);
    CHECK(report(&h, GMV_NOT_STORED) == GMV_OK && h.report[GMV_REPORT_BLOCK_LENGTH] == 0);
    CHECK(memcmp(h.reply, untouched, sizeof untouched) == 0);
    CHECK(report(&h, GMV_STORED) == GMV_STATE);
    offer(&h, TEXT(REQUEST("1")));
    CHECK(h.count == 1 && replied(&h, TEXT(ANSWER("AA", "1", "1"))));
}

/* A failure whose write had landed: 1 is stored twice. Started again from what is persisted it is not. */
static void failure_that_landed(void)
{
    receiving_host wrong = new_receiving_host(), right = new_receiving_host();

    CHECK(decide(&wrong, wrong.state, GMV_CODE_AA, TEXT(REQUEST("1"))) == GMV_OK);
    store(&wrong);
    CHECK(report(&wrong, GMV_NOT_STORED) == GMV_OK);
    offer(&wrong, TEXT(REQUEST("1")));
    CHECK(wrong.count == 2);
    CHECK(decide(&right, right.state, GMV_CODE_AA, TEXT(REQUEST("1"))) == GMV_OK);
    store(&right);
    restart(&right);
    offer(&right, TEXT(REQUEST("1")));
    CHECK(right.count == 1 && replied(&right, TEXT(ANSWER("AR", "1", "2"))));
}

/* The report of -1 outlives a crash and is taken for that of 1, which is nowhere. Ended with the crash
 * it does no harm: with no decision open it is refused. */
static void report_after_crash(void)
{
    receiving_host h = new_receiving_host();

    CHECK(decide(&h, h.state, GMV_CODE_AA, TEXT(REQUEST("-1"))) == GMV_OK);
    store(&h);
    restart(&h);
    CHECK(report(&h, GMV_STORED) == GMV_STATE);
    CHECK(decide(&h, h.state, GMV_CODE_AA, TEXT(REQUEST("1"))) == GMV_OK);
    CHECK(report(&h, GMV_STORED) == GMV_OK);
    CHECK(h.count == 0 && replied(&h, TEXT(ANSWER("AA", "1", "1"))));
}

/* Transaction and number stored as two acts, with a crash between them: 1 is stored twice. */
static void stored_in_two_acts(void)
{
    receiving_host h = new_receiving_host();

    CHECK(decide(&h, h.state, GMV_CODE_AA, TEXT(REQUEST("1"))) == GMV_OK);
    h.stored[h.count++] = h.decision[GMV_DECISION_TRANSACTION];
    restart(&h);
    offer(&h, TEXT(REQUEST("1")));
    CHECK(h.count == 2 && h.stored[0] == 1 && h.stored[1] == 1);
}

/* The state's word stored in place of the decision's number: it is the old one until the report, and
 * after a restart 1 is due again. */
static void stored_old_number(void)
{
    receiving_host h = new_receiving_host();

    CHECK(decide(&h, h.state, GMV_CODE_AA, TEXT(REQUEST("1"))) == GMV_OK);
    store(&h);
    h.expected = h.state[GMV_RECEIVER_EXPECTED];
    CHECK(report(&h, GMV_STORED) == GMV_OK && h.state[GMV_RECEIVER_EXPECTED] == 2);
    restart(&h);
    offer(&h, TEXT(REQUEST("1")));
    CHECK(h.count == 2 && h.stored[0] == 1 && h.stored[1] == 1);
}

/* ---- the application is asked about what is due */

static uint64_t ask(receiving_host *h)
{
    h->asked++;
    return GMV_CODE_AE;
}

/* As the header has it: on a copy first. */
static void takes(receiving_host *h, const uint8_t *data, size_t length)
{
    uint64_t copy[GMV_RECEIVER_WORDS], application = GMV_CODE_AA;

    memcpy(copy, h->state, sizeof copy);
    CHECK(decide(h, copy, GMV_CODE_AA, data, length) == GMV_OK);
    if (h->decision[GMV_DECISION_TRANSACTION] != 0)
        application = ask(h);
    CHECK(decide(h, h->state, application, data, length) == GMV_OK);
    if (h->decision[GMV_DECISION_OPENED] == 0)
        return;
    CHECK(h->decision[GMV_DECISION_EXPECTED] == copy[GMV_RECEIVER_NEW_EXPECTED]);
    store(h);
    CHECK(report(h, GMV_STORED) == GMV_OK);
}

/* 1 is asked about once, though it comes three times; nothing else is asked about. */
static void asked_once(void)
{
    receiving_host h = new_receiving_host();

    takes(&h, TEXT(REQUEST("-1")));
    takes(&h, TEXT(REQUEST("0")));
    takes(&h, TEXT("PID|1\r"));
    takes(&h, TEXT("MSH|^~\\&|||||||ADT|A1|P|2.3.1\r"));
    CHECK(h.asked == 0 && h.count == 0);
    takes(&h, TEXT(REQUEST("1")));
    CHECK(h.asked == 1 && replied(&h, TEXT(ANSWER("AE", "1", "1"))));
    takes(&h, TEXT(REQUEST("1")));
    takes(&h, TEXT(REQUEST("3")));
    takes(&h, TEXT(REQUEST("1")));
    CHECK(h.asked == 1 && h.count == 1 && replied(&h, TEXT(ANSWER("AR", "1", "2"))));
    takes(&h, TEXT(REQUEST("2")));
    CHECK(h.asked == 2 && h.count == 2 && h.stored[1] == 2);
}

/* Asked before the call, it runs again at the resend. */
static void asked_first(void)
{
    receiving_host h = new_receiving_host();

    for (int sends = 0; sends < 2; sends++) {
        CHECK(decide(&h, h.state, ask(&h), TEXT(REQUEST("1"))) == GMV_OK);
        store(&h);
        CHECK(report(&h, GMV_STORED) == GMV_OK);
    }
    CHECK(h.asked == 2 && h.count == 1);
}

/* ---- a sender's host */

typedef struct {
    uint64_t state[GMV_SENDER_WORDS], persisted[GMV_SENDER_PERSISTED_WORDS];
    uint64_t report[GMV_ACT_WORDS];
    unsigned told; /* deliveries told to the application */
    uint64_t code; /* of the last one */
} sending_host;

static void persist(sending_host *h)
{
    memcpy(h->persisted, h->state, sizeof h->persisted);
}

static void crash(sending_host *h)
{
    memset(h->state, 0, sizeof h->state);
    memcpy(h->state, h->persisted, sizeof h->persisted);
}

static uint64_t open_circuit(sending_host *h)
{
    return gmv_sender_open(h->state, GMV_SENDER_WORDS, h->report, GMV_ACT_WORDS);
}

static uint64_t time_out(sending_host *h, uint64_t resends)
{
    return gmv_sender_timer(resends, h->state, GMV_SENDER_WORDS, h->report, GMV_ACT_WORDS);
}

static uint64_t submit(sending_host *h, const uint8_t *message, size_t length)
{
    return gmv_sender_submit(LIMIT, message, length, h->state, GMV_SENDER_WORDS, h->report,
                             GMV_ACT_WORDS);
}

static uint64_t hear(sending_host *h, const uint8_t *answer, size_t length)
{
    return gmv_sender_block(GMV_RESENDS_DEFAULT, GMV_OK, GMV_DATA_BLOCK, answer, length, h->state,
                            GMV_SENDER_WORDS, h->report, GMV_ACT_WORDS);
}

static void tell(sending_host *h)
{
    if (h->report[GMV_ACT_EVENT] != GMV_EVENT_DELIVERED)
        return;
    CHECK(h->report[GMV_ACT_DELIVERED] == 1);
    h->code = h->report[GMV_ACT_CODE];
    h->told++;
}

/* 1 is submitted and waits on the first circuit; all is persisted. */
static sending_host waits_on_1(void)
{
    sending_host h;

    memset(&h, 0, sizeof h);
    CHECK(gmv_sender_fresh(1, h.state, GMV_SENDER_WORDS) == GMV_OK);
    CHECK(submit(&h, TEXT(REQUEST("1"))) == GMV_OK);
    CHECK(open_circuit(&h) == GMV_OK);
    CHECK(hear(&h, TEXT(ANSWER("AA", "-1", "-1"))) == GMV_OK);
    CHECK(h.report[GMV_ACT_SEND] == GMV_SEND_TRANSACTION && h.report[GMV_ACT_SEND_NUMBER] == 1);
    persist(&h);
    return h;
}

/* A new circuit after the crash; the receiver has stored 1 and expects 2. */
static void goes_on(sending_host *h)
{
    crash(h);
    CHECK(open_circuit(h) == GMV_OK && h->report[GMV_ACT_SEND] == GMV_SEND_QUERY);
    CHECK(hear(h, TEXT(ANSWER("AA", "0", "2"))) == GMV_OK);
}

/* ---- one delivery, told over a crash */

/* Told before it is persisted: twice, the second time with its verdict unknown. */
static void told_twice(void)
{
    sending_host h = waits_on_1();

    CHECK(hear(&h, TEXT(ANSWER("AE", "1", "1"))) == GMV_OK);
    tell(&h);
    CHECK(h.told == 1 && h.code == GMV_CODE_AE);
    goes_on(&h);
    tell(&h);
    CHECK(h.told == 2 && h.code == GMV_CODE_OTHER);
    CHECK(h.state[GMV_SENDER_DELIVERED] == 1);
}

/* Persisted first: not a second time; and where the crash came before it was told, not at all, but
 * the persisted mark says it. */
static void told_after_persisting(void)
{
    sending_host once = waits_on_1(), never = waits_on_1();

    CHECK(hear(&once, TEXT(ANSWER("AA", "1", "1"))) == GMV_OK);
    persist(&once);
    tell(&once);
    goes_on(&once);
    tell(&once);
    CHECK(once.told == 1 && once.code == GMV_CODE_AA);
    CHECK(hear(&never, TEXT(ANSWER("AA", "1", "1"))) == GMV_OK);
    persist(&never);
    goes_on(&never);
    tell(&never);
    CHECK(never.told == 0 && never.persisted[GMV_SENDER_DELIVERED] == 1);
}

/* ---- answers that are dropped */

/* An answer that is dropped is told while something waits, and not on an idle circuit. */
static void dropped_answers(void)
{
    sending_host h = waits_on_1();
    const uint64_t nothing[GMV_ACT_WORDS] = {0};

    CHECK(hear(&h, TEXT(ANSWER("AA", "-1", "-1"))) == GMV_OK);
    CHECK(h.report[GMV_ACT_EVENT] == GMV_EVENT_DROPPED && h.report[GMV_ACT_SENDS] == 1);
    CHECK(hear(&h, TEXT(ANSWER("AA", "1", "1"))) == GMV_OK);
    CHECK(h.state[GMV_SENDER_WAITING] == GMV_WAITING_IDLE);
    CHECK(hear(&h, TEXT(ANSWER("AA", "-1", "-1"))) == GMV_OK);
    CHECK(memcmp(h.report, nothing, sizeof nothing) == 0);
    CHECK(hear(&h, TEXT(ANSWER("AA", "1", "1"))) == GMV_OK);
    CHECK(memcmp(h.report, nothing, sizeof nothing) == 0);
}

/* ---- 11 where nothing is wrong */

/* After giving up the next verdict and a timer still on its way are answered by 11, and a new
 * circuit goes on. */
static void given_up(void)
{
    sending_host h = waits_on_1();

    CHECK(time_out(&h, 0) == GMV_OK && h.report[GMV_ACT_EVENT] == GMV_EVENT_ABANDONED);
    CHECK(hear(&h, TEXT(ANSWER("AA", "1", "1"))) == GMV_STATE);
    CHECK(time_out(&h, 0) == GMV_STATE);
    CHECK(h.report[GMV_ACT_EVENT] == GMV_EVENT_NONE && h.report[GMV_ACT_SENDS] == 0);
    CHECK(open_circuit(&h) == GMV_OK && h.report[GMV_ACT_SEND] == GMV_SEND_QUERY);
}

/* Frozen, a submission is too, until an operator resets. */
static void froze(void)
{
    sending_host h = waits_on_1();

    CHECK(hear(&h, TEXT(ANSWER("AR", "1", "1"))) == GMV_OK);
    CHECK(h.report[GMV_ACT_EVENT] == GMV_EVENT_FROZE && h.state[GMV_SENDER_FROZEN] == 1);
    CHECK(hear(&h, TEXT(ANSWER("AA", "1", "1"))) == GMV_STATE);
    CHECK(submit(&h, TEXT(REQUEST("2"))) == GMV_STATE);
    CHECK(open_circuit(&h) == GMV_STATE);
    CHECK(gmv_sender_reset(h.state, GMV_SENDER_WORDS, h.report, GMV_ACT_WORDS) == GMV_OK);
    CHECK(submit(&h, TEXT(REQUEST("2"))) == GMV_OK && open_circuit(&h) == GMV_OK);
}

/* ---- what was read is told before the timer */

/* 1 waits, and all its sends are spent. Its answer is read, and the timer runs out. */
static sending_host sent_to_the_last(void)
{
    sending_host h = waits_on_1();

    for (int resends = 0; resends < GMV_RESENDS_DEFAULT; resends++)
        CHECK(time_out(&h, GMV_RESENDS_DEFAULT) == GMV_OK &&
              h.report[GMV_ACT_SEND] == GMV_SEND_TRANSACTION);
    return h;
}

/* The timer first: the answer that was there in time no longer counts. */
static void read_in_time(void)
{
    sending_host late = sent_to_the_last(), right = sent_to_the_last();

    CHECK(time_out(&late, GMV_RESENDS_DEFAULT) == GMV_OK);
    CHECK(late.report[GMV_ACT_EVENT] == GMV_EVENT_ABANDONED);
    CHECK(hear(&late, TEXT(ANSWER("AA", "1", "1"))) == GMV_STATE);
    CHECK(late.state[GMV_SENDER_DELIVERED] == 0);
    CHECK(hear(&right, TEXT(ANSWER("AA", "1", "1"))) == GMV_OK);
    CHECK(right.state[GMV_SENDER_DELIVERED] == 1);
    CHECK(time_out(&right, GMV_RESENDS_DEFAULT) == GMV_OK);
    CHECK(right.report[GMV_ACT_EVENT] == GMV_EVENT_NONE);
}

/* ---- the control block is tried before the first circuit */

/* A bad type is refused at the control block alone; the acts count sends that cannot be made. */
static void bad_type(void)
{
    sending_host h = waits_on_1();
    uint8_t block[LONGEST_BLOCK];
    uint64_t report[GMV_REPORT_WORDS];

    crash(&h);
    CHECK(open_circuit(&h) == GMV_OK && time_out(&h, GMV_RESENDS_DEFAULT) == GMV_OK);
    CHECK(h.report[GMV_ACT_SENDS] == 2);
    CHECK(gmv_minimal_control_block(LIMIT, TEXT("adt"), 0, block, sizeof block, 0, report,
                                    GMV_REPORT_WORDS) == GMV_SETTING);
    CHECK(gmv_minimal_control_block(LIMIT, TEXT("ADT"), 0, block, sizeof block, 0, report,
                                    GMV_REPORT_WORDS) == GMV_OK);
}

void test_duties(void)
{
    begin_test("duties: a refused block offered late has 1 stored twice (run 11)");
    offered_late();
    begin_test("duties: offered again before any later one, or dropped, it has not");
    offered_in_order();
    begin_test("duties: a decision reported stored that is not: the answer goes out, and nobody has it");
    false_success();
    begin_test("duties: a failure gives nothing to send, and the transaction is due again");
    failure();
    begin_test("duties: a failure whose write landed has 1 stored twice; a restart has not");
    failure_that_landed();
    begin_test("duties: a report that outlives a crash is taken for the next decision's");
    report_after_crash();
    begin_test("duties: transaction and number stored in two acts have 1 stored twice");
    stored_in_two_acts();
    begin_test("duties: the state's word stored in place of the decision's number has 1 stored twice");
    stored_old_number();
    begin_test("duties: the application is asked once over resends");
    asked_once();
    begin_test("duties: asked before the call, it runs again at the resend");
    asked_first();
    begin_test("duties: a delivery told before it is persisted is told twice over a crash");
    told_twice();
    begin_test("duties: persisted first it is told once, or the persisted mark says it");
    told_after_persisting();
    begin_test("duties: an answer on an idle circuit is not told as dropped");
    dropped_answers();
    begin_test("duties: 11 after giving up is ordinary");
    given_up();
    begin_test("duties: 11 while frozen is ordinary");
    froze();
    begin_test("duties: an answer that was read is told before the timer");
    read_in_time();
    begin_test("duties: a bad type is found by trying the control block");
    bad_type();
}
