/* A whole link: a sender and a receiver with their hosts, which exchange blocks through the readers
 * and the writers. Whatever happens to one block or one end, each transaction is persisted once and
 * known to be delivered once, in order. */
#include "harness.h"

#include <stdio.h>
#include <string.h>

enum {
    LEAST_LIMIT = 128,
    LONGEST_BLOCK = LEAST_LIMIT + 15,
    FIRST = 5,
    TRANSACTIONS = 9,
    LAST = FIRST + TRANSACTIONS - 1,
    MOST_TURNS = 100
};

/* What happens to one of the blocks that the sender's host puts on the line, and to its reply. */
enum fault {
    NO_FAULT,
    REQUEST_LOST,
    REQUEST_DAMAGED,
    REPLY_LOST,
    REPLY_DAMAGED,
    SENDER_CRASH,    /* with the reply on its way */
    RECEIVER_CRASH,  /* with all persisted and reported, and the reply not yet on the line */
    CRASH_DECIDED,   /* of the receiver, between its decision and storing */
    CRASH_STORED,    /* of the receiver, between storing and its report */
    STORE_FAILED,    /* nothing was stored, and that is reported */
    STORED_LATE,     /* the next block comes while the decision is open, and is dropped */
    CIRCUIT_ENDED,   /* with the reply on its way */
    LINE_DOWN        /* until no sends are left and the sender ends the circuit */
};

/* One end's line: its reader, and the reader's buffer. */
typedef struct {
    uint64_t reader[GMV_READER_WORDS];
    uint8_t buffer[LONGEST_BLOCK];
} input;

/* The transactions that an end has persisted, or knows to be delivered, with their codes. */
typedef struct {
    size_t count;
    uint64_t numbers[2 * TRANSACTIONS], codes[2 * TRANSACTIONS];
} record;

typedef struct {
    settings link;
    enum fault fault;
    size_t fault_at, blocks; /* the block that meets the fault, and the blocks sent so far */
    uint64_t sender[GMV_SENDER_WORDS], act[GMV_ACT_WORDS];
    uint64_t receiver[GMV_RECEIVER_WORDS], expected; /* as it is held, and what is persisted of it */
    input to_sender, to_receiver;
    record delivered, persisted;
    uint8_t reply[2 * LONGEST_BLOCK];
    size_t reply_length;
    uint64_t sent, sent_number, sends; /* sent last on this circuit, and how often in a row */
    int unknown;                       /* the fault hides the verdict on a transaction */
} exchange;

static void add(record *to, uint64_t number, uint64_t code)
{
    CHECK(to->count < 2 * TRANSACTIONS);
    if (to->count >= 2 * TRANSACTIONS)
        return;
    to->numbers[to->count] = number;
    to->codes[to->count++] = code;
}

/* The application errs on every third transaction. */
static uint64_t application(uint64_t number)
{
    return number % 3 == 0 ? GMV_CODE_AE : GMV_CODE_AA;
}

/* ---- the receiver's host */

/* The application's verdict on the number in MSH-13. */
static uint64_t verdict_on(const uint8_t *data, size_t length)
{
    uint64_t header[GMV_HEADER_WORDS];

    if (gmv_header_read(data, length, header, GMV_HEADER_WORDS) != GMV_OK)
        return GMV_CODE_AA;
    return application(header[GMV_HEADER_SEQUENCE_NUMBER]);
}

static int fault_now(const exchange *x, enum fault fault)
{
    return x->fault == fault && x->blocks == x->fault_at;
}

/* The open decision and the reader's place are lost. */
static void restart_receiver(exchange *x)
{
    CHECK(gmv_receiver_fresh(x->receiver, GMV_RECEIVER_WORDS) == GMV_OK);
    x->receiver[GMV_RECEIVER_EXPECTED] = x->expected;
    x->reply_length = 0;
    CHECK(gmv_reader_fresh(x->to_receiver.reader, GMV_READER_WORDS) == GMV_OK);
}

/* The report on the open decision; an answer lies in x->reply then. */
static void report_decision(exchange *x, uint64_t stored)
{
    const settings link = x->link;
    uint64_t report[GMV_REPORT_WORDS] = {0}, answer;

    if (link.minimal)
        answer = gmv_minimal_answer(link.data_limit, stored, x->receiver, GMV_RECEIVER_WORDS, x->reply,
                                    sizeof x->reply, x->reply_length, report, GMV_REPORT_WORDS);
    else
        answer = gmv_hybrid_answer(link.start_block, link.end_block, link.data_limit, stored,
                                   x->receiver, GMV_RECEIVER_WORDS, x->reply, sizeof x->reply,
                                   x->reply_length, report, GMV_REPORT_WORDS);
    CHECK(answer == GMV_OK);
    CHECK((report[GMV_REPORT_BLOCK_LENGTH] > 0) == (stored == GMV_STORED));
    x->reply_length += report[GMV_REPORT_BLOCK_LENGTH];
}

/* The N reply to a refused block; on a minimal link it is dropped. */
static void reply_nak(exchange *x, uint64_t block_number)
{
    const settings link = x->link;
    uint64_t report[GMV_REPORT_WORDS] = {0};

    if (link.minimal)
        return;
    CHECK(gmv_hybrid_nak(link.start_block, link.end_block, link.data_limit, block_number, x->receiver,
                         GMV_RECEIVER_WORDS, x->reply, sizeof x->reply, x->reply_length, report,
                         GMV_REPORT_WORDS) == GMV_OK);
    x->reply_length += report[GMV_REPORT_BLOCK_LENGTH];
}

/* A block that comes while a decision is open is refused, and dropped. */
static void refuse_while_open(exchange *x, const uint8_t *data, size_t length)
{
    uint64_t decision[GMV_DECISION_WORDS], before[GMV_RECEIVER_WORDS];

    memcpy(before, x->receiver, sizeof before);
    CHECK(gmv_receiver_decide(GMV_CODE_AA, GMV_DATA_BLOCK, data, length, x->receiver,
                              GMV_RECEIVER_WORDS, decision, GMV_DECISION_WORDS) == GMV_STATE);
    CHECK(memcmp(before, x->receiver, sizeof before) == 0);
}

/* Stores what the decision says, and reports it. */
static void store_and_report(exchange *x, const uint64_t *decision, uint64_t code)
{
    if (fault_now(x, CRASH_DECIDED)) {
        restart_receiver(x);
        return;
    }
    if (fault_now(x, STORE_FAILED)) {
        report_decision(x, GMV_NOT_STORED);
        return;
    }
    x->expected = decision[GMV_DECISION_EXPECTED];
    if (decision[GMV_DECISION_TRANSACTION] != 0)
        add(&x->persisted, decision[GMV_DECISION_TRANSACTION], code);
    if (fault_now(x, CRASH_STORED))
        restart_receiver(x);
    else
        report_decision(x, GMV_STORED);
}

/* A block that the receiver's reader found: decide, store, report. */
static void receiver_takes(exchange *x, const uint64_t *verdict, const uint8_t *data)
{
    const size_t length = verdict[GMV_VERDICT_DATA_LENGTH];
    const uint64_t code = verdict_on(data, length);
    uint64_t decision[GMV_DECISION_WORDS] = {0};

    if (verdict[GMV_VERDICT_NUMBER] != GMV_OK) {
        reply_nak(x, verdict[GMV_VERDICT_NUMBER]);
        return;
    }
    CHECK(gmv_receiver_decide(code, verdict[GMV_VERDICT_TYPE], data, length, x->receiver,
                              GMV_RECEIVER_WORDS, decision, GMV_DECISION_WORDS) == GMV_OK);
    CHECK(decision[GMV_DECISION_OPENED] == 1 && decision[GMV_DECISION_BLOCK] == GMV_OK);
    CHECK(decision[GMV_DECISION_CHANGES] == (decision[GMV_DECISION_EXPECTED] != x->expected));
    if (fault_now(x, STORED_LATE))
        refuse_while_open(x, data, length);
    store_and_report(x, decision, code);
}

/* ---- the sender's host */

/* What each act's report says beside what to send. */
static void note_act(exchange *x, uint64_t answer)
{
    CHECK(answer == GMV_OK);
    CHECK(x->act[GMV_ACT_EVENT] != GMV_EVENT_FROZE && x->act[GMV_ACT_EVENT] != GMV_EVENT_DROPPED);
    if (x->act[GMV_ACT_EVENT] == GMV_EVENT_DELIVERED)
        add(&x->delivered, x->act[GMV_ACT_DELIVERED], x->act[GMV_ACT_CODE]);
    if (x->act[GMV_ACT_EVENT] == GMV_EVENT_ABANDONED)
        CHECK(x->fault == LINE_DOWN && x->act[GMV_ACT_SENDS] == GMV_RESENDS_DEFAULT + 1);
}

static void sender_takes(exchange *x, const uint64_t *verdict, const uint8_t *data)
{
    note_act(x, gmv_sender_block(GMV_RESENDS_DEFAULT, verdict[GMV_VERDICT_NUMBER],
                                 verdict[GMV_VERDICT_TYPE], data, verdict[GMV_VERDICT_DATA_LENGTH],
                                 x->sender, GMV_SENDER_WORDS, x->act, GMV_ACT_WORDS));
}

/* The host's log has a message for each number. */
static size_t message_in_log(char *message, uint64_t number)
{
    return (size_t)snprintf(message, LEAST_LIMIT,
                            "MSH|^~\\&|ADM|X|LAB|Y|1999||ADT|%lu|P|2.3.1|%05lu\rPID|%lu\r",
                            (unsigned long)number, (unsigned long)number, (unsigned long)number);
}

static void submit_next(exchange *x)
{
    char message[LEAST_LIMIT];
    size_t length = message_in_log(message, x->sender[GMV_SENDER_LAST] + 1);

    note_act(x, gmv_sender_submit(x->link.data_limit, (const uint8_t *)message, length, x->sender,
                                  GMV_SENDER_WORDS, x->act, GMV_ACT_WORDS));
}

/* Writes the block that the last act named, and checks its count of sends against the history. */
static size_t write_named_block(exchange *x, uint8_t *block)
{
    const settings link = x->link;
    const uint64_t send = x->act[GMV_ACT_SEND];
    const uint64_t number = send == GMV_SEND_RESYNCHRONIZE ? GMV_MINUS_ONE : 0;
    const uint8_t *type = (const uint8_t *)"ADT";
    uint64_t report[GMV_REPORT_WORDS] = {0}, answer;
    char message[LEAST_LIMIT];
    size_t length = message_in_log(message, x->act[GMV_ACT_SEND_NUMBER]);

    if (send == GMV_SEND_TRANSACTION && link.minimal)
        answer = gmv_minimal_write(link.data_limit, (uint8_t *)message, length, block,
                                   LONGEST_BLOCK, 0, report, GMV_REPORT_WORDS);
    else if (send == GMV_SEND_TRANSACTION)
        answer = gmv_hybrid_write(link.start_block, link.end_block, link.data_limit, 'D',
                                  (uint8_t *)message, length, block, LONGEST_BLOCK, 0, report,
                                  GMV_REPORT_WORDS);
    else if (link.minimal)
        answer = gmv_minimal_control_block(link.data_limit, type, 3, number, block, LONGEST_BLOCK,
                                           0, report, GMV_REPORT_WORDS);
    else
        answer = gmv_hybrid_control_block(link.start_block, link.end_block, link.data_limit, type,
                                          3, number, block, LONGEST_BLOCK, 0, report,
                                          GMV_REPORT_WORDS);
    CHECK(answer == GMV_OK);
    return (size_t)report[GMV_REPORT_BLOCK_LENGTH];
}

static void count_send(exchange *x)
{
    const uint64_t send = x->act[GMV_ACT_SEND], number = x->act[GMV_ACT_SEND_NUMBER];

    x->sends = send == x->sent && number == x->sent_number ? x->sends + 1 : 1;
    x->sent = send;
    x->sent_number = number;
    CHECK(x->act[GMV_ACT_SENDS] == x->sends);
    CHECK(x->sender[GMV_SENDER_SENDS] == x->sends);
}

/* ---- the line */

/* An end's reader takes the bytes in parts of 0 to 40, and the end each block that is found. */
static void transmit(exchange *x, input *end, const uint8_t *bytes, size_t length,
                     void (*takes)(exchange *x, const uint64_t *verdict, const uint8_t *data))
{
    const settings link = x->link;
    uint64_t verdict[GMV_VERDICT_WORDS], answer;

    for (size_t at = 0; at < length;) {
        size_t most = (size_t)random_below(41), part = most < length - at ? most : length - at;

        if (link.minimal)
            answer = gmv_minimal_read(link.data_limit, end->reader, GMV_READER_WORDS, bytes + at,
                                      part, end->buffer, sizeof end->buffer, verdict,
                                      GMV_VERDICT_WORDS);
        else
            answer = gmv_hybrid_read(link.start_block, link.end_block, link.data_limit, end->reader,
                                     GMV_READER_WORDS, bytes + at, part, end->buffer,
                                     sizeof end->buffer, verdict, GMV_VERDICT_WORDS);
        CHECK(answer == GMV_OK && verdict[GMV_VERDICT_USED] <= part);
        if (answer != GMV_OK)
            return;
        at += verdict[GMV_VERDICT_USED];
        if (verdict[GMV_VERDICT_FOUND])
            takes(x, verdict, end->buffer + verdict[GMV_VERDICT_DATA_OFFSET]);
    }
}

/* The block goes to the receiver; its reply lies in x->reply. */
static void send_request(exchange *x, uint8_t *block, size_t length)
{
    x->reply_length = 0;
    if (fault_now(x, REQUEST_LOST))
        return;
    if (x->fault == LINE_DOWN && x->blocks >= x->fault_at &&
        x->blocks <= x->fault_at + GMV_RESENDS_DEFAULT)
        return;
    if (fault_now(x, REQUEST_DAMAGED))
        block[length / 2] ^= 0x80;
    transmit(x, &x->to_receiver, block, length, receiver_takes);
    if (fault_now(x, RECEIVER_CRASH))
        restart_receiver(x);
}

/* The transaction is stored, and its answer does not arrive. */
static int hides_verdict(enum fault fault)
{
    return fault == REPLY_LOST || fault == REPLY_DAMAGED || fault == SENDER_CRASH ||
           fault == RECEIVER_CRASH || fault == CRASH_STORED || fault == CIRCUIT_ENDED;
}

/* The volatile words of the sender are lost, its reader too. */
static void restart_sender(exchange *x)
{
    for (size_t i = GMV_SENDER_PERSISTED_WORDS; i < GMV_SENDER_WORDS; i++)
        x->sender[i] = 0;
    memset(x->act, 0, sizeof x->act);
    CHECK(gmv_reader_fresh(x->to_sender.reader, GMV_READER_WORDS) == GMV_OK);
}

static void send_reply(exchange *x)
{
    if (fault_now(x, REPLY_LOST)) {
        memset(x->act, 0, sizeof x->act);
    } else if (fault_now(x, SENDER_CRASH)) {
        restart_sender(x);
    } else if (fault_now(x, CIRCUIT_ENDED)) {
        note_act(x, gmv_sender_ended(x->sender, GMV_SENDER_WORDS, x->act, GMV_ACT_WORDS));
    } else {
        if (fault_now(x, REPLY_DAMAGED))
            x->reply[x->reply_length / 2] ^= 0x80;
        memset(x->act, 0, sizeof x->act);
        transmit(x, &x->to_sender, x->reply, x->reply_length, sender_takes);
    }
}

/* The block that the last act named, and its reply, with what happens to them. */
static void send_named_block(exchange *x)
{
    uint8_t block[LONGEST_BLOCK];
    size_t length = write_named_block(x, block);

    count_send(x);
    x->blocks++;
    if (x->act[GMV_ACT_SEND] == GMV_SEND_TRANSACTION && x->blocks == x->fault_at)
        x->unknown = hides_verdict(x->fault);
    send_request(x, block, length);
    send_reply(x);
}

/* ---- whole exchanges */

static exchange new_exchange(settings link, enum fault fault, size_t fault_at)
{
    exchange x;

    memset(&x, 0, sizeof x);
    x.link = link;
    x.fault = fault;
    x.fault_at = fault_at;
    CHECK(gmv_sender_fresh(FIRST, x.sender, GMV_SENDER_WORDS) == GMV_OK);
    CHECK(gmv_receiver_fresh(x.receiver, GMV_RECEIVER_WORDS) == GMV_OK);
    CHECK(gmv_reader_fresh(x.to_sender.reader, GMV_READER_WORDS) == GMV_OK);
    CHECK(gmv_reader_fresh(x.to_receiver.reader, GMV_READER_WORDS) == GMV_OK);
    return x;
}

/* A new circuit: both readers start afresh. */
static void open_circuit(exchange *x)
{
    x->sent = GMV_SEND_NOTHING;
    CHECK(gmv_reader_fresh(x->to_sender.reader, GMV_READER_WORDS) == GMV_OK);
    CHECK(gmv_reader_fresh(x->to_receiver.reader, GMV_READER_WORDS) == GMV_OK);
    note_act(x, gmv_sender_open(x->sender, GMV_SENDER_WORDS, x->act, GMV_ACT_WORDS));
}

/* The hosts' next step: a circuit, the block that is due, the next transaction, or the timer. */
static void take_turn(exchange *x)
{
    if (x->sender[GMV_SENDER_WAITING] == GMV_WAITING_CLOSED) {
        open_circuit(x);
    } else if (x->act[GMV_ACT_SEND] != GMV_SEND_NOTHING) {
        send_named_block(x);
    } else if (x->sender[GMV_SENDER_WAITING] == GMV_WAITING_IDLE) {
        submit_next(x);
    } else {
        note_act(x, gmv_sender_timer(GMV_RESENDS_DEFAULT, x->sender, GMV_SENDER_WORDS, x->act,
                                     GMV_ACT_WORDS));
    }
}

static void check_records(const exchange *x)
{
    size_t unknown = 0;

    CHECK(x->persisted.count == TRANSACTIONS && x->delivered.count == TRANSACTIONS);
    for (size_t i = 0; i < TRANSACTIONS; i++) {
        CHECK(x->persisted.numbers[i] == FIRST + i);
        CHECK(x->delivered.numbers[i] == FIRST + i);
        CHECK(x->persisted.codes[i] == application(FIRST + i));
        CHECK(x->delivered.codes[i] == application(FIRST + i) || x->delivered.codes[i] == 0);
        unknown += x->delivered.codes[i] == 0;
    }
    CHECK(unknown == (x->unknown ? 1 : 0));
    CHECK(x->receiver[GMV_RECEIVER_EXPECTED] == LAST + 1 && x->expected == LAST + 1);
    CHECK(x->receiver[GMV_RECEIVER_CODE] == 0);
    CHECK(x->sender[GMV_SENDER_DELIVERED] == LAST && x->sender[GMV_SENDER_LAST] == LAST);
    CHECK(x->sender[GMV_SENDER_FROZEN] == 0);
}

/* Three transactions are submitted before the first circuit opens, the others one by one. */
static void run(settings link, enum fault fault, size_t fault_at)
{
    exchange x = new_exchange(link, fault, fault_at);

    for (int i = 0; i < 3; i++)
        submit_next(&x);
    for (int turn = 0; turn < MOST_TURNS && x.delivered.count < TRANSACTIONS; turn++)
        take_turn(&x);
    check_records(&x);
}

/* The fault at each of the blocks: the control message for -1, and the transactions. */
static void run_all_blocks(enum fault fault)
{
    for (size_t fault_at = 1; fault_at <= TRANSACTIONS + 1; fault_at++) {
        run(hybrid(LEAST_LIMIT), fault, fault_at);
        run(minimal(LEAST_LIMIT), fault, fault_at);
    }
}

/* One answer is lost, step by step: AR with the next number tells that the transaction arrived. */
static void lost_answer(void)
{
    exchange x = new_exchange(hybrid(LEAST_LIMIT), REPLY_LOST, 2);
    const uint64_t unknown[] = {0, 0, 0, GMV_EVENT_DELIVERED, FIRST, GMV_CODE_OTHER, 0, 0};

    submit_next(&x);
    take_turn(&x); /* the circuit opens */
    take_turn(&x); /* -1 */
    CHECK(x.sender[GMV_SENDER_RESYNCHRONIZED] == 1 && x.receiver[0] == 0);
    take_turn(&x); /* the transaction, whose answer is lost */
    CHECK(x.receiver[0] == FIRST + 1 && x.persisted.count == 1 && x.delivered.count == 0);
    take_turn(&x); /* the timer runs out */
    CHECK(x.act[GMV_ACT_SEND] == GMV_SEND_TRANSACTION && x.act[GMV_ACT_SENDS] == 2);
    take_turn(&x); /* the transaction again */
    CHECK(memcmp(x.act, unknown, sizeof unknown) == 0);
    CHECK(x.receiver[0] == FIRST + 1 && x.persisted.count == 1 && x.delivered.count == 1);
}

void test_link(void)
{
    begin_test("link: transactions from end to end");
    run(hybrid(LEAST_LIMIT), NO_FAULT, 0);
    run(minimal(LEAST_LIMIT), NO_FAULT, 0);
    begin_test("link: one lost answer, step by step");
    lost_answer();
    begin_test("link: a lost request, at each block");
    run_all_blocks(REQUEST_LOST);
    begin_test("link: a damaged request, at each block");
    run_all_blocks(REQUEST_DAMAGED);
    begin_test("link: a lost reply, at each block");
    run_all_blocks(REPLY_LOST);
    begin_test("link: a damaged reply, at each block");
    run_all_blocks(REPLY_DAMAGED);
    begin_test("link: the sender crashes, at each block");
    run_all_blocks(SENDER_CRASH);
    begin_test("link: the receiver crashes, at each block");
    run_all_blocks(RECEIVER_CRASH);
    begin_test("link: the receiver crashes between decision and storing, at each block");
    run_all_blocks(CRASH_DECIDED);
    begin_test("link: the receiver crashes between storing and report, at each block");
    run_all_blocks(CRASH_STORED);
    begin_test("link: storing fails and is reported so, at each block");
    run_all_blocks(STORE_FAILED);
    begin_test("link: a block while a decision is open is refused, at each block");
    run_all_blocks(STORED_LATE);
    begin_test("link: the circuit ends, at each block");
    run_all_blocks(CIRCUIT_ENDED);
    begin_test("link: the line is down for all sends, at each block");
    run_all_blocks(LINE_DOWN);
}
