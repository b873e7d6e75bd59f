/* No function takes over 1 KiB of stack. Each call runs on a stack of its own, painted before, and
 * what it painted over is counted. The address sanitizer moves stacks about, so this is the plain
 * build's. */
#include "harness.h"

#ifdef __SANITIZE_ADDRESS__

void test_stack(void) {}

#else

#include <string.h>
#include <ucontext.h>

enum { LIMIT = 4096, STACK = 1 << 16, PAINT = 0xC3, ALLOWED = 1024 };

static uint8_t stack[STACK];
static ucontext_t test_context, call_context;

static uint64_t state[GMV_READER_WORDS], verdict[GMV_VERDICT_WORDS], report[GMV_REPORT_WORDS];
static uint8_t content[LIMIT], buffer[LIMIT + 15], block[LIMIT + 15];

static uint64_t header[GMV_HEADER_WORDS], answer[GMV_ANSWER_WORDS], number;
static uint8_t message[LIMIT], control_id[20];
static uint64_t field[GMV_NEXT_WORDS];
static size_t field_position;

/* The calls that are measured; each on a whole block, which is good or damaged. */
static void no_call(void) {}

static void version(void)
{
    gmv_version();
}

static void fresh(void)
{
    gmv_reader_fresh(state, GMV_READER_WORDS);
}

static void hybrid_read(void)
{
    gmv_hybrid_read(11, 28, LIMIT, state, GMV_READER_WORDS, block, sizeof block, buffer,
                    sizeof buffer, verdict, GMV_VERDICT_WORDS);
}

static void minimal_read(void)
{
    gmv_minimal_read(LIMIT, state, GMV_READER_WORDS, block, sizeof block, buffer, sizeof buffer,
                     verdict, GMV_VERDICT_WORDS);
}

static void hybrid_check(void)
{
    gmv_hybrid_check(11, 28, LIMIT, block, sizeof block, verdict, GMV_VERDICT_WORDS);
}

static void minimal_check(void)
{
    gmv_minimal_check(LIMIT, block, sizeof block, verdict, GMV_VERDICT_WORDS);
}

static void hybrid_write(void)
{
    gmv_hybrid_write(11, 28, LIMIT, 'D', content, sizeof content, buffer, sizeof buffer, 0, report,
                     GMV_REPORT_WORDS);
}

static void minimal_write(void)
{
    gmv_minimal_write(LIMIT, content, sizeof content, buffer, sizeof buffer, 0, report,
                      GMV_REPORT_WORDS);
}

/* The functions for messages; the message is an answer with long fields, good or damaged. */
static void header_read(void)
{
    gmv_header_read(message, sizeof message, header, GMV_HEADER_WORDS);
}

static void answer_read(void)
{
    gmv_answer_read(message, sizeof message, answer, GMV_ANSWER_WORDS);
}

static void field_next(void)
{
    gmv_field_next(message, sizeof message, field_position, field, GMV_NEXT_WORDS);
}

static void answer_write(void)
{
    gmv_answer_write(control_id, sizeof control_id, GMV_CODE_AA, number, buffer, sizeof buffer, 0,
                     report, GMV_REPORT_WORDS);
}

static void control_write(void)
{
    gmv_control_write((const uint8_t *)"ADT", 3, number, buffer, sizeof buffer, 0, report,
                      GMV_REPORT_WORDS);
}

/* The two ends; the block's data is a request or an answer, or nothing that can be read. */
static uint64_t receiver[GMV_RECEIVER_WORDS], receiver_before[GMV_RECEIVER_WORDS];
static uint64_t sender[GMV_SENDER_WORDS], sender_before[GMV_SENDER_WORDS];
static uint64_t decision[GMV_DECISION_WORDS], act[GMV_ACT_WORDS], block_number, block_type, stored;
static const uint8_t *end_data;
static size_t end_data_length;

static void receiver_fresh(void)
{
    gmv_receiver_fresh(receiver, GMV_RECEIVER_WORDS);
}

static void receiver_decide(void)
{
    memcpy(receiver, receiver_before, sizeof receiver);
    gmv_receiver_decide(GMV_CODE_AE, block_type, end_data, end_data_length, receiver,
                        GMV_RECEIVER_WORDS, decision, GMV_DECISION_WORDS);
}

static void hybrid_answer(void)
{
    memcpy(receiver, receiver_before, sizeof receiver);
    gmv_hybrid_answer(11, 28, LIMIT, stored, receiver, GMV_RECEIVER_WORDS, buffer, sizeof buffer, 0,
                      report, GMV_REPORT_WORDS);
}

static void minimal_answer(void)
{
    memcpy(receiver, receiver_before, sizeof receiver);
    gmv_minimal_answer(LIMIT, stored, receiver, GMV_RECEIVER_WORDS, buffer, sizeof buffer, 0, report,
                       GMV_REPORT_WORDS);
}

static void hybrid_nak(void)
{
    gmv_hybrid_nak(11, 28, LIMIT, block_number, receiver_before, GMV_RECEIVER_WORDS, buffer,
                   sizeof buffer, 0, report, GMV_REPORT_WORDS);
}

static void sender_fresh(void)
{
    gmv_sender_fresh(17, sender, GMV_SENDER_WORDS);
}

static void sender_submit(void)
{
    memcpy(sender, sender_before, sizeof sender);
    gmv_sender_submit(LIMIT, end_data, end_data_length, sender, GMV_SENDER_WORDS, act,
                      GMV_ACT_WORDS);
}

static void sender_open(void)
{
    memcpy(sender, sender_before, sizeof sender);
    gmv_sender_open(sender, GMV_SENDER_WORDS, act, GMV_ACT_WORDS);
}

static void sender_ended(void)
{
    memcpy(sender, sender_before, sizeof sender);
    gmv_sender_ended(sender, GMV_SENDER_WORDS, act, GMV_ACT_WORDS);
}

static void sender_reset(void)
{
    memcpy(sender, sender_before, sizeof sender);
    gmv_sender_reset(sender, GMV_SENDER_WORDS, act, GMV_ACT_WORDS);
}

static void sender_timer(void)
{
    memcpy(sender, sender_before, sizeof sender);
    gmv_sender_timer(GMV_RESENDS_DEFAULT, sender, GMV_SENDER_WORDS, act, GMV_ACT_WORDS);
}

static void sender_block(void)
{
    memcpy(sender, sender_before, sizeof sender);
    gmv_sender_block(GMV_RESENDS_DEFAULT, block_number, block_type, end_data, end_data_length,
                     sender, GMV_SENDER_WORDS, act, GMV_ACT_WORDS);
}

static void hybrid_control_block(void)
{
    gmv_hybrid_control_block(11, 28, LIMIT, (const uint8_t *)"ADT", 3, number, buffer,
                             sizeof buffer, 0, report, GMV_REPORT_WORDS);
}

static void minimal_control_block(void)
{
    gmv_minimal_control_block(LIMIT, (const uint8_t *)"ADT", 3, number, buffer, sizeof buffer, 0,
                              report, GMV_REPORT_WORDS);
}

/* The station; the block's number is block_number. */
static uint64_t station[GMV_STATION_WORDS], station_before[GMV_STATION_WORDS];
static uint64_t station_report[GMV_STATION_REPORT_WORDS];
static size_t text_length;

static void station_fresh(void)
{
    gmv_station_fresh(station, GMV_STATION_WORDS);
}

static void station_open(void)
{
    memcpy(station, station_before, sizeof station);
    gmv_station_open(station, GMV_STATION_WORDS, station_report, GMV_STATION_REPORT_WORDS);
}

static void station_block(void)
{
    memcpy(station, station_before, sizeof station);
    gmv_station_block(block_number, GMV_ETX, content, text_length, buffer, LIMIT, station,
                      GMV_STATION_WORDS, station_report, GMV_STATION_REPORT_WORDS);
}

static void station_bad(void)
{
    memcpy(station, station_before, sizeof station);
    gmv_station_bad(station, GMV_STATION_WORDS, station_report, GMV_STATION_REPORT_WORDS);
}

static void station_enquiry(void)
{
    memcpy(station, station_before, sizeof station);
    gmv_station_enquiry(station, GMV_STATION_WORDS, station_report, GMV_STATION_REPORT_WORDS);
}

static void station_end(void)
{
    memcpy(station, station_before, sizeof station);
    gmv_station_end(station, GMV_STATION_WORDS, station_report, GMV_STATION_REPORT_WORDS);
}

static void station_bare_enq(void)
{
    memcpy(station, station_before, sizeof station);
    gmv_station_bare_enq(station, GMV_STATION_WORDS, station_report, GMV_STATION_REPORT_WORDS);
}

static void station_interrupt(void)
{
    memcpy(station, station_before, sizeof station);
    gmv_station_interrupt(station, GMV_STATION_WORDS, station_report, GMV_STATION_REPORT_WORDS);
}

/* The master; the reply is block_type with the number block_number. */
static uint64_t master[GMV_MASTER_WORDS], master_before[GMV_MASTER_WORDS];
static uint64_t master_report[GMV_MASTER_REPORT_WORDS];

static void master_fresh(void)
{
    gmv_master_fresh(master, GMV_MASTER_WORDS);
}

static void master_open(void)
{
    memcpy(master, master_before, sizeof master);
    gmv_master_open(master, GMV_MASTER_WORDS, master_report, GMV_MASTER_REPORT_WORDS);
}

static void master_start(void)
{
    memcpy(master, master_before, sizeof master);
    gmv_master_start(text_length, LIMIT, master, GMV_MASTER_WORDS, master_report,
                     GMV_MASTER_REPORT_WORDS);
}

static void master_reply(void)
{
    memcpy(master, master_before, sizeof master);
    gmv_master_reply(block_type, block_number, master, GMV_MASTER_WORDS, master_report,
                     GMV_MASTER_REPORT_WORDS);
}

static void master_timer(void)
{
    memcpy(master, master_before, sizeof master);
    gmv_master_timer(master, GMV_MASTER_WORDS, master_report, GMV_MASTER_REPORT_WORDS);
}

static void master_close(void)
{
    memcpy(master, master_before, sizeof master);
    gmv_master_close(master, GMV_MASTER_WORDS, master_report, GMV_MASTER_REPORT_WORDS);
}

static void master_enquire(void)
{
    memcpy(master, master_before, sizeof master);
    gmv_master_enquire(master, GMV_MASTER_WORDS, master_report, GMV_MASTER_REPORT_WORDS);
}

static void master_may_receive(void)
{
    memcpy(master, master_before, sizeof master);
    gmv_master_may_receive(master, GMV_MASTER_WORDS, master_report, GMV_MASTER_REPORT_WORDS);
}

/* The bytes of the stack that were touched while the call ran. */
static size_t touched_by(void (*call)(void))
{
    size_t untouched = 0;

    memset(stack, PAINT, sizeof stack);
    getcontext(&call_context);
    call_context.uc_stack.ss_sp = stack;
    call_context.uc_stack.ss_size = sizeof stack;
    call_context.uc_link = &test_context;
    makecontext(&call_context, call, 0);
    swapcontext(&test_context, &call_context);
    while (untouched < sizeof stack && stack[untouched] == PAINT)
        untouched++;
    return sizeof stack - untouched;
}

static void takes_little_stack(void (*call)(void))
{
    call(); /* the loader finds C's own functions at the first call, with much stack */
    fresh();
    CHECK(touched_by(call) <= touched_by(no_call) + ALLOWED);
}

static void blocks_take_little_stack(void)
{
    takes_little_stack(version);
    takes_little_stack(fresh);
    takes_little_stack(hybrid_read);
    takes_little_stack(minimal_read);
    takes_little_stack(hybrid_check);
    takes_little_stack(minimal_check);
    takes_little_stack(hybrid_write);
    takes_little_stack(minimal_write);
}

/* A good block, and then one damaged in its data, its count or its sum. */
static void good_and_damaged_blocks(void)
{
    const size_t offsets[] = {9, sizeof block - 6, sizeof block - 4};

    memset(content, 'A', sizeof content);
    hybrid_write();
    memcpy(block, buffer, sizeof block);
    blocks_take_little_stack();
    for (size_t i = 0; i < sizeof offsets / sizeof offsets[0]; i++) {
        block[offsets[i]] ^= 0x40;
        blocks_take_little_stack();
        block[offsets[i]] ^= 0x40;
    }
}

/* A field of three bytes, an empty one, one of two thousand, the last byte, and no field. */
static void fields_take_little_stack(void)
{
    const size_t positions[] = {0, 3, 9, sizeof message - 1, sizeof message, SIZE_MAX};

    for (size_t i = 0; i < sizeof positions / sizeof positions[0]; i++) {
        field_position = positions[i];
        takes_little_stack(field_next);
    }
}

static void messages_take_little_stack(void)
{
    fields_take_little_stack();
    takes_little_stack(header_read);
    takes_little_stack(answer_read);
    takes_little_stack(answer_write);
    takes_little_stack(control_write);
}

/* MSH-3 and MSA-3 have over a thousand bytes each, and the numbers 15 digits. */
static void make_message(void)
{
    static const char first[] = "MSH|^~\\&|", third[] = "|999999999999999\r";
    static const char second[] = "|||||||17|P|2.3.1|999999999999998\rMSA|AA|17|";
    const size_t middle = 2000, end = sizeof message - (sizeof third - 1);

    memset(message, 'A', sizeof message);
    memcpy(message, first, sizeof first - 1);
    memcpy(message + middle, second, sizeof second - 1);
    memcpy(message + end, third, sizeof third - 1);
}

/* A good answer, and then one without its first bar, its last CR or a digit; numbers that are
 * written and ones that are refused; a control ID with a forbidden byte. */
static void good_and_damaged_messages(void)
{
    const uint64_t numbers[] = {0, GMV_MINUS_ONE, 999999999999999, 1000000000000000,
                                UINT64_MAX - 1};
    const size_t offsets[] = {3, sizeof message - 1, sizeof message - 2};

    make_message();
    memset(control_id, 'A', sizeof control_id);
    for (size_t i = 0; i < sizeof numbers / sizeof numbers[0]; i++) {
        number = numbers[i];
        messages_take_little_stack();
    }
    CHECK(header[GMV_HEADER_SEQUENCE_NUMBER] == 999999999999998);
    CHECK(answer[GMV_ANSWER_EXPECTED_NUMBER] == 999999999999999);
    field_position = 9;
    field_next();
    CHECK(field[GMV_NEXT_FOUND] == 1 && field[GMV_NEXT_LENGTH] == 1991);
    for (size_t i = 0; i < sizeof offsets / sizeof offsets[0]; i++) {
        message[offsets[i]] ^= 0x40;
        messages_take_little_stack();
        message[offsets[i]] ^= 0x40;
    }
    control_id[19] = 0x7F;
    messages_take_little_stack();
}

static void control_blocks_take_little_stack(void)
{
    const uint64_t numbers[] = {0, GMV_MINUS_ONE, 1};

    for (size_t i = 0; i < sizeof numbers / sizeof numbers[0]; i++) {
        number = numbers[i];
        takes_little_stack(hybrid_control_block);
        takes_little_stack(minimal_control_block);
    }
}

/* With no decision open, with one of each code and the longest fields, and words that encode no state. */
static void receivers_take_little_stack(void)
{
    const uint64_t nines = UINT64_C(0x3939393939393939), most = UINT64_C(999999999999999);
    const uint64_t states[][GMV_RECEIVER_WORDS] = {
        {0, 0, 0, 0, 0, 0, 0, 0, 0},
        {17, 0, 0, 0, 0, 0, 0, 0, 0},
        {18, 0, 0, 0, 0, 0, 0, 0, 0},
        {most, 0, 0, 0, 0, 0, 0, 0, 0},
        {0, GMV_CODE_AA, most - 1, most - 1, most, 20, nines, nines, nines},
        {17, GMV_CODE_AE, 17, 17, 18, 1, '9', 0, 0},
        {most, GMV_CODE_AR, most, 0, most, 20, nines, nines, nines},
        {17, GMV_CODE_AA, 17, 17, 18, 20, nines, nines, 0},
        {17, GMV_CODE_AA, 17, 17, 19, 1, '9', 0, 0},
        {most + 1, 0, 0, 0, 0, 0, 0, 0, 0}};

    takes_little_stack(receiver_fresh);
    for (size_t i = 0; i < sizeof states / sizeof states[0]; i++) {
        memcpy(receiver_before, states[i], sizeof receiver_before);
        takes_little_stack(receiver_decide);
        takes_little_stack(hybrid_nak);
        for (stored = GMV_NOT_STORED; stored <= GMV_STORED + 1; stored++) {
            takes_little_stack(hybrid_answer);
            takes_little_stack(minimal_answer);
        }
    }
}

/* In every kind of state, and in words that encode none. */
static void senders_take_little_stack(void)
{
    const uint64_t states[][GMV_SENDER_WORDS] = {
        {17, 16, 16, 0, 0, GMV_WAITING_CLOSED, 0},
        {17, 16, 18, 1, 1, GMV_WAITING_CLOSED, 0},
        {17, 16, 16, 1, 0, GMV_WAITING_IDLE, 0},
        {17, 16, 16, 0, 0, GMV_WAITING_RESYNCHRONIZE, 1},
        {17, 16, 17, 1, 0, GMV_WAITING_QUERY, 1},
        {17, 16, 18, 1, 0, GMV_WAITING_TRANSACTION, 1},
        {17, 16, 18, 1, 0, GMV_WAITING_TRANSACTION, 4},
        {17, 17, 18, 0, 0, GMV_WAITING_CLOSED, 0}};

    takes_little_stack(sender_fresh);
    for (size_t i = 0; i < sizeof states / sizeof states[0]; i++) {
        memcpy(sender_before, states[i], sizeof sender_before);
        takes_little_stack(sender_submit);
        takes_little_stack(sender_open);
        takes_little_stack(sender_ended);
        takes_little_stack(sender_reset);
        takes_little_stack(sender_timer);
        takes_little_stack(sender_block);
    }
}

/* Both ends get this data, in a good data block, an N block and a refused block. */
static void ends_take_little_stack(const void *data, size_t length)
{
    const uint64_t blocks[][2] = {
        {GMV_OK, GMV_DATA_BLOCK}, {GMV_OK, GMV_NAK_BLOCK}, {GMV_BYTE, 0}, {GMV_CHECK, 0}};

    end_data = data;
    end_data_length = length;
    for (size_t i = 0; i < sizeof blocks / sizeof blocks[0]; i++) {
        block_number = blocks[i][0];
        block_type = blocks[i][1];
        receivers_take_little_stack();
        senders_take_little_stack();
    }
}

/* What is measured does its work: a transaction is decided on and answered, a refused block is. */
static void receivers_do_their_work(void)
{
    static const char request[] = "MSH|^~\\&|||||||ADT|17|P|2.3.1|17\r";
    const uint64_t before[GMV_RECEIVER_WORDS] = {17, 0, 0, 0, 0, 0, 0, 0, 0};

    block_number = GMV_CHECK;
    block_type = GMV_DATA_BLOCK;
    stored = GMV_STORED;
    end_data = (const uint8_t *)request;
    end_data_length = sizeof request - 1;
    memcpy(receiver_before, before, sizeof receiver_before);
    hybrid_nak();
    CHECK(report[GMV_REPORT_BLOCK_LENGTH] == 16);
    receiver_decide();
    CHECK(decision[GMV_DECISION_TRANSACTION] == 17 && receiver[GMV_RECEIVER_NEW_EXPECTED] == 18);
    memcpy(receiver_before, receiver, sizeof receiver_before);
    hybrid_answer();
    CHECK(report[GMV_REPORT_BLOCK_LENGTH] == 59 && receiver[GMV_RECEIVER_EXPECTED] == 18);
    minimal_answer();
    CHECK(report[GMV_REPORT_BLOCK_LENGTH] == 47 && receiver[GMV_RECEIVER_EXPECTED] == 18);
}

/* A transaction is submitted and delivered. */
static void senders_do_their_work(void)
{
    static const char request[] = "MSH|^~\\&|||||||ADT|17|P|2.3.1|17\r";
    static const char reply[] = "MSH|^~\\&|||||||ACK|1|P|2.3.1\rMSA|AE|17||17\r";
    const uint64_t idle[GMV_SENDER_WORDS] = {17, 16, 16, 1, 0, GMV_WAITING_IDLE, 0};

    block_number = GMV_OK;
    block_type = GMV_DATA_BLOCK;
    end_data = (const uint8_t *)request;
    end_data_length = sizeof request - 1;
    memcpy(sender_before, idle, sizeof sender_before);
    sender_submit();
    CHECK(act[GMV_ACT_SEND] == GMV_SEND_TRANSACTION && act[GMV_ACT_SEND_NUMBER] == 17);
    memcpy(sender_before, sender, sizeof sender_before);
    end_data = (const uint8_t *)reply;
    end_data_length = sizeof reply - 1;
    sender_block();
    CHECK(act[GMV_ACT_EVENT] == GMV_EVENT_DELIVERED && act[GMV_ACT_DELIVERED] == 17);
}

/* A request, an answer to each message, one that freezes the sender, and the long message. */
static void good_and_damaged_ends(void)
{
    static const char *const data[] = {
        "MSH|^~\\&|||||||ADT|17|P|2.3.1|17\r",
        "MSH|^~\\&|||||||ADT|-1|P|2.3.1|-1\r",
        "MSH|^~\\&|||||||ADT|0|P|2.3.1|0\r",
        "MSH|^~\\&|||||||ADT|12345678901234567890|P|2.3.1|999999999999998\r",
        "MSH|^~\\&|||||||ACK|1|P|2.3.1\rMSA|AA|-1||-1\r",
        "MSH|^~\\&|||||||ACK|1|P|2.3.1\rMSA|AA|0||18\r",
        "MSH|^~\\&|||||||ACK|1|P|2.3.1\rMSA|AE|17||17\r",
        "MSH|^~\\&|||||||ACK|1|P|2.3.1\rMSA|AR|17||18\r",
        "MSH|^~\\&|||||||ACK|1|P|2.3.1\rMSA|AR|17||999999999999999\r",
        "MSH|^~\\&|||||||ADT|17|P|2.3.1|17\x7F\r",
        "MSH|^~\\&|||||||ADT|17\x7F|P|2.3.1|17\r",
        ""};

    for (size_t i = 0; i < sizeof data / sizeof data[0]; i++)
        ends_take_little_stack(data[i], strlen(data[i]));
    make_message();
    ends_take_little_stack(message, sizeof message);
    message[3] ^= 0x40;
    ends_take_little_stack(message, sizeof message);
    control_blocks_take_little_stack();
    receivers_do_their_work();
    senders_do_their_work();
}

static void station_takes_little_stack(void)
{
    takes_little_stack(station_fresh);
    takes_little_stack(station_open);
    takes_little_stack(station_block);
    takes_little_stack(station_bad);
    takes_little_stack(station_enquiry);
    takes_little_stack(station_end);
    takes_little_stack(station_bare_enq);
    takes_little_stack(station_interrupt);
}

/* Closed, open, full, with a RINT pending and given, and words that encode no state; each block
 * expected, just before that, another and over 7, with a text that fits or does not. */
static void every_kind_of_station(void)
{
    const uint64_t states[][GMV_STATION_WORDS] = {
        {0, 0, 0, GMV_REPLY_NONE, GMV_INTERRUPT_NONE},
        {1, 1, 0, GMV_REPLY_NONE, GMV_INTERRUPT_PENDING},
        {1, 3, 96, GMV_REPLY_ACK, GMV_INTERRUPT_NONE},
        {1, 3, 96, GMV_REPLY_NAK, GMV_INTERRUPT_PENDING},
        {1, 3, 96, GMV_REPLY_RINT, GMV_INTERRUPT_GIVEN},
        {1, 0, LIMIT, GMV_REPLY_ACK, GMV_INTERRUPT_PENDING},
        {1, 3, LIMIT + 1, GMV_REPLY_NAK, GMV_INTERRUPT_GIVEN},
        {1, 3, 96, GMV_REPLY_RINT, GMV_INTERRUPT_NONE},
        {2, 0, 0, GMV_REPLY_ACK, GMV_INTERRUPT_NONE}};
    const size_t lengths[] = {0, LIMIT - 96, LIMIT};

    memset(content, 'A', sizeof content);
    for (size_t i = 0; i < sizeof states / sizeof states[0]; i++)
        for (block_number = 0; block_number < 9; block_number++)
            for (size_t j = 0; j < sizeof lengths / sizeof lengths[0]; j++) {
                memcpy(station_before, states[i], sizeof station_before);
                text_length = lengths[j];
                station_takes_little_stack();
            }
}

/* What is measured does its work: a RINT is asked for, given with a complete message, and given again. */
static void station_does_its_work(void)
{
    const uint64_t before[] = {1, 3, 96, GMV_REPLY_ACK, GMV_INTERRUPT_NONE};

    memcpy(station_before, before, sizeof station_before);
    station_interrupt();
    memcpy(station_before, station, sizeof station_before);
    block_number = 3;
    text_length = LIMIT - 96;
    station_block();
    CHECK(station_report[GMV_STATION_REPLY] == GMV_REPLY_RINT);
    CHECK(station_report[GMV_STATION_COMPLETE] == 1);
    CHECK(station_report[GMV_STATION_MESSAGE_LENGTH] == LIMIT);
    memcpy(station_before, station, sizeof station_before);
    station_bare_enq();
    CHECK(station_report[GMV_STATION_REPLY] == GMV_REPLY_RINT);
}

static void master_takes_little_stack(void)
{
    const size_t lengths[] = {0, LIMIT + 1, SIZE_MAX};

    takes_little_stack(master_fresh);
    takes_little_stack(master_open);
    for (size_t i = 0; i < sizeof lengths / sizeof lengths[0]; i++) {
        text_length = lengths[i];
        takes_little_stack(master_start);
    }
    takes_little_stack(master_reply);
    takes_little_stack(master_timer);
    takes_little_stack(master_close);
    takes_little_stack(master_enquire);
    takes_little_stack(master_may_receive);
}

/* Closed, idle, waiting with a block before the last, with the last one, after five resends and with
 * the last count, with RINT and the leave to receive, and words that encode no state; each reply, and
 * codes that are none. */
static void every_kind_of_master(void)
{
    const uint64_t states[][GMV_MASTER_WORDS] = {
        {GMV_MASTER_CLOSED, 0, 0, 0, 0, 3, GMV_REPLY_NONE, 0, 0, 0},
        {GMV_MASTER_IDLE, 0, 0, 0, 0, 3, GMV_REPLY_RINT, 1, 0, 0},
        {GMV_MASTER_WAITING, 10, 4, 0, 0, 3, GMV_REPLY_ACK, 0, 0, 0},
        {GMV_MASTER_WAITING, 10, 4, 8, 5, 3, GMV_REPLY_NAK, 1, 1, 0},
        {GMV_MASTER_WAITING, UINT64_MAX, 1, 7, 5, UINT64_MAX, GMV_REPLY_RINT, 1, 0, 0},
        {GMV_MASTER_WAITING, 10, 4, 0, 0, 3, GMV_REPLY_RINT, 1, 1, 1},
        {GMV_MASTER_WAITING, 10, 4, 8, 5, 3, GMV_REPLY_ACK, 1, 0, 1},
        {GMV_MASTER_WAITING, 10, 4, 10, 0, 3, GMV_REPLY_ACK, 0, 0, 0},
        {GMV_MASTER_WAITING, 10, 4, 4, 0, 3, GMV_REPLY_RINT, 0, 0, 0},
        {GMV_MASTER_WAITING + 1, 0, 0, 0, 0, 0, GMV_REPLY_NONE, 0, 0, 0}};

    for (size_t i = 0; i < sizeof states / sizeof states[0]; i++)
        for (block_type = GMV_REPLY_NONE; block_type <= GMV_REPLY_RINT + 1; block_type++)
            for (block_number = 0; block_number < 9; block_number++) {
                memcpy(master_before, states[i], sizeof master_before);
                master_takes_little_stack();
            }
}

/* A RINT is taken, ENQ sent, and the opening reversed by the next ACK. */
static void master_does_its_work(void)
{
    const uint64_t before[] = {GMV_MASTER_WAITING, 10, 4, 0, 0, 3, GMV_REPLY_ACK, 0, 0, 0};

    memcpy(master_before, before, sizeof master_before);
    block_type = GMV_REPLY_RINT;
    master_reply();
    CHECK(master_report[GMV_MASTER_REPORT_ACKNOWLEDGED] == 1);
    CHECK(master_report[GMV_MASTER_REPORT_OFFSET] == 4);
    memcpy(master_before, master, sizeof master_before);
    master_enquire();
    CHECK(master_report[GMV_MASTER_REPORT_SEND] == GMV_MASTER_SEND_ENQ);
    memcpy(master_before, master, sizeof master_before);
    master_may_receive();
    memcpy(master_before, master, sizeof master_before);
    block_type = GMV_REPLY_ACK;
    block_number = 5;
    master_reply();
    CHECK(master_report[GMV_MASTER_REPORT_END] == GMV_MASTER_END_REVERSED);
}

void test_stack(void)
{
    begin_test("no function takes over 1 KiB of stack");
    good_and_damaged_blocks();
    good_and_damaged_messages();
    good_and_damaged_ends();
    every_kind_of_station();
    station_does_its_work();
    every_kind_of_master();
    master_does_its_work();
}

#endif
