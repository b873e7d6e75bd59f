/* The time of a master's act does not depend on the message's length: each act takes as many
 * instructions for a message of 2^64 - 1 bytes as for one of 1,000, and few; nor does it depend on the
 * count. They are counted by the processor's trap flag, which has it signal after each instruction; so
 * the counts are exact, and the same in every run. */
#define _GNU_SOURCE /* sigaction in C99 */
#include "harness.h"

#ifdef __SANITIZE_ADDRESS__

void test_instructions(void) {} /* the plain build's, as stack.c */

#else

#include <signal.h>
#include <string.h>

enum { SIZE = 245, MOST_INSTRUCTIONS = 500 };

static volatile uint64_t instructions;

static void count_instruction(int signal_number)
{
    (void)signal_number;
    instructions++;
}

/* The stack below its pointer is the compiler's for 128 bytes: it is stepped over. */
#define SET_TRAP_FLAG \
    __asm__ volatile("leaq -128(%%rsp), %%rsp\n\tpushfq\n\torq $0x100, (%%rsp)\n\tpopfq\n\t" \
                     "leaq 128(%%rsp), %%rsp" ::: "memory", "cc")
#define CLEAR_TRAP_FLAG \
    __asm__ volatile("leaq -128(%%rsp), %%rsp\n\tpushfq\n\tandq $-0x101, (%%rsp)\n\tpopfq\n\t" \
                     "leaq 128(%%rsp), %%rsp" ::: "memory", "cc")

static void no_call(void) {}

static uint64_t count_all(void (*call)(void))
{
    call(); /* the loader finds C's own functions at the first call */
    instructions = 0;
    SET_TRAP_FLAG;
    call();
    CLEAR_TRAP_FLAG;
    return instructions;
}

/* The instructions of the call itself. */
static uint64_t instructions_of(void (*call)(void))
{
    return count_all(call) - count_all(no_call);
}

/* ---- the calls */

static uint64_t state[GMV_MASTER_WORDS], report[GMV_MASTER_REPORT_WORDS];
static uint64_t message_length, count, reply, number, last_reply = GMV_REPLY_ACK, may_receive;

static void start(void)
{
    const uint64_t idle[] = {GMV_MASTER_IDLE, 0, 0, 0, 0, count, GMV_REPLY_ACK, 0, 0, 0};

    memcpy(state, idle, sizeof state);
    gmv_master_start(message_length, SIZE, state, GMV_MASTER_WORDS, report, GMV_MASTER_REPORT_WORDS);
}

/* The block out is the message's first. A RINT came, and the last reply was last_reply. */
static void set_waiting(uint64_t resends)
{
    const uint64_t waiting[] = {GMV_MASTER_WAITING, message_length, SIZE, 0, resends, count,
                                last_reply, 1, 0, may_receive};

    memcpy(state, waiting, sizeof state);
}

static void take_reply(void)
{
    set_waiting(0);
    gmv_master_reply(reply, number, state, GMV_MASTER_WORDS, report, GMV_MASTER_REPORT_WORDS);
}

static void take_last_acknowledgment(void)
{
    set_waiting(0);
    state[GMV_MASTER_OFFSET] = message_length - 1;
    gmv_master_reply(GMV_REPLY_ACK, 3, state, GMV_MASTER_WORDS, report, GMV_MASTER_REPORT_WORDS);
}

static void run_timer(void)
{
    set_waiting(0);
    gmv_master_timer(state, GMV_MASTER_WORDS, report, GMV_MASTER_REPORT_WORDS);
}

static void run_last_timer(void)
{
    set_waiting(5);
    gmv_master_timer(state, GMV_MASTER_WORDS, report, GMV_MASTER_REPORT_WORDS);
}

static void refuse_close(void)
{
    set_waiting(0);
    gmv_master_close(state, GMV_MASTER_WORDS, report, GMV_MASTER_REPORT_WORDS);
}

static void enquire(void)
{
    set_waiting(0);
    gmv_master_enquire(state, GMV_MASTER_WORDS, report, GMV_MASTER_REPORT_WORDS);
}

static void say_may_receive(void)
{
    set_waiting(0);
    gmv_master_may_receive(state, GMV_MASTER_WORDS, report, GMV_MASTER_REPORT_WORDS);
}

/* ---- the comparisons */

/* Block 3 is out, or is the next, with each of these counts. */
static void same_for_all_lengths(void (*call)(void))
{
    const uint64_t longer[] = {1001, UINT64_C(1) << 20, UINT64_C(1) << 40, UINT64_C(1) << 63, UINT64_MAX};
    const uint64_t higher[] = {10, (UINT64_C(1) << 40) + 2, UINT64_MAX - 5};
    uint64_t least;

    message_length = 1000;
    count = 2;
    least = instructions_of(call);
    CHECK(least > 0 && least <= MOST_INSTRUCTIONS);
    for (size_t i = 0; i < sizeof longer / sizeof longer[0]; i++) {
        message_length = longer[i];
        CHECK(instructions_of(call) == least);
    }
    for (size_t i = 0; i < sizeof higher / sizeof higher[0]; i++) {
        count = higher[i];
        CHECK(instructions_of(call) == least);
    }
}

/* After an ACK; a RINT also after a RINT, by which it is doubtful; and an ACK of the block out and a RINT
 * with the leave to receive. */
static void every_reply(void)
{
    for (reply = GMV_REPLY_ACK; reply <= GMV_REPLY_RINT; reply++)
        for (number = 1; number <= 4; number++)
            same_for_all_lengths(take_reply);
    number = 3;
    reply = GMV_REPLY_RINT;
    last_reply = GMV_REPLY_RINT;
    same_for_all_lengths(take_reply);
    last_reply = GMV_REPLY_ACK;
    may_receive = 1;
    same_for_all_lengths(take_reply);
    reply = GMV_REPLY_ACK;
    same_for_all_lengths(take_reply);
    may_receive = 0;
}

/* What is counted does its work: the block after the first one is named. */
static void acts_do_their_work(void)
{
    message_length = UINT64_MAX;
    count = 2;
    reply = GMV_REPLY_ACK;
    number = 3;
    take_reply();
    CHECK(report[GMV_MASTER_REPORT_ACKNOWLEDGED] == 1 && report[GMV_MASTER_REPORT_OFFSET] == SIZE);
    take_last_acknowledgment();
    CHECK(report[GMV_MASTER_REPORT_DONE] == 1);
    enquire();
    CHECK(report[GMV_MASTER_REPORT_SEND] == GMV_MASTER_SEND_ENQ);
    say_may_receive();
    CHECK(state[GMV_MASTER_MAY_RECEIVE] == 1);
    may_receive = 1;
    take_reply();
    CHECK(report[GMV_MASTER_REPORT_END] == GMV_MASTER_END_REVERSED);
    may_receive = 0;
    run_last_timer();
    CHECK(report[GMV_MASTER_REPORT_END] == GMV_MASTER_END_FAILED);
}

/* Shows that the count can differ: a reader of bytes takes longer for more of them. */
static size_t field_length;

static void find_field(void)
{
    static const uint8_t text[100] = "the longest field";
    uint64_t field[GMV_NEXT_WORDS];

    gmv_field_next(text, field_length, 0, field, GMV_NEXT_WORDS);
}

static void longer_fields_take_longer(void)
{
    uint64_t least;

    field_length = 10;
    least = instructions_of(find_field);
    field_length = 100;
    CHECK(instructions_of(find_field) > least);
}

void test_instructions(void)
{
    struct sigaction counting, before;

    memset(&counting, 0, sizeof counting);
    counting.sa_handler = count_instruction;
    begin_test("master: no act takes more instructions for a longer message or a higher count");
    CHECK(sigaction(SIGTRAP, &counting, &before) == 0);
    same_for_all_lengths(start);
    every_reply();
    same_for_all_lengths(take_last_acknowledgment);
    same_for_all_lengths(run_timer);
    same_for_all_lengths(run_last_timer);
    same_for_all_lengths(refuse_close);
    same_for_all_lengths(enquire);
    same_for_all_lengths(say_may_receive);
    acts_do_their_work();
    longer_fields_take_longer();
    CHECK(sigaction(SIGTRAP, &before, NULL) == 0);
}

#endif
