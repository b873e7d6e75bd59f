/* Memory that a function only writes may hold anything before the call, and a refusal either writes
 * the report anew or leaves what an earlier call put there (the header says which). Each call
 * is made with two fillings of that memory: what it answers and writes is the same.
 *
 * With -DNEVER_WRITTEN, valgrind is told that this memory was never written (docs/TRUSTED.md). */
#include "harness.h"

#include <stdio.h>
#include <string.h>

#ifdef NEVER_WRITTEN
#include <valgrind/memcheck.h>
#else
#define VALGRIND_MAKE_MEM_UNDEFINED(at, size) ((void)(at), (void)(size))
#define VALGRIND_MAKE_MEM_DEFINED(at, size) ((void)(at), (void)(size))
#define VALGRIND_CHECK_MEM_IS_DEFINED(at, size) ((void)(at), (void)(size), 0)
#endif

enum { WORD = sizeof(uint64_t), LIMIT = 128, START = 1 };
enum { SB = GMV_START_BLOCK_DEFAULT, EB = GMV_END_BLOCK_DEFAULT };

/* What a call is lent: a state, a buffer, and a verdict, a report or fields (here all its report). */
typedef struct {
    guarded state, buffer, report;
} memory;

/* What becomes of the report, and which of the memory is a word or a byte too short. */
enum told { KEPT, REWRITTEN };
enum lack { NONE, STATE, BUFFER, REPORT };

/* One call: its function, the number that it answers, the state before it (where that is NULL the
 * function only writes it), and its input: a text and two numbers. */
typedef struct {
    int function;
    uint64_t number;
    enum told told;
    enum lack lack;
    const uint64_t *state;
    const char *text;
    size_t length;
    uint64_t setting, other;
} row;

/* A function: how it is called, and the least memory that it takes. */
typedef struct {
    const char *name;
    uint64_t (*call)(const row *r, memory *m);
    size_t state, buffer, report;
} function;

#define TEXT(text) text, sizeof text - 1
#define INPUT(r) (const uint8_t *)(r)->text, (r)->length
#define STATE_OF(m) words_of(&(m)->state), word_count(&(m)->state)
#define BUFFER_OF(m) (m)->buffer.at, (m)->buffer.size
#define REPORT_OF(m) words_of(&(m)->report), word_count(&(m)->report)

/* ---- the functions */

static uint64_t reader_fresh(const row *r, memory *m)
{
    (void)r;
    return gmv_reader_fresh(STATE_OF(m));
}

static uint64_t hybrid_read(const row *r, memory *m)
{
    return gmv_hybrid_read(SB, EB, r->setting, STATE_OF(m), INPUT(r), BUFFER_OF(m), REPORT_OF(m));
}

static uint64_t minimal_read(const row *r, memory *m)
{
    return gmv_minimal_read(r->setting, STATE_OF(m), INPUT(r), BUFFER_OF(m), REPORT_OF(m));
}

static uint64_t hybrid_check(const row *r, memory *m)
{
    return gmv_hybrid_check(SB, EB, r->setting, INPUT(r), REPORT_OF(m));
}

static uint64_t minimal_check(const row *r, memory *m)
{
    return gmv_minimal_check(r->setting, INPUT(r), REPORT_OF(m));
}

static uint64_t hybrid_write(const row *r, memory *m)
{
    return gmv_hybrid_write(SB, EB, r->setting, r->other, INPUT(r), BUFFER_OF(m), START,
                            REPORT_OF(m));
}

static uint64_t minimal_write(const row *r, memory *m)
{
    return gmv_minimal_write(r->setting, INPUT(r), BUFFER_OF(m), START, REPORT_OF(m));
}

static uint64_t header_read(const row *r, memory *m)
{
    return gmv_header_read(INPUT(r), REPORT_OF(m));
}

static uint64_t answer_read(const row *r, memory *m)
{
    return gmv_answer_read(INPUT(r), REPORT_OF(m));
}

static uint64_t field_next(const row *r, memory *m)
{
    return gmv_field_next(INPUT(r), (size_t)r->setting, REPORT_OF(m));
}

static uint64_t answer_write(const row *r, memory *m)
{
    return gmv_answer_write(INPUT(r), r->setting, r->other, BUFFER_OF(m), START, REPORT_OF(m));
}

static uint64_t control_write(const row *r, memory *m)
{
    return gmv_control_write(INPUT(r), r->other, BUFFER_OF(m), START, REPORT_OF(m));
}

static uint64_t hybrid_control_block(const row *r, memory *m)
{
    return gmv_hybrid_control_block(SB, EB, r->setting, INPUT(r), r->other, BUFFER_OF(m), START,
                                    REPORT_OF(m));
}

static uint64_t minimal_control_block(const row *r, memory *m)
{
    return gmv_minimal_control_block(r->setting, INPUT(r), r->other, BUFFER_OF(m), START,
                                     REPORT_OF(m));
}

static uint64_t receiver_fresh(const row *r, memory *m)
{
    (void)r;
    return gmv_receiver_fresh(STATE_OF(m));
}

static uint64_t receiver_decide(const row *r, memory *m)
{
    return gmv_receiver_decide(r->setting, r->other, INPUT(r), STATE_OF(m), REPORT_OF(m));
}

static uint64_t hybrid_answer(const row *r, memory *m)
{
    return gmv_hybrid_answer(SB, EB, r->setting, r->other, STATE_OF(m), BUFFER_OF(m), START,
                             REPORT_OF(m));
}

static uint64_t minimal_answer(const row *r, memory *m)
{
    return gmv_minimal_answer(r->setting, r->other, STATE_OF(m), BUFFER_OF(m), START, REPORT_OF(m));
}

static uint64_t hybrid_nak(const row *r, memory *m)
{
    return gmv_hybrid_nak(SB, EB, r->setting, r->other, STATE_OF(m), BUFFER_OF(m), START,
                          REPORT_OF(m));
}

static uint64_t sender_fresh(const row *r, memory *m)
{
    return gmv_sender_fresh(r->setting, STATE_OF(m));
}

static uint64_t sender_submit(const row *r, memory *m)
{
    return gmv_sender_submit(r->setting, INPUT(r), STATE_OF(m), REPORT_OF(m));
}

static uint64_t sender_open(const row *r, memory *m)
{
    (void)r;
    return gmv_sender_open(STATE_OF(m), REPORT_OF(m));
}

static uint64_t sender_ended(const row *r, memory *m)
{
    (void)r;
    return gmv_sender_ended(STATE_OF(m), REPORT_OF(m));
}

static uint64_t sender_reset(const row *r, memory *m)
{
    (void)r;
    return gmv_sender_reset(STATE_OF(m), REPORT_OF(m));
}

static uint64_t sender_timer(const row *r, memory *m)
{
    return gmv_sender_timer(r->setting, STATE_OF(m), REPORT_OF(m));
}

static uint64_t sender_block(const row *r, memory *m)
{
    return gmv_sender_block(r->setting, r->other, GMV_DATA_BLOCK, INPUT(r), STATE_OF(m),
                            REPORT_OF(m));
}

static uint64_t station_fresh(const row *r, memory *m)
{
    (void)r;
    return gmv_station_fresh(STATE_OF(m));
}

static uint64_t station_open(const row *r, memory *m)
{
    (void)r;
    return gmv_station_open(STATE_OF(m), REPORT_OF(m));
}

static uint64_t station_block(const row *r, memory *m)
{
    return gmv_station_block(r->setting, r->other, INPUT(r), BUFFER_OF(m), STATE_OF(m),
                             REPORT_OF(m));
}

static uint64_t station_bad(const row *r, memory *m)
{
    (void)r;
    return gmv_station_bad(STATE_OF(m), REPORT_OF(m));
}

static uint64_t station_enquiry(const row *r, memory *m)
{
    (void)r;
    return gmv_station_enquiry(STATE_OF(m), REPORT_OF(m));
}

static uint64_t station_end(const row *r, memory *m)
{
    (void)r;
    return gmv_station_end(STATE_OF(m), REPORT_OF(m));
}

static uint64_t station_bare_enq(const row *r, memory *m)
{
    (void)r;
    return gmv_station_bare_enq(STATE_OF(m), REPORT_OF(m));
}

static uint64_t station_interrupt(const row *r, memory *m)
{
    (void)r;
    return gmv_station_interrupt(STATE_OF(m), REPORT_OF(m));
}

static uint64_t master_fresh(const row *r, memory *m)
{
    (void)r;
    return gmv_master_fresh(STATE_OF(m));
}

static uint64_t master_open(const row *r, memory *m)
{
    (void)r;
    return gmv_master_open(STATE_OF(m), REPORT_OF(m));
}

static uint64_t master_start(const row *r, memory *m)
{
    return gmv_master_start((size_t)r->setting, r->other, STATE_OF(m), REPORT_OF(m));
}

static uint64_t master_reply(const row *r, memory *m)
{
    return gmv_master_reply(r->setting, r->other, STATE_OF(m), REPORT_OF(m));
}

static uint64_t master_timer(const row *r, memory *m)
{
    (void)r;
    return gmv_master_timer(STATE_OF(m), REPORT_OF(m));
}

static uint64_t master_close(const row *r, memory *m)
{
    (void)r;
    return gmv_master_close(STATE_OF(m), REPORT_OF(m));
}

static uint64_t master_enquire(const row *r, memory *m)
{
    (void)r;
    return gmv_master_enquire(STATE_OF(m), REPORT_OF(m));
}

static uint64_t master_may_receive(const row *r, memory *m)
{
    (void)r;
    return gmv_master_may_receive(STATE_OF(m), REPORT_OF(m));
}

enum {
    READER_FRESH, HYBRID_READ, MINIMAL_READ, HYBRID_CHECK, MINIMAL_CHECK, HYBRID_WRITE,
    MINIMAL_WRITE, HEADER_READ, ANSWER_READ, FIELD_NEXT, ANSWER_WRITE, CONTROL_WRITE,
    HYBRID_CONTROL_BLOCK, MINIMAL_CONTROL_BLOCK, RECEIVER_FRESH, RECEIVER_DECIDE, HYBRID_ANSWER,
    MINIMAL_ANSWER, HYBRID_NAK, SENDER_FRESH, SENDER_SUBMIT, SENDER_OPEN, SENDER_ENDED,
    SENDER_RESET, SENDER_TIMER, SENDER_BLOCK, STATION_FRESH, STATION_OPEN, STATION_BLOCK, STATION_BAD,
    STATION_ENQUIRY, STATION_END, STATION_BARE_ENQ, STATION_INTERRUPT, MASTER_FRESH, MASTER_OPEN,
    MASTER_START, MASTER_REPLY, MASTER_TIMER, MASTER_CLOSE, MASTER_ENQUIRE, MASTER_MAY_RECEIVE,
    FUNCTIONS
};

static const function functions[FUNCTIONS] = {
    {"reader_fresh", reader_fresh, GMV_READER_WORDS, 0, 0},
    {"hybrid_read", hybrid_read, GMV_READER_WORDS, LIMIT + 12, GMV_VERDICT_WORDS},
    {"minimal_read", minimal_read, GMV_READER_WORDS, LIMIT, GMV_VERDICT_WORDS},
    {"hybrid_check", hybrid_check, 0, 0, GMV_VERDICT_WORDS},
    {"minimal_check", minimal_check, 0, 0, GMV_VERDICT_WORDS},
    {"hybrid_write", hybrid_write, 0, START + 2 + 15, GMV_REPORT_WORDS},
    {"minimal_write", minimal_write, 0, START + 2 + 3, GMV_REPORT_WORDS},
    {"header_read", header_read, 0, 0, GMV_HEADER_WORDS},
    {"answer_read", answer_read, 0, 0, GMV_ANSWER_WORDS},
    {"field_next", field_next, 0, 0, GMV_NEXT_WORDS},
    {"answer_write", answer_write, 0, START + 38 + 2 + 16, GMV_REPORT_WORDS},
    {"control_write", control_write, 0, START + 33, GMV_REPORT_WORDS},
    {"hybrid_control_block", hybrid_control_block, 0, START + 48, GMV_REPORT_WORDS},
    {"minimal_control_block", minimal_control_block, 0, START + 36, GMV_REPORT_WORDS},
    {"receiver_fresh", receiver_fresh, GMV_RECEIVER_WORDS, 0, 0},
    {"receiver_decide", receiver_decide, GMV_RECEIVER_WORDS, 0, GMV_DECISION_WORDS},
    {"hybrid_answer", hybrid_answer, GMV_RECEIVER_WORDS, START + LIMIT + 15, GMV_REPORT_WORDS},
    {"minimal_answer", minimal_answer, GMV_RECEIVER_WORDS, START + LIMIT + 3, GMV_REPORT_WORDS},
    {"hybrid_nak", hybrid_nak, GMV_RECEIVER_WORDS, START + LIMIT + 15, GMV_REPORT_WORDS},
    {"sender_fresh", sender_fresh, GMV_SENDER_WORDS, 0, 0},
    {"sender_submit", sender_submit, GMV_SENDER_WORDS, 0, GMV_ACT_WORDS},
    {"sender_open", sender_open, GMV_SENDER_WORDS, 0, GMV_ACT_WORDS},
    {"sender_ended", sender_ended, GMV_SENDER_WORDS, 0, GMV_ACT_WORDS},
    {"sender_reset", sender_reset, GMV_SENDER_WORDS, 0, GMV_ACT_WORDS},
    {"sender_timer", sender_timer, GMV_SENDER_WORDS, 0, GMV_ACT_WORDS},
    {"sender_block", sender_block, GMV_SENDER_WORDS, 0, GMV_ACT_WORDS},
    {"station_fresh", station_fresh, GMV_STATION_WORDS, 0, 0},
    {"station_open", station_open, GMV_STATION_WORDS, 0, GMV_STATION_REPORT_WORDS},
    {"station_block", station_block, GMV_STATION_WORDS, 9, GMV_STATION_REPORT_WORDS},
    {"station_bad", station_bad, GMV_STATION_WORDS, 0, GMV_STATION_REPORT_WORDS},
    {"station_enquiry", station_enquiry, GMV_STATION_WORDS, 0, GMV_STATION_REPORT_WORDS},
    {"station_end", station_end, GMV_STATION_WORDS, 0, GMV_STATION_REPORT_WORDS},
    {"station_bare_enq", station_bare_enq, GMV_STATION_WORDS, 0, GMV_STATION_REPORT_WORDS},
    {"station_interrupt", station_interrupt, GMV_STATION_WORDS, 0, GMV_STATION_REPORT_WORDS},
    {"master_fresh", master_fresh, GMV_MASTER_WORDS, 0, 0},
    {"master_open", master_open, GMV_MASTER_WORDS, 0, GMV_MASTER_REPORT_WORDS},
    {"master_start", master_start, GMV_MASTER_WORDS, 0, GMV_MASTER_REPORT_WORDS},
    {"master_reply", master_reply, GMV_MASTER_WORDS, 0, GMV_MASTER_REPORT_WORDS},
    {"master_timer", master_timer, GMV_MASTER_WORDS, 0, GMV_MASTER_REPORT_WORDS},
    {"master_close", master_close, GMV_MASTER_WORDS, 0, GMV_MASTER_REPORT_WORDS},
    {"master_enquire", master_enquire, GMV_MASTER_WORDS, 0, GMV_MASTER_REPORT_WORDS},
    {"master_may_receive", master_may_receive, GMV_MASTER_WORDS, 0, GMV_MASTER_REPORT_WORDS},
};

/* ---- the calls */

#define GOOD "\x0B" "D23\r" "A\r" "00007" "015" "\x1C\r"
#define WRONG_SUM "\x0B" "D23\r" "A\r" "00007" "016" "\x1C\r"
#define WRONG_COUNT "\x0B" "D23\r" "A\r" "00008" "015" "\x1C\r"
#define FORBIDDEN "\x0B" "D23\r" "\x7F\r" "00007" "015" "\x1C\r"
#define WRONG_TYPE "\x0B" "X23\r" "A\r" "00007" "015" "\x1C\r"
#define REQUEST "MSH|^~\\&|||||||ADT|6|P|2.3.1|6\r"
#define ANSWER "MSH|^~\\&|||||||ACK|6|P|2.3.1\rMSA|AA|6||6\r"
#define LONG_REQUEST REQUEST REQUEST REQUEST REQUEST REQUEST
#define TOO_LARGE UINT64_C(1000000000000000)

static const uint64_t reader[] = {0, 0, 0, 0}, no_reader[] = {3, 0, 0, 0};
static const uint64_t expects_6[] = {6, 0, 0, 0, 0, 0, 0, 0, 0};
static const uint64_t open_on_6[] = {6, GMV_CODE_AA, 6, 6, 7, 1, '6', 0, 0};
static const uint64_t open_on_5[] = {6, GMV_CODE_AR, 6, 0, 6, 1, '5', 0, 0};
static const uint64_t no_receiver[] = {TOO_LARGE, 0, 0, 0, 0, 0, 0, 0, 0};
static const uint64_t no_decision[] = {6, GMV_CODE_AA, 6, 6, 8, 1, '6', 0, 0};
static const uint64_t closed[] = {5, 5, 5, 1, 0, GMV_WAITING_CLOSED, 0};
static const uint64_t waits[] = {5, 5, 6, 1, 0, GMV_WAITING_TRANSACTION, 1};
static const uint64_t frozen[] = {5, 5, 5, 1, 1, GMV_WAITING_CLOSED, 0};
static const uint64_t station[] = {1, 3, 2, GMV_REPLY_ACK, GMV_INTERRUPT_NONE};
static const uint64_t asked_station[] = {1, 3, 2, GMV_REPLY_ACK, GMV_INTERRUPT_PENDING};
static const uint64_t rint_station[] = {1, 3, 2, GMV_REPLY_RINT, GMV_INTERRUPT_GIVEN};
static const uint64_t closed_station[] = {0, 0, 0, 0, 0};
static const uint64_t no_station[] = {1, 8, 0, GMV_REPLY_ACK, GMV_INTERRUPT_NONE};
static const uint64_t ended_master[] = {GMV_MASTER_CLOSED, 0, 0, 0, 0, 3, 0, 0, 0, 0};
static const uint64_t idle_master[] = {GMV_MASTER_IDLE, 0, 0, 0, 0, 3, GMV_REPLY_ACK, 0, 0, 0};
static const uint64_t rint_master[] = {GMV_MASTER_IDLE, 0, 0, 0, 0, 3, GMV_REPLY_RINT, 1, 0, 0};
static const uint64_t busy_master[] = {GMV_MASTER_WAITING, 10, 4, 0, 2, 3, GMV_REPLY_ACK, 0, 0, 0};
static const uint64_t turning_master[] = {GMV_MASTER_WAITING, 10, 4, 0, 2, 3, GMV_REPLY_RINT, 1, 1, 1};
static const uint64_t last_master[] = {GMV_MASTER_WAITING, 10, 4, 8, 5, 3, GMV_REPLY_NAK, 1, 0, 0};
static const uint64_t no_master[] = {GMV_MASTER_WAITING, 10, 4, 0, 6, 3, GMV_REPLY_RINT, 1, 0, 0};

static const row block_rows[] = {
    {READER_FRESH, 0, KEPT, NONE, NULL, "", 0, 0, 0},
    {READER_FRESH, 2, KEPT, STATE, NULL, "", 0, 0, 0},
    {HYBRID_READ, 0, REWRITTEN, NONE, reader, TEXT(GOOD), LIMIT, 0},
    {HYBRID_READ, 0, REWRITTEN, NONE, reader, TEXT("\x0B" "D2"), LIMIT, 0},
    {HYBRID_READ, 0, REWRITTEN, NONE, reader, TEXT(WRONG_SUM), LIMIT, 0},
    {HYBRID_READ, 1, KEPT, NONE, reader, TEXT(GOOD), 0, 0},
    {HYBRID_READ, 2, KEPT, STATE, reader, TEXT(GOOD), LIMIT, 0},
    {HYBRID_READ, 2, KEPT, BUFFER, reader, TEXT(GOOD), LIMIT, 0},
    {HYBRID_READ, 2, KEPT, REPORT, reader, TEXT(GOOD), LIMIT, 0},
    {HYBRID_READ, 11, KEPT, NONE, no_reader, TEXT(GOOD), LIMIT, 0},
    {MINIMAL_READ, 0, REWRITTEN, NONE, reader, TEXT(GOOD), LIMIT, 0},
    {MINIMAL_READ, 1, KEPT, NONE, reader, TEXT(GOOD), 0, 0},
    {MINIMAL_READ, 2, KEPT, BUFFER, reader, TEXT(GOOD), LIMIT, 0},
    {MINIMAL_READ, 2, KEPT, REPORT, reader, TEXT(GOOD), LIMIT, 0},
    {MINIMAL_READ, 11, KEPT, NONE, no_reader, TEXT(GOOD), LIMIT, 0},
    {HYBRID_CHECK, 0, REWRITTEN, NONE, NULL, TEXT(GOOD), LIMIT, 0},
    {HYBRID_CHECK, 1, KEPT, NONE, NULL, TEXT(GOOD), 0, 0},
    {HYBRID_CHECK, 2, KEPT, REPORT, NULL, TEXT(GOOD), LIMIT, 0},
    {HYBRID_CHECK, 3, REWRITTEN, NONE, NULL, TEXT(FORBIDDEN), LIMIT, 0},
    {HYBRID_CHECK, 4, REWRITTEN, NONE, NULL, TEXT(GOOD), 1, 0},
    {HYBRID_CHECK, 5, REWRITTEN, NONE, NULL, TEXT(WRONG_TYPE), LIMIT, 0},
    {HYBRID_CHECK, 6, REWRITTEN, NONE, NULL, TEXT(WRONG_COUNT), LIMIT, 0},
    {HYBRID_CHECK, 7, REWRITTEN, NONE, NULL, TEXT(WRONG_SUM), LIMIT, 0},
    {HYBRID_CHECK, 8, REWRITTEN, NONE, NULL, TEXT("\x0B" "D\x0B"), LIMIT, 0},
    {MINIMAL_CHECK, 0, REWRITTEN, NONE, NULL, TEXT("\x0B" "A\x1C\r"), LIMIT, 0},
    {MINIMAL_CHECK, 1, KEPT, NONE, NULL, "", 0, 0, 0},
    {MINIMAL_CHECK, 2, KEPT, REPORT, NULL, "", 0, LIMIT, 0},
    {MINIMAL_CHECK, 3, REWRITTEN, NONE, NULL, TEXT("\x0B" "\x7F\x1C\r"), LIMIT, 0},
    {MINIMAL_CHECK, 4, REWRITTEN, NONE, NULL, TEXT("\x0B" "AA\x1C\r"), 1, 0},
    {MINIMAL_CHECK, 5, REWRITTEN, NONE, NULL, TEXT("\x0B" "A\x1C" "A"), LIMIT, 0},
    {MINIMAL_CHECK, 8, REWRITTEN, NONE, NULL, TEXT("\x0B" "A\x0B"), LIMIT, 0},
    {HYBRID_WRITE, 0, REWRITTEN, NONE, NULL, TEXT("A\r"), LIMIT, 'D'},
    {HYBRID_WRITE, 1, KEPT, NONE, NULL, TEXT("A\r"), 0, 'D'},
    {HYBRID_WRITE, 2, KEPT, BUFFER, NULL, TEXT("A\r"), LIMIT, 'D'},
    {HYBRID_WRITE, 2, KEPT, REPORT, NULL, TEXT("A\r"), LIMIT, 'D'},
    {HYBRID_WRITE, 3, REWRITTEN, NONE, NULL, TEXT("A\n"), LIMIT, 'D'},
    {HYBRID_WRITE, 4, REWRITTEN, NONE, NULL, TEXT("A\r"), 1, 'D'},
    {HYBRID_WRITE, 5, REWRITTEN, NONE, NULL, TEXT("A\r"), LIMIT, 'X'},
    {MINIMAL_WRITE, 0, REWRITTEN, NONE, NULL, TEXT("A\r"), LIMIT, 0},
    {MINIMAL_WRITE, 1, KEPT, NONE, NULL, TEXT("A\r"), 0, 0},
    {MINIMAL_WRITE, 2, KEPT, BUFFER, NULL, TEXT("A\r"), LIMIT, 0},
    {MINIMAL_WRITE, 2, KEPT, REPORT, NULL, TEXT("A\r"), LIMIT, 0},
    {MINIMAL_WRITE, 3, REWRITTEN, NONE, NULL, TEXT("\x80"), LIMIT, 0},
    {MINIMAL_WRITE, 4, REWRITTEN, NONE, NULL, TEXT("A\r"), 1, 0},
};

static const row message_rows[] = {
    {HEADER_READ, 0, REWRITTEN, NONE, NULL, TEXT(REQUEST), 0, 0},
    {HEADER_READ, 2, KEPT, REPORT, NULL, TEXT(REQUEST), 0, 0},
    {HEADER_READ, 9, KEPT, NONE, NULL, TEXT("x"), 0, 0},
    {ANSWER_READ, 0, REWRITTEN, NONE, NULL, TEXT(ANSWER), 0, 0},
    {ANSWER_READ, 2, KEPT, REPORT, NULL, TEXT(ANSWER), 0, 0},
    {ANSWER_READ, 9, KEPT, NONE, NULL, TEXT(REQUEST), 0, 0},
    {FIELD_NEXT, 0, REWRITTEN, NONE, NULL, TEXT(ANSWER), 0, 0},
    {FIELD_NEXT, 0, REWRITTEN, NONE, NULL, TEXT("x"), 9, 0},
    {FIELD_NEXT, 2, KEPT, REPORT, NULL, TEXT(ANSWER), 0, 0},
    {ANSWER_WRITE, 0, REWRITTEN, NONE, NULL, TEXT("6"), GMV_CODE_AA, 6},
    {ANSWER_WRITE, 1, KEPT, NONE, NULL, TEXT("6"), 0, 6},
    {ANSWER_WRITE, 2, KEPT, BUFFER, NULL, TEXT("6"), GMV_CODE_AA, TOO_LARGE},
    {ANSWER_WRITE, 2, KEPT, REPORT, NULL, TEXT("6"), GMV_CODE_AA, 6},
    {ANSWER_WRITE, 3, REWRITTEN, NONE, NULL, TEXT("\n"), GMV_CODE_AA, 6},
    {ANSWER_WRITE, 9, REWRITTEN, NONE, NULL, TEXT("|"), GMV_CODE_AA, 6},
    {ANSWER_WRITE, 9, REWRITTEN, NONE, NULL, "", 0, GMV_CODE_AA, 6},
    {ANSWER_WRITE, 10, REWRITTEN, NONE, NULL, TEXT("6"), GMV_CODE_AA, TOO_LARGE},
    {CONTROL_WRITE, 0, REWRITTEN, NONE, NULL, TEXT("ADT"), 0, GMV_MINUS_ONE},
    {CONTROL_WRITE, 0, REWRITTEN, NONE, NULL, TEXT("ADT"), 0, 0},
    {CONTROL_WRITE, 1, KEPT, NONE, NULL, TEXT("adt"), 0, 0},
    {CONTROL_WRITE, 2, KEPT, BUFFER, NULL, TEXT("ADT"), 0, GMV_MINUS_ONE},
    {CONTROL_WRITE, 2, KEPT, REPORT, NULL, TEXT("ADT"), 0, 0},
    {HYBRID_CONTROL_BLOCK, 0, REWRITTEN, NONE, NULL, TEXT("ADT"), LIMIT, 0},
    {HYBRID_CONTROL_BLOCK, 0, REWRITTEN, NONE, NULL, TEXT("ADT"), LIMIT, GMV_MINUS_ONE},
    {HYBRID_CONTROL_BLOCK, 1, KEPT, NONE, NULL, TEXT("ADT"), LIMIT, 1},
    {HYBRID_CONTROL_BLOCK, 2, KEPT, BUFFER, NULL, TEXT("ADT"), LIMIT, GMV_MINUS_ONE},
    {HYBRID_CONTROL_BLOCK, 2, KEPT, REPORT, NULL, TEXT("ADT"), LIMIT, 0},
    {MINIMAL_CONTROL_BLOCK, 0, REWRITTEN, NONE, NULL, TEXT("ADT"), LIMIT, 0},
    {MINIMAL_CONTROL_BLOCK, 0, REWRITTEN, NONE, NULL, TEXT("ADT"), LIMIT, GMV_MINUS_ONE},
    {MINIMAL_CONTROL_BLOCK, 1, KEPT, NONE, NULL, TEXT("ADT"), LIMIT, 1},
    {MINIMAL_CONTROL_BLOCK, 2, KEPT, BUFFER, NULL, TEXT("ADT"), LIMIT, GMV_MINUS_ONE},
    {MINIMAL_CONTROL_BLOCK, 2, KEPT, REPORT, NULL, TEXT("ADT"), LIMIT, 0},
};

static const row receiver_rows[] = {
    {RECEIVER_FRESH, 0, KEPT, NONE, NULL, "", 0, 0, 0},
    {RECEIVER_FRESH, 2, KEPT, STATE, NULL, "", 0, 0, 0},
    {RECEIVER_DECIDE, 0, REWRITTEN, NONE, expects_6, TEXT(REQUEST), GMV_CODE_AA, 'D'},
    {RECEIVER_DECIDE, 0, REWRITTEN, NONE, expects_6, TEXT("x"), GMV_CODE_AE, 'D'},
    {RECEIVER_DECIDE, 0, REWRITTEN, NONE, expects_6, TEXT("X"), GMV_CODE_AA, 'N'},
    {RECEIVER_DECIDE, 1, KEPT, NONE, expects_6, TEXT(REQUEST), GMV_CODE_AR, 'D'},
    {RECEIVER_DECIDE, 1, KEPT, NONE, expects_6, TEXT(REQUEST), GMV_CODE_AA, 0},
    {RECEIVER_DECIDE, 2, KEPT, STATE, expects_6, TEXT(REQUEST), GMV_CODE_AA, 'D'},
    {RECEIVER_DECIDE, 2, KEPT, REPORT, expects_6, TEXT(REQUEST), GMV_CODE_AA, 'D'},
    {RECEIVER_DECIDE, 11, KEPT, NONE, open_on_6, TEXT(REQUEST), GMV_CODE_AA, 'D'},
    {RECEIVER_DECIDE, 11, KEPT, NONE, open_on_6, TEXT("X"), GMV_CODE_AA, 'N'},
    {RECEIVER_DECIDE, 11, KEPT, NONE, no_receiver, TEXT("X"), GMV_CODE_AA, 'N'},
    {RECEIVER_DECIDE, 11, KEPT, NONE, no_decision, TEXT("X"), GMV_CODE_AA, 'N'},
    {HYBRID_ANSWER, 0, REWRITTEN, NONE, open_on_6, "", 0, LIMIT, GMV_STORED},
    {HYBRID_ANSWER, 0, REWRITTEN, NONE, open_on_5, "", 0, LIMIT, GMV_STORED},
    {HYBRID_ANSWER, 0, REWRITTEN, NONE, open_on_6, "", 0, LIMIT, GMV_NOT_STORED},
    {HYBRID_ANSWER, 1, KEPT, NONE, open_on_6, "", 0, LIMIT - 1, GMV_STORED},
    {HYBRID_ANSWER, 1, KEPT, NONE, open_on_6, "", 0, LIMIT, 2},
    {HYBRID_ANSWER, 2, KEPT, STATE, open_on_6, "", 0, LIMIT, GMV_STORED},
    {HYBRID_ANSWER, 2, KEPT, BUFFER, open_on_6, "", 0, LIMIT, GMV_STORED},
    {HYBRID_ANSWER, 2, KEPT, BUFFER, open_on_6, "", 0, LIMIT, GMV_NOT_STORED},
    {HYBRID_ANSWER, 2, KEPT, REPORT, open_on_6, "", 0, LIMIT, GMV_STORED},
    {HYBRID_ANSWER, 11, KEPT, NONE, expects_6, "", 0, LIMIT, GMV_STORED},
    {HYBRID_ANSWER, 11, KEPT, NONE, no_decision, "", 0, LIMIT, GMV_STORED},
    {MINIMAL_ANSWER, 0, REWRITTEN, NONE, open_on_6, "", 0, LIMIT, GMV_STORED},
    {MINIMAL_ANSWER, 0, REWRITTEN, NONE, open_on_5, "", 0, LIMIT, GMV_STORED},
    {MINIMAL_ANSWER, 0, REWRITTEN, NONE, open_on_6, "", 0, LIMIT, GMV_NOT_STORED},
    {MINIMAL_ANSWER, 1, KEPT, NONE, open_on_6, "", 0, LIMIT - 1, GMV_STORED},
    {MINIMAL_ANSWER, 1, KEPT, NONE, open_on_6, "", 0, LIMIT, 2},
    {MINIMAL_ANSWER, 2, KEPT, STATE, open_on_6, "", 0, LIMIT, GMV_STORED},
    {MINIMAL_ANSWER, 2, KEPT, BUFFER, open_on_6, "", 0, LIMIT, GMV_STORED},
    {MINIMAL_ANSWER, 2, KEPT, BUFFER, open_on_6, "", 0, LIMIT, GMV_NOT_STORED},
    {MINIMAL_ANSWER, 2, KEPT, REPORT, open_on_6, "", 0, LIMIT, GMV_STORED},
    {MINIMAL_ANSWER, 11, KEPT, NONE, expects_6, "", 0, LIMIT, GMV_STORED},
    {MINIMAL_ANSWER, 11, KEPT, NONE, no_decision, "", 0, LIMIT, GMV_STORED},
    {HYBRID_NAK, 0, REWRITTEN, NONE, expects_6, "", 0, LIMIT, GMV_CHECK},
    {HYBRID_NAK, 0, REWRITTEN, NONE, expects_6, "", 0, LIMIT, GMV_HEAD},
    {HYBRID_NAK, 1, KEPT, NONE, expects_6, "", 0, LIMIT - 1, GMV_CHECK},
    {HYBRID_NAK, 1, KEPT, NONE, expects_6, "", 0, LIMIT, GMV_OK},
    {HYBRID_NAK, 2, KEPT, STATE, expects_6, "", 0, LIMIT, GMV_CHECK},
    {HYBRID_NAK, 2, KEPT, BUFFER, expects_6, "", 0, LIMIT, GMV_CHECK},
    {HYBRID_NAK, 2, KEPT, REPORT, expects_6, "", 0, LIMIT, GMV_CHECK},
    {HYBRID_NAK, 11, KEPT, NONE, open_on_6, "", 0, LIMIT, GMV_CHECK},
    {HYBRID_NAK, 11, KEPT, NONE, no_receiver, "", 0, LIMIT, GMV_CHECK},
};

static const row sender_rows[] = {
    {SENDER_FRESH, 0, KEPT, NONE, NULL, "", 0, 5, 0},
    {SENDER_FRESH, 1, KEPT, NONE, NULL, "", 0, 0, 0},
    {SENDER_FRESH, 2, KEPT, STATE, NULL, "", 0, 5, 0},
    {SENDER_SUBMIT, 0, REWRITTEN, NONE, closed, TEXT(REQUEST), LIMIT, 0},
    {SENDER_SUBMIT, 1, KEPT, NONE, closed, TEXT(REQUEST), LIMIT - 1, 0},
    {SENDER_SUBMIT, 2, KEPT, STATE, closed, TEXT(REQUEST), LIMIT, 0},
    {SENDER_SUBMIT, 2, KEPT, REPORT, closed, TEXT(REQUEST), LIMIT, 0},
    {SENDER_SUBMIT, 11, REWRITTEN, NONE, frozen, TEXT(REQUEST), LIMIT, 0},
    {SENDER_SUBMIT, 4, REWRITTEN, NONE, closed, TEXT(LONG_REQUEST), LIMIT, 0},
    {SENDER_SUBMIT, 3, REWRITTEN, NONE, closed, TEXT(REQUEST "\n"), LIMIT, 0},
    {SENDER_SUBMIT, 9, REWRITTEN, NONE, closed, TEXT("PID|\r"), LIMIT, 0},
    {SENDER_SUBMIT, 10, REWRITTEN, NONE, waits, TEXT(REQUEST), LIMIT, 0},
    {SENDER_OPEN, 0, REWRITTEN, NONE, closed, "", 0, 0, 0},
    {SENDER_OPEN, 2, KEPT, STATE, closed, "", 0, 0, 0},
    {SENDER_OPEN, 2, KEPT, REPORT, closed, "", 0, 0, 0},
    {SENDER_OPEN, 11, REWRITTEN, NONE, waits, "", 0, 0, 0},
    {SENDER_ENDED, 0, REWRITTEN, NONE, waits, "", 0, 0, 0},
    {SENDER_ENDED, 2, KEPT, STATE, waits, "", 0, 0, 0},
    {SENDER_ENDED, 2, KEPT, REPORT, waits, "", 0, 0, 0},
    {SENDER_ENDED, 11, REWRITTEN, NONE, closed, "", 0, 0, 0},
    {SENDER_RESET, 0, REWRITTEN, NONE, frozen, "", 0, 0, 0},
    {SENDER_RESET, 2, KEPT, STATE, frozen, "", 0, 0, 0},
    {SENDER_RESET, 2, KEPT, REPORT, frozen, "", 0, 0, 0},
    {SENDER_RESET, 11, REWRITTEN, NONE, waits, "", 0, 0, 0},
    {SENDER_TIMER, 0, REWRITTEN, NONE, waits, "", 0, 3, 0},
    {SENDER_TIMER, 0, REWRITTEN, NONE, waits, "", 0, 0, 0},
    {SENDER_TIMER, 1, KEPT, NONE, waits, "", 0, 100, 0},
    {SENDER_TIMER, 2, KEPT, STATE, waits, "", 0, 3, 0},
    {SENDER_TIMER, 2, KEPT, REPORT, waits, "", 0, 3, 0},
    {SENDER_TIMER, 11, REWRITTEN, NONE, closed, "", 0, 3, 0},
    {SENDER_BLOCK, 0, REWRITTEN, NONE, waits, TEXT(ANSWER), 3, 0},
    {SENDER_BLOCK, 0, REWRITTEN, NONE, waits, "", 0, 3, GMV_SHAPE},
    {SENDER_BLOCK, 1, KEPT, NONE, waits, TEXT(ANSWER), 3, GMV_HEAD},
    {SENDER_BLOCK, 2, KEPT, STATE, waits, TEXT(ANSWER), 3, 0},
    {SENDER_BLOCK, 2, KEPT, REPORT, waits, TEXT(ANSWER), 3, 0},
    {SENDER_BLOCK, 11, REWRITTEN, NONE, closed, TEXT(ANSWER), 3, 0},
};

static const row station_rows[] = {
    {STATION_FRESH, 0, KEPT, NONE, NULL, "", 0, 0, 0},
    {STATION_FRESH, 2, KEPT, STATE, NULL, "", 0, 0, 0},
    {STATION_OPEN, 0, REWRITTEN, NONE, NULL, "", 0, 0, 0},
    {STATION_OPEN, 2, KEPT, STATE, NULL, "", 0, 0, 0},
    {STATION_OPEN, 2, KEPT, REPORT, NULL, "", 0, 0, 0},
    {STATION_BLOCK, 0, REWRITTEN, NONE, station, TEXT("text"), 3, GMV_ETX},
    {STATION_BLOCK, 0, REWRITTEN, NONE, station, TEXT("text"), 3, GMV_ETB},
    {STATION_BLOCK, 0, REWRITTEN, NONE, station, TEXT("text"), 2, GMV_ETX},
    {STATION_BLOCK, 0, REWRITTEN, NONE, station, TEXT("text"), 4, GMV_ETX},
    {STATION_BLOCK, 0, REWRITTEN, NONE, station, TEXT("too long"), 3, GMV_ETX},
    {STATION_BLOCK, 1, KEPT, NONE, station, TEXT("text"), 3, 0},
    {STATION_BLOCK, 2, KEPT, STATE, station, TEXT("text"), 3, GMV_ETX},
    {STATION_BLOCK, 2, KEPT, REPORT, station, TEXT("text"), 3, GMV_ETX},
    {STATION_BLOCK, 11, KEPT, NONE, no_station, TEXT("text"), 3, GMV_ETX},
    {STATION_BAD, 0, REWRITTEN, NONE, station, "", 0, 0, 0},
    {STATION_BAD, 2, KEPT, STATE, station, "", 0, 0, 0},
    {STATION_BAD, 2, KEPT, REPORT, station, "", 0, 0, 0},
    {STATION_BAD, 11, KEPT, NONE, no_station, "", 0, 0, 0},
    {STATION_ENQUIRY, 0, REWRITTEN, NONE, station, "", 0, 0, 0},
    {STATION_ENQUIRY, 2, KEPT, STATE, station, "", 0, 0, 0},
    {STATION_ENQUIRY, 2, KEPT, REPORT, station, "", 0, 0, 0},
    {STATION_ENQUIRY, 11, KEPT, NONE, no_station, "", 0, 0, 0},
    {STATION_END, 0, REWRITTEN, NONE, station, "", 0, 0, 0},
    {STATION_END, 2, KEPT, STATE, station, "", 0, 0, 0},
    {STATION_END, 2, KEPT, REPORT, station, "", 0, 0, 0},
    {STATION_END, 11, KEPT, NONE, no_station, "", 0, 0, 0},
    {STATION_BLOCK, 0, REWRITTEN, NONE, asked_station, TEXT("text"), 3, GMV_ETX},
    {STATION_BLOCK, 0, REWRITTEN, NONE, asked_station, TEXT("text"), 2, GMV_ETX},
    {STATION_BLOCK, 0, REWRITTEN, NONE, rint_station, TEXT("text"), 2, GMV_ETX},
    {STATION_BARE_ENQ, 0, REWRITTEN, NONE, station, "", 0, 0, 0},
    {STATION_BARE_ENQ, 0, REWRITTEN, NONE, rint_station, "", 0, 0, 0},
    {STATION_BARE_ENQ, 0, REWRITTEN, NONE, closed_station, "", 0, 0, 0},
    {STATION_BARE_ENQ, 2, KEPT, STATE, station, "", 0, 0, 0},
    {STATION_BARE_ENQ, 2, KEPT, REPORT, station, "", 0, 0, 0},
    {STATION_BARE_ENQ, 11, KEPT, NONE, no_station, "", 0, 0, 0},
    {STATION_INTERRUPT, 0, REWRITTEN, NONE, station, "", 0, 0, 0},
    {STATION_INTERRUPT, 2, KEPT, STATE, station, "", 0, 0, 0},
    {STATION_INTERRUPT, 2, KEPT, REPORT, station, "", 0, 0, 0},
    {STATION_INTERRUPT, 11, KEPT, NONE, asked_station, "", 0, 0, 0},
    {STATION_INTERRUPT, 11, KEPT, NONE, rint_station, "", 0, 0, 0},
    {STATION_INTERRUPT, 11, KEPT, NONE, closed_station, "", 0, 0, 0},
    {STATION_INTERRUPT, 11, KEPT, NONE, no_station, "", 0, 0, 0},
};

static const row master_rows[] = {
    {MASTER_FRESH, 0, KEPT, NONE, NULL, "", 0, 0, 0},
    {MASTER_FRESH, 2, KEPT, STATE, NULL, "", 0, 0, 0},
    {MASTER_OPEN, 0, REWRITTEN, NONE, NULL, "", 0, 0, 0},
    {MASTER_OPEN, 2, KEPT, STATE, NULL, "", 0, 0, 0},
    {MASTER_OPEN, 2, KEPT, REPORT, NULL, "", 0, 0, 0},
    {MASTER_START, 0, REWRITTEN, NONE, idle_master, "", 0, 10, 4},
    {MASTER_START, 0, REWRITTEN, NONE, idle_master, "", 0, 0, 4},
    {MASTER_START, 1, KEPT, NONE, idle_master, "", 0, 10, 0},
    {MASTER_START, 2, KEPT, STATE, idle_master, "", 0, 10, 4},
    {MASTER_START, 2, KEPT, REPORT, idle_master, "", 0, 10, 4},
    {MASTER_START, 11, KEPT, NONE, ended_master, "", 0, 10, 4},
    {MASTER_START, 11, KEPT, NONE, busy_master, "", 0, 10, 4},
    {MASTER_START, 11, KEPT, NONE, no_master, "", 0, 10, 4},
    {MASTER_REPLY, 0, REWRITTEN, NONE, busy_master, "", 0, GMV_REPLY_ACK, 4},
    {MASTER_REPLY, 0, REWRITTEN, NONE, busy_master, "", 0, GMV_REPLY_ACK, 3},
    {MASTER_REPLY, 0, REWRITTEN, NONE, busy_master, "", 0, GMV_REPLY_ACK, 5},
    {MASTER_REPLY, 0, REWRITTEN, NONE, busy_master, "", 0, GMV_REPLY_NAK, 0},
    {MASTER_REPLY, 0, REWRITTEN, NONE, busy_master, "", 0, GMV_REPLY_EOT, 0},
    {MASTER_REPLY, 0, REWRITTEN, NONE, busy_master, "", 0, GMV_REPLY_DAMAGED, 0},
    {MASTER_REPLY, 0, REWRITTEN, NONE, last_master, "", 0, GMV_REPLY_ACK, 4},
    {MASTER_REPLY, 0, REWRITTEN, NONE, last_master, "", 0, GMV_REPLY_NAK, 0},
    {MASTER_REPLY, 0, REWRITTEN, NONE, idle_master, "", 0, GMV_REPLY_ACK, 3},
    {MASTER_REPLY, 0, REWRITTEN, NONE, idle_master, "", 0, GMV_REPLY_EOT, 0},
    {MASTER_REPLY, 0, REWRITTEN, NONE, ended_master, "", 0, GMV_REPLY_EOT, 0},
    {MASTER_REPLY, 1, KEPT, NONE, busy_master, "", 0, GMV_REPLY_NONE, 4},
    {MASTER_REPLY, 2, KEPT, STATE, busy_master, "", 0, GMV_REPLY_ACK, 4},
    {MASTER_REPLY, 2, KEPT, REPORT, busy_master, "", 0, GMV_REPLY_ACK, 4},
    {MASTER_REPLY, 11, KEPT, NONE, no_master, "", 0, GMV_REPLY_ACK, 4},
    {MASTER_TIMER, 0, REWRITTEN, NONE, busy_master, "", 0, 0, 0},
    {MASTER_TIMER, 0, REWRITTEN, NONE, last_master, "", 0, 0, 0},
    {MASTER_TIMER, 0, REWRITTEN, NONE, ended_master, "", 0, 0, 0},
    {MASTER_TIMER, 2, KEPT, STATE, busy_master, "", 0, 0, 0},
    {MASTER_TIMER, 2, KEPT, REPORT, busy_master, "", 0, 0, 0},
    {MASTER_TIMER, 11, KEPT, NONE, no_master, "", 0, 0, 0},
    {MASTER_CLOSE, 0, REWRITTEN, NONE, idle_master, "", 0, 0, 0},
    {MASTER_CLOSE, 2, KEPT, STATE, idle_master, "", 0, 0, 0},
    {MASTER_CLOSE, 2, KEPT, REPORT, idle_master, "", 0, 0, 0},
    {MASTER_CLOSE, 11, KEPT, NONE, ended_master, "", 0, 0, 0},
    {MASTER_CLOSE, 11, KEPT, NONE, busy_master, "", 0, 0, 0},
    {MASTER_CLOSE, 11, KEPT, NONE, no_master, "", 0, 0, 0},
    {MASTER_REPLY, 0, REWRITTEN, NONE, busy_master, "", 0, GMV_REPLY_RINT, 0},
    {MASTER_REPLY, 0, REWRITTEN, NONE, turning_master, "", 0, GMV_REPLY_RINT, 0},
    {MASTER_REPLY, 0, REWRITTEN, NONE, turning_master, "", 0, GMV_REPLY_ACK, 4},
    {MASTER_REPLY, 0, REWRITTEN, NONE, last_master, "", 0, GMV_REPLY_RINT, 0},
    {MASTER_REPLY, 0, REWRITTEN, NONE, rint_master, "", 0, GMV_REPLY_RINT, 0},
    {MASTER_ENQUIRE, 0, REWRITTEN, NONE, busy_master, "", 0, 0, 0},
    {MASTER_ENQUIRE, 2, KEPT, STATE, busy_master, "", 0, 0, 0},
    {MASTER_ENQUIRE, 2, KEPT, REPORT, busy_master, "", 0, 0, 0},
    {MASTER_ENQUIRE, 11, KEPT, NONE, ended_master, "", 0, 0, 0},
    {MASTER_ENQUIRE, 11, KEPT, NONE, rint_master, "", 0, 0, 0},
    {MASTER_ENQUIRE, 11, KEPT, NONE, no_master, "", 0, 0, 0},
    {MASTER_MAY_RECEIVE, 0, REWRITTEN, NONE, rint_master, "", 0, 0, 0},
    {MASTER_MAY_RECEIVE, 0, REWRITTEN, NONE, last_master, "", 0, 0, 0},
    {MASTER_MAY_RECEIVE, 0, REWRITTEN, NONE, turning_master, "", 0, 0, 0},
    {MASTER_MAY_RECEIVE, 2, KEPT, STATE, rint_master, "", 0, 0, 0},
    {MASTER_MAY_RECEIVE, 2, KEPT, REPORT, rint_master, "", 0, 0, 0},
    {MASTER_MAY_RECEIVE, 11, KEPT, NONE, ended_master, "", 0, 0, 0},
    {MASTER_MAY_RECEIVE, 11, KEPT, NONE, busy_master, "", 0, 0, 0},
    {MASTER_MAY_RECEIVE, 11, KEPT, NONE, no_master, "", 0, 0, 0},
};

/* ---- one call */

/* Memory that is only written: it holds the paint, and for valgrind it was never written. */
static guarded only_written(size_t size, uint8_t paint)
{
    guarded memory = guard(size, paint);

    VALGRIND_MAKE_MEM_UNDEFINED(memory.at, size);
    return memory;
}

/* From now on what the memory holds may be looked at. */
static void look_at(guarded *memory)
{
    VALGRIND_MAKE_MEM_DEFINED(memory->at, memory->size);
}

static memory allocate(const row *r, uint8_t paint)
{
    const function *f = &functions[r->function];
    const size_t words = f->state - (r->lack == STATE);
    memory m;

    m.state = r->state ? guard_copy(r->state, words * WORD) : only_written(words * WORD, paint);
    m.buffer = only_written(f->buffer - (r->lack == BUFFER), paint);
    m.report = only_written((f->report - (r->lack == REPORT)) * WORD, paint);
    return m;
}

static void release(memory *m)
{
    give_back(&m->state);
    give_back(&m->buffer);
    give_back(&m->report);
}

/* Each byte is written, the same in both, or left in both as it was; the fillings differ in it. */
static int independent(const guarded *a, const guarded *b)
{
    for (size_t i = 0; i < a->size; i++)
        if (a->at[i] != b->at[i] && (a->at[i] != a->kept[i] || b->at[i] != b->kept[i]))
            return 0;
    return same_from(a, a->size) && same_from(b, b->size);
}

/* The call is made; a report that is written anew is written to its last byte. */
static int answers(const row *r, memory *m)
{
    int right = functions[r->function].call(r, m) == r->number;

    if (r->told == REWRITTEN)
        right &= VALGRIND_CHECK_MEM_IS_DEFINED(m->report.at, m->report.size) == 0;
    look_at(&m->state);
    look_at(&m->buffer);
    look_at(&m->report);
    return right;
}

static int report_is_right(const row *r, const memory *a, const memory *b)
{
    if (r->told == KEPT)
        return unchanged(&a->report) && unchanged(&b->report);
    return a->report.size > 0 && memcmp(a->report.at, b->report.at, a->report.size) == 0;
}

/* A refusal leaves state and buffer. */
static int rest_is_right(const row *r, const memory *a, const memory *b)
{
    if (r->number != GMV_OK && !(unchanged(&a->state) && unchanged(&a->buffer)))
        return 0;
    return independent(&a->state, &b->state) && independent(&a->buffer, &b->buffer);
}

static void test_row(const row *r, uint8_t paint)
{
    memory a = allocate(r, paint), b = allocate(r, (uint8_t)~paint);
    int right = answers(r, &a) & answers(r, &b);

    right = right && report_is_right(r, &a, &b) && rest_is_right(r, &a, &b);
    if (!right)
        printf("gmv_%s, %d: not as it should be\n", functions[r->function].name, (int)r->number);
    CHECK(right);
    release(&a);
    release(&b);
}

static int has_rows[FUNCTIONS];

static void test_rows(const char *name, const row *rows, size_t count)
{
    begin_test(name);
    for (size_t i = 0; i < count; i++) {
        test_row(&rows[i], 0x00);
        test_row(&rows[i], 0x5A);
        has_rows[rows[i].function] = 1;
    }
}

#define TEST_ROWS(name, rows) test_rows(name, rows, sizeof rows / sizeof rows[0])

static void every_function_has_rows(void)
{
    begin_test("lent memory: every function that takes any has its rows"); /* gmv_version takes none */
    CHECK(FUNCTIONS == 42);
    for (int i = 0; i < FUNCTIONS; i++)
        CHECK(has_rows[i]);
}

/* ---- a reader's buffer, over several calls */

/* Two readers of one stream, with different fillings. */
typedef struct {
    guarded state, buffer, verdict;
} stream;

static stream new_stream(settings link, uint8_t paint)
{
    stream s;

    s.state = only_written(GMV_READER_WORDS * WORD, paint);
    s.buffer = only_written(need_of(link), paint);
    s.verdict = only_written(GMV_VERDICT_WORDS * WORD, paint);
    CHECK(gmv_reader_fresh(words_of(&s.state), GMV_READER_WORDS) == GMV_OK);
    return s;
}

static void end_stream(stream *s)
{
    give_back(&s->state);
    give_back(&s->buffer);
    give_back(&s->verdict);
}

/* States, verdicts and accepted data are the same. */
static int same_streams(const stream *a, const stream *b)
{
    const uint64_t *words = words_of(&a->verdict);

    return memcmp(a->state.at, b->state.at, a->state.size) == 0 &&
           memcmp(a->verdict.at, b->verdict.at, a->verdict.size) == 0 &&
           memcmp(a->buffer.at + words[GMV_VERDICT_DATA_OFFSET],
                  b->buffer.at + words[GMV_VERDICT_DATA_OFFSET],
                  (size_t)words[GMV_VERDICT_DATA_LENGTH]) == 0;
}

/* Good and bad blocks in parts of three bytes: what is read back was written by this stream. */
static void stream_reads(settings link)
{
    static const uint8_t bytes[] = GOOD "noise\x0B" "D23\r" "ABCDEFGH\r" "00014" "999" "\x1C\r"
                                   WRONG_SUM "\x0B" "D2\x0B" "\x1C" "x";
    const size_t length = sizeof bytes - 1;
    stream a = new_stream(link, 0x00), b = new_stream(link, 0xFF);

    for (size_t at = 0; at < length; at += (size_t)words_of(&a.verdict)[GMV_VERDICT_USED]) {
        size_t part = length - at < 3 ? length - at : 3;

        CHECK(read_part(link, &a.state, bytes + at, part, &a.buffer, &a.verdict) == GMV_OK);
        CHECK(read_part(link, &b.state, bytes + at, part, &b.buffer, &b.verdict) == GMV_OK);
        CHECK(same_streams(&a, &b));
    }
    look_at(&a.buffer);
    look_at(&b.buffer);
    CHECK(independent(&a.buffer, &b.buffer));
    end_stream(&a);
    end_stream(&b);
}

void test_caller_memory(void)
{
    TEST_ROWS("lent memory and reports: blocks", block_rows);
    TEST_ROWS("lent memory and reports: messages", message_rows);
    TEST_ROWS("lent memory and reports: the receiver", receiver_rows);
    TEST_ROWS("lent memory and reports: the sender", sender_rows);
    TEST_ROWS("lent memory and reports: the station", station_rows);
    TEST_ROWS("lent memory and reports: the master", master_rows);
    every_function_has_rows();
    begin_test("lent memory: a reader's buffer, over a stream in parts");
    stream_reads(hybrid(LIMIT));
    stream_reads(minimal(LIMIT));
}
