/* Which words are a state of the receiver, of the station and of the master: every combination of small
 * words, with each act. The header names the combinations; any other is refused with 11, and nothing
 * changes. What an act leaves is a state again. */
#include "harness.h"

#include <string.h>

enum { WORD = sizeof(uint64_t), LIMIT = 128, LONGEST_BLOCK = LIMIT + 15 };

/* An act on words with memory of exactly their size. */
typedef struct {
    guarded state, report, buffer;
} memory;

static memory allocate(size_t state_words, size_t report_words, size_t buffer_length)
{
    memory m = {guard(state_words * WORD, 0xEE), guard(report_words * WORD, 0xEE),
                guard(buffer_length, 0x55)};

    return m;
}

static void release(memory *m)
{
    give_back(&m->state);
    give_back(&m->report);
    give_back(&m->buffer);
}

static void set_words(memory *m, const uint64_t *words)
{
    memcpy(m->state.at, words, m->state.size);
    keep(&m->state);
}

static int all_unchanged(const memory *m)
{
    return unchanged(&m->state) && unchanged(&m->report) && unchanged(&m->buffer);
}

#define WORDS(m) words_of(&(m)->state), word_count(&(m)->state), words_of(&(m)->report), \
    word_count(&(m)->report)

/* ---- the receiver */

enum { DECIDE, N_BLOCK, STORED_HYBRID, STORED_MINIMAL, FAILED_HYBRID, FAILED_MINIMAL, NAK, RECEIVER_ACTS };

#define BUFFER(m) (m)->buffer.at, (m)->buffer.size, 0

static uint64_t act_on_receiver(int act, memory *m)
{
    static const uint8_t data[] = "MSH|||||||||17|||2\r";
    const uint64_t sb = GMV_START_BLOCK_DEFAULT, eb = GMV_END_BLOCK_DEFAULT;
    uint64_t *state = words_of(&m->state), *report = words_of(&m->report);

    switch (act) {
    case DECIDE:
    case N_BLOCK:
        return gmv_receiver_decide(GMV_CODE_AE, act == DECIDE ? GMV_DATA_BLOCK : GMV_NAK_BLOCK, data,
                                   sizeof data - 1, WORDS(m));
    case STORED_HYBRID:
    case FAILED_HYBRID:
        return gmv_hybrid_answer(sb, eb, LIMIT, act == STORED_HYBRID, state, GMV_RECEIVER_WORDS,
                                 BUFFER(m), report, word_count(&m->report));
    case STORED_MINIMAL:
    case FAILED_MINIMAL:
        return gmv_minimal_answer(LIMIT, act == STORED_MINIMAL, state, GMV_RECEIVER_WORDS, BUFFER(m),
                                  report, word_count(&m->report));
    default:
        return gmv_hybrid_nak(sb, eb, LIMIT, GMV_HEAD, state, GMV_RECEIVER_WORDS, BUFFER(m), report,
                              word_count(&m->report));
    }
}

/* The header's table, row by row: does it give these words for the number expected? */
static int is_in_table(const uint64_t *w)
{
    const uint64_t expected = w[GMV_RECEIVER_EXPECTED], n = w[GMV_RECEIVER_TRANSACTION];
    const uint64_t accepted[] = {GMV_CODE_AA, expected, 0, expected};
    const uint64_t resynchronized[] = {GMV_CODE_AA, 0, 0, 0};
    const uint64_t rejected[] = {GMV_CODE_AR, expected, 0, expected};
    const uint64_t taken[] = {GMV_CODE_AA, n, n, n + 1}, erred[] = {GMV_CODE_AE, n, n, n + 1};
    const uint64_t *const open = w + GMV_RECEIVER_CODE;
    const int may_be_taken = n >= 1 && n <= GMV_LARGEST_NUMBER && (expected == 0 || expected == n);

    return memcmp(open, accepted, sizeof accepted) == 0 ||
           memcmp(open, resynchronized, sizeof resynchronized) == 0 ||
           memcmp(open, rejected, sizeof rejected) == 0 ||
           (may_be_taken && (memcmp(open, taken, sizeof taken) == 0 || memcmp(open, erred, sizeof erred) == 0));
}

/* The control IDs that are tried: so many of these can stand in an answer, and then those that cannot. */
enum { GOOD_IDS = 3, IDS = 7 };
static const uint64_t control_ids[IDS][4] = {{1, 'A', 0, 0},
                                             {2, 0xFF00003741, UINT64_MAX, UINT64_MAX},
                                             {20, 0x4141414141414141, 0x4141414141414141, 0x41414141},
                                             {0, 'A', 0, 0},
                                             {21, 0x4141414141414141, 0x4141414141414141, 0x4141414141},
                                             {9, 0x4141414141414141, '|', 0},
                                             {1, 0x7F, 0, 0}};

static int is_receiver(const uint64_t *w, int id)
{
    if (w[GMV_RECEIVER_EXPECTED] > GMV_LARGEST_NUMBER + 1)
        return 0;
    return w[GMV_RECEIVER_CODE] == 0 || (id < GOOD_IDS && is_in_table(w));
}

static uint64_t receiver_answers(int act, const uint64_t *w, int id)
{
    const int is_open = w[GMV_RECEIVER_CODE] != 0, needs_open = act >= STORED_HYBRID && act <= FAILED_MINIMAL;

    if (!is_receiver(w, id))
        return GMV_STATE;
    return is_open == needs_open ? GMV_OK : GMV_STATE;
}

/* What an act that was done leaves: a decision on "17" from the first three, and no decision after a report. */
static int leaves_receiver(int act, const memory *m, const uint64_t *before)
{
    const uint64_t *w = words_of(&m->state);
    const uint64_t none[GMV_RECEIVER_WORDS - 1] = {0};

    if (act == DECIDE)
        return is_in_table(w) && w[GMV_RECEIVER_CONTROL_ID] == 0x3731 && w[0] == before[0];
    if (act == N_BLOCK || act == NAK)
        return unchanged(&m->state);
    if (memcmp(w + 1, none, sizeof none) != 0)
        return 0;
    return w[0] == (act <= STORED_MINIMAL ? before[GMV_RECEIVER_NEW_EXPECTED] : before[0]);
}

static int receiver_acts_rightly(const uint64_t *w, int id, memory *m)
{
    int right = 1;

    for (int act = 0; act < RECEIVER_ACTS; act++) {
        const uint64_t expected = receiver_answers(act, w, id);

        set_words(m, w);
        right &= act_on_receiver(act, m) == expected;
        right &= expected == GMV_OK ? leaves_receiver(act, m, w) : all_unchanged(m);
        keep(&m->report);
        keep(&m->buffer);
    }
    return right;
}

/* The words 1 to 4 in every combination of small ones and those near the number expected. */
static int decisions(uint64_t *w, int id, memory *m, int *open)
{
    const uint64_t e = w[0] == 0 ? 7 : w[0], numbers[] = {0, 1, 2, 3, e, e + 1};
    const size_t count = sizeof numbers / sizeof numbers[0];
    int right = 1;

    for (size_t i = 0; i < 5 * count * count * count; i++) {
        w[GMV_RECEIVER_CODE] = i % 5;
        w[GMV_RECEIVER_NUMBER] = numbers[i / 5 % count];
        w[GMV_RECEIVER_TRANSACTION] = numbers[i / 5 / count % count];
        w[GMV_RECEIVER_NEW_EXPECTED] = numbers[i / 5 / count / count];
        *open += is_receiver(w, id) && w[GMV_RECEIVER_CODE] != 0 && id == 0;
        right &= receiver_acts_rightly(w, id, m);
    }
    return right;
}

static void words_of_receivers(void)
{
    const uint64_t expected[] = {0, 10, GMV_LARGEST_NUMBER, GMV_LARGEST_NUMBER + 1, GMV_LARGEST_NUMBER + 2};
    memory m = allocate(GMV_RECEIVER_WORDS, GMV_DECISION_WORDS, LONGEST_BLOCK);
    uint64_t w[GMV_RECEIVER_WORDS];
    int open = 0, right = 1;

    for (size_t i = 0; i < sizeof expected / sizeof expected[0]; i++)
        for (int id = 0; id < IDS; id++) {
            w[0] = expected[i];
            memcpy(w + GMV_RECEIVER_CONTROL_ID_LENGTH, control_ids[id], sizeof control_ids[id]);
            right &= decisions(w, id, &m, &open);
        }
    CHECK(right);
    /* none expected: AA -1, AR -1, and 1, 2 and 7 with AA and AE; 10 and the largest that is sent: AA -1, AA,
     * AR, and the number itself with AA and AE; one more: AA -1, AA and AR */
    CHECK(open == 8 + 5 + 5 + 3);
    release(&m);
}

/* ---- the station */

enum { BLOCK, BAD, ENQUIRY, END, BARE_ENQ, INTERRUPT, STATION_ACTS };

static uint64_t act_on_station(int act, memory *m)
{
    static const uint8_t text[] = {'A', 'B'};

    switch (act) {
    case BLOCK:
        return gmv_station_block(1, GMV_ETB, text, sizeof text, m->buffer.at, m->buffer.size, WORDS(m));
    case BAD:
        return gmv_station_bad(WORDS(m));
    case ENQUIRY:
        return gmv_station_enquiry(WORDS(m));
    case END:
        return gmv_station_end(WORDS(m));
    case BARE_ENQ:
        return gmv_station_bare_enq(WORDS(m));
    default:
        return gmv_station_interrupt(WORDS(m));
    }
}

/* The header's list of pairs. */
static int is_station(const uint64_t *w)
{
    static const uint64_t pairs[][2] = {
        {GMV_REPLY_NONE, GMV_INTERRUPT_NONE}, {GMV_REPLY_NONE, GMV_INTERRUPT_PENDING},
        {GMV_REPLY_ACK, GMV_INTERRUPT_NONE},  {GMV_REPLY_ACK, GMV_INTERRUPT_PENDING},
        {GMV_REPLY_NAK, GMV_INTERRUPT_NONE},  {GMV_REPLY_NAK, GMV_INTERRUPT_PENDING},
        {GMV_REPLY_NAK, GMV_INTERRUPT_GIVEN}, {GMV_REPLY_RINT, GMV_INTERRUPT_GIVEN}};
    static const uint64_t closed[GMV_STATION_WORDS];
    const int is_untouched = w[GMV_STATION_EXPECTED] == 1 && w[GMV_STATION_HELD] == 0;

    if (memcmp(w, closed, sizeof closed) == 0)
        return 1;
    if (w[GMV_STATION_OPEN] != 1 || w[GMV_STATION_EXPECTED] > 7)
        return 0;
    for (size_t i = 0; i < sizeof pairs / sizeof pairs[0]; i++)
        if (w[GMV_STATION_LAST_REPLY] == pairs[i][0] && w[GMV_STATION_INTERRUPT] == pairs[i][1])
            return w[GMV_STATION_LAST_REPLY] != GMV_REPLY_NONE || is_untouched;
    return 0;
}

static int station_takes(int act, const uint64_t *w)
{
    const int may_ask = w[GMV_STATION_OPEN] == 1 && w[GMV_STATION_INTERRUPT] == GMV_INTERRUPT_NONE;

    return is_station(w) && (act != INTERRUPT || may_ask);
}

static int station_acts_rightly(const uint64_t *w, memory *m)
{
    int right = 1;

    for (int act = 0; act < STATION_ACTS; act++) {
        const uint64_t expected = station_takes(act, w) ? GMV_OK : GMV_STATE;

        set_words(m, w);
        right &= act_on_station(act, m) == expected;
        right &= expected == GMV_OK ? is_station(words_of(&m->state)) : all_unchanged(m);
        keep(&m->report);
        keep(&m->buffer);
    }
    return right;
}

static void words_of_stations(void)
{
    const uint64_t held[] = {0, 1, 9};
    memory m = allocate(GMV_STATION_WORDS, GMV_STATION_REPORT_WORDS, 4);
    uint64_t w[GMV_STATION_WORDS];
    int states = 0, right = 1;

    for (w[0] = 0; w[0] <= 2; w[0]++)
        for (w[1] = 0; w[1] <= 8; w[1]++)
            for (w[3] = 0; w[3] <= 6; w[3]++)
                for (w[4] = 0; w[4] <= 3; w[4]++)
                    for (size_t i = 0; i < sizeof held / sizeof held[0]; i++) {
                        w[2] = held[i];
                        states += is_station(w);
                        right &= station_acts_rightly(w, &m);
                    }
    CHECK(right);
    CHECK(states == 1 + 2 + 8 * 3 * 6); /* closed; no reply yet; numbers, lengths held, other pairs */
    release(&m);
}

/* ---- the master */

enum { START, REPLY, TIMER, CLOSE, ENQUIRE, MAY_RECEIVE, MASTER_ACTS };

/* Each reply in turn: all of them come to every kind of state. */
static uint64_t act_on_master(int act, memory *m)
{
    static uint64_t reply;

    switch (act) {
    case START:
        return gmv_master_start(3, 2, WORDS(m));
    case REPLY:
        reply = reply % GMV_REPLY_RINT + 1;
        return gmv_master_reply(reply, 2, WORDS(m));
    case TIMER:
        return gmv_master_timer(WORDS(m));
    case CLOSE:
        return gmv_master_close(WORDS(m));
    case ENQUIRE:
        return gmv_master_enquire(WORDS(m));
    default:
        return gmv_master_may_receive(WORDS(m));
    }
}

/* The words 6 and 7 go together. */
static int go_together(const uint64_t *w)
{
    static const uint64_t pairs[][2] = {{GMV_REPLY_ACK, 0}, {GMV_REPLY_ACK, 1}, {GMV_REPLY_NAK, 0},
                                        {GMV_REPLY_NAK, 1}, {GMV_REPLY_RINT, 1}};
    const uint64_t reply = w[GMV_MASTER_LAST_REPLY], interrupted = w[GMV_MASTER_INTERRUPTED];

    for (size_t i = 0; i < sizeof pairs / sizeof pairs[0]; i++)
        if (reply == pairs[i][0] && interrupted == pairs[i][1])
            return 1;
    return reply == GMV_REPLY_NONE && interrupted == 0 && w[GMV_MASTER_COUNT] == 0 &&
           w[GMV_MASTER_OFFSET] == 0;
}

static int is_waiting(const uint64_t *w)
{
    const uint64_t offset = w[GMV_MASTER_OFFSET], may_receive = w[GMV_MASTER_MAY_RECEIVE];

    return w[GMV_MASTER_BLOCK_SIZE] >= 1 && w[GMV_MASTER_RESENDS] <= 5 &&
           (offset == 0 || offset < w[GMV_MASTER_MESSAGE_LENGTH]) && go_together(w) &&
           w[GMV_MASTER_ENQUIRED] <= 1 &&
           (may_receive == 0 || (may_receive == 1 && w[GMV_MASTER_INTERRUPTED] == 1));
}

static int is_master(const uint64_t *w)
{
    const int no_block = w[1] == 0 && w[2] == 0 && w[3] == 0 && w[4] == 0 && w[8] == 0 && w[9] == 0;

    switch (w[GMV_MASTER_PHASE]) {
    case GMV_MASTER_CLOSED:
        return no_block && w[6] == 0 && w[7] == 0;
    case GMV_MASTER_IDLE:
        return no_block && go_together(w);
    case GMV_MASTER_WAITING:
        return is_waiting(w);
    default:
        return 0;
    }
}

static int master_takes(int act, const uint64_t *w)
{
    const uint64_t phase = w[GMV_MASTER_PHASE];

    if (!is_master(w))
        return 0;
    if (act == START || act == CLOSE)
        return phase == GMV_MASTER_IDLE;
    if (act == ENQUIRE)
        return phase == GMV_MASTER_WAITING;
    return act != MAY_RECEIVE || w[GMV_MASTER_INTERRUPTED] == 1;
}

static int master_acts_rightly(const uint64_t *w, memory *m)
{
    int right = 1;

    for (int act = 0; act < MASTER_ACTS; act++) {
        const uint64_t expected = master_takes(act, w) ? GMV_OK : GMV_STATE;

        set_words(m, w);
        right &= act_on_master(act, m) == expected;
        right &= expected == GMV_OK ? is_master(words_of(&m->state)) : all_unchanged(m);
        keep(&m->report);
    }
    return right;
}

/* The last four words in every combination behind these six. */
static int last_words(uint64_t *w, memory *m, int *states)
{
    int right = 1;

    for (w[6] = 0; w[6] <= 6; w[6]++)
        for (w[7] = 0; w[7] <= 2; w[7]++)
            for (w[8] = 0; w[8] <= 2; w[8]++)
                for (w[9] = 0; w[9] <= 2; w[9]++) {
                    *states += is_master(w);
                    right &= master_acts_rightly(w, m);
                }
    return right;
}

/* The combination with this index of a length, a size, an offset, resends and a count. */
static void first_words(uint64_t *w, int index)
{
    const uint64_t lengths[] = {0, 3}, sizes[] = {0, 2}, offsets[] = {0, 1, 3}, resends[] = {0, 5, 6};

    w[GMV_MASTER_MESSAGE_LENGTH] = lengths[index % 2];
    w[GMV_MASTER_BLOCK_SIZE] = sizes[index / 2 % 2];
    w[GMV_MASTER_OFFSET] = offsets[index / 4 % 3];
    w[GMV_MASTER_RESENDS] = resends[index / 12 % 3];
    w[GMV_MASTER_COUNT] = (uint64_t)(index / 36 % 2);
}

static void words_of_masters(void)
{
    memory m = allocate(GMV_MASTER_WORDS, GMV_MASTER_REPORT_WORDS, 4);
    uint64_t w[GMV_MASTER_WORDS];
    int states = 0, right = 1;

    for (w[0] = 0; w[0] <= 3; w[0]++)
        for (int index = 0; index < 72; index++) {
            first_words(w, index);
            right &= last_words(w, &m, &states);
        }
    CHECK(right);
    /* closed; idle, with a pair less where the count is 1; waiting, by resends and word 8: the offsets 0, 0
     * and 1 with count 0 and 1, and by word 9 each pair with word 7 twice */
    CHECK(states == 2 + (6 + 5) + 2 * 2 * ((9 + 8) + (9 + 8) + (8 + 8)));
    release(&m);
}

void test_state_words(void)
{
    begin_test("receiver: of all small words exactly those that the header's table gives are states");
    words_of_receivers();
    begin_test("station: of all small words exactly those that the header names are states");
    words_of_stations();
    begin_test("master: of all small words exactly those that the header names are states");
    words_of_masters();
}
