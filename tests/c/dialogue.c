/* A sender of blocks and the receiving station, over a line that loses each reply once. The sender
 * repeats a block until it has its reply, so that every block comes twice, or it asks for the reply by a
 * bare ENQ. Every message must come out once and whole, also where the station's driver asks for RINT. */
#include "harness.h"

#include <string.h>

enum { BLOCKS = 40, TEXT_LENGTH = 2, ALL_TEXTS = BLOCKS * TEXT_LENGTH };

typedef struct dialogue dialogue;
/* Answers a good block: the library, or another rule in its place. */
typedef uint64_t block_rule(dialogue *d, uint64_t number, uint64_t ending, const guarded *text);

struct dialogue {
    block_rule *rule;
    int blocks_of_message;
    int asks;     /* the station's driver asks for RINT before each block */
    int enquires; /* the sender enquires, and does not repeat the block */
    uint64_t reply; /* the one due to the block: GMV_REPLY_ACK or _RINT */
    int interrupts;
    guarded state, report, buffer;
    /* what the driver took out of the buffer: how many messages, and their texts joined */
    int messages;
    uint8_t taken[ALL_TEXTS];
    size_t taken_length;
};

/* The first block, counted from 1, that was not answered as it must be; 0: none. */
typedef struct {
    int block, is_retransmission;
} failure;

static uint64_t library_rule(dialogue *d, uint64_t number, uint64_t ending, const guarded *text)
{
    return gmv_station_block(number, ending, text->at, text->size, d->buffer.at, d->buffer.size,
                             words_of(&d->state), word_count(&d->state), words_of(&d->report),
                             word_count(&d->report));
}

/* The rule before request 2: any number below the expected one is answered ACK, any above it NAK. */
static uint64_t earlier_rule(dialogue *d, uint64_t number, uint64_t ending, const guarded *text)
{
    const uint64_t expected = words_of(&d->state)[GMV_STATION_EXPECTED];
    const uint64_t ack[] = {GMV_REPLY_ACK, number, 0, 0}, nak[] = {GMV_REPLY_NAK, 0, 0, 0};

    if (number == expected)
        return library_rule(d, number, ending, text);
    memcpy(d->report.at, number < expected ? ack : nak, d->report.size);
    return GMV_OK;
}

#define STATION(d) words_of(&(d)->state), word_count(&(d)->state), words_of(&(d)->report), \
    word_count(&(d)->report)

static dialogue begin_dialogue(block_rule *rule, int blocks_of_message)
{
    dialogue d = {.rule = rule, .blocks_of_message = blocks_of_message, .reply = GMV_REPLY_NONE};

    d.state = guard(GMV_STATION_WORDS * sizeof(uint64_t), 0xEE);
    d.report = guard(GMV_STATION_REPORT_WORDS * sizeof(uint64_t), 0xEE);
    d.buffer = guard((size_t)blocks_of_message * TEXT_LENGTH, 0x55);
    CHECK(gmv_station_open(STATION(&d)) == GMV_OK);
    return d;
}

static void end_dialogue(dialogue *d)
{
    give_back(&d->state);
    give_back(&d->report);
    give_back(&d->buffer);
}

/* The driver takes a complete message out of the buffer. */
static void take_message(dialogue *d)
{
    const uint64_t *report = words_of(&d->report);
    const size_t length = report[GMV_STATION_MESSAGE_LENGTH];

    if (report[GMV_STATION_COMPLETE] != 1)
        return;
    d->messages++;
    if (length > d->buffer.size || length > sizeof d->taken - d->taken_length)
        return;
    memcpy(d->taken + d->taken_length, d->buffer.at, length);
    d->taken_length += length;
}

/* Each block has another text: its count in two digits. */
static void write_text(uint8_t *text, int block)
{
    text[0] = (uint8_t)('0' + block / 10);
    text[1] = (uint8_t)('0' + block % 10);
}

/* The driver asks for RINT. It may, unless no ACK was given since the last one. */
static int is_asked(dialogue *d)
{
    const int may = words_of(&d->state)[GMV_STATION_INTERRUPT] == GMV_INTERRUPT_NONE;

    d->reply = d->asks && may ? GMV_REPLY_RINT : GMV_REPLY_ACK;
    d->interrupts += d->reply == GMV_REPLY_RINT;
    return !d->asks || gmv_station_interrupt(STATION(d)) == (may ? GMV_OK : GMV_STATE);
}

/* The reply to the block, with its number where it is an ACK. */
static int says_reply(const dialogue *d, uint64_t reply, int block)
{
    const uint64_t *report = words_of(&d->report);
    const uint64_t number = reply == GMV_REPLY_ACK ? (uint64_t)block % 8 : 0;

    return report[GMV_STATION_REPLY] == reply && report[GMV_STATION_REPLY_NUMBER] == number;
}

static int says_complete(const dialogue *d, int is_complete, uint64_t length)
{
    const uint64_t *report = words_of(&d->report);

    return report[GMV_STATION_COMPLETE] == (uint64_t)is_complete &&
           report[GMV_STATION_MESSAGE_LENGTH] == (is_complete ? length : 0);
}

/* The report acknowledges the block, and its message if that is complete; the next is expected. */
static int says_appended(const dialogue *d, int block)
{
    const int position = (block - 1) % d->blocks_of_message + 1; /* in its message */
    const uint64_t length = (uint64_t)(position * TEXT_LENGTH);
    const int ends = position == d->blocks_of_message;
    const uint64_t interrupt = d->reply == GMV_REPLY_RINT ? GMV_INTERRUPT_GIVEN : GMV_INTERRUPT_NONE;
    const uint64_t state[] = {1, ((uint64_t)block + 1) % 8, ends ? 0 : length, d->reply, interrupt};

    return says_reply(d, d->reply, block) && says_complete(d, ends, length) &&
           memcmp(d->state.at, state, sizeof state) == 0;
}

/* The report acknowledges the block, also one that was answered RINT; the buffer is as it was before it,
 * and so is the state but for the last reply. */
static int says_duplicate(const dialogue *d, int block)
{
    const uint64_t *state = words_of(&d->state);

    return says_reply(d, GMV_REPLY_ACK, block) && says_complete(d, 0, 0) &&
           memcmp(d->state.at, d->state.kept, GMV_STATION_LAST_REPLY * sizeof(uint64_t)) == 0 &&
           state[GMV_STATION_LAST_REPLY] == GMV_REPLY_ACK &&
           state[GMV_STATION_INTERRUPT] == GMV_INTERRUPT_NONE && unchanged(&d->buffer);
}

/* The reply comes once more, and nothing changes. */
static int is_given_again(dialogue *d, int block)
{
    keep(&d->state);
    keep(&d->buffer);
    return gmv_station_bare_enq(STATION(d)) == GMV_OK && says_reply(d, d->reply, block) &&
           says_complete(d, 0, 0) && unchanged(&d->state) && unchanged(&d->buffer);
}

/* The block arrives at the station. Is it answered as it must be? */
static int is_answered(dialogue *d, int block, int is_retransmission)
{
    const uint64_t ending = block % d->blocks_of_message == 0 ? GMV_ETX : GMV_ETB;
    uint8_t bytes[TEXT_LENGTH];
    guarded text;
    uint64_t answer;

    write_text(bytes, block);
    text = guard_copy(bytes, sizeof bytes);
    keep(&d->state);
    keep(&d->buffer);
    answer = d->rule(d, (uint64_t)block % 8, ending, &text);
    give_back(&text);
    take_message(d);
    return answer == GMV_OK &&
           (is_retransmission ? says_duplicate(d, block) : says_appended(d, block));
}

/* Sends each block until it has its reply: the line loses the first one. */
static failure send_blocks(dialogue *d)
{
    failure found = {0, 0};

    for (int block = 1; block <= BLOCKS; block++) {
        const int is_first_right = is_asked(d) && is_answered(d, block, 0);

        if (!is_first_right || !(d->enquires ? is_given_again(d, block) : is_answered(d, block, 1))) {
            found.block = block;
            found.is_retransmission = is_first_right;
            return found;
        }
    }
    return found;
}

/* Where no ACK comes between, every other block is answered RINT. */
static void comes_out_once(int blocks_of_message, int asks, int enquires)
{
    dialogue d = begin_dialogue(library_rule, blocks_of_message);
    uint8_t sent[ALL_TEXTS];

    d.asks = asks;
    d.enquires = enquires;
    for (int block = 1; block <= BLOCKS; block++)
        write_text(sent + (block - 1) * TEXT_LENGTH, block);
    CHECK(send_blocks(&d).block == 0);
    CHECK(d.interrupts == (!asks ? 0 : enquires ? BLOCKS / 2 : BLOCKS));
    CHECK(d.messages == BLOCKS / blocks_of_message);
    CHECK(d.taken_length == ALL_TEXTS && memcmp(d.taken, sent, ALL_TEXTS) == 0);
    end_dialogue(&d);
}

/* Shows that the dialogues can fail. What came before is taken, and no more. */
static void stops_at_block_7(int blocks_of_message)
{
    dialogue d = begin_dialogue(earlier_rule, blocks_of_message);
    failure found = send_blocks(&d);

    CHECK(found.block == 7 && found.is_retransmission);
    CHECK(words_of(&d.report)[GMV_STATION_REPLY] == GMV_REPLY_NAK);
    CHECK(d.messages == 7 / blocks_of_message);
    end_dialogue(&d);
}

void test_dialogue(void)
{
    begin_test("station: each ACK lost once, one message of 40 blocks comes out once and whole");
    comes_out_once(BLOCKS, 0, 0);
    begin_test("station: each ACK lost once, 40 messages of one block come out once each");
    comes_out_once(1, 0, 0);
    begin_test("station: each RINT lost once, 40 blocks sent again, and all comes out once");
    comes_out_once(BLOCKS, 1, 0);
    comes_out_once(1, 1, 0);
    begin_test("station: each reply lost once, 40 enquiries bring it, and all comes out once");
    comes_out_once(BLOCKS, 0, 1);
    comes_out_once(BLOCKS, 1, 1);
    comes_out_once(4, 1, 1);
    comes_out_once(1, 1, 1);
    begin_test("station: under the rule before request 2 both stop at the retransmission of block 7");
    stops_at_block_7(BLOCKS);
    stops_at_block_7(1);
}
