/* Cases of the master over ranges, made here and run as those of tests/cases/master.txt are. */
#include "harness.h"

#include <stdio.h>
#include <string.h>

enum { LONGEST = 400 };

typedef unsigned long long wide;

/* ---- messages of every length in blocks of every size */

/* A block that is out, and the report that names it, from its offset on. */
static void name_block(char *text, uint64_t length, uint64_t block_size, uint64_t offset, uint64_t count)
{
    const uint64_t rest = length - offset;

    snprintf(text, LONGEST, "%llu %d %llu %llu", (wide)((count + 1) % 8),
             rest > block_size ? GMV_ETB : GMV_ETX, (wide)offset,
             (wide)(rest > block_size ? block_size : rest));
}

/* The last four words where the blocks so far were acknowledged by ACKs. */
static const char *noted(uint64_t count)
{
    return count == 0 ? "0 0 0 0" : "1 0 0 0";
}

/* The block out is sent again once. */
static void goes_again(const char *state, const char *named, uint64_t offset, uint64_t count)
{
    CASE("master_timer state=(%s %llu 0 %llu %s) -> 0 state=(%s %llu 1 %llu %s) "
         "report=(1 %s 0 0 0 %llu 1)", state, (wide)offset, (wide)count, noted(count), state,
         (wide)offset, (wide)count, noted(count), named, (wide)count);
}

/* The message goes out block by block, by one ACK each; before it every block is sent again once. */
static void goes_out(uint64_t length, uint64_t block_size, uint64_t count)
{
    uint64_t offset = 0;
    char state[LONGEST], named[LONGEST], next[LONGEST];

    name_block(named, length, block_size, 0, count);
    CASE("master_start message_length=%llu block_size=%llu state=(1 0 0 0 0 %llu %s) -> 0 "
         "state=(2 %llu %llu 0 0 %llu %s) report=(1 %s 0 0 0 %llu 0)", (wide)length, (wide)block_size,
         (wide)count, noted(count), (wide)length, (wide)block_size, (wide)count, noted(count), named,
         (wide)count);
    snprintf(state, sizeof state, "2 %llu %llu", (wide)length, (wide)block_size);
    for (;; offset += block_size, count++) {
        name_block(named, length, block_size, offset, count);
        goes_again(state, named, offset, count);
        if (length - offset <= block_size)
            break;
        name_block(next, length, block_size, offset + block_size, count + 1);
        CASE("master_reply reply=1 number=%llu state=(%s %llu 1 %llu %s) -> 0 "
             "state=(%s %llu 0 %llu 1 0 0 0) report=(1 %s 1 0 0 %llu 0)", (wide)((count + 1) % 8), state,
             (wide)offset, (wide)count, noted(count), state, (wide)(offset + block_size),
             (wide)(count + 1), next, (wide)(count + 1));
    }
    CASE("master_reply reply=1 number=%llu state=(%s %llu 1 %llu %s) -> 0 "
         "state=(1 0 0 0 0 %llu 1 0 0 0) report=(0 0 0 0 0 1 1 0 %llu 0)", (wide)((count + 1) % 8), state,
         (wide)offset, (wide)count, noted(count), (wide)(count + 1), (wide)(count + 1));
}

static void every_length_and_size(void)
{
    for (uint64_t length = 0; length <= 12; length++)
        for (uint64_t block_size = 1; block_size <= 14; block_size++)
            goes_out(length, block_size, length + block_size);
}

/* The largest lengths and sizes, a few blocks each. */
static void largest_lengths_and_sizes(void)
{
    const uint64_t half = UINT64_C(1) << 63, most = UINT64_MAX;
    const uint64_t ends[] = {half - 1, half, half + 1, most / 3, most / 3 + 1, most - 1, most};

    for (size_t i = 0; i < sizeof ends / sizeof ends[0]; i++)
        for (size_t j = 0; j < sizeof ends / sizeof ends[0]; j++)
            goes_out(ends[i], ends[j], (UINT64_C(1) << 32) + i);
}

/* Forty blocks of one byte: after 7 comes 0, and after 0 comes 1. */
static void numbers_go_round(void)
{
    goes_out(40, 1, 0);
}

/* ---- which words are a state */

/* The header's rule on the words 6 and 7. */
static int go_together(const uint64_t *w)
{
    const uint64_t interrupted = w[GMV_MASTER_INTERRUPTED];

    switch (w[GMV_MASTER_LAST_REPLY]) {
    case GMV_REPLY_NONE:
        return interrupted == 0 && w[GMV_MASTER_COUNT] == 0 && w[GMV_MASTER_OFFSET] == 0;
    case GMV_REPLY_ACK:
    case GMV_REPLY_NAK:
        return interrupted <= 1;
    default:
        return w[GMV_MASTER_LAST_REPLY] == GMV_REPLY_RINT && interrupted == 1;
    }
}

/* The header's rule. */
static int encodes_state(const uint64_t *w)
{
    const uint64_t length = w[GMV_MASTER_MESSAGE_LENGTH], offset = w[GMV_MASTER_OFFSET];
    const int no_block = length == 0 && w[GMV_MASTER_BLOCK_SIZE] == 0 && offset == 0 &&
                         w[GMV_MASTER_RESENDS] == 0 && w[GMV_MASTER_ENQUIRED] == 0 &&
                         w[GMV_MASTER_MAY_RECEIVE] == 0;

    switch (w[GMV_MASTER_PHASE]) {
    case GMV_MASTER_CLOSED:
        return no_block && w[GMV_MASTER_LAST_REPLY] == 0 && w[GMV_MASTER_INTERRUPTED] == 0;
    case GMV_MASTER_IDLE:
        return no_block && go_together(w);
    case GMV_MASTER_WAITING:
        return w[GMV_MASTER_BLOCK_SIZE] >= 1 && w[GMV_MASTER_RESENDS] <= 5 &&
               (offset < length || offset == 0) && go_together(w) && w[GMV_MASTER_ENQUIRED] <= 1 &&
               w[GMV_MASTER_MAY_RECEIVE] <= w[GMV_MASTER_INTERRUPTED];
    default:
        return 0;
    }
}

static void write_words(char *text, const uint64_t *w)
{
    size_t length = 0;

    for (size_t i = 0; i < GMV_MASTER_WORDS; i++)
        length += (size_t)snprintf(text + length, LONGEST - length, i ? " %llu" : "%llu", (wide)w[i]);
}

/* Words that encode no state: every act but the opening is refused. */
static void no_state(const char *words)
{
    static const char *const acts[] = {"master_start message_length=13 block_size=5",
                                       "master_reply reply={1..5} number={0 1}", "master_timer",
                                       "master_close", "master_enquire", "master_may_receive"};

    for (size_t i = 0; i < sizeof acts / sizeof acts[0]; i++)
        CASE("%s state=(%s) -> 11 same", acts[i], words);
    CASE("master_start message_length=13 block_size=0 state=(%s) -> 1 same", words);
}

/* An act that changes nothing where the words encode a state, and those that do not apply to it. */
static void try_words(const uint64_t *w)
{
    char words[LONGEST];

    write_words(words, w);
    CASE("master_open state=(%s) -> 0 state=(1 0 0 0 0 0 0 0 0 0) report=(0 0 0 0 0 0 0 0 0 0)", words);
    if (!encodes_state(w)) {
        no_state(words);
        return;
    }
    CASE("master_reply reply=4 number=0 state=(%s) -> 0 state=same report=(0 0 0 0 0 0 0 0 %llu %llu)",
         words, (wide)w[GMV_MASTER_COUNT], (wide)w[GMV_MASTER_RESENDS]);
    if (w[GMV_MASTER_PHASE] != GMV_MASTER_IDLE) {
        CASE("master_close state=(%s) -> 11 same", words);
        CASE("master_start message_length=13 block_size=5 state=(%s) -> 11 same", words);
    }
    if (w[GMV_MASTER_PHASE] != GMV_MASTER_WAITING)
        CASE("master_enquire state=(%s) -> 11 same", words);
    if (w[GMV_MASTER_INTERRUPTED] == 0)
        CASE("master_may_receive state=(%s) -> 11 same", words);
}

/* A state with one word changed, for every word. */
static void changed_words(const uint64_t *from)
{
    const uint64_t values[] = {0, 1, 2, 3, 4, 5, 6, 7, 8, 9, 10, 11, 255, 256, 257, 258,
                               UINT64_C(1) << 32, (UINT64_C(1) << 32) + 1, (UINT64_C(1) << 32) + 2,
                               UINT64_C(1) << 63, UINT64_MAX - 1, UINT64_MAX};

    for (size_t word = 0; word < GMV_MASTER_WORDS; word++)
        for (size_t i = 0; i < sizeof values / sizeof values[0]; i++) {
            uint64_t words[GMV_MASTER_WORDS];

            memcpy(words, from, sizeof words);
            words[word] = values[i];
            try_words(words);
        }
}

static void words_of_no_state(void)
{
    const uint64_t most = UINT64_MAX;
    const uint64_t states[][GMV_MASTER_WORDS] = {
        {GMV_MASTER_CLOSED, 0, 0, 0, 0, 3, GMV_REPLY_NONE, 0, 0, 0},
        {GMV_MASTER_IDLE, 0, 0, 0, 0, 3, GMV_REPLY_ACK, 0, 0, 0},
        {GMV_MASTER_IDLE, 0, 0, 0, 0, 0, GMV_REPLY_NONE, 0, 0, 0},
        {GMV_MASTER_WAITING, 10, 4, 4, 2, 3, GMV_REPLY_NAK, 0, 1, 0},
        {GMV_MASTER_WAITING, 10, 1, 9, 5, 0, GMV_REPLY_ACK, 1, 0, 1},
        {GMV_MASTER_WAITING, 0, 4, 0, 0, 3, GMV_REPLY_RINT, 1, 0, 0},
        {GMV_MASTER_WAITING, 10, 4, 0, 0, 0, GMV_REPLY_NONE, 0, 0, 0},
        {GMV_MASTER_WAITING, most, 1, most - 1, 0, 3, GMV_REPLY_RINT, 1, 1, 1}};

    for (size_t i = 0; i < sizeof states / sizeof states[0]; i++)
        changed_words(states[i]);
}

void test_master_sweeps(void)
{
    begin_test("master: every length up to 12 in blocks of every size up to 14");
    every_length_and_size();
    begin_test("master: lengths and sizes near 2^64");
    largest_lengths_and_sizes();
    begin_test("master: after 7 comes 0, over 40 blocks");
    numbers_go_round();
    begin_test("master: 11 for words that encode no state, word by word");
    words_of_no_state();
}
