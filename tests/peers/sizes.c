/* The least length of each piece of lent memory: a line NAME LENGTH for each, the first length that is not refused
 * by 2. Everything is tried with D of 128, and with all else right, so that the call at that length returns 0. */
#include <stdio.h>
#include <stdlib.h>
#include <string.h>

#include "giamuvich.h"

enum { SB = 0x0B, EB = 0x1C, D = 128, CAPACITY = 400, WORDS = 16 };

static const uint8_t message[] = "MSH|^~\\&|||||||ADT|1|P|2.3.1|1\r";
static const uint8_t answer[] = "MSH|^~\\&|||||||ACK|1|P|2.3.1\rMSA|AA|1||1\r";
static const uint8_t block[] = "\x0B" "A\r" "\x1C\r";
static const uint8_t id[20] = "12345678901234567890";
static const uint8_t type[3] = {'A', 'D', 'T'};
static uint8_t data[D], buffer[CAPACITY];
static uint64_t state[WORDS], words[WORDS];

/* Fresh words for each try. */
static uint64_t *fresh_reader(void)
{
    gmv_reader_fresh(state, GMV_READER_WORDS);
    return state;
}

static uint64_t *fresh_sender(void)
{
    gmv_sender_fresh(1, state, GMV_SENDER_WORDS);
    return state;
}

static uint64_t *fresh_station(void)
{
    gmv_station_fresh(state, GMV_STATION_WORDS);
    return state;
}

static uint64_t *fresh_master(void)
{
    gmv_master_fresh(state, GMV_MASTER_WORDS);
    return state;
}

static uint64_t *no_number(void)
{
    gmv_receiver_fresh(state, GMV_RECEIVER_WORDS);
    return state;
}

/* A decision on the message is open. */
static uint64_t *decided(void)
{
    uint64_t said[GMV_DECISION_WORDS];

    gmv_receiver_decide(GMV_CODE_AA, GMV_DATA_BLOCK, message, sizeof message - 1, no_number(), GMV_RECEIVER_WORDS, said,
                        GMV_DECISION_WORDS);
    return state;
}

/* Tries the lengths from 0 on. */
#define LEAST(name, call)                                                                              \
    do {                                                                                               \
        size_t n = 0;                                                                                  \
        uint64_t number = GMV_TOO_SHORT;                                                               \
        for (; n < CAPACITY && (number = (call)) == GMV_TOO_SHORT; n++)                                    \
            ;                                                                                          \
        if (number != GMV_OK)                                                                          \
            printf("%s: refused by %d\n", name, (int)number);                                          \
        printf("%s %d\n", name, (int)n);                                                               \
    } while (0)

static void blocks(void)
{
    LEAST("reader-state", gmv_reader_fresh(state, n));
    LEAST("hybrid-reader-buffer", gmv_hybrid_read(SB, EB, D, fresh_reader(), GMV_READER_WORDS, block, 1, buffer, n,
                                                  words, GMV_VERDICT_WORDS));
    LEAST("minimal-reader-buffer", gmv_minimal_read(D, fresh_reader(), GMV_READER_WORDS, block, 1, buffer, n, words,
                                                    GMV_VERDICT_WORDS));
    LEAST("verdict", gmv_minimal_check(D, block, sizeof block - 1, words, n));
    LEAST("hybrid-block", gmv_hybrid_write(SB, EB, D, GMV_DATA_BLOCK, data, D, buffer, n, 0, words, GMV_REPORT_WORDS));
    LEAST("minimal-block", gmv_minimal_write(D, data, D, buffer, n, 0, words, GMV_REPORT_WORDS));
    LEAST("writer-report", gmv_minimal_write(D, data, D, buffer, CAPACITY, 0, words, n));
}

static void messages(void)
{
    LEAST("header", gmv_header_read(message, sizeof message - 1, words, n));
    LEAST("answer-fields", gmv_answer_read(answer, sizeof answer - 1, words, n));
    LEAST("next-field", gmv_field_next(message, sizeof message - 1, 0, words, n));
    LEAST("longest-answer", gmv_answer_write(id, sizeof id, GMV_CODE_AA, 999999999999999, buffer, n, 0, words,
                                             GMV_REPORT_WORDS));
    LEAST("control-0", gmv_control_write(type, 3, 0, buffer, n, 0, words, GMV_REPORT_WORDS));
    LEAST("control-minus-1", gmv_control_write(type, 3, GMV_MINUS_ONE, buffer, n, 0, words, GMV_REPORT_WORDS));
    LEAST("hybrid-control-0", gmv_hybrid_control_block(SB, EB, D, type, 3, 0, buffer, n, 0, words, GMV_REPORT_WORDS));
    LEAST("hybrid-control-minus-1",
          gmv_hybrid_control_block(SB, EB, D, type, 3, GMV_MINUS_ONE, buffer, n, 0, words, GMV_REPORT_WORDS));
    LEAST("minimal-control-0", gmv_minimal_control_block(D, type, 3, 0, buffer, n, 0, words, GMV_REPORT_WORDS));
    LEAST("minimal-control-minus-1",
          gmv_minimal_control_block(D, type, 3, GMV_MINUS_ONE, buffer, n, 0, words, GMV_REPORT_WORDS));
}

static void ends(void)
{
    LEAST("receiver-state", gmv_receiver_fresh(state, n));
    LEAST("decision-state", gmv_receiver_decide(GMV_CODE_AA, GMV_DATA_BLOCK, message, sizeof message - 1, no_number(), n,
                                                words, GMV_DECISION_WORDS));
    LEAST("decision-report", gmv_receiver_decide(GMV_CODE_AA, GMV_DATA_BLOCK, message, sizeof message - 1, no_number(),
                                                 GMV_RECEIVER_WORDS, words, n));
    LEAST("answer-state", gmv_minimal_answer(D, GMV_STORED, decided(), n, buffer, CAPACITY, 0, words, GMV_REPORT_WORDS));
    LEAST("answer-report",
          gmv_minimal_answer(D, GMV_STORED, decided(), GMV_RECEIVER_WORDS, buffer, CAPACITY, 0, words, n));
    LEAST("nak-report", gmv_hybrid_nak(SB, EB, D, GMV_CHECK, no_number(), GMV_RECEIVER_WORDS, buffer, CAPACITY, 0, words,
                                       n));
    LEAST("hybrid-answer", gmv_hybrid_answer(SB, EB, D, GMV_STORED, decided(), GMV_RECEIVER_WORDS, buffer, n, 0, words,
                                             GMV_REPORT_WORDS));
    LEAST("hybrid-failure", gmv_hybrid_answer(SB, EB, D, GMV_NOT_STORED, decided(), GMV_RECEIVER_WORDS, buffer, n, 0,
                                              words, GMV_REPORT_WORDS));
    LEAST("minimal-answer",
          gmv_minimal_answer(D, GMV_STORED, decided(), GMV_RECEIVER_WORDS, buffer, n, 0, words, GMV_REPORT_WORDS));
    LEAST("minimal-failure",
          gmv_minimal_answer(D, GMV_NOT_STORED, decided(), GMV_RECEIVER_WORDS, buffer, n, 0, words, GMV_REPORT_WORDS));
    LEAST("hybrid-nak", gmv_hybrid_nak(SB, EB, D, GMV_CHECK, no_number(), GMV_RECEIVER_WORDS, buffer, n, 0, words,
                                       GMV_REPORT_WORDS));
    LEAST("sender-state", gmv_sender_fresh(1, state, n));
    LEAST("sender-report", gmv_sender_open(fresh_sender(), GMV_SENDER_WORDS, words, n));
    LEAST("station-state", gmv_station_fresh(state, n));
    LEAST("station-report", gmv_station_open(fresh_station(), GMV_STATION_WORDS, words, n));
    LEAST("station-buffer", (gmv_station_open(fresh_station(), GMV_STATION_WORDS, words, GMV_STATION_REPORT_WORDS),
                             gmv_station_block(1, GMV_ETX, data, D, buffer, n, state, GMV_STATION_WORDS, words,
                                               GMV_STATION_REPORT_WORDS)));
    LEAST("master-state", gmv_master_fresh(state, n));
    LEAST("master-report", gmv_master_open(fresh_master(), GMV_MASTER_WORDS, words, n));
}

int main(void)
{
    memset(data, 'x', sizeof data);
    blocks();
    messages();
    ends();
    return 0;
}
