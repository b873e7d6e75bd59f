/* Faults that are planted between the library and the oracles, to see that the oracles can fail. The
 * one that FUZZ_FAULT names is there. Each shows only where an input reaches a certain state. */
#ifndef FAULTS_H
#define FAULTS_H

/* planted.ll: a sum that is promised not to wrap, and a flag that is promised to be 0 or 1. */
uint64_t planted_sum(uint64_t number);
uint64_t planted_flag(const uint8_t *flag);

static int is_planted(const char *fault)
{
    const char *chosen = getenv("FUZZ_FAULT");

    return chosen && strcmp(chosen, fault) == 0;
}

/* With FUZZ_MODEL=alone the other oracles are left alone: the model is not asked. */
static int asks_model(void)
{
    const char *model = getenv("FUZZ_MODEL");

    return !(model && strcmp(model, "alone") == 0);
}

/* The reader takes the CR of a block that comes in a part of its own for another byte. */
static void break_read(call *c, uint64_t phase, uint64_t number)
{
    if (number == GMV_OK && phase == 2 && get_word(&c->result, GMV_VERDICT_TYPE) == GMV_DATA_BLOCK)
        set_word(&c->result, GMV_VERDICT_NUMBER, GMV_SHAPE);
}

/* The writer changes the byte behind a block. */
static void break_write(call *c, uint64_t number)
{
    size_t end = number == GMV_OK ? c->start + get_word(&c->result, GMV_REPORT_BLOCK_LENGTH) : 0;

    if (end > 0 && end < c->buffer.length)
        c->buffer.bytes[end] ^= 1;
}

/* A sender that gives up counts one send too many. */
static void break_timer(call *c, uint64_t number)
{
    if (number == GMV_OK && get_word(&c->result, GMV_ACT_EVENT) == GMV_EVENT_ABANDONED)
        set_word(&c->result, GMV_ACT_SENDS, get_word(&c->result, GMV_ACT_SENDS) + 1);
}

/* A station that has had block 7 expects block 1 again. */
static void break_station(call *c, uint64_t number)
{
    if (number == GMV_OK && c->number == 7 && get_word(&c->result, GMV_STATION_REPLY) == GMV_REPLY_ACK &&
        get_word(&c->state, GMV_STATION_EXPECTED) == 0)
        set_word(&c->state, GMV_STATION_EXPECTED, 1);
}

/* The station's rule before request 2, where it did not go round: a retransmission of block 7 is no
 * duplicate where 0 is expected. */
static void break_eighth(call *c, uint64_t expected, uint64_t number)
{
    if (number != GMV_OK || c->number != 7 || expected != 0)
        return;
    if (get_word(&c->state, GMV_STATION_OPEN) == 0)
        return;
    set_word(&c->result, GMV_STATION_REPLY, GMV_REPLY_NAK);
    set_word(&c->result, GMV_STATION_REPLY_NUMBER, 0);
}

/* That rule where it went too far: a number two or more below the expected one is a duplicate. */
static void break_older(call *c, uint64_t expected, uint64_t number)
{
    if (number != GMV_OK || c->number > 7 || c->number + 2 > expected)
        return;
    if (get_word(&c->state, GMV_STATION_OPEN) == 0)
        return;
    set_word(&c->result, GMV_STATION_REPLY, GMV_REPLY_ACK);
    set_word(&c->result, GMV_STATION_REPLY_NUMBER, c->number);
}

/* The library is told of one byte more than there is: its own loads must be seen by the sanitizer. */
static uint64_t read_one_byte_more(const call *c)
{
    return gmv_header_read(c->content.bytes, c->content.length + 1, (uint64_t *)(void *)c->result.bytes,
                           count_words(&c->result));
}

#include "faults_master.h"
#include "faults_receiver.h"
#include "faults_station.h"

static uint64_t word_of_state(const call *c, size_t index)
{
    return count_words(&c->state) > index ? get_word(&c->state, index) : 0;
}

static uint64_t invoke_library(call *c)
{
    uint64_t phase = word_of_state(c, 0), expected = word_of_state(c, GMV_STATION_EXPECTED), number;

    if (family_of(c->function) == MASTER)
        return invoke_master_library(c);
    if (family_of(c->function) == RECEIVER)
        return invoke_receiver_library(c);
    if (c->function == call_header_read && c->content.length > 4 && is_planted("overread"))
        return read_one_byte_more(c);
    if (c->function == call_station_block && is_planted("promise"))
        planted_sum(c->number);
    if (c->function == call_station_block && is_planted("flag"))
        planted_flag(&(const uint8_t){c->number == UINT64_MAX ? 2 : 1});
    number = family_of(c->function) == STATION ? invoke_station_library(c) : invoke(c);
    if (c->function == call_hybrid_read && is_planted("read"))
        break_read(c, phase, number);
    if (c->function == call_minimal_write && is_planted("write"))
        break_write(c, number);
    if (c->function == call_sender_timer && is_planted("timer"))
        break_timer(c, number);
    if (c->function == call_station_block && is_planted("station"))
        break_station(c, number);
    if (c->function == call_station_block && is_planted("eighth"))
        break_eighth(c, expected, number);
    if (c->function == call_station_block && is_planted("older"))
        break_older(c, expected, number);
    return number;
}

#endif
