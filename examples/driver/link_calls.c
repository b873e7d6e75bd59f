#include "link_calls.h"

#include <string.h>

#include "common.h"

void input_allocate(input *in, const settings *link)
{
    memset(in, 0, sizeof *in);
    in->buffer_length = link->data_limit + BLOCK_OVERHEAD; /* the reader needs 12 over the limit */
    in->buffer = allocate(in->buffer_length);
}

void input_start(input *in)
{
    require_done(gmv_reader_fresh(in->reader, GMV_READER_WORDS), "gmv_reader_fresh");
}

size_t input_take(input *in, const settings *link, const uint8_t *part, size_t part_length)
{
    if (link->hybrid)
        require_done(gmv_hybrid_read(link->start_block, link->end_block, link->data_limit,
                                     in->reader, GMV_READER_WORDS, part, part_length, in->buffer,
                                     in->buffer_length, in->verdict, GMV_VERDICT_WORDS),
                     "gmv_hybrid_read");
    else
        require_done(gmv_minimal_read(link->data_limit, in->reader, GMV_READER_WORDS, part,
                                      part_length, in->buffer, in->buffer_length, in->verdict,
                                      GMV_VERDICT_WORDS),
                     "gmv_minimal_read");
    return in->verdict[GMV_VERDICT_USED];
}

const uint8_t *input_data(const input *in)
{
    return in->buffer + in->verdict[GMV_VERDICT_DATA_OFFSET];
}

uint64_t link_control_block(const settings *link, uint64_t number, uint8_t *buffer,
                            size_t buffer_length, uint64_t *report)
{
    if (link->hybrid)
        return gmv_hybrid_control_block(link->start_block, link->end_block, link->data_limit,
                                        link->type, TYPE_LENGTH, number, buffer, buffer_length, 0,
                                        report, GMV_REPORT_WORDS);
    return gmv_minimal_control_block(link->data_limit, link->type, TYPE_LENGTH, number, buffer,
                                     buffer_length, 0, report, GMV_REPORT_WORDS);
}

uint64_t link_data_block(const settings *link, const uint8_t *message, size_t message_length,
                         uint8_t *buffer, size_t buffer_length, uint64_t *report)
{
    if (link->hybrid)
        return gmv_hybrid_write(link->start_block, link->end_block, link->data_limit,
                                GMV_DATA_BLOCK, message, message_length, buffer, buffer_length, 0,
                                report, GMV_REPORT_WORDS);
    return gmv_minimal_write(link->data_limit, message, message_length, buffer, buffer_length, 0,
                             report, GMV_REPORT_WORDS);
}

uint64_t link_decide(const settings *link, uint64_t *state, const input *in, uint64_t *report)
{
    return gmv_receiver_decide(link->application, in->verdict[GMV_VERDICT_TYPE], input_data(in),
                               in->verdict[GMV_VERDICT_DATA_LENGTH], state, GMV_RECEIVER_WORDS, report,
                               GMV_DECISION_WORDS);
}

uint64_t link_answer(const settings *link, uint64_t stored, uint64_t *state, uint8_t *buffer,
                     size_t buffer_length, uint64_t *report)
{
    if (link->hybrid)
        return gmv_hybrid_answer(link->start_block, link->end_block, link->data_limit, stored, state,
                                 GMV_RECEIVER_WORDS, buffer, buffer_length, 0, report,
                                 GMV_REPORT_WORDS);
    return gmv_minimal_answer(link->data_limit, stored, state, GMV_RECEIVER_WORDS, buffer,
                              buffer_length, 0, report, GMV_REPORT_WORDS);
}

uint64_t link_refusal(const settings *link, uint64_t block_number, const uint64_t *state,
                      uint8_t *buffer, size_t buffer_length, uint64_t *report)
{
    if (link->hybrid)
        return gmv_hybrid_nak(link->start_block, link->end_block, link->data_limit, block_number, state,
                              GMV_RECEIVER_WORDS, buffer, buffer_length, 0, report, GMV_REPORT_WORDS);
    report[GMV_REPORT_BLOCK_LENGTH] = 0; /* a minimal link has no such reply */
    return GMV_OK;
}
