/* The library's calls that differ between a hybrid and a minimal link, by the link's settings, and
 * the reader of a circuit. */
#ifndef LINK_CALLS_H
#define LINK_CALLS_H

#include "giamuvich.h"
#include "settings.h"

enum { BLOCK_OVERHEAD = 15 /* of a hybrid block; a minimal one has less */ };

/* What comes in on a circuit: the reader's state, its buffer, and the verdict of the last call. */
typedef struct {
    uint64_t reader[GMV_READER_WORDS];
    uint64_t verdict[GMV_VERDICT_WORDS];
    uint8_t *buffer;
    size_t buffer_length;
} input;

void input_allocate(input *in, const settings *link);

/* At each new circuit the reader starts afresh: no byte of an earlier circuit counts. */
void input_start(input *in);

/* Reads a part up to the first verdict. Returns the bytes used; the verdict says what was found. */
size_t input_take(input *in, const settings *link, const uint8_t *part, size_t part_length);

/* The data of the block that was just accepted. */
const uint8_t *input_data(const input *in);

uint64_t link_control_block(const settings *link, uint64_t number, uint8_t *buffer,
                            size_t buffer_length, uint64_t *report);
uint64_t link_data_block(const settings *link, const uint8_t *message, size_t message_length,
                         uint8_t *buffer, size_t buffer_length, uint64_t *report);

/* The receiver's acts: the decision on the block that was just accepted, the report of it with its answer, and the reply to
 * a block that was refused. */
uint64_t link_decide(const settings *link, uint64_t *state, const input *in, uint64_t *report);
uint64_t link_answer(const settings *link, uint64_t stored, uint64_t *state, uint8_t *buffer,
                     size_t buffer_length, uint64_t *report);
uint64_t link_refusal(const settings *link, uint64_t block_number, const uint64_t *state,
                      uint8_t *buffer, size_t buffer_length, uint64_t *report);

#endif
