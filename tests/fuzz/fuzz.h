/* What the fuzzers share: the input as a source of choices, memory of exact size, and a call of the
 * library that is compared with the header's words. */
#ifndef FUZZ_H
#define FUZZ_H

#include "giamuvich.h"

/* ---- Oracles. One that does not hold ends the program with its words. ---- */

void oracle(int holds, const char *words);

/* ---- The input: choices are taken from it until it is used up, and are 0 from then on. ---- */

typedef struct {
    const uint8_t *bytes;
    size_t length;
} input;

int has_more(const input *in);
uint8_t take_byte(input *in);
size_t take_below(input *in, size_t bound);
/* Any word: small ones, those near the limits of the header, and arbitrary ones. */
uint64_t take_word(input *in);
/* As many of the input's bytes as are left, at most `longest`. */
input take_part(input *in, size_t longest);

/* ---- Memory of exactly `length` bytes, so that the sanitizer sees one byte too many. ---- */

typedef struct {
    uint8_t *bytes;
    size_t length;
} memory;

memory new_memory(size_t length);
memory new_copy(const void *bytes, size_t length);
/* No bytes: by the choice of the input a null pointer or one that may not be read. */
memory new_empty(input *in);
void end_memory(memory *m);
int same_memory(const memory *a, const memory *b);
void append(memory *m, const void *bytes, size_t length);
void append_text(memory *m, const char *text);
void append_decimal(memory *m, uint64_t number);
/* Words: their content comes from the input, and seldom their count is another than `count`. */
memory take_words(input *in, size_t count);
uint64_t get_word(const memory *m, size_t index);
void set_word(memory *m, size_t index, uint64_t word);
size_t count_words(const memory *m);
/* A buffer of `need` bytes and some before and after; seldom one that is too short, or any start. */
memory take_buffer(input *in, size_t need, size_t *start);

/* ---- A call. All functions take some of these parameters. ---- */

#define FUNCTIONS(X) \
    X(reader_fresh) X(hybrid_read) X(minimal_read) X(hybrid_check) X(minimal_check) \
    X(hybrid_write) X(minimal_write) X(header_read) X(answer_read) X(field_next) X(answer_write) \
    X(control_write) X(receiver_fresh) X(receiver_decide) X(hybrid_answer) X(minimal_answer) \
    X(hybrid_nak) X(sender_fresh) X(sender_submit) X(sender_open) X(sender_ended) X(sender_reset) X(sender_timer) \
    X(sender_block) X(hybrid_control_block) X(minimal_control_block) X(station_fresh) \
    X(station_open) X(station_block) X(station_bad) X(station_enquiry) X(station_end) \
    X(station_bare_enq) X(station_interrupt) \
    X(master_fresh) X(master_open) X(master_start) X(master_reply) X(master_timer) X(master_close) \
    X(master_enquire) X(master_may_receive)

#define NAME_FUNCTION(name) call_##name,
enum function { FUNCTIONS(NAME_FUNCTION) FUNCTION_COUNT };

typedef struct {
    int minimal;
    uint64_t start_block, end_block, data_limit;
} settings;

typedef struct {
    enum function function;
    settings link;
    uint64_t number;       /* a number, type, first, resends, position, or a message's length */
    uint64_t code;         /* a code, an application's verdict, a report, an ending, a reply, or a block size */
    uint64_t block_number; /* with block_type: what a reader said of a block */
    uint64_t block_type;
    memory content; /* what is only read */
    memory buffer;  /* what is written, from start on */
    size_t start;
    memory state;  /* words */
    memory result; /* words: a verdict, a report, a header or an answer */
} call;

/* Calls the library twice, on memory at different addresses. What it returned, and every byte of the
 * memory, are the same both times, and are what the model says. Counts the number returned. */
uint64_t perform(call *c);
void end_call(call *c);

/* What the header says: the number, with the memory of the call changed. */
uint64_t model_call(call *c);
uint64_t model_blocks(call *c);
uint64_t model_messages(call *c);
uint64_t model_receiver(call *c);
uint64_t model_sender(call *c);
uint64_t model_station(call *c);
uint64_t model_master(call *c);

/* Parts of the models that the others and the fuzzers need. */
enum { LEAST_LINK_LIMIT = 128, GREATEST_LIMIT = 99994 };
#define GREATEST_SENT UINT64_C(999999999999998)
#define GREATEST_EXPECTED UINT64_C(999999999999999)

int settings_are_valid(settings link, uint64_t least_limit);
int is_data_byte(uint8_t byte);
size_t overhead_of(settings link);
size_t capacity_of(settings link);
/* The block of this type with this data, appended. */
void append_block(memory *m, settings link, uint8_t type, const uint8_t *data, size_t length);
/* Is there memory of this length in the buffer from start on? */
int buffer_holds(const call *c, size_t length);
void write_into_buffer(call *c, const memory *bytes);

typedef struct {
    size_t offset, length;
} field;
typedef struct {
    field control_id, sequence;
    uint64_t sequence_field, sequence_number;
} header_fields;
typedef struct {
    field code, control_id, expected;
    uint64_t code_number, expected_field, expected_number;
} answer_fields;

int find_header(const memory *message, header_fields *found);
int find_answer(const memory *message, answer_fields *found);
void append_answer(memory *m, const uint8_t *id, size_t id_length, uint64_t code, uint64_t number);
void append_control(memory *m, const char *type, uint64_t number);

/* ---- Choices that several fuzzers make. ---- */

settings take_settings(input *in);
settings take_link(input *in); /* valid, for a receiver or a sender */
/* A message with these fields, altered by the input: most often as it should be. */
memory take_message(input *in, uint64_t number);
memory take_answer(input *in, uint64_t id, uint64_t code, uint64_t number);
/* Any bytes: most often segments whose bars and CRs stand where they matter. */
memory take_any_message(input *in);
void alter(input *in, memory *m);
void append_number(memory *m, uint64_t number); /* GMV_MINUS_ONE as -1 */

/* ---- The fuzzers. ---- */

void fuzz_blocks(input *in);
void fuzz_messages(input *in);
void fuzz_receiver(input *in);
void fuzz_sender(input *in);
void fuzz_station(input *in);
void fuzz_master(input *in);

/* Writes the counts, a line for each function and number, to the file that FUZZ_COUNTS names. */
void write_counts(void);
/* What else was seen: a name and a number, such as the number of a block that a reader found. */
enum outcome {
    READ_BLOCK,
    FIELD_DELIMITER,
    DECIDED_BLOCK,
    DECISION,
    REPORTED,
    NAK_REPLY,
    SENDER_EVENT,
    SENDER_SEND,
    STATION_REPLY,
    STATION_DUPLICATE,
    STATION_ENQUIRED,
    MASTER_SEND,
    MASTER_END,
    MASTER_NUMBER,
    MASTER_RESENDS,
    MASTER_RINT,
    OUTCOME_COUNT
};
void count_outcome(enum outcome kind, uint64_t number);

#endif
