/* A call of the library, compared with the model, and the counts of what was returned. */
#include "fuzz.h"

#include <stdio.h>
#include <stdlib.h>
#include <string.h>

enum { NUMBER_COUNT = 12 };
static uint64_t returned[FUNCTION_COUNT][NUMBER_COUNT];
static uint64_t outcomes[OUTCOME_COUNT][NUMBER_COUNT];
/* Counters that guide libFuzzer besides the library's edges: one for each function and number, and for
 * each outcome. The section's name is libFuzzer's. */
static uint8_t guide[FUNCTION_COUNT + OUTCOME_COUNT][NUMBER_COUNT]
    __attribute__((section("__libfuzzer_extra_counters")));

static void count(uint64_t (*counts)[NUMBER_COUNT], size_t row, size_t guide_row, uint64_t number)
{
    if (number >= NUMBER_COUNT)
        return;
    counts[row][number]++;
    guide[guide_row][number] = 1;
}

#define STATE (uint64_t *)(void *)c->state.bytes, count_words(&c->state)
#define RESULT (uint64_t *)(void *)c->result.bytes, count_words(&c->result)
#define CONTENT c->content.bytes, c->content.length
#define BUFFER c->buffer.bytes, c->buffer.length
#define SETTINGS c->link.start_block, c->link.end_block, c->link.data_limit
#define LIMIT c->link.data_limit
#define BLOCK c->block_number, c->block_type

static uint64_t invoke_blocks(call *c)
{
    switch (c->function) {
    case call_reader_fresh:
        return gmv_reader_fresh(STATE);
    case call_hybrid_read:
        return gmv_hybrid_read(SETTINGS, STATE, CONTENT, BUFFER, RESULT);
    case call_minimal_read:
        return gmv_minimal_read(LIMIT, STATE, CONTENT, BUFFER, RESULT);
    case call_hybrid_check:
        return gmv_hybrid_check(SETTINGS, CONTENT, RESULT);
    case call_minimal_check:
        return gmv_minimal_check(LIMIT, CONTENT, RESULT);
    case call_hybrid_write:
        return gmv_hybrid_write(SETTINGS, c->number, CONTENT, BUFFER, c->start, RESULT);
    default:
        return gmv_minimal_write(LIMIT, CONTENT, BUFFER, c->start, RESULT);
    }
}

static uint64_t invoke_messages(call *c)
{
    switch (c->function) {
    case call_header_read:
        return gmv_header_read(CONTENT, RESULT);
    case call_answer_read:
        return gmv_answer_read(CONTENT, RESULT);
    case call_field_next:
        return gmv_field_next(CONTENT, c->number, RESULT);
    case call_answer_write:
        return gmv_answer_write(CONTENT, c->code, c->number, BUFFER, c->start, RESULT);
    case call_control_write:
        return gmv_control_write(CONTENT, c->number, BUFFER, c->start, RESULT);
    case call_hybrid_control_block:
        return gmv_hybrid_control_block(SETTINGS, CONTENT, c->number, BUFFER, c->start, RESULT);
    default:
        return gmv_minimal_control_block(LIMIT, CONTENT, c->number, BUFFER, c->start, RESULT);
    }
}

static uint64_t invoke_receiver(call *c)
{
    switch (c->function) {
    case call_receiver_fresh:
        return gmv_receiver_fresh(STATE);
    case call_receiver_decide:
        return gmv_receiver_decide(c->code, c->block_type, CONTENT, STATE, RESULT);
    case call_hybrid_answer:
        return gmv_hybrid_answer(SETTINGS, c->code, STATE, BUFFER, c->start, RESULT);
    case call_minimal_answer:
        return gmv_minimal_answer(LIMIT, c->code, STATE, BUFFER, c->start, RESULT);
    default:
        return gmv_hybrid_nak(SETTINGS, c->block_number, STATE, BUFFER, c->start, RESULT);
    }
}

static uint64_t invoke_sender(call *c)
{
    switch (c->function) {
    case call_sender_fresh:
        return gmv_sender_fresh(c->number, STATE);
    case call_sender_submit:
        return gmv_sender_submit(LIMIT, CONTENT, STATE, RESULT);
    case call_sender_open:
        return gmv_sender_open(STATE, RESULT);
    case call_sender_ended:
        return gmv_sender_ended(STATE, RESULT);
    case call_sender_reset:
        return gmv_sender_reset(STATE, RESULT);
    case call_sender_timer:
        return gmv_sender_timer(c->number, STATE, RESULT);
    default:
        return gmv_sender_block(c->number, BLOCK, CONTENT, STATE, RESULT);
    }
}

static uint64_t invoke_station(call *c)
{
    switch (c->function) {
    case call_station_fresh:
        return gmv_station_fresh(STATE);
    case call_station_open:
        return gmv_station_open(STATE, RESULT);
    case call_station_block:
        return gmv_station_block(c->number, c->code, CONTENT, BUFFER, STATE, RESULT);
    case call_station_bad:
        return gmv_station_bad(STATE, RESULT);
    case call_station_enquiry:
        return gmv_station_enquiry(STATE, RESULT);
    case call_station_end:
        return gmv_station_end(STATE, RESULT);
    case call_station_bare_enq:
        return gmv_station_bare_enq(STATE, RESULT);
    default:
        return gmv_station_interrupt(STATE, RESULT);
    }
}

static uint64_t invoke_master(call *c)
{
    switch (c->function) {
    case call_master_fresh:
        return gmv_master_fresh(STATE);
    case call_master_open:
        return gmv_master_open(STATE, RESULT);
    case call_master_start:
        return gmv_master_start(c->number, c->code, STATE, RESULT);
    case call_master_reply:
        return gmv_master_reply(c->code, c->number, STATE, RESULT);
    case call_master_timer:
        return gmv_master_timer(STATE, RESULT);
    case call_master_close:
        return gmv_master_close(STATE, RESULT);
    case call_master_enquire:
        return gmv_master_enquire(STATE, RESULT);
    default:
        return gmv_master_may_receive(STATE, RESULT);
    }
}

/* The files of the library that a function stands in: each has its models and its calls. */
enum family { BLOCKS, MESSAGES, RECEIVER, SENDER, STATION, MASTER };

static enum family family_of(enum function function)
{
    if (function <= call_minimal_write)
        return BLOCKS;
    if (function <= call_control_write)
        return MESSAGES;
    if (function <= call_hybrid_nak)
        return RECEIVER;
    if (function <= call_sender_block)
        return SENDER;
    if (function <= call_minimal_control_block)
        return MESSAGES;
    return function <= call_station_interrupt ? STATION : MASTER;
}

static uint64_t invoke(call *c)
{
    static uint64_t (*const families[])(call *) = {invoke_blocks, invoke_messages, invoke_receiver,
                                                   invoke_sender, invoke_station, invoke_master};

    return families[family_of(c->function)](c);
}

uint64_t model_call(call *c)
{
    static uint64_t (*const families[])(call *) = {model_blocks, model_messages, model_receiver,
                                                   model_sender, model_station, model_master};

    return families[family_of(c->function)](c);
}

#ifdef PLANTED_FAULTS
#include "faults.h"
#else
#define invoke_library invoke
#define asks_model() 1
#endif

/* ---- The comparison ---- */

static memory copy_of(const memory *m)
{
    memory copy = {NULL, 0};

    return m->length == 0 ? copy : new_copy(m->bytes, m->length);
}

static call copy_call(const call *c)
{
    call copy = *c;

    copy.content = copy_of(&c->content);
    copy.buffer = copy_of(&c->buffer);
    copy.state = copy_of(&c->state);
    copy.result = copy_of(&c->result);
    return copy;
}

void end_call(call *c)
{
    end_memory(&c->content);
    end_memory(&c->buffer);
    end_memory(&c->state);
    end_memory(&c->result);
}

#define NAME_TEXT(name) "gmv_" #name,
static const char *const names[] = {FUNCTIONS(NAME_TEXT)};

static void compare(const call *got, const call *expected, const char *with)
{
    char words[160];
    const char *what = NULL;

    if (!same_memory(&got->content, &expected->content))
        what = "the memory that is only read";
    else if (!same_memory(&got->buffer, &expected->buffer))
        what = "the buffer";
    else if (!same_memory(&got->state, &expected->state))
        what = "the state";
    else if (!same_memory(&got->result, &expected->result))
        what = "the report";
    if (what == NULL)
        return;
    snprintf(words, sizeof words, "%s: %s is %s", names[got->function], what, with);
    oracle(0, words);
}

static void compare_numbers(const call *c, uint64_t got, uint64_t expected, const char *with)
{
    char words[160];

    if (got == expected)
        return;
    snprintf(words, sizeof words, "%s returns %llu, %llu %s", names[c->function],
             (unsigned long long)got, (unsigned long long)expected, with);
    oracle(0, words);
}

uint64_t perform(call *c)
{
    call expected = copy_call(c), again = copy_call(c);
    uint64_t number, second;
    uint64_t said = model_call(&expected);

    number = invoke_library(c);
    second = invoke_library(&again);
    if (asks_model()) {
        compare_numbers(c, number, said, "by the header");
        compare(c, &expected, "another than the header says");
    }
    compare_numbers(c, second, number, "the first time");
    compare(c, &again, "another the second time");
    count(returned, c->function, c->function, number);
    end_call(&expected);
    end_call(&again);
    return number;
}

/* ---- The counts ---- */

void count_outcome(enum outcome kind, uint64_t number)
{
    count(outcomes, kind, FUNCTION_COUNT + kind, number);
}

static void write_rows(FILE *file, const char *const *row_names, size_t rows,
                       uint64_t (*counts)[NUMBER_COUNT])
{
    for (size_t i = 0; i < rows; i++)
        for (size_t number = 0; number < NUMBER_COUNT; number++)
            if (counts[i][number] > 0)
                fprintf(file, "%s %d %llu\n", row_names[i], (int)number,
                        (unsigned long long)counts[i][number]);
}

void write_counts(void)
{
    static const char *const kinds[] = {"read_block", "field_delimiter", "decided_block",
                                        "decision", "reported", "nak_reply",
                                        "sender_event", "sender_send", "station_reply",
                                        "station_duplicate", "station_enquired", "master_send",
                                        "master_end", "master_number", "master_resends", "master_rint"};
    const char *path = getenv("FUZZ_COUNTS");
    FILE *file = path ? fopen(path, "w") : NULL;

    if (file == NULL)
        return;
    write_rows(file, names, FUNCTION_COUNT, returned);
    write_rows(file, kinds, OUTCOME_COUNT, outcomes);
    fclose(file);
}
