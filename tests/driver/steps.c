/* Linked into a driver (ld --wrap): it is killed before or after its decision or its report of the number that the test
 * names. Between two of its steps there need be no call of the system at which trace.c could do it.
 *
 * KILL_STEP: decide or report. KILL_AFTER: 1 after it, 0 before it. KILL_AT: its number, from 1 on. */
#include <signal.h>
#include <stdlib.h>
#include <string.h>

#include "giamuvich.h"

enum { BEFORE, AFTER };

uint64_t __real_gmv_receiver_decide(uint64_t, uint64_t, const uint8_t *, size_t, uint64_t *, size_t, uint64_t *, size_t);
uint64_t __real_gmv_minimal_answer(uint64_t, uint64_t, uint64_t *, size_t, uint8_t *, size_t, size_t, uint64_t *, size_t);
uint64_t __wrap_gmv_receiver_decide(uint64_t, uint64_t, const uint8_t *, size_t, uint64_t *, size_t, uint64_t *, size_t);
uint64_t __wrap_gmv_minimal_answer(uint64_t, uint64_t, uint64_t *, size_t, uint8_t *, size_t, size_t, uint64_t *, size_t);

static int number_in(const char *name)
{
    const char *value = getenv(name);

    return value == NULL ? -1 : (int)strtol(value, NULL, 10);
}

static void pass(const char *step, int number, int side)
{
    const char *named = getenv("KILL_STEP");

    if (named != NULL && strcmp(named, step) == 0 && number_in("KILL_AFTER") == side && number_in("KILL_AT") == number)
        raise(SIGKILL);
}

/* An N block asks whether words are a state, and is no decision. */
uint64_t __wrap_gmv_receiver_decide(uint64_t application, uint64_t block_type, const uint8_t *data, size_t data_length,
                                    uint64_t *state, size_t state_words, uint64_t *report, size_t report_words)
{
    static int decisions;
    uint64_t number;

    decisions += block_type == GMV_DATA_BLOCK;
    pass("decide", decisions, BEFORE);
    number = __real_gmv_receiver_decide(application, block_type, data, data_length, state, state_words, report,
                                        report_words);
    pass("decide", decisions, AFTER);
    return number;
}

uint64_t __wrap_gmv_minimal_answer(uint64_t data_limit, uint64_t stored, uint64_t *state, size_t state_words,
                                   uint8_t *buffer, size_t buffer_length, size_t start, uint64_t *report,
                                   size_t report_words)
{
    static int reports;
    uint64_t number;

    reports++;
    pass("report", reports, BEFORE);
    number = __real_gmv_minimal_answer(data_limit, stored, state, state_words, buffer, buffer_length, start, report,
                                       report_words);
    pass("report", reports, AFTER);
    return number;
}
