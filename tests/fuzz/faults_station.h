/* The station's faults (faults.h). Each is a station that breaks one sentence of document 02, request 14. */
#ifndef FAULTS_STATION_H
#define FAULTS_STATION_H

/* The state before the call. */
typedef struct {
    uint64_t words[GMV_STATION_WORDS];
} station_before;

static uint64_t told_by_station(const call *c) { return get_word(&c->result, GMV_STATION_REPLY); }

/* A NAK is not kept as the last reply. */
static void break_unkept(call *c, const station_before *b)
{
    if (told_by_station(c) == GMV_REPLY_NAK)
        set_word(&c->state, GMV_STATION_LAST_REPLY, b->words[GMV_STATION_LAST_REPLY]);
}

/* The duplicate of a block that was answered RINT is answered RINT. */
static void break_duplicate(call *c, const station_before *b)
{
    if (c->function != call_station_block || told_by_station(c) != GMV_REPLY_ACK ||
        b->words[GMV_STATION_LAST_REPLY] != GMV_REPLY_RINT ||
        b->words[GMV_STATION_EXPECTED] != get_word(&c->state, GMV_STATION_EXPECTED))
        return;
    set_word(&c->result, GMV_STATION_REPLY, GMV_REPLY_RINT);
    set_word(&c->result, GMV_STATION_REPLY_NUMBER, 0);
    for (size_t i = 0; i < GMV_STATION_WORDS; i++)
        set_word(&c->state, i, b->words[i]);
}

static int is_pending(const station_before *b)
{
    return b->words[GMV_STATION_OPEN] == 1 && b->words[GMV_STATION_INTERRUPT] == GMV_INTERRUPT_PENDING;
}

/* The wish is kept over the end of an opening: it is pending in the next one. */
static void break_ended(call *c, const station_before *b)
{
    static int is_kept;

    if (c->function == call_station_end && b->words[GMV_STATION_OPEN] == 1)
        is_kept = is_pending(b);
    if (c->function == call_station_open && b->words[GMV_STATION_OPEN] == 0 && is_kept)
        set_word(&c->state, GMV_STATION_INTERRUPT, GMV_INTERRUPT_PENDING);
}

/* The wish is kept where the station is opened once more. */
static void break_reopened(call *c, const station_before *b)
{
    if (c->function == call_station_open && is_pending(b))
        set_word(&c->state, GMV_STATION_INTERRUPT, GMV_INTERRUPT_PENDING);
}

/* A bare ENQ uses the wish up. */
static void break_used(call *c, const station_before *b)
{
    if (c->function == call_station_bare_enq && is_pending(b))
        set_word(&c->state, GMV_STATION_INTERRUPT, GMV_INTERRUPT_NONE);
}

/* A NAK after RINT lets the driver ask again. */
static void break_again(call *c, const station_before *b)
{
    if (told_by_station(c) == GMV_REPLY_NAK && b->words[GMV_STATION_LAST_REPLY] == GMV_REPLY_RINT)
        set_word(&c->state, GMV_STATION_INTERRUPT, GMV_INTERRUPT_NONE);
}

/* A block that completes a message is answered ACK, and the wish stays. */
static void break_completing(call *c, const station_before *b)
{
    if (told_by_station(c) != GMV_REPLY_RINT || get_word(&c->result, GMV_STATION_COMPLETE) != 1)
        return;
    set_word(&c->result, GMV_STATION_REPLY, GMV_REPLY_ACK);
    set_word(&c->result, GMV_STATION_REPLY_NUMBER, b->words[GMV_STATION_EXPECTED]);
    set_word(&c->state, GMV_STATION_LAST_REPLY, GMV_REPLY_ACK);
    set_word(&c->state, GMV_STATION_INTERRUPT, GMV_INTERRUPT_PENDING);
}

static void break_station_report(call *c, const station_before *b)
{
    static const struct {
        const char *name;
        void (*break_report)(call *, const station_before *);
    } faults[] = {{"unkept", break_unkept},     {"duplicate", break_duplicate}, {"ended", break_ended},
                  {"reopened", break_reopened}, {"used", break_used},           {"again", break_again},
                  {"completing", break_completing}};

    for (size_t i = 0; i < sizeof faults / sizeof faults[0]; i++)
        if (is_planted(faults[i].name))
            faults[i].break_report(c, b);
}

static uint64_t invoke_station_library(call *c)
{
    station_before b = {{0}};
    uint64_t number;

    for (size_t i = 0; i < GMV_STATION_WORDS && count_words(&c->state) >= GMV_STATION_WORDS; i++)
        b.words[i] = get_word(&c->state, i);
    number = invoke(c);
    if (number == GMV_OK && c->function != call_station_fresh)
        break_station_report(c, &b);
    return number;
}

#endif
