/* The master and the station over a line in memory: two_stations.h. */
#include "two_stations.h"

#include <string.h>

/* Blocks before a rest, an empty message, a multiple, one byte more, a size over the length, blocks of
 * one byte. */
static const struct {
    size_t length, block_size;
} messages[MESSAGES] = {{39, 4}, {0, 4}, {16, 4}, {17, 4}, {5, 99}, {1, 1}, {23, 1}, {9, 8}, {8, 8}};

static uint8_t byte_of(size_t message, size_t offset)
{
    return (uint8_t)('A' + (7 * message + offset) % 26);
}

/* ---- the line */

void put(direction *d, const unit *u)
{
    CHECK(d->count < UNITS);
    if (d->count < UNITS)
        d->units[d->count++] = *u;
}

unit take_at(direction *d, size_t index)
{
    unit taken = {0, 0, {0, 0, 0, {0}}};

    CHECK(index < d->count);
    if (index >= d->count)
        return taken;
    taken = d->units[index];
    d->count--;
    memmove(&d->units[index], &d->units[index + 1], (d->count - index) * sizeof taken);
    return taken;
}

static void put_by_recipe(direction *d, unit u, const char *letters, size_t index)
{
    const size_t count = strlen(letters);
    const char letter = count == 0 ? 'p' : letters[index < count ? index : count - 1];

    u.damaged = letter == 'd';
    if (letter != 'l')
        put(d, &u);
    if (letter == 't')
        put(d, &u);
}

/* ---- the master's side */

static uint64_t *master_word(const dialogue *d, size_t index)
{
    return &words_of(&d->master)[index];
}

uint64_t phase_of(const dialogue *d)
{
    return *master_word(d, GMV_MASTER_PHASE);
}

/* The block that the report names, with its text out of the message. */
static block named_block(dialogue *d)
{
    const uint64_t *report = words_of(&d->master_report);
    block named = {report[GMV_MASTER_REPORT_NUMBER], report[GMV_MASTER_REPORT_ENDING],
                   report[GMV_MASTER_REPORT_LENGTH], {0}};
    const size_t offset = report[GMV_MASTER_REPORT_OFFSET];

    if (named.length > LONGEST_BLOCK || offset > messages[d->started - 1].length ||
        named.length > messages[d->started - 1].length - offset) {
        d->right_texts = 0;
        named.length = 0;
    }
    for (size_t i = 0; i < named.length; i++)
        named.text[i] = byte_of(d->started - 1, offset + i);
    return named;
}

static void send_block(dialogue *d)
{
    unit u = {GMV_MASTER_SEND_BLOCK, 0, named_block(d)};

    if (words_of(&d->master_report)[GMV_MASTER_REPORT_RESENDS] == 0) {
        if (d->sent_count == ALL_BLOCKS)
            return;
        d->sent[d->sent_count++] = u.block;
        d->acknowledgments = 0;
        d->enquiries = 0;
    }
    put_by_recipe(&d->forward, u, d->recipe.blocks, d->sends[d->sent_count - 1]++);
}

/* Does what the report says: the block, first sent or again, ENQ or EOT goes on the line. */
static void act_on_report(dialogue *d)
{
    const uint64_t *report = words_of(&d->master_report);
    const unit bare = {report[GMV_MASTER_REPORT_SEND], 0, {0, 0, 0, {0}}};

    d->done += report[GMV_MASTER_REPORT_DONE];
    if (report[GMV_MASTER_REPORT_END] != GMV_MASTER_END_NONE)
        d->end = report[GMV_MASTER_REPORT_END];
    if (bare.kind == GMV_MASTER_SEND_BLOCK)
        send_block(d);
    else if (bare.kind == GMV_MASTER_SEND_ENQ)
        put_by_recipe(&d->forward, bare, d->recipe.enquiries, d->enquiries++);
    else if (bare.kind == GMV_MASTER_SEND_EOT)
        put(&d->forward, &bare);
}

void start_message(dialogue *d)
{
    const size_t next = d->started++;

    CHECK(gmv_master_start(messages[next].length, messages[next].block_size, MASTER(d)) == GMV_OK);
    act_on_report(d);
}

void close_master(dialogue *d)
{
    CHECK(gmv_master_close(MASTER(d)) == GMV_OK);
    act_on_report(d);
}

void run_timer(dialogue *d)
{
    CHECK(gmv_master_timer(MASTER(d)) == GMV_OK);
    act_on_report(d);
}

void enquire(dialogue *d)
{
    CHECK(gmv_master_enquire(MASTER(d)) == GMV_OK);
    CHECK(words_of(&d->master_report)[GMV_MASTER_REPORT_SEND] == GMV_MASTER_SEND_ENQ);
    d->enquiries_made++;
    act_on_report(d);
}

void say_may_receive(dialogue *d)
{
    CHECK(gmv_master_may_receive(MASTER(d)) == GMV_OK);
    act_on_report(d);
}

/* Another reading of request 14, at the master: what it takes for the reply before. */
static void misread_reply(dialogue *d, uint64_t reply)
{
    const int takes = d->reading == RINT_TAKEN_AFTER_RINT && reply == GMV_REPLY_RINT &&
                      *master_word(d, GMV_MASTER_ENQUIRED) == 0;
    const int notes = d->reading == DAMAGED_REPLY_NOTED && reply == GMV_REPLY_DAMAGED;

    if (takes || notes)
        *master_word(d, GMV_MASTER_LAST_REPLY) = GMV_REPLY_ACK;
}

void take_reply(dialogue *d)
{
    unit u = take_at(&d->back, 0);
    uint64_t reply = u.damaged ? (uint64_t)GMV_REPLY_DAMAGED : u.kind;

    misread_reply(d, reply);
    d->interrupts_taken += reply == GMV_REPLY_RINT;
    CHECK(gmv_master_reply(reply, u.block.number, MASTER(d)) == GMV_OK);
    act_on_report(d);
}

/* ---- the station's side */

static uint64_t *station_word(const dialogue *d, size_t index)
{
    return &words_of(&d->station)[index];
}

int may_ask(const dialogue *d)
{
    return *station_word(d, GMV_STATION_OPEN) == 1 &&
           *station_word(d, GMV_STATION_INTERRUPT) == GMV_INTERRUPT_NONE;
}

void ask_for_interrupt(dialogue *d)
{
    CHECK(gmv_station_interrupt(STATION(d)) == GMV_OK);
    CHECK(words_of(&d->station_report)[GMV_STATION_REPLY] == GMV_REPLY_NONE);
}

static void take_message(dialogue *d)
{
    const uint64_t *report = words_of(&d->station_report);
    const size_t length = report[GMV_STATION_MESSAGE_LENGTH], message = d->taken;

    if (report[GMV_STATION_COMPLETE] != 1)
        return;
    d->right_texts &= message < d->started && length == messages[message].length;
    for (size_t i = 0; d->right_texts && i < length; i++)
        d->right_texts &= d->buffer.at[i] == byte_of(message, i);
    d->taken++;
}

static void reply_by_report(dialogue *d)
{
    const uint64_t *report = words_of(&d->station_report);
    unit u = {report[GMV_STATION_REPLY], 0, {report[GMV_STATION_REPLY_NUMBER], 0, 0, {0}}};

    if (u.kind == GMV_REPLY_ACK || u.kind == GMV_REPLY_RINT)
        put_by_recipe(&d->back, u, d->recipe.acknowledgments, d->acknowledgments++);
    else if (u.kind != GMV_REPLY_NONE)
        put(&d->back, &u);
}

/* The station accepted the block: it answered the expected one by ACK or RINT. */
static int is_accepted(const dialogue *d, const block *b, uint64_t expected)
{
    const uint64_t reply = words_of(&d->station_report)[GMV_STATION_REPLY];

    return (reply == GMV_REPLY_ACK || reply == GMV_REPLY_RINT) && b->number == expected;
}

static void take_block(dialogue *d, const block *b)
{
    const uint64_t expected = *station_word(d, GMV_STATION_EXPECTED);
    const int was_given = *station_word(d, GMV_STATION_INTERRUPT) == GMV_INTERRUPT_GIVEN;
    guarded text = guard_copy(b->text, b->length);

    CHECK(gmv_station_block(b->number, b->ending, text.at, text.size, d->buffer.at, d->buffer.size,
                            STATION(d)) == GMV_OK);
    CHECK(unchanged(&text));
    give_back(&text);
    if (is_accepted(d, b, expected) && d->accepted_count < ALL_BLOCKS)
        d->accepted[d->accepted_count++] = *b;
    else if (d->reading == DUPLICATE_GETS_RINT && was_given)
        words_of(&d->station_report)[GMV_STATION_REPLY] = GMV_REPLY_RINT;
    d->interrupts_given += words_of(&d->station_report)[GMV_STATION_REPLY] == GMV_REPLY_RINT;
    take_message(d);
}

static void take_damaged(dialogue *d, const unit *u)
{
    const uint64_t before = *station_word(d, GMV_STATION_LAST_REPLY);

    CHECK(gmv_station_bad(STATION(d)) == GMV_OK);
    if (d->reading == NAK_NOT_KEPT ||
        (d->reading == NAK_OF_ENQ_NOT_KEPT && u->kind == GMV_MASTER_SEND_ENQ))
        *station_word(d, GMV_STATION_LAST_REPLY) = before;
}

void take_unit(dialogue *d)
{
    unit u = take_at(&d->forward, 0);

    if (d->recipe.asks && may_ask(d))
        ask_for_interrupt(d);
    if (u.damaged)
        take_damaged(d, &u);
    else if (u.kind == GMV_MASTER_SEND_EOT)
        CHECK(gmv_station_end(STATION(d)) == GMV_OK);
    else if (u.kind == GMV_MASTER_SEND_ENQ)
        CHECK(gmv_station_bare_enq(STATION(d)) == GMV_OK);
    else
        take_block(d, &u.block);
    reply_by_report(d);
}

/* ---- the statement */

static int same_block(const block *a, const block *b)
{
    return a->number == b->number && a->ending == b->ending && a->length == b->length &&
           memcmp(a->text, b->text, a->length) == 0;
}

int statement_holds(const dialogue *d)
{
    const uint64_t count = *master_word(d, GMV_MASTER_COUNT);

    if (d->accepted_count > d->sent_count || !d->right_texts)
        return 0;
    for (size_t i = 0; i < d->accepted_count; i++)
        if (!same_block(&d->accepted[i], &d->sent[i]))
            return 0;
    for (size_t i = 0; i < d->sent_count; i++)
        if (d->sends[i] < 1 || d->sends[i] > SENDS_OF_BLOCK)
            return 0;
    if (d->end == GMV_MASTER_END_REVERSED && count != d->accepted_count)
        return 0;
    return (count == d->accepted_count || count + 1 == d->accepted_count) &&
           (d->taken == d->done || d->taken == d->done + 1);
}

/* ---- dialogues */

dialogue begin_dialogue(recipe line, size_t buffer_length)
{
    dialogue d;

    memset(&d, 0, sizeof d);
    d.recipe = line;
    d.master = guard(GMV_MASTER_WORDS * sizeof(uint64_t), 0xEE);
    d.master_report = guard(GMV_MASTER_REPORT_WORDS * sizeof(uint64_t), 0xEE);
    d.station = guard(GMV_STATION_WORDS * sizeof(uint64_t), 0xEE);
    d.station_report = guard(GMV_STATION_REPORT_WORDS * sizeof(uint64_t), 0xEE);
    d.buffer = guard(buffer_length, 0x55);
    d.right_texts = 1;
    CHECK(gmv_station_open(STATION(&d)) == GMV_OK);
    CHECK(gmv_master_open(MASTER(&d)) == GMV_OK);
    return d;
}

void end_dialogue(dialogue *d)
{
    CHECK(same_from(&d->master, d->master.size) && same_from(&d->station, d->station.size));
    give_back(&d->master);
    give_back(&d->master_report);
    give_back(&d->station);
    give_back(&d->station_report);
    give_back(&d->buffer);
}

/* Nothing is on the line, and a block is out. */
static void end_silence(dialogue *d)
{
    if (d->enquiries < strlen(d->recipe.enquiries))
        enquire(d);
    else
        run_timer(d);
}

int next_act(dialogue *d)
{
    if (++d->acts > MOST_ACTS)
        return 0;
    if (phase_of(d) == GMV_MASTER_IDLE && d->started < MESSAGES)
        start_message(d);
    else if (phase_of(d) == GMV_MASTER_IDLE)
        close_master(d);
    else if (d->forward.count > 0)
        take_unit(d);
    else if (d->back.count > 0)
        take_reply(d);
    else if (phase_of(d) == GMV_MASTER_WAITING)
        end_silence(d);
    else
        return 0;
    return 1;
}

void deliver_all(dialogue *d, size_t sends)
{
    int holds = 1;

    while (next_act(d))
        holds &= statement_holds(d);
    CHECK(holds);
    CHECK(d->end == GMV_MASTER_END_BY_DRIVER && *station_word(d, GMV_STATION_OPEN) == 0);
    CHECK(d->taken == MESSAGES && d->done == MESSAGES);
    CHECK(d->sent_count == BLOCKS && d->accepted_count == BLOCKS);
    CHECK(*master_word(d, GMV_MASTER_COUNT) == BLOCKS);
    for (size_t i = 0; i < d->sent_count; i++) {
        CHECK(sends == 0 || d->sends[i] == sends);
        CHECK(d->sent[i].number == (i + 1) % 8);
    }
}
