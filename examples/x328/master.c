#include "master.h"

#include "common.h"
#include "said.h"

void master_begin(master *master, const char *folder, const settings *settings, line *line)
{
    master->line = line;
    outbox_begin(&master->outbox, folder, settings);
    require_done(gmv_master_fresh(master->state, GMV_MASTER_WORDS), "gmv_master_fresh");
}

void master_end(master *master)
{
    outbox_end(&master->outbox);
}

static void send_block(master *master)
{
    const uint64_t *report = master->report;
    const uint8_t *text = master->outbox.message + report[GMV_MASTER_REPORT_OFFSET];

    line_write(master->line, master->frame,
               frame_block(master->frame, (unsigned)report[GMV_MASTER_REPORT_NUMBER],
                           (unsigned)report[GMV_MASTER_REPORT_ENDING], text, report[GMV_MASTER_REPORT_LENGTH]));
    master->timer_a = now() + master->outbox.settings->timer_a;
}

static void send_enq(master *master)
{
    line_write(master->line, master->frame, frame_enq(master->frame));
    master->timer_a = now() + master->outbox.settings->timer_a;
}

static int follow(master *master);

/* After the last one EOT is sent, and the line is free again. */
static int next_message(master *master)
{
    uint64_t *state = master->state, *report = master->report;

    master->is_under_way = !stop_requested() && outbox_take(&master->outbox);
    if (master->is_under_way)
        require_done(gmv_master_start(master->outbox.length, master->outbox.settings->block_size, state,
                                      GMV_MASTER_WORDS, report, GMV_MASTER_REPORT_WORDS),
                     "gmv_master_start");
    else
        require_done(gmv_master_close(state, GMV_MASTER_WORDS, report, GMV_MASTER_REPORT_WORDS), "gmv_master_close");
    return follow(master);
}

static void say_ending(const master *master)
{
    const char *name = master->outbox.file.name;
    const uint64_t blocks = master->report[GMV_MASTER_REPORT_COUNT];

    switch (master->report[GMV_MASTER_REPORT_END]) {
    case GMV_MASTER_END_FAILED:
        say_failed(name, blocks);
        break;
    case GMV_MASTER_END_BY_SLAVE:
        say_ended_by_slave(name, blocks);
        break;
    case GMV_MASTER_END_REVERSED:
        say_reversed(master->is_under_way ? name : NULL, blocks);
    }
}

/* A message that is not done stays in its folder, and is sent whole in a later opening. */
static void carry_out(master *master)
{
    switch (master->report[GMV_MASTER_REPORT_SEND]) {
    case GMV_MASTER_SEND_BLOCK:
        send_block(master);
        break;
    case GMV_MASTER_SEND_ENQ:
        send_enq(master);
        break;
    case GMV_MASTER_SEND_EOT:
        line_write(master->line, master->frame, frame_eot(master->frame));
    }
    if (master->report[GMV_MASTER_REPORT_DONE] == 1) {
        outbox_done(&master->outbox);
        master->is_under_way = 0;
    }
    say_ending(master);
}

/* After a RINT nothing here keeps this station from receiving, but for an urgent message that is under way: where both
 * sides have one, each would break off the other's for ever. */
static int may_receive(const master *master)
{
    return master->state[GMV_MASTER_INTERRUPTED] == 1 && master->state[GMV_MASTER_MAY_RECEIVE] == 0 &&
           !(master->is_under_way && master->outbox.urgent);
}

/* Does what the report says, and what follows from it. */
static int follow(master *master)
{
    uint64_t *state = master->state, *report = master->report;
    int is_done;

    carry_out(master);
    if (report[GMV_MASTER_REPORT_END] != GMV_MASTER_END_NONE)
        return 0;
    is_done = report[GMV_MASTER_REPORT_DONE] == 1;
    if (may_receive(master)) {
        require_done(gmv_master_may_receive(state, GMV_MASTER_WORDS, report, GMV_MASTER_REPORT_WORDS),
                     "gmv_master_may_receive");
        return follow(master);
    }
    return is_done ? next_message(master) : 1;
}

int master_open(master *master)
{
    require_done(gmv_master_open(master->state, GMV_MASTER_WORDS, master->report, GMV_MASTER_REPORT_WORDS),
                 "gmv_master_open");
    return next_message(master);
}

static uint64_t reply_of(enum unit_kind kind)
{
    switch (kind) {
    case UNIT_ACK:
        return GMV_REPLY_ACK;
    case UNIT_NAK:
        return GMV_REPLY_NAK;
    case UNIT_EOT:
        return GMV_REPLY_EOT;
    case UNIT_RINT:
        return GMV_REPLY_RINT;
    case UNIT_DAMAGED:
        return GMV_REPLY_DAMAGED;
    default:
        return GMV_REPLY_NONE;
    }
}

int master_take(master *master, const unit *unit)
{
    const uint64_t reply = reply_of(unit->kind);

    if (reply == GMV_REPLY_NONE)
        return 1;
    require_done(gmv_master_reply(reply, unit->number, master->state, GMV_MASTER_WORDS, master->report,
                                  GMV_MASTER_REPORT_WORDS),
                 "gmv_master_reply");
    if (reply == GMV_REPLY_RINT)
        say_interrupt_heard(master->outbox.file.name);
    if (master->report[GMV_MASTER_REPORT_RESENDS] != 0 &&
        master->report[GMV_MASTER_REPORT_SEND] == GMV_MASTER_SEND_BLOCK)
        say_block_refused(master->outbox.file.name);
    return follow(master);
}

/* ENQ meets a station that has gone back to control mode as a bid, and ACK 0 grants it. That ACK 0 must not be taken for
 * the ACK of block 0, nor bring a block 1 to a station that was opened anew (HOST-61). With block 7 out there is no ENQ
 * either: its ACK may come late, and then block 0 is out before the ENQ is answered. */
static int may_enquire(const master *master)
{
    const uint64_t number = (master->state[GMV_MASTER_COUNT] + 1) % 8;

    return master->outbox.settings->enquiry && master->state[GMV_MASTER_PHASE] == GMV_MASTER_WAITING &&
           master->state[GMV_MASTER_ENQUIRED] == 0 && (number >= 2 && number <= 6);
}

/* Once after each send: where the answer is lost too, the block goes again. */
int master_timer(master *master)
{
    if (may_enquire(master)) {
        require_done(gmv_master_enquire(master->state, GMV_MASTER_WORDS, master->report, GMV_MASTER_REPORT_WORDS),
                     "gmv_master_enquire");
        say_enquired(master->outbox.file.name);
        return follow(master);
    }
    require_done(gmv_master_timer(master->state, GMV_MASTER_WORDS, master->report, GMV_MASTER_REPORT_WORDS),
                 "gmv_master_timer");
    if (master->report[GMV_MASTER_REPORT_SEND] == GMV_MASTER_SEND_BLOCK)
        say_no_reply(master->outbox.file.name);
    return follow(master);
}
