#include "slave.h"

#include <errno.h>
#include <stdlib.h>
#include <string.h>

#include "common.h"
#include "said.h"

void slave_begin(slave *slave, const char *folder, const settings *settings, line *line)
{
    slave->line = line;
    slave->settings = settings;
    slave->buffer = allocate(settings->message_limit);
    received_begin(&slave->received, folder);
    require_done(gmv_station_fresh(slave->state, GMV_STATION_WORDS), "gmv_station_fresh");
}

void slave_end(slave *slave)
{
    free(slave->buffer);
}

/* Timer D runs anew from each reply to a block (000, C.3.6.1). */
static void restart_timer_d(slave *slave)
{
    slave->timer_d = now() + slave->settings->timer_d;
}

static void close_station(slave *slave)
{
    require_done(gmv_station_end(slave->state, GMV_STATION_WORDS, slave->report, GMV_STATION_REPORT_WORDS),
                 "gmv_station_end");
}

/* An EOT of the driver's own, in place of a reply. The other side counts the block as not accepted. */
static int end_by_eot(slave *slave)
{
    uint8_t frame[MOST_REPLY];

    close_station(slave);
    line_write(slave->line, frame, frame_eot(frame));
    return 0;
}

static void say_if_held(const slave *slave, void (*say)(uint64_t))
{
    if (slave->state[GMV_STATION_OPEN] == 1 && slave->state[GMV_STATION_HELD] != 0)
        say(slave->state[GMV_STATION_HELD]);
}

void slave_grant(slave *slave)
{
    uint8_t frame[MOST_REPLY];

    require_done(gmv_station_open(slave->state, GMV_STATION_WORDS, slave->report, GMV_STATION_REPORT_WORDS),
                 "gmv_station_open");
    slave->any_accepted = 0;
    line_write(slave->line, frame, frame_ack(frame, slave->settings->prefix, 0));
    restart_timer_d(slave);
}

/* As the report names it. Returns how many bytes. */
static size_t frame_reply(const slave *slave, uint8_t *frame)
{
    const char *prefix = slave->settings->prefix;

    switch (slave->report[GMV_STATION_REPLY]) {
    case GMV_REPLY_ACK:
        return frame_ack(frame, prefix, (unsigned)slave->report[GMV_STATION_REPLY_NUMBER]);
    case GMV_REPLY_RINT:
        return frame_rint(frame, prefix);
    case GMV_REPLY_NAK:
        return frame_nak(frame, prefix);
    default:
        return frame_eot(frame);
    }
}

static void write_reply(slave *slave)
{
    uint8_t frame[MOST_REPLY];

    line_write(slave->line, frame, frame_reply(slave, frame));
    restart_timer_d(slave);
}

/* ENQ in an opening. Before the first block it is the bid again, whose ACK 0 was lost: the station has given no reply yet,
 * and would answer NAK until Timer D. Later it is an enquiry, and no reason to open anew: ACK 0 is also the ACK of every
 * eighth block (HOST-58). Timer D goes on: a new master that did not say EOT, and asks again and again, is granted the line
 * when it runs out. */
static int take_enq(slave *slave)
{
    uint8_t frame[MOST_REPLY];

    if (!slave->any_accepted) {
        slave_grant(slave);
        return 1;
    }
    require_done(gmv_station_bare_enq(slave->state, GMV_STATION_WORDS, slave->report, GMV_STATION_REPORT_WORDS),
                 "gmv_station_bare_enq");
    say_enquiry();
    line_write(slave->line, frame, frame_reply(slave, frame));
    return 1;
}

/* The ACK of a message's last block says that the message is stored: so it is, first. So does a RINT in its stead. */
static int acknowledge(slave *slave)
{
    const uint64_t *report = slave->report;

    if (report[GMV_STATION_COMPLETE] == 1 &&
        received_store(&slave->received, slave->buffer, report[GMV_STATION_MESSAGE_LENGTH]) != 0) {
        say_not_stored(strerror(errno));
        return end_by_eot(slave);
    }
    if (report[GMV_STATION_REPLY] == GMV_REPLY_RINT)
        say_interrupt_given();
    write_reply(slave);
    return 1;
}

/* Does what the report says. No block 0 belongs before the first block 1: it would be acknowledged and dropped
 * (HOST-51). */
static int reply(slave *slave)
{
    switch (slave->report[GMV_STATION_REPLY]) {
    case GMV_REPLY_ACK:
    case GMV_REPLY_RINT:
        if (slave->state[GMV_STATION_EXPECTED] != 1)
            slave->any_accepted = 1;
        return slave->any_accepted ? acknowledge(slave) : end_by_eot(slave);
    case GMV_REPLY_NAK:
        say_bad_unit();
        write_reply(slave);
        return 1;
    case GMV_REPLY_EOT:
        say_too_long(slave->settings->message_limit);
        write_reply(slave);
        return 0;
    default:
        return slave->state[GMV_STATION_OPEN] == 1;
    }
}

int slave_take(slave *slave, const unit *unit)
{
    uint64_t *state = slave->state, *report = slave->report;

    switch (unit->kind) {
    case UNIT_BLOCK:
        require_done(gmv_station_block(unit->number, unit->ending, unit->text, unit->length, slave->buffer,
                                       slave->settings->message_limit, state, GMV_STATION_WORDS, report,
                                       GMV_STATION_REPORT_WORDS),
                     "gmv_station_block");
        return reply(slave);
    case UNIT_BAD_BLOCK:
    case UNIT_DAMAGED: /* nobody can tell what it was: a block whose STX was changed, or an EOT */
        require_done(gmv_station_bad(state, GMV_STATION_WORDS, report, GMV_STATION_REPORT_WORDS), "gmv_station_bad");
        return reply(slave);
    case UNIT_ABANDONED:
        require_done(gmv_station_enquiry(state, GMV_STATION_WORDS, report, GMV_STATION_REPORT_WORDS),
                     "gmv_station_enquiry");
        return reply(slave);
    case UNIT_ENQ:
        return take_enq(slave);
    case UNIT_EOT:
        say_if_held(slave, say_broken_off);
        close_station(slave);
        return 0;
    default:
        return 1;
    }
}

int slave_may_interrupt(const slave *slave)
{
    return slave->state[GMV_STATION_OPEN] == 1 && slave->state[GMV_STATION_INTERRUPT] == GMV_INTERRUPT_NONE;
}

void slave_interrupt(slave *slave, const char *name)
{
    require_done(gmv_station_interrupt(slave->state, GMV_STATION_WORDS, slave->report, GMV_STATION_REPORT_WORDS),
                 "gmv_station_interrupt");
    say_interrupt_asked(name);
}

void slave_timer(slave *slave)
{
    say_master_lost(slave->state[GMV_STATION_HELD]);
    close_station(slave);
}

void slave_hung_up(slave *slave)
{
    say_if_held(slave, say_broken_off);
    close_station(slave);
}
