#include "station.h"

#include <stdlib.h>
#include <string.h>

#include "common.h"
#include "line.h"
#include "master.h"
#include "said.h"
#include "slave.h"
#include "splitter.h"
#include "store.h"

enum { PART = 4096, LOOK = 50 /* milliseconds between two looks for messages */ };
enum { MOST_VAIN = 3 /* openings in a row in which an urgent message was not taken */ };

/* Control mode: neither master nor slave. */
enum mode { CONTROL, BIDDING, MASTER, SLAVE };

typedef struct {
    const settings *settings;
    enum mode mode;
    line line;
    parity_reader parity;
    splitter splitter;
    long long timer_b;       /* while the splitter is inside a unit: when it runs out */
    master master;
    slave slave;
    long long next_bid;      /* in control mode: not before. Bidding: when the bid is made again */
    uint64_t bids, refusals; /* made since this station began to bid; answered NAK */
    long long waits_since;   /* since when messages wait in control mode; 0: none do */
    int other_may_hold_text; /* of this station's last opening: its slave may not have heard that it has ended */
    uint64_t vain;           /* openings in a row in which an urgent message was not taken */
} station;

/* Before a bid nothing of an earlier opening may be on the way. Where the other side may still be slave in one, and hold
 * text, its Timer D must have run out as well. Else it may answer the bid as an enquiry: the ACK 0 of an eighth block
 * would look like the grant, and the new block 1 be joined to the old text (HOST-60). */
static long silence_before_bid(const station *station)
{
    return station->settings->silence + (station->other_may_hold_text ? station->settings->timer_d : 0);
}

static int line_is_free(const station *station)
{
    return line_is_silent(&station->line, silence_before_bid(station));
}

/* The primary waits less than the secondary: else both bid at the same moment. */
static void return_to_control(station *station)
{
    station->mode = CONTROL;
    station->next_bid = line_silent_at(&station->line, silence_before_bid(station)) + station->settings->retry;
    station->waits_since = 0;
}

/* Where the slave gave the EOT, it has closed. Where this side closed, all was done, and a slave that did not hear the EOT
 * holds no text. After a failure and a reversal it may hold some. And after a reversal it is to bid first, also by its
 * Timer D. */
static void leave_master(station *station)
{
    const master *master = &station->master;
    const uint64_t end = master->report[GMV_MASTER_REPORT_END];
    const int failed = end == GMV_MASTER_END_FAILED || end == GMV_MASTER_END_BY_SLAVE;

    station->other_may_hold_text = end == GMV_MASTER_END_FAILED || end == GMV_MASTER_END_REVERSED;
    station->vain = failed && master->outbox.urgent ? station->vain + 1 : 0;
    if (station->vain == MOST_VAIN)
        say_no_interrupt(master->outbox.file.name, station->vain);
    return_to_control(station);
}

static void write_bid(station *station)
{
    uint8_t frame[MOST_REPLY];

    station->bids++;
    line_write(&station->line, frame, frame_bid(frame));
    station->next_bid = now() + station->settings->timer_a;
}

/* Nothing of an earlier opening may be on the line: an old ACK 0 would look like the grant, and an old ACK 1 would
 * acknowledge the first block, which may be lost. */
static void begin_to_bid(station *station)
{
    line_flush(&station->line);
    parity_reset(&station->parity);
    splitter_reset(&station->splitter);
    station->mode = BIDDING;
    station->bids = station->refusals = 0;
    station->waits_since = 0;
    station->other_may_hold_text = 0;
    write_bid(station);
}

/* Said after a while: else nobody knows why nothing is sent. */
static void wait_for_silence(station *station)
{
    if (station->waits_since == 0)
        station->waits_since = now();
    if (now() < station->waits_since + station->settings->recovery + silence_before_bid(station))
        return;
    say_not_silent();
    station->waits_since = now();
}

/* What cannot be sent is no reason to bid. The disk may have taken long: so the line is looked at again. */
static void look_for_messages(station *station)
{
    outbox *outbox = &station->master.outbox;

    if (now() < station->next_bid || !outbox_has_messages(outbox))
        return;
    if (!line_is_free(station))
        wait_for_silence(station);
    else if (outbox_take(outbox) && line_is_free(station))
        begin_to_bid(station);
}

/* While this station is slave an urgent message interrupts. It is asked for again and again: a RINT may be lost, or not be
 * followed (HOST-59). An ordinary message does not: what comes in then comes again from its first block. Nor does one that
 * the other side never takes: else its own messages would never come in. */
static void interrupt_for_urgent(station *station)
{
    outbox *outbox = &station->master.outbox;

    if (station->vain < MOST_VAIN && slave_may_interrupt(&station->slave) && outbox_take_urgent(outbox))
        slave_interrupt(&station->slave, outbox->file.name);
}

/* EOT came from a side that has sent a block in this opening. The line keeps order: so all that it sent before has come,
 * and what was replied to it reaches it before the bid. No silence is needed. */
static void bid_for_urgent(station *station)
{
    if (station->slave.any_accepted && outbox_take_urgent(&station->master.outbox))
        begin_to_bid(station);
}

/* Where a block came the other side was master, and is slave no more. */
static void leave_slave(station *station)
{
    if (station->slave.any_accepted)
        station->other_may_hold_text = 0;
    return_to_control(station);
}

/* After M bids in vain there is a pause: the other side is busy or down. */
static void bid_again(station *station)
{
    if (station->bids <= station->settings->bids) {
        write_bid(station);
        return;
    }
    say_not_granted(station->bids, station->refusals);
    return_to_control(station);
    station->next_bid = now() + station->settings->recovery;
}

/* Only ACK 0 grants the line. Every other unit is dropped, and the bid made again in its time. */
static void take_while_bidding(station *station, const unit *unit)
{
    if (unit->kind == UNIT_ACK && unit->number == 0) {
        station->mode = MASTER;
        if (!master_open(&station->master))
            leave_master(station);
    } else if (unit->kind == UNIT_NAK) {
        station->refusals++;
        station->next_bid = now() + station->settings->retry;
    }
}

/* Where both bid, the primary goes on with its bid, and the secondary grants the line. A master drops ENQ. */
static int grants(const station *station)
{
    return station->mode == CONTROL || (station->mode == BIDDING && !station->settings->primary);
}

static void take_as_slave(station *station, const unit *unit)
{
    const uint64_t before = station->slave.received.last;
    const int is_slave = slave_take(&station->slave, unit);

    if (station->slave.received.last != before)
        station->vain = 0;
    if (is_slave)
        return;
    leave_slave(station);
    if (unit->kind == UNIT_EOT)
        bid_for_urgent(station);
}

static void take_unit(station *station, const unit *unit)
{
    if (unit->kind == UNIT_ENQ && grants(station)) {
        station->mode = SLAVE;
        slave_grant(&station->slave);
    } else if (station->mode == BIDDING) {
        take_while_bidding(station, unit);
    } else if (station->mode == MASTER) {
        if (!master_take(&station->master, unit))
            leave_master(station);
    } else if (station->mode == SLAVE) {
        take_as_slave(station, unit);
    }
}

/* What was on the way is lost with the line. */
static void hang_up(station *station)
{
    if (station->mode == SLAVE)
        slave_hung_up(&station->slave);
    line_close(&station->line);
    station->other_may_hold_text = 1;
    return_to_control(station);
}

static void take_byte(station *station, uint8_t read)
{
    const int was_inside = splitter_is_inside(&station->splitter);
    const enum splitter_state before = station->splitter.state;
    uint8_t byte;
    int damaged;
    unit unit;

    if (!parity_take(&station->parity, read, &byte, &damaged))
        return;
    if (splitter_take(&station->splitter, byte, damaged, &unit))
        take_unit(station, &unit);
    if (!was_inside || (before == BETWEEN_UNITS && station->splitter.state != BETWEEN_UNITS))
        station->timer_b = now() + station->settings->timer_b;
}

static void read_in(station *station)
{
    uint8_t part[PART];
    const ssize_t length = line_read(&station->line, part, sizeof part);

    if (length < 0) {
        hang_up(station);
        return;
    }
    for (ssize_t i = 0; i < length && !stop_requested(); i++)
        take_byte(station, part[i]);
}

static void discard_unit(station *station)
{
    if (station->splitter.state == IN_BLOCK && station->mode == SLAVE)
        say_block_lost();
    splitter_reset(&station->splitter);
}

/* What was read in time was taken before. */
static void run_timers(station *station)
{
    if (splitter_is_inside(&station->splitter) && now() >= station->timer_b)
        discard_unit(station);
    if (station->mode == CONTROL && station->line.terminal >= 0)
        look_for_messages(station);
    if (station->mode == BIDDING && now() >= station->next_bid)
        bid_again(station);
    if (station->mode == MASTER && now() >= station->master.timer_a && !master_timer(&station->master))
        leave_master(station);
    if (station->mode == SLAVE && now() >= station->slave.timer_d) {
        slave_timer(&station->slave);
        leave_slave(station);
    }
    if (station->mode == SLAVE)
        interrupt_for_urgent(station);
}

static long long next_timer(const station *station)
{
    long long next = now() + LOOK;

    if (splitter_is_inside(&station->splitter))
        next = earliest(next, station->timer_b);
    if (station->mode == BIDDING)
        next = earliest(next, station->next_bid);
    if (station->mode == MASTER)
        next = earliest(next, station->master.timer_a);
    return station->mode == SLAVE ? earliest(next, station->slave.timer_d) : next;
}

/* A crash may have come before init had made it durable. */
static void sync_station(const char *folder)
{
    char path[PATH_LENGTH];

    sync_folder(folder);
    path_of(path, folder, "..");
    sync_folder(path);
}

/* An earlier version made none. */
static void make_stat_folder(const char *folder)
{
    char path[PATH_LENGTH];

    path_of(path, folder, "stat");
    make_folder(path);
}

static void begin(station *station, const char *folder, const settings *settings)
{
    make_stat_folder(folder);
    sync_station(folder);
    memset(station, 0, sizeof *station);
    station->settings = settings;
    station->other_may_hold_text = 1; /* a predecessor may have been master */
    station->parity.parity = settings->parity;
    line_prepare(&station->line, settings);
    master_begin(&station->master, folder, settings, &station->line);
    slave_begin(&station->slave, folder, settings, &station->line);
}

static void open_line(station *station)
{
    if (!line_open(&station->line))
        return;
    parity_reset(&station->parity);
    splitter_reset(&station->splitter);
    say_line(station->settings->path);
}

void station_run(const char *folder, const settings *settings)
{
    station *station = allocate(sizeof *station);
    char text[SETTINGS_TEXT];

    if (is_missing(folder))
        fail("no such station: make it with x328 init %s", folder);
    if (lock_folder(folder) != 0)
        fail("a station runs on %s already", folder);
    begin(station, folder, settings);
    settings_text(settings, text, sizeof text);
    open_line(station);
    say_started(text);
    while (!stop_requested()) {
        open_line(station);
        if (line_wait(&station->line, next_timer(station)))
            read_in(station);
        run_timers(station);
        say_repeats(0);
    }
    say_stopped();
    line_close(&station->line);
    master_end(&station->master);
    slave_end(&station->slave);
    free(station);
}

/* No folder is used before it is there for good. */
void station_create(const char *folder)
{
    static const char *const folders[] = {"stat", "spool", "sent", "refused", "received"};
    char path[PATH_LENGTH];

    make_folder(folder);
    for (int i = 0; i < 5; i++) {
        path_of(path, folder, folders[i]);
        make_folder(path);
        sync_folder(path);
    }
    sync_station(folder);
}
