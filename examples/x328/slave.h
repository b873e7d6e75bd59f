/* The slave: it stores the messages that come. The library decides what to reply; the units and Timer D are made
 * here. */
#ifndef SLAVE_H
#define SLAVE_H

#include <stdint.h>

#include "giamuvich.h"
#include "line.h"
#include "received.h"
#include "splitter.h"

typedef struct {
    line *line;
    const settings *settings;
    received received;
    uint64_t state[GMV_STATION_WORDS], report[GMV_STATION_REPORT_WORDS];
    uint8_t *buffer;   /* of message_limit bytes: the message that is not yet complete */
    int any_accepted;  /* a block, since the opening */
    long long timer_d; /* when it runs out */
} slave;

void slave_begin(slave *slave, const char *folder, const settings *settings, line *line);
void slave_end(slave *slave);

/* A bid came: the station is opened, and the line is granted by ACK 0. */
void slave_grant(slave *slave);

/* A unit came. Those that are no master's are dropped. Returns whether this station is still slave. */
int slave_take(slave *slave, const unit *unit);

/* Whether a reverse interrupt may be asked for now; and asking for it, for the message of that name. */
int slave_may_interrupt(const slave *slave);
void slave_interrupt(slave *slave, const char *name);

/* Timer D ran out, or the line has hung up: this station is no slave any more. */
void slave_timer(slave *slave);
void slave_hung_up(slave *slave);

#endif
