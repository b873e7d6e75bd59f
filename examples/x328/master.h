/* The master: it sends the messages of the outbox, one after the other, while it has the line. The library decides what
 * to send; the units and Timer A are made here. */
#ifndef MASTER_H
#define MASTER_H

#include <stdint.h>

#include "giamuvich.h"
#include "line.h"
#include "outbox.h"
#include "splitter.h"

typedef struct {
    line *line;
    outbox outbox;
    uint64_t state[GMV_MASTER_WORDS], report[GMV_MASTER_REPORT_WORDS];
    int is_under_way;  /* the outbox's message: started, and not done */
    long long timer_a; /* when it runs out */
    uint8_t frame[MOST_BLOCK];
} master;

void master_begin(master *master, const char *folder, const settings *settings, line *line);
void master_end(master *master);

/* The line was granted. This and the next two return whether this station is still master. */
int master_open(master *master);

/* A unit came. Those that are no reply are dropped. */
int master_take(master *master, const unit *unit);

/* Timer A ran out: the block goes again, or an enquiry first. */
int master_timer(master *master);

#endif
