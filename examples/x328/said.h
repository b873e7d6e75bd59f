/* What a running station says on standard error: one line for each thing that happened, with its time. A line that
 * repeats itself is said once and then counted; the count is said after a minute, and then at times that double up to
 * an hour. */
#ifndef SAID_H
#define SAID_H

#include <stddef.h>
#include <stdint.h>

void say_started(const char *settings);
void say_stopped(void);
void say_no_line(const char *path, const char *reason);
void say_line(const char *path); /* it is open again: only said after say_no_line */

/* As master. */
void say_not_silent(void);
void say_not_granted(uint64_t bids, uint64_t refusals);
void say_no_reply(const char *name);      /* Timer A, a block of the message out */
void say_enquired(const char *name);      /* the same, and ENQ goes first */
void say_block_refused(const char *name); /* NAK, or the ACK of the block before */
void say_failed(const char *name, uint64_t blocks);
void say_ended_by_slave(const char *name, uint64_t blocks);
void say_interrupt_heard(const char *name);
void say_reversed(const char *name, uint64_t blocks); /* NULL: no message is unfinished */
void say_refused_file(const char *name, uint64_t number); /* cannot be sent */

/* As slave. */
void say_bad_unit(void);
void say_not_stored(const char *reason);
void say_too_long(uint64_t limit);
void say_block_lost(void);            /* Timer B */
void say_master_lost(uint64_t held);  /* Timer D */
void say_broken_off(uint64_t held);   /* EOT, or the line hung up, in the middle of a message */
void say_enquiry(void);
void say_interrupt_asked(const char *name);
void say_interrupt_given(void);
void say_no_interrupt(const char *name, uint64_t openings);

/* The counts that are due now; at the station's end all of them. */
void say_repeats(int all);

#endif
