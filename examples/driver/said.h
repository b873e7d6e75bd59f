/* What a running driver says on standard error: one line for each thing that happened, with its time. A line
 * that repeats itself is said once and then counted; the count is said after a minute, and then at times that
 * double up to an hour. */
#ifndef SAID_H
#define SAID_H

#include "records.h"

void say_started(const char *settings);
void say_stopped(void);
void say_gave_up(const char *waited, uint64_t sends);
void say_froze(const sender_record *record);
void say_refused_file(const char *name, uint64_t number);
void say_call_failed(const char *address, const char *reason);
void say_called(void); /* a circuit is open: what is said of the next outage is no repeat */
void say_hung_up(const char *peer);
void say_new_caller(const char *caller, const char *peer);
void say_cleared(const char *peer, uint64_t expected, uint64_t stored);
void say_unstored(uint64_t transaction, const char *reason); /* 0: -1 */
void say_space(uint64_t transaction, uint64_t failures);
void say_plain_device(const char *path);

/* The counts that are due now; at the driver's end all of them. */
void say_repeats(int all);

#endif
