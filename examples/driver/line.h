/* The line of a link. One TCP connection is one circuit; on a terminal line, the time from opening the
 * terminal to its hangup is. What waits: line_wait and line_write_all until their time or somebody calls;
 * line_open for a call that is being made, at most two seconds for an address, and for a name's lookup. */
#ifndef LINE_H
#define LINE_H

#include <stddef.h>
#include <stdint.h>
#include <sys/stat.h>
#include <sys/types.h>

#include "records.h"
#include "settings.h"

typedef struct {
    const settings *link;
    int listening;             /* the listening socket, or -1 */
    int circuit;               /* the open circuit, or -1 */
    int useful;                /* something was delivered on this circuit, or it lasted */
    uint64_t hung_up;          /* circuits one after the other that the peer ended without that */
    uint64_t called;           /* circuits that a new caller ended, within five minutes of each other */
    long long hung_up_at, called_at, since; /* when the last of these did, and when the circuit was opened or ended */
    long pause;                /* milliseconds until the next try */
    long long next_try;
    char peer[RUNNING_TEXT];   /* the circuit's other end, or why there is no circuit */
    char ended[RUNNING_TEXT];  /* the other end of the circuit that a new caller ended; else empty */
    struct stat used;          /* the terminal's symbolic link that the last circuit had */
    int plain;                 /* the terminal was a plain device, and it was said */
} line;

/* What line_wait saw. */
enum { LINE_READABLE = 1, LINE_WRITABLE = 2, LINE_CALLED = 4 };

/* Listens, where the line does, and prints the port. Ends the program where it cannot. */
void line_prepare(line *line, const settings *link);

/* Tries to open a circuit, where none is open and the time of the next try has come. Returns 1 where
 * one was opened. */
int line_open(line *line);

/* Ends the circuit, after the peer hung up or by this end alone. What was not read of it and what was not
 * written is dropped. */
void line_close(line *line, int hung_up);

/* Something was delivered on this circuit: the next call need not wait. */
void line_useful(line *line);

/* After the sender gave up: it calls again only when this time is over. */
void line_pause(line *line, long milliseconds);

/* Ends the circuit and listens no longer. */
void line_finish(line *line);

/* When line_open is worth a call though nothing happened. */
long long line_next_try(const line *line);

/* Whether somebody calls while a circuit is open. That one has ended then. */
int line_is_called(line *line);

/* The bytes read or written, 0 where there are none now, or -1 where the circuit has ended. */
ssize_t line_read(line *line, uint8_t *bytes, size_t size);
ssize_t line_write(line *line, const uint8_t *bytes, size_t length);

/* Waits until something can be read (or written, if writing), somebody calls, the driver is to stop,
 * or the time is there. */
int line_wait(const line *line, int writing, long long until);

/* Writes all. Returns 0, or -1 where the circuit ended, somebody calls, or the peer did not take it in time. */
int line_write_all(line *line, const uint8_t *bytes, size_t length, long long until);

/* What the read-out says of the line, and when the driver turned. */
void line_show(const line *line, running_details *running);

#endif
