/* The terminal line: bytes in and out, and how long it has been silent. */
#ifndef LINE_H
#define LINE_H

#include <stddef.h>
#include <stdint.h>
#include <sys/types.h>

#include "settings.h"

typedef struct {
    const settings *settings;
    int terminal;         /* -1: not open */
    long long next_try;   /* when it is opened again */
    long long last_byte;  /* when one last came or went, or when it was opened */
} line;

void line_prepare(line *line, const settings *settings);

/* Opens the line where it is not open and a try is due, with nothing left in it, and keeps other stations off it.
 * Returns 1 if it was opened now. Ends the program where the device does not take the speed or the parity. */
int line_open(line *line);
void line_close(line *line);

/* Waits until there are bytes, it is time, or the program is to stop. Returns whether there are bytes. */
int line_wait(const line *line, long long until);

/* Reads what has come. Returns how many bytes, 0 for none, or -1 where the line has hung up. */
ssize_t line_read(line *line, uint8_t *part, size_t size);

/* Writes a unit, and returns when its last character has gone. A line that takes nothing for the time of Timer A loses
 * the rest: the other side sees a damaged unit. */
void line_write(line *line, uint8_t *bytes, size_t length);

/* Whether no byte has come or gone for so many milliseconds, and none waits to be read. */
int line_is_silent(const line *line, long silence);

/* When it will be, if none comes or goes. */
long long line_silent_at(const line *line, long silence);

/* Drops what has come and was not read, and what has not gone. */
void line_flush(line *line);

#endif
