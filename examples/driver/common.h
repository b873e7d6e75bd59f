/* What all parts of the driver share: failing with a message, the clock, and being told to stop. */
#ifndef COMMON_H
#define COMMON_H

#include <stddef.h>
#include <stdint.h>

/* Prints the message to standard error, with its time, and ends the program with status 1. A driver that
 * cannot store or cannot read what it stored does not guess: what is persisted is enough to go on from. */
void fail(const char *format, ...) __attribute__((noreturn, format(printf, 1, 2)));

/* Copies so many bytes of a line, as far as they go in, with each control character as \xHH: a name that a host gave
 * to a file makes no line of its own. */
void escape(char *escaped, size_t size, const char *line, size_t length);

/* Another program's name in that message, and the status that it ends with. */
void name_program(const char *name, int status);

/* Prints the program's name and the version of the library's header. Returns 0, or 1 where the archive that is linked
 * is of another version, which it then says too. */
int say_version(void);

/* A program whose header is not the archive's does not run. */
void require_version(void);

/* A number of the library that says that the driver called wrongly ends the program too. */
void require_done(uint64_t number, const char *function);

void *allocate(size_t length);

/* Milliseconds of a clock that nobody sets. It is the same one for all programs since the machine started. */
long long now(void);
long long earliest(long long a, long long b);

/* Milliseconds after which a driver turns and shows that it does, though nothing happened. */
enum { BEAT = 1000 };

/* The date and the time of day, for a line that is said. */
enum { TIME_TEXT = 20 };
void time_of_day(char *text);

/* SIGTERM, SIGINT and SIGHUP ask to stop. The descriptor becomes readable then, so that no poll misses it. */
void catch_stop(void);
int stop_descriptor(void);
int stop_requested(void);

#endif
