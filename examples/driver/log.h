/* The sender's log: each submitted message under its number. */
#ifndef LOG_H
#define LOG_H

#include <stddef.h>
#include <stdint.h>
#include <sys/types.h>
#include <time.h>

enum { LOG_NAME = 32 };

/* The message is durable in the log when it returns. It is as old there as the host's file: who waits for it does so
 * since then. */
void log_store(const char *folder, uint64_t number, const uint8_t *message, size_t length,
               const struct timespec *written);

/* Reads a message of the log. Returns its length, or -1 where the log does not have it. */
ssize_t log_read(const char *folder, uint64_t number, uint8_t *message, size_t size);

/* When the host wrote the oldest of these messages of the log; the present where none is there. */
time_t log_oldest(const char *folder, uint64_t first, uint64_t last);

#endif
