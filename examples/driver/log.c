#include "log.h"

#include <stdio.h>
#include <sys/stat.h>

#include "store.h"

static void log_name(char *name, uint64_t number)
{
    snprintf(name, LOG_NAME, "%llu.hl7", (unsigned long long)number);
}

void log_store(const char *folder, uint64_t number, const uint8_t *message, size_t length,
               const struct timespec *written)
{
    char log[PATH_LENGTH], name[LOG_NAME];

    path_of(log, folder, "log");
    log_name(name, number);
    store_as_of(log, name, message, length, written);
}

static void log_path(char *path, const char *folder, uint64_t number)
{
    char log[PATH_LENGTH], name[LOG_NAME];

    path_of(log, folder, "log");
    log_name(name, number);
    path_of(path, log, name);
}

ssize_t log_read(const char *folder, uint64_t number, uint8_t *message, size_t size)
{
    char path[PATH_LENGTH];

    log_path(path, folder, number);
    return read_or_miss(path, message, size);
}

/* A later number may be the older one, where an earlier one had to be written anew. */
time_t log_oldest(const char *folder, uint64_t first, uint64_t last)
{
    time_t oldest = time(NULL);
    char path[PATH_LENGTH];
    struct stat status;

    for (uint64_t number = first; number <= last; number++) {
        log_path(path, folder, number);
        if (stat(path, &status) == 0 && status.st_mtime < oldest)
            oldest = status.st_mtime;
    }
    return oldest;
}
