/* Preloaded into a driver: its machine at night. While the file $FULL_WHILE is there its disk is full: a file gets no
 * new block, and what it has may be written over. While the file $AHEAD_WHILE is there its wall clock is an hour
 * ahead, and the clock that only counts on is not. */
#define _GNU_SOURCE
#include <dlfcn.h>
#include <errno.h>
#include <stdlib.h>
#include <sys/stat.h>
#include <sys/time.h>
#include <time.h>
#include <unistd.h>

enum { HOUR = 3600, BLOCK = 4096 };

typedef ssize_t writing(int, const void *, size_t);
typedef int reading_clock(clockid_t, struct timespec *);

/* Whether the file that this variable names is there. */
static int is_there(const char *variable)
{
    const char *path = getenv(variable);

    return path != NULL && access(path, F_OK) == 0;
}

/* Whether so many bytes more go beyond the blocks that the file has. */
static int needs_space(int file, size_t length)
{
    struct stat status;

    return fstat(file, &status) == 0 && S_ISREG(status.st_mode) &&
           lseek(file, 0, SEEK_CUR) + (off_t)length > (status.st_size + BLOCK - 1) / BLOCK * BLOCK;
}

ssize_t write(int file, const void *bytes, size_t length)
{
    if (needs_space(file, length) && is_there("FULL_WHILE")) {
        errno = ENOSPC;
        return -1;
    }
    return ((writing *)dlsym(RTLD_NEXT, "write"))(file, bytes, length);
}

int clock_gettime(clockid_t clock, struct timespec *at)
{
    const int result = ((reading_clock *)dlsym(RTLD_NEXT, "clock_gettime"))(clock, at);

    if (result == 0 && clock == CLOCK_REALTIME && is_there("AHEAD_WHILE"))
        at->tv_sec += HOUR;
    return result;
}

int gettimeofday(struct timeval *at, void *zone)
{
    struct timespec precise;
    const int result = clock_gettime(CLOCK_REALTIME, &precise);

    (void)zone;
    at->tv_sec = precise.tv_sec;
    at->tv_usec = precise.tv_nsec / 1000;
    return result;
}

time_t time(time_t *at)
{
    struct timespec precise;

    if (clock_gettime(CLOCK_REALTIME, &precise) != 0)
        return (time_t)-1;
    if (at != NULL)
        *at = precise.tv_sec;
    return precise.tv_sec;
}
