#include "common.h"

#include <errno.h>
#include <fcntl.h>
#include <signal.h>
#include <stdarg.h>
#include <stdio.h>
#include <stdlib.h>
#include <string.h>
#include <time.h>
#include <unistd.h>

#include "giamuvich.h"

enum { FAILURE_LENGTH = 16384 /* more than two paths */ };

static int stop_pipe[2] = {-1, -1};
static volatile sig_atomic_t stopping;
static const char *program = "gmv_driver";
static int failure = 1;

void time_of_day(char *text)
{
    const time_t seconds = time(NULL);
    struct tm parts;

    if (localtime_r(&seconds, &parts) == NULL ||
        strftime(text, TIME_TEXT, "%Y-%m-%d %H:%M:%S", &parts) == 0)
        strcpy(text, "no time");
}

void name_program(const char *name, int status)
{
    program = name;
    failure = status;
}

void escape(char *escaped, size_t size, const char *line, size_t length)
{
    size_t written = 0;

    for (size_t i = 0; i < length && written + 5 <= size; i++) {
        const unsigned byte = (unsigned char)line[i];

        written += (size_t)sprintf(escaped + written, byte < ' ' || byte == 0x7F ? "\\x%02X" : "%c", byte);
    }
    escaped[written] = '\0';
}

void fail(const char *format, ...)
{
    char time[TIME_TEXT], line[FAILURE_LENGTH], escaped[FAILURE_LENGTH];
    va_list values;

    time_of_day(time);
    va_start(values, format);
    vsnprintf(line, sizeof line, format, values);
    va_end(values);
    escape(escaped, sizeof escaped, line, strlen(line));
    fprintf(stderr, "%s %s: %s\n", time, program, escaped);
    exit(failure);
}

#define OTHER_VERSION "the archive that is linked is version %d.%d.%d, its header is version %s"
#define PARTS_OF(version) (int)((version) / 1000000), (int)((version) / 1000 % 1000), (int)((version) % 1000)

int say_version(void)
{
    const uint64_t linked = gmv_version();

    printf("%s %s\n", program, GMV_VERSION);
    if (linked == GMV_VERSION_NUMBER)
        return 0;
    printf(OTHER_VERSION "\n", PARTS_OF(linked), GMV_VERSION);
    return 1;
}

void require_version(void)
{
    const uint64_t linked = gmv_version();

    if (linked != GMV_VERSION_NUMBER)
        fail(OTHER_VERSION, PARTS_OF(linked), GMV_VERSION);
}

void require_done(uint64_t number, const char *function)
{
    if (number != GMV_OK)
        fail("%s refused by %d", function, (int)number);
}

void *allocate(size_t length)
{
    void *memory = malloc(length);

    if (memory == NULL)
        fail("no memory for %lu bytes", (unsigned long)length);
    return memory;
}

long long now(void)
{
    struct timespec time;

    if (clock_gettime(CLOCK_MONOTONIC, &time) != 0)
        fail("no clock: %s", strerror(errno));
    return (long long)time.tv_sec * 1000 + time.tv_nsec / 1000000;
}

long long earliest(long long a, long long b)
{
    return a < b ? a : b;
}

static void note_stop(int signal_number)
{
    int error = errno;

    (void)signal_number;
    stopping = 1;
    if (write(stop_pipe[1], "", 1) < 0)
        stopping = 1; /* the pipe is full: it is readable already */
    errno = error;
}

void catch_stop(void)
{
    struct sigaction action, before;

    if (pipe(stop_pipe) != 0 || fcntl(stop_pipe[1], F_SETFL, O_NONBLOCK) != 0)
        fail("no pipe: %s", strerror(errno));
    memset(&action, 0, sizeof action);
    sigemptyset(&action.sa_mask);
    action.sa_handler = note_stop;
    if (sigaction(SIGTERM, &action, NULL) != 0 || sigaction(SIGINT, &action, NULL) != 0)
        fail("no signal handler: %s", strerror(errno));
    if (sigaction(SIGHUP, NULL, &before) != 0 ||
        (before.sa_handler != SIG_IGN && sigaction(SIGHUP, &action, NULL) != 0)) /* nohup stays nohup */
        fail("no signal handler: %s", strerror(errno));
    action.sa_handler = SIG_IGN; /* a peer that is gone is an error of write, not the driver's end */
    if (sigaction(SIGPIPE, &action, NULL) != 0)
        fail("no signal handler: %s", strerror(errno));
}

int stop_descriptor(void)
{
    return stop_pipe[0];
}

int stop_requested(void)
{
    return stopping;
}
