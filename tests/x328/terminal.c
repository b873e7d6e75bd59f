/* Preloaded into a station: a device that does what a pseudo-terminal does not, and a slow disk.
 *
 * KEEP_PARITY: 1 if the device has parity. A pseudo-terminal has none, and says so when its modes are read.
 * FLUSHES: a file that gets the number of each tcflush: of what came, of what is to go, or of both.
 * HOLD_BACK: 1 if what was written never goes out: tcdrain waits until a signal comes.
 * STALL: a FIFO. Where it is there, the first message that is opened waits until the test has opened the FIFO and has
 * closed it again. */
#define _GNU_SOURCE
#include <dlfcn.h>
#include <errno.h>
#include <fcntl.h>
#include <stdarg.h>
#include <stdio.h>
#include <stdlib.h>
#include <string.h>
#include <termios.h>
#include <unistd.h>

static int (*really_open)(const char *, int, ...);
static int (*really_get)(int, struct termios *);
static int (*really_set)(int, int, const struct termios *);
static int (*really_drain)(int);
static int (*really_flush)(int, int);
static tcflag_t parity;

static void __attribute__((constructor)) look_up(void)
{
    really_open = (int (*)(const char *, int, ...))dlsym(RTLD_NEXT, "open");
    really_get = (int (*)(int, struct termios *))dlsym(RTLD_NEXT, "tcgetattr");
    really_set = (int (*)(int, int, const struct termios *))dlsym(RTLD_NEXT, "tcsetattr");
    really_drain = (int (*)(int))dlsym(RTLD_NEXT, "tcdrain");
    really_flush = (int (*)(int, int))dlsym(RTLD_NEXT, "tcflush");
}

int tcgetattr(int file, struct termios *modes)
{
    const int result = really_get(file, modes);

    if (getenv("KEEP_PARITY") != NULL)
        modes->c_cflag |= parity;
    return result;
}

int tcsetattr(int file, int when, const struct termios *modes)
{
    parity = modes->c_cflag & PARENB;
    return really_set(file, when, modes);
}

int tcdrain(int file)
{
    if (getenv("HOLD_BACK") == NULL)
        return really_drain(file);
    pause();
    errno = EINTR;
    return -1;
}

int tcflush(int file, int queue)
{
    const char *const path = getenv("FLUSHES");
    const int flushes = path == NULL ? -1 : really_open(path, O_WRONLY | O_CREAT | O_APPEND, 0666);

    if (flushes >= 0) {
        dprintf(flushes, "%d", queue);
        close(flushes);
    }
    return really_flush(file, queue);
}

static void stall(const char *fifo)
{
    static int stalled;
    const int waited = stalled ? -1 : really_open(fifo, O_RDONLY);
    char byte;

    if (waited < 0)
        return;
    stalled = 1;
    while (read(waited, &byte, 1) > 0)
        continue;
    close(waited);
}

int open(const char *path, int flags, ...)
{
    va_list values;
    int mode;

    va_start(values, flags);
    mode = (flags & O_CREAT) ? va_arg(values, int) : 0;
    va_end(values);
    if (getenv("STALL") != NULL && strstr(path, "/spool/") != NULL)
        stall(getenv("STALL"));
    return really_open(path, flags, mode);
}
