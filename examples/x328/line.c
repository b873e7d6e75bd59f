#define _DEFAULT_SOURCE /* CRTSCTS and CMSPAR are not in POSIX */
#include "line.h"

#include <errno.h>
#include <fcntl.h>
#include <poll.h>
#include <string.h>
#include <termios.h>
#include <unistd.h>

#include "common.h"
#include "said.h"

enum { TRY_AGAIN = 1000 /* milliseconds */ };

void line_prepare(line *line, const settings *settings)
{
    line->settings = settings;
    line->terminal = -1;
    line->next_try = line->last_byte = now();
}

static speed_t speed_constant(uint64_t speed)
{
    return speed == 1200 ? B1200 : speed == 2400 ? B2400 : speed == 4800 ? B4800 : B9600;
}

/* Cleared first. Flow control by wires that are not joined would hold every byte back for ever, and with CMSPAR the
 * parity bit is always the same. */
static tcflag_t cleared_modes(void)
{
    tcflag_t modes = CSIZE | PARENB | PARODD | CSTOPB;

#ifdef CRTSCTS
    modes |= CRTSCTS;
#endif
#ifdef CMSPAR
    modes |= CMSPAR;
#endif
    return modes;
}

/* tcsetattr succeeds where it could set some of them. */
static void require_modes(const line *line, const struct termios *wanted)
{
    const tcflag_t compared = CSIZE | PARENB | PARODD;
    struct termios modes;

    if (tcgetattr(line->terminal, &modes) != 0 || (modes.c_cflag & compared) != (wanted->c_cflag & compared) ||
        cfgetospeed(&modes) != cfgetospeed(wanted))
        fail("the line at %s does not take eight data bits, this parity and this speed", line->settings->path);
}

/* Every byte as it is, none echoed, eight data bits and one stop bit (000, C.3.6.3). A byte with wrong parity is told
 * apart and not dropped: it damages its unit. */
static int make_raw(const line *line)
{
    const settings *settings = line->settings;
    struct termios modes;

    if (tcgetattr(line->terminal, &modes) != 0)
        return -1;
    modes.c_iflag = settings->parity == PARITY_DEVICE ? INPCK | PARMRK : 0;
    modes.c_oflag = 0;
    modes.c_lflag = 0;
    modes.c_cflag &= ~cleared_modes();
    modes.c_cflag |= CS8 | CREAD | CLOCAL;
    if (settings->parity == PARITY_DEVICE)
        modes.c_cflag |= PARENB | PARODD;
    modes.c_cc[VMIN] = 1;
    modes.c_cc[VTIME] = 0;
    if (settings->speed != 0 && (cfsetispeed(&modes, speed_constant(settings->speed)) != 0 ||
                                 cfsetospeed(&modes, speed_constant(settings->speed)) != 0))
        return -1;
    if (tcsetattr(line->terminal, TCSANOW, &modes) != 0)
        return -1;
    require_modes(line, &modes);
    return tcflush(line->terminal, TCIOFLUSH);
}

/* Returns NULL, or why the line is not open. A second station on it would answer for the first: it is locked before
 * anything is done to it. */
static const char *try_to_open(line *line)
{
    struct flock lock;

    memset(&lock, 0, sizeof lock);
    lock.l_type = F_WRLCK;
    lock.l_whence = SEEK_SET;
    line->terminal = open(line->settings->path, O_RDWR | O_NOCTTY | O_NONBLOCK);
    if (line->terminal < 0)
        return strerror(errno);
    if (fcntl(line->terminal, F_SETLK, &lock) != 0)
        return errno == EACCES || errno == EAGAIN ? "another station has it" : strerror(errno);
    return make_raw(line) == 0 ? NULL : strerror(errno);
}

int line_open(line *line)
{
    const char *reason;

    if (line->terminal >= 0 || now() < line->next_try)
        return 0;
    reason = try_to_open(line);
    line->last_byte = now(); /* what a predecessor sent may still bring a reply */
    if (reason == NULL)
        return 1;
    say_no_line(line->settings->path, reason);
    line_close(line);
    return 0;
}

void line_close(line *line)
{
    if (line->terminal >= 0)
        close(line->terminal);
    line->terminal = -1;
    line->next_try = now() + TRY_AGAIN;
}

static int milliseconds_until(long long until)
{
    const long long left = until - now();

    return left < 0 ? 0 : left > BEAT ? BEAT : (int)left;
}

int line_wait(const line *line, long long until)
{
    struct pollfd waits[2] = {{stop_descriptor(), POLLIN, 0}, {line->terminal, POLLIN, 0}};
    const int count = poll(waits, 2, milliseconds_until(until));

    if (count < 0 && errno != EINTR)
        fail("cannot wait: %s", strerror(errno));
    return count > 0 && waits[1].revents != 0;
}

ssize_t line_read(line *line, uint8_t *part, size_t size)
{
    const ssize_t count = read(line->terminal, part, size);

    if (count > 0)
        line->last_byte = now();
    if (count > 0 || (count < 0 && (errno == EAGAIN || errno == EINTR)))
        return count > 0 ? count : 0;
    say_no_line(line->settings->path, count == 0 ? "hung up" : strerror(errno));
    return -1;
}

/* Returns 0 when the line takes bytes, -1 when it does not in the time of Timer A. */
static int wait_to_write(const line *line)
{
    struct pollfd wait = {line->terminal, POLLOUT, 0};
    const long long until = now() + line->settings->timer_a;

    while (!stop_requested() && now() < until)
        if (poll(&wait, 1, milliseconds_until(until)) > 0)
            return 0;
    return -1;
}

/* Returns whether all were taken. */
static int write_all(const line *line, const uint8_t *bytes, size_t length)
{
    size_t written = 0;

    while (written < length) {
        const ssize_t count = write(line->terminal, bytes + written, length - written);

        if (count > 0)
            written += (size_t)count;
        else if (count < 0 && errno != EAGAIN && errno != EINTR)
            break; /* it has hung up: the next read says so */
        else if (wait_to_write(line) != 0)
            break;
    }
    return written == length;
}

/* Timer A runs from the last character's going. A line that holds its bytes back is no reason not to stop. */
static void drain(const line *line)
{
    while (tcdrain(line->terminal) != 0 && errno == EINTR && !stop_requested())
        continue;
}

void line_write(line *line, uint8_t *bytes, size_t length)
{
    parity_add(line->settings->parity, bytes, length);
    if (write_all(line, bytes, length))
        drain(line);
    else
        tcflush(line->terminal, TCOFLUSH); /* half a unit does not go out before the next one */
    line->last_byte = now();
}

long long line_silent_at(const line *line, long silence)
{
    return line->last_byte + silence;
}

int line_is_silent(const line *line, long silence)
{
    return now() >= line_silent_at(line, silence) && !line_wait(line, now());
}

void line_flush(line *line)
{
    if (tcflush(line->terminal, TCIOFLUSH) != 0)
        say_no_line(line->settings->path, strerror(errno));
}
