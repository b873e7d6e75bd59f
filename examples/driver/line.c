#include "line.h"

#include <errno.h>
#include <fcntl.h>
#include <limits.h>
#include <netdb.h>
#include <netinet/in.h>
#include <netinet/tcp.h>
#include <poll.h>
#include <stdio.h>
#include <stdlib.h>
#include <string.h>
#include <sys/socket.h>
#include <termios.h>
#include <unistd.h>

#include "common.h"
#include "said.h"

enum { LEAST_PAUSE = 10, MOST_CALL_PAUSE = 500, MOST_HANGUP_PAUSE = 5000, CONNECT_LIMIT = 2000 };
#define NOBODY_CALLS "nobody calls"
#define NOT_CALLED "not called yet"
#define ENDED "the circuit ended"
enum { LASTING = 10000 /* milliseconds after which a circuit was of use */, LATELY = 300000 };
enum { PROBES = 3 /* without an answer, a second apart, until a peer is taken for gone */ };

static int set_nonblocking(int descriptor)
{
    int flags = fcntl(descriptor, F_GETFL);

    return flags < 0 ? -1 : fcntl(descriptor, F_SETFL, flags | O_NONBLOCK);
}

/* A listening socket on the loopback address: what stands on it is not encrypted. */
static int listen_on(const char *port)
{
    struct sockaddr_in address;
    socklen_t length = sizeof address;
    const int yes = 1;
    char *end, time[TIME_TEXT];
    unsigned long number = strtoul(port, &end, 10);
    int listening = socket(AF_INET, SOCK_STREAM, 0);

    if (*port == '\0' || *end != '\0' || number > 65535)
        fail("%s is no port", port);
    memset(&address, 0, sizeof address);
    address.sin_family = AF_INET;
    address.sin_addr.s_addr = htonl(INADDR_LOOPBACK);
    address.sin_port = htons((uint16_t)number);
    if (listening < 0 || set_nonblocking(listening) != 0 ||
        setsockopt(listening, SOL_SOCKET, SO_REUSEADDR, &yes, sizeof yes) != 0 ||
        bind(listening, (struct sockaddr *)&address, sizeof address) != 0 ||
        listen(listening, 1) != 0 ||
        getsockname(listening, (struct sockaddr *)&address, &length) != 0)
        fail("cannot listen on port %s: %s", port, strerror(errno));
    time_of_day(time);
    printf("%s gmv_driver: listening on %d\n", time, (int)ntohs(address.sin_port));
    fflush(stdout);
    return listening;
}

void line_prepare(line *line, const settings *link)
{
    memset(line, 0, sizeof *line);
    line->link = link;
    line->listening = link->kind == TCP_LISTEN ? listen_on(link->address) : -1;
    line->circuit = -1;
    line->pause = LEAST_PAUSE;
    line->since = now();
    strcpy(line->peer, link->kind == TCP_LISTEN ? NOBODY_CALLS : NOT_CALLED);
}

/* ---- opening a circuit: a descriptor that does not block, or -1 */

static void note_reason(line *line, const char *reason)
{
    snprintf(line->peer, sizeof line->peer, "%s", reason);
}

static struct addrinfo *addresses_of(line *line)
{
    const char *host_and_port = line->link->address, *colon = strrchr(host_and_port, ':');
    struct addrinfo hints, *found = NULL;
    char host[256];
    int problem;

    if (colon == NULL || (size_t)(colon - host_and_port) >= sizeof host)
        fail("%s is not HOST:PORT", host_and_port);
    memcpy(host, host_and_port, (size_t)(colon - host_and_port));
    host[colon - host_and_port] = '\0';
    memset(&hints, 0, sizeof hints);
    hints.ai_socktype = SOCK_STREAM;
    problem = getaddrinfo(host, colon + 1, &hints, &found);
    if (problem != 0)
        note_reason(line, gai_strerror(problem));
    return problem == 0 ? found : NULL;
}

/* A peer that vanished without a word is found out, also by an end that only listens to what comes, and also while
 * something that was written is on its way. */
static int keep_alive(int circuit, const settings *link)
{
    const int yes = 1, silence = (int)link->keepalive, between = 1, probes = PROBES;
    const unsigned int limit = 1000 * ((unsigned int)link->keepalive + PROBES);

    return setsockopt(circuit, SOL_SOCKET, SO_KEEPALIVE, &yes, sizeof yes) == 0 &&
           setsockopt(circuit, IPPROTO_TCP, TCP_USER_TIMEOUT, &limit, sizeof limit) == 0 &&
           setsockopt(circuit, IPPROTO_TCP, TCP_KEEPIDLE, &silence, sizeof silence) == 0 &&
           setsockopt(circuit, IPPROTO_TCP, TCP_KEEPINTVL, &between, sizeof between) == 0 &&
           setsockopt(circuit, IPPROTO_TCP, TCP_KEEPCNT, &probes, sizeof probes) == 0;
}

/* Waits for a connection that is being made. Returns 0 when it is. */
static int finish_connecting(int circuit)
{
    struct pollfd waits[2] = {{circuit, POLLOUT, 0}, {stop_descriptor(), POLLIN, 0}};
    int error = 0;
    socklen_t length = sizeof error;

    errno = ETIMEDOUT;
    if (poll(waits, 2, CONNECT_LIMIT) <= 0 || waits[0].revents == 0)
        return -1;
    if (getsockopt(circuit, SOL_SOCKET, SO_ERROR, &error, &length) != 0)
        return -1;
    errno = error;
    return error == 0 ? 0 : -1;
}

/* Where nobody listens on a loopback port, a caller can be given that port and reach itself. */
static int reaches_itself(int circuit)
{
    struct sockaddr_storage own, peer;
    socklen_t own_length = sizeof own, peer_length = sizeof peer;

    memset(&own, 0, sizeof own);
    memset(&peer, 0, sizeof peer);
    return getsockname(circuit, (struct sockaddr *)&own, &own_length) == 0 &&
           getpeername(circuit, (struct sockaddr *)&peer, &peer_length) == 0 &&
           own_length == peer_length && memcmp(&own, &peer, own_length) == 0;
}

/* What was written and has not arrived is dropped when the circuit ends, by whatever end of this process: else the
 * system goes on sending it, and the peer may get it after the next circuit was opened. */
static int drop_at_close(int circuit)
{
    const struct linger drop = {1, 0};

    return setsockopt(circuit, SOL_SOCKET, SO_LINGER, &drop, sizeof drop) == 0;
}

/* Returns the circuit, or -1 with errno. */
static int connect_to(const struct addrinfo *address, const settings *link)
{
    int circuit = socket(address->ai_family, address->ai_socktype, address->ai_protocol), error;

    if (circuit < 0)
        return -1;
    if (set_nonblocking(circuit) == 0 && keep_alive(circuit, link) && drop_at_close(circuit) &&
        (connect(circuit, address->ai_addr, address->ai_addrlen) == 0 ||
         ((errno == EINPROGRESS || errno == EINTR) && finish_connecting(circuit) == 0))) {
        if (!reaches_itself(circuit))
            return circuit;
        errno = ECONNREFUSED;
    }
    error = errno;
    close(circuit);
    errno = error;
    return -1;
}

static int open_connection(line *line)
{
    struct addrinfo *addresses = addresses_of(line);
    int circuit = -1;

    for (struct addrinfo *at = addresses; at != NULL && circuit < 0; at = at->ai_next) {
        circuit = connect_to(at, line->link);
        if (circuit < 0)
            note_reason(line, strerror(errno));
    }
    if (addresses != NULL)
        freeaddrinfo(addresses);
    if (circuit < 0)
        say_call_failed(line->link->address, line->peer);
    return circuit;
}

static int accept_caller(line *line)
{
    int circuit = accept(line->listening, NULL, NULL);

    if (circuit >= 0 && (set_nonblocking(circuit) != 0 || !keep_alive(circuit, line->link))) {
        note_reason(line, strerror(errno));
        close(circuit);
        return -1;
    }
    return circuit;
}

/* Every byte as it is, none echoed; and with at least one byte to a read, 0 bytes mean a hangup. What
 * came in before is flushed: the line is empty at a new circuit. */
static int make_raw(int terminal)
{
    struct termios modes;

    if (tcgetattr(terminal, &modes) != 0)
        return -1;
    modes.c_iflag &= ~(tcflag_t)(IGNBRK | BRKINT | PARMRK | ISTRIP | INLCR | IGNCR | ICRNL | IXON |
                                 IXOFF);
    modes.c_oflag &= ~(tcflag_t)OPOST;
    modes.c_lflag &= ~(tcflag_t)(ECHO | ECHONL | ICANON | ISIG | IEXTEN);
    modes.c_cflag &= ~(tcflag_t)(CSIZE | PARENB);
    modes.c_cflag |= CS8 | CREAD;
    modes.c_cc[VMIN] = 1;
    modes.c_cc[VTIME] = 0;
    return tcsetattr(terminal, TCSAFLUSH, &modes);
}

static int is_same_link(const struct stat *a, const struct stat *b)
{
    return a->st_dev == b->st_dev && a->st_ino == b->st_ino &&
           a->st_ctim.tv_sec == b->st_ctim.tv_sec && a->st_ctim.tv_nsec == b->st_ctim.tv_nsec;
}

/* Only a symbolic link that a terminal server makes anew stands for one circuit. Said once: the device may come after
 * the driver, and be opened again and again. */
static void note_plain_device(line *line)
{
    if (!line->plain)
        say_plain_device(line->link->address);
    line->plain = 1;
}

/* The terminal server makes the symbolic link anew for each circuit. One that had a circuit already is
 * not opened again: the server has not yet seen that this circuit ended, and its line is not empty. */
static int open_terminal(line *line)
{
    const char *path = line->link->address;
    struct stat status, after;
    int terminal;

    if (lstat(path, &status) != 0) {
        note_reason(line, strerror(errno));
        return -1;
    }
    if (!S_ISLNK(status.st_mode))
        note_plain_device(line);
    else if (is_same_link(&status, &line->used)) {
        note_reason(line, "the terminal server has made no new link");
        return -1;
    }
    terminal = open(path, O_RDWR | O_NOCTTY | O_NONBLOCK);
    if (terminal < 0) {
        note_reason(line, strerror(errno));
        return -1;
    }
    if (!isatty(terminal) && errno == ENOTTY)
        fail("%s is no terminal", path);
    if (lstat(path, &after) != 0 || !is_same_link(&status, &after) || make_raw(terminal) != 0) {
        close(terminal); /* it was made anew meanwhile, or it hung up */
        return -1;
    }
    line->used = status;
    return terminal;
}

/* Who is at the other end: a TCP address, or the terminal. */
static void note_peer(line *line)
{
    struct sockaddr_storage address;
    socklen_t length = sizeof address;
    char host[256], port[32];

    if (line->link->kind == TERMINAL)
        snprintf(line->peer, sizeof line->peer, "%.200s", line->link->address);
    else if (getpeername(line->circuit, (struct sockaddr *)&address, &length) == 0 &&
             getnameinfo((struct sockaddr *)&address, length, host, sizeof host, port, sizeof port,
                         NI_NUMERICHOST | NI_NUMERICSERV) == 0)
        snprintf(line->peer, sizeof line->peer, "%.200s:%.20s", host, port);
    else
        strcpy(line->peer, "a peer that is gone");
}

static void note_opened(line *line)
{
    note_peer(line);
    line->useful = 0;
    line->since = now();
    say_called();
    if (line->ended[0] != '\0')
        say_new_caller(line->peer, line->ended);
    line->ended[0] = '\0';
}

/* The pause before the next try doubles, up to a limit. */
static void wait_longer(line *line, long most)
{
    line->next_try = now() + line->pause;
    line->pause = line->pause * 2 < most ? line->pause * 2 : most;
}

static int open_circuit_of(line *line)
{
    switch (line->link->kind) {
    case TCP_CONNECT:
        return open_connection(line);
    case TCP_LISTEN:
        return accept_caller(line);
    case TERMINAL:
        return open_terminal(line);
    default:
        fail("no line");
    }
}

int line_open(line *line)
{
    if (line->circuit >= 0 || now() < line->next_try)
        return 0;
    line->circuit = open_circuit_of(line);
    if (line->circuit >= 0) {
        note_opened(line);
        return 1;
    }
    if (line->link->kind == TCP_LISTEN && errno == EAGAIN) {
        if (line->ended[0] != '\0')
            say_new_caller("gone already", line->ended);
        line->ended[0] = '\0';
        return 0; /* nobody calls, and line_wait sees who does */
    }
    wait_longer(line, line->pause > MOST_CALL_PAUSE ? line->pause : MOST_CALL_PAUSE);
    return 0;
}

/* A peer that takes the call and soon hangs up is called again after a pause that grows. */
static void note_hangup(line *line)
{
    line->hung_up++;
    line->hung_up_at = now();
    if (line->link->kind == TCP_CONNECT)
        say_hung_up(line->peer);
    if (line->link->kind != TCP_LISTEN)
        wait_longer(line, MOST_HANGUP_PAUSE);
}

void line_close(line *line, int hung_up)
{
    if (line->circuit < 0)
        return;
    close(line->circuit);
    line->circuit = -1;
    if (now() >= line->since + LASTING)
        line_useful(line);
    line->since = now();
    line->next_try = line->link->kind == TCP_LISTEN ? 0 : now() + LEAST_PAUSE;
    if (line->useful)
        line->pause = LEAST_PAUSE;
    else if (hung_up)
        note_hangup(line);
    strcpy(line->peer, line->link->kind == TCP_LISTEN ? NOBODY_CALLS : ENDED);
}

void line_useful(line *line)
{
    line->useful = 1;
    line->hung_up = 0;
}

void line_pause(line *line, long milliseconds)
{
    if (line->link->kind != TCP_LISTEN && line->next_try < now() + milliseconds)
        line->next_try = now() + milliseconds;
}

/* The listening socket first: a peer that sees the circuit end must not reach a driver that stops. */
void line_finish(line *line)
{
    if (line->listening >= 0)
        close(line->listening);
    line->listening = -1;
    line_close(line, 0);
}

long long line_next_try(const line *line)
{
    if (line->circuit >= 0 || (line->link->kind == TCP_LISTEN && now() >= line->next_try))
        return LLONG_MAX;
    return line->next_try;
}

/* ---- an open circuit */

int line_is_called(line *line)
{
    struct pollfd call = {line->listening, POLLIN, 0};

    if (line->listening < 0 || line->circuit < 0 || poll(&call, 1, 0) <= 0)
        return 0;
    line->called = now() < line->called_at + LATELY ? line->called + 1 : 1;
    line->called_at = now();
    strcpy(line->ended, line->peer);
    return 1;
}

/* A new caller means that the circuit has ended, even where this end has not heard of it yet. Asked
 * after the read, so that no byte is taken from a circuit after the peer opened the next one: the
 * line is empty then. */
ssize_t line_read(line *line, uint8_t *bytes, size_t size)
{
    ssize_t count = read(line->circuit, bytes, size);

    if (count < 0 && (errno == EAGAIN || errno == EWOULDBLOCK || errno == EINTR))
        count = 0;
    else if (count <= 0)
        return -1;
    return line_is_called(line) ? -1 : count;
}

ssize_t line_write(line *line, const uint8_t *bytes, size_t length)
{
    ssize_t count = write(line->circuit, bytes, length);

    if (count < 0 && (errno == EAGAIN || errno == EWOULDBLOCK || errno == EINTR))
        return 0;
    return count;
}

static int milliseconds_until(long long until)
{
    long long rest = until - now();

    if (rest < 0)
        return 0;
    return rest > 60000 ? 60000 : (int)rest;
}

int line_wait(const line *line, int writing, long long until)
{
    const int listens = line->circuit >= 0 || now() >= line->next_try;
    /* A descriptor of -1 is not looked at. */
    struct pollfd waits[3] = {{line->circuit, (short)(POLLIN | (writing ? POLLOUT : 0)), 0},
                              {listens ? line->listening : -1, POLLIN, 0},
                              {stop_descriptor(), POLLIN, 0}};
    int seen = 0;

    if (poll(waits, 3, milliseconds_until(until)) < 0) {
        if (errno != EINTR)
            fail("cannot wait: %s", strerror(errno));
        return 0;
    }
    if (waits[0].revents & (POLLIN | POLLHUP | POLLERR))
        seen |= LINE_READABLE; /* a hangup is seen by reading */
    if (waits[0].revents & POLLOUT)
        seen |= LINE_WRITABLE;
    if (waits[1].revents != 0)
        seen |= LINE_CALLED;
    return seen;
}

/* A peer that does not read keeps nobody else out: a new caller ends the circuit here too. */
int line_write_all(line *line, const uint8_t *bytes, size_t length, long long until)
{
    size_t written = 0;

    while (written < length) {
        ssize_t count = line_write(line, bytes + written, length - written);

        if (count < 0)
            return -1;
        written += (size_t)count;
        if (count == 0) {
            struct pollfd waits[3] = {{line->circuit, POLLOUT, 0},
                                      {line->listening, POLLIN, 0},
                                      {stop_descriptor(), POLLIN, 0}};

            poll(waits, 3, milliseconds_until(until));
            if (now() >= until || stop_requested() || line_is_called(line))
                return -1;
        }
    }
    return 0;
}

void line_show(const line *line, running_details *running)
{
    running->turned = (uint64_t)now();
    running->circuit_open = line->circuit >= 0;
    running->since = (uint64_t)line->since;
    running->hung_up = line->hung_up;
    running->hung_up_at = (uint64_t)line->hung_up_at;
    running->called = line->called;
    running->called_at = (uint64_t)line->called_at;
    strcpy(running->peer, line->peer);
}
