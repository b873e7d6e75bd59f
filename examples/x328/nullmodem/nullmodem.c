/* nullmodem LINK LINK: two pseudo-terminals that are joined, for two stations on one machine. It makes the symbolic
 * links, and removes them when it is stopped. */
#include <fcntl.h>
#include <poll.h>
#include <signal.h>
#include <stdio.h>
#include <stdlib.h>
#include <termios.h>
#include <unistd.h>

enum { PART = 4096 };

typedef struct {
    int end;  /* this program's */
    int held; /* the station's: so that the line outlives the station */
} terminal;

static const char *links[2];
static volatile sig_atomic_t made; /* how many of them */

static void remove_links(void)
{
    while (made > 0)
        unlink(links[--made]);
}

static void stop(int signal_number)
{
    (void)signal_number;
    remove_links();
    _exit(0);
}

static void __attribute__((noreturn)) fail(const char *what)
{
    perror(what);
    remove_links();
    exit(1);
}

/* No byte is changed or echoed, also before a station has opened it. */
static void make_raw(int file)
{
    struct termios modes;

    if (tcgetattr(file, &modes) != 0)
        fail("tcgetattr");
    modes.c_iflag = modes.c_oflag = modes.c_lflag = 0;
    if (tcsetattr(file, TCSANOW, &modes) != 0)
        fail("tcsetattr");
}

static terminal make_terminal(const char *link)
{
    terminal terminal;
    const char *path;

    terminal.end = posix_openpt(O_RDWR | O_NOCTTY);
    if (terminal.end < 0 || grantpt(terminal.end) != 0 || unlockpt(terminal.end) != 0)
        fail("posix_openpt");
    path = ptsname(terminal.end);
    terminal.held = path == NULL ? -1 : open(path, O_RDWR | O_NOCTTY);
    if (terminal.held < 0)
        fail("ptsname");
    make_raw(terminal.held);
    if (symlink(path, link) != 0)
        fail(link);
    links[made] = link;
    made++;
    return terminal;
}

static void pass_on(int from, int to)
{
    char part[PART];
    const ssize_t count = read(from, part, sizeof part);

    for (ssize_t written = 0; written < count;) {
        const ssize_t more = write(to, part + written, (size_t)(count - written));

        if (more < 0)
            fail("write");
        written += more;
    }
}

int main(int count, char **words)
{
    terminal a, b;

    if (count != 3) {
        fprintf(stderr, "nullmodem LINK LINK\n");
        return 2;
    }
    signal(SIGTERM, stop);
    signal(SIGINT, stop);
    if (signal(SIGHUP, SIG_IGN) != SIG_IGN) /* nohup stays nohup */
        signal(SIGHUP, stop);
    a = make_terminal(words[1]);
    b = make_terminal(words[2]);
    for (;;) {
        struct pollfd waits[2] = {{a.end, POLLIN, 0}, {b.end, POLLIN, 0}};

        if (poll(waits, 2, -1) < 0)
            fail("poll");
        if (waits[0].revents & POLLIN)
            pass_on(a.end, b.end);
        if (waits[1].revents & POLLIN)
            pass_on(b.end, a.end);
    }
}
