/* Preloaded into a driver. It writes down what the driver does to files and to the line, one act to a
 * line, so that the test knows at each moment what is synced: SIGKILL cannot show it, as what is
 * written and not synced survives the process. And it kills the driver at an act that the test names,
 * before it or in the middle of a write.
 *
 * TRACE_DESCRIPTOR: where to write down, opened for appending; both ends may have the same one.
 * TRACE_END: each line's first word. CRASH_AT: the act's number, from 1 on. CRASH_HALF: 1 if in its
 * middle; then only writes count. CRASH_SYNC: 1 if only syncs count. FAIL_SYNC_AT: the number of a sync
 * that fails, and does nothing. FAIL_AT: the number of an act on files that fails with the error FAIL_ERROR, and
 * does nothing; FAIL_ACTS: so many one after the other.
 *
 * A line is: end, act, the file's number in its file system, path, and of a write the offset and the
 * bytes in hexadecimal, of a rename and a link the second path. Of what went out or came in on the
 * line it is: end, block or heard, the circuit, how many bytes. A line is written when its act is
 * done, and only of acts that changed something; `dies` is the act that the driver was killed before, `fails` one
 * that failed.
 * The trace is locked from before an act to after its line: who has the lock sees no act half done. */
#define _GNU_SOURCE
#include <dlfcn.h>
#include <errno.h>
#include <fcntl.h>
#include <netinet/in.h>
#include <signal.h>
#include <stdarg.h>
#include <stdio.h>
#include <stdlib.h>
#include <string.h>
#include <sys/socket.h>
#include <sys/stat.h>
#include <sys/types.h>
#include <unistd.h>

enum { FILES = 1024, NAME = 512, CIRCUIT = 32 };
static char names[FILES][NAME], circuits[FILES][CIRCUIT];

/* The system's own functions. Looked up once, at the start: write is also called by a signal handler, and
 * dlsym has a lock that what the handler interrupts may hold. */
typedef int of_path(const char *);
typedef int of_paths(const char *, const char *);
typedef int of_file(int);
static int (*really_open)(const char *, int, ...);
static ssize_t (*really_write)(int, const void *, size_t);
static ssize_t (*really_read)(int, void *, size_t);
static int (*really_accept)(int, struct sockaddr *, socklen_t *);
static int (*really_connect)(int, const struct sockaddr *, socklen_t);
static int (*really_mkdir)(const char *, mode_t);
static of_file *really_fsync, *really_fdatasync, *really_close;
static of_paths *really_rename, *really_link;
static of_path *really_unlink;

static void __attribute__((constructor)) look_up(void)
{
    really_open = (int (*)(const char *, int, ...))dlsym(RTLD_NEXT, "open");
    really_write = (ssize_t (*)(int, const void *, size_t))dlsym(RTLD_NEXT, "write");
    really_read = (ssize_t (*)(int, void *, size_t))dlsym(RTLD_NEXT, "read");
    really_accept = (int (*)(int, struct sockaddr *, socklen_t *))dlsym(RTLD_NEXT, "accept");
    really_connect = (int (*)(int, const struct sockaddr *, socklen_t))dlsym(RTLD_NEXT, "connect");
    really_mkdir = (int (*)(const char *, mode_t))dlsym(RTLD_NEXT, "mkdir");
    really_fsync = (of_file *)dlsym(RTLD_NEXT, "fsync");
    really_fdatasync = (of_file *)dlsym(RTLD_NEXT, "fdatasync");
    really_close = (of_file *)dlsym(RTLD_NEXT, "close");
    really_rename = (of_paths *)dlsym(RTLD_NEXT, "rename");
    really_link = (of_paths *)dlsym(RTLD_NEXT, "link");
    really_unlink = (of_path *)dlsym(RTLD_NEXT, "unlink");
}

static int number_in(const char *name)
{
    const char *value = getenv(name);

    return value == NULL ? -1 : (int)strtol(value, NULL, 10);
}

static void lock_trace(short type)
{
    struct flock lock = {.l_type = type, .l_whence = SEEK_SET};
    const int trace = number_in("TRACE_DESCRIPTOR"), error = errno;

    while (trace >= 0 && fcntl(trace, F_SETLKW, &lock) != 0)
        if (errno != EINTR)
            abort();
    errno = error;
}

static void record(const char *format, ...)
{
    const int trace = number_in("TRACE_DESCRIPTOR"), error = errno;
    const char *end = getenv("TRACE_END");
    size_t length = 0;
    char *line = NULL;
    va_list values;
    FILE *text;

    if (trace < 0)
        return;
    text = open_memstream(&line, &length);
    if (text == NULL)
        abort();
    fprintf(text, "%s ", end == NULL ? "-" : end);
    va_start(values, format);
    vfprintf(text, format, values);
    va_end(values);
    fputc('\n', text);
    if (fclose(text) != 0 || really_write(trace, line, length) != (ssize_t)length)
        abort();
    free(line);
    errno = error;
}

/* What is not synced need not survive, and is no act here. */
static int is_light(const char *name)
{
    const char *last = strrchr(name, '/');

    return last != NULL && strncmp(last, "/live", 5) == 0;
}

enum doing { WHOLE, HALF, FAILS };

static void end_act(void)
{
    lock_trace(F_UNLCK);
}

/* The acts are numbered from 1 on. */
static int is_to_fail(int number)
{
    const int first = number_in("FAIL_AT"), count = number_in("FAIL_ACTS");

    return first > 0 && number >= first && number < first + (count < 1 ? 1 : count);
}

/* Before an act; end_act is to follow, but where it fails. By half: the driver is killed then. */
static enum doing begin_act(const char *act, const char *what)
{
    static int acts;
    const int halves = number_in("CRASH_HALF") == 1, syncs = number_in("CRASH_SYNC") == 1;
    const int writes = strcmp(act, "write") == 0 || strcmp(act, "block") == 0;

    if (is_light(what))
        return WHOLE;
    lock_trace(F_WRLCK);
    if (halves ? writes : !syncs || strcmp(act, "sync") == 0)
        acts++;
    if (acts == number_in("CRASH_AT") && !halves) {
        record("dies %s %s", act, what);
        raise(SIGKILL);
    }
    if (is_to_fail(acts) && strcmp(act, "block") != 0) {
        record("fails %s %s", act, what);
        end_act();
        errno = number_in("FAIL_ERROR");
        return FAILS;
    }
    return writes && acts == number_in("CRASH_AT") ? HALF : WHOLE;
}

static unsigned long number_of(const char *path)
{
    struct stat status;
    const int error = errno;
    const int known = stat(path, &status) == 0;

    errno = error;
    return known ? (unsigned long)status.st_ino : 0;
}

static int is_known(int file)
{
    return file >= 0 && file < FILES && names[file][0] != '\0';
}

/* ---- files */

/* The lock's file is opened to be made: an act only where it was missing. */
int open(const char *path, int flags, ...)
{
    const int is_new = number_of(path) == 0;
    const int changes = !is_light(path) && ((flags & O_TRUNC) || ((flags & O_CREAT) && is_new));
    va_list values;
    int mode, file;

    va_start(values, flags);
    mode = (flags & O_CREAT) ? va_arg(values, int) : 0;
    va_end(values);
    if (changes && begin_act("open", path) == FAILS)
        return -1;
    file = really_open(path, flags, mode);
    if (changes && file >= 0)
        record("%s %lu %s", is_new ? "create" : "truncate", number_of(path), path);
    if (changes)
        end_act();
    if (file >= 0 && file < FILES)
        snprintf(names[file], NAME, "%s", path);
    return file;
}

static void record_write(int file, const unsigned char *bytes, size_t length)
{
    const int error = errno;
    char *text = malloc(2 * length + 1);
    struct stat status;

    if (text == NULL || fstat(file, &status) != 0)
        abort();
    text[0] = '\0';
    for (size_t i = 0; i < length; i++)
        sprintf(text + 2 * i, "%02x", bytes[i]);
    record("write %lu %s %ld %s", (unsigned long)status.st_ino, names[file],
           (long)(lseek(file, 0, SEEK_CUR) - (off_t)length), text);
    free(text);
    errno = error;
}

/* The two ports of a connection, the lower one first: the same word at both ends. It is kept from the beginning on:
 * of a connection that was reset the system tells the peer no more. */
static void name_circuit(int file, int named, const struct sockaddr *other)
{
    struct sockaddr_in own = {0};
    socklen_t length = sizeof own;
    const int error = errno;
    int low, high;

    getsockname(named, (struct sockaddr *)&own, &length);
    low = ntohs(own.sin_port);
    high = ntohs(((const struct sockaddr_in *)other)->sin_port);
    if (file >= 0 && file < FILES)
        snprintf(circuits[file], CIRCUIT, "%d-%d", low < high ? low : high, low < high ? high : low);
    errno = error;
}

int accept(int file, struct sockaddr *restrict address, socklen_t *restrict length)
{
    struct sockaddr_storage peer;
    socklen_t peer_length = sizeof peer;
    const int circuit = really_accept(file, (struct sockaddr *)&peer, &peer_length);

    (void)address; /* the driver does not ask */
    (void)length;
    if (circuit >= 0)
        name_circuit(circuit, file, (struct sockaddr *)&peer);
    return circuit;
}

int connect(int file, const struct sockaddr *address, socklen_t length)
{
    const int result = really_connect(file, address, length);

    name_circuit(file, file, address);
    return result;
}

/* A socket or a terminal. */
static int is_line(int file)
{
    struct stat status;
    const int error = errno;
    const int line = fstat(file, &status) == 0 &&
                     (S_ISSOCK(status.st_mode) || (S_ISCHR(status.st_mode) && isatty(file)));

    errno = error;
    return line;
}

static void record_line(const char *act, int file, ssize_t count)
{
    if (count > 0)
        record("%s %s %ld", act, file < FILES && circuits[file][0] != '\0' ? circuits[file] : "-", (long)count);
}

ssize_t write(int file, const void *bytes, size_t length)
{
    const int line = is_line(file);
    const char *const what = line ? "-" : is_known(file) ? names[file] : NULL;
    ssize_t count;
    enum doing doing;

    if (what == NULL || is_light(what))
        return really_write(file, bytes, length);
    doing = begin_act(line ? "block" : "write", what);
    if (doing == FAILS)
        return -1;
    count = really_write(file, bytes, doing == HALF ? length / 2 : length);
    if (line)
        record_line("block", file, count);
    else if (count >= 0)
        record_write(file, bytes, (size_t)count);
    if (doing == HALF)
        raise(SIGKILL);
    end_act();
    return count;
}

/* What came in is no act: nothing is changed by it. */
ssize_t read(int file, void *bytes, size_t length)
{
    const ssize_t count = really_read(file, bytes, length);

    if (is_line(file)) {
        lock_trace(F_WRLCK);
        record_line("heard", file, count);
        lock_trace(F_UNLCK);
    }
    return count;
}

static int sync_by(of_file *really, int file)
{
    static int syncs;
    const char *const path = is_known(file) ? names[file] : "-";
    struct stat status;
    int result;

    if (++syncs == number_in("FAIL_SYNC_AT")) {
        errno = EIO;
        return -1;
    }
    if (begin_act("sync", path) == FAILS)
        return -1;
    result = really(file);
    if (result == 0 && fstat(file, &status) == 0)
        record("sync %lu %s", (unsigned long)status.st_ino, path);
    end_act();
    return result;
}

int fsync(int file)
{
    return sync_by(really_fsync, file);
}

int fdatasync(int file)
{
    return sync_by(really_fdatasync, file);
}

int close(int file)
{
    if (file >= 0 && file < FILES)
        names[file][0] = circuits[file][0] = '\0';
    return really_close(file);
}

static int name_by(of_paths *really, const char *act, const char *from, const char *to)
{
    const unsigned long number = number_of(from);
    int result;

    if (begin_act(act, to) == FAILS)
        return -1;
    result = really(from, to);
    if (result == 0 && !is_light(to))
        record("%s %lu %s %s", act, number, from, to);
    end_act();
    return result;
}

int rename(const char *from, const char *to)
{
    return name_by(really_rename, "rename", from, to);
}

int link(const char *from, const char *to)
{
    return name_by(really_link, "link", from, to);
}

/* What is not there is not removed: no act. */
int unlink(const char *path)
{
    const unsigned long number = number_of(path);
    int result;

    if (number != 0 && begin_act("unlink", path) == FAILS)
        return -1;
    result = really_unlink(path);
    if (result == 0 && !is_light(path))
        record("unlink %lu %s", number, path);
    end_act();
    return result;
}

int mkdir(const char *path, mode_t mode)
{
    int result;

    if (begin_act("mkdir", path) == FAILS)
        return -1;
    result = really_mkdir(path, mode);
    if (result == 0)
        record("mkdir %lu %s", number_of(path), path);
    end_act();
    return result;
}
