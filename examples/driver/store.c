#include "store.h"

#include <dirent.h>
#include <errno.h>
#include <fcntl.h>
#include <stdint.h>
#include <stdio.h>
#include <stdlib.h>
#include <string.h>
#include <sys/stat.h>
#include <unistd.h>

#include "common.h"

void path_of(char *path, const char *folder, const char *name)
{
    int length = snprintf(path, PATH_LENGTH, "%s/%s", folder, name);

    if (length < 0 || length >= PATH_LENGTH)
        fail("the path %s/%s is too long", folder, name);
}

void make_folder(const char *path)
{
    if (mkdir(path, 0777) != 0 && errno != EEXIST)
        fail("cannot make the folder %s: %s", path, strerror(errno));
}

/* Returns 0 where what it names survives a power cut. */
static int sync_path(const char *path)
{
    int file = open(path, O_RDONLY), synced;

    if (file < 0)
        return -1;
    synced = fsync(file);
    close(file);
    return synced;
}

void sync_folder(const char *path)
{
    if (sync_path(path) != 0)
        fail("cannot sync the folder %s: %s", path, strerror(errno));
}

void sync_file(const char *path)
{
    if (sync_path(path) != 0)
        fail("cannot sync %s: %s", path, strerror(errno));
}

static int write_all(int file, const uint8_t *bytes, size_t length)
{
    size_t written = 0;

    while (written < length) {
        ssize_t count = write(file, bytes + written, length - written);

        if (count < 0 && errno != EINTR)
            return -1;
        if (count > 0)
            written += (size_t)count;
    }
    return 0;
}

/* Returns 0 where the file counts as written then. */
static int set_time(int file, const struct timespec *written)
{
    const struct timespec times[2] = {*written, *written};

    return futimens(file, times);
}

/* Gives a new file its bytes. Returns NULL, or what could not be done. */
static const char *fill(int file, const void *bytes, size_t length, const struct timespec *written, int sync)
{
    if (file < 0 || write_all(file, bytes, length) != 0 || (written != NULL && set_time(file, written) != 0))
        return "write";
    if (sync && fsync(file) != 0) /* before the name: else the name could survive without the bytes */
        return "sync";
    return NULL;
}

/* Only where there is no room it is known that nothing was done, and that room is all it lacks: what there is of the
 * file holds room, and goes. Returns -1 with errno. Any other reason ends the program. */
static int lacks_space(const char *new_path, const char *failed)
{
    const int error = errno;

    if (error != ENOSPC && error != EDQUOT)
        fail("cannot %s %s: %s", failed, new_path, strerror(error));
    unlink(new_path);
    errno = error;
    return -1;
}

static int write_new(const char *new_path, const void *bytes, size_t length, const struct timespec *written, int sync)
{
    const char *failed;
    int file, error;

    /* a power cut may leave both names to one file: what is there is not written over */
    if (unlink(new_path) != 0 && errno != ENOENT)
        return lacks_space(new_path, "remove");
    file = open(new_path, O_WRONLY | O_CREAT | O_EXCL, 0666);
    failed = fill(file, bytes, length, written, sync);
    error = errno;
    if (file >= 0 && close(file) != 0 && failed == NULL) {
        failed = "close";
        error = errno;
    }
    errno = error;
    return failed == NULL ? 0 : lacks_space(new_path, failed);
}

/* A rename that replaces a file and fails may have been done. A new name needs room in its folder, and is there or not. */
static int rename_new(const char *new_path, const char *path)
{
    int error;

    if (rename(new_path, path) == 0)
        return 0;
    error = errno;
    if (!is_missing(path))
        fail("cannot rename %s: %s", new_path, strerror(error));
    errno = error;
    return lacks_space(new_path, "rename");
}

/* A file that counts as written now has no time of its own: NULL. Returns 0, or -1 with errno where there is no room: then
 * the name stands for what it stood for before. */
static int store(const char *folder, const char *name, const void *bytes, size_t length,
                 const struct timespec *written, int sync)
{
    char path[PATH_LENGTH], new_path[PATH_LENGTH + 4];

    path_of(path, folder, name);
    snprintf(new_path, sizeof new_path, "%s.new", path);
    if (write_new(new_path, bytes, length, written, sync) != 0 || rename_new(new_path, path) != 0)
        return -1;
    if (sync)
        sync_folder(folder);
    return 0;
}

int store_if_space(const char *folder, const char *name, const void *bytes, size_t length)
{
    return store(folder, name, bytes, length, NULL, 1);
}

void store_durably(const char *folder, const char *name, const void *bytes, size_t length)
{
    store_as_of(folder, name, bytes, length, NULL);
}

void store_as_of(const char *folder, const char *name, const void *bytes, size_t length,
                 const struct timespec *written)
{
    if (store(folder, name, bytes, length, written, 1) != 0)
        fail("cannot write %s/%s: %s", folder, name, strerror(errno));
}

/* Its block is its own already: writing it over takes no room, but on a disk that copies what is written. There it stays as
 * it is. */
static void write_over(const char *path, const void *bytes, size_t length)
{
    const int file = open(path, O_WRONLY);

    if (file >= 0 && write_all(file, bytes, length) == 0 && ftruncate(file, (off_t)length) != 0)
        fail("cannot write %s: %s", path, strerror(errno));
    if (file >= 0)
        close(file);
}

void store_lightly(const char *folder, const char *name, const void *bytes, size_t length)
{
    char path[PATH_LENGTH];

    path_of(path, folder, name);
    if (store(folder, name, bytes, length, NULL, 0) != 0)
        write_over(path, bytes, length);
}

ssize_t read_file(const char *path, void *buffer, size_t size)
{
    int file = open(path, O_RDONLY | O_NONBLOCK), error; /* a pipe of that name is not waited for */
    struct stat status;
    size_t length = 0;
    ssize_t count = 1;

    if (file < 0)
        return -1;
    if (fstat(file, &status) != 0 || !S_ISREG(status.st_mode)) {
        close(file);
        errno = EINVAL;
        return -1;
    }
    while (length < size && count != 0) {
        count = read(file, (uint8_t *)buffer + length, size - length);
        if (count < 0 && errno != EINTR)
            break;
        if (count > 0)
            length += (size_t)count;
    }
    error = errno;
    close(file);
    errno = error;
    return count < 0 && length < size ? -1 : (ssize_t)length;
}

ssize_t read_or_miss(const char *path, void *buffer, size_t size)
{
    ssize_t length = read_file(path, buffer, size);

    if (length < 0 && errno != ENOENT)
        fail("cannot read %s: %s", path, strerror(errno));
    return length;
}

static void count_file(int folder, const char *name, folder_summary *summary)
{
    struct stat status;

    if (name[0] == '.' || fstatat(folder, name, &status, AT_SYMLINK_NOFOLLOW) != 0 || !S_ISREG(status.st_mode))
        return;
    if (status.st_size == 0) {
        summary->empty++;
        return;
    }
    if (summary->files == 0 || status.st_mtime < summary->oldest)
        summary->oldest = status.st_mtime;
    summary->files++;
}

int summarize_folder(const char *path, folder_summary *summary)
{
    DIR *entries = opendir(path);
    struct dirent *entry;

    memset(summary, 0, sizeof *summary);
    if (entries == NULL)
        return errno == ENOENT ? 0 : -1;
    while ((entry = readdir(entries)) != NULL)
        count_file(dirfd(entries), entry->d_name, summary);
    closedir(entries);
    return 0;
}

int for_each_number(const char *path, void (*act)(void *, uint64_t), void *with)
{
    DIR *entries = opendir(path);
    struct dirent *entry;

    if (entries == NULL)
        return -1;
    while ((entry = readdir(entries)) != NULL) {
        const size_t digits = strspn(entry->d_name, "0123456789");

        if (digits != 0 && strcmp(entry->d_name + digits, ".hl7") == 0)
            act(with, strtoull(entry->d_name, NULL, 10));
    }
    closedir(entries);
    return 0;
}

static void take_greater(void *greatest, uint64_t number)
{
    if (number > *(uint64_t *)greatest)
        *(uint64_t *)greatest = number;
}

int greatest_number(const char *path, uint64_t *greatest)
{
    *greatest = 0;
    return for_each_number(path, take_greater, greatest);
}

void require_no_numbers(const char *path)
{
    uint64_t greatest;

    if (greatest_number(path, &greatest) != 0)
        fail("cannot read %s: %s", path, strerror(errno));
    if (greatest != 0)
        fail("%s has messages, and no state counts them: put the folder aside", path);
}

int is_missing(const char *path)
{
    struct stat status;

    return stat(path, &status) != 0 && errno == ENOENT;
}

static struct flock whole_file(short type)
{
    struct flock lock;

    memset(&lock, 0, sizeof lock);
    lock.l_type = type;
    lock.l_whence = SEEK_SET;
    return lock;
}

/* First of all after locking: else the read-out could take it for what this driver shows. */
static void remove_live(const char *folder)
{
    char path[PATH_LENGTH];

    path_of(path, folder, "live");
    if (unlink(path) != 0 && errno != ENOENT)
        fail("cannot remove %s: %s", path, strerror(errno));
}

static struct stat locked; /* the file on which this process has its lock */

void require_same_folder(const char *folder)
{
    char path[PATH_LENGTH];
    struct stat status;

    path_of(path, folder, "lock");
    if (stat(path, &status) != 0 || status.st_dev != locked.st_dev || status.st_ino != locked.st_ino)
        fail("%s is another folder now: it was moved or made anew while this driver ran", folder);
}

int lock_folder(const char *folder)
{
    char path[PATH_LENGTH];
    struct flock lock = whole_file(F_WRLCK);
    int file;

    path_of(path, folder, "lock");
    file = open(path, O_RDWR | O_CREAT, 0666); /* stays open: closing it would give the lock back */
    if (file < 0 || fstat(file, &locked) != 0)
        fail("cannot open %s: %s", path, strerror(errno));
    if (fcntl(file, F_SETLK, &lock) == 0) {
        if (futimens(file, NULL) != 0) /* since when it starts */
            fail("cannot write %s: %s", path, strerror(errno));
        remove_live(folder);
        return 0;
    }
    if (errno != EACCES && errno != EAGAIN)
        fail("cannot lock %s: %s", path, strerror(errno));
    return -1;
}

time_t lock_time(const char *folder)
{
    char path[PATH_LENGTH];
    struct stat status;

    path_of(path, folder, "lock");
    return stat(path, &status) == 0 ? status.st_mtime : time(NULL);
}

/* Reading is enough to ask: the one who asks need not be the driver's user. */
int folder_is_locked(const char *folder)
{
    char path[PATH_LENGTH];
    struct flock lock = whole_file(F_WRLCK);
    int file, known;

    path_of(path, folder, "lock");
    file = open(path, O_RDONLY | O_NONBLOCK);
    if (file < 0)
        return errno == ENOENT ? 0 : -1;
    known = fcntl(file, F_GETLK, &lock) == 0;
    close(file);
    return known ? lock.l_type != F_UNLCK : -1;
}
