#include "durable.h"

#include <errno.h>
#include <fcntl.h>
#include <stdint.h>
#include <stdio.h>
#include <unistd.h>

#include "store.h"

static int write_synced(const char *path, const uint8_t *bytes, size_t length)
{
    const int file = open(path, O_WRONLY | O_CREAT | O_EXCL, 0666);
    size_t written = 0;
    int problem = file < 0;

    while (!problem && written < length) {
        const ssize_t count = write(file, bytes + written, length - written);

        if (count > 0)
            written += (size_t)count;
        else
            problem = count == 0 || errno != EINTR;
    }
    if (!problem && fsync(file) != 0) /* before the name: else the name could survive without the bytes */
        problem = 1;
    if (file >= 0 && close(file) != 0)
        problem = 1;
    return problem ? -1 : 0;
}

static int sync_names(const char *folder)
{
    const int names = open(folder, O_RDONLY);
    int problem;

    if (names < 0)
        return -1;
    problem = fsync(names);
    return close(names) != 0 || problem != 0 ? -1 : 0;
}

int write_durably(const char *folder, const char *name, const void *bytes, size_t length)
{
    char path[PATH_LENGTH], new_path[PATH_LENGTH];

    path_of(path, folder, name);
    path_of(new_path, folder, ".new");
    if ((unlink(new_path) != 0 && errno != ENOENT) || write_synced(new_path, bytes, length) != 0 ||
        rename(new_path, path) != 0 || sync_names(folder) != 0)
        return -1;
    return 0;
}
