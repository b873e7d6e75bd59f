#include "spool.h"

#include <dirent.h>
#include <errno.h>
#include <stdio.h>
#include <string.h>
#include <sys/stat.h>
#include <unistd.h>

#include "common.h"
#include "said.h"
#include "store.h"

static int is_file(const char *path)
{
    struct stat status;

    return lstat(path, &status) == 0 && S_ISREG(status.st_mode); /* a link is not taken */
}

/* Names that begin with a dot are of files that are not there yet. */
int spool_first(const char *folder, spool_file *file)
{
    char spool[PATH_LENGTH], path[PATH_LENGTH];
    struct dirent *entry;
    DIR *entries;
    int found = 0;

    path_of(spool, folder, "spool");
    entries = opendir(spool);
    if (entries == NULL)
        fail("cannot read %s: %s", spool, strerror(errno));
    while ((entry = readdir(entries)) != NULL) {
        if (entry->d_name[0] == '.' || strlen(entry->d_name) >= SPOOL_NAME)
            continue;
        if (found && strcmp(entry->d_name, file->name) >= 0)
            continue;
        path_of(path, spool, entry->d_name);
        if (!is_file(path))
            continue;
        strcpy(file->name, entry->d_name);
        found = 1;
    }
    closedir(entries);
    return found;
}

static void spool_path(char *path, const char *folder, const char *name)
{
    char spool[PATH_LENGTH];

    path_of(spool, folder, "spool");
    path_of(path, spool, name);
}

/* Looked at before it is read: where another one is put in its place between the two, that one stays. */
ssize_t spool_read(const char *folder, spool_file *file, uint8_t *message, size_t size)
{
    char path[PATH_LENGTH];

    spool_path(path, folder, file->name);
    if (stat(path, &file->seen) == 0)
        return read_or_miss(path, message, size);
    if (errno != ENOENT)
        fail("cannot read %s: %s", path, strerror(errno));
    return -1;
}

/* A second name is no change of the file. */
static int is_seen_file(const char *path, const struct stat *seen)
{
    struct stat status;

    return stat(path, &status) == 0 && status.st_dev == seen->st_dev && status.st_ino == seen->st_ino &&
           status.st_size == seen->st_size && status.st_mtim.tv_sec == seen->st_mtim.tv_sec &&
           status.st_mtim.tv_nsec == seen->st_mtim.tv_nsec;
}

void spool_remove(const char *folder, const spool_file *file)
{
    char path[PATH_LENGTH];

    spool_path(path, folder, file->name);
    if (is_seen_file(path, &file->seen) && unlink(path) != 0 && errno != ENOENT)
        fail("cannot remove %s: %s", path, strerror(errno));
}

/* Gives the file a second name in refused/: N-NAME, and N-NAME.1 and so on where there is another file of that
 * name. A name that gets too long by it loses its last bytes. Returns -1 where the host took the file back. */
static int link_refused(const char *folder, const char *path, const spool_file *file, uint64_t number, char *refused)
{
    char refused_name[SPOOL_NAME + 64], copy_text[32] = "";
    size_t kept = strlen(file->name);

    for (int copy = 0, error;;) {
        snprintf(refused_name, sizeof refused_name, "refused/%d-%.*s%s", (int)number, (int)kept, file->name,
                 copy_text);
        path_of(refused, folder, refused_name);
        if (link(path, refused) == 0)
            return 0;
        error = errno; /* looking at a file that is gone meanwhile changes it */
        if (error == EEXIST && is_seen_file(refused, &file->seen))
            return 0; /* a crash came before the spool's name went */
        if (error == ENOENT && is_missing(path))
            return -1;
        if (error == EEXIST)
            snprintf(copy_text, sizeof copy_text, ".%d", ++copy);
        else if (error == ENAMETOOLONG && kept > 0)
            kept--;
        else
            fail("cannot move %s to %s: %s", path, refused, strerror(error));
    }
}

/* The new name survives a power cut before the old one goes. A file that the host put there after this one was
 * read stays in the spool. */
void spool_refuse(const char *folder, const spool_file *file, uint64_t number)
{
    char path[PATH_LENGTH], refused[PATH_LENGTH], refused_folder[PATH_LENGTH];

    spool_path(path, folder, file->name);
    path_of(refused_folder, folder, "refused");
    if (link_refused(folder, path, file, number, refused) != 0)
        return;
    if (!is_seen_file(refused, &file->seen)) {
        unlink(refused);
        return;
    }
    sync_file(refused);
    sync_folder(refused_folder);
    spool_remove(folder, file);
    say_refused_file(file->name, number);
}
