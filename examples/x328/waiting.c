#include "waiting.h"

#include <dirent.h>
#include <errno.h>
#include <stdio.h>
#include <string.h>
#include <unistd.h>

#include "common.h"
#include "said.h"
#include "store.h"

static int is_file(const char *path)
{
    struct stat status;

    return lstat(path, &status) == 0 && S_ISREG(status.st_mode); /* a link is not taken */
}

/* Names that begin with a dot are of files that are not there yet. */
int waiting_first(const char *station, const char *folder, waiting_file *file)
{
    char folder_path[PATH_LENGTH], path[PATH_LENGTH];
    struct dirent *entry;
    DIR *entries;
    int found = 0;

    path_of(folder_path, station, folder);
    entries = opendir(folder_path);
    if (entries == NULL)
        fail("cannot read %s: %s", folder_path, strerror(errno));
    while ((entry = readdir(entries)) != NULL) {
        if (entry->d_name[0] == '.' || strlen(entry->d_name) >= WAITING_NAME)
            continue;
        if (found && strcmp(entry->d_name, file->name) >= 0)
            continue;
        path_of(path, folder_path, entry->d_name);
        if (!is_file(path))
            continue;
        strcpy(file->name, entry->d_name);
        found = 1;
    }
    closedir(entries);
    file->folder = folder;
    return found;
}

static void waiting_path(char *path, const char *station, const waiting_file *file)
{
    char folder_path[PATH_LENGTH];

    path_of(folder_path, station, file->folder);
    path_of(path, folder_path, file->name);
}

/* Looked at before it is read: where another one is put in its stead between the two, that one stays. */
ssize_t waiting_read(const char *station, waiting_file *file, uint8_t *message, size_t size)
{
    char path[PATH_LENGTH];

    waiting_path(path, station, file);
    if (stat(path, &file->seen) == 0)
        return read_or_miss(path, message, size);
    if (errno != ENOENT)
        fail("cannot read %s: %s", path, strerror(errno));
    return -1;
}

/* A second name is no change of the file. */
static int is_seen_file(const char *path, const struct stat *seen)
{
    struct stat status;

    return stat(path, &status) == 0 && status.st_dev == seen->st_dev && status.st_ino == seen->st_ino &&
           status.st_size == seen->st_size && status.st_mtim.tv_sec == seen->st_mtim.tv_sec &&
           status.st_mtim.tv_nsec == seen->st_mtim.tv_nsec;
}

void waiting_remove(const char *station, const waiting_file *file)
{
    char path[PATH_LENGTH], folder_path[PATH_LENGTH];

    waiting_path(path, station, file);
    if (is_seen_file(path, &file->seen) && unlink(path) != 0 && errno != ENOENT)
        fail("cannot remove %s: %s", path, strerror(errno));
    path_of(folder_path, station, file->folder);
    sync_folder(folder_path);
}

/* Gives the file a second name in refused/: N-NAME, and N-NAME.1 and so on where there is another file of that
 * name. A name that gets too long by it loses its last bytes. Returns -1 where the host took the file back. */
static int link_refused(const char *station, const char *path, const waiting_file *file, uint64_t number, char *refused)
{
    char refused_name[WAITING_NAME + 64], copy_text[32] = "";
    size_t kept = strlen(file->name);

    for (int copy = 0, error;;) {
        snprintf(refused_name, sizeof refused_name, "refused/%d-%.*s%s", (int)number, (int)kept, file->name,
                 copy_text);
        path_of(refused, station, refused_name);
        if (link(path, refused) == 0)
            return 0;
        error = errno; /* looking at a file that is gone meanwhile changes it */
        if (error == EEXIST && is_seen_file(refused, &file->seen))
            return 0; /* a crash came before the first name went */
        if (error == ENOENT && is_missing(path))
            return -1;
        if (error == EEXIST)
            snprintf(copy_text, sizeof copy_text, ".%d", ++copy);
        else if (error == ENAMETOOLONG && kept > 0)
            kept--;
        else
            fail("cannot move %s to %s: %s", path, refused, strerror(error));
    }
}

/* The new name survives a power cut before the old one goes. A file that the host put there after this one was
 * read stays. */
void waiting_refuse(const char *station, const waiting_file *file, uint64_t number)
{
    char path[PATH_LENGTH], refused[PATH_LENGTH], refused_folder[PATH_LENGTH];

    waiting_path(path, station, file);
    path_of(refused_folder, station, "refused");
    if (link_refused(station, path, file, number, refused) != 0)
        return;
    if (!is_seen_file(refused, &file->seen)) {
        unlink(refused);
        return;
    }
    sync_file(refused);
    sync_folder(refused_folder);
    waiting_remove(station, file);
    say_refused_file(file->name, number);
}
