/* Preloaded: a disk on which each sync takes SYNC_MILLISECONDS, and each listing of a folder FOLDER_MILLISECONDS. A sync
 * of a file whose name ends as the text in the file HANG_WHILE takes as long as that file is there. With
 * REMOVE_LINKED a file whose name is in the way of a link is removed just after that was found. */
#define _GNU_SOURCE
#include <dirent.h>
#include <dlfcn.h>
#include <errno.h>
#include <limits.h>
#include <stdio.h>
#include <stdlib.h>
#include <string.h>
#include <unistd.h>

static void wait_as(const char *name)
{
    const char *value = getenv(name);

    usleep((useconds_t)(value == NULL ? 0 : strtol(value, NULL, 10)) * 1000);
}

/* The name of an open file; empty where it has none. */
static void name_of(int file, char *name)
{
    char link[64];
    ssize_t length;

    snprintf(link, sizeof link, "/proc/self/fd/%d", file);
    length = readlink(link, name, PATH_MAX - 1);
    name[length < 0 ? 0 : length] = '\0';
}

static int hangs(int file)
{
    const char *path = getenv("HANG_WHILE");
    char name[PATH_MAX], ending[64] = "";
    FILE *text = path == NULL ? NULL : fopen(path, "r");
    size_t length;

    if (text == NULL)
        return 0;
    length = fread(ending, 1, sizeof ending - 1, text);
    fclose(text);
    name_of(file, name);
    return strlen(name) >= length && strcmp(name + strlen(name) - length, ending) == 0;
}

DIR *opendir(const char *path)
{
    wait_as("FOLDER_MILLISECONDS");
    return ((DIR *(*)(const char *))dlsym(RTLD_NEXT, "opendir"))(path);
}

int fsync(int file)
{
    wait_as("SYNC_MILLISECONDS");
    while (hangs(file))
        usleep(5000);
    return ((int (*)(int))dlsym(RTLD_NEXT, "fsync"))(file);
}

int link(const char *old, const char *new)
{
    const int linked = ((int (*)(const char *, const char *))dlsym(RTLD_NEXT, "link"))(old, new);

    if (linked != 0 && errno == EEXIST && getenv("REMOVE_LINKED") != NULL) {
        unlink(new);
        errno = EEXIST;
    }
    return linked;
}
