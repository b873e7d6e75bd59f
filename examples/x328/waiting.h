/* Messages of the host that wait in a folder of the station, stat/ or spool/: it writes each under another name and
 * renames it into the folder. As examples/driver/spool.c, but for two folders. */
#ifndef WAITING_H
#define WAITING_H

#include <stddef.h>
#include <stdint.h>
#include <sys/stat.h>
#include <sys/types.h>

enum { WAITING_NAME = 256 };

/* A file as it was when it was looked at. The host may put another one under its name meanwhile. */
typedef struct {
    const char *folder; /* of the station: stat or spool */
    char name[WAITING_NAME];
    struct stat seen;
} waiting_file;

/* The first file of the folder by name. Returns 1, or 0 where there is none. */
int waiting_first(const char *station, const char *folder, waiting_file *file);

/* Reads it, at most size bytes. Returns its length, or -1 where the host took it back. */
ssize_t waiting_read(const char *station, waiting_file *file, uint8_t *message, size_t size);

/* Takes it out of its folder for good, if it is still the one that was read. */
void waiting_remove(const char *station, const waiting_file *file);

/* Moves it to refused/, with the number by which it is refused in its name. */
void waiting_refuse(const char *station, const waiting_file *file, uint64_t number);

#endif
