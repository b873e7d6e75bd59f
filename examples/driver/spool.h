/* The spool: the host puts messages into it, and they are submitted in the order of their names. */
#ifndef SPOOL_H
#define SPOOL_H

#include <stddef.h>
#include <stdint.h>
#include <sys/stat.h>
#include <sys/types.h>

enum { SPOOL_NAME = 256 };

/* A file of the spool, as it was when it was looked at. The host may put another one in its place meanwhile. */
typedef struct {
    char name[SPOOL_NAME];
    struct stat seen;
} spool_file;

/* The first file of the spool by name. Returns 1, or 0 where there is none. */
int spool_first(const char *folder, spool_file *file);

/* Reads a file of the spool, at most size bytes of it. Returns its length, or -1 where the host took
 * it back. */
ssize_t spool_read(const char *folder, spool_file *file, uint8_t *message, size_t size);

/* Takes the file out of the spool, if it is still the one that was read. */
void spool_remove(const char *folder, const spool_file *file);

/* Moves a refused file out of the way, with the number that the library gave in its name. */
void spool_refuse(const char *folder, const spool_file *file, uint64_t number);

#endif
