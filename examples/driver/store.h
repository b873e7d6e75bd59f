/* Files that survive. A file is written under a new name, synced and renamed into the old one's name,
 * and the folder is synced: after a crash there is the old content or the new one, nothing between. */
#ifndef STORE_H
#define STORE_H

#include <stddef.h>
#include <stdint.h>
#include <sys/types.h>
#include <time.h>

enum { PATH_LENGTH = 4096 };

/* FOLDER/NAME. Ends the program where it is too long. */
void path_of(char *path, const char *folder, const char *name);

/* Makes a folder, which may be there already. */
void make_folder(const char *path);
void sync_folder(const char *path);
void sync_file(const char *path);

/* Returns 0 when the file survives a crash; or -1, with errno, where the disk has no room: then nothing was stored, and
 * nothing will be. Ends the program where the disk is at fault otherwise, and where it cannot be told what it did: a
 * rename of what is there already that failed, a sync that failed. */
int store_if_space(const char *folder, const char *name, const void *bytes, size_t length);

/* The same, where the program ends without room too. */
void store_durably(const char *folder, const char *name, const void *bytes, size_t length);

/* The same, and the file counts as written at that time: it is as old as the one that it was copied from. */
void store_as_of(const char *folder, const char *name, const void *bytes, size_t length,
                 const struct timespec *written);

/* The same without syncing, for what need not survive. Without room the file is written over, as far as the disk lets: who
 * reads it may find it half written. */
void store_lightly(const char *folder, const char *name, const void *bytes, size_t length);

/* Reads the first bytes of a file, at most size. Returns how many, or -1 with errno. */
ssize_t read_file(const char *path, void *buffer, size_t size);

/* The same, where the file may be missing: then it returns -1. Ends the program where it cannot be read. */
ssize_t read_or_miss(const char *path, void *buffer, size_t size);

/* The files of a folder, without those whose names begin with a dot: how many have bytes, how many are empty,
 * and when the oldest one with bytes was written. */
typedef struct {
    uint64_t files, empty;
    time_t oldest;
} folder_summary;

/* A folder that is missing has no files. Returns 0, or -1 where it cannot be told. */
int summarize_folder(const char *path, folder_summary *summary);

/* Acts on the number of each file NUMBER.hl7 of the folder. Returns 0, or -1 where it cannot be read. */
int for_each_number(const char *path, void (*act)(void *, uint64_t), void *with);

/* The greatest of these numbers; 0 where there is none. */
int greatest_number(const char *path, uint64_t *greatest);

/* Ends the program where the folder has such files: an end that is made begins with none. */
void require_no_numbers(const char *path);

/* Whether there is nothing of that name. */
int is_missing(const char *path);

/* One driver at a time runs on a folder. The lock goes with the process, however that ends. What an
 * earlier driver showed is removed with it. Returns 0, or -1 where another process has it. */
int lock_folder(const char *folder);

/* Ends the program where the folder's name has come to stand for another one: an operator put it aside while the
 * driver ran, and made a new one in its place. */
void require_same_folder(const char *folder);

/* Whether a process has the lock: 1, 0, or -1 where it cannot be told. */
int folder_is_locked(const char *folder);

/* When the lock was taken last; the present where that cannot be told. */
time_t lock_time(const char *folder);

#endif
