#include "received.h"

#include <errno.h>
#include <stdio.h>
#include <string.h>
#include <unistd.h>

#include "common.h"
#include "durable.h"

enum { NAME_LENGTH = 32 };

void received_begin(received *received, const char *folder)
{
    received->station = folder;
    path_of(received->folder, folder, "received");
    if (greatest_number(received->folder, &received->last) != 0)
        fail("cannot read %s: %s", received->folder, strerror(errno));
    sync_folder(received->folder);
}

/* A file that is there already is not written over: somebody put it there, or its folder could not be synced. */
static uint64_t free_number(const received *received, char *name)
{
    char path[PATH_LENGTH];
    uint64_t number = received->last;

    do {
        snprintf(name, NAME_LENGTH, "%015llu.hl7", (unsigned long long)++number);
        path_of(path, received->folder, name);
    } while (access(path, F_OK) == 0);
    return number;
}

int received_store(received *received, const uint8_t *message, size_t length)
{
    char name[NAME_LENGTH];
    uint64_t number;

    require_same_folder(received->station);
    number = free_number(received, name);
    if (write_durably(received->folder, name, message, length) != 0)
        return -1;
    received->last = number;
    return 0;
}
