/* A message on the disk, stored for good. */
#ifndef DURABLE_H
#define DURABLE_H

#include <stddef.h>

/* Stores FOLDER/NAME, a name that is free. It is written as FOLDER/.new, which is no message's name. Returns 0 when it
 * survives a power cut; -1 with errno where it cannot be said to. */
int write_durably(const char *folder, const char *name, const void *bytes, size_t length);

#endif
