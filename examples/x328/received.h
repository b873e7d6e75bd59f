/* Messages that came, in the order in which they were completed: received/NUMBER.hl7. */
#ifndef RECEIVED_H
#define RECEIVED_H

#include <stddef.h>
#include <stdint.h>

#include "store.h"

typedef struct {
    const char *station; /* the station's folder */
    char folder[PATH_LENGTH];
    uint64_t last; /* the greatest number that was ever there, as far as can be seen */
} received;

/* What is found may be no more than visible, where a crash came before its folder was synced. It is made durable before
 * anything rests on it. */
void received_begin(received *received, const char *folder);

/* Returns 0 when the message survives a power cut; -1 with errno where it cannot be said to. Ends the program where the
 * station's folder is another one now. */
int received_store(received *received, const uint8_t *message, size_t length);

#endif
