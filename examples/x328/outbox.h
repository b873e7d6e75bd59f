/* Messages to send: the host puts them into spool/, and they are sent in the order of their names. Urgent ones, in stat/,
 * go first. One that was reported done goes to sent/. */
#ifndef OUTBOX_H
#define OUTBOX_H

#include <stddef.h>
#include <stdint.h>

#include "settings.h"
#include "waiting.h"

typedef struct {
    const char *folder;
    const settings *settings;
    waiting_file file; /* the message that was taken last */
    int urgent;        /* it is of stat/ */
    uint8_t *message;  /* as it was read then: a resend has the same bytes, whatever the host does meanwhile */
    size_t length;
} outbox;

void outbox_begin(outbox *outbox, const char *folder, const settings *settings);
void outbox_end(outbox *outbox);

/* Whether there is something to send; and whether some of it is urgent. */
int outbox_has_messages(const outbox *outbox);
int outbox_has_urgent(const outbox *outbox);

/* Takes the first message that can be sent, or the first urgent one. Those before it that cannot go to refused/. Returns 0
 * where there is none. */
int outbox_take(outbox *outbox);
int outbox_take_urgent(outbox *outbox);

/* The message that was taken is done: it is never sent again. */
void outbox_done(const outbox *outbox);

#endif
