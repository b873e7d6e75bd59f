#include "outbox.h"

#include <errno.h>
#include <stdio.h>
#include <stdlib.h>
#include <string.h>
#include <sys/stat.h>

#include "common.h"
#include "durable.h"
#include "frame.h"
#include "giamuvich.h"
#include "said.h"
#include "store.h"

enum { NAME_KEPT = 200 /* bytes of a name, so that there are some left for a number */ };

#define URGENT "stat"
#define ORDINARY "spool"

/* What is found may be no more than visible: a message that left the spool, and comes back at a power cut, is sent
 * again. */
void outbox_begin(outbox *outbox, const char *folder, const settings *settings)
{
    static const char *const names[] = {URGENT, ORDINARY, "sent", "refused"};
    char path[PATH_LENGTH];

    for (int i = 0; i < 4; i++) {
        path_of(path, folder, names[i]);
        sync_folder(path);
    }
    outbox->folder = folder;
    outbox->settings = settings;
    outbox->message = allocate(settings->message_limit + 1);
    outbox->length = 0;
}

void outbox_end(outbox *outbox)
{
    free(outbox->message);
}

int outbox_has_urgent(const outbox *outbox)
{
    waiting_file first;

    return waiting_first(outbox->folder, URGENT, &first);
}

int outbox_has_messages(const outbox *outbox)
{
    waiting_file first;

    return outbox_has_urgent(outbox) || waiting_first(outbox->folder, ORDINARY, &first);
}

static int has_eighth_bit(const uint8_t *bytes, size_t length)
{
    for (size_t i = 0; i < length; i++)
        if (bytes[i] > 0x7F)
            return 1;
    return 0;
}

/* The number of the library's table by which the message is refused; 0 for none. A control character in a text would
 * end its block, and after damage begin a unit that nobody sent. */
static uint64_t refusal_of(const outbox *outbox)
{
    if (outbox->length > outbox->settings->message_limit)
        return GMV_LONG;
    if (first_unframable(outbox->message, outbox->length) != outbox->length ||
        (outbox->settings->parity == PARITY_SOFTWARE && has_eighth_bit(outbox->message, outbox->length)))
        return GMV_BYTE;
    return GMV_OK;
}

static int take_first(outbox *outbox, const char *folder)
{
    require_same_folder(outbox->folder);
    while (waiting_first(outbox->folder, folder, &outbox->file)) {
        const ssize_t length =
            waiting_read(outbox->folder, &outbox->file, outbox->message, outbox->settings->message_limit + 1);

        if (length < 0)
            return 0; /* the host took it back */
        outbox->length = (size_t)length;
        if (refusal_of(outbox) == GMV_OK)
            return 1;
        waiting_refuse(outbox->folder, &outbox->file, refusal_of(outbox));
    }
    return 0;
}

int outbox_take_urgent(outbox *outbox)
{
    outbox->urgent = take_first(outbox, URGENT);
    return outbox->urgent;
}

int outbox_take(outbox *outbox)
{
    return outbox_take_urgent(outbox) || take_first(outbox, ORDINARY);
}

/* Where that cannot be told, no other name can be tried for ever. */
static int is_free(const char *path)
{
    struct stat status;

    if (stat(path, &status) == 0)
        return 0;
    if (errno != ENOENT)
        fail("cannot read %s: %s", path, strerror(errno));
    return 1;
}

/* A name may come again: nothing in sent/ is written over. */
static void free_name(char *name, size_t size, const char *folder, const char *wanted)
{
    char path[PATH_LENGTH];

    snprintf(name, size, "%.*s", (int)NAME_KEPT, wanted);
    path_of(path, folder, name);
    for (unsigned long copy = 1; !is_free(path); copy++) {
        snprintf(name, size, "%.*s.%lu", (int)NAME_KEPT, wanted, copy);
        path_of(path, folder, name);
    }
}

/* A crash between the two leaves it in both: it is sent again. A file that the host put there meanwhile stays. */
void outbox_done(const outbox *outbox)
{
    char sent[PATH_LENGTH], name[WAITING_NAME];

    require_same_folder(outbox->folder);
    path_of(sent, outbox->folder, "sent");
    free_name(name, sizeof name, sent, outbox->file.name);
    if (write_durably(sent, name, outbox->message, outbox->length) != 0)
        fail("cannot write %s/%s: %s", sent, name, strerror(errno));
    waiting_remove(outbox->folder, &outbox->file);
}
