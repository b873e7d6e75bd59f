/* The states of both ends as text files: what is persisted (FOLDER/state) and, for the read-out, what
 * the running driver holds (FOLDER/live). */
#ifndef RECORDS_H
#define RECORDS_H

#include "giamuvich.h"

enum { FREEZE_TEXT = 81, RUNNING_TEXT = 256, REASON_TEXT = 81 };

/* What a reader says where there is no file, where it may not read it, and where it is not what a driver writes. */
#define RECORD_MISSING "is missing"
#define RECORD_UNREADABLE "cannot be read"
#define RECORD_DAMAGED "is damaged"

/* What a frozen sender waited on, and the answer that it froze on (MSA-1, MSA-2 and MSA-4 as they
 * came, at most 80 bytes of each). Empty where it is not frozen. */
typedef struct {
    char waited[FREEZE_TEXT], code[FREEZE_TEXT], control_id[FREEZE_TEXT], expected[FREEZE_TEXT];
} freeze_details;

typedef struct {
    uint64_t words[GMV_SENDER_WORDS]; /* read from what is persisted, the last two are 0 */
    freeze_details freeze;
    uint64_t unchecked; /* 1: read from a state of the first form, which has no check */
} sender_record;

typedef struct {
    uint64_t words[GMV_RECEIVER_WORDS]; /* read from what is persisted, all but the first are 0 */
    uint64_t stored;        /* how many transactions: FOLDER/transactions/1 to this */
    uint64_t cleared;       /* the expected number that the last -1 took away, 0: none did */
    uint64_t cleared_after; /* how many transactions were stored then */
    uint64_t unchecked;
} receiver_record;

/* What a running driver shows of itself. Times are those of now(). */
typedef struct {
    uint64_t process, turned, circuit_open /* 0 or 1 */, since /* when that became so */;
    uint64_t hung_up, hung_up_at; /* circuits one after the other that the peer soon ended, and when */
    uint64_t called, called_at;   /* circuits that a new caller ended lately, and when */
    char settings[RUNNING_TEXT];
    char peer[RUNNING_TEXT]; /* the other end of the circuit, or why there is no circuit */
} running_details;

/* What the sender counts since it was started; the second row, since a transaction was delivered or nothing
 * waited. */
typedef struct {
    uint64_t circuits, given_up;
    uint64_t given_up_since, refused_since, last_refused, dropped_since;
    uint64_t errors, last_error; /* answered AE: how many, and the last one's number */
} sender_counts;

/* What the receiver counts since it was started. */
typedef struct {
    uint64_t circuits, blocks, refused, last_refused;
    uint64_t rejected;       /* answered AR */
    uint64_t refused_since, rejected_since; /* since a transaction, or a resend of the last one, came */
    uint64_t wrong_at;       /* when one of these was last */
    uint64_t cleared;        /* expected numbers that -1 took away */
    uint64_t unstored, unstored_since; /* decisions reported failed; those since one was stored */
    uint64_t unstored_at;    /* when the last one was */
    char unstored_reason[REASON_TEXT];
} receiver_counts;

/* Each reader returns NULL, or what is wrong in words. It accepts what the writer writes and, of a state,
 * the first form; and of the words only those that the library takes for a state. */
const char *read_sender(const char *folder, sender_record *record);
const char *read_sender_live(const char *folder, sender_record *record, uint64_t *report,
                             sender_counts *counts, running_details *running);
const char *read_receiver(const char *folder, receiver_record *record);
const char *read_receiver_live(const char *folder, receiver_record *record, receiver_counts *counts,
                               running_details *running);

void store_sender(const char *folder, const sender_record *record);
void show_sender(const char *folder, const sender_record *record, const uint64_t *report,
                 const sender_counts *counts, const running_details *running);

/* Returns 0 when it is stored; or -1, with errno, where the disk has no room and the state is the one before. */
int store_receiver(const char *folder, const receiver_record *record);
void show_receiver(const char *folder, const receiver_record *record, const receiver_counts *counts,
                   const running_details *running);

/* From now on a state of the first form is refused in this folder: the driver has written one with a check. */
void require_checks(const char *folder);

#endif
