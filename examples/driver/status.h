/* An end's state in plain words: a verdict with its reasons in the first line, then one fact to a line. */
#ifndef STATUS_H
#define STATUS_H

#include <stddef.h>
#include <stdio.h>

#include "records.h"
#include "store.h"

enum { COUNTED = 48, REASONS = 2048 };

/* "1 time", "2 times". */
const char *counted(char *words, uint64_t count, const char *one, const char *more);

/* "transaction 17"; for 0 "-1": no other request without one has anything to be stored. */
const char *request_words(char *words, uint64_t transaction);
const char *or_nothing(const char *field, const char *otherwise);

/* Whether a driver runs on the folder. One that starts has not shown yet what it holds. */
enum presence { DRIVER_STOPPED, DRIVER_RUNS, DRIVER_STARTS, DRIVER_UNKNOWN };

/* As monitoring programs have it, the exit status too. */
enum severity { GOOD = 0, WARNING = 1, CRITICAL = 2, UNKNOWN = 3 };

typedef struct {
    enum severity severity;
    char reasons[REASONS]; /* of every severity, joined */
} verdict;

void add_reason(verdict *verdict, enum severity severity, const char *format, ...)
    __attribute__((format(printf, 3, 4)));

/* The first line. */
void say_verdict(FILE *out, const verdict *verdict);

/* What a sender has not delivered: in the log over the mark, in spool/ and in refused/. */
typedef struct {
    uint64_t waiting;
    folder_summary spool, refused;
    uint64_t age; /* seconds since the oldest of them was written; 0 where there is none */
} undelivered;

/* What is known of a sender's folder, and of a receiver's. What only a running driver shows is not looked at
 * where none runs. */
typedef struct {
    enum presence presence;
    uint64_t starting; /* seconds since a driver that starts took the folder */
    sender_record record;
    sender_counts counts;
    running_details running;
    uint64_t report[GMV_ACT_WORDS];
    undelivered undelivered;
    const char *lacks; /* a folder of its that is missing; else NULL */
} sender_status;

typedef struct {
    enum presence presence;
    uint64_t starting;
    receiver_record record;
    receiver_counts counts;
    running_details running;
    uint64_t greatest; /* the greatest position of a file of transactions/ */
    int in_state;      /* the state has what the open decision says: it is stored, and not reported yet */
    const char *lacks;
} receiver_status;

void say_sender(FILE *out, const sender_status *status);
void judge_sender(verdict *verdict, const sender_status *status);
void say_receiver(FILE *out, const receiver_status *status);
void judge_receiver(verdict *verdict, const receiver_status *status);

#endif
