/* The books of a pair: the sender's numbers and log against the receiver's number and transactions. */
#ifndef BOOKS_H
#define BOOKS_H

#include <stdio.h>

#include "status.h"

/* Both folders, and what their states said: the sender's before and after the receiver's, since drivers may run
 * meanwhile; and the greatest position of a file, looked up before the receiver's state was read. */
typedef struct {
    const char *sender, *receiver;
    sender_record before, after;
    receiver_record record;
    uint64_t greatest;
} pair;

/* Compares them and says what it found. The reason of a difference goes into the verdict. Returns 1 where they
 * differ. */
int compare_books(FILE *out, const pair *pair, verdict *verdict);

/* Without the states, where one of them cannot be read: what the receiver has of the log. */
void compare_files(FILE *out, const pair *pair, verdict *verdict);

#endif
