/* The settings of a station and of its line, from the command line. */
#ifndef SETTINGS_H
#define SETTINGS_H

#include <stddef.h>
#include <stdint.h>

#include "parity.h"

typedef struct {
    const char *path;                    /* of the terminal line */
    int primary;                         /* whose bid goes first where both bid */
    long timer_a, timer_b, timer_d;      /* milliseconds, as the others */
    long retry;                          /* before a new bid, after NAK and after an opening */
    long recovery;                       /* before a new bid, when all bids were in vain */
    long silence;                        /* of the line, before this station begins to bid */
    uint64_t bids;                       /* how often a bid is made again: 000's M */
    uint64_t block_size, message_limit;
    uint64_t speed;                      /* bits a second; 0: as the device has it */
    enum parity parity;
    const char *prefix;                  /* before each ACK, NAK and RINT of this station */
    int enquiry;                         /* on Timer A first ENQ, and then the block */
} settings;

/* Reads PATH, primary or secondary, and the options. Returns 0, or -1 where they are not what the usage says. */
int settings_read(settings *settings, int count, char **words);

/* The settings in words, for the operator. */
enum { SETTINGS_TEXT = 512 };
void settings_text(const settings *settings, char *text, size_t size);

#endif
