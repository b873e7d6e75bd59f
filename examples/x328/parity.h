/* Odd parity. 000 has it (C.3.6.3), and it is all that guards a reply: replies have no check characters.
 *
 * Where the device has parity, the terminal driver puts FF 00 before a byte whose parity was wrong, and FF before a byte
 * FF (termios, PARMRK). A line without it may carry seven bits and the parity in the eighth; that is made here. */
#ifndef PARITY_H
#define PARITY_H

#include <stddef.h>
#include <stdint.h>

enum parity { PARITY_NONE, PARITY_DEVICE, PARITY_SOFTWARE };

typedef struct {
    enum parity parity;
    int warned; /* how many bytes of FF 00 have come */
} parity_reader;

void parity_reset(parity_reader *reader);

/* Takes a byte as it was read. Returns 1 with the byte of the line and whether its parity was wrong; 0 where it is the
 * beginning of a sequence. */
int parity_take(parity_reader *reader, uint8_t read, uint8_t *byte, int *damaged);

/* The bytes as they are written, in the same memory. */
void parity_add(enum parity parity, uint8_t *bytes, size_t length);

#endif
