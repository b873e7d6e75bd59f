/* Units as they stand on the line (000, C.3.1.4 to C.3.1.7). */
#ifndef FRAME_H
#define FRAME_H

#include <stddef.h>
#include <stdint.h>

#include "giamuvich.h"

/* The control characters. ETX and ETB are the library's GMV_ETX and GMV_ETB. */
enum { SOH = 0x01, STX = 0x02, EOT = 0x04, ENQ = 0x05, CR = 0x0D, DLE = 0x10, NAK = 0x15 };

/* Behind DLE, in place of the digit of an ACK. */
enum { INTERRUPT = 0x3C };

enum {
    LENGTH_DIGITS = 5,
    HEADER_LENGTH = 1 + LENGTH_DIGITS, /* block number and text length */
    MOST_TEXT = 99999,                 /* what five digits can say */
    MOST_BLOCK = 1 + HEADER_LENGTH + MOST_TEXT + 4,
    MOST_PREFIX = 15,
    MOST_REPLY = MOST_PREFIX + 3
};

/* Exclusive-or, begun with 0. */
uint8_t checksum(uint8_t before, const uint8_t *bytes, size_t length);

/* Two capital digits, as 000's example has them. */
void hexadecimal(uint8_t number, uint8_t *digits);

/* A block: at most MOST_BLOCK bytes are written. Returns how many. */
size_t frame_block(uint8_t *frame, unsigned number, unsigned ending, const uint8_t *text, size_t length);

/* ENQ, EOT or NAK, an ACK with its number, and RINT. The prefix goes before ACK, NAK and RINT only. Each returns how many
 * bytes. */
size_t frame_enq(uint8_t *frame);
size_t frame_eot(uint8_t *frame);
size_t frame_nak(uint8_t *frame, const char *prefix);
size_t frame_ack(uint8_t *frame, const char *prefix, unsigned number);
size_t frame_rint(uint8_t *frame, const char *prefix);

/* A bid: EOT, by which a slave that did not hear an earlier one closes, and ENQ. To a slave in an opening ENQ alone is an
 * enquiry. */
size_t frame_bid(uint8_t *frame);

/* Where a text first has a byte that would be taken for a unit's beginning or end; its length where it has none. */
size_t first_unframable(const uint8_t *text, size_t length);

#endif
