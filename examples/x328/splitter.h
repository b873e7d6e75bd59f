/* Takes the bytes of a line apart into units, and checks each (000, C.3.3.2).
 *
 * A block lasts from STX to the first ETB, ETX or ENQ, whatever stands between, the control characters of a text too.
 * Only then its text length is compared. After ETB or ETX come two check characters and TERM, after ENQ TERM. A reply
 * is DLE and a digit, DLE and <, or NAK; with EOT and ENQ, TERM follows each. Whatever byte stands where a check
 * character, a digit or TERM belongs, belongs to that unit: it is never read again. So damage of one byte makes of a
 * block one that is refused, or none, and never another one. Replies, ENQ and EOT have no check characters. */
#ifndef SPLITTER_H
#define SPLITTER_H

#include <stddef.h>
#include <stdint.h>

#include "frame.h"

enum unit_kind {
    UNIT_NONE,
    UNIT_BLOCK,     /* good: number, ending and text */
    UNIT_BAD_BLOCK, /* one that fails a check */
    UNIT_ABANDONED, /* a block ended by ENQ */
    UNIT_ENQ,       /* a bare one: a bid, or to a slave in an opening an enquiry */
    UNIT_ACK,       /* with its number */
    UNIT_NAK,
    UNIT_EOT,
    UNIT_RINT,
    UNIT_DAMAGED    /* a reply, an ENQ or an EOT that fails a check */
};

typedef struct {
    enum unit_kind kind;
    unsigned number, ending;
    const uint8_t *text; /* in the splitter, until the next byte is taken */
    size_t length;
} unit;

enum splitter_state { BETWEEN_UNITS, IN_BLOCK, FIRST_CHECK, SECOND_CHECK, ACK_DIGIT, BEFORE_TERM };

typedef struct {
    enum splitter_state state;
    enum unit_kind kind; /* of the unit that is being read */
    int refused;         /* a check of it has failed already */
    unsigned number, ending;
    size_t prefix;       /* characters since the last unit or CR */
    int prefix_refused;  /* one of them is a control character, or damaged */
    size_t length;       /* of what follows STX, as far as it was kept */
    uint8_t checks[2], bytes[HEADER_LENGTH + MOST_TEXT];
} splitter;

/* Forgets what is not a whole unit. */
void splitter_reset(splitter *splitter);

/* Takes a byte, and whether its parity was wrong. Where it completes a unit, returns 1 with the unit; else 0. */
int splitter_take(splitter *splitter, uint8_t byte, int damaged, unit *unit);

/* Whether a unit has begun and not ended, a prefix among them. Timer B limits how long. */
int splitter_is_inside(const splitter *splitter);

#endif
