#include "splitter.h"

#include <string.h>

void splitter_reset(splitter *splitter)
{
    splitter->state = BETWEEN_UNITS;
    splitter->kind = UNIT_NONE;
    splitter->refused = 0;
    splitter->prefix = 0;
    splitter->prefix_refused = 0;
    splitter->length = 0;
}

int splitter_is_inside(const splitter *splitter)
{
    return splitter->state != BETWEEN_UNITS || splitter->prefix != 0 || splitter->prefix_refused;
}

/* A unit begins whose kind is known, if nothing in it is wrong. */
static void begin(splitter *splitter, enum splitter_state state, enum unit_kind kind, int refused)
{
    splitter->state = state;
    splitter->kind = kind;
    splitter->refused = refused;
    splitter->length = 0;
}

static int is_control(uint8_t byte)
{
    return byte < 0x20 || byte == 0x7F;
}

/* What may be a prefix. CR ends it: what comes behind is another one. */
static void take_prefix(splitter *splitter, uint8_t byte, int damaged)
{
    if (byte == CR && !damaged) {
        splitter_reset(splitter);
        return;
    }
    splitter->prefix++;
    if (damaged || is_control(byte))
        splitter->prefix_refused = 1;
}

/* Where a byte was damaged its value still says which unit it was likely to begin: that one is then refused. A heading
 * (SOH) is not agreed here, so its block is bad. ETB and ETX without a block are the end of one whose STX was lost: it
 * gets no reply, but its check characters are no units either. */
static void take_between(splitter *splitter, uint8_t byte, int damaged)
{
    const int any_prefix = splitter->prefix != 0;
    const int bad_prefix = splitter->prefix > MOST_PREFIX || splitter->prefix_refused;

    switch (byte) {
    case SOH:
    case STX:
        begin(splitter, IN_BLOCK, UNIT_BLOCK, damaged || byte == SOH);
        break;
    case GMV_ETB:
    case GMV_ETX:
        if (damaged)
            take_prefix(splitter, byte, damaged);
        else
            begin(splitter, FIRST_CHECK, UNIT_NONE, 0);
        break;
    case DLE:
        begin(splitter, ACK_DIGIT, UNIT_ACK, damaged || bad_prefix);
        break;
    case NAK:
        begin(splitter, BEFORE_TERM, UNIT_NAK, damaged || bad_prefix);
        break;
    case EOT:
        begin(splitter, BEFORE_TERM, UNIT_EOT, damaged || any_prefix);
        break;
    case ENQ:
        begin(splitter, BEFORE_TERM, UNIT_ENQ, damaged || any_prefix);
        break;
    default:
        take_prefix(splitter, byte, damaged);
    }
}

static void take_in_block(splitter *splitter, uint8_t byte)
{
    if (byte == ENQ) {
        splitter->kind = UNIT_ABANDONED;
        splitter->state = BEFORE_TERM;
    } else if (byte == GMV_ETB || byte == GMV_ETX) {
        splitter->ending = byte;
        splitter->state = FIRST_CHECK;
    } else if (splitter->length < sizeof splitter->bytes) {
        splitter->bytes[splitter->length++] = byte;
    } else {
        splitter->refused = 1;
    }
}

static void take_digit(splitter *splitter, uint8_t byte)
{
    if (byte == INTERRUPT)
        splitter->kind = UNIT_RINT;
    else if (byte < '0' || byte > '7')
        splitter->refused = 1;
    splitter->number = byte & 7u;
    splitter->state = BEFORE_TERM;
}

/* The number that the five digits say, or -1. */
static long text_length(const uint8_t *digits)
{
    long length = 0;

    for (int i = 0; i < LENGTH_DIGITS; i++) {
        if (digits[i] < '0' || digits[i] > '9')
            return -1;
        length = 10 * length + (digits[i] - '0');
    }
    return length;
}

/* The checks of 000, C.3.3.2, but for TERM; that the number is one of a block is the library's. */
static int block_is_good(const splitter *splitter)
{
    const uint8_t *bytes = splitter->bytes, ending = (uint8_t)splitter->ending;
    uint8_t digits[2];

    if (splitter->length < HEADER_LENGTH || bytes[0] < '0' || bytes[0] > '9')
        return 0;
    hexadecimal(checksum(checksum(0, bytes, splitter->length), &ending, 1), digits);
    return memcmp(digits, splitter->checks, sizeof digits) == 0 &&
           text_length(bytes + 1) == (long)(splitter->length - HEADER_LENGTH);
}

static int is_block(enum unit_kind kind)
{
    return kind == UNIT_BLOCK || kind == UNIT_ABANDONED;
}

static int end_unit(splitter *splitter, uint8_t byte, int damaged, unit *unit)
{
    const int good = !splitter->refused && !damaged && byte == CR &&
                     (splitter->kind != UNIT_BLOCK || block_is_good(splitter));

    unit->kind = good || splitter->kind == UNIT_NONE  ? splitter->kind
                 : is_block(splitter->kind) ? UNIT_BAD_BLOCK
                                            : UNIT_DAMAGED;
    unit->number = unit->kind == UNIT_BLOCK ? (unsigned)(splitter->bytes[0] - '0') : splitter->number;
    unit->ending = splitter->ending;
    unit->text = splitter->bytes + HEADER_LENGTH;
    unit->length = unit->kind == UNIT_BLOCK ? splitter->length - HEADER_LENGTH : 0;
    splitter_reset(splitter);
    return unit->kind != UNIT_NONE;
}

int splitter_take(splitter *splitter, uint8_t byte, int damaged, unit *unit)
{
    if (splitter->state == BETWEEN_UNITS) {
        take_between(splitter, byte, damaged);
        return 0;
    }
    if (splitter->state == BEFORE_TERM)
        return end_unit(splitter, byte, damaged, unit);
    if (damaged)
        splitter->refused = 1;
    switch (splitter->state) {
    case IN_BLOCK:
        take_in_block(splitter, byte);
        break;
    case ACK_DIGIT:
        take_digit(splitter, byte);
        break;
    case FIRST_CHECK:
        splitter->checks[0] = byte;
        splitter->state = SECOND_CHECK;
        break;
    default:
        splitter->checks[1] = byte;
        splitter->state = BEFORE_TERM;
    }
    return 0;
}
