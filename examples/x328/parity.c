#include "parity.h"

enum { WARNING = 0xFF, EIGHTH_BIT = 0x80 };

static int has_odd_ones(uint8_t byte)
{
    int odd = 0;

    for (; byte != 0; byte &= (uint8_t)(byte - 1))
        odd = !odd;
    return odd;
}

void parity_reset(parity_reader *reader)
{
    reader->warned = 0;
}

static int take_warned(parity_reader *reader, uint8_t read, uint8_t *byte, int *damaged)
{
    *byte = read;
    *damaged = reader->warned == 2;
    if (reader->warned == 0 && read == WARNING)
        reader->warned = 1;
    else if (reader->warned == 1 && read == 0)
        reader->warned = 2;
    else
        reader->warned = 0;
    return reader->warned == 0;
}

int parity_take(parity_reader *reader, uint8_t read, uint8_t *byte, int *damaged)
{
    if (reader->parity == PARITY_DEVICE)
        return take_warned(reader, read, byte, damaged);
    *damaged = reader->parity == PARITY_SOFTWARE && !has_odd_ones(read);
    *byte = reader->parity == PARITY_SOFTWARE ? read & (uint8_t)~EIGHTH_BIT : read;
    return 1;
}

void parity_add(enum parity parity, uint8_t *bytes, size_t length)
{
    if (parity != PARITY_SOFTWARE)
        return;
    for (size_t i = 0; i < length; i++)
        if (!has_odd_ones(bytes[i]))
            bytes[i] |= EIGHTH_BIT;
}
