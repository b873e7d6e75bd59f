#include "frame.h"

#include <stdio.h>
#include <string.h>

uint8_t checksum(uint8_t before, const uint8_t *bytes, size_t length)
{
    for (size_t i = 0; i < length; i++)
        before ^= bytes[i];
    return before;
}

void hexadecimal(uint8_t number, uint8_t *digits)
{
    static const char capital[] = "0123456789ABCDEF";

    digits[0] = (uint8_t)capital[number >> 4];
    digits[1] = (uint8_t)capital[number & 15];
}

size_t frame_block(uint8_t *frame, unsigned number, unsigned ending, const uint8_t *text, size_t length)
{
    char header[HEADER_LENGTH + 16];
    uint8_t *end = frame + 1 + HEADER_LENGTH + length;

    snprintf(header, sizeof header, "%u%05lu", number % 8, (unsigned long)length);
    frame[0] = STX;
    memcpy(frame + 1, header, HEADER_LENGTH);
    if (length != 0)
        memcpy(frame + 1 + HEADER_LENGTH, text, length);
    end[0] = (uint8_t)ending;
    hexadecimal(checksum(0, frame + 1, HEADER_LENGTH + length + 1), end + 1);
    end[3] = CR;
    return 1 + HEADER_LENGTH + length + 4;
}

static size_t frame_control(uint8_t *frame, const char *prefix, uint8_t control)
{
    const size_t length = strlen(prefix);

    memcpy(frame, prefix, length);
    frame[length] = control;
    frame[length + 1] = CR;
    return length + 2;
}

size_t frame_enq(uint8_t *frame)
{
    return frame_control(frame, "", ENQ);
}

size_t frame_eot(uint8_t *frame)
{
    return frame_control(frame, "", EOT);
}

size_t frame_nak(uint8_t *frame, const char *prefix)
{
    return frame_control(frame, prefix, NAK);
}

static size_t frame_dle(uint8_t *frame, const char *prefix, uint8_t character)
{
    const size_t length = frame_control(frame, prefix, DLE);

    frame[length - 1] = character;
    frame[length] = CR;
    return length + 1;
}

size_t frame_ack(uint8_t *frame, const char *prefix, unsigned number)
{
    return frame_dle(frame, prefix, (uint8_t)('0' + number % 8));
}

size_t frame_rint(uint8_t *frame, const char *prefix)
{
    return frame_dle(frame, prefix, INTERRUPT);
}

size_t frame_bid(uint8_t *frame)
{
    const size_t length = frame_eot(frame);

    return length + frame_enq(frame + length);
}

size_t first_unframable(const uint8_t *text, size_t length)
{
    static const uint8_t controls[] = {SOH, STX, GMV_ETX, EOT, ENQ, DLE, NAK, GMV_ETB};

    for (size_t i = 0; i < length; i++)
        if (memchr(controls, text[i], sizeof controls) != NULL)
            return i;
    return length;
}
