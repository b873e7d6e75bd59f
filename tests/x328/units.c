/* What examples/x328 makes of bytes. Each line of standard input is a parity (0 none, 1 of the device, 2 software), and
 * the bytes in hexadecimal, in parts, each behind a blank. For each line it prints the units. */
#include <stdio.h>
#include <stdlib.h>
#include <string.h>

#include "parity.h"
#include "splitter.h"

static const char *const kinds[] = {"none", "block", "bad", "abandoned", "enq", "ack", "nak", "eot", "rint", "damaged"};
static splitter reader;
static parity_reader parity;
static char input[4000000];

static void print_unit(const unit *unit)
{
    printf(" %s", kinds[unit->kind]);
    if (unit->kind == UNIT_BLOCK) {
        printf(":%u:%u:", unit->number, unit->ending);
        for (size_t i = 0; i < unit->length; i++)
            printf("%02x", unit->text[i]);
    } else if (unit->kind == UNIT_ACK) {
        printf(":%u", unit->number);
    }
}

static void take(unsigned read)
{
    uint8_t byte;
    int wrong;
    unit unit;

    if (parity_take(&parity, (uint8_t)read, &byte, &wrong) && splitter_take(&reader, byte, wrong, &unit))
        print_unit(&unit);
}

static void print_bytes(const uint8_t *bytes, size_t length)
{
    for (size_t i = 0; i < length; i++)
        printf("%02x", bytes[i]);
    putchar(' ');
}

/* The block and the other units that the example writes, for the text of a line that begins with w. */
static void write_units(const char *text)
{
    static uint8_t frame[MOST_BLOCK];

    print_bytes(frame, frame_block(frame, (unsigned)(text[0] - '0'), text[1] == 'B' ? GMV_ETB : GMV_ETX,
                                   (const uint8_t *)text + 2, strlen(text + 2)));
    print_bytes(frame, frame_enq(frame));
    print_bytes(frame, frame_eot(frame));
    print_bytes(frame, frame_nak(frame, "WARD"));
    print_bytes(frame, frame_ack(frame, "", 7));
    print_bytes(frame, frame_rint(frame, ""));
    print_bytes(frame, frame_rint(frame, "WARD"));
    print_bytes(frame, frame_bid(frame));
}

int main(void)
{
    while (fgets(input, sizeof input, stdin) != NULL) {
        input[strcspn(input, "\n")] = '\0';
        if (input[0] == 'w') {
            write_units(input + 1);
        } else {
            parity.parity = (enum parity)(input[0] - '0');
            parity_reset(&parity);
            splitter_reset(&reader);
            for (const char *at = input + 1; *at != '\0';) {
                unsigned byte;

                at += *at == ' ';
                if (*at == '\0')
                    break;
                if (sscanf(at, "%2x", &byte) != 1)
                    return 1;
                take(byte);
                at += 2;
            }
            if (splitter_is_inside(&reader))
                printf(" ..");
        }
        putchar('\n');
    }
    return 0;
}
