/* The settings of a link and of its line, from the command line. */
#ifndef SETTINGS_H
#define SETTINGS_H

#include <stddef.h>
#include <stdint.h>

enum line_kind { NO_LINE, TCP_CONNECT, TCP_LISTEN, TERMINAL };

typedef struct {
    enum line_kind kind;
    int hybrid;                             /* else minimal */
    const char *address;                    /* HOST:PORT, PORT or PATH */
    uint64_t start_block, end_block;        /* of a hybrid link */
    uint64_t data_limit, resends, application;
    long timer;                             /* milliseconds */
    long keepalive;                         /* seconds of silence after which TCP asks for the peer */
    const uint8_t *type;                    /* of control messages, TYPE_LENGTH letters */
} settings;

enum { TYPE_LENGTH = 3 };

/* Reads LINE and OPTIONS. Returns 0, or -1 where they are not what the usage says. */
int settings_read(settings *link, int count, char **words);

/* The settings in words, for the operator. */
void settings_text(const settings *link, char *text, size_t size);

/* Ends the program where the library refuses the settings: better now than at the first block. */
void settings_check(const settings *link);

#endif
