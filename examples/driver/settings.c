#include "settings.h"

#include <errno.h>
#include <stdio.h>
#include <stdlib.h>
#include <string.h>

#include "common.h"
#include "giamuvich.h"
#include "link_calls.h"

/* A number within its bound, decimal or as 0x0B. */
static int number_of(const char *word, uint64_t most, uint64_t *number)
{
    char *end;

    if (word[0] < '0' || word[0] > '9')
        return -1;
    errno = 0;
    *number = strtoull(word, &end, strncmp(word, "0x", 2) == 0 ? 16 : 10);
    return errno == 0 && *end == '\0' && *number <= most ? 0 : -1;
}

static int line_of(settings *link, const char *option, const char *value)
{
    enum line_kind kind = NO_LINE;

    if (strcmp(option, "--minimal-connect") == 0)
        kind = TCP_CONNECT;
    else if (strcmp(option, "--minimal-listen") == 0)
        kind = TCP_LISTEN;
    else if (strcmp(option, "--hybrid-tty") == 0)
        kind = TERMINAL;
    if (kind == NO_LINE || link->kind != NO_LINE)
        return -1;
    link->kind = kind;
    link->hybrid = kind == TERMINAL;
    link->address = value;
    return 0;
}

static int application_of(settings *link, const char *value)
{
    if (strcmp(value, "AA") == 0)
        link->application = GMV_CODE_AA;
    else if (strcmp(value, "AE") == 0)
        link->application = GMV_CODE_AE;
    else
        return -1;
    return 0;
}

/* A time of at least 1, in the unit of its option. */
static int time_of(long *time, const char *value, uint64_t most)
{
    uint64_t number;

    if (number_of(value, most, &number) != 0 || number == 0)
        return -1;
    *time = (long)number;
    return 0;
}

static int option_of(settings *link, const char *option, const char *value)
{
    if (strcmp(option, "--data-limit") == 0)
        return number_of(value, UINT64_MAX, &link->data_limit);
    if (strcmp(option, "--timer") == 0)
        return time_of(&link->timer, value, 86400000);
    if (strcmp(option, "--keepalive") == 0)
        return time_of(&link->keepalive, value, 32767);
    if (strcmp(option, "--resends") == 0)
        return number_of(value, UINT64_MAX, &link->resends);
    if (strcmp(option, "--start-block") == 0)
        return number_of(value, UINT64_MAX, &link->start_block);
    if (strcmp(option, "--end-block") == 0)
        return number_of(value, UINT64_MAX, &link->end_block);
    if (strcmp(option, "--application") == 0)
        return application_of(link, value);
    if (strcmp(option, "--type") == 0 && strlen(value) == TYPE_LENGTH) {
        link->type = (const uint8_t *)value;
        return 0;
    }
    return line_of(link, option, value);
}

int settings_read(settings *link, int count, char **words)
{
    const settings defaults = {NO_LINE, 0, NULL, GMV_START_BLOCK_DEFAULT, GMV_END_BLOCK_DEFAULT, 4096,
                               GMV_RESENDS_DEFAULT, GMV_CODE_AA, 2000, 30, (const uint8_t *)"ADT"};

    *link = defaults;
    for (int i = 0; i < count; i += 2)
        if (i + 1 >= count || option_of(link, words[i], words[i + 1]) != 0)
            return -1;
    return link->kind == NO_LINE ? -1 : 0;
}

/* An operator compares this with the link's sheet. */
void settings_text(const settings *link, char *text, size_t size)
{
    static const char *const kinds[] = {"no line", "minimal-connect", "minimal-listen", "hybrid-tty"};
    int length = snprintf(
        text, size, "%s %.100s, data limit %llu, timer %ld, resends %llu, type %.3s, application %s",
        kinds[link->kind], link->address, (unsigned long long)link->data_limit, link->timer,
        (unsigned long long)link->resends, (const char *)link->type,
        link->application == GMV_CODE_AA ? "AA" : "AE");

    if (length < 0 || (size_t)length >= size)
        return;
    if (link->hybrid)
        snprintf(text + length, size - (size_t)length, ", start block %llu, end block %llu",
                 (unsigned long long)link->start_block, (unsigned long long)link->end_block);
    else
        snprintf(text + length, size - (size_t)length, ", keepalive %ld", link->keepalive);
}

/* Acts on things that need no line, made for their check of the settings alone. */
void settings_check(const settings *link)
{
    uint8_t block[64];
    uint64_t report[GMV_REPORT_WORDS], state[GMV_SENDER_WORDS], act[GMV_ACT_WORDS];

    if (link_control_block(link, 0, block, sizeof block, report) != GMV_OK)
        fail("a block setting, the data limit (128 to 99994) or the type is outside its range");
    require_done(gmv_sender_fresh(1, state, GMV_SENDER_WORDS), "gmv_sender_fresh");
    require_done(gmv_sender_open(state, GMV_SENDER_WORDS, act, GMV_ACT_WORDS), "gmv_sender_open");
    if (gmv_sender_timer(link->resends, state, GMV_SENDER_WORDS, act, GMV_ACT_WORDS) != GMV_OK)
        fail("the resends are 0 to 99");
}
