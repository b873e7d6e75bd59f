#include "settings.h"

#include <errno.h>
#include <stdio.h>
#include <stdlib.h>
#include <string.h>

#include "frame.h"

enum {
    BLOCK_SIZE = 245, /* the largest that 004 has, where nothing is agreed */
    MESSAGE_LIMIT = 1000000,
    LONGEST = 86400000 /* milliseconds */
};

/* The defaults of 000, C.3.6.3. */
enum {
    TIMER_A = 6000,
    TIMER_B = 3000,
    TIMER_D = 30000,
    PRIMARY_RETRY = 1000,
    SECONDARY_RETRY = 3000,
    RECOVERY = 30000,
    BIDS = 10
};

static const char *const parities[] = {"none", "odd", "software"};
static const char *const answers[] = {"no", "yes"};

static int number_of(const char *word, uint64_t least, uint64_t most, uint64_t *number)
{
    char *end;

    if (word[0] < '0' || word[0] > '9')
        return -1;
    errno = 0;
    *number = strtoull(word, &end, 10);
    return errno == 0 && *end == '\0' && *number >= least && *number <= most ? 0 : -1;
}

static int time_of(const char *word, long *time)
{
    uint64_t number;

    if (number_of(word, 1, LONGEST, &number) != 0)
        return -1;
    *time = (long)number;
    return 0;
}

/* Which of the words it is, or -1. */
static int index_of(const char *word, const char *const *words, int count)
{
    while (--count >= 0 && strcmp(word, words[count]) != 0)
        continue;
    return count;
}

static int parity_of(const char *word, enum parity *parity)
{
    const int index = index_of(word, parities, 3);

    *parity = (enum parity)index;
    return index < 0 ? -1 : 0;
}

static int answer_of(const char *word, int *answer)
{
    *answer = index_of(word, answers, 2);
    return *answer < 0 ? -1 : 0;
}

/* No control character is in a prefix, and with seven bits no byte of eight. */
static int prefix_of(const char *word, const char **prefix)
{
    *prefix = word;
    for (const char *at = word; *at != '\0'; at++)
        if ((unsigned char)*at < ' ' || (unsigned char)*at >= 0x7F)
            return -1;
    return strlen(word) <= MOST_PREFIX ? 0 : -1;
}

static int speed_of(const char *word, uint64_t *speed)
{
    if (number_of(word, 1200, 9600, speed) != 0)
        return -1;
    return *speed == 1200 || *speed == 2400 || *speed == 4800 || *speed == 9600 ? 0 : -1;
}

static int option_of(settings *settings, const char *option, const char *value)
{
    if (strcmp(option, "--timer-a") == 0)
        return time_of(value, &settings->timer_a);
    if (strcmp(option, "--timer-b") == 0)
        return time_of(value, &settings->timer_b);
    if (strcmp(option, "--timer-d") == 0)
        return time_of(value, &settings->timer_d);
    if (strcmp(option, "--retry") == 0)
        return time_of(value, &settings->retry);
    if (strcmp(option, "--recovery") == 0)
        return time_of(value, &settings->recovery);
    if (strcmp(option, "--silence") == 0)
        return time_of(value, &settings->silence);
    if (strcmp(option, "--bids") == 0)
        return number_of(value, 0, 1000, &settings->bids);
    if (strcmp(option, "--block-size") == 0)
        return number_of(value, 1, MOST_TEXT, &settings->block_size);
    if (strcmp(option, "--message-limit") == 0)
        return number_of(value, 1, UINT32_MAX, &settings->message_limit);
    if (strcmp(option, "--parity") == 0)
        return parity_of(value, &settings->parity);
    if (strcmp(option, "--prefix") == 0)
        return prefix_of(value, &settings->prefix);
    if (strcmp(option, "--enquiry") == 0)
        return answer_of(value, &settings->enquiry);
    return strcmp(option, "--speed") == 0 ? speed_of(value, &settings->speed) : -1;
}

/* Less than the largest block and its slowest reply take is never safe. */
static int silence_of(settings *settings)
{
    const long least = settings->timer_a + settings->timer_b;

    if (settings->silence == 0)
        settings->silence = least;
    return settings->silence >= least ? 0 : -1;
}

int settings_read(settings *settings, int count, char **words)
{
    if (count < 2 || (strcmp(words[1], "primary") != 0 && strcmp(words[1], "secondary") != 0))
        return -1;
    memset(settings, 0, sizeof *settings);
    settings->path = words[0];
    settings->primary = strcmp(words[1], "primary") == 0;
    settings->timer_a = TIMER_A;
    settings->timer_b = TIMER_B;
    settings->timer_d = TIMER_D;
    settings->retry = settings->primary ? PRIMARY_RETRY : SECONDARY_RETRY;
    settings->recovery = RECOVERY;
    settings->bids = BIDS;
    settings->block_size = BLOCK_SIZE;
    settings->message_limit = MESSAGE_LIMIT;
    settings->prefix = "";
    for (int i = 2; i < count; i += 2)
        if (i + 1 >= count || option_of(settings, words[i], words[i + 1]) != 0)
            return -1;
    return silence_of(settings);
}

/* An operator compares this with the line's sheet. */
void settings_text(const settings *settings, char *text, size_t size)
{
    snprintf(text, size,
             "%.100s, %s, timer A %ld, timer B %ld, timer D %ld, retry %ld, recovery %ld, silence %ld, bids %llu, "
             "block size %llu, message limit %llu, parity %s, enquiry %s",
             settings->path, settings->primary ? "primary" : "secondary", settings->timer_a, settings->timer_b,
             settings->timer_d, settings->retry, settings->recovery, settings->silence,
             (unsigned long long)settings->bids, (unsigned long long)settings->block_size,
             (unsigned long long)settings->message_limit, parities[settings->parity], answers[settings->enquiry]);
}
