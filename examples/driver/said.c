#include "said.h"

#include <limits.h>
#include <stdarg.h>
#include <stdio.h>
#include <string.h>

#include "common.h"
#include "status.h"

/* Every sentence of a running driver. The values follow in the order in which they are named. */
#define STARTED "gmv_driver: started: %s\n"
#define STOPPED "gmv_driver: stopped\n"
#define GAVE_UP "gmv_driver: waited on %s and gave up after %s, the circuit ended\n"
#define FROZE "gmv_driver: froze: waited on %s and got %s %s for control ID %s\n"
#define REFUSED_FILE "gmv_driver: %s is refused by %llu\n"
#define CALL_FAILED "gmv_driver: cannot call %s: %s\n"
#define HUNG_UP "gmv_driver: %s took the call and soon hung up\n"
#define NEW_CALLER "gmv_driver: a new caller, %s, ended the circuit with %s\n"
#define CLEARED "gmv_driver: -1 from %s: the expected number %llu is forgotten, with %llu stored\n"
#define UNSTORED "gmv_driver: %s is not stored: %s; it is not answered, and taken when it comes again\n"
#define ROOM "gmv_driver: there is room again: %s is stored, after %s\n"
#define PLAIN_DEVICE "gmv_driver: %s is a plain device: nobody empties this line between two circuits\n"
#define REPEATED "gmv_driver: %s more since %s: %s\n"

enum { LINE_LENGTH = 1024, FIRST_FOLD = 60000, MOST_FOLD = 3600000 /* milliseconds */ };
enum sentence { LIFE, GIVING_UP, FREEZING, FILES, CALLS, HANGUPS, CALLERS, CLEARING, ROOMS, DEVICES,
                SENTENCES };

/* Of each sentence: the last line said, and how often it came again since. */
static struct repeated {
    char line[LINE_LENGTH], since[TIME_TEXT];
    unsigned long long more;
    long long next, pause;
} repeated[SENTENCES];

/* The line feed at its end is the line's own. */
static void print_line(const char *line)
{
    char time[TIME_TEXT], escaped[4 * LINE_LENGTH];

    time_of_day(time);
    escape(escaped, sizeof escaped, line, strlen(line) - 1);
    fprintf(stderr, "%s %s\n", time, escaped);
}

static void say_repeated(struct repeated *last)
{
    char line[2 * LINE_LENGTH], what[LINE_LENGTH], times[COUNTED];

    strcpy(what, last->line + strlen("gmv_driver: "));
    what[strlen(what) - 1] = '\0';
    snprintf(line, sizeof line, REPEATED, counted(times, last->more, "time", "times"), last->since, what);
    print_line(line);
    last->more = 0;
    last->pause = last->pause * 2 < MOST_FOLD ? last->pause * 2 : MOST_FOLD;
    last->next = now() + last->pause;
    time_of_day(last->since);
}

void say_repeats(int all)
{
    for (int i = 0; i < SENTENCES; i++)
        if (repeated[i].more != 0 && (all || now() >= repeated[i].next))
            say_repeated(&repeated[i]);
}

/* any: whatever its values, it counts as the line before. */
static void say(enum sentence sentence, int any, const char *format, ...)
{
    struct repeated *last = &repeated[sentence];
    char line[LINE_LENGTH];
    va_list values;

    va_start(values, format);
    if (vsnprintf(line, sizeof line, format, values) >= LINE_LENGTH)
        strcpy(line + LINE_LENGTH - 5, "...\n");
    va_end(values);
    if (strcmp(line, last->line) == 0 || (any && last->line[0] != '\0')) {
        strcpy(last->line, line);
        last->more++;
        say_repeats(0);
        return;
    }
    if (last->more != 0)
        say_repeated(last);
    strcpy(last->line, line);
    last->pause = FIRST_FOLD;
    last->next = now() + FIRST_FOLD;
    time_of_day(last->since);
    print_line(line);
}

void say_started(const char *settings)
{
    say(LIFE, 0, STARTED, settings);
}

void say_stopped(void)
{
    say_repeats(1);
    say(LIFE, 0, STOPPED);
}

void say_gave_up(const char *waited, uint64_t sends)
{
    char words[COUNTED];

    say(GIVING_UP, 0, GAVE_UP, waited, counted(words, sends, "send", "sends"));
}

void say_froze(const sender_record *record)
{
    const freeze_details *freeze = &record->freeze;

    say(FREEZING, 0, FROZE, freeze->waited, or_nothing(freeze->code, "no code"),
        or_nothing(freeze->expected, "without a number"), or_nothing(freeze->control_id, "none"));
}

void say_refused_file(const char *name, uint64_t number)
{
    say(FILES, 0, REFUSED_FILE, name, (unsigned long long)number);
}

void say_call_failed(const char *address, const char *reason)
{
    say(CALLS, 0, CALL_FAILED, address, reason);
}

void say_called(void)
{
    if (repeated[CALLS].more != 0)
        say_repeated(&repeated[CALLS]);
    repeated[CALLS].line[0] = '\0';
}

void say_hung_up(const char *peer)
{
    say(HANGUPS, 0, HUNG_UP, peer);
}

/* A caller's port differs each time. */
void say_new_caller(const char *caller, const char *peer)
{
    say(CALLERS, 1, NEW_CALLER, caller, peer);
}

void say_cleared(const char *peer, uint64_t expected, uint64_t stored)
{
    say(CLEARING, 0, CLEARED, peer, (unsigned long long)expected, (unsigned long long)stored);
}

void say_unstored(uint64_t transaction, const char *reason)
{
    char words[COUNTED];

    say(ROOMS, 0, UNSTORED, request_words(words, transaction), reason);
}

void say_space(uint64_t transaction, uint64_t failures)
{
    char words[COUNTED], times[COUNTED];

    say(ROOMS, 0, ROOM, request_words(words, transaction), counted(times, failures, "failure", "failures"));
}

void say_plain_device(const char *path)
{
    say(DEVICES, 0, PLAIN_DEVICE, path);
}
