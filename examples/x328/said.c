#include "said.h"

#include <stdarg.h>
#include <stdio.h>
#include <string.h>

#include "common.h"

/* Every sentence of a running station. The values follow in the order in which they are named. */
#define STARTED "x328: started: %s\n"
#define STOPPED "x328: stopped\n"
#define NO_LINE "x328: no line at %s: %s\n"
#define LINE_OPEN "x328: the line at %s is open\n"
#define NOT_SILENT "x328: messages wait, and the line does not become silent: no bid\n"
#define NOT_GRANTED "x328: %llu bids and no grant, %llu of them answered NAK: the other side is busy or down\n"
#define NO_REPLY "x328: timer A: no reply to a block of %s, sent again\n"
#define BLOCK_REFUSED "x328: a block of %s was refused or missed by the other side, sent again\n"
#define FAILED \
    "x328: %s failed, a block was sent six times, %llu acknowledged: it may have arrived, and is sent again\n"
#define ENDED_BY_SLAVE "x328: the other side ended %s by EOT, %llu acknowledged: it is sent again\n"
#define ENQUIRED "x328: timer A: no reply to a block of %s, enquired\n"
#define INTERRUPT_HEARD "x328: RINT came while %s is sent: the other side asks for the line\n"
#define REVERSED "x328: the line is turned round, %llu acknowledged: EOT, the other side may send\n"
#define REVERSED_HALFWAY \
    "x328: the line is turned round in the middle of %s, %llu acknowledged: EOT, it is sent again from its first block\n"
#define REFUSED_FILE "x328: %s is refused by %llu\n"
#define BAD_UNIT "x328: a unit came damaged or out of turn: NAK\n"
#define NOT_STORED "x328: a message could not be stored: %s: EOT in place of its ACK\n"
#define TOO_LONG "x328: a message has over %llu bytes: EOT in place of an ACK\n"
#define BLOCK_LOST "x328: timer B: a block did not end, discarded\n"
#define MASTER_LOST "x328: timer D: nothing more came, %llu bytes of a message are forgotten\n"
#define BROKEN_OFF "x328: a message was broken off, %llu bytes of it are forgotten\n"
#define ENQUIRY "x328: ENQ came in an opening: the last reply again\n"
#define INTERRUPT_ASKED "x328: %s waits in stat/: a reverse interrupt is asked for\n"
#define INTERRUPT_GIVEN "x328: RINT in place of an ACK: the other side is asked for the line\n"
#define NO_INTERRUPT \
    "x328: %s was not taken in %llu openings: no reverse interrupt for it until a message has come in\n"
#define REPEATED "x328: %llu times more since %s: %s\n"

enum { LINE_LENGTH = 1024, FIRST_FOLD = 60000, MOST_FOLD = 3600000 /* milliseconds */ };
enum sentence {
    LIFE, LINES, SILENCE, BIDS, REPLIES, ENQUIRIES, REFUSALS, FAILURES, RINTS_HEARD, REVERSALS, FILES, UNITS, STORING,
    BLOCKS, MASTERS, RINTS_ASKED, RINTS_GIVEN, RINTS_REFRAINED,
    SENTENCES
};

/* Of each sentence: the last line said, and how often it came again since. */
static struct repeated {
    char line[LINE_LENGTH], since[TIME_TEXT];
    unsigned long long more;
    long long next, pause;
} repeated[SENTENCES];

/* The line feed at its end is the line's own. */
static void print_line(const char *line)
{
    char time[TIME_TEXT], escaped[4 * LINE_LENGTH];

    time_of_day(time);
    escape(escaped, sizeof escaped, line, strlen(line) - 1);
    fprintf(stderr, "%s %s\n", time, escaped);
}

static void say_repeated(struct repeated *last)
{
    char line[2 * LINE_LENGTH], what[LINE_LENGTH];

    strcpy(what, last->line + strlen("x328: "));
    what[strlen(what) - 1] = '\0';
    snprintf(line, sizeof line, REPEATED, last->more, last->since, what);
    print_line(line);
    last->more = 0;
    last->pause = last->pause * 2 < MOST_FOLD ? last->pause * 2 : MOST_FOLD;
    last->next = now() + last->pause;
    time_of_day(last->since);
}

void say_repeats(int all)
{
    for (int i = 0; i < SENTENCES; i++)
        if (repeated[i].more != 0 && (all || now() >= repeated[i].next))
            say_repeated(&repeated[i]);
}

static void say(enum sentence sentence, const char *format, ...)
{
    struct repeated *last = &repeated[sentence];
    char line[LINE_LENGTH];
    va_list values;

    va_start(values, format);
    if (vsnprintf(line, sizeof line, format, values) >= LINE_LENGTH)
        strcpy(line + LINE_LENGTH - 5, "...\n");
    va_end(values);
    if (strcmp(line, last->line) == 0) {
        last->more++;
        say_repeats(0);
        return;
    }
    if (last->more != 0)
        say_repeated(last);
    strcpy(last->line, line);
    last->pause = FIRST_FOLD;
    last->next = now() + FIRST_FOLD;
    time_of_day(last->since);
    print_line(line);
}

void say_started(const char *settings)
{
    say(LIFE, STARTED, settings);
}

void say_stopped(void)
{
    say_repeats(1);
    say(LIFE, STOPPED);
}

void say_no_line(const char *path, const char *reason)
{
    say(LINES, NO_LINE, path, reason);
}

void say_line(const char *path)
{
    if (repeated[LINES].line[0] != '\0')
        say(LINES, LINE_OPEN, path);
}

void say_not_silent(void)
{
    say(SILENCE, NOT_SILENT);
}

void say_not_granted(uint64_t bids, uint64_t refusals)
{
    say(BIDS, NOT_GRANTED, (unsigned long long)bids, (unsigned long long)refusals);
}

void say_no_reply(const char *name)
{
    say(REPLIES, NO_REPLY, name);
}

void say_enquired(const char *name)
{
    say(ENQUIRIES, ENQUIRED, name);
}

void say_block_refused(const char *name)
{
    say(REFUSALS, BLOCK_REFUSED, name);
}

void say_failed(const char *name, uint64_t blocks)
{
    say(FAILURES, FAILED, name, (unsigned long long)blocks);
}

void say_ended_by_slave(const char *name, uint64_t blocks)
{
    say(FAILURES, ENDED_BY_SLAVE, name, (unsigned long long)blocks);
}

void say_interrupt_heard(const char *name)
{
    say(RINTS_HEARD, INTERRUPT_HEARD, name);
}

void say_reversed(const char *name, uint64_t blocks)
{
    if (name == NULL)
        say(REVERSALS, REVERSED, (unsigned long long)blocks);
    else
        say(REVERSALS, REVERSED_HALFWAY, name, (unsigned long long)blocks);
}

void say_refused_file(const char *name, uint64_t number)
{
    say(FILES, REFUSED_FILE, name, (unsigned long long)number);
}

void say_bad_unit(void)
{
    say(UNITS, BAD_UNIT);
}

void say_not_stored(const char *reason)
{
    say(STORING, NOT_STORED, reason);
}

void say_too_long(uint64_t limit)
{
    say(STORING, TOO_LONG, (unsigned long long)limit);
}

void say_block_lost(void)
{
    say(BLOCKS, BLOCK_LOST);
}

void say_master_lost(uint64_t held)
{
    say(MASTERS, MASTER_LOST, (unsigned long long)held);
}

void say_broken_off(uint64_t held)
{
    say(MASTERS, BROKEN_OFF, (unsigned long long)held);
}

void say_enquiry(void)
{
    say(ENQUIRIES, ENQUIRY);
}

void say_interrupt_asked(const char *name)
{
    say(RINTS_ASKED, INTERRUPT_ASKED, name);
}

void say_interrupt_given(void)
{
    say(RINTS_GIVEN, INTERRUPT_GIVEN);
}

void say_no_interrupt(const char *name, uint64_t openings)
{
    say(RINTS_REFRAINED, NO_INTERRUPT, name, (unsigned long long)openings);
}
