/* linkstatus DIR: what an end of a link is doing, in plain words. linkstatus SENDER RECEIVER: both, and whether
 * their books agree. The exit status is 0 good, 1 warning, 2 critical, 3 unknown. */
#include <errno.h>
#include <stdio.h>
#include <stdlib.h>
#include <string.h>
#include <time.h>

#include "books.h"
#include "common.h"
#include "log.h"
#include "status.h"
#include "store.h"

#define R_PROBLEM "%s/%s %s"
#define R_WRONG_KIND "%s is not the folder of a %s"
#define R_LIMITS "the data limits differ: %lu and %lu"

enum { LOOKS = 4 };

/* What an end is, by the first words of its state. */
enum kind { NO_END, SENDER, RECEIVER };

static enum kind kind_of(const char *folder)
{
    char path[PATH_LENGTH], begins[20] = "";

    path_of(path, folder, "state");
    if (read_file(path, begins, sizeof begins - 1) < 16)
        return NO_END;
    if (strncmp(begins, "giamuvich sender", 16) == 0)
        return SENDER;
    return strncmp(begins, "giamuvich receiver", 18) == 0 ? RECEIVER : NO_END;
}

/* A file that is missing says nothing of the link; one that is damaged stops it. */
static int finds_problem(verdict *verdict, const char *folder, const char *name, const char *problem)
{
    enum severity severity = CRITICAL;

    if (problem == NULL)
        return 0;
    if (strcmp(problem, RECORD_MISSING) == 0 || strcmp(problem, RECORD_UNREADABLE) == 0)
        severity = UNKNOWN;
    add_reason(verdict, severity, R_PROBLEM, folder, name, problem);
    return 1;
}

/* A driver whose disk is full writes its live file over: one that is half written is read again, a hundredth of a second
 * later. */
static int is_read_again(const char *problem, int looks)
{
    const struct timespec pause = {0, 10000000};

    return problem != NULL && strcmp(problem, RECORD_DAMAGED) == 0 && looks < LOOKS && nanosleep(&pause, NULL) == 0;
}

/* The lock is asked before anything is read: what is said is not older than what is said of the driver. */
static enum presence presence_of(const char *folder)
{
    const int locked = folder_is_locked(folder);

    if (locked < 0)
        return DRIVER_UNKNOWN;
    return locked ? DRIVER_RUNS : DRIVER_STOPPED;
}

/* A driver that has the folder and no live file yet is starting: it removes the last one's first of all.
 * Returns 1 where the live file cannot be used otherwise. */
static int lacks_live(verdict *verdict, const char *folder, const char *problem, enum presence *presence,
                      uint64_t *starting)
{
    const time_t passed = time(NULL) - lock_time(folder);

    if (problem != NULL && strcmp(problem, RECORD_MISSING) == 0) {
        *presence = DRIVER_STARTS;
        *starting = passed < 0 ? 0 : (uint64_t)passed;
        return 0;
    }
    return finds_problem(verdict, folder, "live", problem);
}

/* ---- a sender */

static void take_oldest(time_t *oldest, uint64_t files, time_t time)
{
    if (files != 0 && time < *oldest)
        *oldest = time;
}

/* Returns 1 where a folder cannot be read. */
static int summarize(verdict *verdict, const char *folder, const char *name, folder_summary *summary)
{
    char path[PATH_LENGTH];

    path_of(path, folder, name);
    return summarize_folder(path, summary) != 0 && finds_problem(verdict, folder, name, RECORD_UNREADABLE);
}

static int find_undelivered(verdict *verdict, const char *folder, const sender_record *record,
                            undelivered *all)
{
    const uint64_t waits = record->words[GMV_SENDER_DELIVERED] + 1;
    const time_t present = time(NULL);
    time_t oldest = present;

    memset(all, 0, sizeof *all);
    if (summarize(verdict, folder, "spool", &all->spool) || summarize(verdict, folder, "refused", &all->refused))
        return 1;
    all->waiting = record->words[GMV_SENDER_LAST] + 1 - waits;
    take_oldest(&oldest, all->spool.files, all->spool.oldest);
    take_oldest(&oldest, all->refused.files, all->refused.oldest);
    take_oldest(&oldest, all->waiting, log_oldest(folder, waits, record->words[GMV_SENDER_LAST]));
    all->age = (uint64_t)(present - oldest);
    return 0;
}

/* The first of these folders that is not there, or NULL. */
static const char *lacking_folder(const char *folder, const char *const *parts, size_t count)
{
    char path[PATH_LENGTH];

    for (size_t i = 0; i < count; i++) {
        path_of(path, folder, parts[i]);
        if (is_missing(path))
            return parts[i];
    }
    return NULL;
}

static const char *read_shown_sender(const char *folder, sender_status *status)
{
    const char *problem;
    int looks = 0;

    do
        problem = read_sender_live(folder, &status->record, status->report, &status->counts, &status->running);
    while (is_read_again(problem, ++looks));
    return problem;
}

/* Returns 1 where nothing can be said of it but the verdict's reason. */
static int look_at_sender(verdict *verdict, const char *folder, sender_status *status)
{
    static const char *const parts[] = {"log", "spool", "refused"};

    memset(status, 0, sizeof *status);
    status->presence = presence_of(folder);
    if (finds_problem(verdict, folder, "state", read_sender(folder, &status->record)))
        return 1;
    if (status->presence == DRIVER_RUNS &&
        lacks_live(verdict, folder, read_shown_sender(folder, status), &status->presence, &status->starting))
        return 1;
    if (find_undelivered(verdict, folder, &status->record, &status->undelivered))
        return 1;
    status->lacks = lacking_folder(folder, parts, sizeof parts / sizeof parts[0]);
    judge_sender(verdict, status);
    return 0;
}

/* ---- a receiver */

static const char *read_shown_receiver(const char *folder, receiver_status *status)
{
    const char *problem;
    int looks = 0;

    do
        problem = read_receiver_live(folder, &status->record, &status->counts, &status->running);
    while (is_read_again(problem, ++looks));
    return problem;
}

/* What is shown may be older than what is stored, and was written before the open decision was. */
static void take_stored(receiver_status *status, const receiver_record *state)
{
    const uint64_t *shown = status->record.words;

    status->in_state = shown[GMV_RECEIVER_CODE] != 0 &&
                       state->words[GMV_RECEIVER_EXPECTED] == shown[GMV_RECEIVER_NEW_EXPECTED] &&
                       state->stored == status->record.stored + (shown[GMV_RECEIVER_TRANSACTION] != 0);
    if (status->record.stored < state->stored || status->in_state) {
        status->record.words[GMV_RECEIVER_EXPECTED] = state->words[GMV_RECEIVER_EXPECTED];
        status->record.stored = state->stored;
        status->record.cleared = state->cleared;
        status->record.cleared_after = state->cleared_after;
    }
}

/* The files are looked at before the state is read: what is stored meanwhile is then no file beyond it. */
static int look_at_receiver(verdict *verdict, const char *folder, receiver_status *status)
{
    static const char *const parts[] = {"transactions"};
    char path[PATH_LENGTH];
    receiver_record state;

    memset(status, 0, sizeof *status);
    status->presence = presence_of(folder);
    path_of(path, folder, "transactions");
    if (greatest_number(path, &status->greatest) != 0 && errno != ENOENT &&
        finds_problem(verdict, folder, "transactions", RECORD_UNREADABLE))
        return 1;
    if (finds_problem(verdict, folder, "state", read_receiver(folder, &status->record)))
        return 1;
    state = status->record;
    if (status->presence == DRIVER_RUNS &&
        lacks_live(verdict, folder, read_shown_receiver(folder, status), &status->presence, &status->starting))
        return 1;
    take_stored(status, &state);
    status->lacks = lacking_folder(folder, parts, sizeof parts / sizeof parts[0]);
    judge_receiver(verdict, status);
    return 0;
}

/* ---- what is said: the verdict first, though it is known last */

static void say_end(FILE *out, const char *folder, enum kind kind, verdict *verdict)
{
    sender_status sender;
    receiver_status receiver;

    if (kind == SENDER && look_at_sender(verdict, folder, &sender) == 0)
        say_sender(out, &sender);
    if (kind != SENDER && look_at_receiver(verdict, folder, &receiver) == 0)
        say_receiver(out, &receiver);
}

static void say_one_of(FILE *out, const char *folder, enum kind kind, const char *name, verdict *all)
{
    verdict own = {GOOD, ""};

    if (kind_of(folder) != kind && kind_of(folder) != NO_END)
        add_reason(all, UNKNOWN, R_WRONG_KIND, folder, name);
    else
        say_end(out, folder, kind, &own);
    if (own.reasons[0] != '\0')
        add_reason(all, own.severity, "%s: %s", name, own.reasons);
}

/* Reads both. Returns 0, or -1 where a state cannot be read. */
static int open_books(pair *books)
{
    char path[PATH_LENGTH];

    path_of(path, books->receiver, "transactions");
    return read_sender(books->sender, &books->before) == NULL && greatest_number(path, &books->greatest) == 0 &&
                   read_receiver(books->receiver, &books->record) == NULL &&
                   read_sender(books->sender, &books->after) == NULL
               ? 0
               : -1;
}

/* While drivers run, the two ends are not read at one moment: a difference counts where further looks find it too. */
static void say_books(FILE *out, const char *sender, const char *receiver, verdict *all)
{
    const struct timespec pause = {0, 100000000};
    const int stopped = presence_of(sender) == DRIVER_STOPPED && presence_of(receiver) == DRIVER_STOPPED;
    pair books;

    memset(&books, 0, sizeof books);
    books.sender = sender;
    books.receiver = receiver;
    for (int looks = 1;; looks++) {
        verdict own = {GOOD, ""};
        char *found = NULL;
        size_t length;
        FILE *looked = open_memstream(&found, &length);
        int differ = 0;

        if (looked == NULL)
            fail("no memory");
        if (open_books(&books) == 0)
            differ = compare_books(looked, &books, &own);
        else
            compare_files(looked, &books, &own);
        fclose(looked);
        if (!differ || stopped || looks == LOOKS) {
            fprintf(out, "%s", found);
            if (own.reasons[0] != '\0')
                add_reason(all, own.severity, "%s", own.reasons);
            free(found);
            return;
        }
        free(found);
        nanosleep(&pause, NULL);
    }
}

/* The data limit that a running driver was started with; 0 where it is not known. */
static unsigned long data_limit_of(const running_details *running)
{
    const char *at = strstr(running->settings, ", data limit ");

    return at == NULL ? 0 : strtoul(at + strlen(", data limit "), NULL, 10);
}

static void compare_limits(const char *sender, const char *receiver, verdict *all)
{
    verdict ignored = {GOOD, ""};
    sender_status one;
    receiver_status other;

    if (look_at_sender(&ignored, sender, &one) != 0 || look_at_receiver(&ignored, receiver, &other) != 0 ||
        one.presence != DRIVER_RUNS || other.presence != DRIVER_RUNS)
        return;
    if (data_limit_of(&one.running) != data_limit_of(&other.running))
        add_reason(all, WARNING, R_LIMITS, data_limit_of(&one.running), data_limit_of(&other.running));
}

static void say_pair(FILE *out, const char *sender, const char *receiver, verdict *all)
{
    const int right = kind_of(sender) != RECEIVER && kind_of(receiver) != SENDER;

    say_one_of(out, sender, SENDER, "sender", all);
    say_one_of(out, receiver, RECEIVER, "receiver", all);
    if (!right)
        return;
    compare_limits(sender, receiver, all);
    say_books(out, sender, receiver, all);
}

int main(int count, char **words)
{
    verdict all = {GOOD, ""};
    char *facts = NULL;
    size_t length;
    FILE *out;

    name_program("linkstatus", UNKNOWN);
    if (count == 2 && strcmp(words[1], "--version") == 0)
        return say_version();
    require_version();
    if (count != 2 && count != 3) {
        fprintf(stderr, "linkstatus DIR\nlinkstatus SENDER RECEIVER\nlinkstatus --version\n");
        return UNKNOWN;
    }
    out = open_memstream(&facts, &length);
    if (out == NULL)
        fail("no memory");
    if (count == 2)
        say_end(out, words[1], kind_of(words[1]), &all);
    else
        say_pair(out, words[1], words[2], &all);
    if (fclose(out) != 0)
        fail("no memory");
    say_verdict(stdout, &all);
    printf("%s", facts);
    free(facts);
    return all.severity;
}
