#include "status.h"

#include <stdarg.h>
#include <string.h>

#include "common.h"

/* Every sentence of the read-out. The values follow in the order in which they are named. First the reasons of the
 * verdict, which stand in the first line. */
#define R_FROZEN "frozen: do not reset before the books are compared"
#define R_NO_DRIVER "no driver runs"
#define R_STARTS "the driver is starting"
#define R_START_HANGS "the driver has been starting for %llu s"
#define R_UNKNOWN "it cannot be told whether a driver runs"
#define R_HANGS "the driver has not turned for %llu s"
#define R_NO_CIRCUIT "no circuit for %llu s: %s"
#define R_GAVE_UP "gave up %s since the last delivery"
#define R_HUNG_UP "%s soon ended by the peer"
#define R_ANSWERS_REFUSED "%s refused since the last delivery, the last by %llu: %s"
#define R_DROPPED "%s to something else since the last delivery"
#define R_REFUSED_FILES "%s refused"
#define R_OLD "the oldest of %llu not delivered waits for %llu s"
#define R_NO_NUMBER "no number is left"
#define R_UNCHECKED "the state has no check yet"
#define R_BLOCKS_REFUSED "%s refused since the last transaction, the last by %llu: %s"
#define R_REJECTED "%s answered AR since the last transaction"
#define R_CALLED "%s ended by a new caller"
#define R_CLEARED "-1 took the expected number %llu away after %s"
#define R_UNSTORED "%s not stored since the last that was: %s"
#define R_STORING "%s waits for the disk for %llu s"
#define R_BEYOND "a file at position %llu, and %s stored"
#define R_NO_FOLDER "%s/ is missing"

#define FROZEN \
    "sender: frozen: waited on %s and got %s %s for control ID %s; an operator must reset it\n"
#define NO_CIRCUIT "sender: no circuit open\n"
#define NO_DRIVER "sender: no driver runs on this folder, no circuit open\n"
#define STARTS "sender: the driver is starting, no circuit open\n"
#define SENDER_UNKNOWN "sender: it cannot be told whether a driver runs on this folder\n"
#define IDLE "sender: a circuit is open and nothing waits\n"
#define WAITS_RESYNCHRONIZE \
    "sender: waiting for the answer to -1 (resynchronizing), sent %s on this circuit\n"
#define WAITS_QUERY \
    "sender: waiting for the answer to 0 (which number is expected), sent %s on this circuit\n"
#define WAITS_TRANSACTION \
    "sender: waiting for the answer to transaction %llu, sent %s on this circuit\n"
#define NONE_DELIVERED "nothing delivered yet (first number %llu)\n"
#define DELIVERED "delivered up to %llu (first number %llu)\n"
#define NOT_DELIVERED "%llu not delivered: %llu submitted, %llu in spool/, %llu in refused/\n"
#define NOT_DELIVERED_SINCE \
    "%llu not delivered: %llu submitted, %llu in spool/, %llu in refused/, the oldest for %llu s\n"
#define EMPTY_FILES "%s refused, see refused/\n"
#define NEXT_NUMBER "the next number to submit is %llu\n"
#define NO_NUMBER "no number is left to submit\n"
#define RESYNCHRONIZED "resynchronized with the receiver\n"
#define NOT_RESYNCHRONIZED "not yet resynchronized with the receiver\n"
#define CIRCUITS "%s opened since the driver started, gave up %s\n"
#define ERRORS "%s answered AE since the driver started, the last was %llu\n"
#define ACT_DELIVERED "last act: %llu is delivered, %s\n"
#define ACT_ABANDONED "last act: gave up after %s, the circuit ended\n"
#define ACT_DROPPED "last act: an answer to something else was dropped\n"
#define ACT_REFUSED "last act: a block was refused by %llu (%s)\n"
#define EXPECTS "receiver: expects %llu, %s stored\n"
#define EXPECTS_ANY \
    "receiver: expects any number (nothing stored since it was resynchronized), %s stored\n"
#define CLEARED "the last -1 took the expected number %llu away, after %s\n"
#define DECIDING "deciding on %s: not stored yet\n"
#define DECIDED "deciding on %s: in the state, not answered yet\n"
#define UNSTORED "%s not stored since the driver started, the last one %llu s ago: %s\n"
#define RECEIVER_NO_DRIVER "no driver runs on this folder\n"
#define RECEIVER_STARTS "the driver is starting, no circuit open\n"
#define RECEIVER_UNKNOWN "it cannot be told whether a driver runs on this folder\n"
#define RECEIVER_CIRCUIT "a circuit is open\n"
#define RECEIVER_NO_CIRCUIT "no circuit open\n"
#define BLOCKS "%s read on %s since the driver started, %llu refused, %llu answered AR\n"
#define LAST_REFUSED "the last refused block was refused by %llu (%s)\n"
#define TURNED "process %llu, last turned %llu s ago\n"
#define SETTINGS "settings: %s\n"
#define PEER "peer: %s\n"
#define NO_PEER "no peer: %s\n"

/* Seconds after which a disk is slow; after which a driver that does not turn, or a link without a circuit, is no passing
 * thing; and after which somebody waits for a result that is not delivered. */
enum { SLOW = 2, PASSING = 10, LATE = 60, TOO_LATE = 300 };
/* As often as this one after the other, it is no passing thing either. */
enum { TWICE = 2, OFTEN = 3 };

const char *counted(char *words, uint64_t count, const char *one, const char *more)
{
    snprintf(words, COUNTED, "%llu %s", (unsigned long long)count, count == 1 ? one : more);
    return words;
}

const char *request_words(char *words, uint64_t transaction)
{
    if (transaction == 0)
        return strcpy(words, "-1");
    snprintf(words, COUNTED, "transaction %llu", (unsigned long long)transaction);
    return words;
}

const char *or_nothing(const char *field, const char *otherwise)
{
    return field[0] == '\0' ? otherwise : field;
}

/* Why a block is refused. */
static const char *block_words(uint64_t number)
{
    static const char *const words[] = {
        "accepted", "a setting", "memory too short", "a byte that data may not have", "too long",
        "wrong shape", "wrong count", "wrong checksum", "a block began inside it",
        "no readable header"};

    return number < sizeof words / sizeof words[0] ? words[number] : "unknown";
}

/* Seconds since a time of now(). */
static unsigned long long seconds_since(uint64_t then)
{
    const long long passed = now() - (long long)then;

    return passed < 0 ? 0 : (unsigned long long)passed / 1000;
}

/* ---- the verdict */

/* What is certain outranks what cannot be told. */
static int rank_of(enum severity severity)
{
    static const int ranks[] = {0, 1, 3, 2};

    return ranks[severity];
}

void add_reason(verdict *verdict, enum severity severity, const char *format, ...)
{
    const size_t length = strlen(verdict->reasons);
    va_list values;

    va_start(values, format);
    if (length + 2 < REASONS) {
        strcpy(verdict->reasons + length, length == 0 ? "" : "; ");
        vsnprintf(verdict->reasons + strlen(verdict->reasons), REASONS - strlen(verdict->reasons), format,
                  values);
    }
    va_end(values);
    if (rank_of(severity) > rank_of(verdict->severity))
        verdict->severity = severity;
}

void say_verdict(FILE *out, const verdict *verdict)
{
    static const char *const names[] = {"good", "warning", "critical", "unknown"};

    fprintf(out, "%s%s%s\n", names[verdict->severity], verdict->reasons[0] == '\0' ? "" : ": ",
            verdict->reasons);
}

/* What holds of every running driver. */
static void judge_running(verdict *verdict, enum presence presence, uint64_t starting, const running_details *running)
{
    if (presence == DRIVER_STOPPED)
        add_reason(verdict, CRITICAL, R_NO_DRIVER);
    else if (presence == DRIVER_STARTS && starting >= PASSING)
        add_reason(verdict, CRITICAL, R_START_HANGS, (unsigned long long)starting);
    else if (presence == DRIVER_STARTS)
        add_reason(verdict, WARNING, R_STARTS);
    else if (presence == DRIVER_UNKNOWN)
        add_reason(verdict, UNKNOWN, R_UNKNOWN);
    else if (seconds_since(running->turned) >= PASSING)
        add_reason(verdict, CRITICAL, R_HANGS, seconds_since(running->turned));
}

static void judge_circuit(verdict *verdict, enum presence presence, const running_details *running)
{
    char words[COUNTED];

    if (presence != DRIVER_RUNS)
        return;
    if (!running->circuit_open && seconds_since(running->since) >= PASSING)
        add_reason(verdict, WARNING, R_NO_CIRCUIT, seconds_since(running->since), running->peer);
    if (running->hung_up >= OFTEN && seconds_since(running->hung_up_at) < TOO_LATE)
        add_reason(verdict, WARNING, R_HUNG_UP, counted(words, running->hung_up, "circuit", "circuits"));
    if (running->called >= TWICE && seconds_since(running->called_at) < TOO_LATE)
        add_reason(verdict, WARNING, R_CALLED, counted(words, running->called, "circuit", "circuits"));
}

static void judge_answers(verdict *verdict, const sender_counts *counts)
{
    char words[COUNTED];

    if (counts->given_up_since != 0)
        add_reason(verdict, WARNING, R_GAVE_UP, counted(words, counts->given_up_since, "time", "times"));
    if (counts->refused_since >= TWICE)
        add_reason(verdict, WARNING, R_ANSWERS_REFUSED,
                   counted(words, counts->refused_since, "answer", "answers"),
                   (unsigned long long)counts->last_refused, block_words(counts->last_refused));
    if (counts->dropped_since >= TWICE)
        add_reason(verdict, WARNING, R_DROPPED, counted(words, counts->dropped_since, "answer", "answers"));
}

static uint64_t not_delivered(const undelivered *all)
{
    return all->waiting + all->spool.files + all->refused.files;
}

static void judge_undelivered(verdict *verdict, const undelivered *all)
{
    char files[COUNTED];

    if (all->refused.files != 0)
        add_reason(verdict, WARNING, R_REFUSED_FILES, counted(files, all->refused.files, "file", "files"));
    if (not_delivered(all) != 0 && all->age >= LATE)
        add_reason(verdict, all->age >= TOO_LATE ? CRITICAL : WARNING, R_OLD,
                   (unsigned long long)not_delivered(all), (unsigned long long)all->age);
}

void judge_sender(verdict *verdict, const sender_status *status)
{
    const int frozen = status->record.words[GMV_SENDER_FROZEN] == 1;

    if (frozen)
        add_reason(verdict, CRITICAL, R_FROZEN);
    judge_running(verdict, status->presence, status->starting, &status->running);
    if (!frozen)
        judge_circuit(verdict, status->presence, &status->running);
    if (status->presence == DRIVER_RUNS)
        judge_answers(verdict, &status->counts);
    judge_undelivered(verdict, &status->undelivered);
    if (status->lacks != NULL)
        add_reason(verdict, CRITICAL, R_NO_FOLDER, status->lacks);
    if (status->record.words[GMV_SENDER_LAST] >= GMV_LARGEST_NUMBER)
        add_reason(verdict, WARNING, R_NO_NUMBER);
    if (status->record.unchecked)
        add_reason(verdict, WARNING, R_UNCHECKED);
}

static void judge_requests(verdict *verdict, const receiver_status *status)
{
    const receiver_counts *counts = &status->counts;
    const int lately = seconds_since(counts->wrong_at) < TOO_LATE;
    char words[COUNTED];

    if (counts->refused_since >= TWICE && lately)
        add_reason(verdict, WARNING, R_BLOCKS_REFUSED,
                   counted(words, counts->refused_since, "block", "blocks"),
                   (unsigned long long)counts->last_refused, block_words(counts->last_refused));
    if (counts->rejected_since >= TWICE && lately)
        add_reason(verdict, WARNING, R_REJECTED, counted(words, counts->rejected_since, "request", "requests"));
    if (counts->cleared != 0)
        add_reason(verdict, WARNING, R_CLEARED, (unsigned long long)status->record.cleared,
                   counted(words, status->record.cleared_after, "transaction", "transactions"));
}

/* A full disk, and a slow one. */
static void judge_storing(verdict *verdict, const receiver_status *status)
{
    const uint64_t *words = status->record.words;
    const receiver_counts *counts = &status->counts;
    char request[COUNTED];

    if (counts->unstored_since != 0 && seconds_since(counts->unstored_at) < TOO_LATE)
        add_reason(verdict, CRITICAL, R_UNSTORED, counted(request, counts->unstored_since, "request", "requests"),
                   counts->unstored_reason);
    if (words[GMV_RECEIVER_CODE] != 0 && !status->in_state && seconds_since(status->running.turned) >= SLOW)
        add_reason(verdict, WARNING, R_STORING, request_words(request, words[GMV_RECEIVER_TRANSACTION]),
                   seconds_since(status->running.turned));
}

void judge_receiver(verdict *verdict, const receiver_status *status)
{
    char stored[COUNTED];

    judge_running(verdict, status->presence, status->starting, &status->running);
    judge_circuit(verdict, status->presence, &status->running);
    if (status->presence == DRIVER_RUNS) {
        judge_storing(verdict, status);
        judge_requests(verdict, status);
    }
    if (status->lacks != NULL)
        add_reason(verdict, CRITICAL, R_NO_FOLDER, status->lacks);
    if (status->greatest > status->record.stored + 1)
        add_reason(verdict, CRITICAL, R_BEYOND, (unsigned long long)status->greatest,
                   counted(stored, status->record.stored, "transaction", "transactions"));
    if (status->record.unchecked)
        add_reason(verdict, WARNING, R_UNCHECKED);
}

/* ---- the sender */

static void say_frozen(FILE *out, const freeze_details *freeze)
{
    fprintf(out, FROZEN, freeze->waited, or_nothing(freeze->code, "no code"),
            or_nothing(freeze->expected, "without a number"), or_nothing(freeze->control_id, "none"));
}

static void say_waiting(FILE *out, const uint64_t *words)
{
    char sends[COUNTED];

    counted(sends, words[GMV_SENDER_SENDS], "time", "times");
    if (words[GMV_SENDER_WAITING] == GMV_WAITING_CLOSED)
        fprintf(out, NO_CIRCUIT);
    else if (words[GMV_SENDER_WAITING] == GMV_WAITING_IDLE)
        fprintf(out, IDLE);
    else if (words[GMV_SENDER_WAITING] == GMV_WAITING_RESYNCHRONIZE)
        fprintf(out, WAITS_RESYNCHRONIZE, sends);
    else if (words[GMV_SENDER_WAITING] == GMV_WAITING_QUERY)
        fprintf(out, WAITS_QUERY, sends);
    else
        fprintf(out, WAITS_TRANSACTION, (unsigned long long)words[GMV_SENDER_DELIVERED] + 1, sends);
}

static void say_sender_state(FILE *out, const sender_record *record, enum presence presence)
{
    if (record->words[GMV_SENDER_FROZEN] == 1)
        say_frozen(out, &record->freeze);
    else if (presence == DRIVER_RUNS)
        say_waiting(out, record->words);
    else if (presence == DRIVER_STARTS)
        fprintf(out, STARTS);
    else
        fprintf(out, presence == DRIVER_STOPPED ? NO_DRIVER : SENDER_UNKNOWN);
}

static void say_undelivered(FILE *out, const undelivered *all)
{
    const unsigned long long count = not_delivered(all), waiting = all->waiting, spool = all->spool.files,
                             refused = all->refused.files;
    char files[COUNTED];

    if (count == 0)
        fprintf(out, NOT_DELIVERED, count, waiting, spool, refused);
    else
        fprintf(out, NOT_DELIVERED_SINCE, count, waiting, spool, refused, (unsigned long long)all->age);
    if (all->refused.empty != 0)
        fprintf(out, EMPTY_FILES, counted(files, all->refused.empty, "empty file", "empty files"));
}

static void say_sender_numbers(FILE *out, const sender_status *status)
{
    const uint64_t *words = status->record.words;
    const unsigned long long first = words[GMV_SENDER_FIRST], delivered = words[GMV_SENDER_DELIVERED],
                             last = words[GMV_SENDER_LAST];

    if (delivered < first)
        fprintf(out, NONE_DELIVERED, first);
    else
        fprintf(out, DELIVERED, delivered, first);
    say_undelivered(out, &status->undelivered);
    if (last < GMV_LARGEST_NUMBER)
        fprintf(out, NEXT_NUMBER, last + 1);
    else
        fprintf(out, NO_NUMBER);
    fprintf(out, words[GMV_SENDER_RESYNCHRONIZED] == 1 ? RESYNCHRONIZED : NOT_RESYNCHRONIZED);
}

static void say_act(FILE *out, const uint64_t *report)
{
    static const char *const verdicts[] = {"the application's verdict is unknown", "AA", "AE"};
    char sends[COUNTED];

    if (report[GMV_ACT_BLOCK] != GMV_OK)
        fprintf(out, ACT_REFUSED, (unsigned long long)report[GMV_ACT_BLOCK],
                block_words(report[GMV_ACT_BLOCK]));
    if (report[GMV_ACT_EVENT] == GMV_EVENT_DELIVERED)
        fprintf(out, ACT_DELIVERED, (unsigned long long)report[GMV_ACT_DELIVERED],
                verdicts[report[GMV_ACT_CODE] <= GMV_CODE_AE ? report[GMV_ACT_CODE] : 0]);
    if (report[GMV_ACT_EVENT] == GMV_EVENT_ABANDONED)
        fprintf(out, ACT_ABANDONED, counted(sends, report[GMV_ACT_SENDS], "send", "sends"));
    if (report[GMV_ACT_EVENT] == GMV_EVENT_DROPPED)
        fprintf(out, ACT_DROPPED);
}

static void say_running(FILE *out, const running_details *running)
{
    fprintf(out, TURNED, (unsigned long long)running->process, seconds_since(running->turned));
    fprintf(out, SETTINGS, running->settings);
    fprintf(out, running->circuit_open ? PEER : NO_PEER, running->peer);
}

void say_sender(FILE *out, const sender_status *status)
{
    char circuits[COUNTED], times[COUNTED];

    say_sender_state(out, &status->record, status->presence);
    say_sender_numbers(out, status);
    if (status->presence != DRIVER_RUNS)
        return;
    fprintf(out, CIRCUITS, counted(circuits, status->counts.circuits, "circuit", "circuits"),
            counted(times, status->counts.given_up, "time", "times"));
    if (status->counts.errors != 0)
        fprintf(out, ERRORS, counted(times, status->counts.errors, "transaction", "transactions"),
                (unsigned long long)status->counts.last_error);
    say_act(out, status->report);
    say_running(out, &status->running);
}

/* ---- the receiver */

static void say_storing(FILE *out, const receiver_status *status)
{
    const uint64_t *words = status->record.words;
    const receiver_counts *counts = &status->counts;
    char request[COUNTED];

    if (words[GMV_RECEIVER_CODE] != 0)
        fprintf(out, status->in_state ? DECIDED : DECIDING, request_words(request, words[GMV_RECEIVER_TRANSACTION]));
    if (counts->unstored != 0)
        fprintf(out, UNSTORED, counted(request, counts->unstored, "request", "requests"),
                seconds_since(counts->unstored_at), counts->unstored_reason);
}

static void say_receiver_live(FILE *out, const receiver_status *status)
{
    const receiver_counts *counts = &status->counts;
    char blocks[COUNTED], circuits[COUNTED];

    say_storing(out, status);
    fprintf(out, status->running.circuit_open ? RECEIVER_CIRCUIT : RECEIVER_NO_CIRCUIT);
    fprintf(out, BLOCKS, counted(blocks, counts->blocks, "block", "blocks"),
            counted(circuits, counts->circuits, "circuit", "circuits"),
            (unsigned long long)counts->refused, (unsigned long long)counts->rejected);
    if (counts->refused != 0)
        fprintf(out, LAST_REFUSED, (unsigned long long)counts->last_refused,
                block_words(counts->last_refused));
    say_running(out, &status->running);
}

void say_receiver(FILE *out, const receiver_status *status)
{
    const receiver_record *record = &status->record;
    char words[COUNTED];

    counted(words, record->stored, "transaction", "transactions");
    if (record->words[GMV_RECEIVER_EXPECTED] == 0)
        fprintf(out, EXPECTS_ANY, words);
    else
        fprintf(out, EXPECTS, (unsigned long long)record->words[GMV_RECEIVER_EXPECTED], words);
    if (record->cleared != 0)
        fprintf(out, CLEARED, (unsigned long long)record->cleared,
                counted(words, record->cleared_after, "transaction", "transactions"));
    if (status->presence == DRIVER_RUNS)
        say_receiver_live(out, status);
    else if (status->presence == DRIVER_STARTS)
        fprintf(out, RECEIVER_STARTS);
    else
        fprintf(out, status->presence == DRIVER_STOPPED ? RECEIVER_NO_DRIVER : RECEIVER_UNKNOWN);
}
