#include "records.h"

#include <errno.h>
#include <stdarg.h>
#include <stdio.h>
#include <stdlib.h>
#include <string.h>

#include "common.h"
#include "store.h"

enum { RECORD_LENGTH = 4096 };

#define SENDER_TITLE "giamuvich sender "
#define SENDER_LIVE_TITLE "giamuvich sender live 2\n"
#define RECEIVER_TITLE "giamuvich receiver "
#define RECEIVER_LIVE_TITLE "giamuvich receiver live 3\n"
#define FORM_FILE "form" /* there once the folder's state has a check */

/* The names of the words, in the library's order. */
static const char *const sender_names[GMV_SENDER_WORDS] = {
    "first", "delivered", "last", "resynchronized", "frozen", "waiting", "sends"};
static const char *const report_names[GMV_ACT_WORDS] = {
    "act_send", "act_send_number", "act_sends", "act_event", "act_delivered", "act_code",
    "act_block", "act_forbidden_offset"};
static const char *const receiver_names[] = {"expected", "stored", "cleared", "cleared_after"};
static const char *const decision_names[GMV_RECEIVER_WORDS - GMV_RECEIVER_PERSISTED_WORDS] = {
    "code", "number", "transaction", "new_expected", "control_id_length", "control_id_1",
    "control_id_2", "control_id_3"};
static const char *const sender_count_names[] = {"circuits", "given_up", "given_up_since",
                                                 "refused_since", "last_refused", "dropped_since",
                                                 "errors", "last_error"};
static const char *const count_names[] = {"circuits", "blocks", "refused", "last_refused", "rejected",
                                          "refused_since", "rejected_since", "wrong_at",
                                          "cleared_since", "unstored", "unstored_since", "unstored_at"};
static const char *const running_names[] = {"process", "turned", "circuit_open", "since",
                                            "hung_up", "hung_up_at", "called", "called_at"};
enum { FIRST_FORM_WORDS = 2, RECEIVER_RECORD_WORDS = 4, SENDER_COUNT_WORDS = 8, COUNT_WORDS = 12,
       RUNNING_WORDS = 8, DECISION_NAMES = sizeof decision_names / sizeof decision_names[0] };

/* ---- text that is made */

typedef struct {
    char bytes[RECORD_LENGTH];
    size_t length;
} text;

static void add(text *to, const char *format, ...)
{
    va_list values;
    int length;

    va_start(values, format);
    length = vsnprintf(to->bytes + to->length, sizeof to->bytes - to->length, format, values);
    va_end(values);
    if (length < 0 || (size_t)length >= sizeof to->bytes - to->length)
        fail("a record is too long");
    to->length += (size_t)length;
}

static void add_words(text *to, const char *const *names, const uint64_t *words, size_t count)
{
    for (size_t i = 0; i < count; i++)
        add(to, "%s %llu\n", names[i], (unsigned long long)words[i]);
}

static void add_freeze(text *to, const sender_record *record)
{
    const freeze_details *freeze = &record->freeze;

    if (record->words[GMV_SENDER_FROZEN] == 1)
        add(to, "waited %s\ncode %s\ncontrol_id %s\nexpected %s\n", freeze->waited, freeze->code,
            freeze->control_id, freeze->expected);
}

static void add_running(text *to, const running_details *running)
{
    const uint64_t words[RUNNING_WORDS] = {
        running->process, running->turned,     running->circuit_open, running->since,
        running->hung_up, running->hung_up_at, running->called,       running->called_at};

    add_words(to, running_names, words, RUNNING_WORDS);
    add(to, "settings %s\npeer %s\n", running->settings, running->peer);
}

/* CRC-32, as in zip files: it sees every change within 32 bits, so every wrong digit. */
static unsigned long check_of(const char *bytes, size_t length)
{
    uint32_t check = 0xFFFFFFFF;

    for (size_t i = 0; i < length; i++) {
        check ^= (uint8_t)bytes[i];
        for (int bit = 0; bit < 8; bit++)
            check = (check >> 1) ^ ((check & 1) != 0 ? 0xEDB88320 : 0);
    }
    return check ^ 0xFFFFFFFF;
}

static void add_check(text *to)
{
    add(to, "check %08lx\nend\n", check_of(to->bytes, to->length));
}

/* ---- text that is read: what was made, line by line */

/* Takes the beginning where the text begins so; else leaves it and returns 0. */
static int takes(const char **at, const char *beginning)
{
    size_t length = strlen(beginning);

    if (strncmp(*at, beginning, length) != 0)
        return 0;
    *at += length;
    return 1;
}

static int takes_word(const char **at, const char *name, uint64_t *word)
{
    char *end;

    if (!takes(at, name) || !takes(at, " ") || **at < '0' || **at > '9')
        return 0;
    errno = 0;
    *word = strtoull(*at, &end, 10);
    *at = end;
    return errno == 0 && takes(at, "\n");
}

static int takes_words(const char **at, const char *const *names, uint64_t *words, size_t count)
{
    for (size_t i = 0; i < count; i++)
        if (!takes_word(at, names[i], &words[i]))
            return 0;
    return 1;
}

static int takes_text(const char **at, const char *name, char *value, size_t size)
{
    size_t length;

    if (!takes(at, name) || !takes(at, " "))
        return 0;
    length = strcspn(*at, "\n");
    if (length >= size)
        return 0;
    memcpy(value, *at, length);
    value[length] = '\0';
    *at += length;
    return takes(at, "\n");
}

static int takes_freeze(const char **at, sender_record *record)
{
    freeze_details *freeze = &record->freeze;

    if (record->words[GMV_SENDER_FROZEN] != 1)
        return 1;
    return takes_text(at, "waited", freeze->waited, FREEZE_TEXT) &&
           takes_text(at, "code", freeze->code, FREEZE_TEXT) &&
           takes_text(at, "control_id", freeze->control_id, FREEZE_TEXT) &&
           takes_text(at, "expected", freeze->expected, FREEZE_TEXT);
}

static int takes_running(const char **at, running_details *running)
{
    uint64_t words[RUNNING_WORDS];

    if (!takes_words(at, running_names, words, RUNNING_WORDS))
        return 0;
    running->process = words[0];
    running->turned = words[1];
    running->circuit_open = words[2];
    running->since = words[3];
    running->hung_up = words[4];
    running->hung_up_at = words[5];
    running->called = words[6];
    running->called_at = words[7];
    return takes_text(at, "settings", running->settings, RUNNING_TEXT) &&
           takes_text(at, "peer", running->peer, RUNNING_TEXT);
}

static int takes_end(const char **at)
{
    return takes(at, "end\n") && **at == '\0';
}

/* The check is of all bytes before its own line. */
static int takes_check(const char **at, const char *bytes)
{
    char wanted[32];

    snprintf(wanted, sizeof wanted, "check %08lx\n", check_of(bytes, (size_t)(*at - bytes)));
    return takes(at, wanted);
}

/* A state's title and its form: 1, without a check, or 2. The other end's is none. */
static int takes_title(const char **at, const char *title, uint64_t *unchecked)
{
    if (!takes(at, title))
        return 0;
    *unchecked = (uint64_t)takes(at, "1\n");
    return *unchecked || takes(at, "2\n");
}

/* The file's text with a 0 after it; a 0 in it ends it, and then its last line is missing. */
static const char *read_text(const char *folder, const char *name, char *bytes)
{
    char path[PATH_LENGTH];
    ssize_t length;

    path_of(path, folder, name);
    length = read_file(path, bytes, RECORD_LENGTH);
    if (length < 0)
        return errno == ENOENT ? RECORD_MISSING : RECORD_UNREADABLE;
    if (length == RECORD_LENGTH || memchr(bytes, '\0', (size_t)length) != NULL)
        return RECORD_DAMAGED;
    bytes[length] = '\0';
    return NULL;
}

/* A state of the first form is taken once: the driver writes it again with a check, and asks for it then. */
static const char *unchecked_problem(const char *folder, uint64_t unchecked)
{
    char path[PATH_LENGTH];

    path_of(path, folder, FORM_FILE);
    return unchecked && !is_missing(path) ? "has lost its check: it is not what the driver wrote"
                                                 : NULL;
}

void require_checks(const char *folder)
{
    char path[PATH_LENGTH];

    path_of(path, folder, FORM_FILE);
    if (is_missing(path))
        store_durably(folder, FORM_FILE, "2\n", 2);
}

/* ---- words that are a state: an act that applies to every state of that kind is tried on a copy */

enum { LEAST_LIMIT = 128, MINIMAL_OVERHEAD = 3 }; /* any link's settings do for a trial */

static int is_sender(const uint64_t *words)
{
    uint64_t copy[GMV_SENDER_WORDS], report[GMV_ACT_WORDS], number;

    memcpy(copy, words, sizeof copy);
    if (copy[GMV_SENDER_WAITING] != GMV_WAITING_CLOSED)
        number = gmv_sender_ended(copy, GMV_SENDER_WORDS, report, GMV_ACT_WORDS);
    else if (copy[GMV_SENDER_FROZEN] == 1)
        number = gmv_sender_reset(copy, GMV_SENDER_WORDS, report, GMV_ACT_WORDS);
    else
        number = gmv_sender_open(copy, GMV_SENDER_WORDS, report, GMV_ACT_WORDS);
    return number == GMV_OK;
}

/* An open decision can be reported; where none is, an N block is dropped. */
static int is_receiver(const uint64_t *words)
{
    uint64_t copy[GMV_RECEIVER_WORDS], report[GMV_DECISION_WORDS];
    uint8_t reply[LEAST_LIMIT + MINIMAL_OVERHEAD];

    memcpy(copy, words, sizeof copy);
    if (copy[GMV_RECEIVER_CODE] != 0)
        return gmv_minimal_answer(LEAST_LIMIT, GMV_NOT_STORED, copy, GMV_RECEIVER_WORDS, reply, sizeof reply, 0, report,
                                  GMV_DECISION_WORDS) == GMV_OK;
    return gmv_receiver_decide(GMV_CODE_AA, GMV_NAK_BLOCK, NULL, 0, copy, GMV_RECEIVER_WORDS, report,
                               GMV_DECISION_WORDS) == GMV_OK;
}

/* ---- the sender */

const char *read_sender(const char *folder, sender_record *record)
{
    char bytes[RECORD_LENGTH + 1];
    const char *at = bytes, *problem = read_text(folder, "state", bytes);

    memset(record, 0, sizeof *record);
    if (problem != NULL)
        return problem;
    if (takes(&at, RECEIVER_TITLE))
        return "is a receiver's";
    if (!takes_title(&at, SENDER_TITLE, &record->unchecked) ||
        !takes_words(&at, sender_names, record->words, GMV_SENDER_PERSISTED_WORDS) ||
        !takes_freeze(&at, record) || !(record->unchecked || takes_check(&at, bytes)) || !takes_end(&at))
        return RECORD_DAMAGED;
    if (!is_sender(record->words))
        return "has words that are no sender's state";
    return unchecked_problem(folder, record->unchecked);
}

static int takes_sender_counts(const char **at, sender_counts *counts)
{
    uint64_t counted[SENDER_COUNT_WORDS];

    if (!takes_words(at, sender_count_names, counted, SENDER_COUNT_WORDS))
        return 0;
    counts->circuits = counted[0];
    counts->given_up = counted[1];
    counts->given_up_since = counted[2];
    counts->refused_since = counted[3];
    counts->last_refused = counted[4];
    counts->dropped_since = counted[5];
    counts->errors = counted[6];
    counts->last_error = counted[7];
    return 1;
}

const char *read_sender_live(const char *folder, sender_record *record, uint64_t *report,
                             sender_counts *counts, running_details *running)
{
    char bytes[RECORD_LENGTH + 1];
    const char *at = bytes, *problem = read_text(folder, "live", bytes);

    if (problem != NULL)
        return problem;
    memset(record, 0, sizeof *record);
    if (!takes(&at, SENDER_LIVE_TITLE) || !takes_words(&at, sender_names, record->words, GMV_SENDER_WORDS) ||
        !takes_words(&at, report_names, report, GMV_ACT_WORDS) || !takes_sender_counts(&at, counts) ||
        !takes_running(&at, running) || !takes_freeze(&at, record) || !takes_end(&at))
        return RECORD_DAMAGED;
    return is_sender(record->words) ? NULL : "has words that are no sender's state";
}

void store_sender(const char *folder, const sender_record *record)
{
    text made = {"", 0};

    add(&made, "%s2\n", SENDER_TITLE);
    add_words(&made, sender_names, record->words, GMV_SENDER_PERSISTED_WORDS);
    add_freeze(&made, record);
    add_check(&made);
    store_durably(folder, "state", made.bytes, made.length);
}

void show_sender(const char *folder, const sender_record *record, const uint64_t *report,
                 const sender_counts *counts, const running_details *running)
{
    const uint64_t counted[SENDER_COUNT_WORDS] = {
        counts->circuits,      counts->given_up,     counts->given_up_since, counts->refused_since,
        counts->last_refused, counts->dropped_since, counts->errors,         counts->last_error};
    text made = {"", 0};

    add(&made, "%s", SENDER_LIVE_TITLE);
    add_words(&made, sender_names, record->words, GMV_SENDER_WORDS);
    add_words(&made, report_names, report, GMV_ACT_WORDS);
    add_words(&made, sender_count_names, counted, SENDER_COUNT_WORDS);
    add_running(&made, running);
    add_freeze(&made, record);
    add(&made, "end\n");
    store_lightly(folder, "live", made.bytes, made.length);
}

/* ---- the receiver */

static const char *receiver_of(const uint64_t *words, receiver_record *record)
{
    record->words[GMV_RECEIVER_EXPECTED] = words[0];
    record->stored = words[1];
    record->cleared = words[2];
    record->cleared_after = words[3];
    return is_receiver(record->words) ? NULL : "has words that are no receiver's state";
}

const char *read_receiver(const char *folder, receiver_record *record)
{
    char bytes[RECORD_LENGTH + 1];
    const char *at = bytes, *problem = read_text(folder, "state", bytes);
    uint64_t words[RECEIVER_RECORD_WORDS] = {0};

    memset(record, 0, sizeof *record);
    if (problem != NULL)
        return problem;
    if (takes(&at, SENDER_TITLE))
        return "is a sender's";
    if (!takes_title(&at, RECEIVER_TITLE, &record->unchecked) ||
        !takes_words(&at, receiver_names, words, record->unchecked ? FIRST_FORM_WORDS : RECEIVER_RECORD_WORDS) ||
        !(record->unchecked || takes_check(&at, bytes)) || !takes_end(&at))
        return RECORD_DAMAGED;
    problem = receiver_of(words, record);
    return problem != NULL ? problem : unchecked_problem(folder, record->unchecked);
}

static int takes_receiver_counts(const char **at, receiver_counts *counts)
{
    uint64_t counted[COUNT_WORDS];

    if (!takes_words(at, count_names, counted, COUNT_WORDS))
        return 0;
    counts->circuits = counted[0];
    counts->blocks = counted[1];
    counts->refused = counted[2];
    counts->last_refused = counted[3];
    counts->rejected = counted[4];
    counts->refused_since = counted[5];
    counts->rejected_since = counted[6];
    counts->wrong_at = counted[7];
    counts->cleared = counted[8];
    counts->unstored = counted[9];
    counts->unstored_since = counted[10];
    counts->unstored_at = counted[11];
    return takes_text(at, "unstored_reason", counts->unstored_reason, REASON_TEXT);
}

const char *read_receiver_live(const char *folder, receiver_record *record, receiver_counts *counts,
                               running_details *running)
{
    char bytes[RECORD_LENGTH + 1];
    const char *at = bytes, *problem = read_text(folder, "live", bytes);
    uint64_t words[RECEIVER_RECORD_WORDS];

    if (problem != NULL)
        return problem;
    memset(record, 0, sizeof *record);
    if (!takes(&at, RECEIVER_LIVE_TITLE) || !takes_words(&at, receiver_names, words, RECEIVER_RECORD_WORDS) ||
        !takes_words(&at, decision_names, record->words + GMV_RECEIVER_PERSISTED_WORDS, DECISION_NAMES) ||
        !takes_receiver_counts(&at, counts) || !takes_running(&at, running) || !takes_end(&at))
        return RECORD_DAMAGED;
    return receiver_of(words, record);
}

static void add_receiver(text *to, const receiver_record *record)
{
    const uint64_t words[RECEIVER_RECORD_WORDS] = {record->words[GMV_RECEIVER_EXPECTED], record->stored,
                                                   record->cleared, record->cleared_after};

    add_words(to, receiver_names, words, RECEIVER_RECORD_WORDS);
}

int store_receiver(const char *folder, const receiver_record *record)
{
    text made = {"", 0};

    add(&made, "%s2\n", RECEIVER_TITLE);
    add_receiver(&made, record);
    add_check(&made);
    return store_if_space(folder, "state", made.bytes, made.length);
}

void show_receiver(const char *folder, const receiver_record *record, const receiver_counts *counts,
                   const running_details *running)
{
    const uint64_t counted[COUNT_WORDS] = {counts->circuits, counts->blocks, counts->refused,
                                           counts->last_refused, counts->rejected, counts->refused_since,
                                           counts->rejected_since, counts->wrong_at, counts->cleared,
                                           counts->unstored, counts->unstored_since, counts->unstored_at};
    text made = {"", 0};

    add(&made, "%s", RECEIVER_LIVE_TITLE);
    add_receiver(&made, record);
    add_words(&made, decision_names, record->words + GMV_RECEIVER_PERSISTED_WORDS, DECISION_NAMES);
    add_words(&made, count_names, counted, COUNT_WORDS);
    add(&made, "unstored_reason %s\n", counts->unstored_reason);
    add_running(&made, running);
    add(&made, "end\n");
    store_lightly(folder, "live", made.bytes, made.length);
}
