/* The sending end: it submits what the spool has, and sends what the library names. */
#include <errno.h>
#include <limits.h>
#include <stdio.h>
#include <stdlib.h>
#include <string.h>
#include <unistd.h>

#include "common.h"
#include "ends.h"
#include "line.h"
#include "link_calls.h"
#include "log.h"
#include "records.h"
#include "said.h"
#include "spool.h"
#include "store.h"

enum { SPOOL_INTERVAL = 50 /* milliseconds between two looks at an empty spool */, PART = 4096 };
enum { MOST_PAUSE = 1000 /* milliseconds from giving up to the next call, where the timer has more */ };

typedef struct {
    const char *folder;
    const settings *link;
    line line;
    input input;
    sender_record record;                           /* the state as it is held */
    uint64_t persisted[GMV_SENDER_PERSISTED_WORDS]; /* and what of it is persisted */
    uint64_t report[GMV_ACT_WORDS];
    sender_counts counts;
    running_details running;
    int changed;                       /* since the read-out was written */
    uint64_t named, named_number;      /* the send that was named last and is not begun yet */
    char waited[FREEZE_TEXT];          /* what the send that was named last is of: -1, 0 or a number */
    uint8_t *block;                    /* the block that is going out */
    size_t block_size, block_length, block_written;
    uint8_t *message;                  /* a message of the spool or of the log */
    size_t message_size;
    long long timer, next_look;        /* when the timer runs out; when to look into the spool */
} sending_end;

/* ---- what every act does after the library's call */

static void persist(sending_end *end)
{
    if (memcmp(end->persisted, end->record.words, sizeof end->persisted) == 0)
        return;
    require_same_folder(end->folder);
    store_sender(end->folder, &end->record);
    memcpy(end->persisted, end->record.words, sizeof end->persisted);
}

static void note_waited(sending_end *end)
{
    if (end->named == GMV_SEND_TRANSACTION)
        snprintf(end->waited, sizeof end->waited, "%llu", (unsigned long long)end->named_number);
    else
        strcpy(end->waited, end->named == GMV_SEND_QUERY ? "0" : "-1");
}

/* A named send that is not begun gives way to a newer one; a block that is begun goes out whole. */
static void name_send(sending_end *end)
{
    if (end->report[GMV_ACT_SEND] != GMV_SEND_NOTHING) {
        end->named = end->report[GMV_ACT_SEND];
        end->named_number = end->report[GMV_ACT_SEND_NUMBER];
        note_waited(end);
        end->timer = now() + end->link->timer;
    }
    if (end->record.words[GMV_SENDER_WAITING] <= GMV_WAITING_IDLE)
        end->timer = LLONG_MAX;
}

/* The circuit is over: sends named and not written are dropped, also a block that is half written. */
static void drop_circuit(sending_end *end, int hung_up)
{
    line_close(&end->line, hung_up);
    end->named = GMV_SEND_NOTHING;
    end->block_length = end->block_written = 0;
    end->timer = LLONG_MAX;
}

/* Not at once again: a peer that answers nothing is called at a pace that can be seen. */
static void note_give_up(sending_end *end)
{
    end->counts.given_up++;
    end->counts.given_up_since++;
    line_pause(&end->line, end->link->timer < MOST_PAUSE ? end->link->timer : MOST_PAUSE);
    say_gave_up(end->waited, end->report[GMV_ACT_SENDS]);
}

/* What the operator is told counts from the last delivery on, or since nothing waited. */
static void count_act(sending_end *end)
{
    const uint64_t event = end->report[GMV_ACT_EVENT], refused = end->report[GMV_ACT_BLOCK];

    if (event == GMV_EVENT_DELIVERED || end->record.words[GMV_SENDER_WAITING] == GMV_WAITING_IDLE)
        end->counts.given_up_since = end->counts.refused_since = end->counts.dropped_since = 0;
    if (event == GMV_EVENT_DELIVERED)
        line_useful(&end->line);
    if (event == GMV_EVENT_DELIVERED && end->report[GMV_ACT_CODE] == GMV_CODE_AE) {
        end->counts.errors++;
        end->counts.last_error = end->report[GMV_ACT_DELIVERED];
    }
    end->counts.dropped_since += event == GMV_EVENT_DROPPED;
    if (refused != GMV_OK) {
        end->counts.refused_since++;
        end->counts.last_refused = refused;
    }
}

static void write_out(sending_end *end);

/* Persisting comes first: no block goes out before it. What the act names goes out at once. */
static void after_act(sending_end *end, uint64_t number, const char *function)
{
    require_done(number, function);
    persist(end);
    name_send(end);
    if (end->report[GMV_ACT_EVENT] == GMV_EVENT_ABANDONED ||
        end->report[GMV_ACT_EVENT] == GMV_EVENT_FROZE)
        drop_circuit(end, 0); /* the library has ended it already */
    if (end->report[GMV_ACT_EVENT] == GMV_EVENT_ABANDONED)
        note_give_up(end);
    count_act(end);
    end->changed = 1;
    write_out(end);
}

/* ---- what goes out */

static void begin_block(sending_end *end)
{
    uint64_t report[GMV_REPORT_WORDS];

    if (end->named == GMV_SEND_TRANSACTION) {
        ssize_t length = log_read(end->folder, end->named_number, end->message, end->message_size);

        if (length < 0)
            fail("the log has no message %llu", (unsigned long long)end->named_number);
        require_done(link_data_block(end->link, end->message, (size_t)length, end->block,
                                     end->block_size, report),
                     "the writing of a transaction");
    } else {
        uint64_t number = end->named == GMV_SEND_QUERY ? 0 : GMV_MINUS_ONE;

        require_done(link_control_block(end->link, number, end->block, end->block_size, report),
                     "the writing of a control message");
    }
    end->named = GMV_SEND_NOTHING;
    end->block_length = report[GMV_REPORT_BLOCK_LENGTH];
    end->block_written = 0;
}

static int has_output(const sending_end *end)
{
    return end->line.circuit >= 0 &&
           (end->block_written < end->block_length || end->named != GMV_SEND_NOTHING);
}

static void circuit_ended(sending_end *end)
{
    drop_circuit(end, 1);
    after_act(end, gmv_sender_ended(end->record.words, GMV_SENDER_WORDS, end->report, GMV_ACT_WORDS),
              "gmv_sender_ended");
}

/* As much as the line takes now. A peer that does not read stops this and not the timer. */
static void write_out(sending_end *end)
{
    while (has_output(end)) {
        ssize_t count;

        if (end->block_written == end->block_length)
            begin_block(end);
        count = line_write(&end->line, end->block + end->block_written,
                           end->block_length - end->block_written);
        if (count < 0)
            circuit_ended(end);
        if (count <= 0)
            return;
        end->block_written += (size_t)count;
    }
}

/* ---- what comes in */

static void copy_field(char *to, const uint8_t *data, uint64_t offset, uint64_t length)
{
    size_t taken = length < FREEZE_TEXT ? (size_t)length : FREEZE_TEXT - 1;

    memcpy(to, data + offset, taken);
    to[taken] = '\0';
}

/* What it froze on, for the operator: persisted with the state that says that it is frozen. */
static void note_freeze(sending_end *end, const uint8_t *data, size_t length)
{
    freeze_details *freeze = &end->record.freeze;
    uint64_t answer[GMV_ANSWER_WORDS];

    strcpy(freeze->waited, end->waited);
    require_done(gmv_answer_read(data, length, answer, GMV_ANSWER_WORDS), "gmv_answer_read");
    copy_field(freeze->code, data, answer[GMV_ANSWER_CODE_OFFSET], answer[GMV_ANSWER_CODE_LENGTH]);
    copy_field(freeze->control_id, data, answer[GMV_ANSWER_CONTROL_ID_OFFSET],
               answer[GMV_ANSWER_CONTROL_ID_LENGTH]);
    copy_field(freeze->expected, data, answer[GMV_ANSWER_EXPECTED_OFFSET],
               answer[GMV_ANSWER_EXPECTED_LENGTH]);
}

static void hear_block(sending_end *end)
{
    const uint8_t *data = input_data(&end->input);
    const size_t length = end->input.verdict[GMV_VERDICT_DATA_LENGTH];
    const uint64_t number =
        gmv_sender_block(end->link->resends, end->input.verdict[GMV_VERDICT_NUMBER],
                         end->input.verdict[GMV_VERDICT_TYPE], data, length, end->record.words,
                         GMV_SENDER_WORDS, end->report, GMV_ACT_WORDS);

    if (number == GMV_OK && end->report[GMV_ACT_EVENT] == GMV_EVENT_FROZE)
        note_freeze(end, data, length);
    after_act(end, number, "gmv_sender_block");
}

/* Each block is acted on, and what it changed persisted, before the next one is looked at. What was read and
 * not looked at goes with its circuit. */
static void read_in(sending_end *end)
{
    uint8_t part[PART];
    ssize_t length = line_read(&end->line, part, sizeof part);
    size_t used = 0;

    if (length < 0) {
        circuit_ended(end);
        return;
    }
    while (used < (size_t)length && end->line.circuit >= 0 && !stop_requested()) {
        used += input_take(&end->input, end->link, part + used, (size_t)length - used);
        if (end->input.verdict[GMV_VERDICT_FOUND] == 1)
            hear_block(end);
        if (line_is_called(&end->line))
            circuit_ended(end);
    }
}

/* ---- submitting */

/* The number in MSH-13 was submitted with these bytes: the file is left over from a crash. */
static int was_submitted(sending_end *end, size_t length)
{
    uint64_t header[GMV_HEADER_WORDS], number;
    uint8_t *logged;
    int same;

    if (gmv_header_read(end->message, length, header, GMV_HEADER_WORDS) != GMV_OK)
        return 0;
    number = header[GMV_HEADER_SEQUENCE_NUMBER];
    if (header[GMV_HEADER_SEQUENCE_FIELD] != GMV_FIELD_NUMBER ||
        number < end->record.words[GMV_SENDER_FIRST] || number > end->record.words[GMV_SENDER_LAST])
        return 0;
    logged = allocate(end->message_size);
    same = log_read(end->folder, number, logged, end->message_size) == (ssize_t)length &&
           memcmp(logged, end->message, length) == 0;
    free(logged);
    return same;
}

/* The message is durable in the log, then the state that counts it; only then may it be sent, and
 * only then the spool's file goes. Returns 1 where the spool had a file. */
static int submit_next(sending_end *end)
{
    spool_file file;
    uint64_t number;
    ssize_t length;

    require_same_folder(end->folder);
    if (!spool_first(end->folder, &file))
        return 0;
    length = spool_read(end->folder, &file, end->message, end->message_size);
    if (length < 0)
        return 1;
    if (was_submitted(end, (size_t)length)) {
        spool_remove(end->folder, &file);
        return 1;
    }
    number = gmv_sender_submit(end->link->data_limit, end->message, (size_t)length,
                               end->record.words, GMV_SENDER_WORDS, end->report, GMV_ACT_WORDS);
    switch (number) {
    case GMV_OK:
        log_store(end->folder, end->record.words[GMV_SENDER_LAST], end->message, (size_t)length,
                  &file.seen.st_mtim);
        after_act(end, number, "gmv_sender_submit");
        spool_remove(end->folder, &file);
        break;
    case GMV_LONG:
    case GMV_BYTE:
    case GMV_HEAD:
    case GMV_NUMBER:
        spool_refuse(end->folder, &file, number);
        break;
    default:
        require_done(number, "gmv_sender_submit");
    }
    return 1;
}

/* ---- the loop */

/* A message beyond the one that a crash may leave says that the state is an old one. */
static void require_nothing_beyond(const sending_end *end, const char *log)
{
    uint64_t greatest;

    if (greatest_number(log, &greatest) != 0)
        fail("cannot read %s: %s", log, strerror(errno));
    if (greatest > end->record.words[GMV_SENDER_LAST] + 1)
        fail("%s/%llu.hl7 is there, and the state counts up to %llu: nothing is written over", log,
             (unsigned long long)greatest, (unsigned long long)end->record.words[GMV_SENDER_LAST]);
}

/* What is found may be no more than visible, where a crash came before its sync. It is made durable before
 * anything rests on it: the folder is synced, and the state written anew. */
static void make_durable(const sending_end *end, const char *log)
{
    sync_folder(log);
    store_sender(end->folder, &end->record);
    require_checks(end->folder);
}

static void begin(sending_end *end, const char *folder, const settings *link)
{
    char log[PATH_LENGTH];
    const char *problem;

    memset(end, 0, sizeof *end);
    end->folder = folder;
    end->link = link;
    path_of(log, folder, "log");
    problem = read_sender(folder, &end->record);
    if (problem != NULL)
        fail("%s/state %s", folder, problem);
    require_nothing_beyond(end, log);
    make_durable(end, log);
    memcpy(end->persisted, end->record.words, sizeof end->persisted);
    end->running.process = (uint64_t)getpid();
    settings_text(link, end->running.settings, RUNNING_TEXT);
    end->changed = 1;
    end->block_size = link->data_limit + BLOCK_OVERHEAD;
    end->block = allocate(end->block_size);
    end->message_size = link->data_limit + 1; /* one more, so that a longer message is seen */
    end->message = allocate(end->message_size);
    input_allocate(&end->input, link);
    end->timer = LLONG_MAX;
}

/* Once a turn is enough, and without anything new once a second: then it is seen that the driver turns. */
static void show(sending_end *end)
{
    if (!end->changed && now() < (long long)end->running.turned + BEAT)
        return;
    require_same_folder(end->folder);
    line_show(&end->line, &end->running);
    show_sender(end->folder, &end->record, end->report, &end->counts, &end->running);
    end->changed = 0;
    say_repeats(0);
}

/* A new circuit: a fresh reader, and the library names -1 or 0. */
static void open_circuit(sending_end *end)
{
    if (end->line.circuit >= 0 || !line_open(&end->line))
        return;
    input_start(&end->input);
    end->counts.circuits++;
    after_act(end, gmv_sender_open(end->record.words, GMV_SENDER_WORDS, end->report, GMV_ACT_WORDS),
              "gmv_sender_open");
}

static void run_timer(sending_end *end)
{
    if (now() < end->timer)
        return;
    after_act(end, gmv_sender_timer(end->link->resends, end->record.words, GMV_SENDER_WORDS,
                                    end->report, GMV_ACT_WORDS),
              "gmv_sender_timer");
}

/* One turn. What came in is read before the timer is looked at: an answer that is there counts. */
static void turn(sending_end *end)
{
    long long until;
    int seen;

    open_circuit(end);
    if (now() >= end->next_look && !submit_next(end))
        end->next_look = now() + SPOOL_INTERVAL;
    show(end);
    until = earliest(end->next_look, earliest(end->timer, line_next_try(&end->line)));
    seen = line_wait(&end->line, has_output(end), until);
    if (seen & LINE_WRITABLE)
        write_out(end);
    if (end->line.circuit >= 0 && (seen & (LINE_READABLE | LINE_CALLED)))
        read_in(end);
    run_timer(end);
}

/* Frozen: nothing is sent and nothing submitted until an operator resets it, with no driver running. */
static void stay_frozen(sending_end *end)
{
    line_finish(&end->line);
    say_froze(&end->record);
    while (!stop_requested()) {
        show(end);
        line_wait(&end->line, 0, now() + BEAT);
    }
}

static void require_sender(const char *folder)
{
    if (is_missing(folder))
        fail("no such end: make it with gmv_driver sender-init %s FIRST", folder);
}

void sender_run(const char *folder, const settings *link)
{
    sending_end end;

    require_sender(folder);
    if (lock_folder(folder) != 0)
        fail("a driver runs on %s already", folder);
    begin(&end, folder, link);
    line_prepare(&end.line, link);
    say_started(end.running.settings);
    while (!stop_requested() && end.record.words[GMV_SENDER_FROZEN] == 0)
        turn(&end);
    if (end.record.words[GMV_SENDER_FROZEN] == 1)
        stay_frozen(&end);
    line_finish(&end.line);
    say_stopped();
    free(end.block);
    free(end.message);
    free(end.input.buffer);
}

/* ---- by the operator */

void sender_create(const char *folder, const char *first)
{
    const char *const parts[] = {"log", "spool", "refused"};
    char path[PATH_LENGTH], *rest;
    sender_record record;
    unsigned long long number = strtoull(first, &rest, 10);

    memset(&record, 0, sizeof record);
    if (first[0] < '0' || first[0] > '9' || *rest != '\0' ||
        gmv_sender_fresh(number, record.words, GMV_SENDER_WORDS) != GMV_OK)
        fail("the first number is 1 to 999999999999998");
    make_folder(folder);
    if (lock_folder(folder) != 0)
        fail("a driver runs on %s already", folder);
    path_of(path, folder, "state");
    if (access(path, F_OK) == 0)
        fail("%s has a state already", folder);
    for (size_t i = 0; i < sizeof parts / sizeof parts[0]; i++) {
        path_of(path, folder, parts[i]);
        make_folder(path);
        if (i == 0)
            require_no_numbers(path); /* what is in the log was submitted by a state that is gone */
        sync_folder(path);
    }
    path_of(path, folder, "..");
    sync_folder(path);
    sync_folder(folder); /* no state without its folders */
    store_sender(folder, &record);
    require_checks(folder);
}

void sender_reset(const char *folder)
{
    sender_record record;
    uint64_t report[GMV_ACT_WORDS], number;
    const char *problem;

    require_sender(folder);
    if (lock_folder(folder) != 0)
        fail("a driver runs on %s: stop it first", folder);
    problem = read_sender(folder, &record);
    if (problem != NULL)
        fail("%s/state %s", folder, problem);
    number = gmv_sender_reset(record.words, GMV_SENDER_WORDS, report, GMV_ACT_WORDS);
    if (number == GMV_STATE)
        fail("the sender of %s is not frozen", folder);
    require_done(number, "gmv_sender_reset");
    store_sender(folder, &record);
    require_checks(folder);
}
