/* The receiving end. Of each block that was accepted: decide, store, report, send. */
#include <errno.h>
#include <limits.h>
#include <stdio.h>
#include <stdlib.h>
#include <string.h>
#include <unistd.h>

#include "common.h"
#include "ends.h"
#include "line.h"
#include "link_calls.h"
#include "records.h"
#include "said.h"
#include "store.h"

enum { PART = 4096, TRANSACTION_NAME = 32, MOST_WAIT = 8000 /* milliseconds */ };

typedef struct {
    const char *folder;
    char transactions[PATH_LENGTH];
    const settings *link;
    line line;
    input input;
    receiver_record record;
    receiver_counts counts;
    running_details running;
    int leftover; /* a file beyond the count may be there: a crash left it, or a store that failed */
    int changed;  /* since the read-out was written */
    uint8_t *reply;
    size_t reply_size;
} receiving_end;

/* The file of the transaction at a position, 1 for the first. */
static void transaction_name(char *name, uint64_t position)
{
    snprintf(name, TRANSACTION_NAME, "%015llu.hl7", (unsigned long long)position);
}

/* A file beyond the count is written over only where it may be what a crash or a failed store left. Returns 0, or -1 where
 * there is no room. */
static int store_transaction(receiving_end *end, uint64_t position)
{
    char name[TRANSACTION_NAME], path[PATH_LENGTH];

    transaction_name(name, position);
    path_of(path, end->transactions, name);
    if (!end->leftover && !is_missing(path))
        fail("%s is there already, and %llu are stored: it is not written over", path,
             (unsigned long long)end->record.stored);
    if (store_if_space(end->transactions, name, input_data(&end->input),
                      end->input.verdict[GMV_VERDICT_DATA_LENGTH]) != 0)
        return -1;
    end->leftover = 1; /* until it is counted */
    return 0;
}

/* What is left of a store that failed counts for nothing, and holds room. */
static void remove_transaction(receiving_end *end, uint64_t position)
{
    char name[TRANSACTION_NAME], path[PATH_LENGTH];
    const int error = errno;

    transaction_name(name, position);
    path_of(path, end->transactions, name);
    end->leftover = unlink(path) != 0;
    errno = error;
}

/* A transaction and the new expected number are one act: the file stands beyond the count until the
 * rename of the state counts it. Returns 0, or -1 where there is no room: then nothing is persisted. */
static int persist(receiving_end *end, const receiver_record *after)
{
    const int has_transaction = after->stored != end->record.stored;
    int stored;

    if (has_transaction && store_transaction(end, after->stored) != 0)
        return -1;
    stored = store_receiver(end->folder, after); /* the commit point */
    if (has_transaction && stored == 0)
        end->leftover = 0;
    else if (has_transaction)
        remove_transaction(end, after->stored);
    return stored;
}

/* ---- what is shown and said */

static void show_now(receiving_end *end)
{
    line_show(&end->line, &end->running);
    show_receiver(end->folder, &end->record, &end->counts, &end->running);
}

/* Once a turn is enough, and without anything new once a second: then it is seen that the driver turns. */
static void show(receiving_end *end)
{
    if (!end->changed && now() < (long long)end->running.turned + BEAT)
        return;
    require_same_folder(end->folder);
    show_now(end);
    end->changed = 0;
    say_repeats(0);
}

/* The number just before the expected one: its answer was lost, and it is sent again. */
static int is_resend(const receiving_end *end)
{
    uint64_t header[GMV_HEADER_WORDS];

    return gmv_header_read(input_data(&end->input), end->input.verdict[GMV_VERDICT_DATA_LENGTH], header,
                           GMV_HEADER_WORDS) == GMV_OK &&
           header[GMV_HEADER_SEQUENCE_FIELD] == GMV_FIELD_NUMBER &&
           header[GMV_HEADER_SEQUENCE_NUMBER] + 1 == end->record.words[GMV_RECEIVER_EXPECTED];
}

/* While the decision is open: its code is counted. */
static void count_decision(receiving_end *end, uint64_t transaction, uint64_t stored)
{
    const int rejects = end->record.words[GMV_RECEIVER_CODE] == GMV_CODE_AR;
    const int takes = transaction != 0 && stored == GMV_STORED;

    end->counts.rejected += rejects;
    end->counts.rejected_since += rejects;
    if (takes || (rejects && is_resend(end)))
        end->counts.rejected_since = end->counts.refused_since = 0; /* it goes on */
    if (rejects)
        end->counts.wrong_at = (uint64_t)now();
    if (takes)
        line_useful(&end->line);
}

static void count_refused(receiving_end *end, uint64_t block_number)
{
    end->counts.wrong_at = (uint64_t)now();
    end->counts.refused++;
    end->counts.refused_since++;
    end->counts.last_refused = block_number;
}

/* Where -1 takes an expected number away, a new tenancy begins or a stranger called: the operator is told. */
static void note_cleared(receiving_end *end, uint64_t before)
{
    end->counts.cleared++;
    say_cleared(end->line.peer, before, end->record.stored);
}

static void note_unstored(receiving_end *end, uint64_t transaction)
{
    snprintf(end->counts.unstored_reason, REASON_TEXT, "%s", strerror(errno));
    end->counts.unstored++;
    end->counts.unstored_since++;
    end->counts.unstored_at = (uint64_t)now();
    say_unstored(transaction, end->counts.unstored_reason);
}

static void note_stored(receiving_end *end, uint64_t transaction)
{
    if (end->counts.unstored_since != 0)
        say_space(transaction, end->counts.unstored_since);
    end->counts.unstored_since = 0;
}

/* ---- a block: decide, store, report, send */

static void decide(receiving_end *end, uint64_t *decision)
{
    require_done(link_decide(end->link, end->record.words, &end->input, decision), "gmv_receiver_decide");
}

/* What is persisted once the decision is stored. Its expected number is in the words when it is reported. */
static receiver_record after_decision(const receiving_end *end, const uint64_t *decision)
{
    const uint64_t before = end->record.words[GMV_RECEIVER_EXPECTED];
    receiver_record after = end->record;

    after.words[GMV_RECEIVER_EXPECTED] = decision[GMV_DECISION_EXPECTED];
    after.stored += decision[GMV_DECISION_TRANSACTION] != 0;
    if (before != 0 && decision[GMV_DECISION_EXPECTED] == 0) {
        after.cleared = before;
        after.cleared_after = after.stored;
    }
    return after;
}

/* Returns what is to be reported: GMV_STORED when it survives a crash; GMV_NOT_STORED where there was no room, and nothing
 * of it is stored. Where that cannot be told the program ends, and nothing is reported. What is open is shown before the
 * disk is asked: a disk that hangs is seen, and it costs little beside the syncs. */
static uint64_t store_decision(receiving_end *end, const uint64_t *decision)
{
    const uint64_t before = end->record.words[GMV_RECEIVER_EXPECTED], transaction = decision[GMV_DECISION_TRANSACTION];
    receiver_record after = after_decision(end, decision);

    if (decision[GMV_DECISION_CHANGES] == 0)
        return GMV_STORED; /* it is what is stored */
    require_same_folder(end->folder);
    show_now(end);
    if (persist(end, &after) != 0) {
        note_unstored(end, transaction);
        return GMV_NOT_STORED;
    }
    after.words[GMV_RECEIVER_EXPECTED] = before;
    end->record = after;
    if (decision[GMV_DECISION_EXPECTED] == 0)
        note_cleared(end, before);
    note_stored(end, transaction);
    return GMV_STORED;
}

/* Of the decision that is open, and of no other: what is reported is what its own store said. Returns the answer's length;
 * 0 where nothing is stored, and nothing is to be sent. */
static size_t report_decision(receiving_end *end, uint64_t stored)
{
    uint64_t report[GMV_REPORT_WORDS];

    require_done(link_answer(end->link, stored, end->record.words, end->reply, end->reply_size, report),
                 "the report of a decision");
    return report[GMV_REPORT_BLOCK_LENGTH];
}

/* A peer that does not take the reply in the timer's time has no circuit any more; in less, where the driver would
 * not turn for so long that it looks as if it hangs. */
static void send_reply(receiving_end *end, size_t length)
{
    const long long limit = earliest(end->link->timer, MOST_WAIT);

    if (length != 0 && line_write_all(&end->line, end->reply, length, now() + limit) != 0)
        line_close(&end->line, 0);
}

/* By the reader, or by a decision, which opens nothing then. */
static void refuse(receiving_end *end, uint64_t block_number)
{
    uint64_t report[GMV_REPORT_WORDS];

    count_refused(end, block_number);
    require_done(link_refusal(end->link, block_number, end->record.words, end->reply, end->reply_size, report),
                 "gmv_hybrid_nak");
    send_reply(end, report[GMV_REPORT_BLOCK_LENGTH]);
}

/* The block that the reader just gave. A decision is reported before anything else is done: none is open when the next
 * block is looked at, when a circuit ends, and when the driver stops. */
static void receive_block(receiving_end *end)
{
    uint64_t decision[GMV_DECISION_WORDS], stored;

    end->counts.blocks++;
    end->changed = 1;
    if (end->input.verdict[GMV_VERDICT_NUMBER] != GMV_OK) {
        refuse(end, end->input.verdict[GMV_VERDICT_NUMBER]);
        return;
    }
    decide(end, decision);
    if (decision[GMV_DECISION_BLOCK] != GMV_OK)
        refuse(end, decision[GMV_DECISION_BLOCK]);
    if (decision[GMV_DECISION_OPENED] == 0)
        return;
    stored = store_decision(end, decision);
    count_decision(end, decision[GMV_DECISION_TRANSACTION], stored);
    send_reply(end, report_decision(end, stored));
}

/* One block at a time: persisted and answered before the next one is looked at. What was read and not looked
 * at goes with its circuit. */
static void read_in(receiving_end *end)
{
    uint8_t part[PART];
    ssize_t length = line_read(&end->line, part, sizeof part);
    size_t used = 0;

    while (length > 0 && used < (size_t)length && end->line.circuit >= 0 && !stop_requested()) {
        used += input_take(&end->input, end->link, part + used, (size_t)length - used);
        if (end->input.verdict[GMV_VERDICT_FOUND] == 1)
            receive_block(end);
        if (line_is_called(&end->line))
            length = -1;
    }
    if (length < 0)
        line_close(&end->line, 1);
    if (end->line.circuit < 0)
        end->changed = 1;
}

/* A fresh reader; and no reply is ever kept over a circuit's end. */
static void open_circuit(receiving_end *end)
{
    if (end->line.circuit >= 0 || !line_open(&end->line))
        return;
    input_start(&end->input);
    end->counts.circuits++;
    end->changed = 1;
}

/* A file beyond the one that a crash may leave says that the count is wrong, or the file is not ours. */
static void require_nothing_beyond(const receiving_end *end)
{
    uint64_t greatest;

    if (greatest_number(end->transactions, &greatest) != 0)
        fail("cannot read %s: %s", end->transactions, strerror(errno));
    if (greatest > end->record.stored + 1)
        fail("%s/%015llu.hl7 is there, and the state counts %llu: nothing is written over", end->transactions,
             (unsigned long long)greatest, (unsigned long long)end->record.stored);
}

/* At a start there is nobody to whom a failure could be reported. */
static void create_state(const char *folder, const receiver_record *record)
{
    if (store_receiver(folder, record) != 0)
        fail("cannot write %s/state: %s", folder, strerror(errno));
}

/* What is found may be no more than visible, where a crash came before its sync. It is made durable before
 * anything rests on it: the folder is synced, and the state written anew. */
static void make_durable(const receiving_end *end)
{
    sync_folder(end->transactions);
    create_state(end->folder, &end->record);
    require_checks(end->folder);
}

static void begin(receiving_end *end, const char *folder, const settings *link)
{
    const char *problem;

    memset(end, 0, sizeof *end);
    end->folder = folder;
    end->link = link;
    path_of(end->transactions, folder, "transactions");
    problem = read_receiver(folder, &end->record);
    if (problem != NULL)
        fail("%s/state %s", folder, problem);
    end->record.unchecked = 0;
    end->leftover = 1;
    require_nothing_beyond(end);
    make_durable(end);
    end->running.process = (uint64_t)getpid();
    settings_text(link, end->running.settings, RUNNING_TEXT);
    end->changed = 1;
    end->reply_size = link->data_limit + BLOCK_OVERHEAD;
    end->reply = allocate(end->reply_size);
    input_allocate(&end->input, link);
}

void receiver_run(const char *folder, const settings *link)
{
    receiving_end end;

    if (is_missing(folder))
        fail("no such end: make it with gmv_driver receiver-init %s", folder);
    if (lock_folder(folder) != 0)
        fail("a driver runs on %s already", folder);
    begin(&end, folder, link);
    line_prepare(&end.line, link);
    say_started(end.running.settings);
    while (!stop_requested()) {
        int seen;

        open_circuit(&end);
        show(&end);
        seen = line_wait(&end.line, 0, earliest(line_next_try(&end.line), now() + BEAT));
        if (end.line.circuit >= 0 && (seen & (LINE_READABLE | LINE_CALLED)))
            read_in(&end);
    }
    line_finish(&end.line);
    say_stopped();
    free(end.reply);
    free(end.input.buffer);
}

void receiver_create(const char *folder)
{
    char path[PATH_LENGTH];
    receiver_record record;

    memset(&record, 0, sizeof record);
    require_done(gmv_receiver_fresh(record.words, GMV_RECEIVER_WORDS), "gmv_receiver_fresh");
    make_folder(folder);
    if (lock_folder(folder) != 0)
        fail("a driver runs on %s already", folder);
    path_of(path, folder, "state");
    if (access(path, F_OK) == 0)
        fail("%s has a state already", folder);
    path_of(path, folder, "transactions");
    make_folder(path);
    require_no_numbers(path);
    sync_folder(path);
    path_of(path, folder, "..");
    sync_folder(path);
    sync_folder(folder); /* no state without its folders */
    create_state(folder, &record);
    require_checks(folder);
}
