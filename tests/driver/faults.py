"""Drivers that are wrong on purpose, each by an edit of the sources, and which test must find each. A mend that
no test holds is no mend: the edits take the mends out again."""

import collections
import glob
import os
import shutil
import subprocess

ROOT = os.path.dirname(os.path.dirname(os.path.dirname(os.path.abspath(__file__))))
SOURCES = os.path.join(ROOT, 'examples', 'driver')
INCLUDE = os.environ.get('INCLUDE', os.path.join(ROOT, 'include'))
ARCHIVE = os.environ.get('ARCHIVE', os.path.join(ROOT, 'target', 'staticlib', 'libgiamuvich.a'))
COMPILER = ['gcc', '-std=c99', '-D_XOPEN_SOURCE=700', '-O1', '-w', '-include', 'poll.h', '-I', INCLUDE, '-I', SOURCES]

# By which test a fault is found.
KILLS_TCP = 'kills, minimal over TCP'
KILLS_TERMINAL = 'kills, hybrid over a terminal'
SENDER_WINDOWS = 'the sender is killed before each act'
RECEIVER_WINDOWS = 'the receiver is killed before each act'
POWER = 'power loss'
FAILED_SYNC = 'power loss after a sync of the receiver failed'
FULL_DISK = 'power loss, and a full disk at each act of the receiver'
BROKEN_DISK = 'power loss, and a disk that fails at each act of the receiver'
CARELESS_HOST = 'power loss, and a host that syncs nothing'
FIRST_FORM = 'power loss, and states of the first form'
MAKING = 'power loss while an end is made'
PAST_THE_TRACE = 'the files are not those of the trace'
KILLS = (KILLS_TCP, KILLS_TERMINAL)

# The edits are (file, text that is there once, text instead).
Fault = collections.namedtuple('Fault', 'name edits finders')

FAULTS = [
    # An answer before storing can no longer be had: no call gives it. What is left is a report that is not true.
    Fault('a false report', [('receiving_end.c', '''\
    stored = store_decision(end, decision);
    count_decision(end, decision[GMV_DECISION_TRANSACTION], stored);
    send_reply(end, report_decision(end, stored));
''', '''\
    send_reply(end, report_decision(end, GMV_STORED));
    poll(NULL, 0, 20);
    stored = store_decision(end, decision);
''')], (*KILLS, RECEIVER_WINDOWS, POWER)),

    # True when it was made, of the decision before the crash; it is used for the next one that has something to store.
    Fault('a report that is kept over a restart', [('receiving_end.c', '''\
    stored = store_decision(end, decision);
    count_decision(end, decision[GMV_DECISION_TRANSACTION], stored);
    send_reply(end, report_decision(end, stored));
''', '''\
    char kept[PATH_LENGTH];
    path_of(kept, end->folder, "kept");
    if (decision[GMV_DECISION_CHANGES] == 1 && !is_missing(kept)) {
        send_reply(end, report_decision(end, GMV_STORED));
        unlink(kept);
        poll(NULL, 0, 20);
        store_decision(end, decision);
        return;
    }
    stored = store_decision(end, decision);
    if (decision[GMV_DECISION_CHANGES] == 1)
        store_durably(end->folder, "kept", "", 0);
    poll(NULL, 0, 20);
    send_reply(end, report_decision(end, stored));
    if (decision[GMV_DECISION_CHANGES] == 1)
        unlink(kept);
''')], (*KILLS, POWER)),

    Fault('a send before storing', [('sending_end.c', '''\
    require_done(number, function);
    persist(end);
''', '''\
    require_done(number, function);
    name_send(end);
    write_out(end);
    end->report[GMV_ACT_SEND] = GMV_SEND_NOTHING;
    poll(NULL, 0, 20);
    persist(end);
''')], (*KILLS, SENDER_WINDOWS, POWER)),

    Fault('transaction and expected number as two acts', [('receiving_end.c', '''\
    stored = store_receiver(end->folder, after); /* the commit point */
''', '''\
    receiver_record half = *after;
    half.words[GMV_RECEIVER_EXPECTED] = end->record.words[GMV_RECEIVER_EXPECTED];
    store_receiver(end->folder, &half);
    poll(NULL, 0, 20);
    stored = store_receiver(end->folder, after);
''')], (*KILLS, RECEIVER_WINDOWS, POWER)),

    Fault('delivered too early', [('sending_end.c', '''\
    if (memcmp(end->persisted, end->record.words, sizeof end->persisted) == 0)
        return;
    require_same_folder(end->folder);
    store_sender(end->folder, &end->record);
''', '''\
    sender_record early = end->record;
    early.words[GMV_SENDER_DELIVERED] += early.words[GMV_SENDER_WAITING] == GMV_WAITING_TRANSACTION;
    store_sender(end->folder, &early);
''')], (*KILLS, SENDER_WINDOWS, POWER)),

    Fault('a receiver that takes for stored what it finds', [('receiving_end.c', '''\
    make_durable(end);
''', '')], (POWER,)),

    Fault('a sender that takes for stored what it finds', [('sending_end.c', '''\
    make_durable(end, log);
''', '')], (POWER,)),

    Fault("a report before the folder's sync", [('store.c', '''\
    if (sync)
        sync_folder(folder);
''', '''\
    if (sync && !late_sync)
        sync_folder(folder);
'''), ('store.c', '''\
static int store(const char *folder,''', '''\
int late_sync;
static int store(const char *folder,'''), ('receiving_end.c', '''\
    stored = store_receiver(end->folder, after); /* the commit point */
''', '''\
    extern int late_sync;
    late_sync = 1;
    stored = store_receiver(end->folder, after);
    late_sync = 0;
'''), ('receiving_end.c', '''\
    send_reply(end, report_decision(end, stored));
''', '''\
    send_reply(end, report_decision(end, stored));
    sync_folder(end->folder);
''')], (POWER,)),

    Fault("a rename before the file's sync", [('store.c', '''\
    if (sync && fsync(file) != 0) /* before the name: else the name could survive without the bytes */
        return "sync";
''', ''), ('store.c', '''\
    if (sync)
        sync_folder(folder);
''', '''\
    if (sync) {
        sync_file(path);
        sync_folder(folder);
    }
''')], (POWER,)),

    Fault('a log that is written after the state', [('sending_end.c', '''\
        log_store(end->folder, end->record.words[GMV_SENDER_LAST], end->message, (size_t)length,
''', '''\
        persist(end);
        log_store(end->folder, end->record.words[GMV_SENDER_LAST], end->message, (size_t)length,
''')], (POWER,)),

    Fault('a log that is not synced', [('log.c', '''\
    store_as_of(log, name, message, length, written);
''', '''\
    store_lightly(log, name, message, length);
''')], (POWER,)),

    Fault('a transaction that is not synced', [('receiving_end.c', '''\
    if (store_if_space(end->transactions, name, input_data(&end->input),
                      end->input.verdict[GMV_VERDICT_DATA_LENGTH]) != 0)
        return -1;
''', '''\
    store_lightly(end->transactions, name, input_data(&end->input),
                  end->input.verdict[GMV_VERDICT_DATA_LENGTH]);
''')], (POWER,)),

    Fault('a sync of the state that failed is reported', [('store.c', '''\
    if (sync)
        sync_folder(folder);
''', '''\
    if (sync && sync_path(folder) != 0)
        return -1;
''')], (FAILED_SYNC, BROKEN_DISK)),

    Fault('a rename of the state that failed is reported', [('store.c', '''\
    if (!is_missing(path))
        fail("cannot rename %s: %s", new_path, strerror(error));
''', '')], (FULL_DISK,)),

    Fault('a disk that fails is taken for a full one', [('store.c', '''\
    if (error != ENOSPC && error != EDQUOT)
''', '''\
    if (0)
''')], (FAILED_SYNC, BROKEN_DISK)),

    Fault('a full disk ends the driver', [('store.c', '''\
    if (error != ENOSPC && error != EDQUOT)
''', '''\
    if (1)
''')], (FULL_DISK,)),

    Fault('a full disk is reported as stored', [('receiving_end.c', '''\
        return GMV_NOT_STORED;
''', '''\
        return GMV_STORED;
''')], (FULL_DISK,)),

    Fault('what a failed store left holds room', [('receiving_end.c', '''\
    end->leftover = unlink(path) != 0;
''', '''\
    end->leftover = 1;
''')], (FULL_DISK,)),

    Fault('a file without room is left', [('store.c', '''\
    unlink(new_path);
    errno = error;
''', '''\
    errno = error;
''')], (FULL_DISK,)),

    Fault('what a failed store left is in the way of the next', [('receiving_end.c', '''\
    end->leftover = unlink(path) != 0;
''', '''\
    end->leftover = 0;
''')], (FULL_DISK,)),

    Fault('a failed sync that is not looked at', [('store.c', '''\
    if (sync_path(path) != 0)
        fail("cannot sync the folder %s: %s", path, strerror(errno));
''', '''\
    sync_path(path);
''')], (FAILED_SYNC,)),

    Fault('a refused file that leaves the spool before its new name is synced', [('spool.c', '''\
    sync_folder(refused_folder);
''', '')], (POWER,)),

    Fault('a refused file that leaves the spool before its bytes are synced', [('spool.c', '''\
    sync_file(refused);
''', '')], (CARELESS_HOST,)),

    Fault('a file that is written over where it may have two names', [('store.c', '''\
    if (unlink(new_path) != 0 && errno != ENOENT)
        return lacks_space(new_path, "remove");
    file = open(new_path, O_WRONLY | O_CREAT | O_EXCL, 0666);
''', '''\
    file = open(new_path, O_WRONLY | O_CREAT | O_TRUNC, 0666);
''')], (POWER,)),

    Fault('a receiver that has its state before its folders', [('receiving_end.c', '''\
    sync_folder(folder); /* no state without its folders */
''', '')], (MAKING,)),

    Fault('a sender that has its state before its folders', [('sending_end.c', '''\
    sync_folder(folder); /* no state without its folders */
''', '')], (MAKING,)),

    Fault('a check that is asked for before it is there', [('receiving_end.c', '''\
    create_state(end->folder, &end->record);
    require_checks(end->folder);
''', '''\
    require_checks(end->folder);
    create_state(end->folder, &end->record);
''')], (FIRST_FORM,)),

    Fault('a file that is made past the trace', [('receiving_end.c', '''\
    sync_folder(end->transactions);
''', '''\
    char past[PATH_LENGTH];
    path_of(past, end->folder, "past");
    fclose(fopen(past, "w"));
    sync_folder(end->transactions);
''')], (PAST_THE_TRACE,)),
]


def edited(fault):
    """The files that the fault touches, and their texts."""
    texts = {}
    for file, old, new in fault.edits:
        if file not in texts:
            with open(os.path.join(SOURCES, file), encoding='utf-8') as source:
                texts[file] = source.read()
        if texts[file].count(old) != 1:
            raise RuntimeError('%s: the text to edit is %d times in %s: %s' % (
                fault.name, texts[file].count(old), file, old))
        texts[file] = texts[file].replace(old, new)
    return texts


def compile_all(folder):
    """The objects of the sources as they are."""
    os.makedirs(folder)
    subprocess.run(COMPILER + ['-c'] + sorted(glob.glob(os.path.join(SOURCES, '*.c'))), cwd=folder, check=True)


def build(fault, objects, folder):
    """A driver with the fault; only what the edits touch is compiled."""
    os.makedirs(folder)
    texts = edited(fault)
    for file, text in texts.items():
        with open(os.path.join(folder, file), 'w', encoding='utf-8') as source:
            source.write(text)
    subprocess.run(COMPILER + ['-c'] + list(texts), cwd=folder, check=True)
    changed = [file[:-1] + 'o' for file in texts]
    same = [path for path in glob.glob(os.path.join(objects, '*.o')) if os.path.basename(path) not in changed]
    subprocess.run(COMPILER + ['-o', 'gmv_driver'] + changed + same + [ARCHIVE], cwd=folder, check=True)
    return folder


def build_linkstatus(fault, folder):
    """A linkstatus with the fault, all of it compiled."""
    texts = edited(fault)
    os.makedirs(os.path.join(folder, 'linkstatus'))
    sources = glob.glob(os.path.join(SOURCES, 'linkstatus', '*.c')) + [
        os.path.join(SOURCES, name + '.c') for name in ('common', 'store', 'records', 'status', 'log')]
    for file, text in texts.items():
        with open(os.path.join(folder, file), 'w', encoding='utf-8') as source:
            source.write(text)
        sources.remove(os.path.join(SOURCES, file))
    more = ['-I', os.path.join(SOURCES, 'linkstatus'), '-o', 'status'] + list(texts) + sources + [ARCHIVE]
    subprocess.run(COMPILER + more, cwd=folder, check=True)
    shutil.rmtree(os.path.join(folder, 'linkstatus'))
    os.rename(os.path.join(folder, 'status'), os.path.join(folder, 'linkstatus'))
    return folder
