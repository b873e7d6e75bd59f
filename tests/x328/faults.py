"""Stations that are wrong on purpose, each by an edit of the sources, and which test must find each."""

import collections
import glob
import os
import shutil
import subprocess

ROOT = os.path.dirname(os.path.dirname(os.path.dirname(os.path.abspath(__file__))))
SOURCES, SHARED = os.path.join(ROOT, 'examples', 'x328'), os.path.join(ROOT, 'examples', 'driver')
SHARED_FILES = ('common.c', 'store.c')
INCLUDE = os.environ.get('INCLUDE', os.path.join(ROOT, 'include'))
ARCHIVE = os.environ.get('ARCHIVE', os.path.join(ROOT, 'target', 'staticlib', 'libgiamuvich.a'))
COMPILER = ['nice', 'gcc', '-std=c99', '-D_XOPEN_SOURCE=700', '-O1', '-w', '-I', INCLUDE, '-I', SHARED]

# The finder is a link (by its index), a script (by its name), a talk (by its name) or a test of the framing (by its
# name), and what it finds has these words. The edits are (file, text that is there once, text instead).
Fault = collections.namedtuple('Fault', 'name finder words edits')
LOST, NEVER_SENT, TWICE = 'reported done, and not stored', 'stored, and never sent', 'stored twice in one opening'
NOT_FIRST = 'the report was stored before the stat message'
BAD_LINE, SLAVE_KILLED = 0, 5

GRANTS_ALWAYS = ('slave.c', '''\
    if (!slave->any_accepted) {
''', '''\
    if (1) {
''')
NO_SILENCE = ('station.c', '''\
    return line_is_silent(&station->line, silence_before_bid(station));
''', '''\
    return 1;
''')
NO_EOT = ('frame.c', '''\
    const size_t length = frame_eot(frame);

    return length + frame_enq(frame + length);
''', '''\
    return frame_enq(frame);
''')


def enquires(when):
    """A master that enquires with other blocks out."""
    return [('master.c', '(number >= 2 && number <= 6)', when)]


NOT_OPENED = [GRANTS_ALWAYS, ('slave.c', '''\
    require_done(gmv_station_open(slave->state,''', '''\
    if (slave->state[GMV_STATION_OPEN] == 0)
        require_done(gmv_station_open(slave->state,''')]

FAULTS = (
    Fault('an ACK before storing', SLAVE_KILLED, LOST, [('slave.c', '''\
#include <errno.h>
''', '''\
#include <errno.h>
#include <poll.h>
'''), ('slave.c', '''\
    if (report[GMV_STATION_COMPLETE] == 1 &&
''', '''\
    write_reply(slave);
    poll(NULL, 0, 20);
    if (report[GMV_STATION_COMPLETE] == 1 &&
'''), ('slave.c', '''\
        say_interrupt_given();
    write_reply(slave);
''', '''\
        say_interrupt_given();
''')]),
    Fault('a master without a bid', 'a lost closing EOT', 'never came', [('station.c', '''\
    write_bid(station);
}

/* Said after a while''', '''\
    station->mode = MASTER;
    if (!master_open(&station->master))
        leave_master(station);
}

/* Said after a while''')]),
    Fault('a master that bids only once', 'a lost closing EOT', LOST, [('station.c', '''\
    write_bid(station);
}

/* Said after a while''', '''\
    static int granted_before;
    if (granted_before++) {
        station->mode = MASTER;
        if (!master_open(&station->master))
            leave_master(station);
    } else {
        write_bid(station);
    }
}

/* Said after a while''')]),
    Fault('a text that ends at the first CR', BAD_LINE, NEVER_SENT, [('splitter.c', '''\
    splitter_reset(splitter);
    return unit->kind != UNIT_NONE;
''', '''\
    for (size_t i = 0; i < unit->length; i++)
        if (unit->text[i] == CR)
            unit->length = i;
    splitter_reset(splitter);
    return unit->kind != UNIT_NONE;
''')]),
    Fault('a line that is not silent at the start', 'old replies on the way', LOST, [NO_SILENCE]),
    Fault('a station that counts on over a bid', 'a lost closing EOT, and those of the next bids', LOST, NOT_OPENED),
    Fault('a bid that is always granted', 'an ENQ of noise before an eighth block', LOST, [GRANTS_ALWAYS]),
    Fault('an eighth block that noise acknowledges', 'an ENQ of noise in place of an eighth block', LOST, [GRANTS_ALWAYS]),
    Fault('a ninth block that noise makes the first', 'an ENQ of noise before a ninth block', NEVER_SENT, [GRANTS_ALWAYS]),
    Fault('a station that is handed every ENQ', 'a lost ACK 0', ' bids, ', [('slave.c', '''\
    if (!slave->any_accepted) {
''', '''\
    if (0) {
''')]),
    Fault('a master that bids at once after a kill', 'a kill after an eighth block', NEVER_SENT, [NO_SILENCE, NO_EOT]),
    Fault('a start without Timer D', 'a kill after an eighth block, and lost EOTs', NEVER_SENT, [('station.c', '''\
    station->other_may_hold_text = 1; /* a predecessor''', '''\
    station->other_may_hold_text = 0; /* a predecessor''')]),
    Fault('a failure without Timer D', 'a failure after an eighth block', NEVER_SENT, [('station.c', '''\
 = end == GMV_MASTER_END_FAILED || end == GMV_MASTER_END_REVERSED;
''', '''\
 = end == GMV_MASTER_END_REVERSED;
''')]),
    Fault('a reversal without Timer D', 'a reversal after an eighth block', NEVER_SENT, [('station.c', '''\
 = end == GMV_MASTER_END_FAILED || end == GMV_MASTER_END_REVERSED;
''', '''\
 = end == GMV_MASTER_END_FAILED;
''')]),
    Fault('an enquiry that holds the station open', 'timer d', 'it said', [('slave.c', '''\
    say_enquiry();
''', '''\
    say_enquiry();
    restart_timer_d(slave);
''')]),
    Fault('an enquiry that acknowledges block 0', 'an enquiry with an eighth block out', LOST, enquires('number != 1')),
    Fault('an enquiry that makes block 1 the first', 'an enquiry with a ninth block out', NEVER_SENT,
          enquires('number != 0')),
    Fault('an enquiry before block 0', 'an enquiry on the way when an eighth block is out', LOST, enquires('number >= 2')),
    Fault('a RINT that is asked for once', 'two lost RINTs', NOT_FIRST, [('station.c', '''\
    if (station->vain < MOST_VAIN && slave_may_interrupt(&station->slave) && outbox_take_urgent(outbox))
''', '''\
    static int asked;
    if (!asked && slave_may_interrupt(&station->slave) && outbox_take_urgent(outbox) && ++asked)
''')]),
    Fault('a reversed message that is taken for done', 'a stat message while a report comes in', LOST, [('master.c', '''\
    if (master->report[GMV_MASTER_REPORT_DONE] == 1) {
''', '''\
    if (master->report[GMV_MASTER_REPORT_DONE] == 1 ||
        master->report[GMV_MASTER_REPORT_END] == GMV_MASTER_END_REVERSED) {
''')]),
    Fault('stat messages that break off each other', 'stat messages on both sides', 'never came', [('master.c', '''\
 == 0 &&
           !(master->is_under_way && master->outbox.urgent);
''', '''\
 == 0;
''')]),
    Fault('a bid without EOT', 'a master sends', 'should bid', [NO_EOT]),
    Fault('a hang-up without Timer D', 'a line that hangs up with a block out', 'it bid after', [('station.c', '''\
    line_close(&station->line);
    station->other_may_hold_text = 1;
''', '''\
    line_close(&station->line);
''')]),
    Fault('a bid at once where no block came', 'no bid at once where no block came', 'it bid after', [('station.c', '''\
    if (station->slave.any_accepted && outbox_take_urgent''', '''\
    if (outbox_take_urgent''')]),
    Fault('a slave that waits when it may bid', 'a slave interrupts', 'it waited', [('station.c', '''\
    if (unit->kind == UNIT_EOT)
        bid_for_urgent(station);
''', '')]),
    Fault('a master that waits though it was slave since', 'a master is interrupted', 'it bid after', [('station.c', '''\
    if (station->slave.any_accepted)
        station->other_may_hold_text = 0;
''', '')]),
    Fault('a stat message that interrupts for ever', 'a stat message that is never taken', 'it said', [('station.c', '''\
    if (station->vain < MOST_VAIN && slave_may''', '''\
    if (slave_may''')]),
    Fault('a stat message that never interrupts again', 'a stat message that is never taken', 'it said', [('station.c', '''\
        station->vain = 0;
''', '''\
        ;
''')]),
    Fault('a RINT before storing', 'where storing fails there is no rint', 'it said', [('slave.c', '''\
    if (report[GMV_STATION_COMPLETE] == 1 &&
''', '''\
    if (report[GMV_STATION_COMPLETE] == 1 && report[GMV_STATION_REPLY] == GMV_REPLY_ACK &&
''')]),
    Fault('a message that is done and reversed', 'done and reversed at once', 'done are', [('master.c', '''\
    if (master->report[GMV_MASTER_REPORT_DONE] == 1) {
''', '''\
    if (master->report[GMV_MASTER_REPORT_DONE] == 1 &&
        master->report[GMV_MASTER_REPORT_END] == GMV_MASTER_END_NONE) {
''')]),
    Fault('a next message after a RINT', 'a rint for the last block', 'it said', [('master.c', '''\
    if (may_receive(master)) {
''', '''\
    if (may_receive(master) && !is_done) {
''')]),
    Fault('ordinary messages first', 'stat messages go first', 'it said', [('outbox.c', '''\
    return outbox_take_urgent(outbox) || take_first(outbox, ORDINARY);
''', '''\
    return take_first(outbox, ORDINARY) || outbox_take_urgent(outbox);
''')]),
    Fault('enquiries and no block', 'an enquiry on timer a', 'it said', [('master.c', '''\
           master->state[GMV_MASTER_ENQUIRED] == 0 && (''', '''\
           (''')]),
    Fault('a RINT that is taken for an ACK', 'cases', 'by units.py', [('splitter.c', '''\
        splitter->kind = UNIT_RINT;
''', '''\
        splitter->number = 4;
''')]),
    Fault('a link that is taken for a message', 'what is no message', 'it said', [('waiting.c', '''\
    return lstat(path''', '''\
    return stat(path''')]),
    Fault("the host's next file goes with the last one", 'a file that is replaced meanwhile', 'it said', [('waiting.c', '''\
    if (is_seen_file(path, &file->seen) && unlink(path) != 0''', '''\
    if (unlink(path) != 0''')]),
    Fault('a long name that is not moved', 'names that are refused', 'never came', [('waiting.c', '''\
        else if (error == ENAMETOOLONG && kept > 0)
            kept--;
''', '')]),
    Fault('an ordinary message that interrupts', 'an ordinary message does not interrupt', 'it said', [('station.c', '''\
 && outbox_take_urgent(outbox))
        slave_interrupt''', '''\
 && outbox_take(outbox))
        slave_interrupt''')]),
    Fault('check characters that are not compared', 'single_damage', 'is taken for', [('splitter.c', '''\
    return memcmp(digits, splitter->checks, sizeof digits) == 0 &&
''', '''\
    return
''')]),
    Fault('a message that is not recorded as done', BAD_LINE, TWICE, [('outbox.c', '''\
    waiting_remove(outbox->folder, &outbox->file);
''', '')]),
    Fault('an ACK where storing fails', 'where storing fails eot goes out', 'it said', [('slave.c', '''\
        say_not_stored(strerror(errno));
        return end_by_eot(slave);
    }
''', '''\
    }
''')]),
    Fault('a station that stays open after its own EOT', 'where storing fails eot goes out', 'should say nothing', [('slave.c', '''\
    close_station(slave);
    line_write(slave->line, frame, frame_eot(frame));
    return 0;
''', '''\
    line_write(slave->line, frame, frame_eot(frame));
    return 1;
''')]),
    Fault('a message that is not synced', 'a message is durable before its ack', '/received/.new', [('durable.c', '''\
    if (!problem && fsync(file) != 0)''', '''\
    if (0)''')]),
    Fault('a folder that is not synced', 'a message is durable before its ack', '/received', [('durable.c', '''\
 || sync_names(folder) != 0)
''', ''')
''')]),
    Fault('what is found at a start is taken for stored', 'a message is durable before its ack', 'not made durable', [('received.c', '''\
    sync_folder(received->folder);
''', '')]),
    Fault('a primary that grants while it bids', 'the primary goes on with its bid', 'should bid', [('station.c', '''\
(station->mode == BIDDING && !station->settings->primary);
''', '''\
station->mode == BIDDING;
''')]),
    Fault('a length that is believed', 'cases', 'by units.py', [('splitter.c', '''\
    if (byte == ENQ) {
''', '''\
    if (splitter->length >= HEADER_LENGTH &&
        (long)splitter->length < HEADER_LENGTH + text_length(splitter->bytes + 1)) {
        splitter->bytes[splitter->length++] = byte;
    } else if (byte == ENQ) {
'''), ('splitter.c', '''\
static void take_in_block(''', '''\
static long text_length(const uint8_t *digits);
static void take_in_block(''')]),
    Fault('no Timer B', 'timer b', 'timer B', [('station.c', '''\
    if (splitter_is_inside(&station->splitter) && now() >= station->timer_b)
''', '''\
    if (splitter_is_inside(&station->splitter) && 0)
''')]),
    Fault('a check character that is read again', 'cases', 'by units.py', [('splitter.c', '''\
    case FIRST_CHECK:
        splitter->checks[0] = byte;
''', '''\
    case FIRST_CHECK:
        if (byte < 0x20) {
            splitter_reset(splitter);
            take_between(splitter, byte, damaged);
            break;
        }
        splitter->checks[0] = byte;
''')]),
    Fault('a wrong parity that is not seen', 'single_bits', 'is taken for', [('parity.c', '''\
    *damaged = reader->parity == PARITY_SOFTWARE && !has_odd_ones(read);
''', '''\
    *damaged = 0;
''')]),
    Fault('a line that two stations share', 'a second station on the line', 'another station has it', [('line.c', '''\
    if (fcntl(line->terminal, F_SETLK, &lock) != 0)
''', '''\
    if (0)
''')]),
    Fault('a folder that was made anew', 'another folder when a message is done', 'recorded', [('outbox.c', '''\
    require_same_folder(outbox->folder);
    path_of''', '''\
    path_of''')]),
    Fault('a record that is written over', 'names that end with new', 'recorded are', [('outbox.c', '''\
    if (write_durably(sent, name, outbox->message, outbox->length) != 0)
''', '''\
    store_durably(sent, name, outbox->message, outbox->length);
    if (0)
''')]),
    Fault('a silence that is looked at too early', 'a disk that takes long', 'it bid too early', [
        ('station.c', 'outbox_take(outbox) && line_is_free(station))', 'outbox_take(outbox))')]),
    Fault('a parity that is not there', 'a device without parity', 'it did not end', [('line.c', '''\
    require_modes(line, &modes);
''', '')]),
    Fault('a prefix before EOT', 'cases', 'by units.py', [('splitter.c', '''\
UNIT_EOT, damaged || any_prefix);''', '''\
UNIT_EOT, damaged || bad_prefix);''')]),
)


def compile_file(source, target, *folders):
    subprocess.run(COMPILER + [word for folder in folders for word in ('-I', folder)] + ['-c', '-o', target, source],
                   check=True)


def compile_all(objects):
    """What is the same in all of them."""
    os.makedirs(objects)
    for source in glob.glob(os.path.join(SOURCES, '*.c')) + [os.path.join(SHARED, name) for name in SHARED_FILES]:
        compile_file(source, os.path.join(objects, os.path.basename(source)[:-1] + 'o'), SOURCES)


def edit(fault, folder):
    """The sources with the fault in them. Returns the names of those that differ."""
    shutil.copytree(SOURCES, folder)
    for name, old, new in fault.edits:
        path = os.path.join(folder, name)
        with open(path, encoding='ascii') as file:
            text = file.read()
        if text.count(old) != 1:
            raise RuntimeError('%s: %s has the text %d times' % (fault.name, name, text.count(old)))
        with open(path, 'w', encoding='ascii') as file:
            file.write(text.replace(old, new))
    return {name for name, _, _ in fault.edits}


def build(fault, objects, folder):
    """The program with the fault."""
    sources, program = os.path.join(folder, 'sources'), os.path.join(folder, 'x328')
    parts = {os.path.basename(path): path for path in glob.glob(os.path.join(objects, '*.o'))}
    for name in edit(fault, sources):
        parts[name[:-1] + 'o'] = os.path.join(folder, name[:-1] + 'o')
        compile_file(os.path.join(sources, name), parts[name[:-1] + 'o'], sources)
    subprocess.run(['nice', 'gcc', '-o', program, *parts.values(), ARCHIVE], check=True)
    return program
