"""The receiver's four steps: decide, store, report, send. It is killed between any two of them, and its disk is full, fails
or hangs at each of its acts."""

import errno
import os
import re
import subprocess
import sys
import time

if __name__ == '__main__':
    sys.dont_write_bytecode = True
    sys.path.append(os.path.join(os.path.dirname(os.path.abspath(__file__)), '..'))  # for blocks.py

from crashes import Windows
from duties import PATIENCE, RULES, Bench, answer, happened, text, wait_for
from ends import End, hold, read, read_words
from faults import Fault
from lines import Splitter
from readout import said
from repairs import call, preloaded, running_pair, transactions, write

# Where it is killed: by steps.c, before or after its decision or its report. Before a report it has stored.
BETWEEN = {'before deciding': ('decide', 0), 'between deciding and storing': ('decide', 1),
           'between storing and reporting': ('report', 0), 'between reporting and sending': ('report', 1)}
WRAPPED = '-Wl,--wrap=gmv_receiver_decide,--wrap=gmv_minimal_answer'
NO_ROOM = os.strerror(errno.ENOSPC)
FULL_REASON = 'critical: %d requests not stored since the last that was: ' + NO_ROOM
SLOW = r'warning: transaction 1 waits for the disk for [2-9] s'
UNSTORED = '%s is not stored: ' + NO_ROOM + '; it is not answered, and taken when it comes again'


class Steps(Windows):
    """The receiver is killed at a step, once at each of its decisions."""

    def __init__(self, programs, folder, seed, step, after):
        super().__init__(programs, folder, None, seed)
        self.step, self.after = step, after

    def ending(self, at, half):
        return {'KILL_STEP': self.step, 'KILL_AFTER': str(self.after), 'KILL_AT': str(at)}

    def look(self, books, at):
        """The third decision is on transaction 2, after -1 and 1. It is stored when it is reported, and not before; and it
        is not answered."""
        if at == 3:
            stored = read_words(books.receiver, 'state')['stored']
            hold(stored == (2 if self.step == 'report' else 1), 'killed at a step, and %d are stored', stored)
            hold(read_words(books.sender, 'state')['delivered'] == 1, 'it was answered')


# ---- a disk that is full, and one that hangs: each returns None, or what is wrong


class Caller:
    """A sender played by the test, on one circuit."""

    def __init__(self, end):
        self.circuit, self.splitter, self.blocks = call(end), Splitter(RULES), []

    def send(self, data):
        self.circuit.sendall(RULES.block(data))

    def hear(self, seconds=None):
        """The next answer; None where none comes in this time."""
        limit = time.monotonic() + (seconds or PATIENCE[0])
        while not self.blocks and time.monotonic() < limit:
            self.circuit.settimeout(max(0.01, limit - time.monotonic()))
            try:
                part = self.circuit.recv(4096)
            except TimeoutError:
                return None
            if not part:
                return b'the circuit has ended'
            self.blocks = self.splitter.take(part)
        return RULES.accepted(self.blocks.pop(0))[0][1] if self.blocks else None

    def close(self):
        self.circuit.close()


def wrong_answers(caller, requests):
    """The first of the requests that is not answered as it must be (None: not at all, for a moment); [] if there is none."""
    for data, wanted in requests:
        caller.send(data)
        heard = caller.hear(0.25 if wanted is None else None)
        if heard != wanted:
            return [data, heard, wanted]
    return []


def full_disk(bench):
    """What has nothing to be stored is answered on a full disk too. What has is not, and nothing of it is left; the circuit
    stays, linkstatus says why, and what comes again is taken when there is room again."""
    folder, full = bench.receiver(), bench.path('full')
    end = End(bench.programs, 'receive', folder, ['--minimal-listen', '0'], [])
    bench.ends.append(end)
    end.start(preloaded(bench, 'night', FULL_WHILE=full))
    caller = Caller(end)
    wrong = wrong_answers(caller, [(text(-1), answer('AA', '-1', '-1')), (text(1), answer('AA', '1', '1'))])
    before = read(folder, 'state')
    write(full, '')
    wrong = wrong or wrong_answers(caller, [(text(2), None), (text(0), answer('AA', '0', '2')), (text(-1), None),
                                             (text(2), None), (text(9), answer('AR', '9', '2'))])
    if wrong:
        return 'not answered as it should be: %s; %s' % (wrong, end.error_text())
    if not wait_for(lambda: said(bench.programs, folder)[0][0] == FULL_REASON % 3):
        return 'linkstatus says %s' % said(bench.programs, folder)[0]
    if read(folder, 'state') != before or os.listdir(os.path.join(folder, 'transactions')) != ['000000000000001.hl7']:
        return 'something of it is left: %s' % os.listdir(os.path.join(folder, 'transactions'))
    os.unlink(full)
    wrong = wrong_answers(caller, [(text(2), answer('AA', '2', '2')), (text(3), answer('AA', '3', '3'))])
    if wrong or read_words(folder, 'state')['stored'] != 3:
        return 'with room again: %s; %s' % (wrong, end.error_text())
    fact = '3 requests not stored since the driver started, the last one %d s ago: ' + NO_ROOM
    if not wait_for(lambda: said(bench.programs, folder)[0][0] == 'good') or not any(
            fact % seconds in said(bench.programs, folder)[0] for seconds in range(9)):
        return 'with room again linkstatus says %s' % said(bench.programs, folder)[0]
    if happened(end) != [UNSTORED % 'transaction 2', UNSTORED % '-1', UNSTORED % 'transaction 2',
                         'there is room again: transaction 2 is stored, after 3 failures']:
        return 'said is %s' % end.error_text()
    caller.close()
    return None if end.finish() == 0 else 'ends badly'


def delivered_with_space(bench):
    """Both ends: while the receiver's disk is full the sender sends again and again, on one circuit; nothing is lost."""
    full = bench.path('full')
    folders, ends = running_pair(bench, '--timer', '100', '--resends', '99',
                                 environment=preloaded(bench, 'night', FULL_WHILE=full))
    write(full, '')
    for number in (1, 2, 3):
        bench.put('%06d' % number, text(number))
    if not wait_for(lambda: read_words(folders[1], 'live')['unstored_since'] >= 3):
        return 'it does not come again: %s' % ends[1].error_text()
    if read_words(folders[0], 'state')['delivered'] != 0 or transactions(folders[1]):
        return 'something counts as delivered, or is stored'
    os.unlink(full)
    if not wait_for(lambda: read_words(folders[0], 'state')['delivered'] == 3):
        return 'not delivered with room again: %s' % ends[1].error_text()
    if [read(folders[1], 'transactions', name) for name in transactions(folders[1])] != [text(n) for n in (1, 2, 3)]:
        return 'stored is %s' % transactions(folders[1])
    if not wait_for(lambda: read_words(folders[1], 'live')['stored'] == 3) or \
            read_words(folders[1], 'live')['circuits'] != 1:
        return 'another circuit was needed'
    return None if [end.finish() for end in ends] == [0, 0] else 'ends badly'


def hanging_disk(bench):
    """While the disk does not answer, linkstatus says what the decision is on, and whether the state has it; and after two
    seconds that it waits for the disk."""
    folder, hangs = bench.receiver(), bench.path('hangs')
    end = End(bench.programs, 'receive', folder, ['--minimal-listen', '0'], [])
    bench.ends.append(end)
    end.start(preloaded(bench, 'slow', HANG_WHILE=hangs))
    caller = Caller(end)
    for number, ending, stored, words in ((1, '.hl7.new', 0, 'not stored yet'), (2, '/state.new', 1, 'not stored yet'),
                                          (3, '/r', 3, 'in the state, not answered yet')):
        write(hangs, ending)
        caller.send(text(number))
        wanted = 'deciding on transaction %d: %s' % (number, words)
        if not wait_for(lambda wanted=wanted: wanted in said(bench.programs, folder)[0], 5):
            return 'linkstatus does not say "%s": %s' % (wanted, said(bench.programs, folder)[0])
        if not re.search(r' %d transactions? stored$' % stored, said(bench.programs, folder)[0][1]):
            return 'linkstatus says %s' % said(bench.programs, folder)[0]
        if number == 1 and not wait_for(lambda: re.fullmatch(SLOW, said(bench.programs, folder)[0][0]), 4):
            return 'a disk that hangs is not told: %s' % said(bench.programs, folder)[0]
        if caller.hear(0.05) is not None:
            return '%d is answered before the disk has it' % number
        os.unlink(hangs)
        if caller.hear() != answer('AA', str(number), str(number)):
            return '%d is not answered after it' % number
    if not wait_for(lambda: said(bench.programs, folder)[0][0] == 'good') or any(
            line.startswith('deciding') for line in said(bench.programs, folder)[0]):
        return 'still open: %s' % said(bench.programs, folder)[0]
    caller.close()
    return None if end.finish() == 0 else 'ends badly'


def free_blocks(disk):
    return os.statvfs(disk).f_bfree


def with_space_for(caller, disk, number, blocks):
    """A transaction comes while the disk has so many blocks left. Returns whether it is answered, and what is wrong."""
    folder, filler = os.path.join(disk, 'r'), os.path.join(disk, 'filler')
    before, block = read(folder, 'state'), os.statvfs(disk).f_bsize
    write(filler, bytes(block * (free_blocks(disk) - blocks)))
    caller.send(text(number))
    heard = caller.hear(0.25)
    problem = None
    if heard is None and (read(folder, 'state') != before or len(transactions(folder)) != number - 1):
        problem = 'something is stored that was not answered'
    elif heard is None and not wait_for(lambda: free_blocks(disk) == blocks, 2):
        problem = 'what is left of it holds %d blocks' % (blocks - free_blocks(disk))
    os.unlink(filler)
    if heard is None:
        caller.send(text(number))
    heard_then = heard or caller.hear()
    if heard_then != answer('AA', str(number), str(number)) or read_words(folder, 'state')['stored'] != number:
        problem = problem or 'with room again it is answered %s' % heard_then
    return heard is not None, problem and 'with %d blocks left: %s' % (blocks, problem)


def on_a_small_disk(bench, disk):
    """The disk's own answer, with no library preloaded: with each number of blocks left."""
    end = bench.start('receive', 'disk/r', ['--minimal-listen', '0'])
    caller = Caller(end)
    caller.send(text(1))
    if caller.hear() != answer('AA', '1', '1'):
        return 'no answer: %s' % end.error_text()
    tries = [with_space_for(caller, disk, blocks + 2, blocks) for blocks in range(5)]
    wrong = [problem for _, problem in tries if problem]
    answered = [done for done, _ in tries]
    if wrong or True not in answered or False not in answered or read_words(disk, 'r', 'live')['circuits'] != 1:
        return '%s; answered: %s; %s' % (wrong, answered, end.error_text())
    caller.close()
    return None if end.finish() == 0 else 'ends badly'


def small_disk(bench):
    """Where a small disk may be mounted, for this test's own processes only: it is filled up."""
    disk = bench.path('disk')
    os.mkdir(disk)
    words = ['unshare', '--mount', sys.executable, os.path.abspath(__file__), bench.programs, bench.folder]
    if subprocess.run(['unshare', '--mount', 'mount', '-t', 'tmpfs', 'none', disk], check=False,
                      stderr=subprocess.DEVNULL).returncode != 0:
        print('  no small disk may be mounted here')
        return None
    done = subprocess.run(words, check=False, stdout=subprocess.PIPE, stderr=subprocess.STDOUT, timeout=120)
    return None if done.returncode == 0 else done.stdout.decode(errors='replace')


def mounted(programs, folder):
    """What small_disk starts, in a process whose mounts nobody else sees."""
    bench = Bench(programs, folder, None)
    disk = bench.path('disk')
    subprocess.run(['mount', '-t', 'tmpfs', '-o', 'size=256k', 'none', disk], check=True)
    try:
        bench.receiver('disk/r')
        return on_a_small_disk(bench, disk)
    finally:
        bench.close()


STORING = [full_disk, delivered_with_space, hanging_disk, small_disk]  # not with sanitizers: most have a library preloaded


def fault(name, file, old, new, test):
    return Fault(name, [(file, old, new)], test)


# As in repairs.py.
FAULTS = [
    fault('a full disk is not told', 'receiving_end.c', '    say_unstored(transaction, end->counts.unstored_reason);\n', '',
          full_disk),
    fault('that there is room again is not told', 'receiving_end.c',
          '        say_space(transaction, end->counts.unstored_since);', '        ;', full_disk),
    fault('a full disk is not counted', 'receiving_end.c', '    end->counts.unstored_since++;\n', '', delivered_with_space),
    fault('a full disk counts for ever', 'receiving_end.c', '    end->counts.unstored_since = 0;\n', '', full_disk),
    fault('the read-out of a full disk is as old as its room', 'store.c', '        write_over(path, bytes, length);',
          '        ;', full_disk),
    fault('a full disk ends the circuit', 'receiving_end.c', '        note_unstored(end, transaction);\n',
          '        note_unstored(end, transaction);\n        line_close(&end->line, 0);\n', delivered_with_space),
    fault('a decision that changes nothing is stored all the same', 'receiving_end.c',
          '    if (decision[GMV_DECISION_CHANGES] == 0)\n', '    if (0)\n', full_disk),
    fault('what is open is not shown before the disk is asked', 'receiving_end.c', '    show_now(end);\n    if (persist',
          '    if (persist', hanging_disk),
]


if __name__ == '__main__':
    found = mounted(*sys.argv[1:])
    if found:
        print(found)
    sys.exit(1 if found else 0)
