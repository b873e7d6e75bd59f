"""The two programs under test, their folders, and demand 3 of what is stored in them."""

import collections
import os
import signal
import subprocess
import time
import zlib

NONE = 0
ENDINGS = {'CRASH_AT', 'FAIL_SYNC_AT', 'FAIL_AT', 'KILL_AT'}  # how a test has trace.c, or steps.c, end a driver
CHECKED = ('giamuvich sender 2', 'giamuvich receiver 2')  # the titles of the form that has a check


class Violation(Exception):
    """What is stored breaks demand 3."""


def hold(fact, words, *values):
    if not fact:
        raise Violation(words % values)


def read(*path):
    with open(os.path.join(*path), 'rb') as file:
        return file.read()


# ---- the state file: a title, lines of a name and a value, in form 2 a check of all that, and `end`


def check_line(body):
    return b'check %08x\n' % zlib.crc32(body)


def state_text(title, words):
    """A state file of these words, in the form that the title says."""
    body = ''.join('%s\n' % line for line in [title] + ['%s %s' % pair for pair in words.items()]).encode()
    return body + (check_line(body) if title in CHECKED else b'') + b'end\n'


def state_of(data, what):
    """The title and the words of a state file; `what` it is, where it is none."""
    lines = (data or b'').decode(errors='replace').split('\n')
    hold(lines[-2:] == ['end', ''] and all(' ' in line for line in lines[:-2]), '%s is not whole', what)
    words = dict(line.split(' ', 1) for line in lines[1:-2])
    checked = words.pop('check', None) is not None
    body = data[:data.rindex(b'\ncheck ') + 1] if checked else b''
    hold(data == body + check_line(body) + b'end\n' if checked else lines[0] not in CHECKED,
         "%s's check does not hold", what)
    return lines[0], {name: int(value) if value.isdigit() else value for name, value in words.items()}


def read_words(*path):
    """A state file's lines as a dictionary."""
    return state_of(read(*path), os.path.join(*path))[1]


def change_state(path, **changed):
    """Other values for some words of a state file, as a test's beginning."""
    title, words = state_of(read(path), path)
    words.update(changed)
    with open(path, 'wb') as file:
        file.write(state_text(title, words))


class Files:
    """What an end's folder has. The disks that a power cut leaves answer to the same two calls."""

    def __init__(self, folder):
        self.folder = folder

    def read(self, *path):
        """The bytes of a file; None where there is none."""
        try:
            return read(self.folder, *path)
        except FileNotFoundError:
            return None

    def names(self, name):
        return os.listdir(os.path.join(self.folder, name))


class End:
    """One end: its command line, its folder, and its process while it runs."""

    def __init__(self, programs, command, folder, line, options):
        self.program = os.path.join(programs, 'gmv_driver')
        self.command, self.folder, self.line, self.options = command, folder, line, options
        self.process, self.port, self.started = None, None, 0.0
        self.errors = open(folder + '.errors', 'ab')  # pylint: disable=consider-using-with

    def start(self, environment=None, descriptor=None):
        words = [self.program, self.command, self.folder] + self.line + self.options
        listens = '--minimal-listen' in self.line
        self.process = subprocess.Popen(words, stderr=self.errors, stdin=subprocess.DEVNULL,
                                        stdout=subprocess.PIPE if listens else subprocess.DEVNULL,
                                        env=dict(os.environ, **environment) if environment else None,
                                        pass_fds=[descriptor] if descriptor is not None else [])
        self.started = time.monotonic()
        if listens:
            said = self.process.stdout.readline().split()
            self.process.stdout.close()
            if not said and ENDINGS & set(environment or ()):
                return  # it ended before it listened
            if said[-3:-1] != [b'listening', b'on']:
                raise RuntimeError('%s: %s' % (self.command, self.error_text()))
            self.port = int(said[-1])

    def signal(self, number):
        if self.process is not None:
            self.process.send_signal(number)

    def kill(self):
        if self.process is not None:
            self.process.kill()
            self.process.wait()
            self.process = None

    def finish(self):
        """Asks it to stop; the exit status."""
        if self.process is None:
            return 0
        self.process.send_signal(signal.SIGCONT)
        self.process.terminate()
        try:
            status = self.process.wait(20)
        except subprocess.TimeoutExpired:
            self.kill()
            return 'does not stop'
        self.process = None
        if status == -signal.SIGTERM and time.monotonic() < self.started + 2:
            return 0  # it was asked before it could listen to it
        return status

    def check_alive(self):
        """A driver that ended by itself is a failure of the test."""
        if self.process is not None and self.process.poll() is not None:
            raise Violation('%s ended by itself with %s: %s' % (
                self.command, self.process.returncode, self.error_text()))

    def error_text(self):
        return read(self.folder + '.errors').decode(errors='replace')[-2000:].strip()


# What an end has stored, counted from the tenancy's beginning.
Sent = collections.namedtuple('Sent', 'submitted delivered resynchronized')
Received = collections.namedtuple('Received', 'stored expected')


class Books:
    """What one sender was given, and what its and the receiver's folders must say of it. `base` are
    the receiver's transactions of earlier senders, `found` the expected number that they left."""

    def __init__(self, sender, receiver, first, counts=None):
        self.sender, self.receiver, self.first = sender, receiver, first
        self.messages, self.names, self.counts = [], [], counts
        self.refused = {}
        self.seen = self.logged = 0
        words = read_words(receiver, 'state')
        self.base, self.found = words['stored'], words['expected']

    def put(self, name, data):
        """As a host: the file is stored before it has its name, and its name before it counts."""
        with open(os.path.join(self.sender, 'spool', '.new'), 'wb') as file:
            file.write(data)
        os.rename(os.path.join(self.sender, 'spool', '.new'), os.path.join(self.sender, 'spool', name))

    def spool(self, message):
        """The next message. Returns its file's name."""
        self.messages.append(message)
        self.names.append('%06d.hl7' % (len(self.messages) - 1))
        self.put(self.names[-1], message)
        return self.names[-1]

    def spool_refused(self, data):
        """A file that must be refused, between the last message and the next. Returns its name."""
        name = '%06d.bad' % len(self.messages)
        self.refused[name] = data
        self.put(name, data)
        return name

    def all_delivered(self):
        return read_words(self.sender, 'state')['delivered'] - self.first + 1 == len(self.messages)

    # ---- one end, over a folder or over a disk that a power cut leaves

    def check_sender(self, files, logged=0, waiting=()):
        """Each submitted message is in the log under its number, each other one is still in the spool.
        The first `logged` of the log are not read again. Those `waiting` are the host's, who did not sync
        them. Returns what is stored."""
        words = state_of(files.read('state'), "the sender's state")[1]
        count = words['last'] - self.first + 1
        hold(words['first'] == self.first, 'the first number is %d', words['first'])
        hold(words['frozen'] == 0, 'the sender is frozen')
        hold(0 <= count <= len(self.messages), 'submitted up to %d, spooled %d', words['last'], len(self.messages))
        for index in range(logged, count):
            hold(files.read('log', '%d.hl7' % (self.first + index)) == self.messages[index],
                 'log %d is not what was spooled', self.first + index)
        for name, message in zip(self.names[count:], self.messages[count:]):
            hold(name in waiting or files.read('spool', name) == message,
                 'a message that is not submitted left the spool')
        self.check_refused(files, waiting)
        return Sent(count, words['delivered'] - self.first + 1, words['resynchronized'])

    def check_refused(self, files, waiting):
        """What must be refused is still in the spool or among the refused, and nothing else is there."""
        found = [files.read('refused', name) for name in files.names('refused')]
        taken = {name: data for name, data in self.refused.items() if name not in waiting}
        for name, data in taken.items():
            hold(data in found or files.read('spool', name) == data, 'a refused file is lost')
        hold(taken != self.refused or all(data in taken.values() for data in found), 'a message was refused')

    def check_receiver(self, files, seen=0):
        """It has the first k, byte for byte, in order. The first `seen` are not read again."""
        words = state_of(files.read('state'), "the receiver's state")[1]
        k = words['stored'] - self.base
        hold(k >= seen, 'the receiver had %d transactions and has %d', seen, k)
        hold(k <= len(self.messages), 'the receiver has %d, spooled are %d', k, len(self.messages))
        for index in range(seen, k):
            hold(files.read('transactions', '%015d.hl7' % (self.base + index + 1)) == self.messages[index],
                 'transaction %d of the receiver is not %d of the log', index + 1, self.first + index)
        return Received(k, words['expected'])

    def check_both(self, sender, receiver):
        """The two of one moment."""
        k, expected = receiver
        hold(0 <= k <= sender.submitted, 'the receiver has %d, submitted are %d', k, sender.submitted)
        hold(sender.delivered in (k, k - 1), 'the sender has %d for delivered, the receiver stored %d',
             sender.delivered, k)
        if k > 0:
            hold(expected == self.first + k, '%d stored and %d expected', k, expected)
            hold(sender.resynchronized == 1, '%d stored and not resynchronized', k)
        else:
            hold(expected == NONE or (expected == self.found and not sender.resynchronized),
                 'nothing stored, resynchronized is %d and %d expected', sender.resynchronized, expected)

    def check(self):
        """Demand 3 of what is stored. No driver of the two runs at this moment. What was seen before is
        not read again."""
        sender = self.check_sender(Files(self.sender), self.logged)
        receiver = self.check_receiver(Files(self.receiver), self.seen)
        self.check_both(sender, receiver)
        self.logged, self.seen = sender.submitted, receiver.stored

    def count_leftovers(self):
        """In which windows the kill hit: after a message was stored and before it counted, and so on."""
        sender, receiver = read_words(self.sender, 'state'), read_words(self.receiver, 'state')
        count, k = sender['last'] - self.first + 1, receiver['stored'] - self.base
        left = {'log beyond the last': os.path.join(self.sender, 'log', '%d.hl7' % (sender['last'] + 1)),
                'spool file already submitted': os.path.join(self.sender, 'spool', (['-'] + self.names)[count]),
                'transaction beyond the count': os.path.join(self.receiver, 'transactions',
                                                             '%015d.hl7' % (receiver['stored'] + 1))}
        for name, path in left.items():
            self.counts[name] += os.path.exists(path)
        self.counts['stored and not known to be'] += k == sender['delivered'] - self.first + 2

    def check_all(self):
        self.seen = self.logged = 0
        self.check()
        present = sorted(os.listdir(os.path.join(self.receiver, 'transactions')))
        stored = read_words(self.receiver, 'state')['stored']
        hold([name for name in present if name.endswith('.hl7')][:stored] ==
             ['%015d.hl7' % (i + 1) for i in range(stored)], 'a transaction file is missing')
