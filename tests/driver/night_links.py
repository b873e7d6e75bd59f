"""The links of the night, and what goes wrong on each.

What takes time is a generator that yields each fact that it waits for, so that all links go on at once."""

import collections
import os
import random
import re
import shutil
import signal
import socket
import subprocess
import time

from blocks import Rules
from damage import is_refused
from ends import CHECKED, read, read_words, state_text
from lines import TO_RECEIVER, TO_SENDER, Splitter, TcpLine, TerminalLine

MINIMAL, HYBRID = Rules(False, 4096), Rules(True, 4096)
BEFORE, AFTER = 3, 12  # messages that are delivered before a fault, and after the handover of slot 7
LONGEST_NAME = 255
QUICK = ('--timer', '400')  # a sender that gives up soon
SHORT = ('--data-limit', '128')


def report(number, name, more=''):
    """A result. No two links have the same one."""
    return ('MSH|^~\\&|LAB||WARD||||ORU^R01|%d|P|2.3.1|%d\rOBX|1|NM|%s||%d%s\r' % (
        number, number, name, number, more)).encode('latin-1')


def long_report(number, name, length):
    return report(number, name, '|' + 'x' * length)


# ---- lines that have the fault


class ChangedLine(TcpLine):
    """What goes on in a block's place is what `change` says."""

    def __init__(self):
        super().__init__(MINIMAL, random.Random(), collections.Counter(), 0)
        self.change = lambda way, block: [block]

    def meets(self, way, block):
        for data in self.change(way, block):
            self.ways[way].put(data, time.monotonic())


class NoisyTerminal(TerminalLine):
    """A terminal server on a line with noise. When an end hangs up, it hangs up the other one, and makes no
    new link until somebody tells it to."""

    def __init__(self, folder):
        os.mkdir(folder)
        super().__init__(HYBRID, random.Random(27), collections.Counter(), 0, folder)
        self.noise = 0.0

    def meets(self, way, block):
        self.ways[way].put(self.flipped(way, block), time.monotonic())

    def flipped(self, way, block):
        """Each byte is hit as often as the noise is strong. Two hits can hide each other from the checksum:
        such damage is no part of this test."""
        while True:
            bad = bytes(byte ^ (1 << self.random.randrange(8)) if self.random.random() < self.noise else byte
                        for byte in block)
            if bad == block or is_refused(self.rules, self.ways[way].tail, bad, block):
                return bad

    def end_circuit(self):
        self.shut()


def control_id(block):
    """MSA-2 of an answer, MSH-10 of a request, as a number."""
    found = re.search(rb'\rMSA\|..\|(-?\d+)\|', block) or re.search(rb'MSH(?:\|[^|\r]*){8}\|(-?\d+)\|', block)
    return int(found[1])


# ---- a link


class Driver:
    """One end that runs. What it says is in FOLDER.said, that of each start behind the last one's."""

    def __init__(self, night, folder, *words):
        self.night, self.folder, self.words = night, folder, words
        self.process, self.environment = None, {}

    def starts(self):
        """Until it is ready, or has ended."""
        count = self.night.said(self.folder).count('gmv_driver: started')
        with open(self.night.path(self.folder + '.said'), 'ab') as said:
            self.process = subprocess.Popen([self.night.driver] + list(self.words), cwd=self.night.folder,
                                            stdin=subprocess.DEVNULL, stdout=said, stderr=said,
                                            env=dict(os.environ, **self.environment))
        yield lambda: self.night.said(self.folder).count('gmv_driver: started') > count or self.has_ended()

    def stops(self):
        self.process.terminate()
        yield self.has_ended

    def halts(self):
        """By a signal that it cannot catch: it does nothing more until it is told to go on."""
        self.process.send_signal(signal.SIGSTOP)
        yield lambda: re.search(r'\) T ', read('/proc/%d/stat' % self.process.pid).decode())

    def goes_on(self):
        self.process.send_signal(signal.SIGCONT)

    def has_ended(self):
        return self.process is None or self.process.poll() is not None

    def kill(self):
        if self.process is not None:
            self.process.kill()
            self.process.wait()


class Link:
    """Both ends of a link, and what was spooled for it."""

    def __init__(self, night, number):
        self.night, self.number, self.name = night, number, 'lab%02d' % number
        self.first = 1 if number % 2 == 0 else 301  # a position need not be a number
        self.port, self.line, self.stray = night.free_port(), None, ''
        self.sender, self.receiver = Driver(night, self.name + '.s'), Driver(night, self.name + '.r')
        self.spooled = {}

    def path(self, end, *parts):
        return self.night.path(self.name + '.' + end, *parts)

    def state(self, end='s'):
        return read_words(self.path(end), 'state')

    def over(self, line):
        """From now on the two talk over a line of the test."""
        self.line = line
        line.receiver_port = self.port
        line.start()

    def makes(self, ends):
        """New folders for these ends, as at the beginning of a tenancy."""
        self.spooled = {}
        words = {self.receiver: ['receiver-init', self.receiver.folder],
                 self.sender: ['sender-init', self.sender.folder, str(self.first)]}
        made = [subprocess.Popen([self.night.driver] + words[end], cwd=self.night.folder) for end in ends]
        yield lambda: all(one.poll() == 0 for one in made)

    def begins(self, sending=(), receiving=()):
        """A tenancy: both ends are made, and started with these options."""
        yield from self.makes([self.receiver, self.sender])
        calls, listens = ['--minimal-connect', '127.0.0.1:%d' % (
            self.line.port if isinstance(self.line, TcpLine) else self.port)], ['--minimal-listen', str(self.port)]
        if isinstance(self.line, TerminalLine):
            calls, listens = (['--hybrid-tty', link] for link in self.line.links)
        self.receiver.words = ['receive', self.receiver.folder, *listens, *receiving]
        self.sender.words = ['send', self.sender.folder, *calls, *sending]
        yield from self.receiver.starts()
        yield from self.sender.starts()

    def runs(self, sending=(), receiving=(), line=None):
        """A good beginning, as every link has it."""
        if line is not None:
            self.over(line)
        yield from self.begins(sending, receiving)
        yield from self.delivers(BEFORE)

    def next_number(self):
        return self.first + len(self.spooled)

    def put(self, name, data):
        """As a host does it. It takes no name that is still there."""
        with open(self.path('s', '.new'), 'wb') as file:
            file.write(data)
        os.rename(self.path('s', '.new'), self.path('s', 'spool', name))

    def spool(self, data=None, name=None):
        """The next number's message, in a file of its number."""
        number = self.next_number()
        self.spooled[number] = data or report(number, self.name)
        self.put(name or '%06d' % number, self.spooled[number])

    def delivers(self, count=1):
        for _ in range(count):
            self.spool()
        yield lambda: self.state()['delivered'] == self.next_number() - 1

    def freezes(self):
        yield lambda: self.state()['frozen'] == 1

    def refuses(self, count):
        yield lambda: len(os.listdir(self.path('s', 'refused'))) == count

    def disk_goes_on(self):
        """A driver that waits for its disk does not stop."""
        if 'HANG_WHILE' in self.receiver.environment:
            os.unlink(self.receiver.environment['HANG_WHILE'])

    def close(self):
        for end in (self.sender, self.receiver):
            end.kill()
        if self.line is not None:
            self.line.finish()


# ---- what goes wrong: on the line, at a peer


def nothing(link):
    yield from link.runs()


def next_number_answered(link):
    """As a peer that answers AA with the number that it expects next."""
    yield from link.runs(line=ChangedLine())
    link.line.change = lambda way, block: [block if way == TO_RECEIVER or control_id(block) < 1 else re.sub(
        rb'\|\|(\d+)\r', lambda found: b'||%d\r' % (int(found[1]) + 1), block)]
    link.spool()
    yield from link.freezes()


def no_answers(link):
    yield from link.runs(QUICK, line=ChangedLine())
    link.line.change = lambda way, block: [block] if way == TO_RECEIVER else []
    link.spool()


def other_separator(link, changed_way):
    yield from link.runs(QUICK, line=ChangedLine())
    link.line.change = lambda way, block: [block.replace(b'MSH|', b'MSH^') if way == changed_way else block]
    link.spool()


def no_echo(link):
    """As a peer that puts a number of its own into MSA-2."""
    yield from link.runs(QUICK, line=ChangedLine())
    link.line.change = lambda way, block: [re.sub(rb'(MSA\|..\|)[^|]*', rb'\g<1>4711', block)]
    link.spool()


def noise(link):
    """One byte in 250 is hit, and the reports are long."""
    yield from link.runs(line=NoisyTerminal(link.path('tty')))
    link.line.noise = 0.004
    for _ in range(5):
        link.spool(long_report(link.next_number(), link.name, 1000))
    yield lambda: 'gave up' in link.night.said(link.name + '.s')


def slot_7(link, changes_hands):
    """The slot changes hands and the line is not emptied. It still holds the old tenant's first answers to -1 and
    to 1, and they come out, each for the new tenant's request of that number. The new tenant's 1 gets lost."""
    held = {}

    def holds(way, block):
        if way == TO_RECEIVER or control_id(block) not in (-1, 1) or control_id(block) in held:
            return [block]
        held[control_id(block)] = block
        return []

    def lets_out(way, block):
        if way == TO_SENDER or control_id(block) not in (-1, 1):
            return [block]
        if control_id(block) in held:
            link.line.ways[TO_SENDER].put(held.pop(control_id(block)), time.monotonic())
        return [block] if control_id(block) == -1 else []

    link.over(ChangedLine())
    link.line.change = holds
    yield from link.begins(QUICK)
    yield from link.delivers()
    yield from link.sender.stops()
    yield from link.receiver.stops()
    link.line.change = lets_out
    yield from changes_hands(link)
    yield from link.delivers()
    yield from link.delivers(AFTER)


def both_made_anew(link):
    for end in 'sr':
        os.rename(link.path(end), link.path(end + '.aside'))
    yield from link.begins()


def receiver_kept(link):
    """The receiver is handed over as it is, and the application has taken the old tenant's results out of it."""
    os.rename(link.path('s'), link.path('s.aside'))
    for name in os.listdir(link.path('r', 'transactions')):
        os.unlink(link.path('r', 'transactions', name))
    yield from link.makes([link.sender])
    yield from link.receiver.starts()
    yield from link.sender.starts()


# ---- somebody else calls


def call(link):
    stray = socket.create_connection(('127.0.0.1', link.port))
    stray.setblocking(False)
    link.stray = link.stray or '127.0.0.1:%d' % stray.getsockname()[1]
    return stray


def is_thrown_out(stray):
    try:
        return stray.recv(4096) == b''
    except BlockingIOError:
        return False
    except ConnectionError:
        return True


def stray_caller(link, words):
    """He says this and holds the connection until he is thrown out. He calls thrice."""
    yield from link.runs()
    for _ in range(3):
        with call(link) as stray:
            try:
                stray.send(words)
            except ConnectionError:
                pass  # thrown out already
            yield lambda stray=stray: is_thrown_out(stray)
    yield from link.delivers()


def hear(stray, splitter, heard):
    try:
        heard += splitter.take(stray.recv(4096))
    except BlockingIOError:
        pass
    return heard


def stray_sender(link):
    """Another sender's -1 and 1 are through before the true sender has called again."""
    yield from link.runs()
    yield from link.sender.halts()
    with call(link) as stray:
        heard, splitter = [], Splitter(MINIMAL)
        for block in (MINIMAL.block(b'MSH|^~\\&|||||||ADT|-1|P|2.3.1|-1\r'), MINIMAL.block(report(1, 'stray'))):
            count = len(heard)
            stray.send(block)
            yield lambda count=count: len(hear(stray, splitter, heard)) > count
    link.sender.goes_on()
    link.spool()
    yield from link.freezes()


# ---- a machine, a driver, a setting


def receiver_hangs(link):
    yield from link.runs(QUICK)
    yield from link.receiver.halts()
    link.spool()


def killed(link, end):
    yield from link.runs()
    getattr(link, end).kill()
    link.spool()


def other_machine(link, end, variable, sending=()):
    """An end goes on with the preloaded machine, and now what the variable stands for is so there."""
    driver = getattr(link, end)
    yield from link.runs(sending)
    yield from driver.stops()
    driver.environment = {'LD_PRELOAD': link.night.path('night.so'), variable: link.path('fault')}
    yield from driver.starts()
    yield from link.delivers()
    with open(link.path('fault'), 'wb'):
        pass


def full_disk_at_sender(link):
    yield from other_machine(link, 'sender', 'FULL_WHILE')
    link.spool()
    yield link.sender.has_ended


def full_disk_at_receiver(link, sending=QUICK):
    yield from other_machine(link, 'receiver', 'FULL_WHILE', sending)
    link.spool()
    yield lambda: 'is not stored' in link.night.said(link.receiver.folder)


def full_disk_for_a_while(link):
    """There is room again before the sender gives up."""
    yield from full_disk_at_receiver(link, ())
    os.unlink(link.path('fault'))
    yield lambda: link.state()['delivered'] == link.next_number() - 1
    yield from link.delivers(2)


def slow_disk(link):
    """A sync of the receiver's disk takes a moment, and the results get through."""
    yield from link.runs()
    yield from link.receiver.stops()
    link.receiver.environment = {'LD_PRELOAD': link.night.path('slow.so'), 'SYNC_MILLISECONDS': '100'}
    yield from link.receiver.starts()
    yield from link.delivers(2)


def hanging_disk(link):
    """It does not come back."""
    yield from link.runs(QUICK)
    yield from link.receiver.stops()
    link.receiver.environment = {'LD_PRELOAD': link.night.path('slow.so'), 'HANG_WHILE': link.path('fault')}
    yield from link.receiver.starts()
    yield from link.delivers()
    with open(link.path('fault'), 'wb') as file:
        file.write(b'.hl7.new')
    link.spool()


def clock_ahead(link):
    yield from other_machine(link, 'receiver', 'AHEAD_WHILE')
    yield from link.delivers(2)


def short_limit_at_receiver(link):
    yield from link.runs(QUICK, receiving=SHORT)
    link.spool(long_report(link.next_number(), link.name, 600))


# ---- the receiver's folder


def changed_state(link, change):
    """The receiver is stopped, its state changed as a disk or a hand would do it, and it is started again."""
    yield from link.runs()
    yield from link.receiver.stops()
    data = change(read(link.path('r', 'state')))
    with open(link.path('r', 'state'), 'wb') as file:
        file.write(data)
    yield from link.receiver.starts()
    link.spool()
    yield link.receiver.has_ended


def shortened(data):
    return data[:len(data) // 2]


def expected_less(data):
    """One digit, and nothing else."""
    return re.sub(rb'(?m)^(expected \d*)(\d)$', lambda found: found[1] + b'%d' % (int(found[2]) - 1), data)


def stored_less(data):
    return data.replace(b'stored %d\n' % BEFORE, b'stored %d\n' % (BEFORE - 2))


def forged_count(link):
    """The check is made anew: a state that is well formed and wrong."""
    def forge(data):
        words = link.state('r')
        assert data == state_text(CHECKED[1], words)
        return state_text(CHECKED[1], dict(words, stored=words['stored'] - 2))

    yield from changed_state(link, forge)


def receiver_from_backup(link):
    yield from link.runs()
    yield from link.receiver.stops()
    shutil.copytree(link.path('r'), link.path('backup'))
    yield from link.receiver.starts()
    yield from link.delivers(BEFORE)
    yield from link.receiver.stops()
    shutil.rmtree(link.path('r'))
    os.rename(link.path('backup'), link.path('r'))
    yield from link.receiver.starts()
    yield from link.freezes()


# ---- the spool


def bad_file(link, bad):
    """A file that is refused, and one behind it, which is not the next number any more."""
    number = link.next_number()
    link.put('%06d' % number, bad)
    link.put('%06d' % (number + 1), report(number + 1, link.name))
    yield from link.refuses(2)


def forbidden_byte(link):
    yield from link.runs()
    yield from bad_file(link, report(link.next_number(), link.name, '|M\xfcller'))


def short_limit_at_sender(link):
    yield from link.runs(sending=SHORT)
    yield from bad_file(link, long_report(link.next_number(), link.name, 600))


def long_name(link):
    return ('%06d' % link.next_number()).ljust(LONGEST_NAME, 'x')


def good_long_name(link):
    yield from link.runs()
    link.spool(name=long_name(link))
    yield from link.delivers()


def bad_long_name(link):
    yield from link.runs()
    link.put(long_name(link), b'no header')
    yield from link.delivers()


def empty_file(link):
    yield from link.runs()
    link.put('000000', b'')
    yield from link.refuses(1)
    yield from link.delivers()


def folder_in_spool(link):
    yield from link.runs()
    os.mkdir(link.path('s', 'spool', '000000'))
    yield from link.delivers(2)
