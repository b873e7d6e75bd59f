"""Links whose ends are killed at random moments, over a line that loses and damages blocks."""

import collections
import os
import random
import signal
import subprocess
import time

from blocks import Rules
from books import AGREE
from duties import wait_for
from ends import Books, End, Violation, hold, read, read_words
from lines import NoLine, TcpLine, TerminalLine
from readout import said

LAST_NUMBER = 999999999999998

# What a scenario has: the line (TCP, TERMINAL, or DIRECT: TCP with no line between), the first number of each
# sender that uses the receiver in turn, the data limit, the resends, the application's verdict, SB and EB, and the
# most messages of a sender.
TCP, TERMINAL, DIRECT = 'tcp', 'terminal', 'direct'
Scenario = collections.namedtuple('Scenario', 'name line firsts limit resends application start end most')

SCENARIOS = [
    Scenario('minimal over TCP, first number 1', TCP, [1], 4096, 3, 'AA', 0x0B, 0x1C, 10 ** 6),
    Scenario('hybrid over a terminal, first number 998', TERMINAL, [998], 4096, 3, 'AA', 0x0B, 0x1C, 10 ** 6),
    Scenario('minimal, numbers run out, AE', TCP, [LAST_NUMBER - 8] * 4, 512, 2, 'AE', 0x0B, 0x1C, 9),
    Scenario('hybrid, numbers run out', TERMINAL, [LAST_NUMBER - 8] * 4, 1024, 3, 'AA', 0x0B, 0x1C, 9),
    Scenario('minimal, a receiver that an earlier sender left', TCP, [1, 1, 2, 1, 5, 998], 300, 3, 'AA', 0x0B, 0x1C, 4),
    Scenario('hybrid, a receiver that an earlier sender left, AE', TERMINAL, [1, 2, 1, 3], 128, 1, 'AE', 0x02, 0xFE, 3),
    Scenario('minimal, no resends, long messages', TCP, [77], 99994, 0, 'AA', 0x0B, 0x1C, 10 ** 6),
    Scenario('minimal, no line between, earlier senders', DIRECT, [1, 1, 2, 40], 4096, 1, 'AA', 0x0B, 0x1C, 10 ** 6),
    Scenario('hybrid, no resends, AE, other SB and EB', TERMINAL, [1], 2048, 0, 'AE', 0x01, 0x04, 10 ** 6),
]

NAMES = ['ALVAREZ^MARIA', 'OKAFOR^CHIDI', 'NGUYEN^THI', "O'BRIEN^SEAN", 'LINDQVIST^ASTRID', 'HADDAD^OMAR']
TESTS = ['718-7^HEMOGLOBIN^LN', '2345-7^GLUCOSE^LN', '2951-2^SODIUM^LN', '6690-2^WBC^LN', '777-3^PLATELETS^LN']


def message(number, limit, random):
    """A message with this number, of several segments, at most `limit` bytes long."""
    zeros = random.choice(['', '', '0' * (15 - len(str(number)))])
    head = 'MSH|^~\\&|ADM|NORTH|LAB|SOUTH|202611%02d0830||ORU^R01|%d|P|2.3.1|%s%d||AL\r' % (
        random.randrange(1, 29), number, zeros, number)
    if len(head) > limit:
        head = 'MSH|^~\\&|||||||ORU|%d|P|2.3.1|%d\r' % (number, number)
    segments = ['EVN|R01|20261116\r', 'PID|1||%07d^^^HIS||%s||19%02d0101|%s\r' % (
        random.randrange(10 ** 7), random.choice(NAMES), random.randrange(100), random.choice('FMU'))]
    for row in range(random.choice([0, 1, 3, 10, 60])):
        segments.append('OBX|%d|NM|%s||%d.%d|g/dL|11-17|N|||F\r' % (
            row + 1, random.choice(TESTS), random.randrange(200), random.randrange(10)))
    text = head
    for segment in segments:
        if len(text) + len(segment) <= limit:
            text += segment
    rest = limit - len(text)
    if rest > 8 and random.random() < 0.1:  # just as long as a block may be
        text += 'NTE|1||' + ''.join(chr(random.randrange(0x20, 0x7F)) for _ in range(rest - 8)) + '\r'
    return text.encode()


class Link:
    """A receiver's folder, the senders that use it one after the other, and the line between."""

    def __init__(self, programs, folder, scenario, seed, timer=40, full=None):
        """`full` is the library that makes the receiver's disk full at times."""
        self.programs, self.folder, self.scenario, self.full = programs, folder, scenario, full
        self.timer, self.random, self.counts = timer, random.Random(seed), collections.Counter()
        self.earlier = set()  # what the senders before this one sent
        self.terminal = scenario.line == TERMINAL
        self.rules = Rules(self.terminal, scenario.limit, scenario.start, scenario.end)
        self.options = ['--data-limit', str(scenario.limit), '--timer', str(timer), '--resends', str(scenario.resends)]
        if self.terminal:
            self.options += ['--start-block', str(scenario.start), '--end-block', str(scenario.end)]
        os.makedirs(folder)
        self.line_random = random.Random(seed + 1)
        delay = 2.5 * timer / 1000
        if self.terminal:
            self.line = TerminalLine(self.rules, self.line_random, self.counts, delay, folder)
        elif scenario.line == TCP:
            self.line = TcpLine(self.rules, self.line_random, self.counts, delay)
        else:
            self.line = NoLine(self.line_random)
        self.line.most_sends = scenario.resends + 1
        self.receiver = self.end('receive', 'receiver', self.receiver_line())
        self.init('receiver-init', self.receiver.folder)
        self.sender, self.books, self.full_file = None, None, os.path.join(folder, 'full')

    def receiver_line(self):
        if self.terminal:
            return ['--hybrid-tty', self.line.links[1]]
        return ['--minimal-listen', '0' if self.scenario.line == TCP else str(self.line.port)]

    def sender_line(self):
        if self.terminal:
            return ['--hybrid-tty', self.line.links[0]]
        return ['--minimal-connect', '127.0.0.1:%d' % self.line.port]

    def end(self, command, name, line):
        options = self.options + (['--application', self.scenario.application] if command == 'receive' else [])
        return End(self.programs, command, os.path.join(self.folder, name), line, options)

    def init(self, *words):
        subprocess.run([os.path.join(self.programs, 'gmv_driver')] + list(words), check=True)

    # ---- what happens to the ends

    def start(self, end):
        full = {'LD_PRELOAD': self.full, 'FULL_WHILE': self.full_file} if self.full and end is self.receiver else None
        end.start(full)
        if end.port is not None:
            self.line.receiver_port = end.port

    def crash(self):
        """Kills one end or both, stops the other, holds what is stored against demand 3, restarts."""
        victims = self.random.choice([[self.sender], [self.receiver], [self.sender, self.receiver]])
        others = [end for end in (self.sender, self.receiver) if end not in victims]
        for end in (self.sender, self.receiver):
            end.check_alive()
        for end in victims:
            end.kill()
            self.counts['kills of the ' + ('sender' if end is self.sender else 'receiver')] += 1
        for end in others:
            end.signal(signal.SIGSTOP)
        self.counts['kills'] += len(victims)
        self.settle(others)
        self.books.check()
        self.books.count_leftovers()
        self.counts['checks'] += 1
        self.make_space()
        if self.terminal:
            self.line.hang_up()  # the terminal server sees that the end is gone
        for end in victims:
            self.start(end)
            self.counts['restarts'] += 1
        for end in others:
            end.signal(signal.SIGCONT)

    def fill_disk(self):
        """The receiver's disk is full until the next crash. One that is just starting would end by it."""
        if self.full and self.random.random() < 0.3 and wait_for(self.receiver_shows, 1):
            open(self.full_file, 'wb').close()
            self.counts['full disks'] += 1

    def receiver_shows(self):
        try:
            return read_words(self.receiver.folder, 'live')['process'] == self.receiver.process.pid
        except FileNotFoundError:
            return False

    def make_space(self):
        if os.path.exists(self.full_file):
            os.unlink(self.full_file)

    @staticmethod
    def settle(others):
        """A stopped process does nothing more once the system says that it is stopped."""
        for end in others:
            for _ in range(2000):
                with open('/proc/%d/stat' % end.process.pid, encoding='ascii') as file:
                    if file.read().rsplit(')', 1)[1].split()[0] in 'TZX':
                        break
                time.sleep(0.0002)

    def feed(self):
        """Some messages more, up to a few that are not delivered yet."""
        count = len(self.books.messages)
        if count - self.books.seen > 6 or self.random.random() < 0.2:
            return
        for _ in range(self.random.choice([1, 1, 2, 3])):
            number = self.books.first + len(self.books.messages)
            if len(self.books.messages) < self.scenario.most and number <= LAST_NUMBER:
                self.books.spool(self.new_message(number))

    def new_message(self, number):
        """None that an earlier sender sent: by its bytes linkstatus would find it among that one's."""
        while True:
            made = message(number, self.scenario.limit, self.random)
            if made not in self.earlier:
                return made

    def random_moment(self):
        """Waits for some blocks to come to the line, and then from microseconds to tens of milliseconds."""
        if self.random.random() < 0.85:
            self.line.wait_blocks(self.random.choice([1, 1, 1, 2, 3, 6]), 0.15)
        else:
            time.sleep(0.05 * self.random.random())
        if self.random.random() < 0.5:
            time.sleep(10 ** self.random.uniform(-5, -2))
        else:
            time.sleep(0.025 * self.random.random())

    # ---- one sender's time, and all of them

    def one_sender(self, index, first, seconds, kills, limit):
        """Kills for these seconds and until there are so many kills; then the line is good."""
        folder = os.path.join(self.folder, 'sender-%d' % index)
        self.init('sender-init', folder, str(first))
        self.line.order(lambda: setattr(self.line, 'good', False))
        self.sender = self.end('send', 'sender-%d' % index, self.sender_line())
        self.books = Books(folder, self.receiver.folder, first, self.counts)
        self.books.check()
        self.start(self.sender)
        begin, done = time.monotonic(), 0
        while (time.monotonic() < begin + seconds or done < kills) and time.monotonic() < limit:
            self.feed()
            self.fill_disk()
            self.random_moment()
            self.crash()
            done += 1
        self.deliver_all()

    def deliver_all(self):
        """On a good line all that was spooled is delivered."""
        number = self.books.first + len(self.books.messages)
        if not self.books.messages and number <= LAST_NUMBER:
            self.books.spool(self.new_message(number))
        self.line.become_good()
        limit = time.monotonic() + 60
        while not self.books.all_delivered() and time.monotonic() < limit:
            self.sender.check_alive()
            self.receiver.check_alive()
            time.sleep(0.005)
        hold(self.books.all_delivered(), 'on a good line not all is delivered: %s', self.sender.error_text())
        status = self.sender.finish()
        hold(status == 0, 'the sender ends with %s: %s', status, self.sender.error_text())
        self.books.check_all()
        hold(self.books.seen == len(self.books.messages), 'not all is stored')
        self.compare_books()
        self.earlier.update(self.books.messages)
        self.counts['deliveries'] += len(self.books.messages)
        self.counts['senders'] += 1

    def compare_books(self):
        """However often the ends were killed, and whoever had the receiver before, linkstatus finds no difference."""
        if os.path.exists(os.path.join(self.programs, 'linkstatus')):
            lines = said(self.programs, self.sender.folder, self.receiver.folder)[0]
            hold(lines[-1] == AGREE % len(self.books.messages), 'linkstatus says %s', lines)

    def run(self, seconds, kills, limit):
        """All senders of the scenario; the receiver stays. Raises Violation."""
        self.line.start()
        try:
            self.start(self.receiver)
            share = len(self.scenario.firsts)
            for index, first in enumerate(self.scenario.firsts):
                self.one_sender(index, first, seconds / share, kills // share, limit)
            status = self.receiver.finish()
            hold(status == 0, 'the receiver ends with %s: %s', status, self.receiver.error_text())
            self.counts['requests without room'] += read(self.receiver.folder + '.errors').count(b' is not stored: ')
        finally:
            for end in (self.sender, self.receiver):
                if end is not None:
                    end.kill()
            self.line.finish()
        if self.line.problem:
            raise RuntimeError(self.line.problem)
        return self.counts


def finds_violation(programs, folder, scenario, seed, kills):
    """Runs a driver that is built with a fault. Returns what was found, or None."""
    link = Link(programs, folder, scenario, seed)
    try:
        link.run(0, kills, time.monotonic() + 60)
    except Violation as found:
        return '%s (after %d kills)' % (found, link.counts['kills'])
    return None
