"""What the driver does besides surviving: submitting, freezing and resetting, refusing what is damaged,
peers that do not read, and syncing before each block."""

import os
import re
import shutil
import socket
import subprocess
import tempfile
import time

from blocks import Rules
from ends import Books, End, read, read_words, state_text
from lines import Splitter, open_terminal
from readout import said

RULES = Rules(False, 4096)


def text(number, body='PID|1\r', control_id=None):
    return ('MSH|^~\\&|A|B|C|D|2026||ADT^A01|%s|P|2.3.1|%s\r%s' % (control_id or number, number, body)).encode()


def answer(code, control_id, expected):
    return ('MSH|^~\\&|||||||ACK|%s|P|2.3.1\rMSA|%s|%s||%s\r' % (control_id, code, control_id, expected)).encode()


def spoken(end):
    """What a driver said, without the time of each line; a line without one is shown as it is."""
    return [re.sub(r'^\d{4}-\d\d-\d\d \d\d:\d\d:\d\d gmv_driver: ', '', line)
            for line in read(end.folder + '.errors').decode(errors='replace').splitlines()]


def happened(end):
    """The same without its start, its end and calls that nobody answers."""
    return [line for line in spoken(end) if not re.match('started: |stopped$|cannot call ', line)]


PATIENCE = [15]  # seconds until something that must happen is taken for not happening; less where a fault is sought


def wait_for(fact, seconds=None):
    limit = time.monotonic() + min(seconds or PATIENCE[0], PATIENCE[0])
    while not fact() and time.monotonic() < limit:
        time.sleep(0.005)
    return bool(fact())


class Bench:
    """Programs, a folder of its own, and the ends that a test started. Each method checks one thing."""

    def __init__(self, programs, folder, trace):
        self.programs, self.folder, self.trace, self.ends = programs, folder, trace, []
        os.makedirs(folder, exist_ok=True)

    def path(self, name):
        return os.path.join(self.folder, name)

    def driver(self, *words):
        """Runs a command to its end: the exit status and what it said."""
        try:
            done = subprocess.run([os.path.join(self.programs, 'gmv_driver')] + list(words), timeout=2 * PATIENCE[0],
                                  check=False, stdout=subprocess.PIPE, stderr=subprocess.STDOUT, stdin=subprocess.DEVNULL)
        except subprocess.TimeoutExpired:
            return -1, 'does not end'
        return done.returncode, done.stdout.decode()

    def start(self, command, name, line, *options, environment=None):
        end = End(self.programs, command, self.path(name), line, list(options))
        end.start(environment)
        self.ends.append(end)
        return end

    def sender(self, name='s', first=1):
        assert self.driver('sender-init', self.path(name), str(first))[0] == 0
        return self.path(name)

    def receiver(self, name='r'):
        assert self.driver('receiver-init', self.path(name))[0] == 0
        return self.path(name)

    def put(self, name, data):
        with open(self.path('.put'), 'wb') as file:
            file.write(data)
        os.rename(self.path('.put'), os.path.join(self.path('s'), 'spool', name))

    def close(self):
        for end in self.ends:
            end.kill()


class Peer:
    """A receiver played by the test: listens, takes blocks, answers as the test says."""

    def __init__(self):
        self.server = socket.create_server(('127.0.0.1', 0))
        self.server.settimeout(15)
        self.line = ['--minimal-connect', '127.0.0.1:%d' % self.server.getsockname()[1]]
        self.circuit, self.splitter, self.blocks = None, None, []

    def accept(self):
        self.circuit = self.server.accept()[0]
        self.circuit.settimeout(15)
        self.splitter, self.blocks = Splitter(RULES), []

    def block(self):
        """The next block's data; None at the circuit's end."""
        while not self.blocks:
            try:
                part = self.circuit.recv(65536)
            except ConnectionError:
                part = b''
            if not part:
                return None
            self.blocks = self.splitter.take(part)
        return RULES.accepted(self.blocks.pop(0))[0][1]

    def reply(self, code, control_id, expected):
        self.circuit.sendall(RULES.block(answer(code, control_id, expected)))

    def close(self):
        self.server.close()
        if self.circuit is not None:
            self.circuit.close()


# ---- each returns None, or what is wrong


def submitting(bench):
    """Files of the spool by name; leftovers removed; refusals out of the way, none of them lost."""
    folder = bench.sender()
    for name, data in [('a', text(1)), ('b', text(3)), ('c', text(2)), ('d', text(2)), ('e', text(1, 'PID|other\r')),
                       ('f', b'no header'), ('g', text(3, 'PID|\x01\r')), ('h', text(3, 'x' * 5000)),
                       ('i', text(3, '', '4')), ('j', text('0003', 'PV1|1\r', '3'))]:
        bench.put(name, data)
    bench.put('.hidden', text(4))
    os.mkdir(os.path.join(folder, 'spool', '0-folder'))
    end = bench.start('send', 's', ['--minimal-connect', '127.0.0.1:1'])
    if not wait_for(lambda: sorted(os.listdir(os.path.join(folder, 'spool'))) == ['.hidden', '0-folder']):
        return 'the spool has %s' % os.listdir(os.path.join(folder, 'spool'))
    bench.put('b', text(9))  # refused again under the same name
    refused = ['10-b', '10-b.1', '10-e', '10-i', '3-g', '4-h', '9-f']
    if not wait_for(lambda: sorted(os.listdir(os.path.join(folder, 'refused'))) == refused):
        return 'refused are %s' % sorted(os.listdir(os.path.join(folder, 'refused')))
    if read(folder, 'refused', '10-b') != text(3) or read(folder, 'refused', '10-b.1') != text(9):
        return 'a refused file is not what it was'
    if [read(folder, 'log', '%d.hl7' % n) for n in (1, 2, 3)] != [text(1), text(2), text('0003', 'PV1|1\r', '3')]:
        return 'the log is not what was submitted'
    if read_words(folder, 'state')['last'] != 3 or end.finish() != 0:
        return 'the last number is not 3, or the driver ends badly'
    return None


def freezing(bench):
    """An answer that cannot be: frozen, said by linkstatus, over a restart, until it is reset."""
    folder, peer = bench.sender(), Peer()
    bench.put('a', text(1))
    end = bench.start('send', 's', peer.line)
    peer.accept()
    steps = [(b'|-1|P|', ('AA', '-1', '-1')), (b'|1|P|', ('AR', '1', '7'))]
    for part, reply in steps:
        if part not in (peer.block() or b''):
            return 'not the block that was due'
        peer.reply(*reply)
    if peer.block() is not None:
        return 'the circuit does not end with the freezing'
    sentence = 'sender: frozen: waited on 1 and got AR 7 for control ID 1; an operator must reset it'
    if not wait_for(lambda: said(bench.programs, folder)[0][1:2] == [sentence]):
        return 'said is %s' % said(bench.programs, folder)[0]
    if said(bench.programs, folder)[1] != 2:
        return 'a frozen sender is not critical'
    if not wait_for(lambda: happened(end) == ['froze: waited on 1 and got AR 7 for control ID 1']):
        return 'the driver does not say in one line that it froze: %s' % end.error_text()
    status, words = bench.driver('reset', folder)
    if status != 1 or 'stop it first' not in words:
        return 'reset while it runs: %d %s' % (status, words)
    if end.finish() != 0 or said(bench.programs, folder)[0][1] != sentence:
        return 'the freezing is not persisted'
    bench.put('b', text(2))
    end = bench.start('send', 's', peer.line)
    time.sleep(0.3)
    if not os.path.exists(os.path.join(folder, 'spool', 'b')):
        return 'a frozen sender took a message'
    end.finish()
    if bench.driver('reset', folder)[0] != 0 or bench.driver('reset', folder)[0] != 1:
        return 'reset does not reset, or resets what is not frozen'
    end = bench.start('send', 's', peer.line)
    peer.accept()
    if b'|0|P|' not in (peer.block() or b''):
        return 'after the reset it does not ask with 0'
    peer.close()
    return None if end.finish() == 0 else 'ends badly'


def late_answers(bench):
    """Sends go by the count and the timer; giving up ends the circuit, is said and counted, and the next
    call is not made at once; an old answer is dropped."""
    bench.sender()
    peer = Peer()
    bench.put('a', text(1))
    end = bench.start('send', 's', peer.line, '--timer', '300', '--resends', '2')
    peer.accept()
    blocks = [peer.block() for _ in range(4)]
    if blocks[:3] != [b'MSH|^~\\&|||||||ADT|-1|P|2.3.1|-1\r'] * 3 or blocks[3] is not None:
        return 'not three sends of -1 and then the end: %s' % blocks
    gave_up = time.monotonic()
    peer.accept()
    if time.monotonic() < gave_up + 0.05:  # 0.3, less what this test itself was late
        return 'called again after %f s' % (time.monotonic() - gave_up)
    if happened(end) != ['waited on -1 and gave up after 3 sends, the circuit ended']:
        return 'giving up is not said: %s' % end.error_text()
    sentence = '2 circuits opened since the driver started, gave up 1 time'
    if not wait_for(lambda: sentence in said(bench.programs, bench.path('s'))[0]):
        return 'giving up is not counted: %s' % said(bench.programs, bench.path('s'))[0]
    peer.block()
    peer.reply('AA', '0', '7')  # an answer to something else
    peer.reply('AA', '-1', '-1')
    block = peer.block()
    while block is not None and b'|-1|P|' in block:
        block = peer.block()
    if block != text(1):
        return 'the transaction is not sent after -1: %s' % block
    peer.reply('AE', '1', '1')
    if not wait_for(lambda: read_words(bench.path('s'), 'state')['delivered'] == 1):
        return 'AE 1 does not deliver'
    peer.close()
    return None if end.finish() == 0 else 'ends badly'


def damaged_states(bench):
    """A state that cannot be read or is none stops the driver at once, and nothing is written."""
    sender, receiver = bench.sender(), bench.receiver()
    tries = [(sender, 'send', b'', 'is damaged'), (sender, 'send', None, 'is missing'),
             (sender, 'send', state_text('giamuvich sender 2', dict(first=1, delivered=5, last=0, resynchronized=0, frozen=0)),
              "no sender's state"),
             (sender, 'send', read(sender, 'state').replace(b'last 0', b'last 1'), 'is damaged'),
             (sender, 'send', b'giamuvich sender 1\nfirst 1\ndelivered 0\nlast 0\nresynchronized 0\nfrozen 0\nend\n',
              'has lost its check'),
             (sender, 'send', read(receiver, 'state'), "is a receiver's"),
             (receiver, 'receive', read(receiver, 'state')[:-1], 'is damaged'),
             (receiver, 'receive', state_text('giamuvich receiver 2', dict(expected=10 ** 15, stored=0, cleared=0,
                                                                           cleared_after=0)), "no receiver's state"),
             (receiver, 'receive', read(receiver, 'state').replace(b'stored 0', b'stored 7'), 'is damaged'),
             (receiver, 'receive', b'giamuvich receiver 1\nexpected 0\nstored 0\nend\n', 'has lost its check'),
             (receiver, 'receive', None, 'is missing')]
    for folder, command, content, wanted in tries:
        path = os.path.join(folder, 'state')
        if content is None:
            os.unlink(path)
        else:
            with open(path, 'wb') as file:
                file.write(content)
        with open(os.path.join(folder, 'live'), 'wb') as file:
            file.write(b'of an earlier driver')
        status, words = bench.driver(command, folder, '--minimal-connect', '127.0.0.1:1')
        if status != 1 or wanted not in words:
            return '%s on %s: %d %s' % (command, content, status, words)
        if os.path.exists(os.path.join(folder, 'live')):
            return 'what an earlier driver showed is still there'
        if (read(path) if content is not None else None) != content:
            return 'the damaged state was written over'
    return None


def calling(bench):
    """Usage, settings, initial folders, and one driver to a folder."""
    sender, receiver = bench.sender(), bench.receiver()
    line = ['--minimal-connect', '127.0.0.1:1']
    receive, terminal = ['receive', receiver] + line, ['receive', receiver, '--hybrid-tty', '/dev/null']
    end = bench.start('send', 's', line)
    wait_for(lambda: os.path.exists(os.path.join(sender, 'live')))
    tries = [([], 2), (['send'], 2), (['send', sender], 2), (['send', sender] + line + line, 2),
             (['send', sender] + line + ['--timer', '0'], 2), (['send', sender] + line + ['--data-limit'], 2),
             (receive + ['--keepalive', '0'], 2), (receive + ['--application', 'AR'], 2), (receive + ['--type', 'ADTX'], 2),
             (receive + ['--data-limit', '127'], 1), (receive + ['--data-limit', '99995'], 1),
             (receive + ['--resends', '100'], 1), (receive + ['--type', 'Adt'], 1), (terminal, 1),
             (terminal + ['--start-block', '13'], 1), (terminal + ['--end-block', '0x0B'], 1),
             (['receive', receiver, '--minimal-listen', '70000'], 1), (['sender-init', bench.path('x'), '0'], 1),
             (['sender-init', bench.path('x'), '999999999999999'], 1), (['sender-init', bench.path('x'), '-1'], 1),
             (['sender-init', bench.path('x'), '1x'], 1), (['sender-init', sender, '1'], 1),
             (['receiver-init', receiver], 1), (['send', sender] + line, 1), (['reset', receiver], 1)]
    for words, wanted in tries:
        status, told = bench.driver(*words)
        if status != wanted or not told:
            return '%s: %d %s' % (words, status, told)
    wanted = 'no such end: make it with gmv_driver %s ' + bench.path('none')
    for command, init, more in (('send', 'sender-init', ' FIRST'), ('receive', 'receiver-init', ''),
                                ('reset', 'sender-init', ' FIRST')):
        status, told = bench.driver(command, bench.path('none'), *([] if command == 'reset' else line))
        if status != 1 or told.split(' gmv_driver: ')[1:] != [wanted % init + more + '\n'] or \
                os.path.exists(bench.path('none')):
            return '%s on a folder that is missing: %s' % (command, told)
    if bench.driver('sender-init', bench.path('y'), '999999999999998')[0] != 0:
        return 'the last first number is refused'
    return None if end.finish() == 0 else 'ends badly'


def deaf_peers(bench):
    """A peer that does not read hangs neither end: the sender gives up, the receiver drops the circuit."""
    bench.sender()
    bench.receiver()
    masters = [open_terminal(), open_terminal()]
    for (_, path), name in zip(masters, 'sr'):
        os.symlink(path, bench.path('tty-' + name))
    bench.put('a', text(1, 'NTE|' + 'x' * 90000 + '\r'))
    options = ['--timer', '400', '--resends', '1', '--data-limit', '99994']
    ends = [bench.start('send', 's', ['--hybrid-tty', bench.path('tty-s')], *options),
            bench.start('receive', 'r', ['--hybrid-tty', bench.path('tty-r')], *options)]
    try:
        return deaf_sender(bench, masters[0][0]) or deaf_receiver(bench, masters[1][0]) or (
            None if [end.finish() for end in ends] == [0, 0] else 'an end does not stop')
    finally:
        for master, _ in masters:
            os.close(master)


LONG = Rules(True, 99994)


def deaf_sender(bench, master):
    """The peer takes -1 and answers it, and then reads no more."""
    splitter, seen = Splitter(LONG), []

    def hears():
        try:
            seen.extend(splitter.take(os.read(master, 4096)))
        except BlockingIOError:
            pass
        return seen

    def says(words):
        return any(words in line for line in said(bench.programs, bench.path('s'))[0])

    if not wait_for(hears):
        return 'no -1'
    os.write(master, LONG.block(answer('AA', '-1', '-1')))
    if not wait_for(lambda: says('waiting for the answer to transaction 1,')):
        return 'the transaction is not sent: %s' % said(bench.programs, bench.path('s'))[0]
    return None if wait_for(lambda: says('gave up after 2 sends')) else 'the sender does not give up'


def deaf_receiver(bench, master):
    """The peer asks and asks and reads no answer."""
    def dropped():
        try:
            os.write(master, LONG.block(b'MSH|^~\\&|||||||ADT|0|P|2.3.1|0\r'))
        except BlockingIOError:
            pass
        live = read_words(bench.path('r'), 'live')
        return live['circuits'] == 1 and live['circuit_open'] == 0

    return None if wait_for(dropped) else 'the receiver does not drop the circuit'


def newest_caller(bench):
    """A new caller ends the circuit: what the old one still sends is not taken, and its half block is
    forgotten. This keeps the line empty at a new circuit."""
    bench.receiver()
    end = bench.start('receive', 'r', ['--minimal-listen', '0'])
    old = socket.create_connection(('127.0.0.1', end.port), 15)
    old.sendall(RULES.block(text(1))[:-9])
    new = socket.create_connection(('127.0.0.1', end.port), 15)
    old.sendall(RULES.block(text(1))[-9:])
    new.sendall(RULES.block(b'MSH|^~\\&|||||||ADT|0|P|2.3.1|0\r'))
    new.settimeout(15)
    if RULES.accepted(new.recv(4096)) != [(b'D', answer('AA', '0', '-1'))]:
        return 'the new circuit does not find a receiver with nothing stored'
    if os.listdir(os.path.join(bench.path('r'), 'transactions')):
        return 'the old circuit was still read'
    callers = tuple('127.0.0.1:%d' % circuit.getsockname()[1] for circuit in (new, old))
    if happened(end) != ['a new caller, %s, ended the circuit with %s' % callers]:
        return 'it is not said: %s' % end.error_text()
    old.close()
    new.close()
    return None if end.finish() == 0 else 'ends badly'


def rejected(bench, name, rules, line, open_line):
    """A receiver on this line: what it is sent, and what it says of it."""
    folder = bench.receiver(name)
    end = bench.start('receive', name, line, '--data-limit', str(rules.limit))
    descriptor = open_line(end)
    if not wait_for(lambda: 'a circuit is open' in said(bench.programs, folder)[0]):
        return 'no circuit'
    blocks = [rules.block(text(number)) for number in (-1, 5, 9, 0, 5, 6)]
    os.write(descriptor, b''.join(blocks) + blocks[0][:-1] + b'x')
    sentence = '7 blocks read on 1 circuit since the driver started, 1 refused, 2 answered AR'
    if not wait_for(lambda: sentence in said(bench.programs, folder)[0]):
        return '%s: %s' % (name, said(bench.programs, folder)[0])
    return None if end.finish() == 0 else 'ends badly'


def rejecting(bench):
    """The receiver counts the answers AR, and no other reply, on both kinds of link."""
    (master, path), caller = open_terminal(), socket.socket()
    os.symlink(path, bench.path('tty'))

    def call(end):
        caller.connect(('127.0.0.1', end.port))
        return caller.fileno()

    try:
        return (rejected(bench, 'hybrid', LONG, ['--hybrid-tty', bench.path('tty')], lambda end: master) or
                rejected(bench, 'minimal', RULES, ['--minimal-listen', '0'], call))
    finally:
        caller.close()
        os.close(master)


def said_to_another(programs, folder):
    """What linkstatus says to a user who is not the driver's, where there is such a user."""
    done = subprocess.run([os.path.join(programs, 'linkstatus'), folder], stdout=subprocess.PIPE, check=False,
                          user=65534 if os.geteuid() == 0 else None)
    return done.stdout.decode().splitlines()[1:2], done.returncode


def rights(bench):
    """Who may read `lock` is told that a driver runs. Who may not is told that it is not known."""
    home, mask = tempfile.mkdtemp(), os.umask(0o022)
    folder = os.path.join(home, 's')
    try:
        os.chmod(home, 0o755)  # the bench's own folder is closed to other users
        shutil.copy(os.path.join(bench.programs, 'linkstatus'), home)
        bench.driver('sender-init', folder, '1')
        end = End(bench.programs, 'send', folder, ['--minimal-connect', '127.0.0.1:1'], [])
        end.start()
        bench.ends.append(end)
        for mode, wanted in ((0o444, (['sender: no circuit open'], 0)),
                             (0, (['sender: it cannot be told whether a driver runs on this folder'], 3))):
            os.chmod(os.path.join(folder, 'lock'), mode)
            if not wait_for(lambda wanted=wanted: said_to_another(home, folder) == wanted):
                return 'lock of mode %o: %s' % (mode, said_to_another(home, folder))
        return None if end.finish() == 0 else 'ends badly'
    finally:
        os.umask(mask)
        shutil.rmtree(home)


def used_time(end):
    """The processor time of a driver in seconds."""
    with open('/proc/%d/stat' % end.process.pid, encoding='ascii') as file:
        words = file.read().rsplit(')', 1)[1].split()
    return (int(words[11]) + int(words[12])) / os.sysconf('SC_CLK_TCK')


def idling(bench):
    """Ends that have nothing to do take no time: with a circuit, and without one."""
    bench.sender('s')
    bench.sender('alone')
    bench.receiver('r')
    bench.receiver('lonely')
    receiving = bench.start('receive', 'r', ['--minimal-listen', '0'])
    ends = [receiving, bench.start('send', 's', ['--minimal-connect', '127.0.0.1:%d' % receiving.port]),
            bench.start('send', 'alone', ['--hybrid-tty', bench.path('nothing')]),
            bench.start('receive', 'lonely', ['--minimal-connect', '127.0.0.1:1'])]
    if not wait_for(lambda: read_words(bench.path('s'), 'state')['resynchronized'] == 1):
        return 'no circuit'
    before = [used_time(end) for end in ends]
    time.sleep(1)
    used = [used_time(end) - start for end, start in zip(ends, before)]
    if max(used) > 0.1:
        return 'seconds used in one second: %s' % used
    return None if [end.finish() for end in ends] == [0, 0, 0, 0] else 'ends badly'


def unsynced_at(lines):
    """The first thing that was not synced when a block went out, or renamed before it was synced; else
    None. The lines are those that trace.c wrote."""
    dirty, folders = set(), set()
    for line in lines:
        act, _, path, *more = line.split(' ')[1:]
        if act == 'write':
            dirty.add(path)
        elif act == 'sync':
            dirty.discard(path)
            folders.discard(path)
        elif act == 'rename':
            if path in dirty:
                return path
            folders.add(os.path.dirname(more[0]))
        elif act == 'block' and (dirty or folders):
            return sorted(dirty | folders)[0]
    return None


def syncing(bench):
    """Both ends, preloaded with trace.c: nothing is unsynced when a block goes out."""
    sender, receiver = bench.sender(), bench.receiver()
    books = Books(sender, receiver, 1)
    traces = [bench.path('trace-%s' % name) for name in 'rs']
    for path, name in zip(traces, ('r', 's')):
        with open(path, 'wb') as file:
            environment = {'LD_PRELOAD': bench.trace, 'TRACE_DESCRIPTOR': str(file.fileno())}
            line = ['--minimal-listen', '0']
            if name == 's':
                line = ['--minimal-connect', '127.0.0.1:%d' % bench.ends[0].port]
            end = End(bench.programs, 'receive' if name == 'r' else 'send', bench.path(name), line, [])
            end.start(environment, file.fileno())
            bench.ends.append(end)
    for number in range(1, 21):
        books.spool(text(number))
    if not wait_for(books.all_delivered):
        return 'not delivered'
    for end in bench.ends:
        if end.finish() != 0:
            return 'ends badly'
    for path, least in zip(traces, (80, 120)):
        lines = read(path).decode().splitlines()
        blocks, syncs = ([line.split(' ')[1] for line in lines].count(act) for act in ('block', 'sync'))
        if blocks < 21 or syncs < least:
            return '%d blocks and %d syncs are too few' % (blocks, syncs)
        if unsynced_at(lines):
            return 'not synced before a block: %s' % unsynced_at(lines)
        if not unsynced_at([line for line in lines if not re.match('- sync .*/state.new$', line)]):
            return 'the check does not see a missing sync'
    return None


DUTIES = [submitting, freezing, late_answers, damaged_states, calling, deaf_peers, newest_caller,
          rejecting, rights, idling]
