"""What readers and new users found and was mended: names that are too long, floods, deaf and vanished peers, peers that
hang up, state files that are wrong and well formed, strangers. faults.py puts each fault back."""

import ctypes
import os
import re
import select
import signal
import socket
import struct
import subprocess
import time

from duties import Peer, RULES, answer, damaged_states, deaf_peers, happened, spoken, text, used_time, wait_for
from ends import End, Files, change_state, read, read_words, state_of
from faults import Fault
from lines import open_terminal
from readout import said

HERE = os.path.dirname(os.path.abspath(__file__))
SB = bytes([0x0B])
QUERY = RULES.block(b'MSH|^~\\&|||||||ADT|0|P|2.3.1|0\r')
BUSY = 500  # results
FIRST_FORM = {'s': 'giamuvich sender 1\nfirst 1\ndelivered 0\nlast 0\nresynchronized 0\nfrozen 0\nend\n',
              'r': 'giamuvich receiver 1\nexpected 5\nstored 4\nend\n'}


def write(path, data):
    with open(path, 'wb') as file:
        file.write(data if isinstance(data, bytes) else data.encode())


def call(end):
    circuit = socket.create_connection(('127.0.0.1', end.port), 15)
    circuit.settimeout(15)
    return circuit


def hears(circuit, seconds=2):
    """What comes within this time; nothing where nothing does."""
    circuit.settimeout(seconds)
    try:
        return circuit.recv(4096)
    except socket.timeout:
        return b''


def stops(end):
    """Asks a driver to stop, and gives it two seconds. None, or what is wrong."""
    end.signal(signal.SIGTERM)
    if not wait_for(lambda: end.process.poll() is not None, 2):
        return 'it does not stop'
    return None if end.process.returncode == 0 else 'ends badly'


def transactions(folder):
    return sorted(name for name in os.listdir(os.path.join(folder, 'transactions')) if name.endswith('.hl7'))


# ---- each returns None, or what is wrong


def long_names(bench):
    """Refused files whose names get too long by the number in front lose their last bytes, and none is lost."""
    folder = bench.sender()
    names = ['a' * 254, 'a' * 255, 'b' * 253, 'c' * 252]
    for name in names:
        bench.put(name, b'no header: ' + name[-3:].encode() + b'%d' % len(name))
    bench.put('d', text(1))
    end = bench.start('send', 's', ['--minimal-connect', '127.0.0.1:1'])
    if not wait_for(lambda: not os.listdir(os.path.join(folder, 'spool')), 5):
        return 'the spool has %s: %s' % (os.listdir(os.path.join(folder, 'spool')), end.error_text())
    refused = sorted(os.listdir(os.path.join(folder, 'refused')))
    if refused != ['9-' + 'a' * 251 + '.1', '9-' + 'a' * 253, '9-' + 'b' * 253, '9-' + 'c' * 252]:
        return 'refused are %s' % refused
    if sorted(read(folder, 'refused', name) for name in refused) != sorted(
            b'no header: ' + name[-3:].encode() + b'%d' % len(name) for name in names):
        return 'a refused file is not what it was'
    if read_words(folder, 'state')['last'] != 1 or end.finish() != 0:
        return 'the good one is not submitted, or the driver ends badly'
    return None


def forged_names(bench):
    """A name with line feeds makes no line of its own, neither where its file is refused nor where the driver fails."""
    folder = bench.sender()
    bench.put('a\n2026-11-16 09:57:46 gmv_driver: stopped\x1b', b'no header')
    end = bench.start('send', 's', ['--minimal-connect', '127.0.0.1:1'])
    if not wait_for(lambda: os.listdir(os.path.join(folder, 'refused'))) or end.finish() != 0:
        return 'not refused: %s' % end.error_text()
    wanted = 'a\\x0A2026-11-16 09:57:46 gmv_driver: stopped\\x1B is refused by 9'
    if happened(end) != [wanted]:
        return 'said is %s' % spoken(end)
    status, words = bench.driver('send', bench.path('none\n2026'), '--minimal-connect', '127.0.0.1:1')
    return None if status == 1 and words.count('\n') == 1 else 'it fails with %s' % words


def vanished_name(bench):
    """A refused file whose name was in use at one moment and free at the next is moved all the same."""
    folder = bench.sender()
    write(os.path.join(folder, 'refused', '9-a'), b'an earlier one')
    bench.put('a', b'no header')
    end = End(bench.programs, 'send', folder, ['--minimal-connect', '127.0.0.1:1'], [])
    bench.ends.append(end)
    end.start(preloaded(bench, 'slow', REMOVE_LINKED='1'))
    if not wait_for(lambda: os.listdir(os.path.join(folder, 'refused')) == ['9-a.1']):
        return 'refused are %s: %s' % (os.listdir(os.path.join(folder, 'refused')), end.error_text())
    return None if end.finish() == 0 else 'ends badly'


def replaced(bench):
    """A file that the host puts under a name that the driver is just about to take out of the spool is not lost."""
    folder = bench.sender()
    bench.put('a', b'no header')
    end = End(bench.programs, 'send', folder, ['--minimal-connect', '127.0.0.1:1'], [])
    bench.ends.append(end)
    end.start(slow_disk(bench))
    for seen, name, data in (('refused/9-a', 'a', text(1)), ('log/1.hl7', 'a', text(2)), ('log/2.hl7', 'b', text(3))):
        if not wait_for(lambda seen=seen: os.path.exists(os.path.join(folder, seen))):
            return 'no %s' % seen
        bench.put(name, data)
    if not wait_for(lambda: read_words(folder, 'state')['last'] == 3, 8):
        return 'submitted up to %d, the spool has %s, refused are %s' % (
            read_words(folder, 'state')['last'], os.listdir(os.path.join(folder, 'spool')),
            os.listdir(os.path.join(folder, 'refused')))
    if read(folder, 'refused', '9-a') != b'no header':
        return 'the refused file is not what it was'
    return None if end.finish() == 0 else 'ends badly'


def old_results(bench):
    """A result is as old as the host's file, also after it was submitted, and behind one that is younger."""
    folder = bench.sender()
    for number, age in ((1, 0), (2, 3600)):
        bench.put('%06d' % number, text(number))
        moment = time.time() - age
        os.utime(os.path.join(folder, 'spool', '%06d' % number), (moment, moment))
    end = bench.start('send', 's', ['--minimal-connect', '127.0.0.1:1'])
    if not wait_for(lambda: read_words(folder, 'state')['last'] == 2 and not os.listdir(os.path.join(folder, 'spool'))):
        return 'not submitted'
    wanted = re.compile('critical: the oldest of 2 not delivered waits for 36[0-9][0-9] s')
    if not wait_for(lambda: wanted.match(said(bench.programs, folder)[0][0])):
        return 'linkstatus says %s' % said(bench.programs, folder)[0]
    if time.time() - os.stat(os.path.join(folder, 'log', '1.hl7')).st_mtime > 60:
        return 'the younger one is not as old as its file'
    return None if end.finish() == 0 else 'ends badly'


class Renames:
    """Counts the renames to a name in a folder while it is open (inotify; both names of each rename are watched, as
    equal events one after the other would be told as one)."""

    def __init__(self, folder, name):
        libc = ctypes.CDLL(None, use_errno=True)
        self.name, self.file, self.count = name.encode(), libc.inotify_init1(os.O_NONBLOCK), 0
        if self.file < 0 or libc.inotify_add_watch(self.file, folder.encode(), 0xC0) < 0:  # IN_MOVED_FROM, IN_MOVED_TO
            raise OSError(ctypes.get_errno(), 'inotify')

    def seen(self):
        while True:
            try:
                events = os.read(self.file, 65536)
            except BlockingIOError:
                return self.count
            while events:
                _, mask, _, length = struct.unpack('iIII', events[:16])
                self.count += mask == 0x80 and events[16:16 + length].rstrip(b'\0') == self.name
                events = events[16 + length:]

    def close(self):
        os.close(self.file)


def floods(bench):
    """Each SB inside a block is a verdict. The read-out is written once a turn, and not once a verdict."""
    folder = bench.receiver()
    end = bench.start('receive', 'r', ['--minimal-listen', '0'])
    circuit, renames = call(end), Renames(folder, 'live')
    try:
        if not wait_for(lambda: os.path.exists(os.path.join(folder, 'live'))):
            return 'not shown'
        circuit.sendall(SB * 65536)
        if not wait_for(lambda: read_words(folder, 'live')['blocks'] == 65535):
            return 'the blocks are not read: %s' % read_words(folder, 'live')
        if renames.seen() > 200:
            return '%d read-outs for 65,535 verdicts' % renames.seen()
    finally:
        renames.close()
        circuit.close()
    return None if end.finish() == 0 else 'ends badly'


def unread(port):
    """How many bytes of the circuits of this port are on their way, or arrived and not read."""
    with open('/proc/net/tcp', encoding='ascii') as file:
        rows = [line.split() for line in file.readlines()[1:]]
    circuits = [row for row in rows if row[3] == '01' and ':%04X' % port in (row[1][-5:], row[2][-5:])]
    return sum(int(count, 16) for row in circuits for count in row[4].split(':'))


def sender_floods(bench):
    """The same at a sender that waits on nothing."""
    folder, peer = bench.sender(), Peer()
    end = bench.start('send', 's', peer.line)
    peer.accept()
    peer.block()
    peer.reply('AA', '-1', '-1')
    if not wait_for(lambda: read_words(folder, 'state')['resynchronized'] == 1):
        return 'no circuit'
    renames = Renames(folder, 'live')
    try:
        peer.circuit.sendall(SB * 65536)
        heard = wait_for(lambda: unread(peer.server.getsockname()[1]) == 0)
        if renames.seen() > 200:
            return '%d read-outs for 65,535 verdicts' % renames.seen()
        if not heard or not wait_for(lambda: b'act_block 8\n' in read(folder, 'live')):
            return 'the blocks are not heard: %s' % read_words(folder, 'live')
    finally:
        renames.close()
        peer.close()
    return None if end.finish() == 0 else 'ends badly'


def preloaded(bench, name, **variables):
    """The environment of a driver into which this library is preloaded."""
    library = bench.path(name + '.so')
    subprocess.run(['gcc', '-shared', '-fPIC', '-O1', '-Wall', '-Wextra', '-Werror', '-o', library,
                    os.path.join(HERE, name + '.c'), '-ldl'], check=True)
    return dict(variables, LD_PRELOAD=library)


def slow_disk(bench, milliseconds=40):
    """An end on a disk on which each sync takes so long."""
    return preloaded(bench, 'slow', SYNC_MILLISECONDS=str(milliseconds))


def busy(bench):
    """While one part's many transactions are stored, the driver hears of a new caller, and of its end."""
    folder = bench.receiver()
    end = End(bench.programs, 'receive', folder, ['--minimal-listen', '0'], [])
    bench.ends.append(end)
    end.start(slow_disk(bench))
    part = b''.join(RULES.block(text(number, '')) for number in range(1, 31))
    old = call(end)
    old.sendall(part)
    if not wait_for(lambda: len(transactions(folder)) >= 2):
        return 'nothing is stored'
    new = call(end)
    new.sendall(QUERY)
    if not RULES.accepted(hears(new)):
        return 'a new caller is not heard'
    stored = read_words(folder, 'state')['stored']
    new.sendall(b''.join(RULES.block(text(number, '')) for number in range(stored + 1, stored + 31)))
    if not wait_for(lambda: read_words(folder, 'state')['stored'] > stored + 1):
        return 'nothing more is stored'
    return stops(end)


def read_in_time(bench):
    """An answer that is there when the timer has run out counts, also where it is the last send's."""
    folder, peer = bench.sender(), Peer()
    end = bench.start('send', 's', peer.line, '--timer', '300', '--resends', '0')
    peer.accept()
    peer.block()
    end.signal(signal.SIGSTOP)
    peer.reply('AA', '-1', '-1')
    time.sleep(0.5)
    end.signal(signal.SIGCONT)
    if not wait_for(lambda: read_words(folder, 'state')['resynchronized'] == 1) or happened(end):
        return 'the answer does not count: %s' % end.error_text()
    peer.close()
    return None if end.finish() == 0 else 'ends badly'


def answers(first, last):
    """The answers to these transactions, in one part."""
    return b''.join(RULES.block(answer('AA', str(number), str(number))) for number in range(first, last + 1))


def sender_busy(bench):
    """The same at a sender: while one part's many answers are acted on, and each delivery is stored."""
    folder, count = bench.sender(), 30
    for number in range(1, count + 1):
        bench.put('%06d' % number, text(number, ''))
    end = bench.start('send', 's', ['--minimal-connect', '127.0.0.1:1'])
    if not wait_for(lambda: read_words(folder, 'state')['last'] == count) or end.finish() != 0:
        return 'not submitted'
    end = End(bench.programs, 'send', folder, ['--minimal-listen', '0'], ['--timer', '60000'])
    bench.ends.append(end)
    end.start(slow_disk(bench, 60))
    old = call(end)
    old.sendall(RULES.block(answer('AA', '-1', '-1')) + answers(1, count))
    if not wait_for(lambda: read_words(folder, 'state')['delivered'] >= 2):
        return 'nothing is delivered'
    new = call(end)
    if b'|0|P|' not in hears(new):
        return 'a new caller is not heard'
    delivered = read_words(folder, 'state')['delivered']
    new.sendall(RULES.block(answer('AA', '0', str(delivered + 1))) + answers(delivered + 1, count))
    if not wait_for(lambda: read_words(folder, 'state')['delivered'] > delivered + 1):
        return 'nothing more is delivered'
    return stops(end)


def turned(folder):
    """When the driver last showed that it turns; now where it has not yet."""
    try:
        return read_words(folder, 'live')['turned']
    except FileNotFoundError:
        return time.monotonic() * 1000


def deafens(end):
    """A caller that asks and asks and reads no answer, once the receiver waits to be read."""
    deaf, limit = socket.socket(), time.monotonic() + 20
    deaf.setsockopt(socket.SOL_SOCKET, socket.SO_RCVBUF, 4096)
    deaf.connect(('127.0.0.1', end.port))
    deaf.setblocking(False)
    while time.monotonic() * 1000 < turned(end.folder) + 2000:
        if time.monotonic() > limit:
            raise RuntimeError('it goes on answering')
        if select.select([], [deaf], [], 0.1)[1]:
            try:
                deaf.send(QUERY * 500)
            except BlockingIOError:
                pass
    return deaf


def deaf_caller(bench):
    """A peer that reads no answers keeps nobody else out, however long the timer is, and does not hold up the end."""
    bench.receiver()
    end = bench.start('receive', 'r', ['--minimal-listen', '0'], '--timer', '600000')
    deaf = deafens(end)
    new = call(end)
    new.sendall(QUERY)
    heard = hears(new, 3)
    if RULES.accepted(heard) != [(b'D', answer('AA', '0', '-1'))]:
        return 'a new caller hears %s' % heard
    deaf.close()
    new.close()
    deaf = deafens(end)
    problem = stops(end)
    deaf.close()
    return problem


def deaf_for_long(bench):
    """With nobody else calling, such a circuit ends before the driver looks as if it hangs, however long the timer is."""
    folder = bench.receiver()
    end = bench.start('receive', 'r', ['--minimal-listen', '0'], '--timer', '600000')
    deaf, limit = deafens(end), time.monotonic() + 8
    while read_words(folder, 'live')['circuit_open'] == 1:
        if time.monotonic() > limit:
            return 'the circuit is still open'
        time.sleep(0.05)
    deaf.close()
    return None if end.finish() == 0 else 'ends badly'


def dropped_bytes(bench):
    """What a caller wrote and the peer has not read goes with the circuit, also when the driver is killed: the system does
    not go on sending it, which could bring it in after the next circuit was opened."""
    bench.sender()
    peer = Peer()
    end = bench.start('send', 's', peer.line, '--timer', '100', '--resends', '0')
    for how in ('given up', 'killed'):
        peer.accept()
        if peer.block() is None:
            return 'no -1'
        if how == 'killed':
            end.kill()
        try:
            if not wait_for(lambda: peer.circuit.recv(1) == b''):
                return '%s: the circuit does not end' % how
            return '%s: the circuit ends in order, and what was written still comes' % how
        except ConnectionResetError:
            pass
    peer.close()
    return None


def moved_folders(bench):
    """A driver whose folder is put aside, and another made in its place, writes nothing into that one."""
    for name, command, init in (('s', 'send', ['sender-init', bench.path('s'), '1']),
                                ('r', 'receive', ['receiver-init', bench.path('r')])):
        if bench.driver(*init)[0] != 0:
            return 'not made'
        end = bench.start(command, name, ['--minimal-connect', '127.0.0.1:1'])
        if not wait_for(lambda name=name: os.path.exists(os.path.join(bench.path(name), 'live'))):
            return 'not shown'
        os.rename(bench.path(name), bench.path(name + '-aside'))
        if bench.driver(*init)[0] != 0:
            return 'not made anew'
        if not wait_for(lambda end=end: end.process.poll() == 1, 5) or 'is another folder now' not in end.error_text():
            return '%s goes on: %s' % (command, end.error_text())
        if set(os.listdir(bench.path(name))) & {'live', 'live.new'}:
            return '%s wrote into the new folder' % command
    return None


def moved_while_storing(bench):
    """Also where a block comes before the driver has looked at its folder again: what it stores does not go into the new
    one."""
    peer, circuit = Peer(), None
    for name, init, command, line in (('s', ('sender-init', '1'), 'send', peer.line),
                                      ('r', ('receiver-init',), 'receive', ['--minimal-listen', '0'])):
        folder = bench.sender() if name == 's' else bench.receiver()
        end = bench.start(command, name, line)
        if name == 's':
            peer.accept()
            circuit, block = peer.circuit, RULES.block(answer('AA', '-1', '-1'))
        else:
            circuit, block = call(end), RULES.block(text(1))
            circuit.sendall(QUERY)
        if not circuit.recv(4096):
            return 'nothing comes'
        shown = b'\nwaiting 2\n' if name == 's' else b'\nblocks 1\n'
        if not wait_for(lambda folder=folder, shown=shown: shown in (Files(folder).read('live') or b'')):
            return 'not shown'
        time.sleep(0.02)  # now it waits for the line
        made = read(folder, 'state')
        end.signal(signal.SIGSTOP)
        os.rename(folder, folder + '-aside')
        if bench.driver(init[0], folder, *init[1:])[0] != 0:
            return 'not made anew'
        circuit.sendall(block)
        time.sleep(0.1)
        end.signal(signal.SIGCONT)
        if not wait_for(lambda end=end: end.process.poll() == 1, 5) or 'is another folder now' not in end.error_text():
            return '%s goes on: %s' % (command, end.error_text())
        if read(folder, 'state') != made or (name == 'r' and transactions(folder)):
            return '%s stored into the new folder' % command
    peer.close()
    return None


def linked_files(bench):
    """A link in the spool is left alone, as a folder is; the driver does not spin over it."""
    folder = bench.sender()
    write(bench.path('outside'), b'no header')
    os.symlink('../../outside', os.path.join(folder, 'spool', 'a'))
    bench.put('b', text(1))
    end = bench.start('send', 's', ['--minimal-connect', '127.0.0.1:1'])
    if not wait_for(lambda: read_words(folder, 'state')['last'] == 1):
        return 'the file behind it is not submitted'
    before = used_time(end)
    time.sleep(0.5)
    if used_time(end) > before + 0.2 or os.listdir(os.path.join(folder, 'spool')) != ['a']:
        return 'it spins, or the link is gone'
    return None if end.finish() == 0 else 'ends badly'


def vanish(circuit):
    """The connection is gone at this end, and nothing is said to the other one. False where it may not be done."""
    try:
        circuit.setsockopt(socket.IPPROTO_TCP, 19, 1)  # TCP_REPAIR
    except PermissionError:
        return False
    circuit.close()
    return True


def keepalive_timer(port):
    """Whether the system's table has a running keepalive timer for the connection to this port."""
    with open('/proc/net/tcp', encoding='ascii') as file:
        rows = [line.split() for line in file.readlines()[1:]]
    return any(row[2].endswith(':%04X' % port) and row[5].startswith('02:') for row in rows)


def vanished_peers(bench):
    """A receiver that calls finds out that its peer is gone without a word, and calls again. (The system answers in the
    peer's place; where nothing comes back, the circuit's options count: kept_alive.)"""
    bench.receiver()
    server = socket.create_server(('127.0.0.1', 0))
    server.settimeout(15)
    port = server.getsockname()[1]
    end = bench.start('receive', 'r', ['--minimal-connect', '127.0.0.1:%d' % port], '--keepalive', '1')
    circuit = server.accept()[0]
    circuit.sendall(QUERY)
    circuit.settimeout(15)
    if not circuit.recv(4096):
        return 'no answer'
    if not wait_for(lambda: keepalive_timer(port), 5):
        return 'the peer is not asked whether it is there'
    if vanish(circuit):
        server.settimeout(8)
        try:
            server.accept()[0].close()
        except socket.timeout:
            return 'a peer that vanished is not noticed'
    server.close()
    return None if end.finish() == 0 else 'ends badly'


def kept_alive(bench):
    """Each circuit, whoever called, has the options by which the system finds out that the peer is gone: also where nothing
    comes back at all, and while something that was written is on its way. The caller's is reset at its end."""
    bench.receiver()
    bench.sender()
    circuits = []
    for name, command, reset in (('r', 'receive', 0), ('s', 'send', 1)):
        line = ['--minimal-connect', '127.0.0.1:%d' % bench.ends[0].port] if reset else ['--minimal-listen', '0']
        end = End(bench.programs, command, bench.path(name), line, ['--keepalive', '7'])
        bench.ends.append(end)
        path = bench.path('options-' + name)
        end.start(preloaded(bench, 'options', OPTIONS=path))
        circuits.append((command, path, b'kept alive 1, after 7 s, each 1 s, 3 times, in all 10000 ms; reset %d' % reset))
    for command, path, wanted in circuits:
        if not wait_for(lambda path=path: os.path.exists(path) and read(path)):
            return 'no circuit'
        if read(path).splitlines()[-1] != wanted:
            return 'the options of %s are %s' % (command, read(path))
    return None if [end.finish() for end in bench.ends] == [0, 0] else 'ends badly'


def plain_devices(bench):
    """A device that no terminal server renews is named, since nobody empties its line; a link to one is not. One that is
    there only after the start is named too, and once."""
    (master, path), sentence = open_terminal(), '%s is a plain device: nobody empties this line between two circuits'
    os.symlink(path, bench.path('tty'))
    bench.receiver('direct')
    bench.receiver('linked')
    direct = bench.start('receive', 'direct', ['--hybrid-tty', path])
    linked = bench.start('receive', 'linked', ['--hybrid-tty', bench.path('tty')])
    try:
        if not wait_for(lambda: happened(direct) == [sentence % path]):
            return 'it is not said: %s' % direct.error_text()
        if not wait_for(lambda: spoken(linked)) or happened(linked):
            return 'it is said of a link: %s' % linked.error_text()
        if [direct.finish(), linked.finish()] != [0, 0]:
            return 'ends badly'
        return late_device(bench)
    finally:
        os.close(master)


def late_device(bench):
    """A folder stands for the device: it cannot be opened, and is tried again and again."""
    bench.receiver('late')
    end = bench.start('receive', 'late', ['--hybrid-tty', bench.path('device')])
    if not wait_for(lambda: spoken(end)) or happened(end):
        return 'something is said of a device that is not there: %s' % end.error_text()
    os.mkdir(bench.path('device'))
    wait_for(lambda: happened(end), 1)
    time.sleep(0.6)  # for further tries
    sentence = '%s is a plain device: nobody empties this line between two circuits' % bench.path('device')
    if end.finish() != 0 or happened(end) != [sentence]:
        return 'a device that comes late is not named once: %s' % end.error_text()
    return None


def calls_of(peer, seconds):
    """When a peer that hangs up at once is called in this time."""
    times, until = [], time.monotonic() + seconds
    while time.monotonic() < until:
        if select.select([peer.server], [], [], max(0.0, until - time.monotonic()))[0]:
            peer.server.accept()[0].close()
            times.append(time.monotonic())
    return times


def answered_calls(peer, seconds):
    """How often a peer that answers 0, and hangs up all the same, is called in this time."""
    count, until = 0, time.monotonic() + seconds
    while time.monotonic() < until:
        if select.select([peer.server], [], [], 0.2)[0]:
            peer.accept()
            peer.block()
            peer.reply('AA', '0', '2')
            peer.circuit.close()
            count += 1
    return count


def hangups(bench):
    """A peer that takes the call and hangs up is called after pauses that grow, and the line on it is folded. One on whose
    circuit something was delivered is called at once again."""
    bench.sender()
    peer = Peer()
    end = bench.start('send', 's', peer.line)
    times = calls_of(peer, 2)
    count, pauses = len(times), [after - before for before, after in zip(times, times[1:])]
    if not 4 <= count <= 20:
        return 'called %d times in 2 seconds' % count
    if pauses[-1] < 3 * sorted(pauses)[len(pauses) // 2]:
        return 'the pauses do not grow: %s' % pauses
    sentence = '127.0.0.1:%d took the call and soon hung up' % peer.server.getsockname()[1]
    if happened(end) != [sentence]:
        return 'it is not said once: %s' % end.error_text()
    wanted = 'warning: %d circuits soon ended by the peer'
    if not wait_for(lambda: said(bench.programs, bench.path('s'))[0][0] in (wanted % count, wanted % (count + 1)), 3):
        return 'linkstatus says %s' % said(bench.programs, bench.path('s'))[0]
    bench.put('a', text(1))
    peer.accept()
    for control_id, expected in (('-1', '-1'), ('1', '1')):
        peer.block()
        peer.reply('AA', control_id, expected)
    if not wait_for(lambda: read_words(bench.path('s'), 'live')['hung_up'] == 0):
        return 'a delivery does not end it'
    peer.circuit.close()
    if not select.select([peer.server], [], [], 2)[0]:
        return 'after a delivery it does not call again'
    count = answered_calls(peer, 3)
    if count > 25:
        return 'a peer that answers 0 and hangs up is called %d times in 3 seconds' % count
    peer.close()
    if end.finish() != 0:
        return 'ends badly'
    folded = [line for line in happened(end) if line.endswith(': ' + sentence)]
    return None if len(folded) == 1 and ' times more since ' in folded[0] else 'not folded: %s' % end.error_text()


def first_forms(bench):
    """A state without a check is taken once, and written again with one; then it is refused."""
    for name, command in (('s', 'send'), ('r', 'receive')):
        folder = bench.sender() if name == 's' else bench.receiver()
        os.unlink(os.path.join(folder, 'form'))
        write(os.path.join(folder, 'state'), FIRST_FORM[name])
        end = bench.start(command, name, ['--minimal-connect', '127.0.0.1:1'])
        if not wait_for(lambda folder=folder: b' 2\n' in read(folder, 'state')[:24]) or not wait_for(
                lambda folder=folder: os.path.exists(os.path.join(folder, 'live'))) or end.finish() != 0:
            return '%s: not written again: %s' % (name, end.error_text())
        before, after = state_of(FIRST_FORM[name].encode(), 'first'), state_of(read(folder, 'state'), 'second')
        if dict(after[1], **before[1]) != after[1]:
            return '%s: %s became %s' % (name, before, after)
        write(os.path.join(folder, 'state'), FIRST_FORM[name])
        status, words = bench.driver(command, folder, '--minimal-connect', '127.0.0.1:1')
        if status != 1 or 'has lost its check' not in words:
            return '%s: taken twice: %d %s' % (name, status, words)
    return None


def beyond(bench):
    """A file beyond the one that a crash may leave stops either end, and nothing is written over."""
    receiver, sender = bench.receiver(), bench.sender()
    for folder, command, allowed, wrong in (
            (receiver, 'receive', 'transactions/000000000000001.hl7', 'transactions/000000000000002.hl7'),
            (sender, 'send', 'log/1.hl7', 'log/2.hl7')):
        write(os.path.join(folder, wrong), text(2, 'PID|of somebody\r'))
        status, words = bench.driver(command, folder, '--minimal-connect', '127.0.0.1:1')
        if status != 1 or 'nothing is written over' not in words:
            return '%s: %d %s' % (command, status, words)
        os.rename(os.path.join(folder, wrong), os.path.join(folder, allowed))
    end = bench.start('receive', 'r', ['--minimal-listen', '0'])
    circuit = call(end)
    circuit.sendall(RULES.block(text(1)))
    if not RULES.accepted(circuit.recv(4096)) or read(receiver, 'transactions/000000000000001.hl7') != text(1):
        return "a crash's leftover is not written over"
    write(os.path.join(receiver, 'transactions/000000000000002.hl7'), b'of somebody')
    circuit.sendall(RULES.block(text(2)))
    if not wait_for(lambda: end.process.poll() is not None, 5) or 'it is not written over' not in end.error_text():
        return 'a file that no crash left is written over: %s' % end.error_text()
    if read(receiver, 'transactions/000000000000002.hl7') != b'of somebody' or read_words(receiver, 'state')['stored'] != 1:
        return 'something was stored all the same'
    return None


def lost_states(bench):
    """Where a state is gone and its messages are not, no new one is made beside them."""
    for folder, init, file in ((bench.receiver(), ('receiver-init',), 'transactions/000000000000001.hl7'),
                               (bench.sender(), ('sender-init', '1'), 'log/1.hl7')):
        write(os.path.join(folder, file), text(1, 'PID|of somebody\r'))
        for name in ('state', 'form'):
            os.unlink(os.path.join(folder, name))
        status, words = bench.driver(init[0], folder, *init[1:])
        if status != 1 or 'has messages, and no state counts them' not in words:
            return '%s: %d %s' % (init[0], status, words)
        if os.path.exists(os.path.join(folder, 'state')) or read(folder, file) != text(1, 'PID|of somebody\r'):
            return '%s has changed the folder' % init[0]
        os.unlink(os.path.join(folder, file))
        if bench.driver(init[0], folder, *init[1:])[0] != 0:
            return '%s refuses a folder without messages' % init[0]
    return None


def wrong_count(bench):
    """A state with a wrong `stored`, well formed and with a right check: no result is written over."""
    folder = bench.receiver()
    end = bench.start('receive', 'r', ['--minimal-listen', '0'])
    circuit = call(end)
    circuit.sendall(b''.join(RULES.block(text(number)) for number in range(1, 8)))
    if not wait_for(lambda: read_words(folder, 'state')['stored'] == 7) or end.finish() != 0:
        return 'not stored'
    change_state(os.path.join(folder, 'state'), stored=4)
    status, words = bench.driver('receive', folder, '--minimal-connect', '127.0.0.1:1')
    if status != 1 or 'nothing is written over' not in words:
        return '%d %s' % (status, words)
    if [read(folder, 'transactions', name) for name in transactions(folder)] != [text(number) for number in range(1, 8)]:
        return 'a result was written over'
    return None


def strangers(bench):
    """A -1 in the middle of a tenancy is said and kept: what it expected, and after how many."""
    folder = bench.receiver()
    end = bench.start('receive', 'r', ['--minimal-listen', '0'])
    circuit = call(end)
    circuit.sendall(b''.join(RULES.block(text(number)) for number in (-1, 1, 2, -1)))
    if not wait_for(lambda: read_words(folder, 'state')['cleared'] == 3):
        return 'not kept: %s' % read_words(folder, 'state')
    name = '127.0.0.1:%d' % circuit.getsockname()[1]
    if not wait_for(lambda: happened(end) == ['-1 from %s: the expected number 3 is forgotten, with 2 stored' % name]):
        return 'not said: %s' % end.error_text()
    sentence = 'warning: -1 took the expected number 3 away after 2 transactions'
    if not wait_for(lambda: said(bench.programs, folder)[0][0] == sentence):
        return 'linkstatus says %s' % said(bench.programs, folder)[0]
    circuit.close()
    if end.finish() != 0 or said(bench.programs, folder)[0][2] != (
            'the last -1 took the expected number 3 away, after 2 transactions'):
        return 'not there after the end: %s' % said(bench.programs, folder)[0]
    return None


def shown_settings(bench):
    """The read-out has the settings, the process and the peer's address."""
    folder = bench.receiver()
    end = bench.start('receive', 'r', ['--minimal-listen', '0'], '--data-limit', '300', '--timer', '77', '--resends', '5',
                      '--type', 'ORU', '--application', 'AE', '--keepalive', '9')
    circuit = call(end)
    settings = 'settings: minimal-listen 0, data limit 300, timer 77, resends 5, type ORU, application AE, keepalive 9'
    wanted = ['process %d, last turned 0 s ago' % end.process.pid, settings,
              'peer: 127.0.0.1:%d' % circuit.getsockname()[1]]
    if not wait_for(lambda: said(bench.programs, folder)[0][-3:] == wanted):
        return 'said is %s' % said(bench.programs, folder)[0]
    circuit.close()
    if not wait_for(lambda: said(bench.programs, folder)[0][-1] == 'no peer: nobody calls'):
        return 'without a circuit: %s' % said(bench.programs, folder)[0]
    if spoken(end) != ['started: ' + settings[10:]]:
        return 'at the start: %s' % end.error_text()
    return None if end.finish() == 0 and spoken(end)[-1] == 'stopped' else 'ends badly'


def running_pair(bench, *options, environment=None):
    """Both ends, with a circuit; the options are the sender's, the environment is the receiver's."""
    folders = bench.sender(), bench.receiver()
    receiving = bench.start('receive', 'r', ['--minimal-listen', '0'], environment=environment)
    sending = bench.start('send', 's', ['--minimal-connect', '127.0.0.1:%d' % receiving.port], *options)
    if not wait_for(lambda: read_words(folders[0], 'state')['resynchronized'] == 1):
        raise RuntimeError('no circuit')
    return folders, [sending, receiving]


def busy_books(bench):
    """While results go through as fast as they can, the books of the pair never differ, and neither the pair nor the
    receiver is called anything but good."""
    slow = preloaded(bench, 'slow', FOLDER_MILLISECONDS='15')
    folders, ends = running_pair(bench)
    for number in range(1, BUSY + 1):
        bench.put('%06d' % number, text(number))
    calls, verdicts = 0, set()
    while read_words(folders[0], 'state')['delivered'] < BUSY and not verdicts:
        for looked_at in (folders, folders[1:]):
            lines, status = said(bench.programs, *looked_at, environment=slow)  # much happens between two listings
            calls += 1
            if status != 0:
                verdicts.add(tuple(lines[:1] + [line for line in lines if line.startswith('books: ')]))
    if verdicts or calls < 5:
        return '%s in %d calls' % (verdicts, calls)
    return None if [end.finish() for end in ends] == [0, 0] else 'ends badly'


def different_limits(bench):
    """Ends that were started with different data limits are named by the pair's read-out."""
    folders, ends = running_pair(bench, '--data-limit', '300')
    wanted = (['warning: the data limits differ: 300 and 4096'], 1)
    if not wait_for(lambda: (said(bench.programs, *folders)[0][:1], said(bench.programs, *folders)[1]) == wanted):
        return 'linkstatus says %s' % (said(bench.programs, *folders),)
    return None if [end.finish() for end in ends] == [0, 0] else 'ends badly'


def hanging(bench):
    """A driver that is stopped is seen: its last turn gets older. One that runs turns each second, a frozen one too."""
    folders, froze = (bench.receiver(), bench.sender()), dict(waited='1', code='AR', control_id='1', expected='7')
    change_state(os.path.join(folders[1], 'state'), last=1, resynchronized=1, frozen=1, **froze)
    ends = [bench.start('receive', 'r', ['--minimal-listen', '0']),
            bench.start('send', 's', ['--minimal-connect', '127.0.0.1:1'])]
    if not wait_for(lambda: all(os.path.exists(os.path.join(folder, 'live')) for folder in folders)):
        return 'not shown'
    before = [turned(folder) for folder in folders]
    for name, folder, turn in zip(('a driver with nothing to do', 'a frozen driver'), folders, before):
        if not wait_for(lambda folder=folder, turn=turn: turned(folder) > turn + 500, 4):
            return '%s does not turn' % name
    return None if [end.finish() for end in ends] == [0, 0] else 'ends badly'


def slow_starts(bench):
    """A driver that starts is said to start since it took the folder, and not since an earlier one did."""
    folder = bench.receiver()
    os.utime(os.path.join(folder, 'lock'), (time.time() - 3600, time.time() - 3600))
    end = End(bench.programs, 'receive', folder, ['--minimal-connect', '127.0.0.1:1'], [])
    bench.ends.append(end)
    end.start(slow_disk(bench, 400))
    if not wait_for(lambda: said(bench.programs, folder)[0][0] == 'warning: the driver is starting', 1):
        return 'linkstatus says %s' % said(bench.programs, folder)[0]
    return None if end.finish() == 0 else 'ends badly'


REPAIRS = [long_names, forged_names, vanished_name, replaced, old_results, dropped_bytes, moved_folders, moved_while_storing,
           linked_files, floods, sender_floods, busy, sender_busy, read_in_time, deaf_caller, deaf_for_long, vanished_peers,
           kept_alive, plain_devices, hangups, first_forms, beyond, lost_states, wrong_count, strangers, shown_settings,
           busy_books, different_limits, hanging, slow_starts]


WAITING = (deaf_peers, deaf_caller, deaf_for_long, hangups)
# A library is preloaded, which does not go with a sanitizer's; or mostly waiting.
UNSANITIZED = (vanished_name, replaced, busy, sender_busy, deaf_for_long, kept_alive, busy_books, hangups, slow_starts)


def fault(name, file, old, new, test):
    return Fault(name, [(file, old, new)], test)


# What was mended, put back: the name, the file, the text that stands there once, what is put in its place, and the test
# that must find it.
FAULTS = [
    fault('a long name ends the driver', 'spool.c', 'else if (error == ENAMETOOLONG && kept > 0)', 'else if (0)', long_names),
    fault('a name makes a line', 'said.c', 'fprintf(stderr, "%s %s\\n", time, escaped);',
          'fprintf(stderr, "%s %s", time, line);', forged_names),
    fault('a name makes a line of a failure', 'common.c', 'fprintf(stderr, "%s %s: %s\\n", time, program, escaped);',
          'fprintf(stderr, "%s %s: %s\\n", time, program, line);', forged_names),
    fault('a look changes why a file was not moved', 'spool.c', 'if (error == EEXIST)\n', 'if (errno == EEXIST)\n', vanished_name),
    fault("the host's next file goes with the last one", 'spool.c', 'if (is_seen_file(path, &file->seen) && unlink(path) != 0',
          'if (unlink(path) != 0', replaced),
    fault('a result is young again when it is submitted', 'store.c', '(written != NULL && set_time(file, written) != 0)', '0',
          old_results),
    fault('what was written still comes', 'line.c', 'const struct linger drop = {1, 0};', 'const struct linger drop = {0, 0};',
          dropped_bytes),
    fault('a folder that was moved', 'store.c', 'if (stat(path, &status) != 0 || status.st_dev != locked.st_dev ||', 'if (0 &&',
          moved_folders),
    fault('a transaction into a folder that was moved', 'receiving_end.c',
          '    require_same_folder(end->folder);\n    show_now(end);\n    if (persist', '    show_now(end);\n    if (persist',
          moved_while_storing),
    fault('a state into a folder that was moved', 'sending_end.c', '    require_same_folder(end->folder);\n    store_sender',
          '    store_sender', moved_while_storing),
    fault('a link in the spool is taken', 'spool.c', 'return lstat(path, &status) == 0', 'return stat(path, &status) == 0',
          linked_files),
    fault('a read-out for each verdict', 'receiving_end.c', '            receive_block(end);\n        if (line_is_called',
          '            receive_block(end), show_receiver(end->folder, &end->record, &end->counts, &end->running);\n'
          '        if (line_is_called', floods),
    fault('a part is not left for its end', 'receiving_end.c', 'end->line.circuit >= 0 && !stop_requested()) {',
          'end->line.circuit >= 0) {', busy),
    fault('a part is not left for a new caller', 'receiving_end.c', 'if (line_is_called(&end->line))', 'if (0)', busy),
    fault('a read-out for each verdict at a sender', 'sending_end.c', '            hear_block(end);\n        if (line_is_called',
          '            hear_block(end), show_sender(end->folder, &end->record, end->report, &end->counts, &end->running);\n'
          '        if (line_is_called', sender_floods),
    fault('a part is not left for a sender\'s end', 'sending_end.c', 'end->line.circuit >= 0 && !stop_requested()) {',
          'end->line.circuit >= 0) {', sender_busy),
    fault('a part is not left for a new caller at a sender', 'sending_end.c', 'if (line_is_called(&end->line))', 'if (0)',
          sender_busy),
    fault('the timer before what was read', 'sending_end.c', '    if (seen & LINE_WRITABLE)\n',
          '    run_timer(end);\n    if (seen & LINE_WRITABLE)\n', read_in_time),
    fault('a deaf peer keeps others out', 'line.c', '|| stop_requested() || line_is_called(line))', '|| stop_requested())',
          deaf_caller),
    fault('a deaf peer holds up the end', 'line.c', '|| stop_requested() || line_is_called(line))', '|| line_is_called(line))',
          deaf_caller),
    fault('a deaf peer keeps its circuit', 'receiving_end.c', 'MOST_WAIT = 8000', 'MOST_WAIT = 600000', deaf_for_long),
    fault('no keepalive', 'line.c', 'const int yes = 1, silence', 'const int yes = 0, silence', vanished_peers),
    fault('no end of waiting for what is on its way', 'line.c',
          'setsockopt(circuit, IPPROTO_TCP, TCP_USER_TIMEOUT, &limit, sizeof limit) == 0 &&', '', kept_alive),
    fault('no keepalive at an end that listens', 'line.c',
          '(set_nonblocking(circuit) != 0 || !keep_alive(circuit, line->link))', '(set_nonblocking(circuit) != 0)', kept_alive),
    fault('a silent peer is asked for ever', 'line.c', 'TCP_KEEPCNT, &probes, sizeof probes) == 0', 'TCP_KEEPCNT, &probes, 0) != 2',
          kept_alive),
    fault('a plain device is not named', 'line.c', 'if (!line->plain)', 'if (0)', plain_devices),
    Fault('a plain device that comes late is not named', [
        ('line.c', 'if (!line->plain)', 'if (0)'),
        ('line.c', 'line->link = link;', 'line->link = link;\n    struct stat found;\n    if (link->kind == TERMINAL && '
         'lstat(link->address, &found) == 0 && !S_ISLNK(found.st_mode))\n        say_plain_device(link->address);')],
          plain_devices),
    fault('a plain device is named at each call', 'line.c', 'if (!line->plain)', 'if (1)', plain_devices),
    fault('no pause after a hang-up', 'line.c', 'wait_longer(line, MOST_HANGUP_PAUSE);', 'line->next_try = now() + LEAST_PAUSE;',
          hangups),
    fault('a pause that does not grow', 'line.c', 'wait_longer(line, MOST_HANGUP_PAUSE);', 'line->next_try = now() + 200;',
          hangups),
    fault('repeats are not folded', 'said.c', 'if (strcmp(line, last->line) == 0 ||', 'if (0 &&', hangups),
    fault('a line without its time', 'said.c', 'fprintf(stderr, "%s %s\\n", time, escaped);', 'fprintf(stderr, "%s\\n", escaped);',
          shown_settings),
    fault('the keepalive is not shown', 'settings.c', 'snprintf(text + length, size - (size_t)length, ", keepalive %ld"',
          '(void)(", keepalive %ld"', shown_settings),
    fault('a state without a check is taken again', 'records.c', 'return unchecked && !is_missing(path) ?', 'return 0 ?', first_forms),
    fault('the check is not compared', 'records.c', '    return takes(at, wanted);\n}\n\n/* A state\'s title',
          '    *at += strlen(wanted);\n    return 1;\n}\n\n/* A state\'s title', damaged_states),
    fault('a wrong count is believed', 'receiving_end.c', 'if (greatest > end->record.stored + 1)', 'if (0)', wrong_count),
    fault('an old sender\'s state is believed', 'sending_end.c', 'if (greatest > end->record.words[GMV_SENDER_LAST] + 1)', 'if (0)',
          beyond),
    fault('a receiver is made where transactions are', 'receiving_end.c', '    require_no_numbers(path);\n', '', lost_states),
    fault('a sender is made where a log is', 'sending_end.c', '            require_no_numbers(path);', '            ;',
          lost_states),
    fault('a stored transaction is written over', 'receiving_end.c', 'if (!end->leftover && !is_missing(path))', 'if (0)', beyond),
    fault('a stranger\'s -1 is not told', 'receiving_end.c', '        note_cleared(end, before);\n', '        ;\n', strangers),
    fault('a start has no time of its own', 'store.c', 'if (futimens(file, NULL) != 0)', 'if (0)', slow_starts),
    fault('a frozen sender does not turn', 'sending_end.c', 'line_wait(&end->line, 0, now() + BEAT);',
          'line_wait(&end->line, 0, LLONG_MAX);', hanging),
    fault('a driver with nothing to do does not turn', 'receiving_end.c', 'earliest(line_next_try(&end.line), now() + BEAT)',
          'line_next_try(&end.line)', hanging),
]

# The same of linkstatus, found by what it says while results go through.
LATE_LISTING = Fault('the files are listed after the state is read', [
    ('linkstatus/linkstatus.c', 'if (status->record.stored < state->stored || status->in_state)', 'if (0)'),
    ('linkstatus/linkstatus.c', '    judge_receiver(verdict, status);',
     '    greatest_number(path, &status->greatest);\n    judge_receiver(verdict, status);')], busy_books)

# And by its cases, or those of the books.
READ_OUT_FAULTS = [
    fault('the spool is not counted', 'status.c', 'return all->waiting + all->spool.files + all->refused.files;',
          'return all->waiting;', None),
    fault('a frozen sender ends with 0', 'linkstatus/linkstatus.c', 'return all.severity;', 'return GOOD;', None),
    fault('a driver that hangs is called good', 'status.c', 'else if (seconds_since(running->turned) >= PASSING)',
          'else if (0)', None),
    fault('a driver that hangs at its start is called starting', 'status.c', 'presence == DRIVER_STARTS && starting >= PASSING',
          '0', None),
    fault('a dead receiver is called good', 'status.c', 'add_reason(verdict, CRITICAL, R_NO_DRIVER);', ';', None),
    fault('a full disk is called good', 'status.c', 'if (counts->unstored_since != 0 &&', 'if (0 &&', None),
    fault('a slow disk is called good', 'status.c', '&& seconds_since(status->running.turned) >= SLOW)', '&& 0)', None),
    fault('what the state has is called not stored', 'linkstatus/linkstatus.c',
          'status->in_state = shown[GMV_RECEIVER_CODE] != 0 &&', 'status->in_state = 0 &&', None),
    fault('what the state has not is called stored', 'linkstatus/linkstatus.c',
          'state->words[GMV_RECEIVER_EXPECTED] == shown[GMV_RECEIVER_NEW_EXPECTED] &&', '1 ||', None),
    fault('an empty refused file is a warning', 'store.c', 'if (status.st_size == 0) {', 'if (0) {', None),
    fault('only the first result has an age', 'log.c', 'number <= last; number++', 'number <= first; number++', None),
    fault('the books believe the numbers', 'linkstatus/books.c', '        compare_messages(&books);\n', '', None),
    fault('the books believe the bytes', 'linkstatus/books.c', '        compare_numbers(&books);\n', '', None),
    fault('the books believe the mark', 'linkstatus/books.c', '        compare_delivered(&books);\n', '', None),
    fault('the books believe the count', 'linkstatus/books.c', '        compare_count(&books);\n', '', None),
    fault('the books count back past the last -1', 'linkstatus/books.c',
          'else if (pair->record.cleared != 0 && resynchronized &&', 'else if (0 &&', None),
    fault("an earlier tenant's purged file excuses a lost result", 'linkstatus/books.c', 'back <= stored_since(record)',
          'back <= record->stored', None),
    fault("a purged file excuses the number that is not its own", 'linkstatus/books.c',
          'const uint64_t back = record->words[GMV_RECEIVER_EXPECTED] - number;',
          'const uint64_t back = record->stored - books->base - number + first_of(books);', None),
]
