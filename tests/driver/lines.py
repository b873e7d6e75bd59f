"""The lines between two drivers, played by the test: a TCP line and a terminal server. Both take the
streams apart into blocks, lose, damage and delay them, and end circuits, as the seed says."""

import collections
import errno
import fcntl
import os
import select
import socket
import struct
import threading
import time
import tty

from blocks import CR
from damage import damaged, is_refused

TO_RECEIVER, TO_SENDER = 0, 1


class Splitter:
    """Takes a stream apart into the blocks that a driver wrote."""

    def __init__(self, rules):
        self.rules, self.rest = rules, b''

    def take(self, part):
        blocks, end = [], bytes([self.rules.end]) + CR
        self.rest += part
        while end in self.rest:
            at = self.rest.index(end) + 2
            blocks.append(self.rest[:at])
            self.rest = self.rest[at:]
        return blocks


class Direction:
    """One way of a circuit: what came in and is no whole block yet, and what is to go out and when."""

    def __init__(self, rules):
        self.rules, self.splitter, self.queue = rules, Splitter(rules), collections.deque()
        self.out, self.tail, self.last = b'', b'', 0.0
        self.block, self.sends = None, 0  # the last one that came in, and how often in a row

    def count(self, block):
        self.sends = self.sends + 1 if block == self.block else 1
        self.block = block
        return self.sends

    def put(self, data, at):
        self.last = max(self.last, at)  # the order is kept
        self.queue.append((self.last, data))
        self.tail = self.rules.unfinished(self.tail + data)


class Line(threading.Thread):
    """A thread that relays. Subclasses open and close circuits; the two descriptors are `ends`, the
    sender's and the receiver's."""

    most_sends = 100

    def __init__(self, rules, random, counts, delay):
        super().__init__(daemon=True)
        self.rules, self.random, self.counts, self.delay = rules, random, counts, delay
        self.good, self.stopped, self.problem = False, False, None
        self.ends, self.ways = None, None
        self.orders, self.passed = collections.deque(), threading.Condition()
        self.blocks = 0
        self.wake_read, self.wake_write = os.pipe()

    # ---- by the test's main thread

    def order(self, action):
        """The line's thread does the action; returns when it is done."""
        done = threading.Event()
        self.orders.append((action, done))
        os.write(self.wake_write, b'.')
        while not done.wait(1):
            if not self.is_alive():
                raise RuntimeError('the line is dead: %s' % self.problem)

    def hang_up(self):
        self.order(self.end_circuit)

    def become_good(self):
        self.order(lambda: setattr(self, 'good', True))

    def finish(self):
        if self.is_alive():
            self.order(lambda: setattr(self, 'stopped', True))
        self.join()
        os.close(self.wake_read)
        os.close(self.wake_write)

    def wait_blocks(self, count, seconds):
        """Until so many more blocks came to the line, or the time is over."""
        with self.passed:
            goal = self.blocks + count
            self.passed.wait_for(lambda: self.blocks >= goal, seconds)

    # ---- the thread

    def run(self):
        try:
            while not self.stopped:
                self.turn()
        except Exception as problem:  # pylint: disable=broad-except
            self.problem = repr(problem)
            raise
        finally:
            self.shut()

    def turn(self):
        poll = select.poll()
        poll.register(self.wake_read, select.POLLIN)
        if self.listening() is not None:
            poll.register(self.listening(), select.POLLIN)
        for side, end in enumerate(self.ends or ()):
            poll.register(end, select.POLLIN | (select.POLLOUT if self.ways[1 - side].out else 0))
        seen = dict(poll.poll(self.milliseconds()))
        if self.wake_read in seen:
            os.read(self.wake_read, 4096)
        while self.orders:
            action, done = self.orders.popleft()
            action()
            done.set()
        if self.listening() in seen:
            self.called()
            return
        for side in (0, 1):
            if self.ends and self.ends[side] in seen:
                self.ready(side, seen[self.ends[side]])
        self.release()

    def milliseconds(self):
        times = [way.queue[0][0] for way in self.ways or () if way.queue]
        return max(0.0, (min(times) - time.monotonic()) * 1000) if times else 1000

    def ready(self, side, events):
        if events & (select.POLLIN | select.POLLHUP | select.POLLERR):
            try:
                part = os.read(self.ends[side], 65536)
            except BlockingIOError:
                return
            except OSError:
                part = b''
            if not part:
                self.end_circuit()
                return
            for block in self.ways[side].splitter.take(part):
                self.meets(side, block)
                if self.ends is None:
                    return

    def release(self):
        for way in (0, 1):
            if not self.ends:
                return
            direction, now = self.ways[way], time.monotonic()
            while direction.queue and direction.queue[0][0] <= now:
                direction.out += direction.queue.popleft()[1]
            if direction.out:
                self.write(way, direction)

    def write(self, way, direction):
        try:
            direction.out = direction.out[os.write(self.ends[1 - way], direction.out):]
        except BlockingIOError:
            pass
        except OSError:
            self.end_circuit()

    def meets(self, way, block):
        """What happens to one block on its way."""
        with self.passed:
            self.blocks += 1
            self.passed.notify_all()
        draw, random = self.random.random(), self.random
        self.counts['blocks'] += 1
        if len(self.rules.accepted(block)) != 1:
            self.problem = 'a driver wrote what is no block: %r' % block
        if self.ways[way].count(block) > self.most_sends and way == TO_RECEIVER:
            self.problem = 'sent too often on one circuit: %r' % block
        if self.good or draw >= 0.17:
            self.sends(way, block)
        elif draw < 0.06:
            self.counts['losses'] += 1
        elif draw < 0.13:
            bad = damaged(self.rules, block, random, self.ways[way].tail)
            self.counts['damages' if bad is not None else 'losses'] += 1
            self.sends(way, bad or b'')
        elif draw < 0.15:
            noise = bytes(random.choice([0, 0x0D, 0x41, 0xFF, self.rules.end]) for _ in range(5))
            if is_refused(self.rules, self.ways[way].tail, noise, b''):
                self.counts['noises'] += 1
                self.sends(way, noise)
            self.sends(way, block)
        else:
            self.counts['circuits ended'] += 1
            if draw < 0.16:
                self.sends(way, block[:random.randrange(len(block) + 1)])
                self.release()
            self.end_circuit()

    def sends(self, way, data):
        now, random = time.monotonic(), self.random
        if self.good or random.random() < 0.75:
            self.ways[way].put(data, now)
            return
        self.counts['delays'] += 1
        middle = random.randrange(len(data) + 1)
        late = now + random.choice([0.001, 0.005, self.delay]) * random.random()
        self.ways[way].put(data[:middle], now)
        self.ways[way].put(data[middle:], late)

    def begin_circuit(self, sender, receiver):
        self.ends = (sender, receiver)
        self.ways = (Direction(self.rules), Direction(self.rules))
        self.counts['circuits'] += 1

    def listening(self):
        return None

    def called(self):
        raise NotImplementedError

    def end_circuit(self):
        raise NotImplementedError

    def shut(self):
        self.end_circuit()


class TcpLine(Line):
    """The sender connects here, and the line connects to the receiver's port."""

    def __init__(self, rules, random, counts, delay):
        super().__init__(rules, random, counts, delay)
        self.server = socket.create_server(('127.0.0.1', 0))
        self.server.setblocking(False)
        self.port, self.receiver_port, self.sockets = self.server.getsockname()[1], None, ()

    def listening(self):
        return self.server.fileno()

    def called(self):
        try:
            sender = self.server.accept()[0]
        except BlockingIOError:
            return
        self.end_circuit()  # nothing of the old circuit gets through any more
        try:
            receiver = socket.create_connection(('127.0.0.1', self.receiver_port or 1), 5)
        except OSError:
            sender.close()
            return
        sender.setblocking(False)
        receiver.setblocking(False)
        self.sockets = (sender, receiver)
        self.begin_circuit(sender.fileno(), receiver.fileno())

    def end_circuit(self):
        for end in self.sockets:
            if self.random.random() < 0.5:  # a reset instead of an orderly end
                end.setsockopt(socket.SOL_SOCKET, socket.SO_LINGER, struct.pack('ii', 1, 0))
            end.close()
        self.sockets, self.ends = (), None

    def shut(self):
        self.end_circuit()
        self.server.close()


def open_terminal():
    """A pseudo-terminal whose other side nobody has open yet: the master and the other side's path."""
    master = os.open('/dev/ptmx', os.O_RDWR | os.O_NOCTTY | os.O_NONBLOCK)
    fcntl.ioctl(master, 0x40045431, struct.pack('i', 0))  # TIOCSPTLCK: unlocked
    number = struct.unpack('I', fcntl.ioctl(master, 0x80045430, b'\0' * 4))[0]  # TIOCGPTN
    tty.setraw(master)
    return master, '/dev/pts/%d' % number


class TerminalLine(Line):
    """A terminal server: each circuit has a new pair of terminals, and the links to them are made anew.
    When one end hangs up, the other one is hung up too."""

    def __init__(self, rules, random, counts, delay, folder):
        super().__init__(rules, random, counts, delay)
        self.links = [os.path.join(folder, 'tty-sender'), os.path.join(folder, 'tty-receiver')]
        self.new_circuit()

    def new_circuit(self):
        old = self.ends or ()
        for link in self.links if old else ():
            os.unlink(link)
        pairs = [open_terminal(), open_terminal()]  # before the old ones go: other numbers
        for end in old:
            os.close(end)
        self.begin_circuit(pairs[0][0], pairs[1][0])
        for link, pair in zip(self.links, pairs):
            os.symlink(pair[1], link)

    def end_circuit(self):
        if self.stopped:
            self.shut()
        else:
            self.new_circuit()

    def called(self):
        pass

    def shut(self):
        for end in self.ends or ():
            os.close(end)
        self.ends = None


class NoLine:
    """No line between: the sender connects to the receiver's own port, and what the two have in their
    sockets when one is killed is all that is on its way."""

    def __init__(self, random):
        self.problem, self.receiver_port, self.random = None, None, random
        self.port = self.free_port()

    def free_port(self):
        """A port below those that callers are given, so that no caller has it when a receiver restarts."""
        while True:
            port = self.random.randrange(20000, 30000)
            try:
                socket.create_server(('127.0.0.1', port)).close()
                return port
            except OSError:
                pass

    @staticmethod
    def wait_blocks(count, _seconds):
        time.sleep(0.002 * count)

    @staticmethod
    def order(action):
        action()

    def start(self):
        pass

    hang_up = become_good = finish = start
