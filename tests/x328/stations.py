"""The program under test: a station's folder, its pseudo-terminal, and its process while it runs."""

import os
import pty
import signal
import subprocess
import termios
import time
import tty

# Short timers: A, B, D, retry and recovery, in milliseconds. At a start the line is silent for A, B and D together.
TIMERS = {'--timer-a': 200, '--timer-b': 150, '--timer-d': 1000, '--retry': 10, '--recovery': 100}


class Violation(Exception):
    """What is stored, or said on the line, is not what was promised."""


def hold(fact, words, *values):
    if not fact:
        raise Violation(words % values)


def read(path):
    with open(path, 'rb') as file:
        return file.read()


class Terminal:
    """A pseudo-terminal. The test has its one end, and keeps the other open, so that it outlives the station."""

    def __init__(self):
        self.end, self.held = pty.openpty()
        tty.setraw(self.held)
        os.set_blocking(self.end, False)
        self.path = os.ttyname(self.held)

    def read(self):
        try:
            return os.read(self.end, 65536)
        except BlockingIOError:
            return b''

    def write(self, data):
        """What the station does not take in the time of a moment is lost."""
        until = time.monotonic() + 0.5
        while data and time.monotonic() < until:
            try:
                data = data[os.write(self.end, data):]
            except BlockingIOError:
                time.sleep(0.001)

    def drop(self):
        termios.tcflush(self.held, termios.TCIOFLUSH)
        self.read()

    def close(self):
        os.close(self.end)
        os.close(self.held)


class Station:
    def __init__(self, program, folder, side, **options):
        self.program, self.folder, self.side = program, folder, side
        self.options = dict(TIMERS, **{'--' + name.replace('_', '-'): value for name, value in options.items()})
        self.terminal, self.process, self.lives = Terminal(), None, 0
        self.said_before, self.ready = 0, False
        self.given = {}  # what the host put there: of each message its folder and its name
        subprocess.run([program, 'init', folder], check=True)
        self.errors = open(folder + '.errors', 'ab')  # pylint: disable=consider-using-with

    def start(self, environment=None, descriptor=None):
        words = [self.program, 'run', self.folder, self.terminal.path, self.side]
        words += [str(word) for option in self.options.items() for word in option]
        self.errors.flush()
        self.said_before, self.ready = os.path.getsize(self.folder + '.errors'), False
        self.process = subprocess.Popen(words, stderr=self.errors, stdin=subprocess.DEVNULL, stdout=subprocess.DEVNULL,
                                        env=dict(os.environ, **environment) if environment else None,
                                        pass_fds=[descriptor] if descriptor is not None else [])
        self.lives += 1

    def is_ready(self):
        """Whether it runs and has opened its line, which it flushes: it says so. What is written before that is lost."""
        if self.process is not None and not self.ready:
            self.ready = b'x328: started: ' in read(self.folder + '.errors')[self.said_before:]
        return self.process is not None and self.ready

    def wait_ready(self):
        until = time.monotonic() + 10
        while not self.is_ready():
            self.check_alive()
            hold(time.monotonic() < until, 'it does not start')
            time.sleep(0.002)

    def kill(self):
        if self.process is not None:
            self.process.kill()
            self.process.wait()
            self.process = None

    def finish(self):
        """Asks it to stop. Returns its exit status."""
        if self.process is None:
            return 0
        self.process.terminate()
        status = self.process.wait(20)
        self.process = None
        return 0 if status == -signal.SIGTERM else status  # it was asked before it could listen to it

    def check_alive(self):
        if self.process is not None and self.process.poll() is not None:
            raise Violation('%s ended by itself with %s: %s' % (self.side, self.process.returncode, self.said()[-1000:]))

    def close(self):
        self.kill()
        self.errors.close()
        self.terminal.close()

    def said(self):
        return read(self.folder + '.errors').decode(errors='replace')

    # ---- its folder

    def put(self, name, message, folder='spool'):
        new = os.path.join(self.folder, 'new')
        with open(new, 'wb') as file:
            file.write(message)
        os.rename(new, os.path.join(self.folder, folder, name))
        self.given[message] = (folder, name)

    def names(self, folder):
        return sorted(name for name in os.listdir(os.path.join(self.folder, folder)) if not name.startswith('.'))

    def files(self, folder):
        return [read(os.path.join(self.folder, folder, name)) for name in self.names(folder)]

    def done(self):
        """The messages that were reported done."""
        return self.files('sent')

    def received(self):
        return self.files('received')
