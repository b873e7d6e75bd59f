"""The example driver as a process: its folder, its line, and what it stored."""

import os
import pathlib
import signal
import subprocess
import time

WAIT = 20  # seconds until something that must happen is taken for not happening


def records(path):
    """A record of the driver (state or live): its lines 'name value'."""
    lines = pathlib.Path(path).read_text().splitlines()
    return {name: value for name, _, value in (line.partition(" ") for line in lines)}


class Driver:
    """gmv_driver on one folder, started as often as wanted, and never left behind."""

    def __init__(self, program, folder):
        self.program, self.folder = program, pathlib.Path(folder)
        self.process = None

    def command(self, *words):
        done = subprocess.run([self.program, *map(str, words)], capture_output=True, text=True, timeout=WAIT)
        if done.returncode != 0:
            raise RuntimeError("gmv_driver %s: %s" % (words, done.stderr))
        return done.stdout

    def start(self, command, *words):
        self.process = subprocess.Popen(
            [self.program, command, str(self.folder), *map(str, words)],
            stdout=subprocess.PIPE, stderr=subprocess.DEVNULL, text=True,
        )

    def start_listening(self, command, *words):
        """Starts it on a port that the system picks, and returns the port."""
        self.start(command, "--minimal-listen", 0, *words)
        line = self.process.stdout.readline()
        if " gmv_driver: listening on " not in line:
            raise RuntimeError("gmv_driver says %r" % line)
        return int(line.split()[-1])

    def end(self, how=signal.SIGTERM):
        """Ends the process that was started here, by its own id, and waits for it."""
        if self.process is None:
            return None
        if self.process.poll() is None:
            os.kill(self.process.pid, how)
        status = self.process.wait(timeout=WAIT)
        self.process.stdout.close()
        self.process = None
        return status

    def __enter__(self):
        return self

    def __exit__(self, *_):
        self.end(signal.SIGKILL)

    def state(self):
        return records(self.folder / "state")

    def live(self):
        """What it shows of itself; nothing where it has not written that yet."""
        path = self.folder / "live"
        return records(path) if path.exists() else {}

    def transactions(self):
        """What the receiver has stored, in order."""
        stored = int(self.state()["stored"])  # a file beyond the count is left over from a kill
        names = sorted(name for name in os.listdir(self.folder / "transactions") if name.endswith(".hl7"))
        return [(self.folder / "transactions" / name).read_bytes() for name in names[:stored]]


def wait_until(holds, seconds=WAIT):
    """Looks again and again until it holds. Returns whether it does."""
    until = time.monotonic() + seconds
    while time.monotonic() < until:
        if holds():
            return True
        time.sleep(0.01)
    return holds()
