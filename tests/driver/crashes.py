"""Every window: an end is killed at its first act, at its second, and so on, also in the middle of each
write, until it has no more acts. What random moments hit by luck is here hit once each."""

import os
import random
import time

from duties import text, wait_for
from ends import Books, End, change_state, hold
from lines import NoLine

MESSAGES = 2
OPTIONS = ['--timer', '60', '--data-limit', '512']


class Windows:
    """Both ends directly on one port; one of them is killed by itself at an act."""

    def __init__(self, programs, folder, trace, seed):
        self.programs, self.folder, self.trace = programs, folder, trace
        self.port, self.made, self.ends = NoLine(random.Random(seed)).port, 0, []

    def new_ends(self):
        """New folders, with an expected number that an earlier sender left."""
        self.made += 1
        folders = [os.path.join(self.folder, '%s-%d' % (name, self.made)) for name in ('sender', 'receiver')]
        for folder, words in zip(folders, (['sender-init', folders[0], '1'], ['receiver-init', folders[1]])):
            os.spawnv(os.P_WAIT, os.path.join(self.programs, 'gmv_driver'), ['gmv_driver'] + words)
            if not os.path.exists(os.path.join(folder, 'state')):
                raise RuntimeError('%s is not made' % folder)  # no fault is found by a driver that does nothing
        change_state(os.path.join(folders[1], 'state'), expected=2)
        lines = (['--minimal-connect', '127.0.0.1:%d' % self.port], ['--minimal-listen', str(self.port)])
        self.ends = [End(self.programs, command, folder, line, OPTIONS)
                     for command, folder, line in zip(('send', 'receive'), folders, lines)]
        books = Books(folders[0], folders[1], 1)
        for number in range(1, MESSAGES + 1):
            books.spool(text(number))
        return books

    def close(self):
        for end in self.ends:
            end.kill()

    def ending(self, at, half):
        """How the victim is killed at this act."""
        return {'LD_PRELOAD': self.trace, 'CRASH_AT': str(at), 'CRASH_HALF': str(half)}

    def look(self, books, at):
        """What else must be so after the kill."""

    def one(self, victim, at, half):
        """Kills the end `victim` (0 sender, 1 receiver) at this act. Returns 0 where it has no such act."""
        books = self.new_ends()
        for index in (1, 0):
            self.ends[index].start(self.ending(at, half) if index == victim else None)
        dies = self.ends[victim].process
        hold(wait_for(lambda: dies.poll() is not None or books.all_delivered()), 'act %d: nothing goes on', at)
        if books.all_delivered():
            time.sleep(0.02)  # what it does after the last delivery
        crashed = dies.poll() is not None
        self.close()
        books.check()
        if crashed:
            self.look(books, at)
        for index in (1, 0):
            self.ends[index].start()
        hold(wait_for(books.all_delivered), 'act %d: not all is delivered after it', at)
        for end in self.ends:
            hold(end.finish() == 0, 'act %d: %s ends badly: %s', at, end.command, end.error_text())
        books.check_all()
        return crashed

    def all(self, victim, half):
        """Every act. Returns how many there are."""
        at = 1
        while self.one(victim, at, half):
            at += 1
        return at - 1
