"""Power loss, at every moment of a run over both ends. A trace of all that both drivers do to files is
followed on a model of both disks; what a power cut may leave of them is made, held against demand 3, and
both ends are started from it. SIGKILL cannot show it: it keeps what was never synced."""

import collections
import copy
import errno
import fcntl
import itertools
import os
import random
import re
import shutil
import signal
import subprocess
import time

import histories
from disks import FOLDER, LIGHT, Disk, Image
from duties import text
from ends import Books, End, Files, Violation, change_state, hold, read_words, state_of, state_text
from histories import PowerCuts, History, check_pairs, pairs
from lines import NoLine

NAMES = ('sender', 'receiver')
OPTIONS = ['--timer', '60', '--data-limit', '512']
INITS = (('sender-init', '1'), ('receiver-init',))
PARTS = (('log', 'refused', 'spool'), ('transactions',))  # the folders of each end
LIMIT = 15  # seconds for anything to go on
SOON = 12  # acts after a start: those of the start itself, and a few more
FAILED = 1  # the exit status of a driver that cannot go on
# What a receiver does before the rename of its state: without room for that it goes on.
BEFORE_COMMIT = re.compile('%s (?:(?:open|write|sync|unlink) (?:state|transactions/[0-9]+.hl7).new|'
                           '(?:rename|unlink) transactions/[0-9]+.hl7)' % histories.FAILED)


def killed_at(act, half=False, sync=False):
    """How trace.c is to kill an end: before an act, in the middle of a write, or before a sync."""
    return {'CRASH_AT': str(act), 'CRASH_HALF': str(int(half)), 'CRASH_SYNC': str(int(sync))}


class Link:
    """Both ends on one port, started from an image each; where it is traced, with their histories."""

    def __init__(self, test, images, traced, ending=-signal.SIGKILL):
        self.test, self.folder, self.traced, self.ending, self.ended = test, test.new_folder(), traced, ending, 0
        self.folders = [os.path.join(self.folder, name) for name in NAMES]
        for image, folder in zip(images, self.folders):
            self.lay_out(image, folder)
        self.books = copy.deepcopy(test.books)
        self.books.sender, self.books.receiver = self.folders
        lines = (['--minimal-connect', '127.0.0.1:%d' % test.port], ['--minimal-listen', str(test.port)])
        self.ends = [End(test.programs, command, folder, line, OPTIONS)
                     for command, folder, line in zip(('send', 'receive'), self.folders, lines)]
        if traced:
            path = os.path.join(self.folder, 'trace')
            self.trace, self.lines = open(path, 'ab'), open(path, 'rb')  # pylint: disable=consider-using-with
            self.histories = [History(name, Disk(folder), power_cuts)
                              for name, folder, power_cuts in zip(NAMES, self.folders, test.power_cuts)]

    @staticmethod
    def lay_out(image, folder):
        image.lay_out(folder)
        for name, data in LIGHT.items():
            with open(os.path.join(folder, name), 'wb') as file:
                file.write(data)

    def __enter__(self):
        return self

    def __exit__(self, *_):
        for end in self.ends:
            end.kill()
            end.errors.close()
        if self.traced:
            self.trace.close()
            self.lines.close()
        shutil.rmtree(self.folder)

    # ---- the drivers

    def start(self, endings=({}, {})):
        """The ends that do not run. How trace.c is to end each of them."""
        for index in (1, 0):
            end, environment = self.ends[index], {}
            if end.process is not None:
                continue
            if self.traced:
                environment = {'LD_PRELOAD': self.test.trace, 'TRACE_DESCRIPTOR': str(self.trace.fileno()),
                               'TRACE_END': str(index)}
            environment.update(endings[index])
            try:
                end.start(environment, self.trace.fileno() if self.traced else None)
            except RuntimeError as refused:
                raise Violation('it does not start: %s' % refused) from refused

    def has_ended(self, index):
        """At its act. An end that ended in another way is a violation."""
        end = self.ends[index]
        status = end.process.poll() if end.process is not None else self.ending
        if status == self.ending:
            end.process = None
        elif status is not None:
            end.check_alive()
        return end.process is None

    def wait(self, victims=()):
        """Until a victim is dead, or all is delivered. Returns those that are dead."""
        limit = time.monotonic() + LIMIT
        while True:
            dead = [index for index in (0, 1) if self.has_ended(index)]
            hold(set(dead) <= set(victims), 'an end that is no victim ended')
            if dead or self.books.all_delivered():
                return dead
            hold(read_words(self.folders[0], 'state')['frozen'] == 0, 'the sender is frozen')
            hold(time.monotonic() < limit, 'nothing goes on')
            time.sleep(0.0007)

    def run(self, victim=None):
        """Until all is delivered and both have stopped, or the victim is dead. Returns whether it is."""
        if self.wait(() if victim is None else (victim,)):
            return True
        statuses = [end.finish() for end in self.ends]
        for index, status in enumerate(statuses):
            hold(status == 0 or (index == victim and status == self.ending), '%s ends with %s: %s',
                 self.ends[index].command, status, self.ends[index].error_text())
        return statuses != [0, 0]

    def kill(self, index):
        """From outside, between two acts."""
        fcntl.lockf(self.trace, fcntl.LOCK_EX)
        self.ends[index].kill()
        fcntl.lockf(self.trace, fcntl.LOCK_UN)

    # ---- their histories

    def follow(self, stopped=(0, 1)):
        """What the trace has more. Of an end that has stopped it must be all that was done."""
        for line in self.lines:
            end, act, *words = line.decode().rstrip('\n').split(' ')
            self.histories[int(end)].add(act, words)
        for index in stopped:
            self.histories[index].disk.require_all()

    def check(self, begin=0):
        """Demand 3 at every moment of the sender from this one on, and of the receiver."""
        self.test.counts['moments'] += check_pairs(self.books, self.histories, begin)


class Chain(Link):
    """Kills and power cuts of either end, one after the other, each going on from what is there."""

    LOOK_BACK = 30  # moments of the sender that are looked at again after a step; at the end all are
    MOST = 24  # images of a disk that are looked at

    def __init__(self, test):
        super().__init__(test, test.images, True)
        self.draws, self.counts, self.story = test.draws, test.counts, []
        for history, check in zip(self.histories, (self.books.check_sender, self.books.check_receiver)):
            history.power_cuts = PowerCuts(check, self.draws, self.MOST)

    def start_again(self):
        """Each that is dead is killed again at an act that is drawn."""
        self.start([self.draws.choice([
            killed_at(self.drawn_act([3, 6, 12, 25, 50])), killed_at(self.drawn_act([2, 4, 8, 16]), sync=True),
            killed_at(self.drawn_act([2, 4, 8, 16]), half=True)]) for _ in NAMES])

    def drawn_act(self, most):
        return self.draws.randrange(self.draws.choice(most)) + 1

    def step(self):
        """An end dies, or both do; of each the machine may lose its power."""
        begin = len(self.histories[0].moments)
        dead = self.wait((0, 1))
        also = self.draws.choice([(), (), (), (0, 1)] if dead else [(0,), (1,), (0, 1)])
        for index in set(also) - set(dead):
            self.kill(index)
            dead.append(index)
        self.follow(dead)
        self.check(max(0, begin - self.LOOK_BACK))
        for index in dead:
            self.note('kills in chains', index)
            if self.draws.random() < 0.4:
                self.lose_power(index)
        if 0 in dead:
            self.feed()
        self.start_again()

    def note(self, what, index):
        self.counts[what] += 1
        self.story.append('%s of the %s' % (what[:-len('s in chains')], NAMES[index]))

    def lose_power(self, index):
        self.note('power cuts in chains', index)
        history, folder = self.histories[index], self.folders[index]
        image = self.draws.choice(history.images)
        shutil.rmtree(folder)
        self.lay_out(image, folder)
        history.disk = Disk(folder)
        history.look('a power cut')

    def feed(self):
        """Some more in the spool, while the sender does not run."""
        for _ in range(self.draws.choice([0, 0, 1, 2])):
            if self.draws.random() < 0.8:
                name = self.books.spool(text(len(self.books.messages) + 1))
            else:
                name = self.books.spool_refused(b'no header %d' % len(self.books.messages))
            self.histories[0].disk.spooled(os.path.join(self.folders[0], 'spool', name))
        if self.draws.random() < 0.5:
            self.histories[0].disk.root.entries['spool'].sync()  # by the host: what the driver removed is gone too
        self.histories[0].power_cuts.known.clear()
        self.histories[0].look('spooling')

    def all(self, steps):
        try:
            self.start_again()
            for _ in range(steps):
                self.step()
            for index in (0, 1):
                self.kill(index)
            self.follow()
            self.start()
            self.run()
            self.follow()
            self.check()
            self.books.check_all()
        except Violation as found:
            raise Violation('%s; after %d kills and cuts, the last were: %s' % (
                found, len(self.story), ', '.join(self.story[-6:]))) from found


class PowerLoss:
    """Two new ends and their messages, and what is tried with them. Violations are raised."""

    def __init__(self, programs, folder, trace, seed):
        self.programs, self.folder, self.trace, self.draws = programs, folder, trace, random.Random(seed)
        self.port, self.made, self.counts = NoLine(self.draws).port, 0, collections.Counter()
        self.started = (set(), set())  # the images of each end that it was started from
        self.books, self.images = self.prepare()
        self.power_cuts = [PowerCuts(check, self.draws) for check in (self.books.check_sender, self.books.check_receiver)]

    def new_folder(self):
        self.made += 1
        folder = os.path.join(self.folder, 'link-%d' % self.made)
        os.mkdir(folder)
        return folder

    def driver(self, *words, **more):
        """Runs a command to its end: the exit status."""
        return subprocess.run([os.path.join(self.programs, 'gmv_driver')] + list(words), check=False,
                              stderr=subprocess.DEVNULL, **more).returncode

    def prepare(self):
        """Two messages and a file that is refused; and an expected number that an earlier sender left."""
        home = self.new_folder()
        folders = [os.path.join(home, name) for name in NAMES]
        for folder, (command, *more) in zip(folders, INITS):
            if self.driver(command, folder, *more) != 0:
                raise RuntimeError('%s does not make an end' % command)  # no fault is found by a driver that does nothing
        change_state(os.path.join(folders[1], 'state'), expected=2)
        books = Books(folders[0], folders[1], 1)
        books.spool(text(1))
        books.spool_refused(b'no header')
        books.spool(text(2))
        return books, [Disk(folder).visible() for folder in folders]

    # ---- in memory

    def run(self, images, traced=True):
        """Without kills. Where it is traced, with the cuts of one end and of both at every moment."""
        with Link(self, images, traced) as link:
            link.start()
            link.run()
            if traced:
                link.follow()
                link.check()
            link.books.check_all()
        return link

    def run_ended(self, victim, endings, ending=-signal.SIGKILL):
        """An end is ended in each of these ways in turn and started again, as far as it comes to them: `ended`
        says how often."""
        with Link(self, self.images, True, ending) as link:
            try:
                for one in (*endings, {}):
                    link.start([one if index == victim else {} for index in (0, 1)])
                    if not link.run(victim if one else None):
                        break
                    link.ended += 1
                link.follow()
                link.check()
            except Violation as found:
                raise Violation('%s; the %s: %s' % (found, NAMES[victim], ', '.join(
                    '%s %s' % pair for one in endings for pair in one.items()))) from found
        return link

    # ---- and both ends are started from what is left

    def start_from(self, images, traced):
        """All is delivered. Traced: a power cut at every moment, so two of them one after the other."""
        self.counts['starts'] += 1
        for started, image in zip(self.started, images):
            started.add(image.key)
        try:
            self.run(images, traced)
        except Violation as found:
            others = [', '.join(image.differences(first)) or 'nothing' for image, first in zip(images, self.images)]
            raise Violation('%s; started after a power cut, otherwise than at first are %s of the sender, %s of the '
                            'receiver' % (found, *others)) from found

    def fresh(self, link):
        """Images of both ends at moments that can be at once, until each was started from."""
        moments = list(pairs(*(history.moments for history in link.histories)))
        self.draws.shuffle(moments)
        for both in moments:
            fresh = [[image for image in moment.images if image.key not in started]
                     for moment, started in zip(both, self.started)]
            for images in itertools.zip_longest(*fresh):
                yield [image or self.draws.choice(moment.images) for image, moment in zip(images, both)]

    def drawn(self, link, count):
        """So many pairs of images at moments that can be at once."""
        for both in self.draws.choices(list(pairs(*(history.moments for history in link.histories))), k=count):
            yield [self.draws.choice(moment.images) for moment in both]

    # ---- the tests

    def at_every_moment(self, runs, pairs_drawn):
        for _ in range(runs):
            link = self.run(self.images)
            for images in self.fresh(link):
                self.start_from(images, True)
            for images in self.drawn(link, pairs_drawn):
                self.start_from(images, False)

    def after_kills(self, victim, half):
        """Each act of an end, also with a second kill soon after. Returns how many there are."""
        for at in itertools.count(1):
            link = self.run_ended(victim, [killed_at(at, half)])
            if not link.ended:
                return at - 1
            for images in self.fresh(link):
                self.start_from(images, self.draws.random() < 0.1)
            self.run_ended(victim, [killed_at(at, half), killed_at(self.draws.randrange(SOON) + 1)])
        return None

    def after_failed_syncs(self, victim):
        """Each sync of an end, which ends by itself then. Returns how many there are."""
        for at in itertools.count(1):
            link = self.run_ended(victim, [{'FAIL_SYNC_AT': str(at)}], FAILED)
            if not link.ended:
                syncs = [act for act in link.histories[victim].acts() if act.startswith('sync')]
                hold(len(syncs) < at, 'sync %d fails, and the %s goes on', at, NAMES[victim])
                return at - 1
        return None

    def after_failed_acts(self, error, acts=1):
        """Each act of the receiver on files fails, with so many after it. A disk that is full before the commit point is
        reported: nothing is answered, and it goes on, on the same circuit. After all else it ends. Returns how often it
        went on, and how often it ended."""
        found = collections.Counter()
        for at in range(1, len(self.run(self.images).histories[1].acts()) + 1):
            link = self.run_ended(1, [{'FAIL_AT': str(at), 'FAIL_ERROR': str(error), 'FAIL_ACTS': str(acts)}], FAILED)
            moments = link.histories[1].moments
            failures = [index for index, moment in enumerate(moments) if moment.after.startswith(histories.FAILED)]
            if failures:
                self.judge_failures(moments, failures, error, link.ended)
                found[link.ended] += 1
        return found[0], found[1]

    @staticmethod
    def judge_failures(moments, failures, error, ended):
        words = ', '.join(moments[index].after for index in failures)
        goes_on = (error in (errno.ENOSPC, errno.EDQUOT) and any(moment.heard for moment in moments[:failures[0]]) and
                   all(BEFORE_COMMIT.fullmatch(moments[index].after) for index in failures))
        hold(goes_on != bool(ended), 'after %s the receiver %s', words, 'ends' if ended else 'goes on')
        for index in failures:
            later = list(itertools.takewhile(lambda moment: moment.heard is None, moments[index:]))
            hold(not any(moment.sent for moment in later), 'after %s it is answered', words)
            visible = later[-1].images[0]
            left = [path for path in visible.content if path.endswith('.new')] + visible.names('transactions')[
                state_of(visible.read('state'), 'the state')[1]['stored']:]
            hold(ended or len(failures) > 1 or not left, 'after %s there is left %s', words, left)
        circuits = {moment.heard[0] for moment in moments if moment.heard}
        hold(ended or len(circuits) == 1, 'after %s another circuit was needed', words)

    def in_chains(self, chains, steps):
        for _ in range(chains):
            with Chain(self) as chain:
                chain.all(steps)

    def with_a_careless_host(self):
        """The host syncs nothing: what the driver takes out of the spool is stored elsewhere first."""
        with Link(self, self.images, True) as link:
            spool = link.histories[0].disk.root.entries['spool']
            spool.unsync()
            link.histories[0].power_cuts = PowerCuts(lambda image: link.books.check_sender(
                image, waiting=[name for name, file in spool.entries.items() if file is not None]), self.draws)
            link.start()
            link.run()
            link.follow()
            link.check()

    def from_the_first_form(self):
        """States without a check, as an earlier driver left them, are taken over."""
        images = []
        for image in self.images:
            title, words = state_of(image.read('state'), 'the state')
            if 'stored' in words:
                words = {name: words[name] for name in ('expected', 'stored')}
            content = {**image.content, 'state': state_text(title[:-1] + '1', words)}
            images.append(Image({path: data for path, data in content.items() if path != 'form'}))
        for both in self.fresh(self.run(images)):
            if any(image.read('form') is None for image in both):
                self.start_from(both, True)

    # ---- what the operator does

    def command(self, image, *words):
        """Runs a command on a disk: what may be left at each moment of it, and at last what is left."""
        home, images = self.new_folder(), {}
        path, machine = os.path.join(home, 'trace'), os.path.join(home, 'machine')
        image.lay_out(machine)
        disk = Disk(machine)
        with open(path, 'ab') as trace:
            environment = {'LD_PRELOAD': self.trace, 'TRACE_DESCRIPTOR': str(trace.fileno())}
            status = self.driver(words[0], os.path.join(machine, 'end'), *words[1:], env=environment,
                                 pass_fds=[trace.fileno()])
        hold(status == 0, '%s ends with %s', words[0], status)
        with open(path, encoding='ascii') as lines:
            for line in lines:
                images.update((image.key, image) for image in disk.power_cuts(self.draws))
                disk.apply(*line.rstrip('\n').split(' ')[1:])
        disk.require_all()
        hold(len(disk.power_cuts(self.draws)) == 1, '%s is done, and not all of it is synced', words[0])
        return list(images.values()) + [disk.visible()]

    def making(self, index):
        """A new end has its folders and its state, or it can be made again."""
        command, *more = INITS[index]
        images = self.command(Image({}), command, *more)
        for image in images:
            machine = os.path.join(self.new_folder(), 'machine')
            image.lay_out(machine)
            folder = os.path.join(machine, 'end')
            self.driver(command, folder, *more)
            state_of(Files(folder).read('state'), 'the state')
            hold(set(os.listdir(folder)) >= set(PARTS[index]), 'a new %s has a state and not its folders', NAMES[index])
        return len(images)

    def resetting(self):
        """A frozen sender is frozen or reset, and reset when the command is done."""
        title, words = state_of(self.images[0].read('state'), 'the state')
        words.update(last=1, resynchronized=1, frozen=1, waited='1', code='AR', control_id='1', expected='7')
        frozen = {**self.images[0].content, 'log/1.hl7': text(1), 'state': state_text(title, words)}
        images = self.command(Image({'end': FOLDER, **{'end/' + path: data for path, data in frozen.items()}}), 'reset')
        found = [state_of(image.read('end/state'), 'the state')[1] for image in images]
        hold(all(state['last'] == 1 for state in found) and found[-1]['frozen'] == 0, 'the state is %s', found[-1])
        return len(images)

    # ---- drivers with a fault

    def find(self):
        """Where a cut is likely to hurt comes first: at every moment, and after a kill between the rename of
        the state and its sync. Then what is started from what is left, and the other kills."""
        link = self.run(self.images)
        kills = []
        for victim, history in enumerate(link.histories):
            acts = history.acts()
            kills += [(acts[at - 2:at] != ['rename state.new state', 'sync .'], victim, at)
                      for at in range(1, len(acts) + 1)]
        for unlikely, some in itertools.groupby(sorted(kills), lambda kill: kill[0]):
            for images in self.fresh(link) if unlikely else ():
                self.start_from(images, True)
            for _, victim, at in some:
                self.run_ended(victim, [killed_at(at)])

    def past_the_trace(self):
        """A driver that makes a file by a call that is not traced."""
        try:
            self.run(self.images)
        except RuntimeError as found:
            raise Violation(str(found)) from found


def model(folder):
    """The model itself: what each path may be after some acts. Returns None, or what is wrong."""
    Image({'state': b'old', 'in': FOLDER, 'out': FOLDER, 'in/file': b'data'}).lay_out(folder)
    root, source, target, file = (str(os.stat(os.path.join(folder, name)).st_ino)
                                  for name in ('.', 'in', 'out', 'in/file'))
    new, renamed = os.path.join(folder, 'state.new'), os.path.join(folder, 'state')
    old_name, new_name = os.path.join(folder, 'in/file'), os.path.join(folder, 'out/file')
    may_be = {'state': [b'old'], 'state.new': [None], 'in/file': [b'data'], 'out/file': [None]}
    steps = [
        (('create', '1', new), {'state.new': [None, b'']}),
        (('write', '1', new, '0', b'new!'.hex()),
         {'state.new': [None, b'', b'ne', b'new', b'\0\0\0\0', b'ne\0\0', b'new!']}),
        (('sync', '1', new), {'state.new': [None, b'new!']}),
        (('rename', '1', new, renamed), {'state': [b'old', b'new!']}),
        (('link', file, old_name, new_name), {'out/file': [None, b'data']}),
        (('unlink', file, old_name), {'in/file': [b'data', None]}),
        (('sync', root, folder), {'state': [b'new!'], 'state.new': [None]}),
        (('sync', target, new_name), {'out/file': [b'data']}),
        (('sync', source, old_name), {'in/file': [None]}),
    ]
    disk = Disk(folder)
    for act, changed in steps:
        disk.apply(*act)
        may_be.update(changed)
        wanted = {frozenset([('in', FOLDER), ('out', FOLDER)] +
                            [pair for pair in zip(may_be, values) if pair[1] is not None])
                  for values in itertools.product(*may_be.values())}
        found = {image.key[0] for image in disk.power_cuts(random.Random(1))}
        if found != wanted:
            return 'after %s: %s' % (act, sorted(map(sorted, found ^ wanted), key=str))
    return None
