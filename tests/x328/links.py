"""Two stations and the line between them, played by the test: two pseudo-terminals, and a splitter on each way. The
line loses, damages and delays units as the seed says, keeps their order, and the stations are killed at any moment."""

import collections
import os
import random
import select
import time

import model
import units
from stations import Station, hold

# lose, damage, delay: how likely, for each unit. kills: how likely after each unit, latest: at the latest so many seconds
# after it, victims: which stations.
Scenario = collections.namedtuple(
    'Scenario', 'name lose damage delay longest kills latest victims both block_size options sizes')

SIZES = (0, 1, 244, 245, 246, 490, 3000)
EVERY, MASTERS, SLAVES, NOBODY = (0, 1), (0,), (1,), ()
# With these, no reply may be on the way for longer than 210 milliseconds: the line's longest delay is 50 each way. Timer D
# runs out before six sends, as 000's defaults have it.
SHORT = {'timer_a': 120, 'timer_b': 90, 'timer_d': 600}
SCENARIOS = (
    Scenario('a bad line', 0.06, 0.06, 0.10, 0.09, 0, 0, NOBODY, False, 245, {}, SIZES),
    Scenario('a bad line, and the master is killed', 0.03, 0.03, 0.06, 0.05, 0.12, 0.3, MASTERS, False, 245, SHORT, SIZES),
    Scenario('a bad line, and both are killed', 0.03, 0.03, 0.06, 0.05, 0.12, 0.3, EVERY, False, 245, SHORT, SIZES),
    Scenario('both send over a bad line, and both are killed', 0.03, 0.03, 0.06, 0.05, 0.08, 0.3, EVERY, True, 60, SHORT,
             (0, 1, 60, 61, 700)),
    Scenario('parity, and single bits are changed', 0.02, 0.12, 0.05, 0.09, 0.05, 0.3, EVERY, False, 40,
             {'parity': 'software', 'prefix': 'WARD 7', 'timer_d': 700}, (0, 1, 40, 41, 500)),
    Scenario('the slave is killed when it replies', 0, 0, 0, 0, 0.25, 0.002, SLAVES, False, 245, SHORT, SIZES),
    Scenario('early timers', 0.02, 0.02, 0.30, 0.16, 0.03, 0.3, MASTERS, False, 30,
             {'timer_a': 120, 'timer_b': 350, 'timer_d': 600}, (0, 1, 29, 30, 31, 400)),
    Scenario('enquiries over a bad line, and both are killed', 0.06, 0.04, 0.10, 0.05, 0.06, 0.3, EVERY, False, 30,
             dict(SHORT, enquiry='yes'), (0, 1, 29, 30, 31, 600)),
)
# For Turned. Who is killed, and how likely, is drawn there.
TURNED = (
    Scenario('a stat message over a bad line', 0.04, 0.04, 0.06, 0.05, 0, 0, NOBODY, True, 60, SHORT, ()),
    Scenario('a stat message over a bad line, and both are killed', 0.03, 0.03, 0.06, 0.05, 0.06, 0.3, EVERY, True, 60,
             SHORT, ()),
    Scenario('a stat message with parity, and both are killed', 0.01, 0.05, 0.06, 0.05, 0.06, 0.3, EVERY, True, 60,
             dict(SHORT, parity='software', prefix='WARD 7'), ()),
    Scenario('a stat message with enquiries, and both are killed', 0.04, 0.02, 0.06, 0.05, 0.06, 0.3, EVERY, True, 60,
             dict(SHORT, enquiry='yes'), ()),
)


def message(number, size, source):
    """A message of that size, other than all others; CR is text. A part of it looks like a block."""
    text = b'MSH|%05d|\r' % number + b'1' + b'00003abc' + b'6D\r'
    while len(text) < size:
        text += bytes(source.choice(b'abcdefgh0123456789|^~\\& <') for _ in range(source.randrange(1, 30))) + b'\r'
    return text[:size] if size > 20 else (b'%05d' % number + b'|' * 20)[:size] if size > 4 else b'%d' % number * size


MOST_WAITING, MOST_MESSAGES = 3, 400
BETWEEN_CHECKS = 0.5  # seconds, besides those at each kill
UNSURE = 0.15  # seconds within which a timer may be late


class Way:
    """One way of the line: what came in, and what is to go out and when."""

    def __init__(self, link, source, target):
        self.link, self.source, self.target = link, source, target
        parity = link.scenario.options.get('parity') == 'software'
        self.parity, self.splitter, self.queue = parity, units.Splitter(parity), collections.deque()
        self.last, self.slave = 0.0, model.Slave()
        self.delivered, self.delivered_at = units.Splitter(parity), 0.0
        self.restarts, self.restarted_at = False, 0.0  # Timer D of the slave: by what was delivered last; and when

    def read(self):
        for unit in self.splitter.take(self.source.terminal.read()):
            if unit.kind in ('ack', 'nak', 'rint'):
                self.link.back(self).target_replies()
            self.link.passes(self, unit)

    def plain(self, unit):
        """The unit as it is without parity."""
        return unit._replace(text=units.without_parity(unit.text)) if self.parity and unit.text else unit

    def put(self, data, delay):
        self.last = max(self.last, time.monotonic() + delay)  # the order is kept
        self.queue.append((self.last, data))

    def is_due(self):
        """Nothing is delivered at about the moment at which the slave's Timer D runs out: nobody could tell which came
        first."""
        since = time.monotonic() - self.restarted_at - self.link.timer_d
        return bool(self.queue) and self.queue[0][0] <= time.monotonic() and not (
            self.slave.expected is not None and -UNSURE < since < UNSURE)

    def deliver(self):
        """To a station that is dead too: what the terminal holds then, the next one flushes. One that starts is waited
        for, so that it is known what it has heard."""
        while self.is_due() and (self.target.process is None or self.target.is_ready()):
            data = self.queue.popleft()[1]
            self.target.terminal.write(data)
            if self.target.process is None:
                continue
            if time.monotonic() > self.delivered_at + self.link.timer_b:
                self.delivered.rest = b''  # Timer B: what is not whole is discarded
            if time.monotonic() > self.restarted_at + self.link.timer_d:
                self.slave.timed_out()
            self.delivered_at = time.monotonic()
            for unit in self.delivered.take(data):
                self.restarts = self.slave.take(self.plain(unit))
                self.target_replies()

    def target_replies(self):
        if self.restarts:
            self.restarted_at = time.monotonic()

    def target_died(self):
        self.slave.died(self.target.received())
        self.delivered.rest = b''


class Link:
    def __init__(self, program, folder, scenario, seed, programs=None):
        self.scenario, self.random = scenario, random.Random(seed)
        self.counts, self.good = collections.Counter(), False
        os.makedirs(folder)
        programs = programs or (program, program)
        options = dict(scenario.options, block_size=scenario.block_size)
        self.stations = [Station(programs[i], os.path.join(folder, side), side, **options)
                         for i, side in enumerate(('primary', 'secondary'))]
        self.timer_b, self.timer_d = (self.stations[0].options[name] / 1000 for name in ('--timer-b', '--timer-d'))
        self.ways = [Way(self, self.stations[i], self.stations[1 - i]) for i in (0, 1)]
        self.returns = [0.0, 0.0]  # when a killed station is started again
        self.kill_at, self.victim = None, None
        self.poll = select.poll()
        for station in self.stations:
            self.poll.register(station.terminal.end, select.POLLIN)

    # ---- the line

    def back(self, way):
        return self.ways[1 - self.ways.index(way)]

    def passes(self, way, unit):
        """A unit came to the line: what becomes of it is drawn."""
        scenario, drawn, delay = self.scenario, self.random.random(), 0.0
        self.counts['units'] += 1
        self.counts['interrupts'] += unit.kind == 'rint'
        self.draw_kill(unit)
        if self.good:
            way.put(unit.raw, 0)
            return
        if self.random.random() < scenario.delay:
            delay = self.random.uniform(0.2, 1) * scenario.longest
            self.counts['delays'] += 1
        if drawn < scenario.lose:
            self.counts['losses'] += 1
        elif drawn < scenario.lose + scenario.damage:
            self.counts['damages'] += 1
            way.put(units.damaged(unit, self.random, way.parity), delay)
        else:
            way.put(unit.raw, delay)

    def likely_kill(self, unit):
        """Most likely when a reply is seen: a message may just have been stored."""
        return self.scenario.kills * (2 if unit.kind == 'ack' else 1)

    def draw_kill(self, unit):
        """At once, or some time after any unit."""
        likely = self.likely_kill(unit)
        if self.kill_at is None and not self.good and self.scenario.victims and self.random.random() < likely:
            self.victim = self.random.choice(self.scenario.victims)
            self.kill_at = time.monotonic() + self.random.random() * min(
                self.random.choice((0, 0, 0.002, 0.02, 0.3)), self.scenario.latest)

    # ---- turns

    def turn(self):
        moment = time.monotonic()
        dues = [way.queue[0][0] for way in self.ways if way.queue] + [moment + 0.02]
        if self.kill_at is not None:
            dues.append(self.kill_at)
        self.poll.poll(max(0.001, min(dues) - moment) * 1000)
        for way in self.ways:
            way.read()
        self.kill_and_start()
        for way in self.ways:
            way.deliver()

    def kill_and_start(self):
        if self.kill_at is not None and time.monotonic() >= self.kill_at:
            if self.stations[self.victim].process is not None:
                self.kill(self.victim)
            self.kill_at = None
        for i, station in enumerate(self.stations):
            if station.process is None and time.monotonic() >= self.returns[i]:
                station.start()
            self.look_at(i)

    def look_at(self, index):
        self.stations[index].check_alive()

    def kill(self, index):
        self.stations[index].kill()
        self.counts['kills of the ' + self.stations[index].side] += 1
        self.ways[1 - index].target_died()
        self.returns[index] = time.monotonic() + self.random.choice((0, 0.01, 0.1))
        self.check()

    # ---- what is held

    def check(self):
        self.counts['checks'] += 1
        for way in self.ways:
            done, stored = way.source.done(), way.target.received()  # in this order: it goes on meanwhile
            model.check_stored(done, stored, way.source.given)
            way.slave.check(stored)
            model.check_order(way.slave.stored[:len(stored)], way.source.given)

    def senders(self):
        return self.ways if self.scenario.both else self.ways[:1]

    def feed(self):
        """The host gives new messages as long as the line is bad. Each size comes once at first; only one message is
        empty, and one has one byte: so all differ."""
        for way in self.senders():
            station, sizes = way.source, self.scenario.sizes
            while len(station.names('spool')) < MOST_WAITING and len(station.given) < MOST_MESSAGES:
                number = len(station.given)
                size = sizes[number] if number < len(sizes) else self.random.choice(sizes[2:])
                station.put('%05d' % number, message(number, size, self.random))

    def is_done(self):
        return all(not way.source.names('spool') + way.source.names('stat') for way in self.senders())

    def run(self, seconds, patience=12):
        """So long the line is bad. Then it is good, and nobody is killed: all has to arrive."""
        begin = checked = time.monotonic()
        while not self.good or not self.is_done():
            self.good |= time.monotonic() > begin + seconds
            if not self.good:
                self.feed()
            self.turn()
            if time.monotonic() > checked + BETWEEN_CHECKS:
                self.check()
                checked = time.monotonic()
            hold(time.monotonic() < begin + seconds + patience, 'not all arrived: %s wait',
                 [way.source.names('spool') for way in self.senders()])
        self.settle()

    def settle(self):
        for _ in range(5):
            self.turn()
        self.check()
        for way in self.senders():
            stored, openings = way.target.received(), way.slave.opening
            hold(set(stored) == set(way.source.given), 'not all is stored')
            self.counts['messages'] += len(way.source.given)
            self.counts['stored again'] += len(stored) - len(way.source.given)
            self.counts['openings'] += openings

    def close(self):
        for station in self.stations:
            station.close()


class Turned(Link):
    """Each round one station has a report to send, and when a part of it has come in, the other gets a stat message. That
    one is stored before the report is, whatever becomes of units and stations; and the report later, whole."""

    BLOCKS, LATEST, STAT_SIZES = 45, 25, (40, 60, 61, 400, 700)
    LONGEST_ROUND = 20  # seconds

    def __init__(self, *words):
        super().__init__(*words)
        self.likely, self.kills_left, self.rounds = 0.0, 0, 0

    def likely_kill(self, unit):
        return self.likely if self.kills_left > 0 else 0.0

    def kill(self, index):
        self.kills_left -= 1
        self.counts['kills in such rounds'] += 1
        super().kill(index)

    def turn_until(self, fact, words, each_turn=lambda: None):
        limit = time.monotonic() + self.LONGEST_ROUND
        while not fact():
            self.turn()
            each_turn()
            hold(time.monotonic() < limit, 'never came: %s', words)

    def round(self, number):
        sender, ward = self.stations[number % 2], self.stations[1 - number % 2]
        slave = self.ways[number % 2].slave
        report = message(10000 + number, self.BLOCKS * self.scenario.block_size, self.random)
        stat = message(20000 + number, self.random.choice(self.STAT_SIZES), self.random)
        part = self.random.randrange(1, self.LATEST) * self.scenario.block_size
        self.likely, self.kills_left = self.scenario.kills / 10, 1
        sender.put('%05d' % number, report)
        self.turn_until(lambda: slave.expected is not None and len(slave.text) >= part, 'a part of the report')
        ward.put('%05d' % number, stat, 'stat')
        self.likely, self.kills_left = self.scenario.kills, 2

        def check_first():
            came = report in ward.received()  # in this order: it goes on meanwhile
            hold(not came or stat in sender.received(), 'the report was stored before the stat message')
        self.turn_until(lambda: stat in sender.received(), 'the stat message', check_first)
        hold(report not in ward.received(), 'the report was not interrupted')
        self.likely = self.scenario.kills / 10
        self.turn_until(lambda: report in ward.received(), 'the report', check_first)
        self.check()
        self.rounds += 1
        self.counts['stat messages'] += 1

    def run(self, seconds, patience=12):
        begin = time.monotonic()
        while time.monotonic() < begin + seconds:
            self.round(self.rounds)
        self.good = True
        self.turn_until(self.is_done, 'all is done')
        self.settle()
