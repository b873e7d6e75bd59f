"""Lines that are played by a script, where chance would take long to come by the same: what is held is that of
links.py."""

import collections
import concurrent.futures
import os
import signal
import time

import links
import units
from stations import hold

CRASHES_AT_ONCE, MOST_ACTS = 6, 100
GOOD = links.Scenario('a scripted line', 0, 0, 0, 0, 0, 0, links.NOBODY, True, 245, {}, ())
# Six sends and the silence before a bid take less than Timer D: a slave is still open then.
LONG_TIMER_D = {'timer_a': 120, 'timer_b': 80, 'timer_d': 1300}


def report(blocks, size=245):
    """A message of so many blocks."""
    return b'MSH|' + b''.join(b'%04d' % count for count in range(blocks * size))[:blocks * size - 5] + b'\r'


class Scripted(links.Link):
    """The line does nothing to a unit but what its script says."""

    name, count, options = None, 0, {'timer_d': 500}

    def __init__(self, program, folder):
        super().__init__(program, folder, GOOD._replace(options=self.options), 1)
        self.good = True
        self.master, self.slave = self.stations
        self.texts, self.sends = [], collections.Counter()  # of the report's blocks; how often each was sent

    def give(self, name, text=None):
        self.master.put(name, text or b'MSH|%s\r' % name.encode())

    def give_report(self, name, blocks):
        text = report(blocks)
        self.texts = [text[at:at + 245] for at in range(0, len(text), 245)]
        self.give(name, text)

    def is_block(self, way, unit):
        """Whether it is a block of the master's."""
        return way is self.ways[0] and unit.kind == 'block'

    def position(self, way, unit):
        """Which block of the report it is, from 1 on; 0 for none. By its number that cannot be told."""
        return self.texts.index(unit.text) + 1 if self.is_block(way, unit) and unit.text in self.texts else 0

    def passes(self, way, unit):
        self.sends[self.position(way, unit)] += 1
        if not self.is_lost(way, unit):
            super().passes(way, unit)

    def is_lost(self, way, unit):
        """What the script does to a unit that came to the line."""
        return False

    def asks(self):
        """Whether the slave asks for a reverse interrupt."""
        return 'waits in stat/: a reverse interrupt is asked for' in self.slave.said()

    def until(self, fact, words, seconds=8):
        limit = time.monotonic() + seconds
        while not fact():
            self.turn()
            hold(time.monotonic() < limit, 'never came: %s', words)

    def play(self):
        """Raises what is found."""
        self.script()
        self.until(self.is_done, 'all is sent', 12)
        self.check()
        for way in self.ways:
            hold(set(way.target.received()) == set(way.source.given), 'not all is stored')


class LostEnd(Scripted):
    """The closing EOT is lost, and the slave does not know that the opening has ended. The next message begins an
    opening with block 1, and the slave expects 2."""

    name, options, most = 'a lost closing EOT', LONG_TIMER_D, 1

    def is_lost(self, way, unit):
        self.count += unit.kind == 'eot'
        return unit.kind == 'eot' and 2 <= self.count <= 1 + self.most  # the first one is the bid's

    def script(self):
        self.give('1')
        self.until(lambda: self.count >= 2, 'the closing EOT')
        self.give('2')
        self.until(self.is_done, 'the second message', 5)
        self.check()


class LostEnds(LostEnd):
    """Those of the next bids are lost as well. To them the slave gives its last reply again, and no grant."""

    name, most = 'a lost closing EOT, and those of the next bids', 4


class LostGrant(Scripted):
    """The first ACK 0 is lost, and the bidder asks again. The EOTs of its bids are lost too: so the slave is open, and has
    given no reply. It would answer NAK until Timer D."""

    name, options, grants, asked = 'a lost ACK 0', LONG_TIMER_D, 0, 0

    def is_lost(self, way, unit):
        grant = unit.kind == 'ack' and unit.number == 0
        self.asked += unit.kind == 'enq'
        self.grants += grant
        return unit.kind == 'eot' or grant and self.grants == 1

    def script(self):
        self.give('1')
        self.until(self.is_done, 'the message')
        hold(self.grants == self.asked, '%d bids, %d grants', self.asked, self.grants)


class EighthBlock(Scripted):
    """A master is killed after an eighth block: the slave expects 1 again, and holds the text of half a message. The
    successor's first message is another one, and its first block has the number 1. The last reply is ACK 0."""

    name, loses_ends = 'a kill after an eighth block', False

    def is_lost(self, way, unit):
        return self.position(way, unit) == 9 and self.master.lives == 1 or unit.kind == 'eot' and self.loses_ends

    def script(self):
        self.give_report('00001', 14)
        self.until(lambda: self.sends[9], 'the ninth block')
        self.kill(0)
        self.give('00000', b'MSH|new\r')
        self.until(lambda: len(self.master.done()) >= 1, 'the new message')
        self.check()


class EighthBlockLostEnds(EighthBlock):
    """The EOT of the bid is lost: only the silence is left, and the slave's Timer D."""

    name, options, loses_ends = 'a kill after an eighth block, and lost EOTs', LONG_TIMER_D, True


class Unended(Scripted):
    """An opening ends after an eighth block, and its EOT is lost, as are those of the next bids: the slave holds text."""

    options = LONG_TIMER_D

    def is_lost(self, way, unit):
        return unit.kind == 'eot'


class UnendedFailure(Unended):
    """It failed: the ninth block was lost six times. The next message is another one."""

    name = 'a failure after an eighth block'

    def is_lost(self, way, unit):
        return super().is_lost(way, unit) or self.position(way, unit) == 9 and self.sends[9] <= 6

    def script(self):
        self.give_report('00001', 14)
        self.until(lambda: self.sends[9] == 6, 'the sixth send')
        self.give('00000', b'MSH|new\r')
        self.until(lambda: len(self.master.done()) >= 1, 'the new message')
        self.check()


class UnendedReversal(Unended):
    """It was reversed: RINT for the seventh block, ACK 0 for the eighth. The slave bids when its Timer D has run out, and
    before the master does."""

    name, interrupts = 'a reversal after an eighth block', 0

    def is_lost(self, way, unit):
        self.interrupts += unit.kind == 'rint'
        if self.position(way, unit) == 7 and not self.slave.given:
            self.slave.put('1', b'MSH|stat\r', 'stat')
        if self.position(way, unit) == 7:
            return not self.asks()
        return super().is_lost(way, unit) or unit.kind == 'rint' and self.interrupts > 1  # it is heard once

    def script(self):
        self.give_report('00001', 14)
        self.until(lambda: self.master.received() or self.slave.received(), 'the stat message')
        self.check()
        hold(self.slave.received() == [], 'the report came first')


class NoiseBid(Scripted):
    """Noise makes a bid before a block, or in place of it. ACK 0 is what grants a bid, and what acknowledges every eighth
    block."""

    blocks, at, replaces = 8, 8, False

    def is_lost(self, way, unit):
        if self.position(way, unit) != self.at or self.sends[self.at] > 1:
            return False
        way.put(units.ENQUIRY, 0)
        return self.replaces

    def script(self):
        self.give_report('1', self.blocks)
        self.until(self.is_done, 'the message')
        self.check()
        self.until(lambda: self.sends[self.at] > 1, 'the block again, by the answer to the ENQ')


class NoiseBeforeEighth(NoiseBid):
    name = 'an ENQ of noise before an eighth block'


class NoiseForEighth(NoiseBid):
    name, replaces = 'an ENQ of noise in place of an eighth block', True


class NoiseBeforeNinth(NoiseBid):
    name, blocks, at = 'an ENQ of noise before a ninth block', 9, 9


class Enquiry(Scripted):
    """The master enquires on Timer A. A block is lost, and the slave is killed and starts again: it is in control mode, and
    ENQ is a bid to it."""

    options, blocks = {'timer_d': 500, 'enquiry': 'yes'}, 8

    def is_lost(self, way, unit):
        if self.position(way, unit) != self.blocks or self.sends[self.blocks] > 1:
            return False
        self.kill(1)
        return True

    def script(self):
        self.give_report('1', self.blocks)
        self.until(self.is_done, 'the message')
        self.check()
        hold(self.sends[self.blocks] > 1, 'the block was not sent again')


class EnquiryAtEighth(Enquiry):
    """Its ACK 0 would acknowledge the eighth block, which nobody has."""

    name = 'an enquiry with an eighth block out'


class EnquiryAtNinth(Enquiry):
    """After its ACK 0 the ninth block would be sent again, and be the first of a new opening."""

    name, blocks = 'an enquiry with a ninth block out', 9


class EnquiryAtThird(Enquiry):
    """Here ENQ does no harm: ACK 0 says nothing, and the third block is refused until the master fails."""

    name, blocks, enquiries = 'an enquiry with a third block out', 3, 0

    def is_lost(self, way, unit):
        self.enquiries += unit.kind == 'enq'
        return super().is_lost(way, unit)

    def script(self):
        super().script()
        hold(self.enquiries >= 3, '%d ENQs, not those of two bids and one enquiry', self.enquiries)


class EnquiryBeforeEighth(Scripted):
    """ACK 7 comes late, and with it what the master sent on Timer A is still on the way when the eighth block is out. The
    slave is killed meanwhile. If that was an ENQ, its ACK 0 would acknowledge the eighth block, which was lost."""

    name, options, held, late = 'an enquiry on the way when an eighth block is out', Enquiry.options, None, None

    def is_lost(self, way, unit):
        if unit.kind == 'ack' and unit.number == 7 and self.late is None:
            self.late = unit.raw
        elif way is self.ways[0] and self.late is not None and self.held is None:
            self.held = unit.raw  # block 7 again, or ENQ
        else:
            return self.position(way, unit) == 8 and self.sends[8] == 1
        return True

    def script(self):
        self.give_report('1', 8)
        self.until(lambda: self.held, 'Timer A with the seventh block out')
        self.kill(1)
        self.ways[1].put(self.late, 0)
        self.until(lambda: self.sends[8], 'the eighth block')
        self.ways[0].put(self.held, 0)
        self.until(self.is_done, 'the message')
        self.check()


class Turned(Scripted):
    """A report comes in, and a stat message is given to the slave."""

    at, blocks = 3, 14

    def is_lost(self, way, unit):
        if self.position(way, unit) == self.at and not self.slave.given:
            self.slave.put('1', self.stat(), 'stat')
            limit = time.monotonic() + 2
            while not self.asks() and time.monotonic() < limit:  # the block is on the way meanwhile
                time.sleep(0.005)
        return False

    @staticmethod
    def stat():
        return b'MSH|stat\r'

    def script(self):
        self.give_report('1', self.blocks)
        self.until(lambda: self.master.received(), 'the stat message')
        self.check()
        hold(self.slave.received() == [], 'the report was stored before the stat message')


class Reversal(Turned):
    """The report is sent again from its first block, and is stored whole."""

    name = 'a stat message while a report comes in'

    def script(self):
        super().script()
        last = max(self.sends)
        hold(last == self.at + 1, '%d blocks before the reversal', last)
        self.sends.clear()
        self.until(self.is_done, 'the report')
        hold(all(self.sends[position] for position in range(1, self.blocks + 1)), 'not from its first block')


class LostInterrupts(Turned):
    """The first two RINTs are lost. Each time the block comes again, and its ACK says nothing of the wish."""

    name, interrupts = 'two lost RINTs', 0

    def is_lost(self, way, unit):
        self.interrupts += unit.kind == 'rint'
        return super().is_lost(way, unit) or unit.kind == 'rint' and self.interrupts <= 2

    def script(self):
        super().script()
        hold(self.interrupts >= 3, '%d RINTs', self.interrupts)


class BothUrgent(Turned):
    """Both have a stat message of many blocks. Each is sent to its end: else each would break off the other's."""

    name = 'stat messages on both sides'

    @staticmethod
    def stat():
        return report(7)[:-1] + b'stat\r'

    def give(self, name, text=None):
        self.master.put(name, text, 'stat')

    def script(self):
        self.give_report('1', self.blocks)
        self.until(self.is_done, 'both', 4)
        self.check()


class OldReplies(Scripted):
    """Replies to a master that was killed are on the way when its successor begins. Every eighth block is
    acknowledged by ACK 0, which looks like a grant."""

    name = 'old replies on the way'

    def __init__(self, program, folder):
        super().__init__(program, folder)
        self.held, self.holds, self.blocks, self.loses, self.again, self.bids = [], False, 0, False, 0, 0

    def is_lost(self, way, unit):
        self.bids += unit.kind == 'enq'
        if self.is_block(way, unit):
            self.blocks += 1
            if self.loses:  # the successor's first block is lost
                self.loses, self.again = False, 1
                return True
        if way is self.ways[1] and self.blocks >= 8 and unit.kind == 'ack' and not self.again:
            self.holds = True
        if way is self.ways[1] and self.holds:
            self.held.append(unit.raw)
        return way is self.ways[1] and self.holds

    def release(self, count):
        for raw in self.held[:count]:
            self.ways[1].put(raw, 0)
        self.held = self.held[count:]

    def pause(self, seconds, fact=lambda: False):
        until = time.monotonic() + seconds
        while time.monotonic() < until and not fact():
            self.turn()

    def script(self):
        for number in range(1, 10):
            self.give('%05d' % number)
        self.until(lambda: self.held[:2] == [units.ack(0)] * 2, 'block 0 sent again by Timer A, and both ACK 0')
        self.release(1)
        self.until(lambda: self.held[-1:] == [units.ack(1)], 'the ninth block, and ACK 1')
        self.kill(0)
        self.held = [units.ack(0), units.ack(1)]
        self.give('00000', b'MSH|urgent\r')  # by its name it is the next one
        self.loses, before = True, self.bids
        self.pause(0.4, lambda: self.bids > before)  # one that is silent does not bid so soon
        self.release(1)
        self.pause(0.2, lambda: self.again)
        self.release(1)
        self.pause(0.2, lambda: b'MSH|urgent\r' in self.master.done())
        self.check()
        self.holds, self.again = False, 1
        self.release(len(self.held))


class Crash(Scripted):
    """A station is killed before an act that the test names, or in the middle of a write, by tests/driver/trace.c; then
    it is started again."""

    name, options = 'a kill before an act', {'timer_a': 100, 'timer_b': 60, 'timer_d': 250}

    def __init__(self, program, folder, victim, environment):
        super().__init__(program, folder)
        self.index, self.environment, self.crashed = victim, environment, False

    def kill_and_start(self):
        victim = self.stations[self.index]
        if victim.process is None and victim.lives == 0:
            victim.start(self.environment)
        super().kill_and_start()

    def look_at(self, index):
        process = self.stations[index].process
        status = process.poll() if process is not None else None  # once: it may die between two looks
        if index == self.index and status == -signal.SIGKILL:
            self.crashed = True
            self.kill(index)
        elif status is not None:
            super().look_at(index)

    def script(self):
        self.give('1', b'MSH|' + b'x' * 300 + b'\r')
        self.give('2')


class CrashTurned(Crash):
    """The line is turned round, and one of the two is killed before an act."""

    def is_lost(self, way, unit):
        if self.position(way, unit) == 2 and not self.slave.given:
            self.slave.put('1', b'MSH|stat\r', 'stat')
            time.sleep(0.08)  # it looks every 50 milliseconds, and Timer A is longer
        return False

    def script(self):
        self.give_report('1', 5)
        self.until(lambda: self.slave.given, 'the second block')


SCRIPTS = (LostEnd, LostEnds, LostGrant, EighthBlock, EighthBlockLostEnds, UnendedFailure, UnendedReversal,
           NoiseBeforeEighth, NoiseForEighth, NoiseBeforeNinth, EnquiryAtEighth, EnquiryAtNinth, EnquiryAtThird,
           EnquiryBeforeEighth, OldReplies, Reversal, LostInterrupts, BothUrgent)


def crash_at_each_act(script, program, folder, victim, half, trace):
    """How many acts there were. One run for each, until there is none of that number; six at once."""
    def crash(act):
        line = script(program, os.path.join(folder, str(act)), victim,
                     {'LD_PRELOAD': trace, 'CRASH_AT': str(act), 'CRASH_HALF': str(half)})
        try:
            line.play()
            return line.crashed
        finally:
            line.close()
    os.makedirs(folder)
    with concurrent.futures.ThreadPoolExecutor(CRASHES_AT_ONCE) as pool:
        for first in range(1, MOST_ACTS, CRASHES_AT_ONCE):
            crashed = list(pool.map(crash, range(first, first + CRASHES_AT_ONCE)))
            if not all(crashed):
                return first - 1 + sum(crashed)
    raise RuntimeError('too many acts')


def run(script, program, folder):
    line = script(program, folder)
    try:
        line.play()
    finally:
        line.close()
