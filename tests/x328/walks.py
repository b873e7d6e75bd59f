"""The rules by which the two drivers bid, grant, enquire and turn the line round, as a model, and random walks of it. The
stations are 02's (§2, §3, §14), the rules those of examples/x328/README.md. Any event may come at any moment: a unit
arrives, is lost or damaged, a timer runs out too early, a station is killed and starts again. Time is in it only by what
the silences promise: before a bid nothing is on the way, and after the long one the other side is slave no more. What is
held is that of links.py: nothing is stored that was not given, and what is done is stored."""

import collections
import random

import notes

# enquired: the numbers of the blocks with which a master enquires. end: a bid begins with EOT. start, ended: Timer D comes
# on top of the silence after a start; after a failure and a reversal. resends: of a block.
Rules = collections.namedtuple('Rules', 'enquired end start ended resends')
RULES = Rules((2, 3, 4, 5, 6), True, True, True, 5)
# Each rule left out, and the seed from which on a walk shows it soon.
BROKEN = (
    ('an enquiry with block 7 out', RULES._replace(enquired=(2, 3, 4, 5, 6, 7)), 10000),
    ('an enquiry with block 0 out', RULES._replace(enquired=(2, 3, 4, 5, 6, 0)), 0),
    ('an enquiry with block 1 out', RULES._replace(enquired=(1, 2, 3, 4, 5, 6)), 0),
    ('a start without Timer D', RULES._replace(start=False), 20000),
    ('a failure and a reversal without Timer D', RULES._replace(ended=False, resends=1), 5300),
)
LENGTHS = (1, 1, 2, 3, 7, 8, 8, 9, 10, 16, 17)  # of messages, in blocks
STEPS, WALKS, MOST_WALKS = 6000, 500, 4000
CONTROL, BIDDING, MASTER, SLAVE = range(4)
NONE, PENDING, GIVEN = range(3)


class Broken(Exception):
    """What is stored or done is not what was promised."""


class Master:
    """One opening."""

    def __init__(self):
        self.count, self.last, self.enquired, self.interrupted, self.may_receive = 0, None, False, False, False
        self.urgent, self.message, self.position, self.resends = False, None, 0, 0

    def number(self):
        return (self.count + 1) % 8

    def block(self):
        return ('block', self.number(), self.position == len(self.message) - 1, self.message[self.position])


class End:
    """A station and its driver."""

    def __init__(self, walk, primary):
        self.walk, self.primary, self.other, self.out = walk, primary, None, collections.deque()
        self.waiting = {True: collections.deque(), False: collections.deque()}  # urgent ones, and others
        self.received, self.given = [], []
        self.start()

    def start(self):
        self.mode, self.other_may_hold, self.bids, self.master = CONTROL, self.walk.rules.start, 0, None
        self.open()

    def say(self, *unit):
        self.out.append(unit)

    # ---- the slave

    def open(self):
        self.expected, self.held, self.last, self.interrupt, self.accepted = 1, (), None, NONE, False

    def grant(self):
        self.mode = SLAVE
        self.open()
        self.say('ack', 0)

    def ask(self):
        if self.mode == SLAVE and self.interrupt == NONE and self.waiting[True] and self.walk.random.random() < 0.8:
            self.interrupt = PENDING

    def reply(self, *unit):
        self.last = unit
        if unit[0] == 'ack' and self.interrupt == GIVEN:
            self.interrupt = NONE
        self.say(*unit)

    def take_block(self, number, is_last, text):
        if number == self.expected:
            self.accepted, self.held, self.expected = True, self.held + (text,), (number + 1) % 8
            if is_last:
                self.store()
            if self.interrupt == PENDING:
                self.interrupt = GIVEN
                self.reply('rint')
            else:
                self.reply('ack', number)
        elif number == (self.expected - 1) % 8 and not self.accepted:
            self.say('eot')  # block 0 before the first block 1
            self.leave_slave()
        elif number == (self.expected - 1) % 8:
            self.reply('ack', number)
        else:
            self.reply('nak')

    def store(self):
        self.received.append(self.held)
        self.walk.stored += 1
        if self.held not in self.other.given:
            raise Broken('stored, and never sent: %s' % (self.held,))
        self.held = ()

    def leave_slave(self):
        if self.accepted:
            self.other_may_hold = False
        self.mode = CONTROL

    def take_as_slave(self, unit):
        if unit[0] == 'block':
            self.take_block(*unit[1:])
        elif unit[0] == 'damaged':
            self.reply('nak')
        elif unit[0] == 'enq' and self.accepted:
            self.say(*self.last)
        elif unit[0] == 'enq':
            self.grant()
        elif unit[0] == 'eot':
            self.leave_slave()
            if self.accepted and self.waiting[True]:
                self.begin_to_bid()

    # ---- the master

    def begin_to_bid(self):
        self.mode, self.other_may_hold, self.bids = BIDDING, False, 0
        self.bid()

    def bid(self):
        self.bids += 1
        if self.walk.rules.end:
            self.say('eot')
        self.say('enq')

    def next_message(self):
        master, urgent = self.master, bool(self.waiting[True])
        if not self.waiting[urgent]:
            self.leave_master(False)
            return
        master.urgent, master.message, master.position = urgent, self.waiting[urgent][0], 0
        self.send(0)

    def send(self, resends):
        self.master.resends, self.master.enquired = resends, False
        self.say(*self.master.block())

    def send_again(self):
        if self.master.resends == self.walk.rules.resends:
            self.leave_master(True)
        else:
            self.send(self.master.resends + 1)

    def leave_master(self, may_hold, by_slave=False):
        if not by_slave:
            self.say('eot')
        self.mode, self.master, self.other_may_hold = CONTROL, None, may_hold and self.walk.rules.ended

    def acknowledged(self):
        master, done = self.master, self.master.position == len(self.master.message) - 1
        master.count += 1
        if done:
            self.waiting[master.urgent].popleft()
            if master.message not in self.other.received:
                raise Broken('done, and not stored: %s' % (master.message,))
        if master.may_receive or done and master.interrupted:
            self.leave_master(True)
        elif done:
            self.next_message()
        else:
            master.position += 1
            self.send(0)

    def take_as_master(self, kind, number=None, *_):
        master, before = self.master, self.master.last
        if kind == 'eot':
            self.leave_master(False, by_slave=True)
        if kind not in ('ack', 'nak', 'rint'):
            return
        master.last, doubtful = kind, before == 'rint' or before == 'nak' and master.enquired
        master.interrupted |= kind == 'rint'
        if kind == 'ack' and number == master.number() or kind == 'rint' and not doubtful:
            self.acknowledged()
        elif kind != 'ack' or number == (master.number() - 1) % 8:
            self.send_again()
        if self.master is master and master.interrupted and not master.urgent:
            master.may_receive = True

    def timer_a(self):
        master = self.master
        may = master.number() in self.walk.rules.enquired
        if self.walk.enquiry[self.primary] and may and not master.enquired:
            master.enquired = True
            self.say('enq')
        else:
            self.send_again()

    # ---- both

    def take(self, unit):
        if unit[0] == 'enq' and (self.mode == CONTROL or self.mode == BIDDING and not self.primary):
            self.grant()
        elif self.mode == BIDDING and unit == ('ack', 0):
            self.mode, self.master = MASTER, Master()
            self.next_message()
        elif self.mode == MASTER:
            self.take_as_master(*unit)
        elif self.mode == SLAVE:
            self.take_as_slave(unit)
        self.ask()


class Walk:
    def __init__(self, rules, seed):
        self.rules, self.random, self.stored, self.made = rules, random.Random(seed), 0, 0
        self.ends = [End(self, True), End(self, False)]
        for end, other in zip(self.ends, reversed(self.ends)):
            end.other = other
        draw = self.random.choice
        self.enquiry = {side: self.random.random() < 0.7 for side in (True, False)}
        self.loss, self.kills, self.early, self.late = (
            draw((0, 0.03, 0.1, 0.2)), draw((0, 0.0002, 0.001, 0.003)), draw((0.005, 0.03, 0.1)), draw((0.001, 0.005, 0.02)))

    def arrives(self, end):
        unit = end.other.out.popleft()
        if self.random.random() >= self.loss:
            end.take(unit)
        elif self.random.random() < 0.5:
            end.take(('damaged',))

    def is_killed(self, end):
        """What the terminal has for it may be flushed when it starts again."""
        end.start()
        for _ in range(self.random.choice((0, 0, 1, 2))):
            if end.other.out:
                end.other.out.popleft()

    def give(self, end):
        if len(end.waiting[True]) + len(end.waiting[False]) < 2 and self.random.random() < 0.3:
            self.made += 1
            message = tuple((self.made, position) for position in range(self.random.choice(LENGTHS)))
            end.waiting[self.random.random() < 0.3].append(message)
            end.given.append(message)
            end.ask()

    def timer(self, end):
        """One that is due, or early."""
        empty = not end.out and not end.other.out
        early = empty or self.random.random() < self.early
        if end.mode == MASTER and early:
            end.timer_a()
        elif end.mode == BIDDING and early and end.bids > 6:
            end.mode = CONTROL
        elif end.mode == BIDDING and early:
            end.bid()
        elif end.mode == SLAVE and self.random.random() < (
                0.2 if empty and end.other.mode in (CONTROL, SLAVE) else self.late):
            end.leave_slave()
        elif end.mode == CONTROL and empty and any(end.waiting.values()) and not (
                end.other_may_hold and end.other.mode == SLAVE) and self.random.random() < 0.3:
            end.begin_to_bid()

    def step(self):
        end, drawn = self.random.choice(self.ends), self.random.random()
        if drawn < 0.6:
            if end.other.out:
                self.arrives(end)
        elif drawn < 0.6 + self.kills:
            self.is_killed(end)
        elif drawn < 0.66:
            self.give(end)
        else:
            self.timer(end)


def walk(rules, seed):
    """How many messages were stored. Raises Broken."""
    made = Walk(rules, seed)
    for _ in range(STEPS):
        made.step()
    return made.stored


def keep(seed):
    """By the rules as they are nothing breaks."""
    notes.note('%d messages stored', sum(walk(RULES, seed * 100000 + count) for count in range(WALKS)))


def break_rule(rules, first):
    """None, if a walk shows that the rule is needed."""
    for seed in range(first, first + MOST_WALKS):
        try:
            walk(rules, seed)
        except Broken as broken:
            notes.note('found: %s', str(broken)[:100])
            return None
    return 'not found'
