"""The receiving station, from the words of 000 (C.3.3.2) and of document 02, §2 and §14: what it has to store of the units
that were delivered to it, and in which opening. And what may be stored at all."""

from stations import hold
from units import ETX


class Slave:
    def __init__(self):
        self.opening, self.expected, self.text = 0, None, b''
        self.accepted = False  # a block, in this opening
        self.stored = []  # (opening, message)

    def take(self, unit):
        """Whether Timer D begins anew."""
        if unit.kind == 'enq' and self.expected is not None and self.accepted:
            return False  # an enquiry
        if unit.kind == 'enq':
            self.opening, self.expected, self.text, self.accepted = self.opening + 1, 1, b'', False
        elif unit.kind == 'eot':
            self.expected = None
        elif unit.kind == 'block' and unit.number == self.expected:
            self.expected, self.text, self.accepted = (self.expected + 1) % 8, self.text + unit.text, True
            if unit.ending == ETX:
                self.stored.append((self.opening, self.text))
                self.text = b''
        return True

    def timed_out(self):
        """Timer D."""
        self.expected = None

    def check(self, stored):
        """What is stored is the first of what came; the station may not have come to the rest yet."""
        hold(stored == [message for _, message in self.stored[:len(stored)]], 'stored other than what came on the line')

    def died(self, stored):
        """The station was killed: what it had not yet stored it never will, and it is closed."""
        self.check(stored)
        del self.stored[len(stored):]
        self.expected = None


def check_stored(done, stored, given):
    """What was reported done is stored whole; nothing is stored that was not given, so nothing that mixes two."""
    known = set(given)
    for message in stored:
        hold(message in known, 'stored, and never sent: %r', message[:60])
    for message in done:
        hold(message in stored, 'reported done, and not stored: %r', message[:60])


def check_order(stored, names):
    """In one opening each once, and those of one folder in order. names: of each message its folder and its name there."""
    for urgent in (False, True):
        group = [each for each in stored if (names[each[1]][0] == 'stat') == urgent]
        for (opening, message), (later, after) in zip(group, group[1:]):
            if opening == later:
                hold(message != after, 'stored twice in one opening: %r', message[:60])
                hold(names[message] < names[after], 'stored out of order: %r before %r', message[:60], after[:60])
