"""linkstatus SENDER RECEIVER: the books of pairs made by hand, and of pairs with one thing changed by chance, against a
second comparison of the same folders."""

import os

from ends import state_text
from readout import said

DIFFER = 'books: THEY DIFFER'
AGREE = 'books: they agree: the first %d of the log are stored, each once, in order, byte for byte'
FROM = 'books: they agree from number %d on, byte for byte; what is before it was purged'
GREATEST = 'books: the greatest number of the log that is stored is %d; missing below it: %s'
NOTHING = 'books: no message of the log is stored'
TRIES, LEAST = 250, 40  # pairs drawn, and how many of them at least agree and differ


def text(number, body='K'):
    return ('MSH|^~\\&|LAB||WARD||||ORU^R01|%s|P|2.3.1|%s\rOBX|1|NM|%s\r' % (number, number, body)).encode()


def number_in(data):
    """MSH-13 of a message that text made; None of another."""
    fields = data.split(b'\r')[0].split(b'|')
    return int(fields[12]) if len(fields) > 12 else None


class Pair:
    """The books of both ends: the sender's numbers and log, the receiver's numbers and transactions. `base` are an earlier
    tenant's, whose expected number the -1 of this one took away."""

    def __init__(self, first, delivered, last, expected, stored, base=0):
        self.first, self.delivered, self.last, self.resynchronized, self.frozen = first, delivered, last, 1, 0
        self.expected, self.count = expected, base + stored
        self.cleared, self.cleared_after = base + 1 if base else 0, base
        self.log = {number: text(number) for number in range(first, last + 1)}
        self.transactions = {position: text(position, 'of an earlier tenant') for position in range(1, base + 1)}
        self.transactions.update({base + i + 1: text(first + i) for i in range(stored)})

    def write(self, folder):
        sender, receiver = os.path.join(folder, 's'), os.path.join(folder, 'r')
        for path, title, words in (
                (sender, 'giamuvich sender 2', {'first': self.first, 'delivered': self.delivered, 'last': self.last,
                                                'resynchronized': self.resynchronized, 'frozen': self.frozen}),
                (receiver, 'giamuvich receiver 2', {'expected': self.expected, 'stored': self.count,
                                                    'cleared': self.cleared, 'cleared_after': self.cleared_after})):
            for name in ('log', 'spool', 'refused') if path == sender else ('transactions',):
                os.makedirs(os.path.join(path, name))
            with open(os.path.join(path, 'state'), 'wb') as file:
                file.write(state_text(title, words))
        files = {os.path.join(sender, 'log', '%d.hl7' % number): data for number, data in self.log.items()}
        files.update({os.path.join(receiver, 'transactions', '%015d.hl7' % position): data
                      for position, data in self.transactions.items()})
        for path, data in files.items():
            with open(path, 'wb') as file:
                file.write(data)
        return sender, receiver

    # ---- the second comparison

    def claimed(self):
        return self.expected - self.first if self.resynchronized and self.expected > self.first else 0

    def numbers_agree(self):
        claimed, covers = self.claimed(), self.delivered - self.first + 1
        if claimed == 0 and self.expected != 0 and self.resynchronized:
            return False
        if self.cleared and self.resynchronized and claimed != len(self.positions()):
            return False
        return covers <= claimed <= covers + 1 and claimed <= min(self.count, self.last - self.first + 1)

    def agree(self):
        """True, False, or None where a message that is to be compared is not there, though one before it is."""
        claimed, base = self.claimed(), self.count - self.claimed()
        pairs = [(self.transactions.get(base + i + 1), self.log.get(self.first + i)) for i in range(claimed)]
        ours = list(self.log.values())
        greatest = max(self.transactions, default=0)
        last = greatest if greatest > self.count + 1 else self.count  # a crash's leftover was not stored
        found = [data for position, data in self.transactions.items() if position <= last]
        if (not self.numbers_agree() or max(self.transactions, default=0) > self.count + 1 or
                any(None not in pair and pair[0] != pair[1] for pair in pairs) or
                any(pair[0] is not None and number_in(pair[0]) != self.first + i for i, pair in enumerate(pairs)) or
                any(self.transactions.get(position) in ours for position in range(1, base + 1))):
            return False
        gone = [number for number in range(self.first, self.delivered + 1)
                if number in self.log and self.log[number] not in found]
        if [number for number in gone if not self.purged(number)]:
            return False
        held = [None not in pair for pair in pairs]
        after = held[held.index(True):] if True in held else held
        return None if False in after else True

    def positions(self):
        """Those that are this tenancy's by what the last -1 left."""
        return range(self.cleared_after + 1, self.count + 1)

    def purged(self, number):
        """The last of these positions has the number before the expected one, the one before it the one before that."""
        of_numbers = dict(zip(range(self.expected - 1, -1, -1), reversed(self.positions())))
        return number in of_numbers and of_numbers[number] not in self.transactions

    # ---- what may have happened

    def purge(self):
        """The application has taken the earlier tenant's transactions."""
        self.transactions = {position: data for position, data in self.transactions.items() if position > self.cleared_after}

    def lose_first(self, lost=1):
        """An old answer came for each of the tenancy's first messages, and the receiver began with the next one."""
        ours = [self.transactions.pop(position) for position in list(self.positions())]
        self.count -= lost
        self.transactions.update(zip(self.positions(), ours[lost:]))


def pair(*words, **changes):
    made = Pair(*words)
    for name, value in changes.items():
        setattr(made, name, value)
    return made


def changed(made, **files):
    """Other messages: log_N or at_POSITION, None for a file that is not there."""
    for name, data in files.items():
        kind, number = name.split('_')
        where = made.log if kind == 'log' else made.transactions
        where[int(number)] = data
        if data is None:
            del where[int(number)]
    return made


def slot_7(base=0, lost=1, purged=()):
    """13 messages, the first ones lost, at a receiver that had an earlier tenant; and what the application has taken."""
    made = pair(1, 13, 13, 14, 13, base)
    made.lose_first(lost)
    return changed(made, **{'at_%d' % position: None for position in purged})


SINCE = 'books: the expected number says that %d are stored, and since the last -1 there are %d'
STRAY = changed(pair(1, 5, 5, 2, 6), at_6=text(1, 'a stranger'))
# The pair, the lines on the books after the first of them, what the first line of all ends with.
CASES = [
    ('all delivered is stored', pair(1, 3, 3, 4, 3), [AGREE % 3], ''),
    ('one more is stored', pair(1, 2, 3, 4, 3), [AGREE % 3], ''),
    ('nothing yet', pair(7, 6, 6, 0, 0), [AGREE % 0], ''),
    ('nothing yet, and an old number', pair(1, 0, 1, 6, 0, 5, resynchronized=0), [AGREE % 0], ''),
    ("behind an earlier tenant's", pair(1, 3, 4, 4, 3, 5), [AGREE % 3], ''),
    ('a leftover of a crash', changed(pair(1, 3, 4, 4, 3), at_4=text(4)), [AGREE % 3], ''),
    ('the night of slot 7', slot_7(),
     ['books: 1 marked delivered and not stored', 'books: the expected number says that 13 are stored, and there are 12'] +
     ['books: position %d is not number %d of the log; it is number %d of it' % (i, i, i + 1) for i in range(1, 11)] +
     ['books: and 2 positions more like this', GREATEST % (13, '1'), DIFFER], None),
    ('the night of slot 7, and its first one was purged', slot_7(purged=(1,)),
     ['books: 1 marked delivered and not stored', 'books: the expected number says that 13 are stored, and there are 12'] +
     ['books: position %d is not number %d of the log; it is number %d of it' % (i, i, i + 1) for i in range(2, 12)] +
     ['books: and 1 position more like this', GREATEST % (13, '1 to 2'), DIFFER], None),
    ('the night of slot 7 at a receiver that was kept', slot_7(5),
     ['books: 1 marked delivered and not stored', SINCE % (13, 12),
      'books: position 5 is not number 1 of the log; it is another message, with number 5', GREATEST % (13, '1'), DIFFER],
     None),
    ('the night of slot 7 at a receiver that was kept and purged', slot_7(5, purged=range(1, 6)),
     ['books: 1 marked delivered and not stored', SINCE % (13, 12), GREATEST % (13, '1'), DIFFER], None),
    ("the same, and only the old tenant's last one was purged", slot_7(5, purged=(5,)),
     ['books: 1 marked delivered and not stored', SINCE % (13, 12), GREATEST % (13, '1'), DIFFER], None),
    ('the same, and the first stored one was purged too', slot_7(5, purged=range(1, 7)),
     ['books: 1 marked delivered and not stored', SINCE % (13, 12), GREATEST % (13, '1 to 2'), DIFFER], None),
    ('the same, and more were lost', slot_7(5, 3, range(1, 6)),
     ['books: 1 to 3 marked delivered and not stored', SINCE % (13, 10), GREATEST % (13, '1 to 3'), DIFFER], None),
    ('a receiver that was kept and purged', changed(pair(1, 3, 4, 4, 3, 5), **{'at_%d' % i: None for i in range(1, 6)}),
     [AGREE % 3], ''),
    ('the same, and its first one was purged too',
     changed(pair(1, 3, 4, 4, 3, 5), **{'at_%d' % i: None for i in range(1, 7)}), [FROM % 2], ''),
    ('more since the last -1 than the expected number counts', pair(2, 3, 3, 4, 2, 5, cleared_after=4),
     [SINCE % (2, 3), GREATEST % (3, 'none'), DIFFER], None),
    ('a count that the last -1 has not', pair(1, 3, 3, 4, 3, cleared=9, cleared_after=7),
     [SINCE % (3, 0), GREATEST % (3, 'none'), DIFFER], None),
    ('behind an earlier tenant of the first form, which kept no count', pair(1, 3, 4, 4, 3, 5, cleared=0, cleared_after=0),
     [AGREE % 3], ''),
    ('a receiver that was kept and purged, and -1 did not arrive', changed(
        pair(1, 0, 0, 2, 0, 1, cleared=0, cleared_after=0), at_1=None),
     ['books: the expected number says that 1 are stored, and 0 were submitted', NOTHING, DIFFER], None),
    ('the same, with a greater first number', changed(pair(5, 4, 4, 2, 0, 1, cleared=0, cleared_after=0), at_1=None),
     ['books: the expected number says that 0 are stored, and the mark covers 0', NOTHING, DIFFER], None),
    ("a receiver that still has the old tenant's 1", changed(pair(1, 1, 1, 2, 1), at_1=text(1, 'old')),
     ['books: 1 marked delivered and not stored',
      'books: position 1 is not number 1 of the log; it is another message, with number 1', NOTHING, DIFFER], None),
    ('a receiver from a backup', pair(1, 7, 7, 4, 3),
     ['books: 4 to 7 marked delivered and not stored',
      'books: the expected number says that 3 are stored, and the mark covers 7', GREATEST % (3, 'none'), DIFFER], None),
    ("a stray sender's -1 and 1", STRAY,
     ['books: the expected number says that 1 are stored, and the mark covers 5',
      'books: position 6 is not number 1 of the log; it is another message, with number 1'] +
     ['books: number %d of the log is at position %d, before those that the expected number counts' % (i, i)
      for i in range(1, 6)] + [GREATEST % (5, 'none'), DIFFER], None),
    ("a crash's leftover is not stored", changed(pair(1, 4, 5, 3, 2), at_3=text(3)),
     ['books: 3 to 4 marked delivered and not stored', 'books: the expected number says that 2 are stored, and the mark covers 4',
      GREATEST % (2, 'none'), DIFFER], None),
    ('another byte', changed(pair(1, 3, 3, 4, 3), at_2=text(2, 'L')),
     ['books: 2 marked delivered and not stored',
      'books: position 2 is not number 2 of the log; it is another message, with number 2', GREATEST % (3, '2'), DIFFER],
     None),
    ('no header', changed(pair(1, 3, 3, 4, 3), at_3=b'x'),
     ['books: 3 marked delivered and not stored', 'books: position 3 is not number 3 of the log; it has no number',
      GREATEST % (2, 'none'), DIFFER], None),
    ('two in the other order', changed(pair(1, 3, 3, 4, 3), at_1=text(2), at_2=text(1)),
     ['books: position 1 is not number 1 of the log; it is number 2 of it',
      'books: position 2 is not number 2 of the log; it is number 1 of it', GREATEST % (3, 'none'), DIFFER], None),
    ('stored twice', changed(pair(1, 3, 3, 4, 4), at_1=text(1), at_2=text(1), at_3=text(2), at_4=text(3)),
     ['books: number 1 of the log is at position 1, before those that the expected number counts', GREATEST % (3, 'none'),
      DIFFER], None),
    ('more than was submitted', pair(1, 3, 3, 5, 4),
     ['books: the expected number says that 4 are stored, and 3 were submitted', GREATEST % (3, 'none'), DIFFER], None),
    ('a wrong count', pair(1, 7, 7, 8, 7, count=4),
     ['books: the expected number says that 7 are stored, and there are 4', 'books: there is a file at position 7',
      GREATEST % (7, 'none'), DIFFER], None),
    ('a file beyond the leftover', changed(pair(1, 3, 3, 4, 3), at_6=text(6)), 
     ['books: there is a file at position 6', GREATEST % (3, 'none'), DIFFER], None),
    ('a log that was purged', changed(pair(1, 3, 3, 4, 3), log_1=None), [FROM % 2], ''),
    ('transactions that were purged', changed(pair(1, 3, 3, 4, 3), at_1=None, at_2=None), [FROM % 3], ''),
    ('both were purged', changed(pair(1, 3, 3, 4, 3), at_1=None, log_1=None), [FROM % 2], ''),
    ('all was purged', changed(pair(1, 2, 2, 3, 2), at_1=None, log_1=None, log_2=None),
     ['books: 2 transactions could not be compared: it lacks in log/ or in transactions/'],
     'transactions could not be compared'),
    ('a hole', changed(pair(1, 3, 3, 4, 3), at_2=None),
     ['books: 1 transaction could not be compared: it lacks in log/ or in transactions/'], 'transaction could not be compared'),
    ('lost, and all before it purged', changed(pair(1, 3, 3, 4, 3), at_1=None, log_1=None, at_3=text(3, 'L')),
     ['books: 3 marked delivered and not stored',
      'books: position 3 is not number 3 of the log; it is another message, with number 3', GREATEST % (2, 'none'), DIFFER],
     None),
]


def compare(programs, folder, made, lines, last):
    """One pair: what is said of its books, and the exit status. Both drivers are stopped, so it is never below 2."""
    printed, status = said(programs, *made.write(folder))
    found = [line for line in printed if line.startswith('books: ')][1:]
    last = 'THE BOOKS DIFFER' if last is None else last
    wrong = found != lines or status != 2 or not printed[0].startswith('critical: ') or not printed[0].endswith(last) or (
        DIFFER in lines) != ('THE BOOKS DIFFER' in printed[0])
    return '%s %d' % (printed, status) if wrong else None


def others(programs, folder):
    """Folders in the wrong places, and one end that cannot be read: no books are compared."""
    sender, receiver = pair(1, 3, 3, 4, 3).write(folder)
    for words, wanted, code in (
            ((receiver, sender), 'unknown: %s is not the folder of a sender; %s is not the folder of a receiver' % (
                receiver, sender), 3),
            ((sender, folder), 'critical: sender: no driver runs; receiver: %s/state is missing; log/ or transactions/ cannot '
             'be read' % folder, 2)):
        printed, status = said(programs, *words)
        if printed[0] != wanted or status != code or any(line.startswith('books: ') for line in printed):
            return '%s %d' % (printed, status)
    with open(os.path.join(receiver, 'state'), 'r+b') as file:
        file.write(b'G')
    printed, status = said(programs, sender, receiver)
    if 'is damaged' not in printed[0] or status != 2 or [line for line in printed if line.startswith('books: ')] != [
            GREATEST % (3, 'none')]:
        return '%s %d' % (printed, status)
    return None


def drawn(random):
    """A pair that agrees, or one in which some things were changed."""
    first, count, base = random.choice([1, 2, 40]), random.randrange(6), random.choice([0, 0, 1, 3])
    delivered = first + max(0, count - random.randrange(2)) - 1
    last = first + count - 1 + random.randrange(3)
    made = Pair(first, delivered, max(last, delivered), first + count if count else 0, count, base)
    for _ in range(random.choice([0, 1, 1, 2, 3])):
        position = random.randrange(1, made.count + 3)
        number = random.randrange(first, made.last + 3)
        change = random.randrange(12)
        if change == 0:
            made.expected = random.choice([0, first, first + count + 1, max(0, first + count - 1), 99])
        elif change == 1:
            made.count = max(0, made.count + random.choice([-1, 1, 2]))
        elif change == 2:
            made.delivered = random.randrange(first - 1, made.last + 1)
        elif change == 3:
            made.transactions[position] = text(number, random.choice(['K', 'other']))
        elif change == 4:
            made.transactions.pop(position, None)
        elif change == 5:
            made.log.pop(number, None)
        elif change == 6:
            made.log[number] = text(number, 'other')
        elif change == 7:
            made.cleared, made.cleared_after = random.choice([(0, 0), (9, random.randrange(made.count + 2))])
        elif change == 8 or change == 9:
            made.purge()
        elif change == 10 and made.transactions.keys() >= set(made.positions()) and len(made.positions()) > 1:
            made.lose_first()
        else:
            made.transactions[position] = made.transactions.get(random.randrange(1, made.count + 2), text(number))
    return made


def by_chance(programs, folder, random):
    """As the second comparison has it, for each pair that is drawn."""
    seen = {True: 0, False: 0, None: 0}
    for index in range(TRIES):
        made = drawn(random)
        printed, _ = said(programs, *made.write(os.path.join(folder, str(index))))
        verdict = made.agree()
        wanted = {True: 'they agree', False: 'THEY DIFFER', None: 'could not be compared'}[verdict]
        seen[verdict] += 1
        if not any(wanted in line for line in printed if line.startswith('books: ')):
            return 'pair %d, %s: %s' % (index, vars(made), printed)
    return None if min(seen[True], seen[False]) >= LEAST and seen[None] else 'too few: %s' % seen
