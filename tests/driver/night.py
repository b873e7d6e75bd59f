"""The night operator's round: 27 faults and some more, each on a link of its own, all at the same time.

What the manual tells the operator to look at must show each of the harmful ones and name its cause as
far as it can be known, and must call the harmless ones good. What was lost or stored twice is found
out here from the bytes that were spooled, and linkstatus must have found the same."""

import collections
import functools
import os
import random
import re
import socket
import subprocess
import time

import night_links as wrong
from ends import Violation, read
from lines import TO_RECEIVER, TO_SENDER
from night_links import QUICK, Link, report

HERE = os.path.dirname(os.path.abspath(__file__))
INJECTING, SHOWING, STOPPING = 40, 40, 20  # seconds, at most
LOOKS, PAUSE = 10, 0.25  # further looks at links that go on trying, and seconds between two of them


# ---- what must be seen of each


# A sentence that the operator finds at `where` (STRAY: the stray caller's address); where in the manual it leads
# him, if anywhere; and words that must be there.
Cause = collections.namedtuple('Cause', 'where sentence row words')
# `alone` are the ends whose own read-out must show it. `reason` is in the link's line of the round; without one,
# the link must be called good. `lost` counts from the first number.
Fault = collections.namedtuple('Fault', 'number words inject alone reason causes lost strange')

PAIR, SENDER, RECEIVER, SENDER_SAID, RECEIVER_SAID = 'pair', 'sender', 'receiver', 'sender.said', 'receiver.said'


def fault(number, words, inject, alone, reason, *causes, lost=(), strange=0):
    return Fault(number, words, inject, alone, reason, causes, lost, strange)


def by_sentence(manual, sentence):
    """The cells behind the one that has this sentence."""
    rows = manual.rows_of(sentence)
    return rows[0].cells[1:] if rows else None


def by_number(manual, sentence):
    """The same, and those of the number by which something was refused."""
    own, number = by_sentence(manual, sentence), re.search(r' by (\d+)', sentence)[1]
    rows = [row for row in manual.rows if row.cells[0].startswith('**%s ' % number)]
    return own + rows[0].cells[1:] if own and rows else None


def by_answer(got):
    """The same, and the likely cause in the section 'Frozen' for this waiting and this answer."""
    def row_of(manual, sentence):
        own = by_sentence(manual, sentence)
        rows = [row for row in manual.rows if row.section == 'Frozen' and re.search(got, ' | '.join(row.cells[:2]))]
        return own + rows[0].cells[2:] if own and rows else None

    return row_of


def said(where, sentence, *words, row=by_sentence):
    return Cause(where, sentence, row, words)


def last_line(where, sentence):
    return Cause(where, sentence + r'\n\Z', None, ())


def never_said(where, sentence):
    """Else the manual would name another cause."""
    return Cause(where, r'\A(?s:(?!.*%s))' % sentence, None, ())


GAVE_UP = r'gave up \d+ times? since the last delivery'
CALLED = (said(RECEIVER, r'\d+ circuits ended by a new caller', 'call'),
          said(RECEIVER_SAID, r'gmv_driver: a new caller, STRAY, ended the circuit with 127\.0\.0\.1:\d+',
               'two|another|stray', 'port|address'))
DAMAGED = (said(RECEIVER, r'lab\d+\.r/state is damaged', 'disk', 'hand'),
           said(RECEIVER_SAID, r'gmv_driver: lab\d+\.r/state is damaged', 'disk', 'hand'))
FULL = 'No space left on device'
NO_ROOM = r'gmv_driver: cannot write \S+: ' + FULL
FAR_DRIVER_DOWN = said(SENDER, r'no circuit for \d+ s: Connection refused', 'down')
NOBODY_CALLS = said(RECEIVER, r'no circuit for \d+ s: nobody calls', 'down')
NOBODY_CALLS_ANY_MORE = said(RECEIVER, r'no circuit for \d+ s: nobody calls', 'frozen')
ON_ZERO = r'sender: frozen: waited on 0 and got AA \d+ for control ID 0; an operator must reset it'
MARK_OR_LESS = by_answer(r'^`?0`? \|.*\bAA\b.*\bmark\b.* or less')
NUMBER_TAKEN = r'the last -1 took the expected number \d+ away, after \d+ transactions'
BLOCKS_REFUSED = r'\d+ blocks refused since [\w ]+, the last by '
REFUSES = 'refuses (it|our|what|the)'

FIRST_ONE_LOST = (
    said(PAIR, 'books: 1 marked delivered and not stored', 'slot 7|handover', 'old answer', 'not emptied'),
    said(PAIR, 'books: THEY DIFFER', 'stop both'))

FAULTS = [
    fault(1, 'answers AA n + 1', wrong.next_number_answered, 'sr', '^critical: sender: frozen',
          NOBODY_CALLS_ANY_MORE,
          said(PAIR, r'sender: frozen: waited on (\d+) and got AA \d+ for control ID \1; an operator must reset it',
               'dialect', 'PEERS', row=by_answer(r'^`?n`? \|.*\bAA\b.*n \+ 1'))),
    fault(2, 'never answers', wrong.no_answers, 's', 'sender: (.*; )?gave up ',
          said(SENDER, GAVE_UP, 'never answers|does not answer', 'lost|way back'),
          said(PAIR, r'\d+ blocks read on \d+ circuits since the driver started, 0 refused, \d+ answered AR')),
    fault(3, 'the receiver hangs', wrong.receiver_hangs, 'sr', r'receiver: the driver has not turned for \d+ s',
          said(SENDER, GAVE_UP, 'never answers|does not answer'),
          said(RECEIVER, r'the driver has not turned for \d+ s', 'hangs', 'kill -CONT')),
    fault(4, 'a stray caller that holds the connection', functools.partial(wrong.stray_caller, words=b''), 'r',
          'receiver: .*ended by a new caller', *CALLED),
    fault(5, 'a stray caller that speaks HTTP',
          functools.partial(wrong.stray_caller, words=b'GET / HTTP/1.1\r\nHost: ward\r\n\r\n'), 'r',
          'receiver: .*ended by a new caller', *CALLED),
    fault(6, 'a stray sender', wrong.stray_sender, 'sr',
          '^critical: sender: frozen.*receiver: .*-1 took the expected number .*THE BOOKS DIFFER',
          said(RECEIVER, r'-1 took the expected number \d+ away after \d+ transactions', '(another|stray) sender'),
          said(RECEIVER, NUMBER_TAKEN, 'another sender'),
          said(RECEIVER_SAID, r'gmv_driver: -1 from STRAY: the expected number \d+ is forgotten, with \d+ stored',
               'another sender'),
          said(PAIR, ON_ZERO, 'another sender', row=MARK_OR_LESS),
          said(PAIR, r'books: position 4 is not number 1 of the log; it is another message, with number 1',
               'another sender'), strange=1),
    fault(7, "the receiver's state cut short", functools.partial(wrong.changed_state, change=wrong.shortened), 'sr',
          '^critical: .*receiver: lab07.r/state is damaged', FAR_DRIVER_DOWN, *DAMAGED),
    fault(8, "the receiver's state, a digit of the expected number",
          functools.partial(wrong.changed_state, change=wrong.expected_less), 'sr',
          '^critical: .*receiver: lab08.r/state is damaged', FAR_DRIVER_DOWN, *DAMAGED),
    fault(9, "the receiver's state, a digit of the count",
          functools.partial(wrong.changed_state, change=wrong.stored_less), 'sr',
          '^critical: .*receiver: lab09.r/state is damaged', FAR_DRIVER_DOWN, *DAMAGED),
    fault(10, 'the disk full at the receiver', wrong.full_disk_at_receiver, 'sr',
          'receiver: .*requests? not stored since the last that was: ' + FULL,
          said(SENDER, GAVE_UP, 'disk'),
          said(RECEIVER, r'\d+ requests? not stored since the last that was: ' + FULL, 'room', 'nothing is lost'),
          said(RECEIVER, r'\d+ requests? not stored since the driver started, the last one \d+ s ago: ' + FULL, 'room'),
          said(RECEIVER_SAID, r'gmv_driver: transaction \d+ is not stored: %s; it is not answered, and taken when it comes '
               'again' % FULL, 'disk', 'room')),
    fault(11, 'the disk full at the sender', wrong.full_disk_at_sender, 'sr',
          '^critical: sender: no driver runs', NOBODY_CALLS, said(SENDER_SAID, NO_ROOM, 'disk', 'room')),
    fault(12, 'kill -9 of the receiver', functools.partial(wrong.killed, end='receiver'), 'sr',
          '^critical: .*receiver: no driver runs', FAR_DRIVER_DOWN,
          said(RECEIVER, 'no driver runs', 'killed', 'without `stopped`', 'start'),
          last_line(RECEIVER_SAID, r'gmv_driver: started: .*')),
    fault(13, 'kill -9 of the sender', functools.partial(wrong.killed, end='sender'), 'sr',
          '^critical: sender: no driver runs', NOBODY_CALLS,
          said(SENDER, 'no driver runs', 'killed', 'without `stopped`', 'start'),
          last_line(SENDER_SAID, r'gmv_driver: started: .*')),
    fault(14, 'a byte FC in the spool', wrong.forbidden_byte, 's', 'sender: (.*; )?2 files refused',
          said(SENDER_SAID, r'gmv_driver: 000004 is refused by 3$', 'accent', 'refused file', row=by_number),
          said(SENDER_SAID, r'gmv_driver: 000005 is refused by 10$', 'wrong number|not the next', row=by_number)),
    fault(15, 'D 128 at the receiver', wrong.short_limit_at_receiver, 'sr', 'sender: gave up.*by 4: too long',
          said(SENDER, GAVE_UP, REFUSES),
          said(RECEIVER, BLOCKS_REFUSED + '4: too long', 'data.limit', row=by_number),
          said(RECEIVER, r'the last refused block was refused by 4 \(too long\)', 'data.limit', 'sheet', row=by_number),
          said(RECEIVER, r'settings: .*data limit 128.*', 'sheet', 'data.limit')),
    fault(16, 'D 128 at the sender', wrong.short_limit_at_sender, 's', 'sender: (.*; )?2 files refused',
          said(SENDER_SAID, r'gmv_driver: 000004 is refused by 4$', 'data.limit', 'sheet', row=by_number),
          said(SENDER, r'settings: .*data limit 128.*', 'sheet', 'data.limit')),
    fault(17, 'MSH^ in answers', functools.partial(wrong.other_separator, changed_way=TO_SENDER), 's',
          'sender: .*answers refused .*the last by 9: no readable header',
          said(SENDER, r'\d+ answers refused since the last delivery, the last by 9: no readable header', 'MSH',
               'separator', 'PEERS', row=by_number)),
    fault(18, 'MSH^ in requests', functools.partial(wrong.other_separator, changed_way=TO_RECEIVER), 'sr',
          'receiver: .*blocks refused .*the last by 9: no readable header', said(SENDER, GAVE_UP, REFUSES),
          said(RECEIVER, BLOCKS_REFUSED + '9: no readable header', 'MSH', 'PEERS', row=by_number)),
    fault(19, 'MSA-2 not echoed', wrong.no_echo, 's', r'sender: .*answers to something else since the last delivery',
          said(SENDER, r'\d+ answers to something else since the last delivery', 'echo', 'PEERS')),
    fault(20, 'old answers after a handover', functools.partial(wrong.slot_7, changes_hands=wrong.both_made_anew), '',
          '^critical: .*THE BOOKS DIFFER',
          said(PAIR, 'books: first number 1, delivered up to 13, submitted up to 13; expected 14, stored 12'),
          *FIRST_ONE_LOST, lost=(0,)),
    fault(21, 'the receiver back from a backup', wrong.receiver_from_backup, 'sr',
          '^critical: sender: frozen.*THE BOOKS DIFFER', NOBODY_CALLS_ANY_MORE,
          said(PAIR, ON_ZERO, 'backup', 'disk', row=MARK_OR_LESS), never_said(PAIR, NUMBER_TAKEN),
          said(PAIR, r'books: 304 to 306 marked delivered and not stored', 'backup'), lost=(3, 4, 5)),
    fault(22, 'the clock of a receiver jumps by an hour', wrong.clock_ahead, '', None),
    fault(23, 'a name of 255 bytes, a good message', wrong.good_long_name, '', None),
    fault(24, 'a name of 255 bytes, a bad message', wrong.bad_long_name, 's', 'sender: (.*; )?1 file refused',
          said(SENDER_SAID, r'gmv_driver: 000004x+ is refused by 9$', 'MSH', 'refused file', row=by_number)),
    fault(25, 'an empty file in the spool', wrong.empty_file, '', None,
          said(PAIR, '1 empty file refused, see refused/', 'empty')),
    fault(26, 'a folder in the spool', wrong.folder_in_spool, '', None),
    fault(27, 'noise on a hybrid line', wrong.noise, 'sr',
          r'sender: no circuit .*: the terminal server has made no new link; gave up 1 time since',
          said(SENDER, r'no circuit for \d+ s: the terminal server has made no new link', 'terminal server'),
          said(SENDER_SAID, r'gmv_driver: waited on \d+ and gave up after 4 sends, the circuit ended', 'noise'),
          said(RECEIVER, r'the last refused block was refused by \d \([a-z ]+\)', 'noise|bad line', row=by_number)),
    # Beyond the 27: a count that is wrong and well formed; fault 20 at a receiver that was handed over as it was; disks
    # that are slow, hang, or are full for a while; and what all others are compared with.
    fault(28, "the receiver's state, a forged count", wrong.forged_count, 'sr',
          '^critical: .*receiver: .*a file at position 3, and 1 transaction stored', FAR_DRIVER_DOWN,
          said(RECEIVER, r'a file at position 3, and 1 transaction stored', 'older|wrong', 'backup|hand'),
          said(RECEIVER_SAID, r'gmv_driver: \S+003\.hl7 is there, and the state counts 1: nothing is written over',
               'older|wrong', 'backup', 'hand')),
    fault(30, 'old answers after a handover, and the old receiver purged',
          functools.partial(wrong.slot_7, changes_hands=wrong.receiver_kept), 'r', '^critical: .*THE BOOKS DIFFER',
          said(PAIR, 'books: first number 1, delivered up to 13, submitted up to 13; expected 14, stored 13'),
          said(PAIR, 'books: the expected number says that 13 are stored, and since the last -1 there are 12', 'slot 7', 'handed over'),
          *FIRST_ONE_LOST, lost=(0,)),
    fault(31, 'the disk full at the receiver for a while', wrong.full_disk_for_a_while, '', None,
          said(RECEIVER_SAID, r'gmv_driver: there is room again: transaction \d+ is stored, after \d+ failures?', 'lost')),
    fault(32, 'a slow disk at the receiver', wrong.slow_disk, '', None),
    fault(33, 'a disk at the receiver that hangs', wrong.hanging_disk, 'sr',
          r'receiver: the driver has not turned for \d+ s; transaction \d+ waits for the disk for \d+ s',
          said(SENDER, GAVE_UP, 'never answers|does not answer'),
          said(RECEIVER, r'transaction \d+ waits for the disk for \d+ s', 'disk', 'nothing is lost'),
          said(RECEIVER, r'deciding on transaction \d+: not stored yet', 'disk')),
    fault(29, 'no fault', wrong.nothing, '', None)]


# ---- the manual


Row = collections.namedtuple('Row', 'section cells')


class Manual:
    """The page's tables, and its round."""

    def __init__(self, page):
        self.page, self.rows, section = page, [], ''
        for line in page.splitlines():
            if line.startswith('#'):
                section = line.lstrip('# ')
            elif line.startswith('|'):
                self.rows.append(Row(section, [cell.strip() for cell in re.split(r'(?<!\\)\|', line)[1:-1]]))

    def rows_of(self, sentence):
        """Those whose first cell has the sentence, with '..' for its values; the one with most words first."""
        found = []
        for row in self.rows:
            for quoted in re.findall('`([^`]+)`', row.cells[0]):
                words = unnamed(quoted).replace('\\|', '|').split('..')
                if re.fullmatch('.+'.join(map(re.escape, words)), unnamed(sentence)):
                    found.append((sum(map(len, words)), row))
        return [row for _, row in sorted(found, key=lambda pair: -pair[0])]

    def without(self, rows):
        other = Manual('')
        other.rows = [row for row in self.rows if row not in rows]
        return other

    def round(self):
        """The first command of the first console block of the section; None where there is none."""
        section = re.search(r'(?ms)^### The round$(.*?)(?=^#{1,3} |\Z)', self.page)
        block = section and re.search(r'(?ms)^```console$(.*?)^```$', section[1])
        command = block and re.search(r'(?m)^\$ (.*)$', block[1])
        return command and command[1]


def unnamed(sentence):
    """Without the program's name."""
    return re.sub('^gmv_driver: ', '', sentence)


# ---- the judgement of what was looked at


def unshown(one, look):
    """What the round and the read-outs of the two ends do not show of a fault, or show where there is none."""
    line, found = look['round'], []
    if one.reason is None:
        return ['it is harmless, and %s says: %s' % (where, look[where]) for where in ('round', PAIR, SENDER, RECEIVER)
                if look[where].splitlines()[:1] != ['good']]
    if not re.match('(warning|critical|unknown): ', line):
        found.append('the round does not show it: %s' % line)
    elif not re.search(one.reason, line):
        found.append('the round does not give the reason: %s' % line)
    for end, where in (('s', SENDER), ('r', RECEIVER)):
        if end in one.alone and not re.match('(warning|critical|unknown): ', look[where]):
            found.append('the %s alone does not show it: %s' % (where, look[where]))
    return found


def printed(cause, look):
    """The cause's sentence as it was printed, or None."""
    found = re.search('(?m)' + cause.sentence.replace('STRAY', re.escape(look['stray'])), look[cause.where])
    return found and found[0]


def unsaid(one, look):
    """Sentences that lead to the cause and were not printed."""
    return ['%s does not say: %s' % (cause.where, cause.sentence) for cause in one.causes
            if printed(cause, look) is None]


def unexplained(one, look, manual):
    """What the manual does not say of a sentence that was printed."""
    found = []
    for cause in one.causes:
        sentence = printed(cause, look)
        if sentence is None or cause.row is None:
            continue
        cells = cause.row(manual, sentence)
        if cells is None:
            found.append('the manual has no row for (%s): %s' % (cause.where, sentence))
            continue
        found += ['the manual does not say /%s/ of (%s): %s' % (word, cause.where, sentence) for word in cause.words
                  if not re.search(word, ' | '.join(cells), re.IGNORECASE)]
    return found


# ---- the harm, by the bytes that were spooled


# What is on both disks: the words of the two states (None: damaged), the log by number, the transactions by position.
Stored = collections.namedtuple('Stored', 'sender receiver log transactions')
Harm = collections.namedtuple('Harm', 'lost twice strange books')


def numbered_files(folder):
    return {int(name[:-4]): read(folder, name) for name in os.listdir(folder) if re.fullmatch(r'\d+\.hl7', name)}


def stored_by(link):
    try:
        receiver = link.state('r')
    except Violation:
        receiver = None
    return Stored(link.state('s'), receiver, numbered_files(link.path('s', 'log')),
                  numbered_files(link.path('r', 'transactions')))


def harm_of(first, spooled, stored):
    """What is lost of that which the sender takes for delivered, what is there twice, how many are not ours; and
    what is to be said of the books."""
    present, delivered = collections.Counter(stored.transactions.values()), stored.sender['delivered']
    lost = tuple(number - first for number in range(first, delivered + 1) if not present[spooled[number]])
    twice = tuple(number - first for number, data in spooled.items() if present[data] > 1)
    strange = sum(data not in spooled.values() for data in stored.transactions.values())
    if stored.receiver is None:
        return Harm(lost, twice, strange, 'not compared')
    return Harm(lost, twice, strange, 'agree' if agree(first, spooled, stored) else 'differ')


def agree(first, spooled, stored):
    """The receiver has the first k that were spooled, at the positions 1 to k, and says so; the sender's mark covers
    k or one less; and the log has all up to its last number."""
    k, covered = stored.receiver['stored'], stored.sender['delivered'] - first + 1
    return (stored.transactions == {index + 1: spooled.get(first + index) for index in range(k)} and
            covered <= k <= covered + 1 and (stored.receiver['expected'] == first + k or k == 0) and
            stored.log == {number: spooled.get(number) for number in range(first, stored.sender['last'] + 1)})


def books_said(pair):
    """What linkstatus said of them."""
    if 'THE BOOKS DIFFER' in pair or 'books: THEY DIFFER' in pair:
        return 'differ'
    return 'agree' if 'books: they agree' in pair else 'not compared'


def books_lines(pair):
    return ' | '.join(line for line in pair.splitlines() if line.startswith('books: '))


def lost_said(pair, first):
    """The numbers that linkstatus calls lost, counted from the first."""
    found = re.search('(?m)^books: (.*) marked delivered and not stored$', pair)
    spans = [part.split(' to ') for part in found[1].split(', ')] if found else []
    return tuple(number - first for span in spans for number in range(int(span[0]), int(span[-1]) + 1))


def harm_problems(one, first, harm, pair):
    """Whether what happened is what this fault does, and linkstatus found the same and no more."""
    if harm[:3] != (one.lost, (), one.strange):
        yield 'lost, twice, strange: %s %s %d' % harm[:3]
    if harm.books != books_said(pair):
        yield 'the books: %s, and linkstatus found: %s' % (harm.books, books_said(pair))
    if lost_said(pair, first) != harm.lost:
        yield 'lost are %s, and linkstatus says: %s' % ([first + at for at in harm.lost], books_lines(pair))
    if len(re.findall('it is another message', pair)) != harm.strange:
        yield 'strange are %d, and linkstatus says: %s' % (harm.strange, books_lines(pair))


# ---- the judgement is judged: no program runs for this


def unmissed(looks, manual):
    """Faults that would not be found out: with a healthy link's looks in their place; with a faulty one's in a
    harmless one's; with the manual's row taken away."""
    good, bad = looks[FAULTS[-1].number], looks[FAULTS[0].number]
    for one in FAULTS:
        seen = unshown(one, good if one.reason else bad)
        wanted = 'the round does not show it' if one.reason else 'it is harmless, and round'
        if not any(words.startswith(wanted) for words in seen):
            yield '%d is not missed: %s' % (one.number, seen)
        if one.reason and not unsaid(one, good):
            yield '%d: a healthy link says all that leads to its cause' % one.number
        for cause in one.causes:
            rows = manual.rows_of(printed(cause, looks[one.number]) or '')
            lacks = unexplained(one._replace(causes=[cause]), looks[one.number], manual.without(rows))
            if rows and cause.row and not lacks:
                yield '%d: that the manual has no row is not missed: %s' % (one.number, cause.sentence)


def unmissed_harm(night, harms, pairs):
    """Links whose harm would not be found out where linkstatus said of it what it says of a healthy one."""
    good = pairs[FAULTS[-1].number]
    for one in FAULTS:
        if harms[one.number].books != 'agree' and not list(
                harm_problems(one, night.links[one.number].first, harms[one.number], good)):
            yield '%d is not missed' % one.number


def unseen_harm():
    """Damage to a small link that is not seen, or harm where there is none."""
    spooled = {number: report(number, 'lab') for number in range(5, 9)}
    held = {position: spooled[position + 4] for position in range(1, 5)}
    good = Stored({'delivered': 8, 'last': 8}, {'expected': 9, 'stored': 4}, dict(spooled), held)
    for stored, harm in [
            (good, Harm((), (), 0, 'agree')),
            (good._replace(sender={'delivered': 7, 'last': 8}), Harm((), (), 0, 'agree')),
            (good._replace(sender={'delivered': 6, 'last': 8}), Harm((), (), 0, 'differ')),
            (good._replace(log={**spooled, 5: b'x'}), Harm((), (), 0, 'differ')),
            (good._replace(transactions={1: held[1], 2: held[2], 3: held[3]}), Harm((3,), (), 0, 'differ')),
            (good._replace(transactions={**held, 5: held[4]}), Harm((), (3,), 0, 'differ')),
            (good._replace(transactions={**held, 2: b'x'}), Harm((1,), (), 1, 'differ')),
            (good._replace(transactions={**held, 1: held[2], 2: held[1]}), Harm((), (), 0, 'differ')),
            (good._replace(receiver={'expected': 8, 'stored': 4}), Harm((), (), 0, 'differ')),
            (good._replace(receiver={'expected': 9, 'stored': 3}), Harm((), (), 0, 'differ')),
            (good._replace(receiver=None), Harm((), (), 0, 'not compared'))]:
        if harm_of(5, spooled, stored) != harm:
            yield '%s in place of %s' % (harm_of(5, spooled, stored), harm)


# ---- the night


def together(tasks, seconds):
    """Goes on with all generators at once, each when its fact is there. Returns those that did not come to their
    end, with what was wrong."""
    limit, problems = time.monotonic() + seconds, {}
    waiting = {name: (task, lambda: True) for name, task in tasks.items()}
    while waiting and time.monotonic() < limit:
        for name, (task, fact) in list(waiting.items()):
            try:
                if fact():
                    waiting[name] = task, next(task)
            except StopIteration:
                del waiting[name]
            except (OSError, AssertionError, Violation) as problem:
                problems[name] = repr(problem)
                del waiting[name]
        time.sleep(0.005)
    problems.update((name, 'not in time') for name in waiting)
    return problems


class Night:
    """The folder with all links."""

    def __init__(self, programs, folder):
        self.programs, self.folder, self.ports = os.path.abspath(programs), os.path.abspath(folder), set()
        self.driver = os.path.join(self.programs, 'gmv_driver')
        os.mkdir(folder)
        for name in ('night', 'slow'):
            subprocess.run(['gcc', '-shared', '-fPIC', '-O1', '-Wall', '-Wextra', '-Werror', '-o', self.path(name + '.so'),
                            os.path.join(HERE, name + '.c'), '-ldl'], check=True)
        self.links = {one.number: Link(self, one.number) for one in FAULTS}
        with open(self.path('links'), 'w', encoding='ascii') as file:
            file.writelines('%s %s\n' % (link.sender.folder, link.receiver.folder) for link in self.links.values())

    def path(self, *parts):
        return os.path.join(self.folder, *parts)

    def free_port(self):
        """Below those that callers are given, so that no caller has it when a receiver restarts."""
        while True:
            port = random.SystemRandom().randrange(20000, 30000)
            try:
                socket.create_server(('127.0.0.1', port)).close()
            except OSError:
                continue
            if port not in self.ports:
                self.ports.add(port)
                return port

    def said(self, end):
        path = self.path(end + '.said')
        return read(path).decode(errors='replace') if os.path.exists(path) else ''

    def tell(self, *words):
        """What a command prints in this folder."""
        done = subprocess.run(words, cwd=self.folder, stdin=subprocess.DEVNULL, timeout=60, check=False,
                              stdout=subprocess.PIPE, stderr=subprocess.STDOUT,
                              env=dict(os.environ, PATH=self.programs + ':' + os.environ['PATH']))
        return done.stdout.decode(errors='replace')

    def linkstatus(self, *ends):
        return self.tell(os.path.join(self.programs, 'linkstatus'), *(end.folder for end in ends))

    # ---- what the operator does

    def go_round(self, command):
        """The line of each sender."""
        return dict(line.split(' ', 1) for line in self.tell('bash', '-c', command).splitlines() if ' ' in line)

    def look(self, number, line):
        """The link's line of the round, and what else the manual tells to look at."""
        link = self.links[number]
        return {'round': line, PAIR: self.linkstatus(link.sender, link.receiver), SENDER: self.linkstatus(link.sender),
                RECEIVER: self.linkstatus(link.receiver), SENDER_SAID: self.said(link.sender.folder),
                RECEIVER_SAID: self.said(link.receiver.folder), 'stray': link.stray}

    def look_until_shown(self, command):
        """Some things are shown only after a time. Returns the looks, and what of each fault they do not show."""
        limit = time.monotonic() + SHOWING
        while True:
            lines = self.go_round(command)
            looks = {number: self.look(number, lines.get(link.sender.folder, 'no line'))
                     for number, link in self.links.items()}
            lacks = {one.number: unshown(one, looks[one.number]) + unsaid(one, looks[one.number]) for one in FAULTS}
            if not any(lacks.values()) or time.monotonic() > limit:
                return looks, lacks
            time.sleep(4 * PAUSE)

    def look_again(self, lacks):
        """Where a sender goes on trying, what was shown once is shown each time. (Its reason may change.)"""
        for _ in range(LOOKS):
            time.sleep(PAUSE)
            for one in FAULTS:
                link = self.links[one.number]
                if QUICK[0] in link.sender.words and not lacks[one.number]:
                    pair = self.linkstatus(link.sender, link.receiver)
                    look = {'round': pair.splitlines()[0], SENDER: self.linkstatus(link.sender),
                            RECEIVER: self.linkstatus(link.receiver)}
                    lacks[one.number] = ['and later ' + words for words in unshown(one._replace(reason=''), look)]

    # ---- before and after

    def inject(self):
        return together({one.number: one.inject(self.links[one.number]) for one in FAULTS}, INJECTING)

    def stop(self):
        ends = [end for link in self.links.values() for end in (link.sender, link.receiver) if not end.has_ended()]
        for end in ends:
            end.goes_on()
        for link in self.links.values():
            link.disk_goes_on()
        return together({end.folder: end.stops() for end in ends}, STOPPING)

    def clock_problem(self):
        """A clock that was not ahead would prove nothing."""
        number = next(one.number for one in FAULTS if one.inject is wrong.clock_ahead)
        last = self.said(self.links[number].receiver.folder).splitlines()[-1]
        ahead = time.mktime(time.strptime(last[:19], '%Y-%m-%d %H:%M:%S')) - time.time()
        return None if 3000 < ahead < 4000 else 'the clock was ahead by %d s: %s' % (ahead, last)

    def close(self):
        for link in self.links.values():
            link.close()


def joined(problems):
    return '; '.join(dict.fromkeys(problems)) or None


def run(programs, folder, page):
    """All of it. Returns each test's name and what is wrong, or None."""
    manual, night = Manual(read(page).decode()), Night(programs, folder)
    try:
        late = night.inject()
        looks, lacks = night.look_until_shown(manual.round())
        night.look_again(lacks)
        stays = night.stop()
        harms = {number: harm_of(link.first, link.spooled, stored_by(link)) for number, link in night.links.items()}
        pairs = {number: night.linkstatus(link.sender, link.receiver) for number, link in night.links.items()}
    finally:
        night.close()
    found = []
    for one in FAULTS:
        problems = ['not injected: ' + late[one.number]] if one.number in late else []
        problems += lacks[one.number] + unexplained(one, looks[one.number], manual)
        for pair in (looks[one.number][PAIR], pairs[one.number]):
            problems += harm_problems(one, night.links[one.number].first, harms[one.number], pair)
        found.append(('night: %d, %s' % (one.number, one.words), joined(problems)))
    return found + [
        ('night: the round is in the manual', None if manual.round() else 'there is no section "### The round"'),
        ('night: all ends stop', joined(map(str, stays.items()))),
        ('night: the clock was ahead', night.clock_problem()),
        ('night: what is not shown or not in the manual is missed', joined(unmissed(looks, manual))),
        ('night: books that linkstatus gets wrong are missed', joined(unmissed_harm(night, harms, pairs))),
        ('night: harm is seen', joined(unseen_harm()))]
