"""linkstatus: each sentence, over folders made by hand; and the books of pairs."""

import fcntl
import os
import re
import subprocess
import time

from ends import check_line

FRESH = 'first 1\ndelivered 0\nlast 0\nresynchronized 0\nfrozen 0\n'
NO_ACT = ('act_send 0\nact_send_number 0\nact_sends 0\nact_event 0\nact_delivered 0\nact_code 0\nact_block 0\n'
          'act_forbidden_offset 0\n')
SETTINGS = 'minimal-connect 127.0.0.1:1, data limit 4096'


def checked(body):
    return body + check_line(body.encode()).decode() + 'end\n'


def state(words, more=''):
    return checked('giamuvich sender 2\n' + words + more)


def running(is_open, seconds=0, turned=0, hung_up=(0, 0), called=(0, 0)):
    """What a driver shows of itself. AGO becomes a time when it is written."""
    return ('process 4711\nturned AGO(%d)\ncircuit_open %d\nsince AGO(%d)\nhung_up %d\nhung_up_at AGO(%d)\n'
            'called %d\ncalled_at AGO(%d)\nsettings %s\npeer %s\n' % (
                (turned, is_open, seconds) + hung_up + called + (
                    SETTINGS, '127.0.0.1:2' if is_open else 'Connection refused')))


def live(words, waiting, sends, act=NO_ACT, more='', circuits=1, given_up=0, since=(0, 0, 0, 0), errors=(0, 0), **shown):
    names = ('given_up_since', 'refused_since', 'last_refused', 'dropped_since', 'errors', 'last_error')
    counted = ''.join('%s %d\n' % pair for pair in zip(names, since + errors))
    return 'giamuvich sender live 2\n%swaiting %d\nsends %d\n%scircuits %d\ngiven_up %d\n%s%s%send\n' % (
        words, waiting, sends, act, circuits, given_up, counted, running(waiting != 0, **shown), more)


def words(first, delivered, last, resynchronized, frozen=0):
    return 'first %d\ndelivered %d\nlast %d\nresynchronized %d\nfrozen %d\n' % (
        first, delivered, last, resynchronized, frozen)


def act(event, delivered=0, code=0, sends=0, block=0):
    return ('act_send 0\nact_send_number 0\nact_sends %d\nact_event %d\nact_delivered %d\nact_code %d\nact_block %d\n'
            'act_forbidden_offset 0\n' % (sends, event, delivered, code, block))


def froze(waited, code, control_id, expected):
    return 'waited %s\ncode %s\ncontrol_id %s\nexpected %s\n' % (waited, code, control_id, expected)


def receiver_words(expected, stored, cleared=(0, 0)):
    return 'expected %d\nstored %d\ncleared %d\ncleared_after %d\n' % ((expected, stored) + cleared)


def receiver(expected, stored, cleared=(0, 0)):
    return checked('giamuvich receiver 2\n' + receiver_words(expected, stored, cleared))


def decision(code=0, number=0, transaction=0, new_expected=0, control_id=''):
    """The words of the open decision."""
    places = control_id.encode().ljust(24, b'\0')
    return 'code %d\nnumber %d\ntransaction %d\nnew_expected %d\ncontrol_id_length %d\n%s' % (
        code, number, transaction, new_expected, len(control_id), ''.join('control_id_%d %d\n' % (
            index + 1, int.from_bytes(places[8 * index:8 * index + 8], 'little')) for index in range(3)))


NO_DECISION = decision()


def on_transaction(number):
    return decision(1, number, number, number + 1, str(number))


ON_MINUS_ONE = decision(1, 0, 0, 0, '-1')


def receiver_live(expected, stored, counted, cleared=(0, 0), decided=NO_DECISION):
    return 'giamuvich receiver live 3\n%s%s%send\n' % (receiver_words(expected, stored, cleared), decided, counted)


def counts(circuits, blocks, refused, last_refused, is_open, rejected=0, since=(0, 0), wrong=0, cleared=0,
           unstored=(0, 0, 0, ''), **shown):
    return ('circuits %d\nblocks %d\nrefused %d\nlast_refused %d\nrejected %d\nrefused_since %d\nrejected_since %d\n'
            'wrong_at AGO(%d)\ncleared_since %d\nunstored %d\nunstored_since %d\nunstored_at AGO(%d)\n'
            'unstored_reason %s\n' % (
                (circuits, blocks, refused, last_refused, rejected) + since + (wrong, cleared) + unstored) +
            running(is_open, **shown))


def not_delivered(submitted, spool=0, refused=0):
    count = submitted + spool + refused
    return '%d not delivered: %d submitted, %d in spool/, %d in refused/%s' % (
        count, submitted, spool, refused, ', the oldest for 0 s' if count else '')


def shown(is_open=True, seconds=0):
    """The lines on the driver itself."""
    return ['process 4711, last turned %d s ago' % seconds, 'settings: ' + SETTINGS,
            'peer: 127.0.0.1:2' if is_open else 'no peer: Connection refused']


MIDDLE = words(1, 16, 19, 1)


def middle_said(spool=0, refused=0, empty=()):
    return ['delivered up to 16 (first number 1)', not_delivered(3, spool, refused), *empty,
            'the next number to submit is 20', 'resynchronized with the receiver']


MIDDLE_SAID = middle_said()
FRESH_SAID = ['nothing delivered yet (first number 1)', not_delivered(0), 'the next number to submit is 1',
              'not yet resynchronized with the receiver']
FROZEN = words(1, 16, 19, 1, 1)
FROZEN_DETAILS = froze('17', 'AR', '17', '19')
ONE_CIRCUIT = ['1 circuit opened since the driver started, gave up 0 times']
MISSING = object()  # locked, and no live file
STUCK = object()  # the same, and the lock was taken 37 seconds ago
LOOP = object()  # no lock that can be opened, not even by root
MUST = '; an operator must reset it'
R_FROZEN = 'frozen: do not reset before the books are compared'
NO_DRIVER = 'sender: no driver runs on this folder, no circuit open'
WAITS = 'sender: waiting for the answer to transaction 17, sent %s on this circuit'
STOPPED = 'critical: no driver runs'
ANY = 'receiver: expects any number (nothing stored since it was resynchronized), %d transactions stored'
TWO_BLOCKS = '2 blocks read on 1 circuit since the driver started, 0 refused, 0 answered AR'
NO_ROOM = 'No space left on device'
UNSTORED = 'critical: %s not stored since the last that was: ' + NO_ROOM
NOT_STORED, IN_STATE = ('deciding on %s: not stored yet', 'deciding on %s: in the state, not answered yet')
IS_SENDER = ["critical: FOLDER/state has words that are no sender's state"]
DAMAGED = ['critical: FOLDER/state is damaged']


def frozen_case(name, waited, code, control_id, expected, said):
    more = froze(waited, code, control_id, expected)
    return (name, state(FROZEN, more), None,
            ['critical: %s; no driver runs' % R_FROZEN, 'sender: frozen: ' + said + MUST] + MIDDLE_SAID, 2)


def waiting_case(name, verdict, more, **with_live):
    """A sender in the middle that waits on 17."""
    return (name, state(MIDDLE), live(MIDDLE, 4, 1, **with_live),
            [verdict, WAITS % '1 time'] + MIDDLE_SAID + ONE_CIRCUIT + more + shown(), 1 if verdict != 'good' else 0)


def receiving_case(name, verdict, expected, stored, blocks, more, cleared=(0, 0), **with_counts):
    circuits, read, refused, last, rejected = blocks
    sentence = '%d blocks read on %d circuits since the driver started, %d refused, %d answered AR' % (
        read, circuits, refused, rejected)
    return (name, receiver(expected, stored, cleared),
            receiver_live(expected, stored, counts(circuits, read, refused, last, 1, rejected, **with_counts), cleared),
            [verdict, 'receiver: expects %d, %d transactions stored' % (expected, stored)] +
            (['the last -1 took the expected number %d away, after %d transactions' % cleared] if cleared[0] else []) +
            ['a circuit is open', sentence] + more + shown(), 1 if verdict != 'good' else 0)


def storing_case(name, verdict, stored, live_text, fact, turned=0):
    """A receiver with something to store: what the state has, and what the driver shows of it."""
    expected, count = stored
    expects = 'receiver: expects %d, %d transactions stored' % stored if expected else ANY % count
    return (name, receiver(expected, count), live_text, [verdict, expects, *fact, 'a circuit is open', TWO_BLOCKS] +
            shown(seconds=turned), {'good': 0, 'warning': 1, 'critical': 2}[verdict.split(':')[0]])


def deciding_case(name, verdict, stored, words, decided=None, turned=0):
    """A driver that expects 5, has 4 stored, and decides on 5 or on -1."""
    return storing_case(name, verdict, stored, receiver_live(
        5, 4, counts(1, 2, 0, 0, 1, turned=turned), decided=decided or on_transaction(5)), words, turned)


def full_case(name, verdict, since, ago, count=3):
    return storing_case(name, verdict, (5, 4), receiver_live(
        5, 4, counts(1, 2, 0, 0, 1, unstored=(count, since, ago, NO_ROOM))), [
            '%d request%s not stored since the driver started, the last one %d s ago: %s' % (
                count, '' if count == 1 else 's', ago, NO_ROOM)])


# The case, FOLDER/state, FOLDER/live where a driver runs, what is said, the exit status; the files of FOLDER/refused.
CASES = [
    ('a new sender, no driver', state(FRESH), None, [STOPPED, NO_DRIVER] + FRESH_SAID, 2),
    ('a new sender, no circuit', state(FRESH), live(FRESH, 0, 0),
     ['good', 'sender: no circuit open'] + FRESH_SAID + ONE_CIRCUIT + shown(False), 0),
    ('no circuit for long', state(FRESH), live(FRESH, 0, 0, seconds=12),
     ['warning: no circuit for 12 s: Connection refused', 'sender: no circuit open'] + FRESH_SAID + ONE_CIRCUIT +
     shown(False), 1),
    ('a driver that hangs', state(MIDDLE), live(MIDDLE, 4, 2, turned=37),
     ['critical: the driver has not turned for 37 s', WAITS % '2 times'] + MIDDLE_SAID + ONE_CIRCUIT +
     shown(seconds=37), 2),
    ('a driver that turned lately', state(MIDDLE), live(MIDDLE, 4, 2, turned=6),
     ['good', WAITS % '2 times'] + MIDDLE_SAID + ONE_CIRCUIT + shown(seconds=6), 0),
    ('waits on -1', state(FRESH), live(FRESH, 2, 1),
     ['good', 'sender: waiting for the answer to -1 (resynchronizing), sent 1 time on this circuit'] + FRESH_SAID +
     ONE_CIRCUIT + shown(), 0),
    ('waits on 0', state(MIDDLE), live(MIDDLE, 3, 4),
     ['good', 'sender: waiting for the answer to 0 (which number is expected), sent 4 times on this circuit'] +
     MIDDLE_SAID + ONE_CIRCUIT + shown(), 0),
    ('waits on a transaction', state(MIDDLE), live(MIDDLE, 4, 2),
     ['good', WAITS % '2 times'] + MIDDLE_SAID + ONE_CIRCUIT + shown(), 0),
    ('no driver in the middle', state(MIDDLE), None, [STOPPED, NO_DRIVER] + MIDDLE_SAID, 2),
    ('nothing waits', state(words(5, 9, 9, 1)), live(words(5, 9, 9, 1), 1, 0),
     ['good', 'sender: a circuit is open and nothing waits', 'delivered up to 9 (first number 5)',
      not_delivered(0), 'the next number to submit is 10', 'resynchronized with the receiver'] +
     ONE_CIRCUIT + shown(), 0),
    ('no number left', state(words(999999999999998, 999999999999997, 999999999999998, 1)), None,
     [STOPPED + '; no number is left', NO_DRIVER, 'nothing delivered yet (first number 999999999999998)',
      not_delivered(1), 'no number is left to submit', 'resynchronized with the receiver'], 2),
    waiting_case('delivered with AA', 'good', ['last act: 16 is delivered, AA'], act=act(1, 16, 1, 1)),
    waiting_case('delivered with AE', 'good', ['last act: 16 is delivered, AE'], act=act(1, 16, 2, 1)),
    waiting_case('delivered, verdict unknown', 'good', ["last act: 16 is delivered, the application's verdict is unknown"],
                 act=act(1, 16, 0, 1)),
    ('gave up', state(MIDDLE), live(MIDDLE, 0, 0, act(2, sends=4), circuits=5, given_up=1, since=(1, 0, 0, 0)),
     ['warning: gave up 1 time since the last delivery', 'sender: no circuit open'] + MIDDLE_SAID +
     ['5 circuits opened since the driver started, gave up 1 time',
      'last act: gave up after 4 sends, the circuit ended'] + shown(False), 1),
    ('gave up, and delivered since', state(MIDDLE), live(MIDDLE, 4, 1, act(1, 16, 1, 1), circuits=5, given_up=1),
     ['good', WAITS % '1 time'] + MIDDLE_SAID + ['5 circuits opened since the driver started, gave up 1 time',
                                                 'last act: 16 is delivered, AA'] + shown(), 0),
    ('gave up after one', state(MIDDLE),
     live(MIDDLE, 0, 0, act(2, sends=1, block=7), circuits=9, given_up=9, since=(9, 9, 7, 0)),
     ['warning: gave up 9 times since the last delivery; 9 answers refused since the last delivery, the last by 7: wrong '
      'checksum', 'sender: no circuit open'] + MIDDLE_SAID + [
          '9 circuits opened since the driver started, gave up 9 times',
          'last act: a block was refused by 7 (wrong checksum)', 'last act: gave up after 1 send, the circuit ended'] +
     shown(False), 1),
    waiting_case('one answer refused', 'good', [], since=(0, 1, 7, 0)),
    waiting_case('one answer dropped', 'good', ['last act: an answer to something else was dropped'], act=act(4, sends=1),
                 since=(0, 0, 0, 1)),
    waiting_case('two answers dropped', 'warning: 2 answers to something else since the last delivery',
                 ['last act: an answer to something else was dropped'], act=act(4, sends=1), since=(0, 0, 0, 2)),
    waiting_case('hung up twice', 'good', [], hung_up=(2, 0)),
    waiting_case('hung up thrice', 'warning: 3 circuits soon ended by the peer', [], hung_up=(3, 0)),
    waiting_case('hung up thrice, long ago', 'good', [], hung_up=(3, 301)),
    waiting_case("two callers at a sender", 'warning: 2 circuits ended by a new caller', [], called=(2, 0)),
    waiting_case('answered AE', 'good', ['2 transactions answered AE since the driver started, the last was 16',
                                         'last act: 16 is delivered, AE'], act=act(1, 16, 2, 1), errors=(2, 16)),
    frozen_case('frozen on AR', '17', 'AR', '17', '19', 'waited on 17 and got AR 19 for control ID 17'),
    frozen_case('frozen on AE', '17', 'AE', '17', '16', 'waited on 17 and got AE 16 for control ID 17'),
    frozen_case('frozen on 0', '0', 'AA', '0', '25', 'waited on 0 and got AA 25 for control ID 0'),
    frozen_case('frozen on another code', '17', 'CA x', '17', '',
                'waited on 17 and got CA x without a number for control ID 17'),
    frozen_case('frozen on no code', '17', '', '17', '17', 'waited on 17 and got no code 17 for control ID 17'),
    ('frozen on -1', state(words(1, 0, 2, 0, 1), froze('-1', 'AR', '-1', '3')), None,
     ['critical: %s; no driver runs' % R_FROZEN, 'sender: frozen: waited on -1 and got AR 3 for control ID -1' + MUST,
      'nothing delivered yet (first number 1)', not_delivered(2), 'the next number to submit is 3',
      'not yet resynchronized with the receiver'], 2),
    ('frozen, the driver runs', state(FROZEN, FROZEN_DETAILS),
     live(FROZEN, 0, 0, act(3), FROZEN_DETAILS, seconds=99),
     ['critical: ' + R_FROZEN, 'sender: frozen: waited on 17 and got AR 19 for control ID 17' + MUST] + MIDDLE_SAID +
     ONE_CIRCUIT + shown(False), 2),
    ('a receiver with none', receiver(0, 0), None, [STOPPED, ANY % 0, 'no driver runs on this folder'], 2),
    ('a receiver that expects', receiver(18, 17), None,
     [STOPPED, 'receiver: expects 18, 17 transactions stored', 'no driver runs on this folder'], 2),
    ('a receiver that runs', receiver(2, 1), receiver_live(2, 1, counts(1, 2, 0, 0, 1)),
     ['good', 'receiver: expects 2, 1 transaction stored', 'a circuit is open',
      '2 blocks read on 1 circuit since the driver started, 0 refused, 0 answered AR'] + shown(), 0),
    ('a receiver without a circuit', receiver(0, 5), receiver_live(0, 5, counts(3, 9, 2, 8, 0, 4, seconds=11)),
     ['warning: no circuit for 11 s: Connection refused', ANY % 5, 'no circuit open',
      '9 blocks read on 3 circuits since the driver started, 2 refused, 4 answered AR',
      'the last refused block was refused by 8 (a block began inside it)'] + shown(False), 1),
    ('a receiver that hangs', receiver(2, 1), receiver_live(2, 1, counts(1, 2, 0, 0, 1, turned=10)),
     ['critical: the driver has not turned for 10 s', 'receiver: expects 2, 1 transaction stored', 'a circuit is open',
      '2 blocks read on 1 circuit since the driver started, 0 refused, 0 answered AR'] + shown(seconds=10), 2),
    receiving_case('one block refused', 'good', 4, 3, (2, 9, 1, 7, 0),
                   ['the last refused block was refused by 7 (wrong checksum)'], since=(1, 0)),
    receiving_case('two blocks refused', 'warning: 2 blocks refused since the last transaction, the last by 9: no readable '
                   'header', 4, 3, (2, 9, 2, 9, 0), ['the last refused block was refused by 9 (no readable header)'],
                   since=(2, 0)),
    receiving_case('two blocks refused, long ago', 'good', 4, 3, (2, 9, 2, 9, 0),
                   ['the last refused block was refused by 9 (no readable header)'], since=(2, 0), wrong=301),
    receiving_case('a far end that hangs up', 'warning: 4 circuits soon ended by the peer', 4, 3, (2, 9, 0, 0, 0), [],
                   hung_up=(4, 0)),
    receiving_case('one AR', 'good', 4, 3, (2, 9, 0, 0, 1), [], since=(0, 1)),
    receiving_case('two AR', 'warning: 2 requests answered AR since the last transaction', 4, 3, (2, 9, 0, 0, 2), [],
                   since=(0, 2)),
    receiving_case('one new caller', 'good', 4, 3, (2, 9, 0, 0, 0), [], called=(1, 0)),
    receiving_case('two new callers', 'warning: 2 circuits ended by a new caller', 4, 3, (3, 9, 0, 0, 0), [], called=(2, 0)),
    receiving_case('new callers, long ago', 'good', 4, 3, (3, 9, 0, 0, 0), [], called=(2, 301)),
    ('-1 in the middle', receiver(2, 71, (71, 70)),
     receiver_live(2, 71, counts(3, 9, 0, 0, 1, cleared=1), (71, 70)),
     ['warning: -1 took the expected number 71 away after 70 transactions', 'receiver: expects 2, 71 transactions stored',
      'the last -1 took the expected number 71 away, after 70 transactions', 'a circuit is open',
      '9 blocks read on 3 circuits since the driver started, 0 refused, 0 answered AR'] + shown(), 1),
    receiving_case('-1 before the driver started', 'good', 2, 71, (3, 9, 0, 0, 0), [], cleared=(71, 70)),
    deciding_case('a decision on a transaction', 'good', (5, 4), [NOT_STORED % 'transaction 5']),
    deciding_case('a slow disk', 'warning: transaction 5 waits for the disk for 2 s', (5, 4),
                  [NOT_STORED % 'transaction 5'], turned=2),
    deciding_case('a disk that hangs', 'critical: the driver has not turned for 37 s; transaction 5 waits for the disk for '
                  '37 s', (5, 4), [NOT_STORED % 'transaction 5'], turned=37),
    deciding_case('a decision that the state has', 'good', (6, 5), [IN_STATE % 'transaction 5'], turned=3),
    deciding_case('a decision on -1', 'good', (5, 4), [NOT_STORED % '-1'], ON_MINUS_ONE),
    deciding_case('a decision on -1 that the state has', 'good', (0, 4), [IN_STATE % '-1'], ON_MINUS_ONE),
    ('a state that was read before the one that is shown', receiver(4, 3),
     receiver_live(5, 4, counts(1, 2, 0, 0, 1), decided=on_transaction(5)),
     ['good', 'receiver: expects 5, 4 transactions stored', NOT_STORED % 'transaction 5', 'a circuit is open', TWO_BLOCKS] +
     shown(), 0),
    full_case('a full disk', UNSTORED % '3 requests', 3, 0),
    full_case('a disk that was just full', UNSTORED % '1 request', 1, 0, 1),
    full_case('a disk that was full, and nothing came since', 'good', 3, 301),
    full_case('a disk that has room again', 'good', 0, 1),
    ('a decision that is none of the table', receiver(5, 4), receiver_live(5, 4, counts(1, 2, 0, 0, 1),
                                                                           decided=decision(1, 5, 5, 7, '5')),
     ["critical: FOLDER/live has words that are no receiver's state"], 2),
    ('no folder', None, None, ['unknown: FOLDER/state is missing'], 3),
    ('an empty state', '', None, DAMAGED, 2),
    ('an end that is missing', state(MIDDLE)[:-4], None, DAMAGED, 2),
    ('a state with more', state(MIDDLE) + 'x', None, DAMAGED, 2),
    ('a word that is none', state(MIDDLE.replace('16', '1x')), None, DAMAGED, 2),
    ('a word over 64 bits', state(MIDDLE.replace('16', '18446744073709551616')), None, DAMAGED, 2),
    ('another digit', state(MIDDLE).replace('delivered 16', 'delivered 15'), None, DAMAGED, 2),
    ("another digit at a receiver", receiver(52, 51).replace('stored 51', 'stored 45'), None, DAMAGED, 2),
    ('another check', re.sub('check .', 'check x', state(MIDDLE)), None, DAMAGED, 2),
    ('no check', re.sub('check .*\n', '', state(MIDDLE)), None, DAMAGED, 2),
    ('the first form', 'giamuvich sender 1\n' + MIDDLE + 'end\n', None,
     [STOPPED + '; the state has no check yet', NO_DRIVER] + MIDDLE_SAID, 2),
    ("a receiver's first form", 'giamuvich receiver 1\nexpected 18\nstored 17\nend\n', None,
     [STOPPED + '; the state has no check yet', 'receiver: expects 18, 17 transactions stored',
      'no driver runs on this folder'], 2),
    ('frozen without details', state(FROZEN), None, DAMAGED, 2),
    ('delivered over last', state(words(1, 20, 19, 1)), None, IS_SENDER, 2),
    ('first 0', state(words(0, 0, 0, 0)), None, IS_SENDER, 2),
    ('frozen 2', state(words(1, 0, 0, 0, 2)), None, IS_SENDER, 2),
    ('delivered, not resynchronized', state(words(1, 1, 1, 0)), None, IS_SENDER, 2),
    ('a number too large', receiver(10 ** 15, 1), None, ["critical: FOLDER/state has words that are no receiver's state"], 2),
    ('no log', state(MIDDLE), None, [STOPPED + '; log/ is missing', NO_DRIVER] + MIDDLE_SAID, 2, {'log': None}),
    ('no transactions', receiver(18, 17), None,
     [STOPPED + '; transactions/ is missing', 'receiver: expects 18, 17 transactions stored',
      'no driver runs on this folder'], 2, {'transactions': None}),
    ('a damaged receiver', receiver(1, 1).replace('stored', 'sorted'), None, DAMAGED, 2),
    ('a live file with a wrong count', state(MIDDLE), live(MIDDLE, 4, 101),
     ["critical: FOLDER/live has words that are no sender's state"], 2),
    ('an empty live file', state(MIDDLE), '', ['critical: FOLDER/live is damaged'], 2),
    ('a live file without counts', state(MIDDLE), live(MIDDLE, 0, 0).replace('given_up 0\n', ''),
     ['critical: FOLDER/live is damaged'], 2),
    ('the driver is starting', state(MIDDLE), MISSING,
     ['warning: the driver is starting', 'sender: the driver is starting, no circuit open'] + MIDDLE_SAID, 1),
    ("a receiver's driver is starting", receiver(1, 0), MISSING,
     ['warning: the driver is starting', 'receiver: expects 1, 0 transactions stored',
      'the driver is starting, no circuit open'], 1),
    ('a driver that hangs at its start', state(MIDDLE), STUCK,
     ['critical: the driver has been starting for 37 s', 'sender: the driver is starting, no circuit open'] + MIDDLE_SAID, 2),
    ("a receiver's driver that hangs at its start", receiver(1, 0), STUCK,
     ['critical: the driver has been starting for 37 s', 'receiver: expects 1, 0 transactions stored',
      'the driver is starting, no circuit open'], 2),
    ('a frozen driver is starting', state(FROZEN, FROZEN_DETAILS), MISSING,
     ['critical: %s; the driver is starting' % R_FROZEN,
      'sender: frozen: waited on 17 and got AR 19 for control ID 17' + MUST] + MIDDLE_SAID, 2),
    ('it cannot be told', state(MIDDLE), LOOP,
     ['unknown: it cannot be told whether a driver runs',
      'sender: it cannot be told whether a driver runs on this folder'] + MIDDLE_SAID, 3),
    ('it cannot be told of a receiver', receiver(18, 17), LOOP,
     ['unknown: it cannot be told whether a driver runs', 'receiver: expects 18, 17 transactions stored',
      'it cannot be told whether a driver runs on this folder'], 3),
    ('a refused file', state(MIDDLE), None, [STOPPED + '; 1 file refused', NO_DRIVER] + middle_said(0, 1), 2,
     {'refused/10-a': 0}),
    ('refused files', state(MIDDLE), live(MIDDLE, 1, 0, act(1, 16, 1, 1)).replace('last 19', 'last 16'),
     ['warning: 2 files refused', 'sender: a circuit is open and nothing waits', 'delivered up to 16 (first number 1)',
      not_delivered(0, 0, 2), 'the next number to submit is 17', 'resynchronized with the receiver'] + ONE_CIRCUIT +
     ['last act: 16 is delivered, AA'] + shown(), 1, {'refused/10-b': 0, 'refused/3-a': 0, 'refused/.x': 0}),
    ('an empty refused file', state(MIDDLE), live(MIDDLE, 4, 1),
     ['good', WAITS % '1 time'] + middle_said(empty=['1 empty file refused, see refused/']) + ONE_CIRCUIT + shown(), 0,
     {'refused/9-a': None}),
    ('files in the spool', state(FROZEN, FROZEN_DETAILS), live(FROZEN, 0, 0, act(3), FROZEN_DETAILS),
     ['critical: ' + R_FROZEN, 'sender: frozen: waited on 17 and got AR 19 for control ID 17' + MUST] +
     middle_said(2) + ONE_CIRCUIT + shown(False), 2, {'spool/a': 0, 'spool/b': 0, 'spool/.c': 0}),
    ('a late result', state(MIDDLE), live(MIDDLE, 4, 1),
     ['warning: the oldest of 4 not delivered waits for 61 s', WAITS % '1 time'] +
     [line.replace('for 0 s', 'for 61 s') for line in middle_said(1)] + ONE_CIRCUIT + shown(), 1, {'spool/a': 61}),
    ('a result that is too late', state(MIDDLE), live(MIDDLE, 4, 1),
     ['critical: the oldest of 3 not delivered waits for 372 s', WAITS % '1 time'] +
     [line.replace('for 0 s', 'for 372 s') for line in middle_said()] + ONE_CIRCUIT + shown(), 2, {'log/17.hl7': 372}),
    ('a later result that is too late', state(MIDDLE), live(MIDDLE, 4, 1),
     ['critical: the oldest of 3 not delivered waits for 372 s', WAITS % '1 time'] +
     [line.replace('for 0 s', 'for 372 s') for line in middle_said()] + ONE_CIRCUIT + shown(), 2,
     {'log/16.hl7': 999, 'log/17.hl7': 0, 'log/19.hl7': 372}),
    ('no refused file', state(MIDDLE), None, [STOPPED, NO_DRIVER] + MIDDLE_SAID, 2, {}),
    ('a leftover of a crash', receiver(3, 2), None,
     [STOPPED, 'receiver: expects 3, 2 transactions stored', 'no driver runs on this folder'], 2,
     {'transactions/%015d.hl7' % position: 0 for position in (1, 2, 3)}),
    ('a file beyond it', receiver(3, 2), None,
     [STOPPED + '; a file at position 4, and 2 transactions stored', 'receiver: expects 3, 2 transactions stored',
      'no driver runs on this folder'], 2, {'transactions/%015d.hl7' % position: 0 for position in (1, 2, 4)}),
]


def said(programs, *folders, environment=None):
    done = subprocess.run([os.path.join(programs, 'linkstatus')] + list(folders), stdout=subprocess.PIPE, check=False,
                          env=dict(os.environ, **environment) if environment else None)
    return done.stdout.decode().splitlines(), done.returncode


def put(folder, files):
    """Files of one byte, written so many seconds ago; None is an empty file, or a folder that is not there."""
    for name in ('log', 'spool', 'refused', 'transactions'):
        if name not in files:
            os.makedirs(os.path.join(folder, name))
    for name, age in files.items():
        if '/' not in name:
            continue
        path = os.path.join(folder, name)
        os.makedirs(os.path.dirname(path), exist_ok=True)
        with open(path, 'wb') as file:
            file.write(b'' if age is None else b'x')
        moment = time.time() - (age or 0)
        os.utime(path, (moment, moment))


def at_present(text):
    """Times of the driver's clock for AGO(seconds)."""
    return re.sub(r'AGO\((\d+)\)', lambda found: str(int(time.monotonic() * 1000) - 1000 * int(found.group(1))), text)


def same(lines, wanted):
    """A second or two may pass between writing and reading."""
    def later(line, seconds):
        return re.sub(r'\b(\d+) s\b', lambda found: '%d s' % (int(found.group(1)) + seconds), line)
    return len(lines) == len(wanted) and all(
        line in (wish, later(wish, 1), later(wish, 2)) for line, wish in zip(lines, wanted))


def holds(programs, folder, state_text, live_text, wanted, status, files=None):
    """One case: what linkstatus says and its exit status are as wanted."""
    def as_wanted():
        lines, code = said(programs, folder)
        return code == status and same(lines, [line.replace('FOLDER', folder) for line in wanted])

    if state_text is not None:
        os.mkdir(folder)
        with open(os.path.join(folder, 'state'), 'w', encoding='ascii') as file:
            file.write(state_text)
    if state_text is not None:
        put(folder, files or {})
    if live_text is LOOP:
        os.symlink('lock', os.path.join(folder, 'lock'))
    if live_text in (None, LOOP):
        return as_wanted()
    with open(os.path.join(folder, 'lock'), 'w', encoding='ascii') as lock:
        fcntl.lockf(lock, fcntl.LOCK_EX)  # as a driver that runs
        if live_text is STUCK:
            os.utime(lock.fileno(), (time.time() - 37, time.time() - 37))
        elif live_text is not MISSING:
            with open(os.path.join(folder, 'live'), 'w', encoding='ascii') as file:
                file.write(at_present(live_text))
        return as_wanted()
