"""One station, and the test at the other end of its line: what it replies, when it bids, and what it stores. Each test
returns None or what is wrong."""

import collections
import os
import re
import shutil
import subprocess
import termios
import time

import units
from stations import TIMERS, Station, Terminal, hold, read
from units import BID, CR, DLE, END, ENQ, ENQUIRY, EOT, ETB, ETX, NAK, REFUSAL, STX

GRANT, RINT = units.ack(0), units.rint()
TIMER_A, TIMER_D = 500, 700  # longer than what the test may take for a reply
SILENCE = (TIMER_A + TIMERS['--timer-b']) / 1000
LONG_SILENCE = SILENCE + TIMER_D / 1000  # where the other side may still hold text
CMSPAR = 0o10000000000  # termios has no name for it
Test = collections.namedtuple('Test', 'name test side options traced preloaded')
Libraries = collections.namedtuple('Libraries', 'trace terminal')  # preloaded into a station
TESTS = []


def talk(side='primary', traced=None, preloaded=None, **options):
    """The test is called with a running station and its line. Where it is traced, these are settings of
    tests/driver/trace.c; preloaded: those of tests/x328/terminal.c, with {folder} for the station's folder."""
    def register(test):
        TESTS.append(Test(test.__name__.replace('_', ' '), test, side,
                          dict({'timer_a': TIMER_A, 'timer_d': TIMER_D}, **options), traced, preloaded))
        return test
    return register


class Talk:
    def __init__(self, program, folder, test, libraries):
        self.station = Station(program, folder, test.side, **test.options)
        self.parity = test.options.get('parity') == 'software'
        self.splitter, self.heard = units.Splitter(self.parity), collections.deque()
        self.begin, self.trace = time.monotonic(), folder + '.trace'
        if test.preloaded is not None:
            self.station.start(dict({name: value.format(folder=folder) for name, value in test.preloaded.items()},
                                    LD_PRELOAD=libraries.terminal))
        elif test.traced is None:
            self.station.start()
        else:
            with open(self.trace, 'wb') as file:
                self.station.start(dict(test.traced, LD_PRELOAD=libraries.trace, TRACE_DESCRIPTOR=str(file.fileno())),
                                   file.fileno())
        self.station.wait_ready()

    def say(self, *parts):
        for part in parts:
            self.station.terminal.write(units.with_parity(part) if self.parity else part)

    def hear(self, seconds=3):
        """The next unit, or None."""
        until = time.monotonic() + seconds
        while not self.heard and time.monotonic() < until:
            self.heard.extend(self.splitter.take(self.station.terminal.read()))
            self.station.check_alive()
            time.sleep(0.001)
        return self.heard.popleft().raw if self.heard else None

    def hears(self, *wanted):
        for each in wanted:
            heard = self.hear()
            heard = units.without_parity(heard) if heard is not None and self.parity else heard
            hold(heard == each, 'it said %r, not %r', heard, each)

    def is_silent(self, seconds=0.3):
        heard = self.hear(seconds)
        hold(heard is None, 'it said %r, and should say nothing', heard)

    def bid(self, grant=GRANT):
        self.say(BID)
        self.hears(grant)

    def asks(self, reply):
        self.say(ENQUIRY)
        self.hears(reply)

    def sends(self, number, text, reply, ending=ETX):
        self.say(units.block(number, text, ending))
        self.hears(reply)

    def urgent(self, name='urgent', text=b'stat'):
        """A stat message, and the station that is slave asks for the line."""
        self.station.put(name, text, 'stat')
        self.says('x328: %s waits in stat/: a reverse interrupt is asked for' % name)

    def stored(self, *wanted):
        hold(self.station.received() == list(wanted), 'stored is %r', self.station.received())

    def says(self, words, seconds=3):
        until = time.monotonic() + seconds
        while not re.search(words, self.station.said()) and time.monotonic() < until:
            time.sleep(0.005)
        hold(re.search(words, self.station.said()), 'it did not say %s but %s', words, self.station.said())

    def ends(self, words, seconds=3):
        """By itself, as something is wrong."""
        until = time.monotonic() + seconds
        while self.station.process.poll() is None and time.monotonic() < until:
            time.sleep(0.005)
        hold(self.station.process.poll() == 1, 'it did not end: %s', self.station.process.poll())
        self.station.process = None
        self.says(words)

    def waits_done(self, count, seconds=3):
        until = time.monotonic() + seconds
        while len(self.station.done()) < count and time.monotonic() < until:
            time.sleep(0.002)
        hold(len(self.station.done()) == count, 'done are %s', self.station.names('sent'))


def run(program, folder, test, libraries):
    """None, or what is wrong; also where a sanitizer said something, or a line has no time."""
    talk_ = Talk(program, folder, test, libraries)
    try:
        test.test(talk_)
        status = talk_.station.finish()
        hold(status == 0, 'it ended with %s', status)
    finally:
        talk_.station.close()
    return words_problem(talk_.station.said())


def words_problem(said):
    for line in said.splitlines():
        if not re.match(r'\d{4}-\d\d-\d\d \d\d:\d\d:\d\d x328: ', line):
            return 'no line of a station: ' + said[-2000:]
    return None


# ---- the slave

@talk()
def a_slave_replies(line):
    line.bid()
    line.sends(1, b'MSH|\rPID', units.ack(1), ETB)
    line.sends(1, b'MSH|\rPID', units.ack(1), ETB)  # a duplicate
    line.say(units.block(2, b'|1\r').replace(b'|1', b'|2'))
    line.hears(REFUSAL)
    line.say(STX + b'200003|1' + ENQ + CR)  # abandoned
    line.hears(REFUSAL)
    line.sends(5, b'|5\r', REFUSAL)
    line.sends(8, b'|8\r', REFUSAL)
    line.sends(2, b'|1\r', units.ack(2))
    line.stored(b'MSH|\rPID|1\r')
    line.sends(2, b'|1\r', units.ack(2))
    line.sends(3, b'', units.ack(3))
    line.stored(b'MSH|\rPID|1\r', b'')
    line.say(EOT + b'x')  # a damaged one
    line.hears(REFUSAL)
    line.says('a unit came damaged or out of turn: NAK')
    line.say(units.ack(3), REFUSAL, b'noise', CR, END)
    line.say(units.block(4, b'late'))
    line.is_silent()


@talk()
def numbers_go_round(line):
    line.bid()
    for count in range(1, 20):
        line.sends(count % 8, b'%d,' % count, units.ack(count % 8), ETB)
    line.sends(4, b'end', units.ack(4))
    line.stored(b''.join(b'%d,' % count for count in range(1, 20)) + b'end')
    line.sends(5, b'next', units.ack(5))


@talk()
def enq_before_the_first_block(line):
    """It is the bid again: ACK 0, and the station is opened anew."""
    line.asks(GRANT)
    line.asks(GRANT)
    line.sends(2, b'bad', REFUSAL)
    line.asks(GRANT)  # a NAK is no block
    line.say(units.block(1, b'damaged').replace(b'dam', b'Dam'))
    line.hears(REFUSAL)
    line.asks(GRANT)
    line.sends(1, b'text', units.ack(1))
    line.stored(b'text')


@talk()
def enq_in_an_opening(line):
    """It is an enquiry: the last reply again, whatever that was to, and nothing else changes."""
    line.bid()
    for count in range(1, 9):
        line.sends(count % 8, b'old', units.ack(count % 8), ETB)
        line.asks(units.ack(count % 8))
    line.asks(GRANT)  # ACK 0 is that of the eighth block
    line.sends(5, b'bad', REFUSAL)
    line.asks(REFUSAL)
    line.sends(0, b'old', GRANT, ETB)  # a duplicate
    line.asks(GRANT)
    line.say(ENQ + b'x')  # a damaged one
    line.hears(REFUSAL)
    line.asks(REFUSAL)
    line.says('ENQ came in an opening: the last reply again')
    line.sends(1, b'end', units.ack(1))
    line.stored(b'old' * 8 + b'end')
    line.asks(units.ack(1))
    line.stored(b'old' * 8 + b'end')


@talk()
def a_bid_in_an_opening(line):
    """It begins with EOT: what was held is forgotten."""
    line.bid()
    for count in range(1, 9):
        line.sends(count % 8, b'old', units.ack(count % 8), ETB)
    line.bid()
    line.says('a message was broken off, 24 bytes of it are forgotten')
    line.sends(1, b'new', units.ack(1))
    line.stored(b'new')
    line.bid()  # also where no text is held
    line.sends(1, b'newer', units.ack(1))
    line.stored(b'new', b'newer')


@talk()
def no_block_0_before_the_first_block(line):
    line.bid()
    line.sends(0, b'lost', END)
    line.say(units.block(1, b'late'))
    line.is_silent()
    line.stored()


@talk(timer_b=250)
def timer_b(line):
    line.bid()
    line.say(units.block(1, b'half')[:9])
    line.is_silent(0.4)
    line.says('timer B: a block did not end')
    line.sends(1, b'whole', units.ack(1))
    line.say(units.block(2, b'slowly')[:5])
    line.is_silent(0.1)
    line.say(units.block(2, b'slowly')[5:])  # in its time
    line.hears(units.ack(2))
    line.say(STX + b'399999')  # a length that is never reached
    line.is_silent(0.4)
    line.sends(3, b'after it', units.ack(3))
    line.stored(b'whole', b'slowly', b'after it')


@talk(timer_d=800)
def timer_d(line):
    line.bid()
    for count in (1, 2, 3):  # anew from each reply
        line.is_silent(0.35)
        line.sends(count, b'x', units.ack(count), ETB)
    line.is_silent(0.5)
    line.asks(units.ack(3))  # not from an enquiry
    line.is_silent(0.4)
    line.says('timer D: nothing more came, 3 bytes of a message are forgotten')
    line.say(units.block(4, b'late'))
    line.is_silent()
    line.asks(GRANT)
    line.sends(1, b'half', units.ack(1), ETB)
    for _ in range(2):  # one that bids without EOT is granted the line all the same
        line.is_silent(0.25)
        line.asks(units.ack(1))
    line.is_silent(0.4)
    line.asks(GRANT)
    line.is_silent()
    line.bid()
    line.sends(1, b'new', units.ack(1))
    line.stored(b'new')


@talk()
def where_storing_fails_eot_goes_out(line):
    folder = os.path.join(line.station.folder, 'received')
    line.bid()
    line.sends(1, b'first', units.ack(1))
    shutil.move(folder, folder + '.away')
    line.sends(2, b'second', END)
    line.says('a message could not be stored: No such file or directory: EOT in place of its ACK')
    line.say(units.block(2, b'second'))
    line.is_silent()  # the station has closed
    shutil.move(folder + '.away', folder)
    line.bid()
    line.sends(1, b'second', units.ack(1))
    line.stored(b'first', b'second')
    hold(line.station.names('received') == ['%015d.hl7' % number for number in (1, 2)], 'a number was left out')


@talk(message_limit=10)
def a_message_that_is_too_long(line):
    line.bid()
    line.sends(1, b'x' * 10, units.ack(1), ETB)
    line.sends(2, b'', units.ack(2))
    line.sends(3, b'x' * 11, END)
    line.says('a message has over 10 bytes: EOT in place of an ACK')
    line.stored(b'x' * 10)


@talk(prefix='WARD 7')
def a_prefix_is_written(line):
    line.bid(units.ack(0, b'WARD 7'))
    line.sends(1, b'a', units.ack(1, b'WARD 7'))
    line.sends(4, b'a', b'WARD 7' + REFUSAL)
    line.urgent()
    line.sends(2, b'a', units.rint(b'WARD 7'))
    line.asks(units.rint(b'WARD 7'))
    line.sends(3, b'a', units.ack(3, b'WARD 7'), ETB)
    line.say(END)
    line.hears(END, ENQUIRY)


@talk()
def bytes_one_by_one(line):
    line.bid()
    for byte in units.block(1, b'MSH|^~\\&|\rPID|\r'):
        line.say(bytes([byte]))
        time.sleep(0.002)
    line.hears(units.ack(1))
    line.stored(b'MSH|^~\\&|\rPID|\r')


@talk(parity='software')
def software_parity(line):
    line.bid()
    wrong = bytearray(units.with_parity(units.block(1, b'abc')))
    wrong[8] ^= 128  # the parity alone
    line.station.terminal.write(bytes(wrong))
    line.hears(REFUSAL)
    line.sends(1, b'abc', units.ack(1))
    line.stored(b'abc')
    line.station.put('1', b'\xc3\xa4')
    line.say(END)
    line.says('1 is refused by 3')


@talk(parity='odd', preloaded={'KEEP_PARITY': '1'})
def device_parity(line):
    """A pseudo-terminal has no parity, but doubles FF as the setting asks for."""
    line.bid()
    line.sends(1, b'\xff\x00\xff', units.ack(1))
    line.stored(b'\xff\x00\xff')


@talk()
def a_device_without_parity(line):
    station = line.station
    station.kill()
    station.options['--parity'] = 'odd'
    station.start()
    line.ends('x328: the line at %s does not take eight data bits, this parity and this speed' % station.terminal.path)
    hold('started' not in station.said()[station.said_before:], 'it started')


@talk(speed=1200)
def the_modes_of_the_line(line):
    station, wrong = line.station, termios.CRTSCTS | CMSPAR | termios.CSTOPB
    station.kill()
    modes = termios.tcgetattr(station.terminal.held)
    modes[2] |= wrong
    termios.tcsetattr(station.terminal.held, termios.TCSANOW, modes)
    hold(termios.tcgetattr(station.terminal.held)[2] & wrong == wrong, 'a pseudo-terminal does not keep these')
    station.start()
    station.wait_ready()
    modes = termios.tcgetattr(station.terminal.held)
    hold(modes[2] & wrong == 0, 'the modes are %o', modes[2])
    hold(modes[5] == termios.B1200, 'the speed is %d', modes[5])


@talk()
def a_second_station_on_the_line(line):
    """It does nothing to it, until the first one has ended."""
    other = Station(line.station.program, line.station.folder + '.other', 'primary', timer_a=TIMER_A)
    other.terminal.close()
    other.terminal = line.station.terminal
    other.start()
    try:
        other.wait_ready()
        waits_until(lambda: ': another station has it' in other.said(), 'that another station has it')
        line.bid()
        line.sends(1, b'text', units.ack(1))
        line.stored(b'text')
        line.station.kill()
        waits_until(lambda: ' is open' in other.said(), 'that the line is open')
        line.bid()
        line.sends(1, b'other', units.ack(1))
        hold(other.received() == [b'other'], 'stored is %r', other.received())
    finally:
        other.kill()
        other.errors.close()


def waits_until(fact, words, seconds=3):
    until = time.monotonic() + seconds
    while not fact() and time.monotonic() < until:
        time.sleep(0.005)
    hold(fact(), 'never came: %s', words)


def make_anew(station):
    """An operator puts the folder aside, and makes another one. Returns the old one's path."""
    away = station.folder + '.away'
    os.rename(station.folder, away)
    subprocess.run([station.program, 'init', station.folder], check=True)
    return away


@talk()
def another_folder_when_a_message_is_stored(line):
    line.bid()
    away = make_anew(line.station)
    line.say(units.block(1, b'text'))
    line.ends('is another folder now: it was moved or made anew')
    hold(line.hear(0.1) is None, 'it replied')
    line.stored()
    hold(os.listdir(os.path.join(away, 'received')) == [], 'stored in the old one')


@talk()
def another_folder_when_a_message_is_taken(line):
    make_anew(line.station)
    line.station.put('1', b'text')
    line.ends('is another folder now: it was moved or made anew')
    hold(line.hear(0.1) is None, 'it bid')


@talk(preloaded={'HOLD_BACK': '1'})
def a_line_that_holds_its_bytes_back(line):
    """tcdrain waits for ever."""
    line.bid()
    time.sleep(0.2)
    line.station.process.terminate()
    waits_until(lambda: line.station.process.poll() == 0, 'its end')
    line.station.process = None


# ---- the master

def expect_bid(line, seconds=3):
    for wanted in (END, ENQUIRY):
        heard = line.hear(seconds)
        hold(heard == wanted, 'it said %r, and should bid', heard)


def bids_after(line, silence, begin):
    """It bids, when the line was silent for so long; and where Timer D is not in it, not as late as with it. The test may
    be late itself."""
    expect_bid(line)
    took = time.monotonic() - begin
    hold(silence - 0.1 <= took, 'it bid after %.2f s', took)
    hold(silence >= LONG_SILENCE or took < silence + TIMER_D / 1000 - 0.03, 'it bid after %.2f s', took)


@talk()
def a_master_sends(line):
    line.station.put('2', b'second\r')
    line.station.put('1', b'x' * 490 + b'y')
    bids_after(line, LONG_SILENCE, line.begin)
    line.say(GRANT)
    line.hears(units.block(1, b'x' * 245, ETB))
    line.say(units.ack(1))
    line.hears(units.block(2, b'x' * 245, ETB))
    line.say(units.ack(2, b'prefix'))
    line.hears(units.block(3, b'y'))
    hold(line.station.names('sent') == [], 'done too early')
    line.say(units.ack(3))
    line.hears(units.block(4, b'second\r'))
    hold(line.station.names('sent') == ['1'] and line.station.names('spool') == ['2'], 'not in order')
    line.say(units.ack(4))
    line.hears(END)
    hold(line.station.done() == [b'x' * 490 + b'y', b'second\r'], 'not done')
    line.station.put('1', b'')  # a name may come again
    expect_bid(line)
    line.say(GRANT)
    line.hears(units.block(1, b''))
    line.say(units.ack(1))
    line.hears(END)
    hold(line.station.names('sent') == ['1', '1.1', '2'], 'written over')


def opens(line, block):
    expect_bid(line)
    line.say(GRANT)
    line.hears(block)


@talk()
def another_folder_when_a_message_is_done(line):
    line.station.put('1', b'text')
    opens(line, units.block(1, b'text'))
    away = make_anew(line.station)
    line.say(units.ack(1))
    line.ends('is another folder now: it was moved or made anew')
    hold(line.station.names('sent') == os.listdir(os.path.join(away, 'sent')) == [], 'recorded')
    hold(os.listdir(os.path.join(away, 'spool')) == ['1'], 'taken away')


@talk()
def where_sent_is_no_folder(line):
    sent = os.path.join(line.station.folder, 'sent')
    line.station.put('1', b'text')
    opens(line, units.block(1, b'text'))
    os.rmdir(sent)
    with open(sent, 'wb'):
        pass
    line.say(units.ack(1))
    line.ends('cannot read .*/sent/1: Not a directory')
    hold(line.station.names('spool') == ['1'], 'taken away')


@talk()
def names_that_end_with_new(line):
    """No record is written over by one on its way."""
    line.station.put('1.new', b'potassium')
    opens(line, units.block(1, b'potassium'))
    line.station.put('1', b'sodium')
    line.say(units.ack(1))
    line.hears(units.block(2, b'sodium'))
    line.say(units.ack(2))
    line.hears(END)
    hold(line.station.names('sent') == ['1', '1.new'], 'recorded are %s', line.station.names('sent'))
    hold(line.station.done() == [b'sodium', b'potassium'], 'recorded are %s', line.station.done())


@talk(silence=1200)
def the_silence_that_is_set(line):
    line.station.put('1', b'text')
    bids_after(line, 1.2 + TIMER_D / 1000, line.begin)
    line.say(GRANT)
    line.hears(units.block(1, b'text'))
    begin = time.monotonic()
    line.say(units.ack(1))
    line.hears(END)
    line.station.put('2', b'text')
    bids_after(line, 1.2, begin)


@talk(preloaded={'STALL': '{folder}.stall'})
def a_disk_that_takes_long(line):
    """What came meanwhile counts: the line was not silent."""
    stall = line.station.folder + '.stall'
    os.mkfifo(stall)
    line.station.put('1', b'text')
    opened = []
    waits_until(lambda: opened or opened.extend(opened_by_reader(stall)) or opened, 'that it reads the message')
    line.say(GRANT, units.ack(1))
    begin = time.monotonic()
    os.close(opened[0])
    expect_bid(line)
    hold(time.monotonic() - begin >= LONG_SILENCE, 'it bid too early')


@talk(preloaded={'FLUSHES': '{folder}.flushes'})
def both_ways_are_flushed_before_a_bid(line):
    line.station.put('1', b'text')
    expect_bid(line)
    flushes = read(line.station.folder + '.flushes').decode()
    hold(flushes == '%d' % termios.TCIOFLUSH * 2, 'flushed at the opening of the line and before the bid: %s', flushes)


def opened_by_reader(fifo):
    """The FIFO, in a list, where somebody waits to read it."""
    try:
        return [os.open(fifo, os.O_WRONLY | os.O_NONBLOCK)]
    except OSError:
        return []


@talk(block_size=99999)
def a_block_that_the_line_does_not_take(line):
    """Where it is broken off, its rest is dropped: else it would stand before the next unit."""
    line.station.put('1', b'x' * 99999)
    expect_bid(line)
    line.say(GRANT)
    time.sleep(0.3)
    hold(line.station.finish() == 0, 'it ended wrongly')
    left = 0
    while part := line.station.terminal.read():
        left += len(part)
    hold(left <= 8192, '%d bytes are left', left)


@talk()
def what_resends(line):
    line.station.put('1', b'text')
    block = units.block(1, b'text')
    expect_bid(line)
    line.say(GRANT)
    line.hears(block)
    for reply in (REFUSAL, GRANT, units.ack(0, b'x' * 15)):
        line.say(reply)
        heard = line.hear(0.4)  # at once, and not by Timer A
        hold(heard == block, '%r after %r', heard, reply)
    line.says('a block of 1 was refused or missed by the other side, sent again')
    begin = time.monotonic()
    line.say(units.ack(5), DLE + b'8' + CR, NAK + NAK, units.ack(1, b'x' * 16), b'x' + END, ENQUIRY, b'x' * 16 + RINT,
             units.block(1, b'other'))
    line.hears(block)  # Timer A, as nothing of that acts
    hold(time.monotonic() - begin > 0.4, 'one of these acted')
    line.says('timer A: no reply to a block of 1, sent again')
    line.hears(block)
    line.hears(END)  # all together
    line.says('1 failed, a block was sent six times, 0 acknowledged')
    hold(line.station.names('spool') == ['1'] and not line.station.done(), 'a message that failed stays')
    bids_after(line, LONG_SILENCE, time.monotonic())  # the slave may hold text
    line.say(GRANT)
    line.hears(block)
    line.say(units.ack(1))
    line.hears(END)
    line.waits_done(1)


@talk(block_size=4)
def ended_by_the_slave(line):
    line.station.put('1', b'0123456789')
    expect_bid(line)
    line.say(GRANT)
    line.hears(units.block(1, b'0123', ETB))
    line.say(units.ack(1))
    line.hears(units.block(2, b'4567', ETB))
    line.say(END)
    line.says('the other side ended 1 by EOT, 1 acknowledged')
    line.say(units.ack(2))  # late
    bids_after(line, SILENCE, time.monotonic())
    line.say(GRANT)
    line.hears(units.block(1, b'0123', ETB))  # from its beginning


@talk(bids=2, timer_a=100, recovery=600)
def no_grant(line):
    line.station.put('1', b'text')
    for _ in range(3):  # each with its EOT
        expect_bid(line)
    begin = time.monotonic()
    line.says('3 bids and no grant, 0 of them answered NAK')
    expect_bid(line)
    hold(time.monotonic() - begin > 0.4, 'no pause')  # the test may be late itself
    line.say(b'busy' + REFUSAL, units.ack(3), END)
    expect_bid(line)
    line.say(REFUSAL)
    expect_bid(line)
    line.say(REFUSAL)
    line.says('3 bids and no grant, 3 of them answered NAK')
    expect_bid(line)
    line.say(GRANT)
    line.hears(units.block(1, b'text'))


@talk()
def the_primary_goes_on_with_its_bid(line):
    line.station.put('1', b'text')
    expect_bid(line)
    line.say(BID)  # EOT says nothing to it either
    begin = time.monotonic()
    expect_bid(line)  # and no grant
    hold(time.monotonic() - begin > 0.4, 'Timer A did not run')
    line.say(GRANT)
    line.hears(units.block(1, b'text'))
    line.say(ENQUIRY)  # a master drops it
    line.say(units.ack(1))
    line.hears(END)


@talk()
def a_bid_while_this_station_is_master(line):
    """The other side is no slave any more: its EOT ends the opening, and the line is granted."""
    line.station.put('1', b'text')
    opens(line, units.block(1, b'text'))
    line.bid()
    line.sends(1, b'other', units.ack(1))
    line.says('the other side ended 1 by EOT, 0 acknowledged')
    line.stored(b'other')


@talk('secondary')
def the_secondary_grants_the_line(line):
    line.station.put('1', b'text')
    expect_bid(line)
    line.say(BID)
    line.hears(GRANT)
    line.sends(1, b'other', units.ack(1))
    line.say(END)
    bids_after(line, SILENCE, time.monotonic())  # the other side was master: it holds no text
    line.say(GRANT)
    line.hears(units.block(1, b'text'))
    line.stored(b'other')


@talk(recovery=200)
def the_line_is_silent_before_a_bid(line):
    line.station.put('1', b'text')
    for _ in range(15):
        begin = time.monotonic()
        line.say(units.ack(0), units.ack(1))
        line.is_silent(0.15)
    line.says('the line does not become silent')
    bids_after(line, LONG_SILENCE, begin)
    line.say(GRANT)
    line.hears(units.block(1, b'text'))


@talk(block_size=99999)
def the_largest_blocks(line):
    text = b'0123456789ABCDE\r' * 15000
    line.station.put('1', text)
    expect_bid(line)
    line.say(GRANT)
    for number, part in enumerate((text[:99999], text[99999:199998], text[199998:]), 1):
        line.hears(units.block(number, part, ETX if number == 3 else ETB))
        line.say(units.ack(number))
    line.hears(END)


@talk(message_limit=300)
def what_cannot_be_sent_is_refused(line):
    for name, text in (('1', b'a' + ETX), ('2', STX), ('3', b'x' * 301), ('4', EOT + b'\r'), ('5', b'LF\n\tand 8 bits \xe4')):
        line.station.put(name, text)
    expect_bid(line)
    line.say(GRANT)
    line.hears(units.block(1, b'LF\n\tand 8 bits \xe4'))
    hold(line.station.names('refused') == ['3-1', '3-2', '3-4', '4-3'], 'refused are %s', line.station.names('refused'))
    line.says('3 is refused by 4')


@talk()
def what_is_no_message(line):
    """A link, a folder, and a name with a dot in front."""
    line.station.put('linked', b'linked', 'sent')
    for folder in ('stat', 'spool'):
        path = os.path.join(line.station.folder, folder)
        os.symlink(os.path.join(line.station.folder, 'sent', 'linked'), os.path.join(path, '1'))
        os.mkdir(os.path.join(path, '2'))
        line.station.put('.3', b'not there yet', folder)
    line.station.put('4', b'text')
    opens(line, units.block(1, b'text'))
    line.say(units.ack(1))
    line.hears(END)


@talk()
def a_file_that_is_replaced_meanwhile(line):
    """What is done is what was sent; the other one is sent too."""
    line.station.put('1', b'old', 'stat')
    opens(line, units.block(1, b'old'))
    line.station.put('1', b'new', 'stat')
    line.say(units.ack(1))
    line.hears(units.block(2, b'new'))
    line.say(units.ack(2))
    line.hears(END)
    hold(line.station.done() == [b'old', b'new'] and line.station.names('stat') == [], 'recorded are %s', line.station.done())


@talk()
def names_that_are_refused(line):
    """The longest one, and one that came before."""
    longest = 'x' * 255
    for name, count in ((longest, 1), ('1', 2), ('1', 3)):
        line.station.put(name, b'%d' % count + ETX)
        waits_until(lambda count=count: len(line.station.names('refused')) == count, 'that it is refused', 5)
    hold(line.station.names('refused') == ['3-1', '3-1.1', '3-' + longest[:253]], 'refused are %s', line.station.names('refused'))
    hold(line.station.names('spool') == [], 'it waits still')


@talk()
def a_master_that_is_stopped(line):
    """With a block out it stops as if killed."""
    line.station.put('1', b'text')
    expect_bid(line)
    line.say(GRANT)
    line.hears(units.block(1, b'text'))
    hold(line.station.finish() == 0, 'it ended wrongly')
    line.is_silent()
    line.says('x328: stopped')


@talk()
def a_line_that_hangs_up(line):
    """The station opens it again."""
    station = line.station
    station.kill()
    link, old = os.path.join(station.folder, 'line'), station.terminal
    os.symlink(old.path, link)
    station.terminal, old.path = old, link
    station.start()
    station.wait_ready()
    line.bid()
    line.sends(1, b'half', units.ack(1), ETB)
    station.terminal = Terminal()
    os.unlink(link)
    os.symlink(station.terminal.path, link)
    old.close()
    line.says('no line at ')
    line.says('the line at .* is open')
    line.says('a message was broken off, 4 bytes')
    line.bid()
    line.sends(1, b'whole', units.ack(1))
    line.stored(b'whole')


@talk()
def a_line_that_hangs_up_with_a_block_out(line):
    """The other side may hold text."""
    station, old = line.station, line.station.terminal
    station.kill()
    link = os.path.join(station.folder, 'line')
    os.symlink(old.path, link)
    old.path = link
    station.put('1', b'text')
    station.start()
    opens(line, units.block(1, b'text'))
    station.terminal = Terminal()
    os.unlink(link)
    os.symlink(station.terminal.path, link)
    old.close()
    line.says('the line at .* is open')
    bids_after(line, LONG_SILENCE, time.monotonic())


# ---- the line is turned round

LOOKS = 0.15  # seconds within which a station has looked for messages


@talk()
def a_slave_interrupts(line):
    line.bid()
    line.sends(1, b'MSH|', units.ack(1), ETB)
    line.urgent()
    line.sends(1, b'MSH|', units.ack(1), ETB)  # never for a duplicate
    line.sends(4, b'|', REFUSAL, ETB)
    line.sends(2, b'|', RINT, ETB)
    line.says('RINT in place of an ACK: the other side is asked for the line')
    line.asks(RINT)
    line.sends(3, b'|', units.ack(3), ETB)  # never twice without an ACK between
    line.sends(4, b'|', RINT, ETB)
    line.sends(4, b'|', units.ack(4), ETB)  # that RINT was lost
    line.sends(5, b'\r', RINT)
    line.stored(b'MSH||||\r')  # before the RINT, as before an ACK
    line.sends(6, b'half', units.ack(6), ETB)
    begin = time.monotonic()
    line.say(END)
    expect_bid(line)
    hold(time.monotonic() - begin < SILENCE / 2, 'it waited')
    line.say(GRANT)
    line.hears(units.block(1, b'stat'))
    line.say(units.ack(1))
    line.hears(END)
    hold(line.station.done() == [b'stat'] and line.station.names('stat') == [], 'not done')


@talk()
def where_storing_fails_there_is_no_rint(line):
    line.bid()
    line.urgent()
    shutil.rmtree(os.path.join(line.station.folder, 'received'))
    line.sends(1, b'text', END)


@talk()
def an_ordinary_message_does_not_interrupt(line):
    line.bid()
    line.station.put('1', b'text')
    for count in range(1, 4):
        time.sleep(LOOKS)
        line.sends(count, b'x', units.ack(count), ETB)
    line.say(END)
    bids_after(line, SILENCE, time.monotonic())


@talk()
def a_stat_message_that_cannot_be_sent(line):
    line.bid()
    line.station.put('1', b'a' + ETX, 'stat')
    line.says('1 is refused by 3')
    line.sends(1, b'x', units.ack(1), ETB)
    hold(line.station.names('refused') == ['3-1'] and line.station.names('stat') == [], 'not moved')


@talk()
def no_bid_at_once_where_no_block_came(line):
    """It is not known that the other side was master: an EOT and an ENQ may be noise."""
    line.bid()
    line.urgent()
    line.say(END)
    bids_after(line, LONG_SILENCE, time.monotonic())


@talk()
def stat_messages_go_first(line):
    line.station.put('1', b'ordinary')
    line.station.put('2', b'second', 'stat')
    line.station.put('1', b'first', 'stat')
    expect_bid(line)
    line.say(GRANT)
    for number, text in enumerate((b'first', b'second', b'ordinary'), 1):
        line.hears(units.block(number, text))
        line.say(units.ack(number))
    line.hears(END)
    hold(line.station.names('sent') == ['1', '1.1', '2'], 'recorded are %s', line.station.names('sent'))


def interrupted(line):
    """A report is interrupted at its first block. Its second one is the last that is sent."""
    line.station.put('1', b'0123456789AB')
    opens(line, units.block(1, b'0123', ETB))
    line.say(RINT)
    line.hears(units.block(2, b'4567', ETB))
    line.says('RINT came while 1 is sent: the other side asks for the line')
    line.say(units.ack(2))
    line.hears(END)
    line.says('the line is turned round in the middle of 1, 2 acknowledged: EOT, it is sent again from its first block')
    hold(line.station.names('spool') == ['1'] and not line.station.done(), 'a message that is broken off stays')


@talk(block_size=4)
def a_master_is_interrupted(line):
    interrupted(line)
    line.say(units.ack(2))  # late
    line.bid()
    line.sends(1, b'stat', units.ack(1))
    line.say(END)
    bids_after(line, SILENCE, time.monotonic())  # it was slave: the other side holds no text
    line.say(GRANT)
    for number, text in enumerate((b'0123', b'4567', b'89AB'), 1):
        line.hears(units.block(number, text, ETX if number == 3 else ETB))
        line.say(units.ack(number))
    line.hears(END)
    line.stored(b'stat')


@talk(block_size=4)
def after_a_reversal_the_other_side_bids_first(line):
    interrupted(line)
    bids_after(line, LONG_SILENCE, time.monotonic())


@talk()
def a_rint_for_the_last_block(line):
    """EOT goes out at once, though another message waits."""
    line.station.put('1', b'text')
    line.station.put('2', b'other')
    opens(line, units.block(1, b'text'))
    line.say(RINT)
    line.hears(END)
    line.says('the line is turned round, 1 acknowledged: EOT, the other side may send')
    hold(line.station.names('sent') == ['1'] and line.station.names('spool') == ['2'], 'not recorded')


@talk(block_size=4)
def done_and_reversed_at_once(line):
    line.station.put('1', b'01234')
    line.station.put('2', b'other')
    opens(line, units.block(1, b'0123', ETB))
    line.say(RINT)
    line.hears(units.block(2, b'4'))
    line.say(units.ack(2))
    line.hears(END)
    line.waits_done(1)
    line.says('the line is turned round, 2 acknowledged: EOT, the other side may send')
    hold(line.station.names('sent') == ['1'] and line.station.names('spool') == ['2'], 'not recorded')


@talk(block_size=4)
def a_stat_message_is_sent_to_its_end(line):
    line.station.put('1', b'other')
    line.station.put('2', b'0123456789AB', 'stat')
    opens(line, units.block(1, b'0123', ETB))
    line.say(RINT)
    line.hears(units.block(2, b'4567', ETB))
    line.say(units.ack(2))
    line.hears(units.block(3, b'89AB'))
    line.say(units.ack(3))
    line.hears(END)
    hold(line.station.names('sent') == ['2'] and line.station.names('spool') == ['1'], 'not recorded')


@talk(block_size=4)
def a_rint_after_a_rint(line):
    """The block out is sent again, five times. Then it has failed."""
    line.station.put('1', b'0123456789AB')
    opens(line, units.block(1, b'0123', ETB))
    line.say(RINT)
    for _ in range(6):
        line.hears(units.block(2, b'4567', ETB))
        line.say(RINT)
    line.hears(END)
    line.says('1 failed, a block was sent six times, 1 acknowledged')
    bids_after(line, LONG_SILENCE, time.monotonic())


@talk(enquiry='yes', block_size=1, timer_a=400)
def an_enquiry_on_timer_a(line):
    """Not with the blocks 7, 0 and 1 out: there ACK 0 would mean something."""
    text = b'abcdefghijkl'
    line.station.put('1', text)
    opens(line, units.block(1, text[:1], ETB))
    for count in range(1, 12):
        if count in (2, 6, 10):
            line.hears(ENQUIRY)
        elif count in (1, 7, 8, 9):
            line.hears(units.block(count % 8, text[count - 1:count], ETB))
        line.say(units.ack(count % 8))
        line.hears(units.block((count + 1) % 8, text[count:count + 1], ETX if count == 11 else ETB))
    line.says('timer A: no reply to a block of 1, enquired')
    line.hears(ENQUIRY)
    line.say(units.ack(3))  # the last one was lost
    line.hears(units.block(4, text[11:]))
    line.hears(ENQUIRY, units.block(4, text[11:]))  # Timer A twice
    line.say(units.ack(4))
    line.hears(END)
    line.waits_done(1)


@talk()
def no_enquiry_where_none_is_set(line):
    line.station.put('1', b'text')
    opens(line, units.block(1, b'text'))
    line.hears(units.block(1, b'text'))


@talk()
def a_stat_message_that_is_never_taken(line):
    """After three openings it does not interrupt any more, until a message has come in."""
    line.bid()
    line.sends(1, b'half', units.ack(1), ETB)
    line.urgent()
    line.say(END)
    for _ in range(3):
        opens(line, units.block(1, b'stat'))
        line.say(END)
    line.says('urgent was not taken in 3 openings: no reverse interrupt for it until a message has come in')
    line.bid()
    time.sleep(LOOKS)
    line.sends(1, b'half', units.ack(1), ETB)
    line.sends(2, b'whole', units.ack(2))
    time.sleep(LOOKS)
    line.sends(3, b'next', RINT)


@talk()
def a_folder_of_an_earlier_version(line):
    line.station.kill()
    folder = os.path.join(line.station.folder, 'stat')
    os.rmdir(folder)
    line.station.start()
    line.station.wait_ready()
    hold(os.path.isdir(folder), 'there is none')


# ---- what is on the disk when a unit goes out

def unsynced(lines):
    """What was not synced when a unit went out, or was renamed before it was; else None. The lines are trace.c's."""
    dirty = set()
    for act, _, path, *more in (line.split(' ')[1:] for line in lines):
        if act in ('create', 'write'):
            dirty.add(path)
        elif act == 'sync':
            dirty.discard(path)
        elif act in ('rename', 'link', 'unlink'):
            if act == 'rename' and path in dirty:
                return path
            dirty.add(os.path.dirname(more[0] if more else path))
        elif act == 'block' and any(not path.endswith('/lock') for path in dirty):
            return next(path for path in sorted(dirty) if not path.endswith('/lock'))
    return None


def check_synced(line, least, written):
    """written: what was written to while the station ran; without one of its syncs the check has to find it."""
    lines = read(line.trace).decode().splitlines()
    acts = [each.split(' ')[1] for each in lines]
    found = {each.rpartition('/')[2] for each in lines[:acts.index('block')] if each.split(' ')[1] == 'sync'}
    own = {os.path.basename(line.station.folder), '..'}  # the station's folder, and the one that it is in
    hold({'received', 'sent', 'spool', 'stat', 'refused'} | own <= found, 'found at the start and not made durable: only %s', found)
    hold(unsynced(lines) is None, 'not synced when a unit went out: %s', unsynced(lines))
    hold(acts.count('sync') >= least, 'only %d syncs', acts.count('sync'))
    for name in written:
        without = [each for each in lines if each.split(' ')[1] != 'sync' or not each.endswith(name)]
        hold(unsynced(without) is not None, 'the check does not see a missing sync of %s', name)


@talk(traced={})
def a_message_is_durable_before_its_ack(line):
    line.bid()
    for count in range(1, 4):
        line.sends(count, b'text', units.ack(count))
    line.say(END)
    hold(line.station.finish() == 0, 'it ended wrongly')
    check_synced(line, 11, ('.new', '/received'))


@talk(traced={})
def a_done_message_is_durable_before_the_next(line):
    for name in '123':
        line.station.put(name, b'text ' + name.encode())
    expect_bid(line)
    line.say(GRANT)
    for count in range(1, 4):
        line.hears(units.block(count, b'text %d' % count))
        line.say(units.ack(count))
    line.hears(END)
    hold(line.station.finish() == 0, 'it ended wrongly')
    check_synced(line, 15, ('.new', '/sent', '/spool'))


def failing_sync(line):
    """Seven folders are synced at the start, then a message, then its folder."""
    line.bid()
    line.sends(1, b'first', END)
    line.says('a message could not be stored: Input/output error: EOT in place of its ACK')
    line.bid()
    line.sends(1, b'first', units.ack(1))
    hold(line.station.received()[-1:] == [b'first'], 'not stored')


@talk(traced={'FAIL_SYNC_AT': '8'})
def where_the_sync_of_a_message_fails(line):
    failing_sync(line)
    line.stored(b'first')


@talk(traced={'FAIL_SYNC_AT': '9'})
def where_the_sync_of_its_folder_fails(line):
    failing_sync(line)  # it may be there twice
