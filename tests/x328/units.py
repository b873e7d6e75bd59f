"""The units of an X3.28 line, written from 000 (C.3.1.4 to C.3.5.2) and from the decisions of examples/x328/README.md,
not from its code: a unit is looked for in the bytes that have come, as a whole."""

import collections
import functools
import operator
import re

SOH, STX, ETX, EOT, ENQ, CR, DLE, NAK, ETB = (bytes([code]) for code in (1, 2, 3, 4, 5, 13, 16, 21, 23))
ENQUIRY, END, REFUSAL = ENQ + CR, EOT + CR, NAK + CR
BID = END + ENQUIRY  # to a slave in an opening ENQ alone is an enquiry
INTERRUPT = b'<'  # behind DLE: RINT
BEGINNINGS = re.compile(b'[' + SOH + STX + ETX + EOT + ENQ + DLE + NAK + ETB + b']')
BLOCK_ENDS = re.compile(b'[' + ETB + ETX + ENQ + b']')
CONTROLS = re.compile(b'[\x00-\x1f\x7f]')
NAMES = {DLE: 'ack', NAK: 'nak', EOT: 'eot', ENQ: 'enq'}

# raw: all bytes up to the unit's end, with what stood before it
Unit = collections.namedtuple('Unit', 'kind raw number ending text', defaults=(0, b'', b''))


def check_characters(body):
    return b'%02X' % functools.reduce(operator.xor, body, 0)


def block(number, text, ending=ETX):
    body = b'%d%05d' % (number, len(text)) + text + ending
    return STX + body + check_characters(body) + CR


def ack(number, prefix=b''):
    return prefix + DLE + b'%d' % number + CR


def rint(prefix=b''):
    return prefix + DLE + INTERRUPT + CR


def with_parity(data):
    """Odd parity in the eighth bit."""
    return bytes(byte | (0 if bin(byte).count('1') % 2 else 128) for byte in data)


def without_parity(data):
    return bytes(byte & 127 for byte in data)


def has_wrong_parity(data):
    return any(bin(byte).count('1') % 2 == 0 for byte in data)


def read_block(raw, data):
    found = re.fullmatch(STX + rb'([0-9])[0-9]{5}(.*)([\x03\x17])..\r', data, re.DOTALL)
    if not found or block(int(found[1]), found[2], found[3]) != data:
        return Unit('bad', raw)
    return Unit('block', raw, int(found[1]), found[3], found[2])


def read_short(raw, data, prefix):
    kind = NAMES[data[:1]]
    most = 15 if kind in ('ack', 'nak') else 0
    if data[-1:] != CR or len(prefix) > most or CONTROLS.search(prefix):
        return Unit('damaged', raw)
    if kind == 'ack' and data[1:2] == INTERRUPT:
        return Unit('rint', raw)
    if kind == 'ack':
        return Unit('ack', raw, data[1] - 48) if data[1:2] in b'01234567' else Unit('damaged', raw)
    return Unit(kind, raw)


def length_of(data):
    """How long the unit is that begins the data; None where that is not known yet."""
    if data[:1] not in (SOH, STX):
        return 3 if data[:1] == DLE else 2 if data[:1] in (NAK, EOT, ENQ) else 4
    end = BLOCK_ENDS.search(data, 1)
    return None if not end else end.start() + (2 if end.group() == ENQ else 4)


def noise_of(read, parity):
    """The bytes, with 0 for each whose parity is wrong."""
    return bytes(0 if has_wrong_parity([byte]) else byte & 127 for byte in read) if parity else read


def beginning_of(read, parity):
    """Where the first unit begins; None for nowhere. The end of a block whose STX was lost is like one, but with wrong
    parity it is noise."""
    data = without_parity(read) if parity else read
    return next((found.start() for found in BEGINNINGS.finditer(data) if not (
        parity and found.group() in (ETX, ETB) and has_wrong_parity(read[found.start():found.end()]))), None)


def first_unit(read, parity=False):
    """The first unit of what was read; None where it has not ended."""
    data, at = without_parity(read) if parity else read, beginning_of(read, parity)
    length = None if at is None else length_of(data[at:])
    if length is None or at + length > len(data):
        return None
    end, before = at + length, noise_of(read[:at], parity)
    raw, wrong = read[:end], parity and has_wrong_parity(read[at:end])
    kind = data[at:at + 1]
    if kind in (ETX, ETB):
        return Unit('none', raw)
    if kind in (SOH, STX):
        abandoned = length == 2 or data[end - 2:end - 1] == ENQ and not BLOCK_ENDS.search(data, at + 1, end - 2)
        if kind == SOH or wrong:
            return Unit('bad', raw)
        if abandoned:
            return Unit('abandoned' if data[end - 1:end] == CR else 'bad', raw)
        return read_block(raw, data[at:end])
    return Unit('damaged', raw) if wrong else read_short(raw, data[at:end], before.rpartition(CR)[2])


class Splitter:
    """Takes a stream apart into units."""

    def __init__(self, parity=False):
        self.rest, self.parity = b'', parity

    def take(self, data):
        self.rest += data
        units, unit = [], first_unit(self.rest, self.parity)
        while unit:
            self.rest = self.rest[len(unit.raw):]
            if unit.kind != 'none':
                units.append(unit)
            unit = first_unit(self.rest, self.parity)
        return units

    def is_inside(self):
        """Whether a unit, or what may be a prefix, has begun."""
        return beginning_of(self.rest, self.parity) is not None or bool(
            noise_of(self.rest, self.parity).rpartition(CR)[2])


def damaged(unit, random, parity):
    """The unit's bytes with detectable damage: one byte or bit changed, or one byte lost, so that nothing in them is a
    unit that may be acted upon. Replies have no check characters: an ACK that becomes another one, or a RINT, is not
    detectable."""
    while True:
        data, at = bytearray(unit.raw), random.randrange(len(unit.raw))
        if parity:
            data[at] ^= 1 << random.randrange(8)
        elif random.random() < 0.2:
            del data[at]
        else:
            data[at] = random.choice((random.randrange(256), data[at] ^ 1 << random.randrange(8), 4, 5, 3, 2, 13))
        units = Splitter(parity).take(bytes(data))
        if bytes(data) != unit.raw and all(each.kind in ('bad', 'damaged', 'abandoned') for each in units):
            return bytes(data)
