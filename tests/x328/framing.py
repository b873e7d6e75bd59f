"""The example's framing, against the units that units.py makes of the same bytes."""

import os
import random
import subprocess

import notes
import units
from units import CR, DLE, ENQ, EOT, ETB, ETX, NAK, SOH, STX

HERE = os.path.dirname(os.path.abspath(__file__))
ROOT = os.path.dirname(os.path.dirname(HERE))
NONE, DEVICE, SOFTWARE = range(3)
# 000, C.3.1.7, with its two misprints put right: STX is 02 (not 01), and the i of `is` is 69 (not I, 49)
EXAMPLE = bytes.fromhex('02 31 30 30 30 31 33 48 4C 37 20 69 73 20 67 72 65 61 74 21 03 36 44 0D')
SEGMENTS = units.block(3, b'MSH|^~\\&|LAB\rA\rPID|100003abc\r', ETB)
RINT = bytes.fromhex('10 3C 0D')  # 000, C.3.1.4
# a text that would be a block if the byte before it were STX
ALIKE = units.block(1, b'x' + units.block(1, b'abc')[1:-4] + b'\r')


class Framing:
    def __init__(self, program):
        self.program = program

    def ask(self, lines):
        said = subprocess.run([self.program], input=''.join(line + '\n' for line in lines), stdout=subprocess.PIPE,
                              text=True, check=True, timeout=60).stdout.split('\n')[:-1]
        if len(said) != len(lines):
            raise RuntimeError('%d answers to %d lines' % (len(said), len(lines)))
        return said

    def units(self, streams, parity=NONE):
        """What the example makes of each stream of bytes, as words."""
        return [said.split() for said in self.ask(['%d %s' % (parity, stream.hex()) for stream in streams])]


def build(folder, *options, sources=os.path.join(ROOT, 'examples', 'x328')):
    program = os.path.join(folder, 'units')
    os.makedirs(folder, exist_ok=True)
    subprocess.run(['gcc', '-std=c99', '-O1', '-Wall', '-Wextra', '-Werror', '-pedantic', *options, '-I', sources, '-I',
                    os.environ.get('INCLUDE', os.path.join(ROOT, 'include')), '-o', program,
                    os.path.join(HERE, 'units.c')] +
                   [os.path.join(sources, name) for name in ('frame.c', 'splitter.c', 'parity.c')], check=True)
    return Framing(program)


def words(stream, parity=False):
    """The same words by units.py."""
    splitter, said = units.Splitter(parity), []
    for unit in splitter.take(stream):
        said.append(unit.kind)
        if unit.kind == 'block':
            said[-1] += ':%d:%d:%s' % (unit.number, unit.ending[0], unit.text.hex())
        elif unit.kind == 'ack':
            said[-1] += ':%d' % unit.number
    return said + ['..'] if splitter.is_inside() else said


def example(framing):
    """000's own block, read and written; and a block whose check characters are small letters is another one."""
    if framing.units([EXAMPLE]) != [['block:1:3:' + b'HL7 is great!'.hex()]]:
        return 'it reads %s' % framing.units([EXAMPLE])
    written = framing.ask(['w1XHL7 is great!'])[0].split()
    wanted = [EXAMPLE, ENQ + CR, EOT + CR, b'WARD' + NAK + CR, DLE + b'7' + CR, RINT, b'WARD' + RINT, EOT + CR + ENQ + CR]
    if [bytes.fromhex(each) for each in written] != wanted or units.block(1, b'HL7 is great!') != EXAMPLE:
        return 'it writes %s' % written
    return None if framing.units([EXAMPLE.replace(b'6D', b'6d')]) == [['bad']] else 'small letters pass'


def single_damage(framing):
    """No block with one byte changed, lost or doubled is taken for a block, nor for any other unit that is acted upon."""
    streams = []
    for block in (EXAMPLE, SEGMENTS, ALIKE, units.block(0, b'')):
        streams += [block[:at] + bytes([byte]) + block[at + 1:] for at in range(len(block)) for byte in range(256)
                    if byte != block[at]]
        streams += [block[:at] + block[at + 1:] for at in range(len(block))]
        streams += [block[:at] + block[at:at + 1] + block[at:] for at in range(1, len(block) - 1)]
    notes.note('%d damaged blocks', len(streams))
    for stream, said in zip(streams, framing.units(streams)):
        if set(said) - {'bad', 'abandoned', 'damaged', '..'}:
            return '%s is taken for %s' % (stream, said)
    return None


def single_bits(framing):
    """With parity no unit with one bit changed is taken, an ACK neither, nor RINT, which differs from ACK 4 in one."""
    streams = []
    for unit in (EXAMPLE, units.ack(4), units.ack(2, b'WARD'), RINT, b'WARD' + RINT, units.ENQUIRY, units.END,
                 units.REFUSAL):
        data = units.with_parity(unit)
        streams += [data[:at] + bytes([data[at] ^ 1 << bit]) + data[at + 1:]
                    for at in range(len(data)) for bit in range(8)]
    for stream, said in zip(streams, framing.units(streams, SOFTWARE)):
        if set(said) - {'bad', 'abandoned', 'damaged', '..'}:
            return '%s is taken for %s' % (stream, said)
    whole = framing.units([units.with_parity(EXAMPLE + units.ack(2, b'WARD') + RINT + units.ENQUIRY)], SOFTWARE)
    return None if whole == [['block:1:3:' + b'HL7 is great!'.hex(), 'ack:2', 'rint', 'enq']] else whole


def damaged_rint(framing):
    """A RINT with one byte changed, lost or doubled is not acted upon; but where its second byte becomes a digit it is an
    ACK, and nothing but parity can tell."""
    streams = [RINT[:at] + bytes([byte]) + RINT[at + 1:] for at in range(3) for byte in range(256) if byte != RINT[at]]
    streams += [RINT[:at] + RINT[at + 1:] for at in range(3)] + [RINT[:at] + RINT[at:at + 1] + RINT[at:] for at in (0, 1)]
    acks, taken = {units.ack(number): ['ack:%d' % number] for number in range(8)}, 0
    for stream, said in zip(streams, framing.units(streams)):
        taken += said == acks.get(stream)
        if said != acks.get(stream) and set(said) - {'bad', 'abandoned', 'damaged', '..'}:
            return '%s is taken for %s' % (stream, said)
    notes.note('%d damaged, %d of them an ACK', len(streams), taken)
    return None if taken == 8 else '%d are an ACK' % taken


def device_parity(framing):
    """FF 00 before a byte says that its parity was wrong, FF FF is FF."""
    text = b'\xff\x00 \xff'
    block, half = units.block(2, text), len(EXAMPLE) // 2
    streams = [block.replace(b'\xff', b'\xff\xff'), EXAMPLE[:half] + b'\xff\x00' + EXAMPLE[half:],
               b'\xff\x00' + units.ack(3), units.ack(3), DLE + b'\xff\x003' + CR, EOT + b'\xff\x00' + CR + units.END]
    wanted = [['block:2:3:' + text.hex()], ['bad'], ['damaged'], ['ack:3'], ['damaged'], ['damaged', 'eot']]
    said = framing.units(streams, DEVICE)
    return None if said == wanted else said


def every_split(framing):
    """Wherever the stream is parted, the units are the same."""
    stream = b'noise\r' + EXAMPLE + units.ack(0, b'WARD') + SEGMENTS + b'\xff\x00' + units.ENQUIRY + RINT + units.BID
    for parity in (NONE, DEVICE):
        said = framing.ask(['%d %s %s' % (parity, stream[:at].hex(), stream[at:].hex()) for at in range(1, len(stream))])
        if len(set(said)) != 1 or 'block' not in said[0]:
            return set(said)
    return None


CASES = [
    # a text with control characters: the first ETB, ETX or ENQ ends the block, whatever the length says
    (units.block(1, b'a' + STX + b'b' + EOT + CR + NAK + DLE + b'1' + CR), ['block:1:3:6102620' + '40d1510310d']),
    (units.block(1, b'ab' + ETX + b'cd') + units.END, ['bad', 'eot']),
    (STX + b'199999abc' + ENQ + CR + units.END, ['abandoned', 'eot']),
    (STX + ENQ + CR + units.ENQUIRY, ['abandoned', 'enq']),
    (STX + b'1000' + ENQ + b'x' + units.ENQUIRY, ['bad', 'enq']),
    # a length that is believed would wait for bytes that never come
    (STX + b'199999abc' + ETX + b'00' + CR + EXAMPLE, ['bad', 'block:1:3:' + b'HL7 is great!'.hex()]),
    # a check character or a digit is never a unit of its own
    (STX + b'100001a' + ETX + EOT + CR + CR + units.END, ['bad', 'eot']),
    (STX + b'100001a' + ETX + ENQ + CR + STX + units.ack(1), ['bad', 'ack:1']),
    (DLE + EOT + CR + units.END, ['damaged', 'eot']),
    (DLE + ENQ + CR, ['damaged']), (DLE + NAK + CR, ['damaged']), (DLE + STX + CR, ['damaged']),
    (DLE + b'8' + CR, ['damaged']), (DLE + b'=' + CR, ['damaged']), (DLE + b'|' + CR, ['damaged']),
    # RINT, and what is none
    (RINT, ['rint']), (b'x' * 15 + RINT, ['rint']), (b'x' * 16 + RINT, ['damaged']), (b'a\tb' + RINT, ['damaged']),
    (DLE + b'<' + EOT + units.END, ['damaged', 'eot']), (DLE + b'<' + RINT, ['damaged']), (b'<' + CR, []),
    (RINT + units.ack(4) + RINT, ['rint', 'ack:4', 'rint']),
    # a bid is an EOT and an ENQ
    (units.BID, ['eot', 'enq']), (EOT + units.ENQUIRY, ['damaged']),
    (DLE + DLE + b'1' + units.ack(2), ['damaged', 'ack:2']),
    (ETX + EOT + CR + CR + units.END, ['eot']), (ETB + ENQ + NAK + CR + units.REFUSAL, ['nak']),
    # where TERM belongs
    (NAK + EOT + units.END, ['damaged', 'eot']), (EOT + ENQ + units.ENQUIRY, ['damaged', 'enq']),
    (EXAMPLE[:-1] + EOT + units.END, ['bad', 'eot']),
    # prefixes
    (units.ack(5, b'x' * 15), ['ack:5']), (units.ack(5, b'x' * 16), ['damaged']),
    (b'x' * 15 + units.REFUSAL, ['nak']), (b'x' * 16 + units.REFUSAL, ['damaged']),
    (b'x' * 40 + CR + b'x' * 15 + units.ack(1), ['ack:1']), (b'a\tb' + units.ack(1), ['damaged']),
    (b'\x06' + units.ack(1), ['damaged']), (b'x' + units.END, ['damaged']),
    (b'x' + units.ENQUIRY, ['damaged']),
    (b'x' + CR + units.END, ['eot']), (b'noise' + EXAMPLE, ['block:1:3:' + b'HL7 is great!'.hex()]),
    # a heading is not agreed
    (SOH + EXAMPLE[1:], ['bad']),
    (units.block(8, b'a'), ['block:8:3:61']), (units.block(0, b''), ['block:0:3:']),
    (units.block(7, b'x' * 99999), ['block:7:3:' + '78' * 99999]),
    (units.block(7, b'x' * 100000), ['bad']),
]


def cases(framing):
    for stream, wanted in CASES:
        said = framing.units([stream])[0]
        if said != wanted or words(stream) != wanted:
            return '%s: %s, and by units.py %s, not %s' % (stream[:60], said, words(stream), wanted)
    return None


def drawn_stream(source):
    """Units, whole and damaged, and noise."""
    parts = []
    for _ in range(source.randrange(1, 6)):
        text = bytes(source.choice(b'abc|19\r\r<\x01\x02\x03\x04\x05\x10\x15\x17\xff') for _ in range(source.randrange(8)))
        part = source.choice((units.block(source.randrange(9), text, source.choice((ETX, ETB))), text, units.BID, units.END,
                              units.REFUSAL, units.ENQUIRY, units.rint(text[:4]), units.ack(source.randrange(8), text[:4]),
                              STX + text, DLE + text))
        if source.random() < 0.4:
            at = source.randrange(len(part) + 1)
            part = part[:at] + bytes([source.randrange(24)]) * source.randrange(3) + part[at + source.randrange(2):]
        parts.append(part)
    return b''.join(parts)


def drawn(framing, seed, count):
    """The same units by both splitters, of streams that are drawn."""
    source = random.Random(seed)
    for parity in (NONE, SOFTWARE):
        streams = [drawn_stream(source) for _ in range(count)]
        if parity == SOFTWARE:
            streams = [bytes(byte ^ (source.random() < 0.02) << source.randrange(8) for byte in units.with_parity(
                units.without_parity(stream))) for stream in streams]
        for stream, said in zip(streams, framing.units(streams, parity)):
            if said != words(stream, parity == SOFTWARE):
                return '%s: %s, and by units.py %s' % (stream, said, words(stream, parity == SOFTWARE))
    notes.note('%d streams', 2 * count)
    return None
