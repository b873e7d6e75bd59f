"""Hybrid and minimal blocks by the rules of document 01: the one writer and the one reader that the tests in Python have.

Written from document 01 alone: it shares no code with the library, and nothing here uses it.
"""

import collections
import functools
import operator

SB, EB, CR = b"\x0b", b"\x1c", b"\r"
DATA_BYTES = CR + bytes(range(0x20, 0x7F))
REASONS = (b"C", b"X", b"B", b"G")
FRAME = 12  # what a hybrid block has between SB and EB besides its data: type, version, CR, count and checksum

OK, BYTE, LONG, SHAPE, COUNT, CHECK, INTERRUPTED = 0, 3, 4, 5, 6, 7, 8

# SB's offset, the number, where in the data the first forbidden byte is (for 3, else 0), and of an accepted block its
# type and data, which are empty otherwise.
Verdict = collections.namedtuple("Verdict", "offset number forbidden_offset type data")


def exclusive_or(content):
    return functools.reduce(operator.xor, content)


class Rules:
    """The block settings of a link."""

    def __init__(self, hybrid, limit, start=SB[0], end=EB[0]):
        self.hybrid, self.limit, self.start, self.end = hybrid, limit, start, end

    def block(self, data, kind=b"D", version=b"23", count=None, checksum=None, ending=None):
        """The block that has this data. What is given besides stands in it, right or wrong."""
        ending = bytes([self.end]) + CR if ending is None else ending
        if not self.hybrid:
            return bytes([self.start]) + data + ending
        summed = bytes([self.start]) + kind + version + CR + data
        count = 5 + len(data) if count is None else count
        checksum = b"%03d" % exclusive_or(summed) if checksum is None else checksum
        return summed + b"%05d" % count + checksum + ending

    def type_and_data(self, body):
        """Type and data of the bytes between SB and EB; None where they have not the shape of a block."""
        if not self.hybrid:
            return b"D", body
        kind, data = body[:1], body[4:-8]
        if len(body) < FRAME or body[1:4] != b"23\r":
            return None
        return (kind, data) if kind == b"D" or kind == b"N" and data in REASONS else None

    def judge(self, offset, body, after):
        """The verdict on a block with these bytes between SB and EB and this byte after EB: 4, 5, 3, 6, 7 in this order."""
        if len(body) > self.limit + (FRAME if self.hybrid else 0):
            return Verdict(offset, LONG, 0, b"", b"")
        parts = self.type_and_data(body)
        if after != CR[0] or parts is None:
            return Verdict(offset, SHAPE, 0, b"", b"")
        kind, data = parts
        forbidden = data.translate(None, DATA_BYTES)
        if forbidden:
            return Verdict(offset, BYTE, data.index(forbidden[0]), b"", b"")
        if self.hybrid and body[-8:-3] != b"%05d" % (5 + len(data)):
            return Verdict(offset, COUNT, 0, b"", b"")
        if self.hybrid and body[-3:] not in (b"999", b"%03d" % (self.start ^ exclusive_or(body[:-8]))):
            return Verdict(offset, CHECK, 0, b"", b"")
        return Verdict(offset, OK, 0, kind, data)

    def spans(self, stream):
        """Yields for each block where its SB stands and where its bytes end: at an EB, an SB or the stream's end."""
        start = stream.find(self.start)
        while start >= 0:
            found = (stream.find(byte, start + 1) for byte in (self.start, self.end))
            end = min((at for at in found if at >= 0), default=len(stream))
            yield start, end
            interrupted = stream[end : end + 1] == bytes([self.start])
            start = end if interrupted else stream.find(self.start, end + 1)

    def verdicts(self, stream):
        """Yields the verdict on each block of the stream that has one."""
        for start, end in self.spans(stream):
            if stream[end : end + 1] == bytes([self.start]):
                yield Verdict(start, INTERRUPTED, 0, b"", b"")
            elif end + 1 < len(stream):
                yield self.judge(start, stream[start + 1 : end], stream[end + 1])

    def accepted(self, stream):
        """Type and data of the blocks of the stream that are accepted, in order."""
        return [(verdict.type, verdict.data) for verdict in self.verdicts(stream) if verdict.number == OK]

    def unfinished(self, stream):
        """The bytes of the block that a reader is in at the stream's end."""
        last = list(self.spans(stream))[-1:]
        return b"".join(stream[start:] for start, end in last if end + 1 >= len(stream))
