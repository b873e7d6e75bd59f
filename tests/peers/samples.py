"""Messages and ways to cut a stream, all from stated seeds."""

import pathlib
import random
import string

DATA = pathlib.Path(__file__).resolve().parent.parent / "host" / "data"

# The whole messages of source document 004; tests/host/data/README.md has the lines.
REAL = [
    "004-line-98.hl7",
    "004-line-1998.hl7",
    "004-line-2296.hl7",
    "004-line-4316.hl7",
]

# Bytes that a field may have: 20 to 7E without the bar.
FIELD_BYTES = "".join(chr(byte) for byte in range(0x20, 0x7F) if chr(byte) != "|")


def real_messages():
    return [(DATA / name).read_bytes() for name in REAL]


def numbered(number, control_id=None, kind="ADT^A01", name="DOE^JO"):
    """A transaction as a host would submit it."""
    return (
        "MSH|^~\\&|LAB|X|WARD|Y|20261116||%s|%s|P|2.3.1|%s\rPID|||%s||%s\r"
        % (kind, number if control_id is None else control_id, number, number, name)
    ).encode()


def field(rng, least=0, most=12):
    return "".join(rng.choice(FIELD_BYTES) for _ in range(rng.randint(least, most)))


def segment(rng):
    name = "".join(rng.choice(string.ascii_uppercase) for _ in range(3))
    return "|".join([name] + [field(rng) for _ in range(rng.randint(0, 9))]) + "x"


def message(rng, segments=3):
    """A message as HL7 has it: a header, segments, each ended by CR, no blank at the end."""
    head = ["MSH", "^~\\&"] + [field(rng) for _ in range(6)]
    head += ["ADT^A01", field(rng, 1, 20), "P", "2.3.1", str(rng.randint(0, 10**6))]
    lines = ["|".join(head)] + [segment(rng) for _ in range(rng.randint(0, segments))]
    return ("\r".join(lines) + "\r").encode()


def data(rng, most=300):
    """Any bytes that a block may have: 20 to 7E and CR."""
    allowed = bytes(range(0x20, 0x7F)) + b"\r"
    return bytes(rng.choice(allowed) for _ in range(rng.randint(0, most)))


def cuttings(rng, stream):
    """The stream as one part, in parts of one byte (short ones) or of seven, and cut at random places."""
    yield [stream]
    size = 1 if len(stream) <= 20000 else 4093
    yield [stream[at : at + size] for at in range(0, len(stream), size)]
    size = 7 if len(stream) <= 20000 else 701
    yield [stream[at : at + size] for at in range(0, len(stream), size)]
    for _ in range(2):
        places = sorted(rng.randint(0, len(stream)) for _ in range(rng.randint(1, 9)))
        yield [stream[a:b] for a, b in zip([0] + places, places + [len(stream)])]
