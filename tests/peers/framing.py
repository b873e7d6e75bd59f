"""Minimal blocks between the library and python3-hl7, good ones and bad ones, in both directions."""

import random
import socket
import threading

import hl7
import hl7.client

import pythonhl7
import samples
from blocks import BYTE, CR, EB, INTERRUPTED, LONG, OK, SB, SHAPE, Rules
from pythonhl7 import UNFINISHED

LF = b"\n"
MINIMAL = Rules(False, 4096)
framed = MINIMAL.block


def written_here_read_there(counting, library):
    rng = random.Random(701)
    real = samples.real_messages()
    generated = [samples.message(rng) for _ in range(40)]
    with counting.case("our minimal blocks at readblock: real, generated and any allowed data") as case:
        for contents in [real, generated, [samples.data(rng) for _ in range(40)], [b""], [CR], [b"A", b"", b"B"]]:
            stream = b"".join(library.block(data) for data in contents)
            for parts in samples.cuttings(rng, stream):
                case.equal(pythonhl7.readblock(parts), contents, "blocks")
    with counting.case("our minimal blocks at readmessage: the messages written back are equal") as case:
        for contents in [real, generated]:
            stream = b"".join(library.block(data) for data in contents)
            for parts in samples.cuttings(rng, stream):
                case.equal(pythonhl7.readmessage(parts), contents, "messages")
    with counting.case("our minimal blocks at read_stream: equal but for CR at the ends, which it strips") as case:
        for contents in [real, generated]:
            stream = b"".join(library.block(data) for data in contents)
            for parts in samples.cuttings(rng, stream):
                case.equal(pythonhl7.read_stream(parts), [data.strip(CR) for data in contents], "messages")
    with counting.case("our answers and control messages at readmessage") as case:
        contents = [library.write_answer(b"17", code, 17)[2] for code in (1, 2, 3)]
        contents += [library.write_control("ADT", number)[2] for number in (0, -1)]
        case.equal([len(data) for data in contents], [44, 44, 44, 31, 33], "lengths in document 01")
        stream = b"".join(library.block(data, 128) for data in contents)
        for parts in samples.cuttings(rng, stream):
            case.equal(pythonhl7.readmessage(parts), contents, "messages")
    with counting.case("our largest block, 99,994 bytes: readblock refuses over its limit of 64 KiB") as case:
        largest = b"MSH|" + b"x" * 99989 + CR
        stream = library.block(largest) + library.block(b"B")
        case.equal(len(stream), 99994 + 3 + 4, "bytes on the line")
        case.equal(pythonhl7.readblock([stream]), ["ValueError", b"B"], "limit as it comes, in one part")
        pieces = [stream[at : at + 700] for at in range(0, len(stream), 700)]
        case.equal(pythonhl7.readblock(pieces), ["ValueError", "InvalidBlockError", b"B"], "the same in small parts")
        for parts in ([stream], pieces):
            case.equal(pythonhl7.readblock(parts, limit=2**17), [largest, b"B"], "limit of 128 KiB")


def client_bytes(messages):
    """What MLLPClient.send_message puts on a line, for each message."""
    with socket.create_server(("127.0.0.1", 0)) as server:
        taken = []

        def serve():
            line, _ = server.accept()
            with line:
                line.settimeout(10)
                for _ in messages:
                    got = b""
                    while not got.endswith(EB + CR):
                        got += line.recv(65536)
                    taken.append(got)
                    line.sendall(b"x")

        thread = threading.Thread(target=serve, daemon=True)
        thread.start()
        with hl7.client.MLLPClient("127.0.0.1", server.getsockname()[1]) as client:
            client.socket.settimeout(10)
            for message in messages:
                client.send_message(message)
        thread.join(10)
        return taken


def written_there_read_here(counting, library):
    rng = random.Random(702)
    real = samples.real_messages()
    generated = [samples.message(rng) for _ in range(40)]

    def wanted(contents):
        verdicts, offset = [], 0
        for data in contents:
            verdicts.append((offset, OK, 0, data))
            offset += len(data) + 3
        return verdicts

    with counting.case("writeblock at our reader: accepted, data equal, in any parts") as case:
        for contents in [real, generated, [samples.data(rng) for _ in range(40)], [b"", b"", CR]]:
            stream = b"".join(pythonhl7.writeblock(data) for data in contents)
            for parts in samples.cuttings(rng, stream):
                case.equal(library.read(4096, parts), wanted(contents), "verdicts")
            for data in contents:
                case.equal(library.check(4096, pythonhl7.writeblock(data)), (OK, 0, data), "check of one block")
                case.equal(pythonhl7.writeblock(data), library.block(data), "the same bytes as our writer's")
    with counting.case("writemessage of a parsed message at our reader") as case:
        for contents in [real, generated]:
            stream = b"".join(pythonhl7.writemessage(hl7.parse(data)) for data in contents)
            for parts in samples.cuttings(rng, stream):
                case.equal(library.read(4096, parts), wanted(contents), "verdicts")
    with counting.case("MLLPClient.send_message over TCP at our reader: bytes, text and a parsed message") as case:
        contents = real + generated[:8]
        for make in (bytes, bytes.decode, hl7.parse):
            stream = b"".join(client_bytes([make(data) for data in contents]))
            for parts in samples.cuttings(rng, stream):
                case.equal(library.read(4096, parts), wanted(contents), "verdicts")


# ---- bad blocks

A = b"MSH|^~\\&|||||||ADT^A01|1|P|2.3.1|1\r"
B = b"MSH|^~\\&|||||||ADT^A01|2|P|2.3.1|2\r"
a, b = A[:-1], B[:-1]  # as read_stream gives them


def with_byte(byte):
    return A[:10] + byte + A[10:]


def refused_byte(byte, **seen):
    """A byte that data may not have, at offset 10 of the data."""
    data = with_byte(byte)
    length = len(data) + 3
    return dict(
        {
            "stream": framed(data) + framed(B),
            "ours": [(0, BYTE, 10, b""), (length, OK, 0, B)],
            "readblock": [data, B],
            "readmessage": [data, B],
            "read_stream": [data[:-1], b],
        },
        **seen
    )


BLOCK = len(A) + 3
LONG_TEXT = A + b"x" * 70000
HYBRID = b"D23\rA\r00007015"

# name: the stream; our verdicts (offset, number, forbidden, data), by hand from document 01, with D of 4,096; and
# what was seen of python3-hl7's three readers.
BAD = {
    "two good blocks": {
        "stream": framed(A) + framed(B),
        "ours": [(0, OK, 0, A), (BLOCK, OK, 0, B)],
        "readblock": [A, B],
        "readmessage": [A, B],
        "read_stream": [a, b],
    },
    "byte 7F": refused_byte(b"\x7f"),
    "byte 80": refused_byte(b"\x80", readmessage=["UnicodeDecodeError", B]),
    "byte E9, Latin-1": refused_byte(b"\xe9", readmessage=["UnicodeDecodeError", B]),
    "bytes C3 A9, UTF-8": refused_byte(b"\xc3\xa9", readmessage=["UnicodeDecodeError", B]),
    "byte 00": refused_byte(b"\x00"),
    "tab": refused_byte(b"\t"),
    "line feed": refused_byte(LF),
    "form feed (read_stream splits at it)": refused_byte(
        b"\x0c", read_stream={1: [A[:10], a[10:], b], 4096: [A[:10], "MLLPException"]}
    ),
    "MLLP release 2, commit accept 06": {
        "stream": framed(b"\x06") + framed(B),
        "ours": [(0, BYTE, 0, b""), (4, OK, 0, B)],
        "readblock": [b"\x06", B],
        "readmessage": ["ParseException", B],
        "read_stream": [b"\x06", b],
    },
    "MLLP release 2, commit reject 15": {
        "stream": framed(b"\x15") + framed(B),
        "ours": [(0, BYTE, 0, b""), (4, OK, 0, B)],
        "readblock": [b"\x15", B],
        "readmessage": ["ParseException", B],
        "read_stream": [b"\x15", b],
    },
    "no EB, the stream ends": {
        "stream": SB + A,
        "ours": [],
        "readblock": [UNFINISHED],
        "readmessage": [UNFINISHED],
        "read_stream": ["MLLPException"],
    },
    "EB, and the stream ends": {
        "stream": SB + A + EB,
        "ours": [],
        "readblock": [UNFINISHED],
        "readmessage": [UNFINISHED],
        "read_stream": [a],
    },
    "EB CR lost, then a good block: they take two for one": {
        "stream": SB + A + framed(B),
        "ours": [(0, INTERRUPTED, 0, b""), (len(A) + 1, OK, 0, B)],
        "readblock": [A + SB + B],
        "readmessage": [A + SB + B],
        "read_stream": [A + SB + b],
    },
    "EB lost, then a good block: they take two for one": {
        "stream": SB + A + CR + framed(B),
        "ours": [(0, INTERRUPTED, 0, b""), (len(A) + 2, OK, 0, B)],
        "readblock": [A + CR + SB + B],
        "readmessage": [A + CR + SB + B],
        "read_stream": [A + CR + SB + b],
    },
    "EB without CR, then a good block": {
        "stream": SB + A + EB + framed(B),
        "ours": [(0, SHAPE, 0, b""), (len(A) + 2, OK, 0, B)],
        "readblock": [A + EB + SB + B],
        "readmessage": [A + EB + SB + B],
        "read_stream": [a, b],
    },
    "EB LF for EB CR": {
        "stream": SB + A + EB + LF + framed(B),
        "ours": [(0, SHAPE, 0, b""), (BLOCK, OK, 0, B)],
        "readblock": [A + EB + LF + SB + B],
        "readmessage": [A + EB + LF + SB + B],
        "read_stream": [a, LF + SB + b],
    },
    "EB EB CR": {
        "stream": SB + A + EB + EB + CR + framed(B),
        "ours": [(0, SHAPE, 0, b""), (BLOCK + 1, OK, 0, B)],
        "readblock": [A + EB, B],
        "readmessage": [A, B],
        "read_stream": [a, b"", b],
    },
    "EB without CR and byte 7F: 5 comes before 3": {
        "stream": SB + with_byte(b"\x7f") + EB + framed(B),
        "ours": [(0, SHAPE, 0, b""), (len(A) + 3, OK, 0, B)],
        "readblock": [with_byte(b"\x7f") + EB + SB + B],
        "readmessage": [with_byte(b"\x7f") + EB + SB + B],
        "read_stream": [with_byte(b"\x7f")[:-1], b],
    },
    "SB inside": {
        "stream": framed(A[:12] + SB + A[12:]) + framed(B),
        "ours": [(0, INTERRUPTED, 0, b""), (13, OK, 0, A[12:]), (BLOCK + 1, OK, 0, B)],
        "readblock": [A[:12] + SB + A[12:], B],
        "readmessage": [A[:12] + SB + A[12:], B],
        "read_stream": [A[:12] + SB + a[12:], b],
    },
    "SB twice": {
        "stream": SB + framed(A) + framed(B),
        "ours": [(0, INTERRUPTED, 0, b""), (1, OK, 0, A), (BLOCK + 1, OK, 0, B)],
        "readblock": [SB + A, B],
        "readmessage": [A, B],
        "read_stream": [a, b],
    },
    "noise before SB: they lose a good block": {
        "stream": b"HELO\r\n" + framed(A) + framed(B),
        "ours": [(6, OK, 0, A), (6 + BLOCK, OK, 0, B)],
        "readblock": ["InvalidBlockError", B],
        "readmessage": ["InvalidBlockError", B],
        "read_stream": [b"HELO\r\n" + SB + a, b],
    },
    "a line feed between blocks: they lose a good block": {
        "stream": framed(A) + LF + framed(B),
        "ours": [(0, OK, 0, A), (BLOCK + 1, OK, 0, B)],
        "readblock": [A, "InvalidBlockError"],
        "readmessage": [A, "InvalidBlockError"],
        "read_stream": [a, LF + SB + b],
    },
    "SB lost": {
        "stream": A + EB + CR + framed(B),
        "ours": [(len(A) + 2, OK, 0, B)],
        "readblock": ["InvalidBlockError", B],
        "readmessage": ["InvalidBlockError", B],
        "read_stream": [a, b],
    },
    "EB CR alone before a block": {
        "stream": EB + CR + framed(B),
        "ours": [(2, OK, 0, B)],
        "readblock": ["InvalidBlockError", B],
        "readmessage": ["InvalidBlockError", B],
        "read_stream": [b"", b],
    },
    "an empty block": {
        "stream": framed(b"") + framed(B),
        "ours": [(0, OK, 0, b""), (3, OK, 0, B)],
        "readblock": [b"", B],
        "readmessage": ["ParseException", B],
        "read_stream": [b"", b],
    },
    "a hybrid block on a minimal line": {
        "stream": framed(HYBRID) + framed(B),
        "ours": [(0, OK, 0, HYBRID), (len(HYBRID) + 3, OK, 0, B)],
        "readblock": [HYBRID, B],
        "readmessage": ["ParseException", B],
        "read_stream": [HYBRID, b],
    },
    "too long": {
        "stream": framed(LONG_TEXT) + framed(B),
        "ours": [(0, LONG, 0, b""), (len(LONG_TEXT) + 3, OK, 0, B)],
        "readblock": {1: ["ValueError", "InvalidBlockError", B], 4096: ["ValueError", B]},
        "readmessage": {1: ["ValueError", "InvalidBlockError", B], 4096: ["ValueError", B]},
        "read_stream": [LONG_TEXT, b],
    },
    "too long and EB without CR: 4 comes before 5": {
        "stream": SB + LONG_TEXT + EB + framed(B),
        "ours": [(0, LONG, 0, b""), (len(LONG_TEXT) + 2, OK, 0, B)],
        "readblock": {1: ["ValueError", "InvalidBlockError"], 4096: ["ValueError"]},
        "readmessage": {1: ["ValueError", "InvalidBlockError"], 4096: ["ValueError"]},
        "read_stream": [LONG_TEXT, b],
    },
    "too long and EB CR lost: 8 comes before 4": {
        "stream": SB + LONG_TEXT + framed(B),
        "ours": [(0, INTERRUPTED, 0, b""), (len(LONG_TEXT) + 1, OK, 0, B)],
        "readblock": {1: ["ValueError", "InvalidBlockError"], 4096: ["ValueError"]},
        "readmessage": {1: ["ValueError", "InvalidBlockError"], 4096: ["ValueError"]},
        "read_stream": [LONG_TEXT + SB + b],
    },
}


def bad_blocks(counting, library):
    rng = random.Random(703)
    for name, row in BAD.items():
        stream = row["stream"]
        with counting.case("bad blocks: %s" % name) as case:
            for parts in samples.cuttings(rng, stream):
                case.equal(library.read(4096, parts), row["ours"], "our verdicts")
            short = 1 if len(stream) < 20000 else 701
            for size in (1, 4096):
                step = short if size == 1 else len(stream)
                parts = [stream[at : at + step] for at in range(0, len(stream), step)]
                for reader in ("readblock", "readmessage", "read_stream"):
                    wanted = row[reader]
                    if isinstance(wanted, dict):
                        wanted = wanted[size]
                    case.equal(getattr(pythonhl7, reader)(parts), wanted, "%s in parts of %d" % (reader, step))
    with counting.case("bad blocks: data of D and of D + 1 bytes, D of 128 and of 99,994") as case:
        for limit in (128, 99994):
            fits, over = b"x" * limit, b"x" * (limit + 1)
            stream = pythonhl7.writeblock(fits) + pythonhl7.writeblock(over) + pythonhl7.writeblock(B)
            wanted = [(0, OK, 0, fits), (limit + 3, LONG, 0, b""), (2 * limit + 7, OK, 0, B)]
            for parts in samples.cuttings(rng, stream):
                case.equal(library.read(limit, parts), wanted, "verdicts with D = %d" % limit)
    with counting.case("bad blocks: our writer refuses what would be one") as case:
        for byte in list(range(0x20)) + list(range(0x7F, 0x100)):
            wanted = (OK, 0, framed(with_byte(b"\r"))) if byte == 0x0D else (BYTE, 10, b"")
            case.equal(library.minimal(4096, with_byte(bytes([byte]))), wanted, "byte %02X" % byte)
        case.equal(library.minimal(128, b"x" * 129), (LONG, 0, b""), "D + 1 bytes")
        case.equal(library.minimal(99994, b"x" * 99995), (LONG, 0, b""), "99,995 bytes")
        case.equal(library.minimal(128, b"\x7f" * 129), (LONG, 0, b""), "both: 4 comes before 3")
    with counting.case("bad blocks: python3-hl7's writers write each of them") as case:
        for byte in (0x00, 0x0B, 0x1C, 0x7F, 0xE9):
            data = with_byte(bytes([byte]))
            case.equal(pythonhl7.writeblock(data), framed(data), "writeblock, byte %02X" % byte)
        jose = "MSH|^~\\&|||||||ADT^A01|1|P|2.3.1|1\rPID|||||Jos\u00e9\r"
        [stream] = client_bytes([jose])
        case.equal(library.read(4096, [stream]), [(0, BYTE, 46, b"")], "MLLPClient, text with an e acute, as UTF-8")
        case.equal(jose[46], "\u00e9", "the place that our reader names")
        try:
            pythonhl7.writemessage(hl7.parse(jose))
            case.true(False, "writemessage refuses it")
        except UnicodeEncodeError:
            case.true(True, "writemessage refuses it")


def damaged_streams(counting, library):
    """One byte damaged at random: our verdicts against document 01's rule, as tests/blocks.py has it."""
    rng = random.Random(704)
    taken = lost = same = 0
    with counting.case("damaged streams: 600 with one damaged byte, against document 01's rule in Python") as case:
        for _ in range(600):
            contents = [samples.message(rng, 1) for _ in range(3)]
            stream = bytearray(b"".join(pythonhl7.writeblock(data) for data in contents))
            at = rng.randrange(len(stream))
            if rng.random() < 0.5:
                at = rng.choice([i for i, x in enumerate(stream) if x in b"\x0b\x1c\r"])
            how = rng.randrange(3)
            if how == 0:
                stream[at] = rng.choice([0x0B, 0x1C, 0x0D, 0x0A, 0x7F, 0xE9, 0x00, 0x41])
            elif how == 1:
                del stream[at]
            else:
                stream.insert(at, rng.choice([0x0B, 0x1C, 0x0D, 0x0A, 0x7F, 0xE9, 0x41]))
            stream = bytes(stream)
            wanted = [(*verdict[:3], verdict.data) for verdict in MINIMAL.verdicts(stream)]
            places = sorted(rng.randint(0, len(stream)) for _ in range(3))
            parts = [stream[x:y] for x, y in zip([0] + places, places + [len(stream)])]
            case.equal(library.read(4096, parts), wanted, "verdicts of %r" % stream)
            theirs = [data for data in pythonhl7.readblock([stream]) if isinstance(data, bytes)]
            accepted = [data for _, number, _, data in wanted if number == OK]
            taken += any(data not in accepted for data in theirs)
            lost += any(data not in theirs for data in accepted)
            same += theirs == accepted
        # as docs/PEERS.md has it
        case.equal((same, taken, lost), (306, 274, 124), "readblock: same blocks, took a refused one, lost a good one")


def run(counting, library, _):
    written_here_read_there(counting, library)
    written_there_read_here(counting, library)
    bad_blocks(counting, library)
    damaged_streams(counting, library)
