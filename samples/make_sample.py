#!/usr/bin/env python3
"""Makes the sample capture and the listing that blocklist must print for it.

    python3 samples/make_sample.py           writes capture.bin and capture.expected beside this file
    python3 samples/make_sample.py --check   writes nothing; exit status 1 if they are not as made here

The capture is one line as an operator might find it in the morning: noise, good blocks, and a block
damaged in each way that has a number. Each piece below comes with the verdict that document 01 gives
it ('Hybrid block', 'Reading a stream', 'Numbers that say no'), put there by hand. SB is 0B and EB is
1C, the defaults, and the data limit is 4,096, as in blocklist.

The message is the one of source document 004, lines 98 to 116. Nothing here uses the library.
"""

import os
import sys

HERE = os.path.dirname(os.path.abspath(__file__))
sys.dont_write_bytecode = True
sys.path.append(os.path.join(HERE, "..", "tests"))

from blocks import CR, EB, Rules

DATA_LIMIT = 4096
block = Rules(True, DATA_LIMIT).block

MESSAGE = b"".join(
    segment + CR
    for segment in [
        rb"MSH|^~\&|ORDER|BOSTON VAMC|RESULTS|500|19900314130405|ORU^R01|523123|D|2.3|",
        b"PID||7777790^2^M10||HL7Patient^One||||||||123456789|",
        b"OBR||2930423.08^1^L||199304230800|||||||DERMATOLOGY|",
        b"OBX|CE|10040|OV|1^0^0^0^0|",
        b"OBX|CE|11041|PR|",
        b"OBX|CE|216.6|P|",
        b"OBX|ST|VW^WEIGHT^L||120|KG",
        b"OBX|ST|VB^BLOOD PRESSURE^L||120/80|MM HG",
        b"OBX|ST|VT^TEMPERATURE^L||99|C",
        b"OBX|ST|VP^PULSE^L||75|/MIN",
    ]
)


def pieces():
    """What is in the capture: a remark, the bytes, and for a verdict its number and data length.

    A block that ends as cut (8) has its verdict here too, though it comes with the next block's SB.
    """
    damaged = MESSAGE.replace(b"120/80", b"120/90")
    return [
        ("noise: a greeting between blocks", b"HELO\r\n", None),
        ("the message", block(MESSAGE), (0, len(MESSAGE))),
        ("a NAK block: the checksum was wrong", block(b"X", kind=b"N"), (0, 1)),
        ("an empty data block (P1)", block(b""), (0, 0)),
        ("3: a byte 7F in the data", block(MESSAGE[:30] + b"\x7f" + MESSAGE[31:]), (3, 0)),
        ("noise: EB and CR without a block", EB + CR + b"\x00\xff", None),
        ("a block of exactly 4,096 data bytes", block(b"A" * DATA_LIMIT), (0, DATA_LIMIT)),
        ("4: one data byte more", block(b"A" * (DATA_LIMIT + 1)), (4, 0)),
        ("5: version 22, an older site", block(MESSAGE, version=b"22"), (5, 0)),
        ("5: LF after EB where CR belongs", block(MESSAGE, ending=EB + b"\n"), (5, 0)),
        ("6: the count is one too high", block(MESSAGE, count=len(MESSAGE) + 6), (6, 0)),
        (
            "7: a digit of the blood pressure changed on the line",
            block(MESSAGE).replace(MESSAGE, damaged),
            (7, 0),
        ),
        ("8: EB and CR were lost, the next block follows", block(MESSAGE, ending=b""), (8, 0)),
        ("sum not computed", block(MESSAGE, checksum=b"999"), (0, len(MESSAGE))),
        ("an answer that an operator typed: noise", b"ok?\r\n", None),
        ("a NAK block: the count was wrong", block(b"C", kind=b"N"), (0, 1)),
        ("unfinished at the end: no verdict", block(MESSAGE)[:200], None),
    ]


def capture_and_listing():
    capture, listing = b"", b""
    for _, piece, verdict in pieces():
        if verdict is not None:
            listing += b"%d %d %d\n" % (len(capture), *verdict)
        capture += piece
    return capture, listing


def main():
    made = dict(zip(("capture.bin", "capture.expected"), capture_and_listing()))
    wrong = []
    for name, content in made.items():
        path = os.path.join(HERE, name)
        if "--check" not in sys.argv[1:]:
            with open(path, "wb") as file:
                file.write(content)
        with open(path, "rb") as file:
            if file.read() != content:
                wrong.append(name)
    for name in wrong:
        print(f"samples/{name} is not what make_sample.py makes")
    return 1 if wrong else 0


if __name__ == "__main__":
    assert len(MESSAGE) == 367
    sys.exit(main())
