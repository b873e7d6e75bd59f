#!/usr/bin/env python3
"""Writes a stream of several MB to standard output: good blocks, damaged ones and noise, seeded.

    make_big.py [BYTES]   at least BYTES bytes (default 6,000,000); the last block is a good one

Lengths go up to just over blocklist's data limit of 4,096.
"""

import pathlib
import random
import sys

sys.dont_write_bytecode = True
sys.path.append(str(pathlib.Path(__file__).resolve().parents[1]))

from blocks import CR, DATA_BYTES, EB, REASONS, SB, Rules

RULES = Rules(True, 4096)
SPECIAL = [SB, EB, CR, b"\n", b"\x00", b"\x7f", b"\xff", b"D", b"N", b"9", b"0"]


def random_block(random_source):
    if random_source.random() < 0.1:
        return RULES.block(random_source.choice(REASONS), kind=b"N")
    length = random_source.choice(
        [0, 1, random_source.randrange(64), random_source.randrange(600), 4090 + random_source.randrange(10)]
    )
    data = bytes(random_source.choices(DATA_BYTES, k=length))
    return RULES.block(data, checksum=b"999" if random_source.random() < 0.05 else None)


def damaged(random_source, whole):
    """One byte changed, lost, or put in."""
    at = random_source.randrange(len(whole))
    new = random_source.choice(SPECIAL)
    return random_source.choice(
        [whole[:at] + new + whole[at + 1 :], whole[:at] + whole[at + 1 :], whole[:at] + new + whole[at:]]
    )


def noise(random_source):
    return random_source.randbytes(random_source.randrange(40))


def main():
    wanted = int(sys.argv[1]) if len(sys.argv) > 1 else 6_000_000
    random_source = random.Random(20261115)
    written = 0
    while written < wanted:
        piece = random_block(random_source)
        chance = random_source.random()
        if chance < 0.2:
            piece = damaged(random_source, piece)
        elif chance < 0.4:
            piece = noise(random_source) + piece
        sys.stdout.buffer.write(piece)
        written += len(piece)
    sys.stdout.buffer.write(RULES.block(b"the last block" + CR))


if __name__ == "__main__":
    main()
