#!/usr/bin/env python3
"""A hybrid stream's verdicts, by document 01 alone: what blocklist must print.

    listing.py FILE [TIMES]   the listing of FILE's bytes, TIMES times one after the other (default 1)

It reads the whole input at once, with the default settings and the data limit of 4,096.
"""

import pathlib
import sys

sys.dont_write_bytecode = True
sys.path.append(str(pathlib.Path(__file__).resolve().parents[1]))

from blocks import CR, EB, Rules

RULES = Rules(True, 4096)


def main():
    stream = pathlib.Path(sys.argv[1]).read_bytes()
    times = int(sys.argv[2]) if len(sys.argv) > 2 else 1
    found = list(RULES.verdicts(stream))
    if times > 1:
        # A copy after a copy reads the same only if a block can't run from one into the next.
        assert found and stream.endswith(EB + CR), "the input ends inside a block"
    for copy in range(times):
        base = copy * len(stream)
        lines = (f"{base + verdict.offset} {verdict.number} {len(verdict.data)}\n" for verdict in found)
        sys.stdout.write("".join(lines))


if __name__ == "__main__":
    main()
