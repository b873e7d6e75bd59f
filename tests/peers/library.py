"""The library behind a pipe: the program blocks.c, compiled against the archive."""

import subprocess

# The numbers of document 01's table that are met here.
OK, HEAD = 0, 9

# What a field holds, and the codes, as include/giamuvich.h numbers them.
MISSING, NOT_NUMBER, NUMBER = 0, 1, 2
OTHER, AA, AE, AR = 0, 1, 2, 3


def digits(data):
    return data.hex().upper() or "-"


def undigits(word):
    return b"" if word == "-" else bytes.fromhex(word)


class Library:
    def __init__(self, program):
        self.process = subprocess.Popen([program], stdin=subprocess.PIPE, stdout=subprocess.PIPE)

    def close(self):
        self.process.stdin.close()
        return self.process.wait(timeout=10)

    def ask(self, *words):
        self.process.stdin.write((" ".join(str(word) for word in words) + "\n").encode())
        self.process.stdin.flush()
        lines = []
        while True:
            line = self.process.stdout.readline()
            if not line:
                raise RuntimeError("the program blocks ended")
            if line == b".\n":
                return lines
            lines.append(line.decode().split())

    def fresh_reader(self, limit):
        self.ask("reader", limit)

    def read_part(self, part):
        """The verdicts (offset, number, forbidden, data) that a part of the stream brings."""
        return [
            (int(offset), int(number), int(forbidden), undigits(data))
            for offset, number, forbidden, data in self.ask("part", digits(part))
        ]

    def read(self, limit, parts):
        self.fresh_reader(limit)
        return [verdict for part in parts for verdict in self.read_part(part)]

    def _number_place_bytes(self, *words):
        [[number, forbidden, data]] = self.ask(*words)
        return int(number), int(forbidden), undigits(data)

    def check(self, limit, block):
        return self._number_place_bytes("check", limit, digits(block))

    def minimal(self, limit, data):
        return self._number_place_bytes("minimal", limit, digits(data))

    def block(self, data, limit=99994):
        number, _, block = self.minimal(limit, data)
        if number != OK:
            raise ValueError("the writer refused by %d" % number)
        return block

    def hybrid(self, limit, kind, data):
        return self._number_place_bytes("hybrid", limit, kind, digits(data))

    def header(self, message):
        """(number,) or (0, MSH-10, MSH-13, what MSH-13 holds, its number)"""
        [[number, *rest]] = self.ask("header", digits(message))
        if not rest:
            return (int(number),)
        return int(number), undigits(rest[0]), undigits(rest[1]), int(rest[2]), int(rest[3])

    def answer(self, message):
        """(number,) or (0, MSA-1, MSA-2, MSA-4, the code, what MSA-4 holds, its number)"""
        [[number, *rest]] = self.ask("answer", digits(message))
        if not rest:
            return (int(number),)
        return (int(number), *map(undigits, rest[:3]), *map(int, rest[3:]))

    def write_answer(self, control_id, code, value):
        return self._number_place_bytes("write-answer", digits(control_id), code, value)

    def write_control(self, kind, value):
        return self._number_place_bytes("write-control", kind, value)
