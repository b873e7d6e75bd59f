"""The sizes that docs/HOST.md states are the least lengths that the library takes."""

import pathlib
import subprocess

HOST = pathlib.Path(__file__).resolve().parent.parent.parent / "docs" / "HOST.md"
D = 128  # as in sizes.c

# The first words of a row of the table, what the row says, and what is measured: its name in sizes.c and the length.
ROWS = [
    ("reader's state", "4 words", {"reader-state": 4}),
    ("verdict of a read or a check", "8 words", {"verdict": 8}),
    ("reader's buffer", "D + 12 bytes; minimal D", {"hybrid-reader-buffer": D + 12, "minimal-reader-buffer": D}),
    ("block writer's report", "2 words", {"writer-report": 2}),
    ("block writer's buffer", "D + 15 or D + 3", {"hybrid-block": D + 15, "minimal-block": D + 3}),
    ("fields of a message", "6 words", {"header": 6}),
    ("fields of an answer", "9 words", {"answer-fields": 9}),
    ("next field", "5 words", {"next-field": 5}),
    ("answer (", "at most 93", {"longest-answer": 93}),
    ("control message (", "31 bytes for 0, 33 for -1", {"control-0": 31, "control-minus-1": 33}),
    ("control block, hybrid", "46 bytes for 0, 48 for -1", {"hybrid-control-0": 46, "hybrid-control-minus-1": 48}),
    ("control block, minimal", "34 bytes for 0, 36 for -1", {"minimal-control-0": 34, "minimal-control-minus-1": 36}),
    ("receiver's state", "9 words", {"receiver-state": 9, "decision-state": 9, "answer-state": 9}),
    ("decision's report", "5 words", {"decision-report": 5}),
    ("answer's report, N reply's report", "2 words", {"answer-report": 2, "nak-report": 2}),
    ("receiver's reply buffer", "D + 15 bytes; minimal D + 3, whatever the reply, and also where failure is reported",
     {"hybrid-answer": D + 15, "hybrid-failure": D + 15, "hybrid-nak": D + 15, "minimal-answer": D + 3,
      "minimal-failure": D + 3}),
    ("sender's state", "7 words", {"sender-state": 7}),
    ("sender's report", "8 words", {"sender-report": 8}),
    ("station's state", "5 words", {"station-state": 5}),
    ("station's report", "4 words", {"station-report": 4}),
    ("station's message buffer", "none", {"station-buffer": 0}),
    ("master's state", "10 words", {"master-state": 10}),
    ("master's report", "10 words", {"master-report": 10}),
]


def run(counting, program, _):
    with counting.case("docs/HOST.md's sizes are the least that the library takes, D = %d" % D) as case:
        said = subprocess.run([program], capture_output=True, text=True, timeout=20).stdout
        lines = said.splitlines()
        case.equal([line for line in lines if ":" in line], [], "each call is right but for the length")
        measured = {name: int(length) for name, length in (line.split() for line in lines if ":" not in line)}
        case.equal(measured, {name: length for _, _, sizes in ROWS for name, length in sizes.items()}, "least lengths")
        lines = [line for line in HOST.read_text().splitlines() if line.startswith("| ")]
        for beginning, words, _ in ROWS:
            rows = [line for line in lines if line.startswith("| " + beginning)]
            case.equal((beginning, [words in line for line in rows]), (beginning, [True]), "the row of docs/HOST.md")
