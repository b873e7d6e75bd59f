"""What a test says besides whether it passed: kept with its thread, and printed below its name."""

import threading

KEPT = threading.local()


def note(words, *values):
    KEPT.lines = getattr(KEPT, 'lines', []) + [words % values]


def take():
    lines, KEPT.lines = getattr(KEPT, 'lines', []), []
    return lines
