"""Counts what is checked: a case passes if every comparison in it holds, and if there was at least one."""

import contextlib
import traceback


def shown(value):
    text = repr(value)
    return text if len(text) <= 400 else "%s .. (%d characters)" % (text[:400], len(text))


class Case:
    def __init__(self):
        self.compared = 0
        self.wrong = []

    def equal(self, got, wanted, what=""):
        self.compared += 1
        if got != wanted:
            self.wrong.append("%s: got %s, wanted %s" % (what or "value", shown(got), shown(wanted)))

    def true(self, holds, what):
        self.compared += 1
        if not holds:
            self.wrong.append("not so: " + what)


class Counting:
    def __init__(self):
        self.passed = 0
        self.failed = 0
        self.names = []

    @contextlib.contextmanager
    def case(self, name):
        case = Case()
        self.names.append(name)
        try:
            yield case
        except Exception:
            case.wrong.append(traceback.format_exc(limit=-2).strip())
        if case.compared == 0 and not case.wrong:
            case.wrong.append("nothing was compared")
        if case.wrong:
            self.failed += 1
            print("FAILED %s" % name)
            for line in case.wrong[:5]:
                print("    " + line.replace("\n", "\n    "))
            if len(case.wrong) > 5:
                print("    and %d more" % (len(case.wrong) - 5))
        else:
            self.passed += 1
            print("ok %s (%d compared)" % (name, case.compared))
