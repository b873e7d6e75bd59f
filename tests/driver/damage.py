"""Blocks damaged so that the block rules refuse them."""


def is_refused(rules, tail, bad, block):
    """After the tail of what was sent before, a reader accepts of `bad` nothing, or the block as it
    was, and whatever comes next. (Two damaged blocks can make a good one between them.)"""
    probe = rules.block(b'MSH|probe\r')
    seen = rules.accepted(tail + bad + probe)
    return seen[-1:] == rules.accepted(probe) and seen[:-1] in ([], rules.accepted(block))


def damaged(rules, block, random, tail):
    """The block damaged so that the block rules refuse it: by trying. None where no try does."""
    for _ in range(40):
        bad = bytes(changed(rules, bytearray(block), random))
        if bad != block and is_refused(rules, tail, bad, block):
            return bad
    return None


def changed(rules, bad, random):
    at = random.randrange(len(bad))
    kind = random.randrange(8)
    if kind == 0:
        bad[at] = random.randrange(256)
    elif kind == 1:
        bad[at] = random.choice([0x00, 0x07, 0x0A, 0x7F, 0x80, 0xFF, rules.start, rules.end])
    elif kind == 2:
        del bad[at:at + random.randrange(1, 40)]
    elif kind == 3:
        del bad[at:]
    elif kind == 4:
        del bad[-2 if random.random() < 0.5 else -1]  # EB, or the CR after it
    elif kind == 5:
        bad[at:at] = bytes([rules.start])
    elif kind == 6:
        bad[-1:] = bytes([random.choice([0x20, 0x41, rules.end, 0x00])])
    else:
        del bad[0]  # no SB: no block
    return bad
