"""Header fields as the library reads and writes them, and as python3-hl7's parser does."""

import random
import re

import hl7

import samples
from library import AA, AE, AR, HEAD, MISSING, NOT_NUMBER, NUMBER, OK, OTHER
from pythonhl7 import field

CODES = {"AA": AA, "AE": AE, "AR": AR}
LAST_SENT = 999999999999998  # a number in MSH-13
LAST_EXPECTED = 999999999999999  # a number in MSA-4

# What stands in MSH-13 and MSA-4: numbers, and what nearly is one.
NUMBERS = ["", "0", "1", "17", "0017", "-1", "000000000000000", "999999999999998", "999999999999999"]
NEARLY = ["-0", "-01", "-2", "+1", "1.0", " 1", "1 ", "1^2", "x", "\"\"", "1e3", "0x1"]
NEARLY += ["1000000000000000", "0000000000000001"]  # 16 digits


def number_held(text, most):
    """Document 01: -1, or 1 to 15 digits, leading zeros allowed, within the bound."""
    if text == "":
        return MISSING, 0
    if text == "-1":
        return NUMBER, -1
    if re.fullmatch("[0-9]{1,15}", text) and int(text) <= most:
        return NUMBER, int(text)
    return NOT_NUMBER, 0


def any_number(rng):
    kind = rng.randrange(4)
    if kind == 0:
        return rng.choice(NUMBERS)
    if kind == 1:
        return rng.choice(NEARLY)
    if kind == 2:
        return samples.field(rng, 0, 18)
    return str(rng.randrange(10 ** rng.randint(1, 16)))


def header(rng):
    """A header with too few, enough or many fields, and with any bytes in them."""
    head = ["MSH", "^~\\&"] + [samples.field(rng, 0, 8) for _ in range(6)]
    head += ["ADT^A01", samples.field(rng, rng.choice([0, 1, 1, 1, 19]), 22)]
    head += ["P", "2.3.1", any_number(rng)] + [samples.field(rng, 0, 5) for _ in range(rng.randint(0, 7))]
    return "|".join(head[: rng.choice([3, 9, 10, 12, 13, len(head), len(head), len(head), len(head)])])


def headers(counting, library):
    rng = random.Random(705)
    with counting.case("MSH-10 and MSH-13 of 1,500 generated messages") as case:
        met = set()
        for _ in range(1500):
            # a last segment, as python3-hl7 strips blanks from the end of the message
            between = "".join(samples.segment(rng) + "\r" for _ in range(rng.randint(0, 2)))
            text = header(rng) + "\r" + between + "ZZZ|x\r"
            message = hl7.parse(text)
            control_id, sequence = field(message, "MSH", 10), field(message, "MSH", 13)
            if 1 <= len(control_id) <= 20:
                kind, value = number_held(sequence, LAST_SENT)
                wanted = (OK, control_id.encode(), sequence.encode(), kind, value)
            else:
                wanted = (HEAD,)
            met.add(wanted[0] if wanted[0] else (wanted[3], wanted[4] == -1))
            case.equal(library.header(text.encode()), wanted, "fields of %r" % text)
        case.equal(met, {HEAD, (MISSING, False), (NOT_NUMBER, False), (NUMBER, False), (NUMBER, True)}, "all kinds met")
    with counting.case("MSH-13: numbers, and what nearly is one") as case:
        for text in NUMBERS + NEARLY:
            message = "MSH|^~\\&|||||||ADT^A01|7|P|2.3.1|%s|||AL|NE\rZZZ|x\r" % text
            case.equal(field(hl7.parse(message), "MSH", 13), text, "python3-hl7's MSH-13")
            case.equal(library.header(message.encode())[1:], (b"7", text.encode(), *number_held(text, LAST_SENT)), text)
    with counting.case("the real messages: MSH-10 and MSH-13") as case:
        # tests/host/data/README.md
        for data, control_id in zip(samples.real_messages(), [b"D", b"151 824", b"151 97", b"151 13"]):
            message = hl7.parse(data)
            case.equal(field(message, "MSH", 10).encode(), control_id, "python3-hl7's MSH-10")
            case.equal(field(message, "MSH", 13), "", "python3-hl7's MSH-13")
            case.equal(library.header(data), (OK, control_id, b"", MISSING, 0), "ours")


def answers(counting, library):
    rng = random.Random(706)
    with counting.case("MSA-1, MSA-2 and MSA-4 of 1,500 generated answers") as case:
        met = set()
        for _ in range(1500):
            code = rng.choice(["AA", "AE", "AR", "CA", "CE", "CR", "", "aa", "AA ", samples.field(rng, 0, 4)])
            segment = ["MSA", code, samples.field(rng, 0, 24), samples.field(rng), any_number(rng), samples.field(rng)]
            segment = "|".join(segment[: rng.choice([2, 3, 4, 5, 5, 6, 6])])
            text = header(rng) + "\r" + segment + "\rZZZ|x\r"
            message = hl7.parse(text)
            parts = [field(message, "MSA", number) for number in (1, 2, 4)]
            if 1 <= len(field(message, "MSH", 10)) <= 20:
                kind, value = number_held(parts[2], LAST_EXPECTED)
                wanted = (OK, *(part.encode() for part in parts), CODES.get(parts[0], OTHER), kind, value)
            else:
                wanted = (HEAD,)
            met.add(wanted[0] if wanted[0] else wanted[4])
            case.equal(library.answer(text.encode()), wanted, "fields of %r" % text)
        case.equal(met, {HEAD, OTHER, AA, AE, AR}, "all kinds met")
    with counting.case("the three MSA segments of 004: no AA, AE or AR, and no MSA-4") as case:
        lines = (samples.DATA / "004-segments.hl7").read_bytes().split(b"\r")[:3]
        for line, code in zip(lines, [b"CA", b"CA", b"CR"]):
            text = b"MSH|^~\\&|||||||ACK|1|P|2.4\r" + line + b"\r"
            message = hl7.parse(text)
            control_id = field(message, "MSA", 2).encode()
            case.true(control_id.startswith(b"151 "), "MSA-2 is the control ID of a message of 004")
            case.equal(field(message, "MSA", 1).encode(), code, "python3-hl7's MSA-1")
            case.equal(library.answer(text), (OK, code, control_id, b"", OTHER, MISSING, 0), "ours")


def written(counting, library):
    rng = random.Random(707)
    with counting.case("answers that we write, at hl7.parse: 400") as case:
        for _ in range(400):
            control_id = samples.field(rng, 1, 20)
            code = rng.choice(list(CODES))
            number = rng.choice([-1, 1, rng.randrange(1, 10**15), LAST_EXPECTED])
            got, forbidden, text = library.write_answer(control_id.encode(), CODES[code], number)
            case.equal((got, forbidden), (OK, 0), "written")
            message = hl7.parse(text)
            wanted = ["ACK", control_id, "P", "2.3.1", ""]
            case.equal([field(message, "MSH", n) for n in (9, 10, 11, 12, 13)], wanted, "MSH")
            case.equal([field(message, "MSA", n) for n in (1, 2, 3, 4)], [code, control_id, "", str(number)], "MSA")
            case.equal(len(message), 2, "segments")
            case.equal(str(message).encode(), text, "python3-hl7's text of it")
    with counting.case("control messages that we write, at hl7.parse") as case:
        for kind in ("ADT", "ORU", "ZZZ"):
            for number in (0, -1):
                message = hl7.parse(library.write_control(kind, number)[2])
                wanted = [kind, str(number), "P", "2.3.1", str(number)]
                case.equal([field(message, "MSH", n) for n in (9, 10, 11, 12, 13)], wanted, "MSH")
                case.equal(len(message), 1, "segments")
    with counting.case("python3-hl7's create_ack at our reader of answers: no MSA-4, a new MSH-10 of 20 bytes") as case:
        for code, number in CODES.items():
            text = str(hl7.parse(samples.numbered(17)).create_ack(code)).encode()
            case.equal(library.answer(text), (OK, code.encode(), b"17", b"", number, MISSING, 0), "answer")
            case.equal(len(library.header(text)[1]), 20, "length of MSH-10")
        for number in (0, -1):
            try:
                hl7.parse(library.write_control("ADT", number)[2]).create_ack()
                case.true(False, "create_ack of a control message raises")
            except TypeError:
                case.true(True, "create_ack of a control message raises TypeError: MSH-9 has no event")


# Where python3-hl7 reads on and document 01 does not: our answer, and what python3-hl7 gives for MSH-10 or MSA-2.
UNLIKE = [
    ("a header without CR", b"MSH|^~\\&|||||||ADT|7|P|2.3.1|7", "MSH", 10, "7"),
    ("a blank before MSH", b" MSH|^~\\&|||||||ADT|7|P|2.3.1|7\r", "MSH", 10, "7"),
    ("segments ended by a line feed", b"MSH|^~\\&|||||||ACK|7|P|2.3.1\nMSA|AA|7||7\n", "MSH", 10, "7"),
    ("another separator (document 02, section 6)", b"MSH^~|\\&^^^^^^^ADT^7^P^2.3.1^7\r", "MSH", 10, "7"),
    ("a control ID of 21 bytes", b"MSH|^~\\&|||||||ADT|" + b"x" * 21 + b"|P|2.3.1|7\r", "MSH", 10, "x" * 21),
    ("an empty control ID", b"MSH|^~\\&|||||||ADT||P|2.3.1|7\r", "MSH", 10, ""),
]
UNLIKE_ANSWERS = [
    ("a segment before MSA", b"MSH|^~\\&|||||||ACK|7|P|2.3.1\rSFT|x\rMSA|AA|7||7\r", "7"),
    ("MSA without CR", b"MSH|^~\\&|||||||ACK|7|P|2.3.1\rMSA|AA|7||7", "7"),
    ("a line feed before MSA", b"MSH|^~\\&|||||||ACK|7|P|2.3.1\r\nMSA|AA|7||7\r", ""),
    ("no MSH-10 in the answer", b"MSH|^~\\&|||||||ACK||P|2.3.1\rMSA|AA|7||7\r", "7"),
]


def unlike(counting, library):
    for name, text, segment, number, theirs in UNLIKE:
        with counting.case("9, though python3-hl7 reads it: %s" % name) as case:
            case.equal(library.header(text), (HEAD,), "ours")
            case.equal(field(hl7.parse(text), segment, number), theirs, "python3-hl7's")
    for name, text, theirs in UNLIKE_ANSWERS:
        with counting.case("9 in an answer, whatever python3-hl7 reads: %s" % name) as case:
            case.equal(library.answer(text), (HEAD,), "ours")
            case.equal(field(hl7.parse(text), "MSA", 2), theirs, "python3-hl7's MSA-2")


def run(counting, library, _):
    headers(counting, library)
    answers(counting, library)
    written(counting, library)
    unlike(counting, library)
