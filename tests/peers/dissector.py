"""tshark's HL7 dissector on our minimal blocks, from capture files that are written here (no rights to capture)."""

import os
import random
import struct
import subprocess
import xml.etree.ElementTree

import samples
from blocks import CR, EB, SB

PORT = 24575  # stands in the capture; nothing listens


def tshark(words, home):
    environment = dict(os.environ, HOME=str(home), LC_ALL="C")
    return subprocess.run(["tshark", *words], capture_output=True, text=True, env=environment, timeout=60)


def version():
    said = tshark(["--version"], "/nonexistent").stdout.splitlines()
    return said[0] if said else "tshark: no version"


def capture(path, packets):
    """A capture file of raw IP packets, each (connection, whether from the sender, bytes)."""
    numbers = {}
    with open(path, "wb") as out:
        out.write(struct.pack("<IHHiIII", 0xA1B2C3D4, 2, 4, 0, 0, 262144, 101))
        for moment, (connection, forward, data) in enumerate(packets):
            ends = [(b"\x0a\x00\x00\x01", 40000 + connection), (b"\x0a\x00\x00\x02", PORT)]
            (source, source_port), (target, target_port) = ends if forward else ends[::-1]
            here = numbers.get((connection, forward), 1000)
            there = numbers.get((connection, not forward), 1000)
            numbers[(connection, forward)] = here + len(data)
            tcp = struct.pack(">HHIIBBHHH", source_port, target_port, here, there, 5 << 4, 0x18, 65535, 0, 0)
            ip = struct.pack(">BBHHHBBH4s4s", 0x45, 0, 40 + len(data), moment + 1, 0, 64, 6, 0, source, target)
            packet = ip + tcp + data
            out.write(struct.pack("<IIII", 1790000000 + moment, 0, len(packet), len(packet)) + packet)


def dissected(scratch, packets):
    """For each packet: the message types, and the messages, each a list of segments with their numbered fields."""
    path = scratch / "capture.pcap"
    capture(path, packets)
    words = ["-r", str(path), "-n", "-d", "tcp.port==%d,hl7" % PORT, "-T", "pdml", "-J", "hl7 _ws.malformed"]
    done = tshark(words, scratch)
    if done.returncode != 0:
        raise RuntimeError(done.stderr)
    frames = []
    for packet in xml.etree.ElementTree.fromstring(done.stdout).iter("packet"):
        types = [part.get("show") for part in packet.iter("field") if part.get("name") == "hl7.message.type"]
        names = [proto.get("name") for proto in packet.iter("proto")]
        messages = []
        for proto in packet.iter("proto"):
            if proto.get("name") != "hl7":
                continue
            segments = []
            for segment in proto.iter("field"):
                if segment.get("name") != "hl7.segment":
                    continue
                fields = {}
                for part in segment.iter("field"):
                    if part.get("name") == "hl7.field":
                        number = int(part.get("showname").split(":")[0].split()[1])
                        fields[number] = bytes.fromhex(part.get("value"))
                segments.append(fields)
            messages.append(segments)
        frames.append((types, messages, "_ws.malformed" in names))
    return frames


def numbered_fields(message):
    """The fields of each segment as tshark numbers them: MSH as HL7 does, the others one higher; no empty ones."""
    segments = []
    for line in message.split(CR)[:-1]:
        parts = line.split(b"|")
        segments.append({number: part for number, part in enumerate(parts, 1) if part})
    return segments


def good_blocks(counting, library, scratch):
    rng = random.Random(708)
    control = [library.write_control(kind, number)[2] for kind in ("ADT", "ORU") for number in (-1, 0)]
    expected = (-1, 1, 17, 999999999999999)
    answers = [library.write_answer(b"17", code, number)[2] for code in (1, 2, 3) for number in expected]
    requests = [samples.numbered(number) for number in (1, 17, 999999999999998)] + samples.real_messages()
    requests += [samples.message(rng) for _ in range(30)]
    packets = [(1, True, library.block(message)) for message in control]
    packets += [(1, False, library.block(message)) for message in answers]
    packets += [(1, True, library.block(message)) for message in requests]
    joined = [control[0], requests[0], requests[1], control[1], requests[2]]
    packets += [(2, True, b"".join(library.block(message) for message in joined))]
    split = library.block(requests[4])
    places = [0, 1, 2, 40, 300, len(split) - 2, len(split) - 1, len(split)]
    packets += [(3, True, split[a:b]) for a, b in zip(places, places[1:])]
    largest = b"MSH|^~\\&|||||||ADT^A01|5|P|2.3.1|5\r" + b"".join(b"NTE|%d|%s\r" % (i, b"x" * 200) for i in range(460))
    block = library.block(largest)
    packets += [(4, True, block[at : at + 1400]) for at in range(0, len(block), 1400)]
    frames = dissected(scratch, packets)

    with counting.case("tshark: a frame for each packet") as case:
        case.equal(len(frames), len(packets), "frames")
        case.true(not any(malformed for _, _, malformed in frames), "none is malformed")
    with counting.case("tshark: message types of control messages, answers and requests") as case:
        for message, (types, messages, _) in zip(control + answers + requests, frames):
            kind = message.split(b"|")[8].split(b"^")[0].decode()
            if message in samples.real_messages()[:1]:
                kind = "523"  # 004:98 lacks MSH-8, so its MSH-9 is 523123, of which tshark takes three bytes
            case.equal((types, len(messages)), ([kind], 1), "type of %r" % message[:60])
    with counting.case("tshark: every field of them, MSH-10, MSH-13, MSA-1, MSA-2 and MSA-4 among them") as case:
        for message, (_, messages, _) in zip(control + answers + requests, frames):
            case.equal(messages, [numbered_fields(message)], "fields of %r" % message[:60])
        for message, (_, [segments], _) in zip(control, frames):
            number = message.split(b"|")[9]
            case.equal((segments[0][10], segments[0][13]), (number, number), "MSH-10 and MSH-13 of a control message")
        wanted = [(code, b"%d" % number) for code in (b"AA", b"AE", b"AR") for number in expected]
        for (code, number), (_, [segments], _) in zip(wanted, frames[len(control) :]):
            case.equal([segments[1][field] for field in (2, 3, 5)], [code, b"17", number], "MSA-1, MSA-2, MSA-4")
        for number, (_, [segments], _) in zip((b"1", b"17", b"999999999999998"), frames[len(control) + len(answers) :]):
            case.equal((segments[0][10], segments[0][13]), (number, number), "MSH-10 and MSH-13 of a request")
        for data, (_, [segments], _) in zip(requests, frames[len(control) + len(answers) :]):
            shown = (0, segments[0].get(10, b""), segments[0].get(13, b""))
            case.equal(shown, library.header(data)[:3], "as our reader has them")
    at = len(control + answers + requests)
    with counting.case("tshark: five blocks in one TCP segment") as case:
        types, messages, _ = frames[at]
        case.equal(types, ["ADT"] * 5, "types")
        case.equal(messages, [numbered_fields(message) for message in joined], "fields")
    with counting.case("tshark: a block over seven TCP segments, cut after SB and between EB and CR") as case:
        parts = frames[at + 1 : at + 8]
        case.equal([len(messages) for _, messages, _ in parts], [0, 0, 0, 0, 0, 0, 1], "the last completes it")
        case.equal(parts[-1][1], [numbered_fields(requests[4])], "fields")
    parts = frames[at + 8 :]
    with counting.case("tshark: a block of %d data bytes over %d TCP segments" % (len(largest), len(parts))) as case:
        case.equal([len(messages) for _, messages, _ in parts], [0] * (len(parts) - 1) + [1], "the last completes it")
        case.equal(parts[-1][1], [numbered_fields(largest)], "fields")


def bad_blocks(counting, library, scratch):
    """What tshark shows of bad blocks: messages and segments in each of two packets, the second a good block."""
    answer = library.write_answer(b"17", 1, 17)[2]
    good = library.block(answer)
    hybrid = library.hybrid(4096, "D", answer)[2]
    rows = [
        # name, the first packet, segments shown of it, whether it is malformed, segments shown of the second
        ("byte 7F: shown", SB + answer[:9] + b"\x7f" + answer[9:] + EB + CR, [2], False, [2]),
        ("byte E9: shown", SB + answer[:9] + b"\xe9" + answer[9:] + EB + CR, [2], False, [2]),
        ("EB CR lost: two blocks shown as one message", SB + answer + good, [4], False, [2]),
        ("EB without CR: two blocks shown as one message", SB + answer + EB + good, [4], False, [2]),
        ("EB CR lost, and the packet ends: joined with the next", SB + answer, [], False, [4]),
        ("SB inside: shown as one message", SB + answer[:9] + SB + answer[9:] + EB + CR, [2], False, [2]),
        ("noise before SB: not taken for HL7", b"HELO\r\n" + good, [], False, [2]),
        ("a line feed between two blocks: the second is not shown", good + b"\n" + good, [2], False, [2]),
        ("an empty block: malformed", SB + EB + CR, [], True, [2]),
        ("MLLP release 2's 06: malformed", SB + b"\x06" + EB + CR, [], True, [2]),
        ("a hybrid block: no message shown", hybrid, [], False, [2]),
    ]
    packets = []
    for connection, (_, first, _, _, _) in enumerate(rows):
        packets += [(connection, True, first), (connection, True, good)]
    frames = dissected(scratch, packets)
    for (name, _, shown, malformed, after), first, second in zip(rows, frames[::2], frames[1::2]):
        with counting.case("tshark: %s" % name) as case:
            case.equal([len(segments) for segments in first[1]], shown, "segments of the first packet's messages")
            case.equal(first[2], malformed, "malformed")
            case.equal([len(segments) for segments in second[1]], after, "segments of the second's")


def run(counting, library, scratch):
    good_blocks(counting, library, scratch)
    bad_blocks(counting, library, scratch)
