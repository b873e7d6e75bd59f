"""python3-hl7's client sends to our receiver: gmv_driver receive, minimal blocks over TCP."""

import asyncio
import random
import signal
import socket
import subprocess
import sys
import time

import hl7
import hl7.client
from hl7.mllp import open_hl7_connection

import samples
from blocks import CR, EB, SB, Rules
from driver import Driver, wait_until
from pythonhl7 import field

framed = Rules(False, 4096).block


def request(sequence, control_id, more=""):
    """A request with this in MSH-13; None: the header ends before it."""
    text = "MSH|^~\\&|LAB|X|WARD|Y|20261116||ORU^R01|%s|P|2.3.1" % control_id
    if sequence is not None:
        text += "|%s%s" % (sequence, more)
    return (text + "\rPID|||%s||DOE^JO\r" % control_id).encode()


class Client(hl7.client.MLLPClient):
    """python3-hl7's client with a time limit, as its own waits for ever."""

    def __init__(self, port):
        super().__init__("127.0.0.1", port)
        self.socket.settimeout(20)

    def ask(self, message):
        """Sends a message; the answer's MSA-1, MSA-2, MSA-4 and MSH-10, as python3-hl7 parses it."""
        got = self.send_message(message)
        while got and not got.endswith(EB + CR):
            got += self.socket.recv(4096)
        if not (got.startswith(SB) and got.endswith(EB + CR)):
            raise RuntimeError("no block: %r" % got)
        answer = hl7.parse(got[1:-2])
        return [str(answer.segment("MSA")(number)) for number in (1, 2, 4)] + [field(answer, "MSH", 10)]


def receiver(counting_folder, program, name):
    driver = Driver(program, counting_folder / name)
    driver.command("receiver-init", driver.folder)
    return driver


# Document 01's table, row by row: MSH-13, then MSA-1 and MSA-4, the expected number stored then (0: NONE), and
# whether the transaction is stored.
TABLE = [
    # nothing is expected
    ("-1", "AA", "-1", 0, False),
    ("0", "AA", "-1", 0, False),
    ("000", "AA", "-1", 0, False),
    (None, "AR", "-1", 0, False),
    ("", "AR", "-1", 0, False),
    ("x", "AR", "-1", 0, False),
    ("-2", "AR", "-1", 0, False),
    ("+5", "AR", "-1", 0, False),
    ("5 ", "AR", "-1", 0, False),
    ("999999999999999", "AR", "-1", 0, False),
    ("5", "AA", "5", 6, True),  # P9
    # 6 is expected
    ("0", "AA", "6", 6, False),
    ("5", "AR", "6", 6, False),  # P10
    ("4", "AR", "6", 6, False),
    ("7", "AR", "6", 6, False),
    ("999999999999998", "AR", "6", 6, False),
    (None, "AR", "6", 6, False),
    ("", "AR", "6", 6, False),
    ("6.0", "AR", "6", 6, False),
    ("0000000000000006", "AR", "6", 6, False),  # 16 digits
    ("0006", "AA", "6", 7, True),
    ("7", "AA", "7", 8, True),
    # -1 makes it forget, and any number is taken then
    ("-1", "AA", "-1", 0, False),
    ("-1", "AA", "-1", 0, False),
    ("0", "AA", "-1", 0, False),
    ("7", "AA", "7", 8, True),
    ("-1", "AA", "-1", 0, False),
    ("1", "AA", "1", 2, True),
    ("2", "AA", "2", 3, True),
    ("1", "AR", "3", 3, False),
    # the largest number
    ("-1", "AA", "-1", 0, False),
    ("999999999999998", "AA", "999999999999998", 999999999999999, True),
    ("0", "AA", "999999999999999", 999999999999999, False),
    ("999999999999998", "AR", "999999999999999", 999999999999999, False),
    ("999999999999999", "AR", "999999999999999", 999999999999999, False),
    ("-1", "AA", "-1", 0, False),
]


def table(counting, program, scratch):
    for application in ("AA", "AE"):
        with counting.case("the receiver's table, the application says %s" % application) as case:
            with receiver(scratch, program, "table-" + application) as driver:
                port = driver.start_listening("receive", "--application", application)
                stored = []
                with Client(port) as client:
                    for row, (sequence, code, expected, then, stores) in enumerate(TABLE):
                        message = request(sequence, "c %d" % row)
                        if stores:
                            stored.append(message)
                            code = application
                        case.equal(client.ask(message), [code, "c %d" % row, expected, "c %d" % row], "row %d" % row)
                        case.equal(driver.state()["expected"], str(then), "expected after row %d" % row)
                        case.equal(driver.transactions(), stored, "stored after row %d" % row)
    with counting.case("control IDs of 1 and 20 bytes, and what an enhanced-mode sender adds (MSH-15, MSH-16)") as case:
        with receiver(scratch, program, "ids") as driver:
            with Client(driver.start_listening("receive")) as client:
                for number, control_id in enumerate(["~", "12345678901234567890", "151 824", "a\\F\\b^c&d"], 1):
                    message = request(number, control_id, "|||AL|NE|USA")
                    case.equal(client.ask(message), ["AA", control_id, str(number), control_id], "answer")
                case.equal(len(driver.transactions()), 4, "stored")
    name = "the real messages of 004 have no number: AR, -1, nothing stored; numbered by python3-hl7: AA"
    with counting.case(name) as case:
        with receiver(scratch, program, "real") as driver:
            with Client(driver.start_listening("receive")) as client:
                ids = ["D", "151 824", "151 97", "151 13"]
                for data, control_id in zip(samples.real_messages(), ids):
                    case.equal(client.ask(data), ["AR", control_id, "-1", control_id], "answer")
                case.equal(driver.transactions(), [], "nothing stored")
                sent = []
                for number, (data, control_id) in enumerate(zip(samples.real_messages(), ids), 1):
                    message = hl7.parse(data)
                    message.segment("MSH").assign_field(str(number), 13)
                    case.equal(client.ask(message), ["AA", control_id, str(number), control_id], "answer")
                    sent.append(str(message).encode())
                case.equal(driver.transactions(), sent, "stored, byte for byte")
    with counting.case("200 generated messages, each asked twice: stored once, byte for byte") as case:
        rng = random.Random(709)
        with receiver(scratch, program, "many") as driver:
            sent = []
            with Client(driver.start_listening("receive")) as client:
                for number in range(1, 201):
                    message = request(number, "m%d" % number) + samples.message(rng).split(CR, 1)[1]
                    case.equal(client.ask(message)[:3], ["AA", "m%d" % number, str(number)], "first")
                    case.equal(client.ask(message)[:3], ["AR", "m%d" % number, str(number + 1)], "again")
                    sent.append(message)
            case.equal(driver.transactions(), sent, "stored")


def other_clients(counting, program, scratch):
    with counting.case("open_hl7_connection, writemessage and readmessage: 30 messages") as case:
        with receiver(scratch, program, "async") as driver:
            port = driver.start_listening("receive")
            rng = random.Random(712)
            messages = [request(n, "a%d" % n) + samples.message(rng).split(CR, 1)[1] for n in range(1, 31)]

            async def exchange():
                reader, writer = await open_hl7_connection("127.0.0.1", port)
                try:
                    for number, message in enumerate(messages, 1):
                        writer.writemessage(hl7.parse(message))
                        answer = await asyncio.wait_for(reader.readmessage(), 20)
                        got = [field(answer, "MSA", part) for part in (1, 2, 4)]
                        case.equal(got, ["AA", "a%d" % number, str(number)], "answer")
                finally:
                    writer.close()

            asyncio.run(exchange())
            case.equal(driver.transactions(), messages, "stored, byte for byte")
    with counting.case("MLLPClient takes a late answer for the next one's: it does not look at MSA-2") as case:
        with receiver(scratch, program, "slip") as driver:
            with Client(driver.start_listening("receive")) as client:
                client.socket.sendall(framed(request(1, "a")))  # its answer comes after the client stopped waiting
                case.true(wait_until(lambda: driver.state()["stored"] == "1"), "stored")
                wait_until(lambda: client.socket.recv(1, socket.MSG_PEEK) != b"")
                case.equal(client.ask(request(2, "b"))[:3], ["AA", "a", "1"], "what it returns for the second")
                case.true(wait_until(lambda: driver.state()["stored"] == "2"), "the second is stored all the same")


def bad_blocks(counting, program, scratch):
    good = request(1, "good")
    rows = [
        # name, the bytes on the line, the number by document 01
        ("byte E9", framed(request(1, "a") + b"PID|||||Jos\xe9\r"), 3),
        ("bytes C3 A9", framed(request(1, "a") + "PID|||||Jos\u00e9\r".encode()), 3),
        ("MLLP release 2's 06", framed(b"\x06"), 3),
        ("data over D", framed(request(1, "a") + b"x" * 4096), 4),
        ("EB without CR", SB + request(1, "a") + EB + b"\n", 5),
        ("EB CR lost", SB + request(1, "a"), 8),
        ("no header", framed(b"D23\rA\r00007015"), 9),
        ("an empty block", framed(b""), 9),
        ("no control ID", framed(b"MSH|^~\\&|||||||ORU||P|2.3.1|1\r"), 9),
        ("a control ID of 21 bytes", framed(request(1, "x" * 21)), 9),
        ("a header without CR", framed(b"MSH|^~\\&|||||||ORU|1|P|2.3.1|1"), 9),
        ("another separator", framed(request(1, "a").replace(b"|", b"!")), 9),
    ]
    for name, stream, number in rows:
        with counting.case("a bad block at our receiver: %s: no reply, and the next is answered" % name) as case:
            with receiver(scratch, program, "bad " + name) as driver:
                with Client(driver.start_listening("receive")) as client:
                    client.socket.sendall(stream)
                    case.equal(client.ask(good), ["AA", "good", "1", "good"], "the first answer is the good block's")
                    case.true(wait_until(lambda: driver.live().get("blocks") == "2"), "two blocks are counted")
                    live = driver.live()
                    case.equal((live["refused"], live["last_refused"]), ("1", str(number)), "refused, and its number")
                case.equal(driver.transactions(), [good], "stored")
    with counting.case("noise before a block, and EB CR alone: skipped, no block is counted") as case:
        with receiver(scratch, program, "noise") as driver:
            with Client(driver.start_listening("receive")) as client:
                client.socket.sendall(b"HELO\r\n" + EB + CR + b"\x00\xff")
                case.equal(client.ask(good), ["AA", "good", "1", "good"], "answer")
                case.true(wait_until(lambda: driver.live().get("blocks") == "1"), "one block is counted")
                case.equal(driver.live()["refused"], "0", "refused")
    with counting.case("a name with an e acute, as MLLPClient encodes it: no answer comes, and it waits") as case:
        with receiver(scratch, program, "acute") as driver:
            with Client(driver.start_listening("receive")) as client:
                client.socket.settimeout(0.5)
                try:
                    client.send_message("MSH|^~\\&|||||||ORU^R01|1|P|2.3.1|1\rPID|||||Jos\u00e9\r")
                    case.true(False, "no answer")
                except socket.timeout:
                    case.true(True, "no answer")
                client.socket.settimeout(20)
                case.equal(client.ask(good), ["AA", "good", "1", "good"], "the next one is answered")
            case.equal(driver.transactions(), [good], "stored")
    with counting.case("blocks in parts: a byte at a time, and three at once") as case:
        with receiver(scratch, program, "parts") as driver:
            with Client(driver.start_listening("receive")) as client:
                client.socket.setsockopt(socket.IPPROTO_TCP, socket.TCP_NODELAY, 1)
                stream = framed(request(1, "a"))
                for at in range(len(stream) - 1):
                    client.socket.sendall(stream[at : at + 1])
                got = client.send(stream[-1:])
                case.equal(str(hl7.parse(got[1:-2]).segment("MSA")), "MSA|AA|a||1", "answer")
                client.socket.sendall(b"".join(framed(request(number, "b")) for number in (2, 3, 4)))
                got = b""
                while got.count(EB + CR) < 3:
                    got += client.socket.recv(4096)
                answers = [str(hl7.parse(block[1:]).segment("MSA")) for block in got.split(EB + CR)[:-1]]
                case.equal(answers, ["MSA|AA|b||2", "MSA|AA|b||3", "MSA|AA|b||4"], "answers, in order")
            case.equal(driver.transactions(), [request(1, "a")] + [request(n, "b") for n in (2, 3, 4)], "stored")


def kills(counting, program, scratch):
    with counting.case("SIGKILL after the answer, and a restart: the duplicate is not stored") as case:
        with receiver(scratch, program, "killed") as driver:
            sent = []
            for number in range(1, 5):
                message = request(number, "k%d" % number)
                with Client(driver.start_listening("receive")) as client:
                    case.equal(client.ask(message)[:3], ["AA", "k%d" % number, str(number)], "answer")
                    driver.end(signal.SIGKILL)
                sent.append(message)
                case.equal(driver.transactions(), sent, "stored after the kill")
                with Client(driver.start_listening("receive")) as client:
                    case.equal(client.ask(message)[:3], ["AR", "k%d" % number, str(number + 1)], "the same again")
                    case.equal(client.ask(request(0, "q"))[:3], ["AA", "q", str(number + 1)], "0 asks")
                driver.end(signal.SIGKILL)
                case.equal(driver.transactions(), sent, "stored after the second kill")
    with counting.case("SIGKILL at any moment, 30 times: each stored once, in order, byte for byte") as case:
        rng = random.Random(710)
        with receiver(scratch, program, "killed at any moment") as driver:
            sent, number, usual = [], 1, 0.01
            for kill in range(30):
                message = request(number, "k%d" % number)
                with Client(driver.start_listening("receive")) as client:
                    expected = client.ask(request(0, "q"))[2]
                    if expected == str(number + 1):  # stored before the kill, answered or not
                        sent.append(message)
                        case.equal(client.ask(message)[:3], ["AR", "k%d" % number, str(number + 1)], "the same again")
                        number += 1
                        message = request(number, "k%d" % number)
                    else:
                        case.equal(expected, str(number) if sent else "-1", "0 asks")
                    if kill % 5 == 0:  # now and then after the answer, to know how long it takes
                        began = time.monotonic()
                        case.equal(client.ask(message)[:3], ["AA", "k%d" % number, str(number)], "answer")
                        usual = time.monotonic() - began
                    else:
                        client.socket.sendall(framed(message))
                        time.sleep(rng.random() * 1.5 * usual)
                    driver.end(signal.SIGKILL)
            final = driver.transactions()
            case.true(final in (sent, sent + [message]), "the first transactions, each once, in order")
            case.true(len(final) >= 6, "at least those that were answered")
    with counting.case("the client ends the circuit within a block: its rest is no block on the next one") as case:
        with receiver(scratch, program, "cut") as driver:
            port = driver.start_listening("receive")
            with Client(port) as client:
                client.socket.sendall(framed(request(1, "a"))[:-10])
            with Client(port) as client:
                client.socket.sendall(framed(request(1, "a"))[-10:])
                case.equal(client.ask(request(0, "q")), ["AA", "q", "-1", "q"], "nothing was taken")
                case.equal(client.ask(request(1, "a"))[:3], ["AA", "a", "1"], "sent whole")
            case.equal(driver.transactions(), [request(1, "a")], "stored")


def command_line_tool(counting, program, scratch):
    """mllp_send, python3-hl7's command: it reads a file with read_stream, which strips the last CR."""
    code = "import sys; from hl7.client import mllp_send; sys.argv = ['mllp_send'] + sys.argv[1:]; mllp_send()"

    def mllp_send(port, data):
        path = scratch / "messages"
        path.write_bytes(data)
        words = [sys.executable, "-c", code, "--port", str(port), "--file", str(path), "127.0.0.1"]
        return subprocess.Popen(words, stdout=subprocess.PIPE)

    with counting.case("mllp_send: three messages of a file are stored without their last CR") as case:
        with receiver(scratch, program, "mllp_send") as driver:
            messages = [request(number, "m") for number in (1, 2, 3)]
            with mllp_send(driver.start_listening("receive"), b"".join(map(framed, messages))) as tool:
                said, _ = tool.communicate(timeout=20)
            wanted = [b"MSH|^~\\&|||||||ACK|m|P|2.3.1\rMSA|AA|m||%d\r" % number for number in (1, 2, 3)]
            case.equal(said, b"".join(framed(answer) + b"\n" for answer in wanted), "what it prints")
            case.equal(driver.transactions(), [message[:-1] for message in messages], "stored")
    with counting.case("mllp_send: one segment without its CR is refused by 9, and mllp_send waits") as case:
        with receiver(scratch, program, "mllp_send one segment") as driver:
            port = driver.start_listening("receive")
            with mllp_send(port, framed(b"MSH|^~\\&|||||||ORU|1|P|2.3.1|1\r")) as tool:
                try:
                    case.true(wait_until(lambda: driver.live().get("last_refused") == "9"), "refused by 9")
                    time.sleep(0.2)
                    case.equal(tool.poll(), None, "mllp_send has not ended")
                finally:
                    tool.kill()  # else it would be waited for without end
            case.equal(driver.transactions(), [], "nothing stored")


def run(counting, program, scratch):
    table(counting, program, scratch)
    other_clients(counting, program, scratch)
    bad_blocks(counting, program, scratch)
    kills(counting, program, scratch)
    command_line_tool(counting, program, scratch)
