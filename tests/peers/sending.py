"""Our sender, gmv_driver send, calls a server that is written with python3-hl7's streams and parser."""

import asyncio
import random
import signal

import hl7
from hl7.mllp import start_hl7_server

import samples
from blocks import CR, SB, Rules
from driver import WAIT, Driver
from pythonhl7 import field

framed = Rules(False, 4096).block
NO_TIMER = ["--timer", 60000]  # nothing here waits so long
EVENTS = {"1": "delivered", "2": "given up", "3": "froze", "4": "dropped"}
CODES = {"0": "unknown", "1": "AA", "2": "AE"}


def answer(code, control_id, number, header_id="s1"):
    """An answer made by hand, as python3-hl7's create_ack writes no MSA-4. Its MSH-10 is the server's own."""
    number = "" if number is None else "|%s" % number
    text = "MSH|^~\\&|WARD|Y|LAB|X|20261116||ACK|%s|P|2.3.1\rMSA|%s|%s|%s\r"
    return (text % (header_id, code, control_id, number)).encode()


class Ended(Exception):
    """The sender ended the circuit."""


class Circuit:
    """One connection of the sender, at the server's side."""

    def __init__(self, case, driver, reader, writer):
        self.case, self.driver, self.reader, self.writer = case, driver, reader, writer
        self.last = None

    async def request(self):
        """The next message, read and parsed by python3-hl7: MSH-10, MSH-13 and the message."""
        try:
            message = await asyncio.wait_for(self.reader.readmessage(), WAIT)
        except (asyncio.IncompleteReadError, ConnectionError):
            raise Ended()
        return field(message, "MSH", 10), field(message, "MSH", 13), message

    async def expect(self, *numbers, repeats=False):
        """Reads as many requests: MSH-10 and MSH-13 are these, and a transaction is the log's message.

        With a timer that may run out on a busy machine, repeats of the request before are skipped."""
        for number in map(str, numbers):
            control_id, sequence, message = await self.request()
            while repeats and control_id == self.last != number:
                control_id, sequence, message = await self.request()
            self.last = control_id
            self.case.equal((control_id, sequence), (number, number), "MSH-10 and MSH-13 of the request")
            if int(number) > 0:
                self.case.equal(str(message).encode(), samples.numbered(number), "the transaction")

    async def ended(self):
        """The sender ends the circuit, with nothing more sent."""
        try:
            rest = await asyncio.wait_for(self.reader.read(), WAIT)
        except ConnectionResetError:  # as our sender ends it; python3-hl7 is asyncio's reader underneath
            rest = bytes(self.reader._buffer)  # pylint: disable=protected-access
        self.case.equal(rest, b"", "what came before the circuit's end")

    async def shows(self, name, value, what):
        """Waits until the driver shows this: it writes once a turn, after the block went out."""
        for _ in range(WAIT * 100):
            if self.driver.live().get(name) == value:
                break
            await asyncio.sleep(0.01)
        self.case.equal(self.driver.live().get(name), value, what)

    def send(self, *blocks):
        self.writer.write(b"".join(blocks))

    def say(self, code, control_id, number, header_id="s1"):
        self.writer.writeblock(answer(code, control_id, number, header_id))

    async def resynchronize(self):
        await self.expect(-1)
        self.say("AA", "-1", "-1")

    async def until(self, **words):
        """Waits until the stored state has these words."""
        wanted = {name: str(value) for name, value in words.items()}
        for _ in range(WAIT * 100):
            state = self.driver.state()
            if all(state.get(name) == value for name, value in wanted.items()):
                break
            await asyncio.sleep(0.01)
        self.case.equal({name: state.get(name) for name in wanted}, wanted, "stored state")

    async def told(self, event, **words):
        """Waits until the report of the last act tells this event, with these words."""
        wanted = {name: str(value) for name, value in words.items()}
        for _ in range(WAIT * 100):
            live = self.driver.live()
            if EVENTS.get(live.get("act_event")) == event and all(live.get(n) == v for n, v in wanted.items()):
                break
            await asyncio.sleep(0.01)
        self.case.equal(EVENTS.get(live.get("act_event")), event, "event")
        self.case.equal({name: live.get(name) for name in wanted}, wanted, "report")

    def close(self):
        self.writer.close()


class Server:
    """A listening server; the scenario takes the sender's circuits one by one."""

    def __init__(self, case, driver, submitted):
        self.case, self.driver, self.submitted = case, driver, submitted
        self.calls, self.open, self.port = asyncio.Queue(), [], 0

    async def listen(self):
        self.server = await start_hl7_server(lambda *ends: self.calls.put_nowait(ends), "127.0.0.1", self.port)
        self.port = self.server.sockets[0].getsockname()[1]
        self.address = "127.0.0.1:%d" % self.port

    async def stop_listening(self):
        """No new circuit can be opened, so that the report of a circuit's end can be read at leisure."""
        self.server.close()
        await self.server.wait_closed()

    async def circuit(self):
        """The sender's next circuit. All that the spool had at the start is submitted then."""
        reader, writer = await asyncio.wait_for(self.calls.get(), WAIT)
        self.open.append(writer)
        circuit = Circuit(self.case, self.driver, reader, writer)
        if len(self.open) == 1:
            await circuit.until(last=self.submitted)
        return circuit

    def close(self):
        for writer in self.open:
            writer.close()
        self.server.close()


def submit(driver, number, message=None):
    """As the host does: a file under a name that does not count, then its rename into the spool."""
    spool = driver.folder / "spool"
    new = spool / ".new"
    new.write_bytes(samples.numbered(number) if message is None else message)
    new.rename(spool / ("%06d" % number))


def scenario(counting, program, scratch, name, script, transactions=3, options=(), first=1):
    """Runs a new sender with its first transactions in the spool against the script."""
    with counting.case("our sender: " + name) as case:
        folder = scratch / ("sender %d" % (counting.passed + counting.failed))
        with Driver(program, folder) as driver:
            driver.command("sender-init", folder, first)
            for number in range(first, first + transactions):
                submit(driver, number)

            async def play():
                server = Server(case, driver, first + transactions - 1)
                await server.listen()
                try:
                    driver.start("send", "--minimal-connect", server.address, *options)
                    await script(server)
                finally:
                    driver.end(signal.SIGKILL)
                    server.close()

            asyncio.run(asyncio.wait_for(play(), 3 * WAIT))


def good_answers(counting, program, scratch):
    def plain(code, number_of, verdict):
        async def script(server):
            circuit = await server.circuit()
            await circuit.resynchronize()
            for number in (1, 2, 3):
                await circuit.expect(number)
                circuit.say(code, number, number_of(number))
                await circuit.until(delivered=number)
            await circuit.told("delivered", act_delivered=3)
            circuit.case.equal(CODES[server.driver.live()["act_code"]], verdict, "the application's verdict")
            circuit.case.equal(server.driver.live()["waiting"], "1", "nothing waits")

        return script

    run = lambda *words, **more: scenario(counting, program, scratch, *words, **more)
    run("AA, n: delivered", plain("AA", lambda n: n, "AA"), options=NO_TIMER)
    run("AE, n: delivered, with its verdict", plain("AE", lambda n: n, "AE"), options=NO_TIMER)
    run("AR, n + 1: delivered, its verdict unknown", plain("AR", lambda n: n + 1, "unknown"), options=NO_TIMER)
    run("AA, n with leading zeros in MSA-4: delivered", plain("AA", lambda n: "%015d" % n, "AA"), options=NO_TIMER)

    async def other_forms(server):
        circuit = await server.circuit()
        await circuit.resynchronize()
        await circuit.expect(1)
        circuit.send(framed(b"MSH|^~\\&|a|b|c|d|e|f|ACK^A01^ACK|x|T|2.5|9|||AL|NE\rMSA|AA|1|taken|1|D|x\rERR|1\rZZZ"))
        await circuit.expect(2)
        circuit.writer.write(b"HELO\r\n")
        for byte in framed(answer("AA", 2, 2, "12345678901234567890")):
            circuit.send(bytes([byte]))
            await circuit.writer.drain()
        await circuit.expect(3)
        circuit.say("AA", 3, 3, "~")
        await circuit.until(delivered=3)

    run("answers with more fields, more segments, noise before them, in single bytes, with any MSH-10", other_forms,
        options=NO_TIMER)

    async def repeated(server):
        circuit = await server.circuit()
        await circuit.expect(-1)
        circuit.send(2 * framed(answer("AA", "-1", "-1")))
        for number in (1, 2, 3):
            await circuit.expect(number)
            circuit.send(3 * framed(answer("AA", number, number)))
        await circuit.until(delivered=3)
        submit(server.driver, 4)
        await circuit.expect(4)  # a dropped or needless answer brought no send
        circuit.say("AA", 4, 4)
        await circuit.until(delivered=4)

    run("each answer three times: the others are dropped, and nothing is sent twice", repeated, options=NO_TIMER)

    async def late(server):
        circuit = await server.circuit()
        await circuit.resynchronize()
        await circuit.expect(1, 1, repeats=True)
        circuit.say("AA", 1, 1)  # to the first send, late
        circuit.say("AR", 1, 2)  # to the second, which a receiver knows to be a duplicate
        await circuit.until(delivered=1)
        await circuit.expect(2, repeats=True)
        circuit.case.equal(server.driver.state()["frozen"], "0", "frozen")
        circuit.say("AA", 2, 2)
        await circuit.until(delivered=2)

    run("late answers: a resend, and the second answer is dropped", late, options=["--timer", 400])

    async def lost(server):
        circuit = await server.circuit()
        await circuit.resynchronize()
        await circuit.expect(1, repeats=True)  # stored by the server, and its answer is lost
        await circuit.expect(1)
        circuit.say("AR", 1, 2)
        await circuit.told("delivered", act_delivered=1, act_code=0)

    run("a lost answer: the resend is answered AR, n + 1", lost, options=["--timer", 400], transactions=1)


def dropped_and_refused(counting, program, scratch):
    run = lambda *words, **more: scenario(counting, program, scratch, *words, **more)

    async def foreign(server):
        circuit = await server.circuit()
        await circuit.expect(-1)
        for control_id in ("1", "0", "-01", " -1", "-1 ", "", "-1^"):
            circuit.say("AA", control_id, "-1")
        circuit.say("CA", "1", None)
        await circuit.told("dropped")
        circuit.say("AA", "-1", "-1")
        await circuit.expect(1)
        for control_id in ("2", "01", "1 ", "", "1.0"):
            circuit.say("AA", control_id, 1)
        circuit.send(framed(b"MSH|^~\\&|||||||ACK|1|P|2.3.1\rMSA|AA\r"))  # MSA-2 is missing
        await circuit.told("dropped")
        circuit.say("AA", 1, 1)
        await circuit.expect(2)
        circuit.case.equal(server.driver.state()["frozen"], "0", "frozen")

    run("another MSA-2: dropped, no resend, not frozen", foreign, options=NO_TIMER)

    async def always_foreign(server):
        circuit = await server.circuit()
        await circuit.resynchronize()
        await server.stop_listening()
        for _ in range(3):
            await circuit.expect(1, repeats=True)
            circuit.say("AA", 2, 1)
        await circuit.ended()
        await circuit.told("given up", act_sends=3)
        await server.listen()
        circuit = await server.circuit()  # the next circuit asks with 0 and goes on
        await circuit.expect(0)
        circuit.say("AA", 0, "-1")
        await circuit.expect(1, repeats=True)
        circuit.say("AA", 1, 1)
        await circuit.expect(2, repeats=True)

    run("always another MSA-2, r = 2: given up after 3 sends; the next circuit goes on", always_foreign,
        options=["--timer", 300, "--resends", 2])

    refused = [
        ("3, MLLP release 2's commit accept 06", framed(b"\x06"), 3),
        ("3, MLLP release 2's commit reject 15", framed(b"\x15"), 3),
        ("3, a byte E9 in the answer", framed(answer("AA", 1, 1) + b"ERR|\xe9\r"), 3),
        ("3, line feeds for CR", framed(answer("AA", 1, 1).replace(CR, b"\n")), 3),
        ("4, over D", framed(answer("AA", 1, 1) + b"x" * 4096), 4),
        ("5, EB without CR", framed(answer("AA", 1, 1))[:-1] + b"\n", 5),
        ("8, EB CR lost before the next answer (which is to something else)",
         SB + answer("AA", 1, 1) + framed(answer("AA", "x", 1)), 8),
        ("9, garbage", framed(b"garbage"), 9),
        ("9, an empty block", framed(b""), 9),
        ("9, a hybrid N block on a minimal line", framed(b"N23\rX00006017"), 9),
        ("9, no MSA segment", framed(b"MSH|^~\\&|||||||ACK|1|P|2.3.1\r"), 9),
        ("9, a segment between MSH and MSA", framed(answer("AA", 1, 1).replace(b"MSA", b"SFT|x\rMSA")), 9),
        ("9, no MSH-10 in the answer", framed(answer("AA", 1, 1, "")), 9),
        ("9, an MSH-10 of 21 bytes in the answer", framed(answer("AA", 1, 1, "x" * 21)), 9),
        ("9, the last CR stripped", framed(answer("AA", 1, 1)[:-1]), 9),
    ]
    for name, block, number in refused:

        async def bad(server, block=block, number=number):
            circuit = await server.circuit()
            await circuit.resynchronize()
            await circuit.expect(1)
            circuit.send(block)
            await circuit.expect(1)  # sent again at once: no timer runs out here
            if number == 8:  # behind that block an answer to something else is dropped
                await circuit.told("dropped")
            else:
                await circuit.shows("act_block", str(number), "the block's number")
            circuit.say("AA", 1, 1)
            await circuit.expect(2)
            await server.stop_listening()
            for sends in (1, 2, 3):
                await circuit.shows("sends", str(sends), "sends made")
                circuit.send(block)
                await circuit.expect(2)
            circuit.send(block)
            await circuit.ended()
            await circuit.told("given up", act_sends=4, act_block=number)
            circuit.case.equal(server.driver.state()["frozen"], "0", "frozen")
            await server.listen()
            circuit = await server.circuit()
            await circuit.expect(0)
            circuit.say("AA", 0, 2)
            await circuit.expect(2)

        run("refused by %s: sent again at once, given up after r + 1 = 4 sends" % name, bad, options=NO_TIMER)

    async def commit_bytes(server):
        """A release 2 receiver: a commit byte to each send, and then its application's answer."""
        circuit = await server.circuit()
        await circuit.resynchronize()
        for number in (1, 2, 3):
            await circuit.expect(number)
            circuit.send(framed(b"\x06"))
            await circuit.expect(number)  # sent again for the commit byte
            circuit.say("AA", number, number)
            circuit.say("AR", number, number + 1)  # to the second send, a duplicate: dropped
        await circuit.until(delivered=3, frozen=0)

    run("MLLP release 2's 06 and then the answer, with numbers: each is sent twice, and delivered", commit_bytes,
        options=NO_TIMER)


def freezes(counting, program, scratch):
    """All else freezes: what waits, MSA-1 and MSA-4 (None: no such field)."""
    rows = [
        ("-1", "AA", None), ("-1", "AA", ""), ("-1", "AA", 0), ("-1", "AA", 1), ("-1", "AE", -1), ("-1", "AR", -1),
        ("-1", "CA", None), ("-1", "", -1),
        ("0", "AA", None), ("0", "AA", 0), ("0", "AA", 3), ("0", "AE", 1), ("0", "AR", -1), ("0", "CA", None),
        ("1", "AA", None), ("1", "AA", ""), ("1", "AA", 2), ("1", "AA", 0), ("1", "AA", -1), ("1", "AA", "x"),
        ("1", "AE", None), ("1", "AE", 2), ("1", "AR", None), ("1", "AR", 1), ("1", "AR", 3), ("1", "AR", -1),
        ("1", "CA", None), ("1", "CA", 1), ("1", "CE", None), ("1", "CR", None), ("1", "aa", 1), ("1", "AA ", 1),
    ]
    for waits, code, number in rows:

        async def frozen(server, waits=waits, code=code, number=number):
            circuit = await server.circuit()
            if waits != "-1":
                await circuit.resynchronize()
                await circuit.expect(1)
            if waits == "0":
                circuit.close()
                circuit = await server.circuit()
                await circuit.expect(0)
            elif waits == "-1":
                await circuit.expect(-1)
            circuit.say(code, waits, number)
            await circuit.ended()
            await circuit.until(frozen=1, delivered=0, waited=waits, control_id=waits, code=code,
                                expected="" if number is None else number)
            server.driver.end()
            server.driver.command("reset", server.driver.folder)
            server.driver.start("send", "--minimal-connect", server.address, *NO_TIMER)
            circuit = await server.circuit()
            await circuit.expect("-1" if waits == "-1" else "0")
            circuit.say("AA", "-1" if waits == "-1" else "0", -1)
            await circuit.expect(1)
            circuit.say("AA", 1, 1)
            await circuit.until(frozen=0, delivered=1)

        shown = "no MSA-4" if number is None else "MSA-4 '%s'" % number
        name = "%s waits, '%s' with %s: frozen until the reset" % (waits, code, shown)
        scenario(counting, program, scratch, name, frozen, options=NO_TIMER, transactions=1)

    async def own_answer(server):
        circuit = await server.circuit()
        await circuit.resynchronize()
        control_id, _, message = await circuit.request()
        circuit.writer.writemessage(message.create_ack("AA"))
        await circuit.ended()
        await circuit.until(frozen=1, delivered=0, waited=1, code="AA", control_id=control_id, expected="")

    scenario(counting, program, scratch, "python3-hl7's own create_ack: no MSA-4, frozen", own_answer, options=NO_TIMER)

    async def next_number(server):
        """A receiver as V3 words it (003:250): it stores n and answers AA with the next number, n + 1."""
        circuit = await server.circuit()
        await circuit.resynchronize()
        for number in (1, 2):
            await circuit.expect(number)
            circuit.say("AA", number, number + 1)
            await circuit.ended()
            await circuit.until(frozen=1, delivered=number - 1, waited=number, code="AA", expected=number + 1)
            server.driver.end()
            server.driver.command("reset", server.driver.folder)
            server.driver.start("send", "--minimal-connect", server.address, *NO_TIMER)
            circuit = await server.circuit()
            await circuit.expect(0)
            circuit.say("AA", 0, number + 1)
            await circuit.until(frozen=0, delivered=number)
        await circuit.expect(3)

    scenario(counting, program, scratch, "a receiver that answers AA with the next number: frozen at each transaction; "
             "after a reset the answer to 0 has it delivered", next_number, options=NO_TIMER)

    async def echo(server):
        """A receiver that copies MSH-10 and MSH-13 into its answer and keeps no number."""
        circuit = await server.circuit()
        for number in (-1, 1, 2, 3):
            await circuit.expect(number)
            circuit.say("AA", number, number)
        await circuit.until(delivered=3)
        circuit.close()
        circuit = await server.circuit()
        await circuit.expect(0)
        circuit.say("AA", 0, 0)
        await circuit.ended()
        await circuit.until(frozen=1, delivered=3, waited=0, code="AA", expected=0)

    scenario(counting, program, scratch, "a receiver that only echoes: one circuit works, the second freezes at 0",
             echo, options=NO_TIMER)

    async def plainest(server):
        """python3-hl7's plainest server: readmessage, create_ack, writemessage."""
        for _ in range(2):
            circuit = await server.circuit()
            await server.stop_listening()
            _, _, message = await circuit.request()
            try:
                circuit.writer.writemessage(message.create_ack("AA"))
                circuit.case.true(False, "create_ack raises on our control message")
            except TypeError:
                circuit.case.true(True, "create_ack raises on our control message")
            await circuit.expect(-1)
            await circuit.ended()
            await circuit.told("given up", act_sends=2)
            await server.listen()
        circuit.case.equal(server.driver.state()["delivered"], "0", "delivered")
        circuit.case.equal(server.driver.state()["frozen"], "0", "frozen")

    scenario(counting, program, scratch, "python3-hl7's plainest server never answers -1: given up on each circuit, "
             "not frozen", plainest, options=["--timer", 100, "--resends", 1])


def circuits(counting, program, scratch):
    """What the answer to 0 says on a second circuit: the mark before, the answer, and what is sent next."""
    rows = [
        ("none delivered, AA, -1", 0, -1, 1, 0),
        ("none delivered, AA, 1", 0, 1, 1, 0),
        ("none delivered, AA, 2: 1 was delivered", 0, 2, 2, 1),
        ("1 delivered, AA, 2", 1, 2, 2, 1),
        ("1 delivered, AA, 3: 2 was delivered", 1, 3, 3, 2),
        ("1 delivered, AA, -1: frozen", 1, -1, None, 1),
        ("1 delivered, AA, 1: frozen", 1, 1, None, 1),
        ("1 delivered, AA, 4: frozen", 1, 4, None, 1),
        ("3 delivered, AA, 5, which was not submitted: frozen", 3, 5, None, 3),
    ]
    for name, mark, said, then, after in rows:

        async def second(server, mark=mark, said=said, then=then, after=after):
            circuit = await server.circuit()
            await circuit.resynchronize()
            for number in range(1, mark + 1):
                await circuit.expect(number)
                circuit.say("AA", number, number)
            await circuit.until(delivered=mark)
            if mark < 3:
                await circuit.expect(mark + 1)
            circuit.close()
            circuit = await server.circuit()
            await circuit.expect(0)
            circuit.say("AA", 0, said)
            if then is None:
                await circuit.ended()
            else:
                await circuit.expect(then)
            await circuit.until(frozen=int(then is None), delivered=after)

        scenario(counting, program, scratch, "a second circuit, " + name, second, options=NO_TIMER)

    async def first_is_five(server):
        circuit = await server.circuit()
        await circuit.expect(-1)
        circuit.close()
        circuit = await server.circuit()  # not yet resynchronised: -1 again
        await circuit.resynchronize()
        await circuit.expect(5)
        for said, then, after in ((-1, 5, 4), (5, 5, 4), (6, 6, 5), (7, 7, 6)):
            circuit.close()
            circuit = await server.circuit()
            await circuit.expect(0)
            circuit.say("AA", 0, said)
            await circuit.expect(then)
            await circuit.until(delivered=after, frozen=0)

    scenario(counting, program, scratch, "first number 5: -1 on each circuit until it is answered, then 0",
             first_is_five, options=NO_TIMER, first=5)

    async def last_number(server):
        last = 999999999999998
        circuit = await server.circuit()
        await circuit.resynchronize()
        await circuit.expect(last)
        circuit.say("AR", last, last + 1)
        await circuit.until(delivered=last, frozen=0)
        submit(server.driver, last + 1)
        for _ in range(WAIT * 100):
            got = [path.name for path in (server.driver.folder / "refused").iterdir()]
            if got:
                break
            await asyncio.sleep(0.01)
        circuit.case.equal(got, ["10-%d" % (last + 1)], "none is left: refused by 10")

    scenario(counting, program, scratch, "the last number, 999999999999998, answered AR, 999999999999999: delivered",
             last_number, options=NO_TIMER, first=999999999999998, transactions=1)

    async def refused_at_submitting(server):
        driver = server.driver
        circuit = await server.circuit()
        await circuit.resynchronize()
        submit(driver, 1, samples.numbered(1, name="Jos\u00e9"))
        submit(driver, 2, samples.numbered(1) + b"x" * 4096)
        submit(driver, 3, b"garbage")
        submit(driver, 4, samples.numbered(2))
        submit(driver, 5, samples.numbered(1, control_id="A1"))
        submit(driver, 6, samples.numbered("", control_id="1"))
        submit(driver, 7, samples.numbered(1))
        await circuit.expect(1)
        got = sorted(path.name for path in (driver.folder / "refused").iterdir())
        wanted = ["3-000001", "4-000002", "9-000003", "10-000004", "10-000005", "10-000006"]
        circuit.case.equal(got, sorted(wanted), "refused, with the library's number")

    scenario(counting, program, scratch, "submitting refuses a byte over 7E (3), too long (4), no header (9), another "
             "number (10)", refused_at_submitting, options=NO_TIMER, transactions=0)


class Receiver:
    """Document 01's table, written here with python3-hl7's parser: what it stores, and what it answers."""

    def __init__(self):
        self.expected, self.stored = None, []

    def answer(self, sequence, message):
        number = int(sequence)
        if number == -1:
            self.expected = None
            return "AA", -1
        if number == 0:
            return "AA", -1 if self.expected is None else self.expected
        if self.expected in (None, number):
            self.stored.append(str(message).encode())
            self.expected = number + 1
            return "AA" if number % 3 else "AE", number
        return "AR", self.expected


def bad_line(counting, program, scratch):
    transactions = 60
    faults = ["twice", "lost", "garbage", "close", "kill"]

    async def rough(server):
        rng = random.Random(711)
        receiver, delivered, deck, met = Receiver(), 0, [], set()
        while delivered < transactions:
            circuit = await server.circuit()
            while delivered < transactions:
                try:
                    control_id, sequence, message = await circuit.request()
                except Ended:
                    break
                code, number = receiver.answer(sequence, message)
                if not deck:
                    deck = ["answer"] * 6 + faults
                    rng.shuffle(deck)
                kind = deck.pop()
                met.add(kind)
                if kind == "kill":
                    server.driver.end(signal.SIGKILL)
                    server.driver.start("send", "--minimal-connect", server.address, "--timer", 40)
                if kind in ("close", "kill"):
                    circuit.close()
                    break
                block = framed(answer(code, control_id, number))
                if kind == "garbage":
                    circuit.send(block[:-2] + framed(b"\x06"))
                elif kind != "lost":
                    circuit.send((2 if kind == "twice" else 1) * block)
                if len(receiver.stored) == transactions and kind in ("answer", "twice"):
                    await circuit.until(delivered=transactions)
                delivered = int(server.driver.state()["delivered"])
                k = len(receiver.stored)
                circuit.case.true(delivered in (k - 1, k), "the mark covers k or k less one")
            circuit.case.equal(server.driver.state()["frozen"], "0", "frozen")
        log = [samples.numbered(number) for number in range(1, transactions + 1)]
        circuit.case.equal(receiver.stored, log, "stored, each once, in order")
        circuit.case.equal(met, {"answer", *faults}, "faults met")

    name = "%d transactions over a bad line (answers lost, damaged, twice; circuits cut; SIGKILL): each stored once"
    scenario(counting, program, scratch, name % transactions, rough, options=["--timer", 40], transactions=transactions)


def run(counting, program, scratch):
    good_answers(counting, program, scratch)
    dropped_and_refused(counting, program, scratch)
    freezes(counting, program, scratch)
    circuits(counting, program, scratch)
    bad_line(counting, program, scratch)
