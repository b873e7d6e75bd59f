"""Our sender and our receiver over TCP, and tshark looks at what went by."""

import select
import socket
import threading

import dissector
import samples
from driver import Driver, wait_until
from sending import submit


class Relay:
    """Stands between the two and takes down what each sent, in order."""

    def __init__(self, port):
        self.port, self.packets, self.stopped = port, [], False
        self.listening = socket.create_server(("127.0.0.1", 0))
        self.address = "127.0.0.1:%d" % self.listening.getsockname()[1]
        self.thread = threading.Thread(target=self.serve, daemon=True)
        self.thread.start()

    def serve(self):
        self.listening.settimeout(20)
        sender, _ = self.listening.accept()
        receiver = socket.create_connection(("127.0.0.1", self.port))
        with sender, receiver:
            while not self.stopped:
                for ready in select.select([sender, receiver], [], [], 0.05)[0]:
                    try:
                        data = ready.recv(65536)
                    except ConnectionResetError:  # so our sender ends a circuit
                        return
                    if not data:
                        return
                    self.packets.append((1, ready is sender, data))
                    (receiver if ready is sender else sender).sendall(data)

    def close(self):
        self.stopped = True
        self.thread.join(30)
        self.listening.close()


def run(counting, program, scratch):
    with counting.case("tshark on our sender and our receiver: -1, 1 to 9, and their answers") as case:
        sender, receiver = Driver(program, scratch / "watched sender"), Driver(program, scratch / "watched receiver")
        with sender, receiver:
            sender.command("sender-init", sender.folder, 1)
            receiver.command("receiver-init", receiver.folder)
            messages = [samples.numbered(number) for number in range(1, 10)]
            for number in range(1, 10):
                submit(sender, number)
            relay = Relay(receiver.start_listening("receive"))
            try:
                sender.start("send", "--minimal-connect", relay.address, "--timer", 60000)
                case.true(wait_until(lambda: sender.state()["delivered"] == "9"), "all are delivered")
                sender.end()
                receiver.end()
            finally:
                relay.close()
            case.equal(receiver.transactions(), messages, "stored")
        seen = []
        for types, messages, _ in dissector.dissected(scratch, relay.packets):
            for kind, segments in zip(types, messages):
                header, part = segments[0], segments[1] if len(segments) > 1 else {}
                seen.append((kind, header.get(10), header.get(13), part.get(1), part.get(2), part.get(3), part.get(5)))
        wanted = [("ADT", b"-1", b"-1", None, None, None, None), ("ACK", b"-1", None, b"MSA", b"AA", b"-1", b"-1")]
        for number in range(1, 10):
            text = str(number).encode()
            wanted.append(("ADT", text, text, b"PID", None, None, None))
            wanted.append(("ACK", text, None, b"MSA", b"AA", text, text))
        case.equal([row[:3] for row in seen], [row[:3] for row in wanted], "types, MSH-10 and MSH-13")
        case.equal([row[3:] for row in seen if row[0] == "ACK"], [row[3:] for row in wanted if row[0] == "ACK"],
                   "MSA-1, MSA-2 and MSA-4")
