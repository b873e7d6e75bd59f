"""python3-hl7's own readers and writers, on bytes."""

import asyncio

import hl7
import hl7.client
from hl7.mllp import streams

UNFINISHED = "unfinished"  # the reader still waits when the stream ends


async def _read(parts, name, limit):
    reader = streams.HL7StreamReader(**({} if limit is None else {"limit": limit}))
    seen = []

    async def feed():
        for part in parts:
            if part:
                reader.feed_data(part)
            await asyncio.sleep(0)
        reader.feed_eof()

    feeding = asyncio.ensure_future(feed())
    while True:
        try:
            got = await getattr(reader, name)()
            seen.append(got if isinstance(got, bytes) else str(got).encode())
        except asyncio.IncompleteReadError as error:
            if error.partial:
                seen.append(UNFINISHED)
            break
        except Exception as error:
            seen.append(type(error).__name__)
    await feeding
    return seen


def readblock(parts, limit=None):
    """What MLLPStreamReader.readblock gives: data, or the name of the exception, for each call."""
    return asyncio.run(_read(parts, "readblock", limit))


def readmessage(parts, limit=None):
    """The same of HL7StreamReader.readmessage, the messages written back as text."""
    return asyncio.run(_read(parts, "readmessage", limit))


class _Stream:
    def __init__(self, parts):
        self.parts = [part for part in parts if part]

    def read(self, most):
        if not self.parts:
            return b""
        part = self.parts.pop(0)
        if len(part) > most:
            self.parts.insert(0, part[most:])
        return part[:most]


def read_stream(parts):
    """What hl7.client.read_stream gives (mllp_send reads its input with it)."""
    seen = []
    try:
        seen.extend(hl7.client.read_stream(_Stream(parts)))
    except hl7.client.MLLPException:
        seen.append("MLLPException")
    return seen


class _Transport:
    """Takes down what a writer writes."""

    def __init__(self):
        self.taken = b""

    def write(self, data):
        self.taken += bytes(data)

    def is_closing(self):
        return True


def _writer(transport, loop):
    return streams.HL7StreamWriter(transport, None, None, loop)


def writeblock(data):
    """The bytes that MLLPStreamWriter.writeblock puts on the line."""
    loop = asyncio.new_event_loop()
    try:
        transport = _Transport()
        _writer(transport, loop).writeblock(data)
        return transport.taken
    finally:
        loop.close()


def writemessage(message):
    """The bytes that HL7StreamWriter.writemessage puts on the line for a parsed message."""
    loop = asyncio.new_event_loop()
    try:
        transport = _Transport()
        _writer(transport, loop).writemessage(message)
        return transport.taken
    finally:
        loop.close()


def field(message, name, number):
    """Field `number` of the first segment `name`, as it stands; empty where there is none."""
    try:
        return str(message.segment(name)(number))
    except (IndexError, KeyError):
        return ""
