"""Captures as lists of records, which can be altered and written again, and the input of a case."""
import os
import re
import sys
import typing

TOP = os.path.join(os.path.dirname(os.path.abspath(__file__)), "..")
sys.path[1:1] = [os.path.join(TOP, "cases"), os.path.join(TOP, "plain")]
import messages  # noqa: E402

MAGICS = messages.MAGIC, messages.TIMED_MAGIC
REQUEST, ANSWER = 0, 1
ENTRY = re.compile(rb"(\d{1,9})((?: .*)?)", re.DOTALL)


class Input(typing.NamedTuple):
    """The bytes of a capture, of an order and of a tree text, or None."""

    capture: bytes
    order: bytes
    tree: bytes | None = None

    def size(self):
        return len(self.capture) + len(self.order) + len(self.tree or b"")


class Record(typing.NamedTuple):
    """A record. `origin` is the number that its message had in the capture from which an order knows it, if it stood there."""

    direction: int
    message: bytes
    time: int = 0
    origin: int | None = None

    def unique(self):
        return int.from_bytes(self.message[8:16], "little")

    def opcode(self):
        return int.from_bytes(self.message[4:8], "little")


class Capture(typing.NamedTuple):
    """What a capture begins with, its records, and the bytes behind these that are no records."""

    magic: bytes
    records: list
    tail: bytes = b""

    def bytes(self):
        """The bytes of the capture."""
        head = messages.record_of(self.magic)
        parts = [self.magic]
        for record in self.records:
            told = {"direction": record.direction, "time": record.time}
            parts += [messages.encoded(head, told, len(record.message)), record.message]
        return b"".join([*parts, self.tail])


def read(data):
    """A capture as records, as far as it has any."""
    magic, place, records = data[:8], 8, []
    head = 13 if magic == messages.TIMED_MAGIC else 5
    while magic in MAGICS and len(data) - place >= head:
        begin = place + head
        end = begin + int.from_bytes(data[begin - 4 : begin], "little")
        if end > len(data):
            break
        time = int.from_bytes(data[place + 1 : begin - 4], "little")
        records.append(Record(data[place], data[begin:end], time, len(records)))
        place = end
    return Capture(magic, records, data[place:])


def renumbered(order, records):
    """An order text whose entries name the messages where they stand now. Those of messages that are gone go."""
    places = {record.origin: number for number, record in enumerate(records) if record.origin is not None}
    lines = []
    for line in order.split(b"\n"):
        entry = ENTRY.fullmatch(line)
        if not entry:
            lines.append(line)
        elif int(entry[1]) in places:
            lines.append(b"%d%b" % (places[int(entry[1])], entry[2]))
    return b"\n".join(lines)


def is_serial(records):
    """Whether each request that may be answered was answered before the next was sent, so that no two were ever under way."""
    waits = None
    for record in records:
        if record.direction == ANSWER:
            waits = None if record.unique() == waits else waits
        elif waits is not None:
            return False
        elif record.opcode() not in (messages.BY_NAME["FORGET"].opcode, messages.BY_NAME["BATCH_FORGET"].opcode):
            waits = record.unique()
    return True
