"""Captures, as far as fuse-try reads them: docs/formats.md has the format."""

import collections
import enum
import os
import struct

REQUEST, REPLY = 0, 1
HEADS = {b"FUSECAP1": struct.Struct("<BI"), b"FUSECAP2": struct.Struct("<BQI")}
IN_HEADER = struct.Struct("<IIQQ")  # len, opcode, unique, nodeid
OUT_HEADER = struct.Struct("<IiQ")  # len, error, unique


class Operation(enum.IntEnum):
    """As in fuse.h."""

    LOOKUP = 1
    FORGET = 2
    GETATTR = 3
    SETATTR = 4
    READLINK = 5
    SYMLINK = 6
    MKNOD = 8
    MKDIR = 9
    UNLINK = 10
    RMDIR = 11
    RENAME = 12
    LINK = 13
    OPEN = 14
    READ = 15
    WRITE = 16
    OPENDIR = 27
    READDIR = 28
    CREATE = 35
    INTERRUPT = 36
    NOTIFY_REPLY = 41
    BATCH_FORGET = 42
    READDIRPLUS = 44
    RENAME2 = 45


WITHOUT_ANSWER = {Operation.FORGET, Operation.INTERRUPT, Operation.NOTIFY_REPLY, Operation.BATCH_FORGET}
# Those that act on the tree: an order names each that was answered.
TREE_OPERATIONS = set(Operation) - WITHOUT_ANSWER
# Those that change nothing, whatever is answered.
READING = {
    Operation.LOOKUP, Operation.GETATTR, Operation.READLINK, Operation.READ, Operation.OPENDIR, Operation.READDIR, Operation.READDIRPLUS
}
# Where the names of a request stand in its message: behind its header and a struct.
NAMES_AT = {
    Operation.LOOKUP: 40, Operation.SYMLINK: 40, Operation.MKNOD: 56, Operation.MKDIR: 48, Operation.UNLINK: 40, Operation.RMDIR: 40,
    Operation.RENAME: 48, Operation.LINK: 48, Operation.CREATE: 56, Operation.RENAME2: 56,
}
STRUCT_AT = 40
GIVES_NODE = {Operation.LOOKUP, Operation.SYMLINK, Operation.MKNOD, Operation.MKDIR, Operation.LINK, Operation.CREATE}
ENTRY_SIZE, DIRENT_SIZE = 128, 24

Message = collections.namedtuple("Message", "head direction bytes")


class Capture:
    """The messages of a capture, up to one that is cut off."""

    def __init__(self, magic, messages):
        self.magic, self.messages = magic, messages

    @staticmethod
    def read(path):
        with open(path, "rb") as file:
            content = file.read()
        magic, at, messages = content[:8], 8, []
        head = HEADS[magic]
        while at + head.size <= len(content):
            direction, *_, length = head.unpack_from(content, at)
            if at + head.size + length > len(content):
                break
            messages.append(Message(content[at : at + head.size], direction, content[at + head.size : at + head.size + length]))
            at += head.size + length
        return Capture(magic, messages)

    def write(self, path):
        with open(path, "wb") as file:
            file.write(self.magic)
            for message in self.messages:
                file.write(message.head + message.bytes)


def opcode_of(message):
    return IN_HEADER.unpack_from(message.bytes)[1] if len(message.bytes) >= IN_HEADER.size else 0


def unique_of(message):
    """0 for a notification, and for what has no header."""
    if len(message.bytes) < OUT_HEADER.size:
        return 0
    return IN_HEADER.unpack_from(message.bytes)[2] if message.direction == REQUEST else OUT_HEADER.unpack_from(message.bytes)[2]


def time_of(message):
    """In seconds of CLOCK_MONOTONIC."""
    return HEADS[b"FUSECAP2"].unpack(message.head)[1] / 1e9


def acts_on_tree(message):
    return opcode_of(message) in TREE_OPERATIONS


def most_in_flight(capture):
    """How many requests waited for their answers at most."""
    waiting, most = set(), 0
    for message in capture.messages:
        if message.direction == REPLY:
            waiting.discard(unique_of(message))
        elif opcode_of(message) not in WITHOUT_ANSWER:
            waiting.add(unique_of(message))
            most = max(most, len(waiting))
    return most


def answers(capture):
    """The place of each request's answer, by that of the request."""
    waiting, found = {}, {}
    for place, message in enumerate(capture.messages):
        if message.direction == REQUEST:
            waiting[unique_of(message)] = place
        elif unique_of(message) in waiting:
            found[waiting.pop(unique_of(message))] = place
    return found


def pair_at(capture, place):
    """The places of the request and of the answer, of which one is at this place; None for one that is not there."""
    if place >= len(capture.messages):
        return None, None
    if capture.messages[place].direction == REQUEST:
        return place, answers(capture).get(place)
    unique = unique_of(capture.messages[place])
    asked = [at for at in range(place) if capture.messages[at].direction == REQUEST and unique_of(capture.messages[at]) == unique]
    return asked[-1] if asked else None, place


def operation_at(capture, place):
    """The operation of the request at a place, or of the one that is answered there; 0 where none is."""
    request, _ = pair_at(capture, place)
    return opcode_of(capture.messages[request]) if request is not None else 0


def names_of(message):
    """The names that a request has, with their directories."""
    opcode, at = opcode_of(message), NAMES_AT.get(opcode_of(message))
    if at is None or len(message.bytes) <= at:
        return []
    texts, node = message.bytes[at:].split(b"\0"), node_of(message)
    if opcode in (Operation.RENAME, Operation.RENAME2):
        return [(node, texts[0]), (number_at(message, STRUCT_AT), texts[1] if len(texts) > 1 else b"")]
    return [(node, texts[0])]


def node_of(message):
    return IN_HEADER.unpack_from(message.bytes)[3] if len(message.bytes) >= IN_HEADER.size else 0


def number_at(message, place):
    return int.from_bytes(message.bytes[place : place + 8], "little")


def nodes_given(request, answer):
    """The nodes that an answer gives."""
    if not answer or OUT_HEADER.unpack_from(answer.bytes)[1] != 0:
        return []
    if opcode_of(request) in GIVES_NODE:
        return [number_at(answer, OUT_HEADER.size)]
    found, at = [], OUT_HEADER.size
    while opcode_of(request) == Operation.READDIRPLUS and at + ENTRY_SIZE + DIRENT_SIZE <= len(answer.bytes):
        found.append(number_at(answer, at))
        length = int.from_bytes(answer.bytes[at + ENTRY_SIZE + 16 : at + ENTRY_SIZE + 20], "little")
        at += ENTRY_SIZE + (DIRENT_SIZE + length + 7) // 8 * 8
    return found


def subjects_of(request, answer):
    """What a request touches: names, each with its directory; nodes, but for directories that only have these names; and listings."""
    names = names_of(request)
    nodes = set(nodes_given(request, answer))
    if not names:
        nodes.add(node_of(request))
    elif opcode_of(request) == Operation.LINK:
        nodes.add(number_at(request, STRUCT_AT))
    return set(names) | nodes - {0}


def related(capture, place):
    """
    The places of the requests that touch what the request at a place touches, its directories too, also by way of one another. What
    names are in a directory that it reads touches it.
    """
    answered = answers(capture)
    requests = [at for at, message in enumerate(capture.messages) if message.direction == REQUEST]
    subjects = {}
    for at in requests:
        answer = capture.messages[answered[at]] if at in answered else None
        subjects[at] = subjects_of(capture.messages[at], answer)
    names = names_of(capture.messages[place])
    touched, grown = subjects[place] | {directory for directory, _ in names}, True
    directories = set() if names else {node_of(capture.messages[place])}
    while grown:
        grown = False
        for at in requests:
            mine = subjects[at]
            lists = any(isinstance(subject, tuple) and subject[0] in directories for subject in mine)
            if (mine & touched or lists) and not mine <= touched:
                touched |= mine
                grown = True
    return {at for at in requests if subjects[at] & touched}


def may_change(request, answer):
    """Whether a request may have changed the tree: one that was refused has not."""
    if not acts_on_tree(request) or opcode_of(request) in READING:
        return False
    if opcode_of(request) == Operation.OPEN and not number_at(request, STRUCT_AT) & os.O_TRUNC:
        return False
    return answer is None or OUT_HEADER.unpack_from(answer.bytes)[1] == 0


def may_go(capture, place):
    """
    The places of the requests that may be left out of what is said of one: those that changed nothing, since then nothing is said
    that they make true, and those that touch nothing of it.
    """
    answered, near = answers(capture), related(capture, place)
    found = []
    for at, message in enumerate(capture.messages):
        if message.direction == REQUEST and at not in (0, place):
            answer = capture.messages[answered[at]] if at in answered else None
            if at not in near or not may_change(message, answer):
                found.append(at)
    return found


def without(capture, places):
    """The capture without these requests and their answers, and the new places of those that stay."""
    answered = answers(capture)
    gone = set(places) | {answered[place] for place in places if place in answered}
    stays = [at for at in range(len(capture.messages)) if at not in gone]
    return Capture(capture.magic, [capture.messages[at] for at in stays]), {at: new for new, at in enumerate(stays)}
