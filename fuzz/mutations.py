"""Mutations of an input: by structure, of messages, of orders and of tree texts, and by bytes. All chance comes from a `random.Random`."""
import os

import captures
from captures import ANSWER, REQUEST, Input, Record, messages

from ledger import TREE_REQUESTS

NAMES = b"a", b"b", b"c", b"a", b"b", b"", b".", b"..", b"a/b", b"\x01", b"x" * 1024, b"x" * 1025
# Values that a field of this name may get, beside those that any number may.
VALUES = {
    "opcode": range(60), "unique": (0, 2, 4, 6), "node": (0, 1, 2, 3, 99), "newdir": (1, 2, 3), "oldnodeid": (1, 2, 3),
    "error": (1, -1, -2, -17, -20, -21, -38, -39, -999, -1000), "fh": (0, 1, 2, 99),
    "mode": (0, 0o644, 0o755, 0o100644, 0o100600, 0o040755, 0o120777, 0o010600, 0o020600, 0o060600, 0o140600),
    "valid": (0, 1, 8, 9, 64, 72), "flags": (0, 1, 2, 4, 8, 0x42, 0x80, 0xC2, 0x200, 0x242, 1 << 16, 1 << 20, 3 << 19),
    "open_flags": (0, 1), "getattr_flags": (0, 1), "size": (0, 1, 3, 24, 32, 4096, 1 << 31, 1 << 40, (1 << 40) + 1),
    "offset": (0, 1, 2, 4, 64 << 12, 127 << 12, 1 << 40, (1 << 40) - 1), "off": (0, 1, 2, 3), "nlink": (0, 1, 2, 3), "type": (0, 1, 2, 4, 6, 8, 10, 12),
    "nlookup": (0, 1, 2, 3, 1 << 32), "major": (6, 7, 8), "minor": (30, 31, 32), "namelen": (0, 1, 2, 1024, 1025), "count": (0, 1, 2)}
# Messages that are put in, each line a message, or a request and its answer. Words in braces are picked.
with open(os.path.join(os.path.dirname(__file__), "said.txt"), encoding="ascii") as opened:
    SAID = opened.read().splitlines()
# From here on are the origins of these.
NEW = 100_000_000
# So many bytes at most come of messages that are repeated.
MOST_BYTES = 90_000
ERRORS = "ok ENOENT EEXIST ENOTDIR EISDIR ENOTEMPTY ENOSYS EIO EPERM".split()


class Draft:
    """An input while it is mutated: its capture as records, its order, which names messages by their origins, and its tree text."""

    def __init__(self, sample, chance, samples):
        self.chance, self.samples = chance, samples
        self.capture, self.order, self.tree = captures.read(sample.capture), sample.order, sample.tree

    @property
    def records(self):
        return self.capture.records

    def numbered(self):
        """The order by the numbers that the messages have now; seldom it is left as it is, and names others then."""
        return captures.renumbered(self.order, self.records) if self.chance.random() < 0.9 else self.order

    def input(self):
        return Input(self.capture.bytes(), self.numbered(), self.tree)

    def set_capture(self, data):
        """Another capture in place of this one, whose messages are known by their numbers in it."""
        self.order = self.numbered()
        self.capture = captures.read(data)

    def place(self):
        """The place of a record, of those in front seldom."""
        count = len(self.records)
        return self.chance.randrange(2 if count > 2 and self.chance.random() < 0.97 else 0, count) if count else None

    def name(self, number, place):
        """Names a request that was put in at this place, by this origin, behind those that the order names and that stand before it."""
        places = {record.origin: at for at, record in enumerate(self.records)}
        lines = self.order.split(b"\n")
        entries = (captures.ENTRY.fullmatch(line) for line in lines)
        before = [at for at, entry in enumerate(entries) if entry and places.get(int(entry[1]), place) < place]
        lines.insert(max(before, default=0) + 1, b"%d" % number)
        self.order = b"\n".join(lines)

    def other(self):
        return self.chance.choice(self.samples)

    def alter(self, place, message):
        """Another message at this place. Its length is the right one, but for now and then."""
        if self.chance.random() < 0.97:
            message = len(message).to_bytes(4, "little") + message[4:]
        self.records[place] = self.records[place]._replace(message=message)


# Messages.


def request_of(records, place):
    """The opcode of the request that the message at this place is or answers, or none."""
    if records[place].direction == REQUEST:
        return records[place].opcode()
    asked = (record for record in records[place::-1] if record.direction == REQUEST and record.unique() == records[place].unique())
    return next((record.opcode() for record in asked), None)


def fields_of(records, place):
    """The fields of a message, as triples of where each stands, how wide it is, and its name."""
    record, operation = records[place], messages.BY_OPCODE.get(request_of(records, place))
    if record.direction == REQUEST:
        form = operation.body if operation else messages.Body()
        structs = [messages.REQUEST, form.fields, form.item]
    else:
        form = messages.ANSWERS.get(operation.success if operation else None, messages.Body())
        structs = [messages.ANSWER, form.fields, form.item, form.entry]
    at, found = 0, []
    for field in (field for struct in structs for field in struct):
        if at + field.width <= len(record.message):
            found.append((at, field.width, field.name))
        at += field.width
    return found


def value_of(draft, old, width, name):
    """A value for a field: one of those for its name, one near to the old one, one of another message's field of this name, or any."""
    chance, way = draft.chance, draft.chance.random()
    if way < 0.5 and name in VALUES:
        value = chance.choice(VALUES[name])
    elif way < 0.7:
        value = old + chance.choice((1, -1, 2, 8, 1 << 32, -(1 << 32)))
    elif way < 0.9:
        place = chance.randrange(len(draft.records))
        alike = [at for at, wide, other in fields_of(draft.records, place) if other == name and wide == width]
        value = int.from_bytes(draft.records[place].message[alike[0] : alike[0] + width], "little") if alike else chance.randrange(4)
    else:
        value = chance.choice((0, 1 << chance.randrange(8 * width), (1 << 8 * width) - 1, chance.getrandbits(8 * width)))
    return value % (1 << 8 * width)


def change_field(draft):
    """Another value of a field, mostly of one in a body."""
    place, chance = draft.place(), draft.chance
    fields = fields_of(draft.records, place)
    head = messages.size(messages.REQUEST if draft.records[place].direction == REQUEST else messages.ANSWER)
    in_body = [field for field in fields if field[0] >= head]
    fields = in_body if in_body and chance.random() < 0.7 else fields
    told = [field for field in fields if field[2] in VALUES]
    if fields:
        at, width, name = chance.choice(told if told and chance.random() < 0.8 else fields)
        message = draft.records[place].message
        value = value_of(draft, int.from_bytes(message[at : at + width], "little"), width, name)
        message = message[:at] + value.to_bytes(width, "little") + message[at + width :]
        draft.records[place] = draft.records[place]._replace(message=message)


def change_name(draft):
    """Another name in a request."""
    place = draft.place()
    record, operation = draft.records[place], messages.BY_OPCODE.get(request_of(draft.records, place))
    if record.direction == REQUEST and operation and operation.body.names:
        begin = messages.size(messages.REQUEST) + messages.size(operation.body.fields)
        names = record.message[begin:].split(b"\0")[:-1] or [b""]
        names[draft.chance.randrange(len(names))] = draft.chance.choice(NAMES)
        draft.alter(place, record.message[:begin] + b"".join(name + b"\0" for name in names))


def change_end(draft):
    """A message with more bytes behind it or fewer, or with other ones."""
    place, chance = draft.place(), draft.chance
    message = draft.records[place].message
    size = chance.choice((1, 1, 2, 3, 4, 8, 16, 40, 100))
    ends = message[:-size], message + chance.randbytes(size), message + bytes(size), message[:-size] + chance.randbytes(size)
    draft.alter(place, chance.choice(ends))


def answer_otherwise(draft):
    """An answer that is an error in place of what it is, or a success without a body."""
    places = [place for place, record in enumerate(draft.records) if record.direction == ANSWER and len(record.message) >= 16]
    if places:
        place = draft.chance.choice(places)
        words = f"unique {draft.records[place].unique()} {draft.chance.choice(ERRORS)}"
        draft.alter(place, messages.message_bytes(ANSWER, messages.Words(words)))


def exchange_answers(draft):
    """Two answers, each with the other's body and error, mostly of one size."""
    places = [place for place, record in enumerate(draft.records) if record.direction == ANSWER and len(record.message) >= 16]
    if places:
        one = draft.chance.choice(places)
        first = draft.records[one].message
        alike = [place for place in places if place != one and len(draft.records[place].message) == len(first)]
        other = draft.chance.choice(alike if alike and draft.chance.random() < 0.8 else places)
        second = draft.records[other].message
        draft.alter(one, second[:8] + first[8:16] + second[16:])
        draft.alter(other, first[:8] + second[8:16] + first[16:])


def drop(draft):
    """A message less, or a request and its answer, or seldom some."""
    place = draft.place()
    if draft.chance.random() < 0.6:
        unique = draft.records[place].unique()
        draft.records[:] = [record for record in draft.records if record.unique() != unique]
    else:
        del draft.records[place : place + draft.chance.choice((1, 1, 1, 2, 4))]


def double(draft):
    """A message twice, behind itself or elsewhere."""
    place = draft.place()
    to = place if draft.chance.random() < 0.5 else draft.place()
    draft.records.insert(to, draft.records[place]._replace(origin=None))


def move(draft):
    """A message at another place, mostly one place later or earlier."""
    place, count = draft.place(), len(draft.records)
    record = draft.records.pop(place)
    near = min(max(0, place + draft.chance.choice((-1, 1))), count - 1)
    draft.records.insert(near if draft.chance.random() < 0.7 else draft.chance.randrange(count), record)


def change_front(draft):
    """Another of the first two messages: it goes, comes twice, is an error or has another field."""
    front = draft.chance.randrange(min(2, len(draft.records)))
    way = draft.chance.randrange(5)
    if way == 0:
        del draft.records[front]
    elif way == 1:
        draft.records.insert(draft.place(), draft.records[front]._replace(origin=None))
    elif way == 2 and draft.records[front].direction == ANSWER:
        draft.alter(front, messages.message_bytes(ANSWER, messages.Words(f"unique {draft.records[front].unique()} EPROTO")))
    else:
        at, value = draft.chance.choice(((0, 6), (0, 8), (4, 30), (4, 32), (12, 1 << 16), (12, 1 << 20), (12, (1 << 32) - 1), (12, 8)))
        for place in (front,) if way == 3 else range(min(2, len(draft.records))):
            message = draft.records[place].message
            at_field = at + (16 if draft.records[place].direction == ANSWER else 40)
            draft.alter(place, message[:at_field] + value.to_bytes(4, "little") + message[at_field + 4 :])


def say(draft):
    """A message of the table put in, or a request of it with its answer near behind it."""
    pick = draft.chance.choice
    given = [record.message[16:24] for record in draft.records[:200] if record.direction == ANSWER and len(record.message) >= 144]
    known = [int.from_bytes(node, "little") for node in given]
    words = {"free": 1000 + 2 * draft.chance.randrange(1000), "used": pick([record.unique() for record in draft.records]),
             "opcode": pick((0, 7, 19, 41, 48, 50, 51, 4096, 17, 38)), "node": pick((1, 2, 3, *known)), "fh": pick((0, 1, 1, 2)),
             "number": pick((0, 1, 2, 3, 4, 5, 8)), "name": pick(('"a"', '"b"', '"c"', '"d"')), "error": pick(ERRORS)}
    place, number = draft.chance.randint(min(2, len(draft.records)), len(draft.records)), NEW + draft.chance.randrange(1000)
    lines = pick(SAID).format(**words).split("; ")
    named = len(lines) > 1 and draft.chance.random() < 0.7
    for line in lines:
        direction = int(line[0] == "<")
        if direction == REQUEST and named:
            draft.name(number, place)
        message = messages.message_bytes(direction, messages.Words(line[1:]))
        draft.records.insert(place, Record(direction, message, origin=number))
        place, number = min(place + draft.chance.choice((1, 1, 1, 2, 4)), len(draft.records)), number + 1000


def repeat(draft):
    """Some messages one after the other, many times, each time with uniques of their own."""
    begin, chance = draft.place(), draft.chance
    once = draft.records[begin : begin + chance.choice((2, 2, 4, 8))]
    most = max(1, MOST_BYTES // sum(13 + len(record.message) for record in once))
    copies = []
    for number in range(1, chance.choice((2, 4, 16, most))):
        for record in once:
            unique = (record.unique() + (number << 20)) % (1 << 64)
            message = record.message[:8] + unique.to_bytes(8, "little") + record.message[16:]
            copies.append(record._replace(message=message if record.unique() else record.message, origin=None))
    draft.records[begin + len(once) : begin + len(once)] = copies


def transplant(draft):
    """Some messages of another capture put in."""
    others = captures.read(draft.other().capture).records
    if others:
        begin, place = draft.chance.randrange(len(others)), draft.chance.randint(0, len(draft.records))
        taken = others[begin : begin + draft.chance.choice((1, 2, 4, 20))]
        draft.records[place:place] = [record._replace(origin=None) for record in taken]


def change_record(draft):
    """A record of another direction or time, or a capture with times or without."""
    place, chance = draft.place(), draft.chance
    way = chance.random()
    if way < 0.3:
        draft.records[place] = draft.records[place]._replace(direction=chance.choice((0, 1, 2, 255)))
    elif way < 0.6:
        draft.records[place] = draft.records[place]._replace(time=chance.getrandbits(64))
    else:
        draft.capture = draft.capture._replace(magic=chance.choice((*captures.MAGICS, *captures.MAGICS, b"FUSECAP3")))


def end_otherwise(draft):
    """Bytes behind the last record, which are none or one that is too long."""
    direction, size = draft.chance.choice((0, 1, 2)), draft.chance.choice((2_097_153, 2_097_152, 1 << 31, (1 << 32) - 1, 0, 40))
    head = messages.encoded(messages.record_of(draft.capture.magic), {"direction": direction, "length": size})
    draft.capture = draft.capture._replace(tail=head[: draft.chance.choice((1, len(head) - 1, len(head), len(head)))])


# Texts.


def chosen_lines(chance, lines):
    """The places of two lines: of those behind the first and before the end, where there are such."""
    return chance.choices(range(1, len(lines) - 2) or range(len(lines)), k=2)


def as_sent(records):
    """The lines of the order that names each answered request that acts on the tree, as they were sent."""
    answered = {record.unique() for record in records if record.direction == ANSWER}
    acting = {messages.BY_NAME[name].opcode for name in TREE_REQUESTS}
    numbers = [number for number, record in enumerate(records)
               if record.direction == REQUEST and record.opcode() in acting and record.unique() in answered]
    return [b"fuse-order 1", *(b"%d" % number for number in numbers), b"end", b""]


def change_order(draft):
    """Another order of the lines of an order text, or another entry, as seldom of another form."""
    draft.set_capture(draft.capture.bytes())
    chance = draft.chance
    lines = draft.order.split(b"\n")
    at, to = chosen_lines(chance, lines)
    count = max(1, len(draft.records))
    entry = chance.choice((lines[at].split(b" ")[0], b"%d" % chance.randrange(count)))
    way = chance.randrange(10)
    if way > 7:
        lines = as_sent(draft.records)
    elif way < 2:
        lines.insert(to, lines.pop(at))
    elif way == 2:
        del lines[at]
    elif way == 3:
        lines.insert(to, lines[at])
    elif way == 4:
        lines.insert(to, entry)
    elif way == 5:
        lines[at] = b"%b w %d" % (entry, chance.choice((0, 1, 2, 3, 4, 4096, 1 << 32)))
    elif way == 6:
        lines[at] = entry
    else:
        lines[at] = chance.choice((b"0" + entry, b" " + entry, entry + b" ", entry + b" w", entry + b" w 01", b"", b"end", b"\r",
                                   b"4294967295", b"4294967296", b"fuse-order 1"))
    draft.order = b"\n".join(lines)


def change_tree(draft):
    """Another line of a tree text, or another tree."""
    chance = draft.chance
    lines = (draft.tree or b"fuse-tree 1\nroot 755\nend\n").split(b"\n")
    at, to = chosen_lines(chance, lines)
    way = chance.randrange(7)
    if way == 0:
        lines.insert(to, lines[at])
    elif way == 1:
        lines.insert(to, lines.pop(at))
    elif way == 2:
        del lines[at]
    elif way == 3:
        fields, others = lines[at].split(b" "), lines[to].split(b" ")
        words = chance.choice(others), b"600", b"888", b"a", b"a/b", b"%61", b"..", b"-", b"6"
        fields[chance.randrange(len(fields))] = chance.choice(words)
        lines[at] = b" ".join(fields)
    elif way < 6:
        kinds = b"d 755 %b", b"f 644 %b -", b"f 600 %b 616263", b"s 777 %b 62", b"p 644 %b", b"h %b a", b"k 755 %b", b"f 644 a/%b 00"
        lines.insert(to + 1, chance.choice(kinds) % chance.choice((b"a", b"b", b"c", b"d", b"a/b")))
    else:
        lines = [*(draft.other().tree or b"").split(b"\n")]
    draft.tree = b"\n".join(lines) if chance.random() < 0.95 else None


# Bytes.


def changed(data, chance, other):
    """Other bytes: one more, less or other, or some; a bit; a part twice, or cut off, or from elsewhere."""
    at = chance.randrange(len(data) + 1)
    to = min(len(data), at + chance.choice((1, 1, 2, 4, 8, 16, 64, 256)))
    way = chance.randrange(7)
    if way == 0 and at < len(data):
        return data[:at] + bytes([data[at] ^ 1 << chance.randrange(8)]) + data[at + 1 :]
    if way == 1:
        return data[:at] + chance.choice((b"\0", b"\xff", chance.randbytes(1), chance.randbytes(to - at))) + data[to:]
    if way == 2:
        return data[:at] + data[to:]
    if way == 3:
        return data[:at] + chance.randbytes(chance.choice((1, 1, 2, 4, 8))) + data[at:]
    if way == 4:
        return data[:to] + data[at:]
    if way == 5:
        return data[:at]
    begin = chance.randrange(len(other) + 1)
    return data[:at] + other[begin : begin + chance.choice((4, 16, 64, len(other)))] + data[to:]


def change_capture_bytes(draft):
    draft.set_capture(changed(draft.capture.bytes(), draft.chance, draft.other().capture))


def change_order_bytes(draft):
    draft.order = changed(draft.numbered(), draft.chance, draft.other().order)


def change_tree_bytes(draft):
    draft.tree = changed(draft.tree or draft.other().tree or b"", draft.chance, draft.other().tree or b"")


# How often each mutation is made, beside the others; those of messages where there is one.
OF_MESSAGES = {change_field: 24, change_name: 4, change_end: 5, answer_otherwise: 7, exchange_answers: 4, move: 8, drop: 10,
               double: 3, repeat: 1, change_front: 4, say: 16, transplant: 2, change_record: 2, end_otherwise: 2}
OF_ANY = {change_order: 9, change_tree: 6, change_capture_bytes: 7, change_order_bytes: 1, change_tree_bytes: 1}
COUNTS = 0, 1, 1, 1, 1, 1, 1, 2, 2, 2, 3, 3, 4, 8


def mutated(chance, samples):
    """One of the samples, mutated some times."""
    draft = Draft(chance.choice(samples), chance, samples)
    for _ in range(chance.choice(COUNTS)):
        ways = OF_MESSAGES | OF_ANY if draft.records else OF_ANY
        chance.choices(list(ways), list(ways.values()))[0](draft)
    return draft.input()
