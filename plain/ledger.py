"""Which messages pass, and the calls of messages that do: docs/model.md, 'Sessions' and 'Nodes and file handles', with the checks of
docs/formats.md, 'Codes', in their order."""
import dataclasses

import framing
import grammar
from codes import Refused, check
from grammar import Reply, Request

ROOT = 1
# 'The tree machine': the requests of its table.
TREE_REQUESTS = """LOOKUP GETATTR SETATTR READLINK SYMLINK MKNOD MKDIR CREATE UNLINK RMDIR RENAME RENAME2 LINK OPEN READ WRITE OPENDIR
READDIR READDIRPLUS""".split()
# 'Orders': these only read.
ONLY_READ = "LOOKUP", "GETATTR", "READLINK", "READ", "OPENDIR", "READDIR", "READDIRPLUS"
WITHOUT_ANSWER = "FORGET", "BATCH_FORGET"
OF_DIRECTORIES = "READDIR", "READDIRPLUS", "RELEASEDIR", "OPENDIR"
GIVE_NODES = "LOOKUP", "SYMLINK", "MKNOD", "MKDIR", "LINK", "CREATE"


@dataclasses.dataclass
class Call:
    """A call: a tree request by its number, with the names of its nodes and of its handle as they were when it was asked, and with
    what answers it. `other` is the new directory of a RENAME, or the file of a LINK."""

    number: int
    request: Request
    node: tuple
    other: tuple = None
    handle: int = None
    direct: bool = False
    shared: bool = False
    so_far: list = dataclasses.field(default_factory=list)
    adrift: bool = False
    truncates: bool = False
    answered: int = None
    reply: Reply = None
    given: dict = dataclasses.field(default_factory=dict)
    opens: bool = False

    def only_reads(self):
        return self.request.operation in ONLY_READ


@dataclasses.dataclass
class Handle:
    """What is open under a key: the request that it is named by, and how often it is open."""

    name: int
    opened: int = 0
    shared: bool = False
    direct: bool = False


class Ledger:
    """What is known behind messages that pass."""

    def __init__(self):
        self.number = 0
        self.init = self.init_answer = None
        self.outstanding = {}  # the number and the request, by unique
        self.lookups, self.given_by = {}, {}  # the lookup count of a node, and the reply that its name has
        self.handles = {}  # by key
        self.names_of_openings = {}  # the names of the nodes of OPEN and OPENDIR, by number
        self.listings = {}  # the answered calls of a handle that list, by its name
        self.calls = {}

    def take(self, direction, message):
        """One message more, where it passes."""
        if direction == 0:
            self.take_request(grammar.request_of(message))
        else:
            self.take_answer(message)
        self.number += 1

    # Requests.

    def take_request(self, request):
        """The checks of a request from 34 on."""
        check(request.unique, 34)
        is_init = request.operation == "INIT"
        check(self.number or is_init, 20)
        check(not self.number or not is_init, 21)
        check(is_init or self.init_answer, 22)
        _, waiting = self.outstanding.get(request.unique, (None, None))
        check(waiting is None or {waiting.operation, request.operation} == {"INTERRUPT"}, 30)
        check(all(self.is_known(node) for node in named_nodes(request)), 40)
        if request.operation in WITHOUT_ANSWER:
            self.forget(grammar.items_of(request))
        key = self.key_used(request)
        check(key is None or key in self.handles, 50)
        if is_init:
            self.init = request
        if request.operation in ("OPEN", "OPENDIR"):
            self.names_of_openings[self.number] = self.name_at(request.node)
        if request.operation in TREE_REQUESTS and not request.is_not_judged():
            self.calls[self.number] = self.call_of(request, key)
        if request.operation in ("RELEASE", "RELEASEDIR"):
            self.close(key)
        if request.operation not in WITHOUT_ANSWER:
            self.outstanding[request.unique] = self.number, request

    def is_known(self, node):
        return node == ROOT or self.lookups.get(node, 0) > 0

    def name_at(self, node):
        """The name of a known node: its id, and the least reply that gave it such that its count stayed positive from there on."""
        return node, self.given_by.get(node, 0)

    def forget(self, items):
        for node, count in items:
            if node != ROOT:
                left = self.lookups.get(node, 0) - count
                check(left >= 0, 41)
                self.lookups[node] = left
                if not left:
                    self.given_by.pop(node, None)

    def key_used(self, request):
        """The key of the handle that a request uses, if it uses one."""
        operation, fields = request.operation, request.fields
        uses = operation in ("READ", "WRITE", "RELEASE", "FLUSH", "READDIR", "READDIRPLUS", "RELEASEDIR")
        uses |= operation == "GETATTR" and bool(fields["getattr_flags"] & grammar.FUSE_GETATTR_FH)
        uses |= operation == "SETATTR" and bool(fields["valid"] & grammar.FATTR_FH)
        return (self.name_at(request.node), fields["fh"], operation in OF_DIRECTORIES) if uses else None

    def close(self, key):
        self.handles[key].opened -= 1
        if not self.handles[key].opened:
            del self.handles[key]

    def call_of(self, request, key):
        """The call of a request, as it is asked."""
        call = Call(self.number, request, self.name_at(request.node))
        others = named_nodes(request)[1:]
        call.other = self.name_at(others[0]) if others else None
        if key:
            handle = self.handles[key]
            call.handle, call.shared, call.direct = handle.name, handle.shared, handle.direct
        if request.operation in ("OPEN", "CREATE") and request.fields["flags"] & grammar.O_TRUNC:
            agreed = self.init.fields["flags"] & self.init_answer.fields["flags"] & grammar.ATOMIC_O_TRUNC
            call.truncates = request.operation == "CREATE" or bool(agreed)
        if request.operation in grammar.LISTING and request.fields["offset"]:
            call.so_far, call.adrift = self.listed_so_far(call)
        return call

    def listed_so_far(self, call):
        """The listing so far of a request that does not begin at 0, and whether it is adrift."""
        for earlier in reversed(self.listings.get(call.handle, [])):
            offsets = [entry.offset for entry in earlier.reply.entries]
            if call.request.fields["offset"] in offsets:
                count = offsets.index(call.request.fields["offset"]) + 1
                return earlier.so_far + earlier.reply.entries[:count], earlier.adrift
        return [], True

    # Messages of the server.

    def take_answer(self, message):
        """All checks of a message from the server."""
        check(len(message) >= 16, 10)
        header = grammar.messages.decoded(grammar.messages.ANSWER, message)
        unique, error = header["unique"], header["error"]
        check(header["len"] == len(message), 11)
        check(not unique or -999 <= error <= 0, 15)
        check(unique or error in grammar.NOTIFICATIONS, 17)
        check(self.number, 20)
        if unique:
            check(unique in self.outstanding, 31)
            number, request = self.outstanding[unique]
            reply = grammar.reply_to(request, error, message[16:])
            self.check_reply(request, reply)
            del self.outstanding[unique]
            self.note_reply(number, request, reply)

    def check_reply(self, request, reply):
        """The checks of a reply from 23 on."""
        operation = request.operation
        if operation == "INIT":
            check(not reply.error, 23)
            ours, theirs = request.fields, reply.fields
            check(ours["major"] == theirs["major"] == 7 and min(ours["minor"], theirs["minor"]) == 31, 24)
            check(not ours["flags"] & theirs["flags"] & (grammar.WRITEBACK_CACHE | grammar.POSIX_ACL), 25)
        check(reply.error or not request.is_not_judged(), 32)
        check(operation not in ("OPEN", "OPENDIR") or reply.error != grammar.ENOSYS, 33)
        given = nodes_given(request, reply)
        check(ROOT not in given and (0 not in given or operation in ("LOOKUP", "READDIRPLUS")), 42)

    def note_reply(self, number, request, reply):
        """What a reply that passes changes."""
        if request.operation == "INIT":
            self.init_answer = reply
        given = [node for node in nodes_given(request, reply) if node]
        for node in given:
            if not self.is_known(node):
                self.given_by[node] = self.number
            self.lookups[node] = self.lookups.get(node, 0) + 1
        opens = request.operation in ("OPEN", "OPENDIR", "CREATE") and not reply.error and self.open(number, request, reply)
        call = self.calls.get(number)
        if call:
            call.answered, call.reply, call.opens = self.number, reply, opens
            call.given = {node: self.name_at(node) for node in given}
            if request.operation in grammar.LISTING and not reply.error:
                self.listings.setdefault(call.handle, []).append(call)

    def open(self, number, request, reply):
        """Opens the key that an answer says, and tells whether that was at zero."""
        if request.operation == "CREATE":
            name = self.name_at(reply.fields["node"])
        else:
            name = self.names_of_openings[number]
        key = name, reply.fields["fh"], request.operation in OF_DIRECTORIES
        anew = key not in self.handles
        handle = self.handles.setdefault(key, Handle(number))
        handle.opened += 1
        handle.shared |= handle.opened > 1
        handle.direct |= bool(reply.fields["open_flags"] & grammar.FOPEN_DIRECT_IO)
        return anew


def named_nodes(request):
    """The nodes that a request names: that of its header first."""
    if request.operation in (*WITHOUT_ANSWER, "INIT") or request.is_by_header_alone():
        return []
    if request.operation in ("RENAME", "RENAME2"):
        return [request.node, request.fields["newdir"]]
    return [request.node, request.fields["oldnodeid"]] if request.operation == "LINK" else [request.node]


def nodes_given(request, reply):
    """The node ids that a reply gives, with a 0 that it has in the place of one."""
    if reply.error:
        return []
    if request.operation in GIVE_NODES:
        return [reply.fields["node"]]
    return [entry.node for entry in reply.entries if not entry.is_dot()] if request.operation == "READDIRPLUS" else []


def ledger_of(capture):
    """The ledger of a capture's messages, and the number and the code of the first fault, if there is one: 'Good captures'."""
    found, fault = framing.messages_of(capture)
    ledger = Ledger()
    for direction, message in found:
        try:
            ledger.take(direction, message)
        except Refused as refused:
            return ledger, (ledger.number, refused.code)
    return ledger, (len(found), fault) if fault else None


def ledger_of_front(capture, count):
    """The ledger of the first messages of a good capture, so many, as a capture of their own."""
    ledger = Ledger()
    for direction, message in framing.messages_of(capture)[0][:count]:
        ledger.take(direction, message)
    return ledger
