"""The message grammar: docs/formats.md, 'Messages'. The fields of the structs are those that cases/messages.py has."""
import os
import sys
import typing

from codes import check

sys.path.insert(0, os.path.join(os.path.dirname(os.path.abspath(__file__)), "..", "cases"))
import messages  # noqa: E402

# 'Requests': read by the header alone.
WITHOUT_EFFECT = """STATFS FSYNC SETXATTR GETXATTR LISTXATTR REMOVEXATTR FSYNCDIR GETLK SETLK SETLKW ACCESS INTERRUPT BMAP DESTROY POLL
LSEEK""".split()
NOT_JUDGED = "IOCTL FALLOCATE COPY_FILE_RANGE".split()
LISTING = "READDIR", "READDIRPLUS"
RENAME_NOREPLACE, RENAME_EXCHANGE = 1, 2
VERSION = messages.BY_NAME["INIT"].body.fields
ENTRY, DIRENT = messages.ANSWERS["entry"].fields, messages.ANSWERS["dirent"].entry
FILE_LIMIT = 1_099_511_627_776
MOST_OF_A_NAME = 1024

# 'Modes'.
TYPE, BITS = 0o170000, 0o777
FIFO, CHR, DIR, BLK, REG, LNK, SOCK = 0o010000, 0o020000, 0o040000, 0o060000, 0o100000, 0o120000, 0o140000

# 'Flags'.
ATOMIC_O_TRUNC, WRITEBACK_CACHE, POSIX_ACL = 1 << 3, 1 << 16, 1 << 20
FUSE_GETATTR_FH = 1 << 0
FATTR_MODE, FATTR_SIZE, FATTR_FH = 1 << 0, 1 << 3, 1 << 6
O_EXCL, O_TRUNC = 1 << 7, 1 << 9
FOPEN_DIRECT_IO = 1 << 0

# 'Errors' and 'Notifications'.
ENOENT, EEXIST, ENOTDIR, EISDIR, ENOSYS, ENOTEMPTY = -2, -17, -20, -21, -38, -39
NOTIFICATIONS = 1, 2, 3, 4, 6


class Request(typing.NamedTuple):
    """A request: the fields of its body's struct, the names behind them, and the bytes."""

    operation: str
    unique: int
    node: int
    fields: dict
    names: tuple = ()
    data: bytes = b""

    def is_not_judged(self):
        """Whether it is an operation that changes files in ways that are not judged."""
        return self.operation in NOT_JUDGED or self.operation == "RENAME2" and self.fields["flags"] > RENAME_EXCHANGE

    def is_by_header_alone(self):
        """Whether nothing but its header counts."""
        return self.operation in WITHOUT_EFFECT or self.is_not_judged()


class Entry(typing.NamedTuple):
    """A directory entry. Its node is 0 in an answer of READDIR; `mode` is that of READDIRPLUS."""

    name: bytes
    offset: int
    type: int
    node: int = 0
    mode: int = 0

    def is_dot(self):
        """Whether it is the directory itself or the one above."""
        return self.name in (b".", b"..")


class Reply(typing.NamedTuple):
    """A reply: its error, and of a success the fields of its structs, its entries or its bytes."""

    error: int
    fields: dict = {}
    entries: tuple = ()
    data: bytes = b""


def is_letters(name):
    """What holds of the name of a directory entry: 'Directory entries'."""
    return 1 <= len(name) <= MOST_OF_A_NAME and b"\0" not in name and b"/" not in name


def is_name(name):
    """What holds of the name of a request: 'Names and targets'."""
    return is_letters(name) and name not in (b".", b"..")


def names_of(operation, behind, count):
    """The names, or the name and the target, that stand behind a struct."""
    *names, rest = behind.split(b"\0")
    check(len(names) == count and not rest, 13)
    target = names[1:] if operation == "SYMLINK" else []
    check(all(is_name(name) for name in names[: count - len(target)]) and all(target), 13)
    return names


def request_of(message):
    """The request that these bytes are, by the first five checks of 'Codes'."""
    check(len(message) >= 40, 10)
    header = messages.decoded(messages.REQUEST, message)
    check(header["len"] == len(message), 11)
    check(header["opcode"] not in (0, 7, 19, 41) and header["opcode"] <= 47, 12)
    operation, body = messages.BY_OPCODE[header["opcode"]], message[40:]
    begun = Request(operation.name, header["unique"], header["node"], {})
    if operation.name in WITHOUT_EFFECT + NOT_JUDGED:
        return begun
    size = messages.size(operation.body.fields)
    check(len(body) >= size, 13)
    fields, behind = messages.decoded(operation.body.fields, body), body[size:]
    names = names_of(operation.name, behind, operation.body.names) if operation.body.names else []
    request = begun._replace(fields=fields, names=names, data=b"" if names else behind)
    check(len(request.data) == length_behind(request), 13)
    check(operation.name != "MKNOD" or fields["mode"] & TYPE in (0, FIFO, CHR, BLK, REG, SOCK), 13)
    check(operation.name != "WRITE" or fields["offset"] + fields["size"] <= FILE_LIMIT, 14)
    check(operation.name != "SETATTR" or not fields["valid"] & FATTR_SIZE or fields["size"] <= FILE_LIMIT, 14)
    return request


def length_behind(request):
    """How many bytes have to stand behind the struct and the names of a request."""
    if request.operation == "INIT":
        return len(request.data)
    if request.operation == "WRITE":
        return request.fields["size"]
    return 16 * request.fields["count"] if request.operation == "BATCH_FORGET" else 0


def items_of(request):
    """The nodes that a FORGET or BATCH_FORGET takes lookups from, with how many."""
    if request.operation == "FORGET":
        return [(request.node, request.fields["nlookup"])]
    items = (request.data[at : at + 16] for at in range(0, len(request.data), 16))
    return [(int.from_bytes(item[:8], "little"), int.from_bytes(item[8:], "little")) for item in items]


def entries_of(body, plus):
    """The directory entries that a body has, one after the other: 'Directory entries'."""
    entries, place, before = [], 0, messages.size(ENTRY) if plus else 0
    while place < len(body):
        check(len(body) - place >= before + 24, 16)
        given = messages.decoded(ENTRY, body[place:]) if plus else {"node": 0, "mode": 0}
        fields = messages.decoded(DIRENT, body[place + before :])
        begin = place + before + 24
        name = body[begin : begin + fields["namelen"]]
        place += (before + 24 + fields["namelen"] + 7) // 8 * 8
        check(place <= len(body) and is_letters(name), 16)
        entries.append(Entry(name, fields["off"], fields["type"], given["node"], given["mode"]))
    return entries


def success_of(request, body):
    """The success of this request that a body says: 'Replies'."""
    operation = request.operation
    if operation == "INIT":
        check(24 <= len(body) <= 64, 16)
        return Reply(0, messages.decoded(VERSION, body))
    if operation in LISTING:
        check(len(body) <= request.fields["size"], 16)
        return Reply(0, {}, entries_of(body, operation == "READDIRPLUS"))
    word = messages.BY_NAME[operation].success
    if word:
        form = messages.ANSWERS[word].fields
        check(len(body) == messages.size(form), 16)
        fields = messages.decoded(form, body)
        check(word != "written" or fields["size"] <= request.fields["size"], 16)
        return Reply(0, fields)
    if operation == "READ":
        check(len(body) <= request.fields["size"], 16)
    elif operation != "READLINK" and (not request.is_by_header_alone() or operation == "INTERRUPT"):
        check(not body, 16)
    return Reply(0, data=body)


def reply_to(request, error, body):
    """The reply to this request that an error and a body are."""
    if error:
        check(not body, 16)
        return Reply(error)
    return success_of(request, body)
