#!/usr/bin/env python3
"""Captures as text, one message a line: reads the text to bytes, and writes bytes as the text.

usage: cases/messages.py read FILE.messages > FILE.cap
       cases/messages.py write FILE.cap > FILE.messages
       cases/messages.py check

`read` and `write` take '-' for standard input. What is written leaves out every field that has its default, and reads back to
the same bytes, whatever the bytes are. `check` says so of every capture of the cases and the examples, and that each text of the
cases, and of their rows, is the one that is written of its bytes, but for its comments. docs/messages.md has the language.
"""
import bz2
import itertools
import os
import re
import sys
import typing

import rows

HERE = os.path.dirname(os.path.abspath(__file__))
MAGIC = b"FUSECAP1"
TIMED_MAGIC = b"FUSECAP2"
MOST_OF_A_MESSAGE = 2_097_152
RUN = 32  # so many equal bytes one after the other are written as a run
EQUAL = 4  # so many equal messages one after the other are written as one line


class Field:
    """A number of a struct. `NAME:WIDTH` says how many bytes it has; then `o` for octal, `x` for hexadecimal and `s` for a signed
    number; then `=` and its default, which is 0 where nothing is said, and with `*` the number of what stands behind."""

    def __init__(self, text):
        self.name, self.width, self.form, default = re.fullmatch(r"([a-z_.0-9]+):(\d+)([oxs]?)(?:=(\S+))?", text).groups()
        self.width, self.signed = int(self.width), self.form == "s"
        self.default = None if default == "*" else number(default or "0")

    def spelled(self, value):
        if self.form == "o":
            return f"0{value:o}" if value else "0"
        return f"{value:#x}" if self.form == "x" and value > 9 else str(value)


class Body:
    """The form of a body: a struct's fields, and what stands behind them. That is `names`, so many of them with a zero byte each;
    or items, where `item` has the fields of one, and `entry` those of a directory entry behind it, with its name; or bytes."""

    def __init__(self, fields="", names=0, item="", entry=""):
        self.fields, self.names, self.item, self.entry = struct(fields), names, struct(item), struct(entry)
        self.has_items = bool(item or entry)


def number(word):
    """A number as it is spelled: hexadecimal behind 0x, octal behind 0."""
    digits = word.lstrip("-")
    if not digits.isalnum() or not digits.isascii():
        raise ValueError(f"{word} is no number")
    value = int(digits, 16 if digits[:2] == "0x" else 8 if digits[0] == "0" else 10)
    return -value if word != digits else value


def struct(text):
    return [Field(field) for field in text.split()]


RECORD = struct("direction:1 length:4=*")
TIMED_RECORD = struct("direction:1 time:8 length:4=*")
REQUEST = struct("len:4=* opcode:4 unique:8 node:8 uid:4 gid:4 pid:4 padding:4")
ANSWER = struct("len:4=* error:4s unique:8")
OPEN = "flags:4x unused:4"
READ = "fh:8 offset:8 size:4 read_flags:4x lock_owner:8x flags:4x padding:4"
RELEASE = "fh:8 flags:4x release_flags:4x lock_owner:8x"
TIMES_OF_FILE = "atime:8 mtime:8 ctime:8 atimensec:4 mtimensec:4 ctimensec:4"
SETATTR = f"valid:4x padding:4 fh:8 size:8 lock_owner:8x {TIMES_OF_FILE} mode:4o unused4:4 uid:4 gid:4 unused5:4"
ATTR = f"ino:8 size:8 blocks:8 {TIMES_OF_FILE} mode:4o nlink:4 uid:4 gid:4 rdev:4 blksize:4 attr.padding:4"
ENTRY = f"node:8 generation:8 entry_valid:8 attr_valid:8 entry_valid_nsec:4 attr_valid_nsec:4 {ATTR}"
OPENED = "fh:8 open_flags:4x padding:4"
DIRENT = "ino:8 off:8 namelen:4=* type:4"
VERSION = "major:4=7 minor:4=31 max_readahead:4 flags:4x"
LIMITS = "max_background:2 congestion_threshold:2 max_write:4 time_gran:4 max_pages:2 map_alignment:2 unused:32x"

# The body of a success, by the word for it.
ANSWERS = {
    "entry": Body(ENTRY),
    "created": Body(f"{ENTRY} {OPENED}"),
    "attr": Body(f"attr_valid:8 attr_valid_nsec:4 dummy:4 {ATTR}"),
    "opened": Body(OPENED),
    "written": Body("size:4 padding:4"),
    "init": Body(f"{VERSION} {LIMITS}"),
    "dirent": Body(entry=DIRENT),
    "direntplus": Body(item=ENTRY, entry=DIRENT),
}


class Operation(typing.NamedTuple):
    """An operation: the body of a request, and the word for that of a success. Any other body is bytes."""

    opcode: int
    name: str
    body: Body = Body()
    success: str | None = None


OPERATIONS = [
    Operation(1, "LOOKUP", Body(names=1), "entry"),
    Operation(2, "FORGET", Body("nlookup:8")),
    Operation(3, "GETATTR", Body("getattr_flags:4x dummy:4 fh:8"), "attr"),
    Operation(4, "SETATTR", Body(SETATTR), "attr"),
    Operation(5, "READLINK"),
    Operation(6, "SYMLINK", Body(names=2), "entry"),
    Operation(8, "MKNOD", Body("mode:4o rdev:4 umask:4o padding:4", names=1), "entry"),
    Operation(9, "MKDIR", Body("mode:4o=0755 umask:4o=022", names=1), "entry"),
    Operation(10, "UNLINK", Body(names=1)),
    Operation(11, "RMDIR", Body(names=1)),
    Operation(12, "RENAME", Body("newdir:8", names=2)),
    Operation(13, "LINK", Body("oldnodeid:8", names=1), "entry"),
    Operation(14, "OPEN", Body(OPEN), "opened"),
    Operation(15, "READ", Body(READ)),
    Operation(16, "WRITE", Body("fh:8 offset:8 size:4=* write_flags:4x lock_owner:8x flags:4x padding:4"), "written"),
    Operation(17, "STATFS"),
    Operation(18, "RELEASE", Body(RELEASE)),
    Operation(20, "FSYNC"),
    Operation(21, "SETXATTR"),
    Operation(22, "GETXATTR"),
    Operation(23, "LISTXATTR"),
    Operation(24, "REMOVEXATTR"),
    Operation(25, "FLUSH", Body("fh:8 unused:4 padding:4 lock_owner:8x")),
    Operation(26, "INIT", Body(VERSION), "init"),
    Operation(27, "OPENDIR", Body(OPEN), "opened"),
    Operation(28, "READDIR", Body(READ), "dirent"),
    Operation(29, "RELEASEDIR", Body(RELEASE)),
    Operation(30, "FSYNCDIR"),
    Operation(31, "GETLK"),
    Operation(32, "SETLK"),
    Operation(33, "SETLKW"),
    Operation(34, "ACCESS"),
    Operation(35, "CREATE", Body("flags:4x=0x42 mode:4o=0100644 umask:4o=022 padding:4", names=1), "created"),
    Operation(36, "INTERRUPT"),
    Operation(37, "BMAP"),
    Operation(38, "DESTROY"),
    Operation(39, "IOCTL"),
    Operation(40, "POLL"),
    Operation(42, "BATCH_FORGET", Body("count:4=* dummy:4", item="node:8 nlookup:8")),
    Operation(43, "FALLOCATE"),
    Operation(44, "READDIRPLUS", Body(READ), "direntplus"),
    Operation(45, "RENAME2", Body("newdir:8 flags:4x padding:4", names=2)),
    Operation(46, "LSEEK"),
    Operation(47, "COPY_FILE_RANGE"),
]
BY_OPCODE = {operation.opcode: operation for operation in OPERATIONS}
BY_NAME = {operation.name: operation for operation in OPERATIONS}

# The words for an answer that has no struct: errors, and notifications, whose unique is 0.
ERRORS = """EPERM ENOENT ESRCH EINTR EIO ENXIO E2BIG ENOEXEC EBADF ECHILD EAGAIN ENOMEM EACCES EFAULT ENOTBLK EBUSY EEXIST EXDEV ENODEV
ENOTDIR EISDIR EINVAL ENFILE EMFILE ENOTTY ETXTBSY EFBIG ENOSPC ESPIPE EROFS EMLINK EPIPE EDOM ERANGE EDEADLK ENAMETOOLONG ENOLCK
ENOSYS ENOTEMPTY ELOOP"""
ERRORS = {-number: name for number, name in enumerate(ERRORS.split(), 1)}
ERRORS |= {-61: "ENODATA", -71: "EPROTO", -75: "EOVERFLOW", -95: "EOPNOTSUPP", -103: "ECONNABORTED", -116: "ESTALE"}
NOTIFICATIONS = {1: "POLL", 2: "INVAL_INODE", 3: "INVAL_ENTRY", 4: "STORE", 5: "RETRIEVE", 6: "DELETE"}
ERROR_NUMBERS = {name: error for error, name in (ERRORS | NOTIFICATIONS).items()} | {"ok": 0}


# Numbers and their bytes.


def encoded(fields, given, behind=0):
    """The bytes of a struct. What is not given has its default; `behind` is the number of what stands behind it."""
    parts = []
    for field in fields:
        default = behind if field.default is None else field.default
        value = given.get(field.name, default)
        try:
            parts.append(value.to_bytes(field.width, "little", signed=field.signed))
        except OverflowError:
            raise ValueError(f"{field.name} {value} does not fit in {field.width} bytes") from None
    return b"".join(parts)


def decoded(fields, data):
    """The numbers of a struct, by name."""
    values, at = {}, 0
    for field in fields:
        values[field.name] = int.from_bytes(data[at : at + field.width], "little", signed=field.signed)
        at += field.width
    return values


def size(fields):
    return sum(field.width for field in fields)


def told(fields, values, behind=0):
    """The words for those numbers of a struct that are not their defaults."""
    words = []
    for field in fields:
        if values[field.name] != (behind if field.default is None else field.default):
            words += [field.name, field.spelled(values[field.name])]
    return words


# The text to bytes.

WORD = re.compile(r'\s*("(?:[^"\\]|\\x[0-9a-f]{2})*"|[\[\]]|[^\s"\[\]]+)')
ESCAPE = re.compile(rb"\\x([0-9a-f]{2})")


class Words:
    """The words of a line, of which the first is taken each time."""

    def __init__(self, line):
        self.words, at = [], 0
        while at < len(line):
            found = WORD.match(line, at)
            if not found:
                raise ValueError(f"no words: {line[at:]}")
            self.words.append(found[1])
            at = found.end()
        self.words.reverse()

    def next(self):
        return self.words[-1] if self.words else ""

    def take(self):
        if not self.words:
            raise ValueError("the line ends too early")
        return self.words.pop()

    def takes(self, word):
        """Whether the next word is this one, which is taken then."""
        return self.next() == word and bool(self.words.pop())

    def number(self):
        return number(self.take())

    def count(self):
        """A number that is not below 0."""
        value = self.number()
        if value < 0:
            raise ValueError(f"{value} is no count")
        return value

    def end(self):
        """Nothing, where no word is left."""
        if self.words:
            raise ValueError(f"{self.next()} stands behind the end")

    def given(self, names):
        """The numbers that are given to these names, as long as they come."""
        values = {}
        while self.next() in names:
            name = self.take()
            if name in values:
                raise ValueError(f"{name} is given twice")
            values[name] = self.number()
        return values

    def quoted(self):
        """The bytes of a quoted word, or of its repetition."""
        word = self.take()
        if not word.startswith('"'):
            raise ValueError(f"{word} is not in quotes")
        data = ESCAPE.sub(lambda found: bytes([int(found[1], 16)]), word[1:-1].encode("ascii"))
        return data * self.count() if self.takes("x") else data

    def data(self, zero=b""):
        """The bytes of quoted words, each with `zero` behind it, of `zeros N` and of `bytes HEX`, as long as they come."""
        parts = []
        while True:
            if self.next().startswith('"'):
                parts.append(self.quoted() + zero)
            elif self.takes("zeros"):
                parts.append(bytes(self.count()))
            elif self.takes("bytes"):
                parts.append(bytes.fromhex(self.take()))
            else:
                return b"".join(parts)


def names(fields):
    return {field.name for field in fields}


def padded(data):
    return data + bytes(-len(data) % 8)


def item_bytes(form, words):
    """The bytes of an item in brackets."""
    words.take()
    data = encoded(form.item, words.given(names(form.item)))
    if form.entry:
        name = words.quoted() if words.next().startswith('"') else b""
        data += encoded(form.entry, words.given(names(form.entry)), len(name)) + name
        data = padded(data)
    if not words.takes("]"):
        raise ValueError(f"{words.next() or 'the end'} stands where an item goes on")
    return data


def body_bytes(form, given, words):
    """The bytes of a body of this form, of which these fields were given."""
    items = []
    while form.has_items and words.next() == "[":
        items.append(item_bytes(form, words))
    behind = b"".join(items) + words.data(b"\0" if form.names else b"")
    body = encoded(form.fields, given, len(items) if form.has_items else len(behind)) + behind
    return body[: words.count()] if words.takes("body") else body


def message_bytes(direction, words):
    """The bytes of a message: the header's fields, the word for what it is, and then its body."""
    if words.takes("message"):
        return bytes.fromhex(words.take()) if words.next() not in ("", "times") else b""
    header, form = ANSWER if direction == 1 else REQUEST, Body()
    given = words.given(names(header))
    if header is REQUEST and words.next() in BY_NAME:
        operation = BY_NAME[words.take()]
        given["opcode"], form = operation.opcode, operation.body
    elif header is ANSWER and words.next() in ERROR_NUMBERS:
        given["error"] = ERROR_NUMBERS[words.take()]
    elif header is ANSWER and words.next() in ANSWERS:
        form = ANSWERS[words.take()]
    if header is REQUEST:
        given |= words.given({"node"})
    body = body_bytes(form, words.given(names(form.fields)), words)
    return encoded(header, given, size(header) + len(body)) + body


def record_of(begun):
    """What stands before each message of a capture that begins so."""
    return TIMED_RECORD if begun == TIMED_MAGIC else RECORD


def line_bytes(line, head):
    """The bytes of a line: those of a record with this head, or of some times the same one, or bytes as they are."""
    words = Words(line)
    sign = words.take()
    if sign == "bytes":
        data = bytes.fromhex(words.take())
    elif sign in (">", "<"):
        direction = ">;<".index(sign) // 2
        record = {"direction": direction} | words.given(names(head))
        message = message_bytes(direction, words)
        data = encoded(head, record, len(message)) + message
        if words.takes("times"):
            data *= words.count()
    else:
        raise ValueError(f"a line does not begin with {sign}")
    words.end()
    return data


def magic_bytes(words):
    """The bytes that a capture begins with, by the words behind `magic`."""
    begun = words.quoted()
    words.end()
    return begun


def is_told(line):
    """Whether a line is more than a comment."""
    return bool(line) and not line.startswith("#")


def read(text):
    """The bytes of a text."""
    parts, begun = [], MAGIC
    for count, line in enumerate(text.split("\n"), 1):
        try:
            if line.startswith("magic ") and not parts:
                begun = magic_bytes(Words(line[len("magic ") :]))
            elif line.startswith("cut "):
                words, left = Words(line[len("cut ") :]), b"".join(parts)
                parts = [left[: len(left) - words.count()]]
                words.end()
            elif is_told(line):
                parts.append(line_bytes(line, record_of(begun)))
        except (ValueError, OverflowError) as error:
            raise ValueError(f"line {count}: {error}") from None
    return b"".join([begun, *parts])


# Bytes to the text.


def quote(data):
    spelled = "".join(chr(byte) if 32 <= byte < 127 and byte not in b'"\\' else f"\\x{byte:02x}" for byte in data)
    return f'"{spelled}"'


def run_words(byte, count):
    return ["zeros", str(count)] if byte == b"\0" else [quote(byte), "x", str(count)]


def hex_words(data):
    """The words for bytes, runs of zeros apart."""
    words = []
    for part in re.split(rb"(\0{%d,})" % RUN, data):
        if part:
            words += run_words(b"\0", len(part)) if len(part) >= RUN and not part.strip(b"\0") else ["bytes", part.hex()]
    return words


def data_words(data):
    """The words for bytes, of which each part is spelled in the shorter way."""
    words, at = [], 0
    for run in itertools.chain(re.finditer(rb"(.)\1{%d,}" % (RUN - 1), data, re.DOTALL), [None]):
        part = data[at : run.start() if run else len(data)]
        if part:
            words += min([quote(part)], ["bytes", part.hex()], key=lambda spelled: len(" ".join(spelled)))
        if run:
            words += run_words(run[1], len(run[0]))
            at = run.end()
    return words


def name_words(name):
    return run_words(name[:1], len(name)) if len(name) >= RUN and name[0] and not name.strip(name[:1]) else [quote(name)]


def item_words(form, data):
    """The words for the item at the front of these bytes, and the bytes that they stand for."""
    before = size(form.item)
    values = decoded(form.item, data)
    words = told(form.item, values)
    whole = data[:before]
    if form.entry:
        behind = before + size(form.entry)
        entry = decoded(form.entry, data[before:])
        name = data[behind : behind + entry["namelen"]]
        words += [quote(name), *told(form.entry, entry, len(name))]
        whole = padded(data[: behind + len(name)])
    return ["[" + " ".join(words) + "]"], whole


def body_words(form, body):
    """The words for a body of this form. A body that ends too early is told as a whole one that is cut."""
    whole = body + encoded(form.fields, {})[len(body) :]
    behind, count, at = [], 0, size(form.fields)
    while form.has_items and len(whole) - at >= size(form.item) + size(form.entry):
        words, item = item_words(form, whole[at:])
        if not item.startswith(whole[at : at + len(item)]):
            break
        whole = whole[:at] + item + whole[at + len(item) :]
        behind, count, at = behind + words, count + 1, at + len(item)
    while count < form.names and at < len(whole):
        name, zero, _ = whole[at:].partition(b"\0")
        whole = whole if zero else whole + b"\0"
        behind, count, at = behind + name_words(name), count + 1, at + len(name) + 1
    rest = whole[at:]
    words = told(form.fields, decoded(form.fields, whole), count if form.has_items else len(rest))
    words += behind + (hex_words(rest) if form.names else data_words(rest))
    return words + (["body", str(len(body))] if len(whole) > len(body) else [])


def request_words(message):
    values = decoded(REQUEST, message)
    operation = BY_OPCODE.get(values["opcode"])
    words = told([field for field in REQUEST if field.name not in ("opcode", "node")], values, len(message))
    words += [operation.name] if operation else ["opcode", str(values["opcode"])]
    words += told([field for field in REQUEST if field.name == "node"], values)
    return words + body_words(operation.body if operation else Body(), message[size(REQUEST) :])


def answer_words(message, asked):
    """The words for a message of the server. A success has the form that the last request of its unique asks for."""
    values, body = decoded(ANSWER, message), message[size(ANSWER) :]
    words = told([field for field in ANSWER if field.name != "error"], values, len(message))
    error = values["error"]
    if error:
        named = ERRORS if values["unique"] else ERRORS | NOTIFICATIONS
        return words + ([named[error]] if error in named else ["error", str(error)]) + data_words(body)
    if not body:
        return [*words, "ok"]
    operation = BY_OPCODE.get(asked.get(values["unique"]))
    if operation and operation.success:
        return [*words, operation.success, *body_words(ANSWERS[operation.success], body)]
    return words + data_words(body)


def line_of(record, head, asked):
    """The line of a whole record with this head, or of one whose length is beyond what it has. `asked` has the opcodes of requests by
    unique."""
    values, message = decoded(head, record), record[size(head) :]
    direction = values["direction"]
    start = ["<" if direction == 1 else ">"]
    start += told(head, values | {"direction": direction if direction > 1 else 0}, len(message))
    lines = [" ".join([*start, "message", message.hex()]).rstrip()]
    if len(message) >= size(ANSWER if direction == 1 else REQUEST):
        words = answer_words(message, asked) if direction == 1 else request_words(message)
        lines.insert(0, " ".join(start + words))
    for line in lines:
        try:
            if line_bytes(line, head) == record:
                return line
        except ValueError:
            pass
    return f"bytes {record.hex()}"


def tail_lines(tail, head, asked):
    """The lines of what is no whole record. Where it is shorter so, it is told as a whole one that is cut."""
    if len(tail) < size(head):
        return [f"bytes {tail.hex()}"] if tail else []
    lines = [line_of(tail, head, asked)]
    missing = size(head) + decoded(head, tail)["length"] - len(tail)
    if missing <= MOST_OF_A_MESSAGE:
        lines = min(lines, [line_of(tail + bytes(missing), head, asked), f"cut {missing}"], key=lambda told: len("\n".join(told)))
    return lines


def ends(capture):
    """Where each whole record of a capture ends, the first of them being the magic."""
    found, head = [len(MAGIC)], size(record_of(capture[: len(MAGIC)]))
    while len(capture) - found[-1] >= head:
        behind = found[-1] + head
        end = behind + int.from_bytes(capture[behind - 4 : behind], "little")
        if end > len(capture):
            break
        found.append(end)
    return found


def write(capture):
    """The text of a capture."""
    begun = capture[: len(MAGIC)]
    lines = [] if begun == MAGIC else [f"magic {quote(begun)}"]
    head = record_of(begun)
    asked, bounds = {}, ends(capture)
    for record, same in itertools.groupby(capture[start:end] for start, end in itertools.pairwise(bounds)):
        count = sum(1 for _ in same)
        line = line_of(record, head, asked)
        lines += [f"{line} times {count}"] if count >= EQUAL else [line] * count
        if record[0] == 0 and len(record) >= size(head) + size(REQUEST):
            header = decoded(REQUEST, record[size(head) :])
            asked[header["unique"]] = header["opcode"]
    lines += tail_lines(capture[bounds[-1] :], head, asked)
    return "".join(line + "\n" for line in lines)


def bytes_of(path):
    """The bytes of a file, unpacked where it is packed."""
    with open(path, "rb") as opened:
        data = opened.read()
    return bz2.decompress(data) if path.endswith(".bz2") else data


def texts_of(path):
    """The texts of captures that a file has, by the words that name them behind its own name."""
    text = bytes_of(path).decode("ascii")
    if path.endswith(".rows"):
        return {f" row {number}": row.messages() for number, row in enumerate(rows.read(text), 1)}
    return {"": "".join(f"{line}\n" for line in text.split("\n") if is_told(line))}


def difference(text):
    """The first line of a text that is not the one written of its bytes, and that one; if there is one."""
    pairs = itertools.zip_longest(text.split("\n"), write(read(text)).split("\n"), fillvalue="")
    return next((f"{found!r} is written as {expected!r}" for found, expected in pairs if found != expected), None)


def check():
    """What is wrong with the texts and captures of the cases and examples, a line each."""
    wrong = []
    for folder, _, files in sorted(itertools.chain(os.walk(HERE), os.walk(os.path.join(HERE, "..", "examples")))):
        for file in sorted(files):
            path = os.path.join(folder, file)
            name = os.path.relpath(path, HERE)
            if file.endswith((".messages", ".rows")):
                for words, text in texts_of(path).items():
                    try:
                        found = difference(text)
                    except ValueError as error:
                        found = error
                    if found:
                        wrong.append(f"{name}{words}: {found}")
            elif file.endswith((".cap", ".cap.bz2")):
                capture = bytes_of(path)
                if read(write(capture)) != capture:
                    wrong.append(f"{name}: does not come back from its text")
    return wrong


def main():
    how, *paths = sys.argv[1:] or [""]
    if how == "check" and not paths:
        wrong = check()
        print("\n".join(wrong + [f"{len(wrong)} wrong"]))
        return 1 if wrong else 0
    if how not in ("read", "write") or len(paths) != 1:
        print(__doc__, file=sys.stderr)
        return 2
    data = sys.stdin.buffer.read() if paths[0] == "-" else bytes_of(paths[0])
    try:
        sys.stdout.buffer.write(read(data.decode("ascii")) if how == "read" else write(data).encode("ascii"))
    except ValueError as error:
        print(f"{paths[0]}: {error}", file=sys.stderr)
        return 1
    return 0


if __name__ == "__main__":
    sys.exit(main())
