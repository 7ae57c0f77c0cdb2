#!/usr/bin/env python3
"""Makes random small captures, by a server that carries out requests on a tree, several of them under way at once, and now and then
does or answers the wrong thing. Some captures are damaged then, in an answer, in a bit or at their end.

usage: plain/made.py SEED COUNT [--most N] [--to FOLDER]

Each capture is printed in the text form of docs/messages.md, between its tree text and an order, or goes to FOLDER as NAME.cap,
NAME.tree and NAME.order. The same seed makes the same ones. Nothing says whether they are legal: that is what plain/judge.py tells.
"""
import argparse
import os
import random
import re

import grammar
import ledger
import steps
import texts
from codes import Refused
from grammar import messages
from tree import empty_tree

NAMES = b"a", b"b", b"c"
TREES = ["", "f 644 a 6162", "d 755 a", "f 644 a 6162\nd 755 b", "d 755 a\nd 755 a/b\nf 600 b 78", "s 777 a 62\nf 644 b -\nh c b"]
# What sessions ask for: first one after the other, and then at random. Each session has one of these.
THEMES = [([tuple(first.split(" ", 1)) for first in firsts], operations.split()) for firsts, operations in (
    ([], """LOOKUP LOOKUP CREATE CREATE MKDIR MKNOD SYMLINK UNLINK RMDIR RENAME RENAME2 LINK READLINK OPEN READ WRITE SETATTR GETATTR
     OPENDIR READDIR READDIRPLUS RELEASE RELEASEDIR FORGET STATFS"""),
    (['LOOKUP node 1 "a"', 'LOOKUP node 1 "b"'],
     "LOOKUP CREATE MKDIR UNLINK RMDIR RENAME RENAME RENAME2 RENAME2 LINK GETATTR FORGET SYMLINK MKNOD"),
    (['MKDIR node 1 "c"'], "LOOKUP LOOKUP MKDIR MKDIR RMDIR RENAME RENAME RENAME2 CREATE UNLINK"),
    (['CREATE node 1 "a"'], "OPEN OPEN READ READ READ WRITE WRITE WRITE SETATTR GETATTR RELEASE LOOKUP CREATE"),
    (['CREATE node 1 "b"'], "READ READ READ WRITE WRITE SETATTR UNLINK"),
    (["OPENDIR node 1"], "READDIR READDIR READDIR READDIRPLUS READDIRPLUS CREATE UNLINK RENAME RELEASEDIR OPENDIR"),
    (["OPENDIR node 1"], "READDIR READDIRPLUS READDIRPLUS RENAME2 MKNOD UNLINK LOOKUP"),
    (['SYMLINK node 1 "c" "b"'], "SYMLINK READLINK READLINK LOOKUP UNLINK LINK RENAME GETATTR"))]
OF_FILES = "SETATTR", "GETATTR", "READLINK", "OPEN"
ERRORS = {error: word for word, error in messages.ERROR_NUMBERS.items() if -999 <= error < 0}
DETERMINED = grammar.ENOENT, grammar.EEXIST, grammar.ENOTDIR, grammar.EISDIR, grammar.ENOTEMPTY


class Under:
    """A request that is under way: its number, unique and operation; then its answer, and the files of the nodes that this gives."""

    def __init__(self, number, unique, operation):
        self.number, self.unique, self.operation = number, unique, operation
        self.answer, self.files = None, {}


class Session:
    """A session as it is made."""

    def __init__(self, seed, most):
        self.random = random.Random(seed)
        self.left, self.width = self.random.randint(3, most), self.random.choice((1, 2, 3, 4, 5, 9))
        self.firsts, self.operations = self.random.choice(THEMES)
        self.text = self.random.choice(TREES[1:] if self.firsts == [("OPENDIR", "node 1")] else TREES)
        self.tree_text = "\n".join(["fuse-tree 1", "root 755", *self.text.split("\n"), "end", ""]) if self.text else None
        self.tree = texts.tree_of(self.tree_text.encode()) if self.text else empty_tree()
        self.earlier = [self.tree]
        self.eager = self.random.choice((0.4, 0.6, 0.9))  # how likely it sends before it does something else
        self.bugs = self.random.choice((0, 0, 0.15, 0.3))
        self.ledger, self.lines, self.waiting = ledger.Ledger(), [], []
        self.ids, self.done = {}, []  # node ids by file; what was carried out, with counts
        agreed = self.random.choice((0, grammar.ATOMIC_O_TRUNC))
        self.say(0, f"unique 2 INIT flags {agreed}")
        self.say(1, f"unique 2 init flags {agreed}")

    def say(self, direction, words):
        """A message more."""
        self.ledger.take(direction, messages.message_bytes(direction, messages.Words(words)))
        self.lines.append("><"[direction] + " " + words)

    def run(self):
        """Sends, carries out and answers until nothing is to be done, but for requests that are never answered."""
        for operation, words in self.firsts:
            self.send(operation, words)
            self.carry_out(self.waiting[0])
            self.reply(self.waiting[0])
        while self.left or self.waiting:
            sends = self.left and len(self.waiting) < self.width
            if sends and self.random.random() < self.eager:
                self.send_any()
                continue
            under = self.random.choice(self.waiting) if self.waiting else None
            if under and under.answer is None:
                self.carry_out(under)
            elif under and self.random.random() < 0.1:
                self.waiting.remove(under)
            elif under:
                self.reply(under)
        return self

    # Requests.

    def send_any(self):
        """A random request that the kernel may send."""
        operation = self.random.choice(self.operations)
        words = self.words_of(operation)
        if words is None or operation in ("OPEN", "READLINK", "SETATTR") and words.startswith("node 1 ") and self.random.random() < 0.9:
            return
        self.send(operation, words)

    def send(self, operation, words):
        """A request."""
        number, unique = self.ledger.number, 2 * self.ledger.number
        self.say(0, f"unique {unique} {operation} {words}".strip())
        if number in self.ledger.calls:
            self.left -= 1
        if operation != "FORGET":
            self.waiting.append(Under(number, unique, operation))

    def name(self):
        return f'"{self.random.choice(NAMES).decode()}"'

    def node(self, file=False):
        """A node that is known. For a file it is seldom the root."""
        known = [node for node, count in self.ledger.lookups.items() if count > 0]
        return self.random.choice(known if file and known and self.random.random() < 0.9 else [1, *known])

    def handle(self, of_directory):
        """The node and the number of an open handle."""
        keys = [key for key in self.ledger.handles if key[2] == of_directory and self.ledger.name_at(key[0][0]) == key[0]]
        return self.random.choice(keys)[:2] if keys else None

    def words_of(self, operation):
        """The words behind an operation. None where it can't be sent now."""
        pick = self.random.choice
        if operation in ("READ", "WRITE", "RELEASE", "READDIR", "READDIRPLUS", "RELEASEDIR"):
            found = self.handle(operation in ledger.OF_DIRECTORIES)
            return found and f"node {found[0][0]} fh {found[1]}" + self.words_of_use(operation)
        if operation == "FORGET":
            node = self.node()
            return f"node {node} nlookup {self.random.randint(1, self.ledger.lookups[node])}" if node != 1 else None
        node, fields = f"node {self.node(operation in OF_FILES)}", {
            "SETATTR": f"valid {pick((8, 8, 1, 9))} size {pick((0, 1, 3))} mode {pick(('0100600', '0100644'))}",
            "OPEN": f"flags {pick((0, 0x200))}",
            "CREATE": f"flags {pick((0x42, 0xc2, 0x242))} {self.name()}",
            "MKNOD": f"mode {pick(('0100644', '010600', '0'))} {self.name()}",
            "RENAME": f"newdir {self.node()} {self.name()} {self.name()}",
            "RENAME2": f"newdir {self.node()} flags {pick((0, 1, 1, 2, 2, 2, 4))} {self.name()} {self.name()}",
            "LINK": f"oldnodeid {self.node(True)} {self.name()}",
            "SYMLINK": f"{self.name()} {self.name()}",
            "STATFS": "", "GETATTR": "", "READLINK": "", "OPENDIR": ""}
        return f"{node} {fields.get(operation, self.name())}"

    def words_of_use(self, operation):
        """The words behind a handle."""
        pick = self.random.choice
        if operation == "WRITE":
            data = "".join(pick("xyz") for _ in range(pick((1, 1, 2, 3))))
            return f' offset {pick((0, 0, 1, 4))} "{data}"'
        if operation == "READ":
            return f" offset {pick((0, 0, 1))} size {pick((2, 8))}"
        return f" offset {pick((0, 0, 0, 1, 2))} size {pick((64, 400, 4096, 4096))}" if operation in grammar.LISTING else ""

    # The server.

    def carry_out(self, under):
        """Carries out a request, and keeps what is to be answered. A wrong server answers from a tree of before, or forgets the change,
        or makes it and answers an error."""
        call = self.ledger.calls.get(under.number)
        if call is None:
            under.answer = "ok" if under.operation in ("RELEASE", "RELEASEDIR", "STATFS") else "ENOSYS"
            return
        wrong = self.random.choice(("stale", "lost", "error")) if self.random.random() < self.bugs else ""
        count = self.random.randint(0, call.request.fields["size"]) if under.operation == "WRITE" else None
        tree = self.random.choice(self.earlier) if wrong == "stale" else self.tree
        try:
            under.answer, changed = self.outcome(steps.Place(tree, call), under, count)
            if wrong == "stale":
                _, changed = self.outcome(steps.Place(self.tree, call), under, count)
        except (Refused, KeyError):
            under.answer, changed = "EIO", self.tree
        if wrong == "error":
            under.answer = self.random.choice(("ENOENT", "EEXIST", "EIO"))
        self.done.append((under.number, count))
        if wrong != "lost":
            self.tree = changed
            self.earlier.append(changed)

    def outcome(self, place, under, count):
        """What a request is answered in a tree, and the tree behind it."""
        if under.operation == "LOOKUP" and place.is_directory():
            if place.found is None:
                return ("entry", place.tree) if self.random.random() < 0.3 else ("ENOENT", place.tree)
        elif under.operation == "LOOKUP" or not steps.may_succeed(place) or self.random.random() < 0.03:
            return self.error(place), place.tree
        unanswered = steps.change(place, count)
        if under.operation == "OPENDIR":
            unanswered = unanswered.with_opened(place.call.number, place.file)
        return self.success(place, unanswered, under, count), unanswered

    def error(self, place):
        """An error with its cause."""
        caused = [error for error in DETERMINED if steps.has_cause(place, error)]
        return ERRORS[self.random.choice(caused)] if caused else "EINVAL"

    def success(self, place, tree, under, count):
        """The words of a success."""
        operation, request = under.operation, place.request
        if operation in grammar.LISTING:
            return self.listing(place, tree, under)
        if operation in ("GETATTR", "SETATTR"):
            return "attr " + attributes(tree, place.file)
        if operation in ledger.GIVE_NODES:
            file = place.other if operation == "LINK" else tree.names[place.file, place.name]
            words = f"node {self.id_of(file, under)} {attributes(tree, file)}"
            return f"created {words} {self.opened()}" if operation == "CREATE" else f"entry {words}"
        if operation in ("OPEN", "OPENDIR"):
            return "opened " + self.opened()
        if operation == "WRITE":
            return f"written size {count}"
        if operation == "READLINK":
            return messages.quote(tree.files[place.file].content)
        if operation == "READ":
            content, offset = tree.files[place.file].content, request.fields["offset"]
            data = content.read(offset, max(0, min(request.fields["size"], content.size - offset)))
            return messages.quote(data) if data else "ok"
        return "ok"

    def opened(self):
        return f"fh {self.random.choice((1, 1, 2))} open_flags {int(self.random.random() < 0.1)}"

    def id_of(self, file, under):
        """The node id that a server gives a file: always the same, and now and then one that was forgotten."""
        if file not in self.ids:
            gone = [node for node, count in self.ledger.lookups.items() if not count]
            used = set(self.ids.values())
            again = gone and self.random.random() < 0.5
            self.ids = {other: node for other, node in self.ids.items() if not again or node != gone[0]}
            self.ids[file] = gone[0] if again else max([1, *used, *self.ledger.lookups]) + 1
        under.files[self.ids[file]] = file
        return self.ids[file]

    def listing(self, place, tree, under):
        """A listing of the names that the directory has now, each with an offset of its own."""
        plus, room, words = under.operation == "READDIRPLUS", place.request.fields["size"], []
        directory = tree.opened[place.call.handle].directory
        for offset, name in enumerate(NAMES, 1):
            file = tree.names.get((directory, name))
            room -= 160 if plus else 32
            if file is None or offset <= place.request.fields["offset"] or room < 0:
                continue
            told = f'"{name.decode()}" off {offset} type {tree.files[file].type // 4096}'
            node = f"node {self.id_of(file, under)} {attributes(tree, file)} " if plus else ""
            words.append(f"[{node}{told}]")
        return f"{'direntplus' if plus else 'dirent'} {' '.join(words)}" if words else "ok"

    def reply(self, under):
        """Answers a request."""
        self.waiting.remove(under)
        self.say(1, f"unique {under.unique} {under.answer}")
        call = self.ledger.calls.get(under.number)
        for node, name in (call.given if call else {}).items():
            if node in under.files:
                self.tree = self.tree.with_node(name, under.files[node])
                self.earlier = [tree.with_node(name, under.files[node]) for tree in self.earlier]

    # What is altered afterwards.

    def altered(self):
        """The lines of the capture, of which now and then one is altered, or two have each other's answers."""
        lines = list(self.lines)
        answers = [at for at in range(2, len(lines)) if lines[at].startswith("<")]
        telling = [at for at in answers if lines[at][-1] in '"]']
        how = self.random.random()
        if answers and how < 0.4:
            at = self.random.choice(telling if telling and self.random.random() < 0.6 else answers)
            lines[at : at + 1] = self.random.choice(self.alterations(lines[at]))
        elif how < 0.6:
            asked = {line.split()[2]: line.split()[3] for line in lines if line.startswith(">")}
            parts = {at: lines[at].split(" ", 3) for at in answers}
            alike = [(one, other) for one in answers for other in answers if asked[parts[one][2]] == asked[parts[other][2]]]
            one, other = self.random.choice(alike) if alike else (0, 0)
            for at, instead in ((one, other), (other, one)) if one != other else ():
                lines[at] = " ".join(parts[at][:3] + parts[instead][3:])
        return lines

    def order(self):
        """The order in which requests were carried out, of which now and then one entry is altered."""
        calls = self.ledger.calls
        entries = [(number, None if calls[number].answered else count) for number, count in self.done]
        entries = [(number, count) for number, count in entries if calls[number].answered or not calls[number].only_reads()]
        if entries and self.random.random() < 0.5:
            at, to = self.random.randrange(len(entries)), self.random.randrange(len(entries))
            number, count = entries.pop(at)
            entries[to:to] = self.random.choice(([], [(number, count)], [(number, count)], [(number, 1)], [(number, None)],
                                                 [(number, count)] * 2, [(number + 1, count)]))
        return texts.text_of(entries).encode()

    def alterations(self, line):
        """What may stand in the place of an answer, lines each."""
        pick = self.random.choice
        ways = [[f"< unique {line.split()[2]} {pick(('ENOENT', 'EEXIST', 'ENOTDIR', 'EISDIR', 'ENOTEMPTY', 'EPERM'))}"]]
        ways += [[]] if pick((True, False, False)) else []
        ways += [[line, line]] if pick((True, *[False] * 9)) else []
        for found in re.finditer(r"\b(?:node|size|nlink|off|type|mode|fh|open_flags) (\d+)", line):
            ways.append([line[: found.start(1)] + pick(("0", "1", "2", "3", "4", "8", "0100644", "040755")) + line[found.end(1) :]])
        for found in re.finditer(r" \[[^]]*\]", line):
            ways += [[line[: found.start()] + instead + line[found.end() :]] for instead in ("", found[0] * 2)]
        for found in re.finditer(r'"[^"]*"', line):
            ways += [[line[: found.start()] + instead + line[found.end() :]] for instead in ('"a"', f'{found[0][:-1]}x"', '"b"')]
        return ways


def attributes(tree, file):
    """The words for the attributes of a file."""
    what = tree.files[file]
    size = what.content.size if what.type == grammar.REG else 0
    return f"size {size} mode 0{what.type | what.bits:o} nlink {tree.links(file)}"


def made(seed, most=9):
    """The bytes of one capture, of its tree text, or None, and of an order."""
    session = Session(seed, most).run()
    magic = ['magic "FUSECAP2"'] if session.random.random() < 0.1 else []
    capture = messages.read("".join(line + "\n" for line in magic + session.altered()))
    tree_text = session.tree_text.encode() if session.tree_text else None
    return damaged(capture, session.random), tree_text, session.order()


def damaged(capture, chance):
    """The bytes of a capture, of which now and then one bit is another, or the last ones are missing."""
    found = bytearray(capture)
    if chance.random() < 0.08:
        found[chance.randrange(len(found))] ^= 1 << chance.randrange(8)
    return bytes(found[: -chance.randint(1, 20)] if chance.random() < 0.02 else found)


def all_made(seed, count, most=9):
    """Captures with their names in front of them."""
    for number in range(count):
        name = f"made-{seed}-{number}"
        yield name, *made(name, most)


def main():
    parser = argparse.ArgumentParser(description=__doc__, formatter_class=argparse.RawDescriptionHelpFormatter)
    parser.add_argument("seed")
    parser.add_argument("count", type=int)
    parser.add_argument("--most", type=int, default=9, metavar="N", help="tree requests of a capture")
    parser.add_argument("--to", metavar="FOLDER")
    given = parser.parse_args()
    for name, capture, tree_text, order_text in all_made(given.seed, given.count, given.most):
        if given.to:
            for kind, data in (("cap", capture), ("tree", tree_text), ("order", order_text)):
                if data is not None:
                    with open(os.path.join(given.to, f"{name}.{kind}"), "wb") as opened:
                        opened.write(data)
        else:
            print(f"# {name}\n{(tree_text or b'').decode()}{messages.write(capture)}{order_text.decode()}")


if __name__ == "__main__":
    main()
