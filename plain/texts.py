"""Tree texts and order texts: docs/formats.md, 'Tree texts' and 'Order texts'."""
import re

from grammar import BLK, CHR, DIR, FIFO, LNK, REG, SOCK, is_name
from tree import ROOT_FILE, Content, empty_tree, new_file

TYPES = {b"d": DIR, b"f": REG, b"s": LNK, b"p": FIFO, b"c": CHR, b"b": BLK, b"k": SOCK}
NUMBER = rb"(0|[1-9][0-9]*)"
ENTRY = re.compile(NUMBER + rb"(?: w " + NUMBER + rb")?")
ROOT_LINE = re.compile(rb"root ([0-7]{3})")
FILE_LINE = re.compile(rb"([dpcbk]) ([0-7]{3}) (\S+)|([fs]) ([0-7]{3}) (\S+) (\S+)")
LINK_LINE = re.compile(rb"h (\S+) (\S+)")
NAME = re.compile(rb"(?:[!-$&-.0-~]|%[0-9A-Fa-f]{2})+")
HEX = re.compile(rb"(?:[0-9A-Fa-f]{2})+")
MOST_OF_A_NUMBER = 4_294_967_295


class NoText(Exception):
    """A text that is not in its grammar, with the line at fault."""

    def __init__(self, line):
        super().__init__(line)
        self.line = line


def demand(holds):
    if not holds:
        raise ValueError


def each_line(data, take, opening):
    """Hands each line before the last one, `end`, which stands behind so many that open the text, to `take` with its index, which
    raises ValueError where it does not fit."""
    *lines, rest = data.split(b"\n")
    for index, line in enumerate(lines):
        if line == b"end" and index >= opening:
            if index + 1 < len(lines) or rest:
                raise NoText(index + 2)
            return
        try:
            take(index, line)
        except ValueError:
            raise NoText(index + 1) from None
    raise NoText(len(lines) + 1)


def order_of(data):
    """The entries of an order text, as pairs of a message number and a count or None."""
    entries = []

    def take(index, line):
        if not index:
            return demand(line == b"fuse-order 1")
        found = ENTRY.fullmatch(line)
        demand(found)
        number, count = int(found[1]), None if found[2] is None else int(found[2])
        demand(number <= MOST_OF_A_NUMBER and (count or 0) <= MOST_OF_A_NUMBER)
        return entries.append((number, count))

    each_line(data, take, 1)
    return entries


def text_of(entries):
    """The order text of these entries."""
    lines = [str(number) if count is None else f"{number} w {count}" for number, count in entries]
    return "\n".join(["fuse-order 1", *lines, "end", ""])


def path_of(word):
    """The names of a path."""
    names = word.split(b"/")
    demand(all(NAME.fullmatch(name) for name in names))
    names = [re.sub(rb"%(..)", lambda found: bytes.fromhex(found[1].decode()), name) for name in names]
    demand(all(is_name(name) for name in names))
    return names


def file_at(tree, path):
    """The file at a path, which has to be there."""
    file = ROOT_FILE
    for name in path:
        file = tree.names.get((file, name))
        demand(file is not None)
    return file


def with_new_name(tree, word, file):
    """The tree with this file at a new path."""
    *above, name = path_of(word)
    directory = file_at(tree, above)
    demand(tree.is_directory(directory) and (directory, name) not in tree.names)
    return tree.with_name(directory, name, file)


def file_of(kind, bits, digits):
    """The file of a line."""
    demand(digits is None or digits == b"-" and kind == b"f" or HEX.fullmatch(digits))
    data = b"" if digits in (None, b"-") else bytes.fromhex(digits.decode())
    demand(kind != b"s" or b"\0" not in data)
    file = new_file(TYPES[kind], int(bits, 8), data)
    return file._replace(content=Content().written(0, data)) if kind == b"f" else file


def tree_of(data):
    """The tree of a tree text."""
    tree = empty_tree()

    def take(index, line):
        nonlocal tree
        if index == 0:
            return demand(line == b"fuse-tree 1")
        if index == 1:
            found = ROOT_LINE.fullmatch(line)
            demand(found)
            tree = empty_tree(int(found[1], 8))
            return None
        linked, found = LINK_LINE.fullmatch(line), FILE_LINE.fullmatch(line)
        demand(linked or found)
        if linked:
            file = file_at(tree, path_of(linked[2]))
            demand(not tree.is_directory(file))
            tree = with_new_name(tree, linked[1], file)
        else:
            made = "text", len(tree.files)
            kind, bits, path, digits = found[1] or found[4], found[2] or found[5], found[3] or found[6], found[7]
            tree = with_new_name(tree.with_file(made, file_of(kind, bits, digits)), path, made)
        return None

    each_line(data, take, 2)
    return tree
