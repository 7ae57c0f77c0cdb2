"""A tree, which is never changed but followed by others: docs/model.md, 'The tree machine'."""
import typing

from grammar import BITS, DIR, LNK, REG

ROOT_FILE = "root"
ROOT_NAME = 1, 0
PAGE = 4096


class Content(typing.NamedTuple):
    """The bytes of a regular file: how many, and the pages that are not zeros alone, by their places. Equal bytes are equal contents."""

    size: int = 0
    pages: frozenset = frozenset()

    def read(self, offset, count):
        """These bytes, of which there are no more than the file has."""
        pages, parts = dict(self.pages), []
        for page in range(offset // PAGE, (offset + count + PAGE - 1) // PAGE):
            parts.append(pages.get(page, bytes(PAGE)))
        begin = offset % PAGE
        return b"".join(parts)[begin : begin + count]

    def resized(self, size):
        """The bytes cut, or filled with zeros."""
        pages = {place: page for place, page in self.pages if place * PAGE < size}
        last = size // PAGE
        if last in pages:
            pages[last] = pages[last][: size % PAGE].ljust(PAGE, b"\0")
        return Content(size, packed(pages))

    def written(self, offset, data):
        """The bytes with these at an offset, and with zeros before them where they were fewer."""
        if not data:
            return self
        pages = dict(self.pages)
        for place in range(offset // PAGE, (offset + len(data) - 1) // PAGE + 1):
            page = bytearray(pages.get(place, bytes(PAGE)))
            begin, end = max(offset, place * PAGE), min(offset + len(data), (place + 1) * PAGE)
            page[begin - place * PAGE : end - place * PAGE] = data[begin - offset : end - offset]
            pages[place] = bytes(page)
        return Content(max(self.size, offset + len(data)), packed(pages))


def packed(pages):
    return frozenset((place, page) for place, page in pages.items() if page.strip(b"\0"))


class File(typing.NamedTuple):
    """A file: its type, its permission bits, and its bytes or its target."""

    type: int
    bits: int
    content: Content | bytes | None = None


class Opened(typing.NamedTuple):
    """A directory that is open: the names that were in it at some moment since, and those that kept their file since."""

    directory: typing.Any
    seen: frozenset
    kept: frozenset


def new_file(type_bits, bits, target=None):
    """A file as it is made."""
    if type_bits == LNK:
        return File(LNK, BITS, target)
    return File(type_bits, bits & BITS, Content() if type_bits == REG else None)


class Tree(typing.NamedTuple):
    """Files by what made them, the files of names by directory and name, those of nodes by their names, and open directories by the
    request that opened them."""

    files: dict
    names: dict
    nodes: dict
    opened: dict

    def key(self):
        """What is equal for equal trees alone."""
        return tuple(frozenset(part.items()) for part in self)

    def is_directory(self, file):
        return self.files[file].type == DIR

    def is_linked(self, file):
        return file == ROOT_FILE or file in self.names.values()

    def links(self, file):
        """How many names a file has."""
        return sum(named == file for named in self.names.values())

    def names_in(self, directory):
        return frozenset(name for place, name in self.names if place == directory)

    def is_at_or_below(self, file, directory):
        """Whether a directory is this one or below it."""
        while file != directory:
            above = [place for (place, _), named in self.names.items() if named == file]
            if not above:
                return False
            file = above[0]
        return True

    def with_file(self, file, what):
        return self._replace(files={**self.files, file: what})

    def with_name(self, directory, name, file):
        """The tree in which a name stands for this file, or with None for none. A name that keeps its file is not changed by this."""
        if self.names.get((directory, name)) == file:
            return self
        names = {key: named for key, named in self.names.items() if key != (directory, name)}
        if file is not None:
            names[directory, name] = file
        opened = {}
        for request, state in self.opened.items():
            if state.directory == directory:
                state = Opened(directory, state.seen | {name} if file is not None else state.seen, state.kept - {name})
            opened[request] = state
        return self._replace(names=names, opened=opened)

    def with_node(self, node, file):
        return self._replace(nodes={**self.nodes, node: file})

    def with_opened(self, request, directory):
        now = self.names_in(directory)
        return self._replace(opened={**self.opened, request: Opened(directory, now, now)})


def empty_tree(bits=0o755):
    """A root with nothing in it: 'The first tree'."""
    return Tree({ROOT_FILE: File(DIR, bits)}, {}, {ROOT_NAME: ROOT_FILE}, {})
