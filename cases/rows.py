"""Short cases, many in a file: reads the text of a NAME.rows. README.md beside this says what such a text has."""

STATUS = {"good": 0, "proposed": 0, "legal": 0, "judged legal": 0, "fault": 1, "not shown": 2, "tree": 3, "order": 3, "no order": 6,
          "gave up": 7}
# What the second line of those begins with that `judge` prints of a capture without an order.
ALONE = "the first "
# The line in front of those that `explain` has to print.
EXPLAINED = "explained"


def order_text(entries):
    """The order text of these entries, which a comma parts."""
    return "\n".join(["fuse-order 1", *(entries.split(", ") if entries else []), "end", ""])


class Row:
    """A row: its own lines, of which the last is what is expected, or the last two, or all behind `explained`, and all lines in front of
    that, those that the rows of the text share first."""

    def __init__(self, shared, own):
        self.own, self.is_explained = own, EXPLAINED in own
        if self.is_explained:
            given, expected = own[: own.index(EXPLAINED)], own[own.index(EXPLAINED) + 1 :]
        else:
            expected = own[-2:] if own and own[-1].startswith(ALONE) else own[-1:]
            given = own[: len(own) - len(expected)]
        self.lines, self.expected = shared + given, "\n".join(expected)

    def behind(self, word):
        """What stands behind this word on the lines that begin with it."""
        return [line[len(word) :] for line in self.lines if line.startswith(word)]

    def messages(self):
        """The text of the capture."""
        return "".join(f"{line}\n" for line in self.lines if not line.startswith(("tree ", "order")))

    def tree(self):
        """The tree text, if the row has a tree."""
        files = self.behind("tree ")
        return "\n".join(["fuse-tree 1", "root 755", *files, "end", ""]) if files else None

    def has_order(self):
        """Whether the row says an order, be it one without entries."""
        return bool(self.behind("order"))

    def order(self):
        """The order text."""
        return order_text(", ".join(line[1:] for line in self.behind("order") if line))

    def word(self):
        """The word that what is expected begins with."""
        word = self.expected.partition(":")[0]
        return "proposed" if word.partition(" ")[0] == "proposed" else word

    def printed(self):
        """What the call of the row has to print. Whether a capture is good is told by cutting the empty order, which leaves it."""
        if self.word() == "good":
            return order_text("")
        if self.word() == "proposed":
            return order_text(self.expected.removeprefix("proposed").strip())
        return f"{self.expected.removeprefix('judged ')}\n"

    def status(self):
        """The status of that call."""
        if self.word() not in STATUS:
            raise ValueError("the row does not end with what is expected")
        return STATUS[self.word()]


def read(text):
    """The rows of a text."""
    blocks = (block.split("\n") for block in text.strip("\n").split("\n\n"))
    shared, *rows = [[line for line in block if line and not line.startswith("#")] for block in blocks]
    return [Row(shared, own) for own in rows]
