"""Makes an input smaller as long as it still fails: by messages and lines, and then by bytes."""
import captures

# So many inputs are tried at most, and of captures of so many bytes their bytes.
TRIES = 1500
MOST_BYTES = 20_000


class Spent(Exception):
    """All tries are made."""


def smaller(parts, fails):
    """As few of these parts as still fail, by leaving out ever smaller runs of them (delta debugging)."""
    size = (len(parts) + 1) // 2
    while size:
        at, before = 0, len(parts)
        while at < len(parts):
            without = parts[:at] + parts[at + size :]
            if fails(without):
                parts = without
            else:
                at += size
        if size > 1 or len(parts) == before:
            size //= 2


class Shrinking:
    """An input that fails, and what tells of another whether it does."""

    def __init__(self, given, fails):
        self.given, self.fails, self.left = given, fails, TRIES

    def takes(self, given):
        """Whether a smaller input fails too, which is then the input."""
        if self.left == 0:
            raise Spent
        self.left -= 1
        if given == self.given or not self.fails(given):
            return False
        self.given = given
        return True

    def by_messages(self):
        """Leaves out messages, of which the order names the rest as before."""
        magic, records, tail = captures.read(self.given.capture)
        order = self.given.order

        def fails(left):
            data = captures.Capture(magic, left, tail).bytes()
            return self.takes(self.given._replace(capture=data, order=captures.renumbered(order, left)))

        smaller(records, fails)

    def by_lines(self, name):
        """Leaves out lines of a text."""
        lines = getattr(self.given, name).split(b"\n")
        smaller(lines, lambda left: self.takes(self.given._replace(**{name: b"\n".join(left)})))

    def by_bytes(self, name):
        """Leaves out bytes."""
        data = getattr(self.given, name)
        if len(data) <= MOST_BYTES:
            smaller(data, lambda left: self.takes(self.given._replace(**{name: left})))

    def run(self):
        """The smallest input that was found."""
        try:
            self.takes(self.given._replace(tree=None))
            self.by_messages()
            texts = ("order",) if self.given.tree is None else ("order", "tree")
            for name in texts:
                self.by_lines(name)
            for name in ("capture", *texts):
                self.by_bytes(name)
        except Spent:
            pass
        return self.given
