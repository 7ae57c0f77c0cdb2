"""The inputs that are mutated: those of the cases, among which are the examples, and made ones."""
import bz2
import os
import random
import re

from captures import Input, messages

import made
import run

# A file that is made, written, removed while it is open, and read: its capture, and the messages of its order.
REMOVED = """\
> unique 2 INIT
< unique 2 init
> unique 4 CREATE node 1 "f"
< unique 4 created node 2 mode 0100644 nlink 1 fh 1
> unique 6 WRITE node 2 fh 1 "abc"
< unique 6 written size 3
> unique 8 UNLINK node 1 "f"
< unique 8 ok
> unique 10 READ node 2 fh 1 size 4096
< unique 10 "abc"
> unique 12 GETATTR node 2
< unique 12 attr size 3 mode 0100644 nlink 0
"""
REMOVED_ORDER = "2, 4, 6, 8, 10"
# So many random texts, of fewer bytes than this.
TEXTS, TEXT_BYTES = 1000, 256
# Larger files are none of a sample.
MOST_BYTES = 200_000
MADE = 300
# What the texts of captures have that are as large as a capture can be.
LARGE = re.compile(r"zeros \d{6,}")


def content(source):
    """The bytes that a file of the cases stands for, or None where there are too many."""
    with bz2.open(source) if source.endswith(".bz2") else open(source, "rb") as opened:
        data = opened.read(MOST_BYTES + 1)
    if source.endswith(".messages"):
        text = data.decode("ascii")
        return None if LARGE.search(text) else messages.read(text)
    return data if len(data) <= MOST_BYTES else None


def of_row(case):
    """The input of a row."""
    tree = case.row.tree()
    return Input(messages.read(case.row.messages()), case.row.order().encode("ascii"), tree and tree.encode("ascii"))


def of_files(case):
    """The input of a case that has files, or None where it has no capture."""
    words = [os.fsdecode(word) for word in case.words]
    options = dict(zip(words[1::2], words[2::2]))
    sources = [case.sources.get(options.get(f"--{name}")) for name in ("capture", "order", "tree")]
    capture, order, tree = (source and content(source) for source in sources)
    return capture and Input(capture, order or run.rows.order_text("").encode("ascii"), tree)


def of_cases():
    """The inputs of the cases, each once."""
    found = (of_row(case) if isinstance(case, run.RowCase) else of_files(case) for case in run.all_cases())
    return list(dict.fromkeys(sample for sample in found if sample and sample.size() <= MOST_BYTES))


def all_samples(seed):
    """All of them."""
    return of_cases() + [Input(capture, order, tree) for _, capture, tree, order in made.all_made(seed, MADE)]


def all_damaged(seed):
    """A capture, the same with each byte as 0 and as 255, and random bytes in the place of its order and of a tree text."""
    chance = random.Random(seed)
    capture, order = messages.read(REMOVED), run.rows.order_text(REMOVED_ORDER).encode("ascii")
    values = [(place, value) for place, byte in enumerate(capture) for value in (0, 255) if value != byte]
    found = [Input(capture, order, None)]
    found += [Input(capture[:place] + bytes([value]) + capture[place + 1:], order, None) for place, value in values]
    texts = [chance.randbytes(chance.randrange(TEXT_BYTES)) for _ in range(2 * TEXTS)]
    found += [Input(capture, text, None) for text in texts[:TEXTS]]
    return found + [Input(capture, order, text) for text in texts[TEXTS:]]
