#!/usr/bin/env python3
"""Compares a built program with the plain judge: on the cases of this repository, on folders of captures, or on made ones.

usage: plain/compare.py PROGRAM [FOLDER..] [--most N] [--places N] [--seconds N]
       plain/compare.py PROGRAM --made SEED COUNT [--most N] [--places N] [--seconds N]

A FOLDER has NAME.cap, NAME.tree and NAME.order; without one, the cases are those of ../cases. Where the plain judge decides a capture,
the lines and the status of the program's `judge` have to be the same; the second line, of the first messages that alone have no order,
where these are not too large for the plain judge. How many entries are placed may differ, since several orders may
be legal: the one that `search` prints has to be legal by the plain judge, with the line of `judge`, and that of the plain judge by
`check`. Where a capture is too large to be decided, the order that `search` prints has to be legal by `check` of both. Where there is
an order, `check` has to print what the plain judge says of it.

Each difference is printed, each capture of which the program gave up, and at the end how many there were of each kind. The status is 1
where something differs or gave up.
"""
import argparse
import collections
import os
import re
import subprocess
import sys
import tempfile

import judge
import made
import orders

sys.path.insert(0, os.path.join(os.path.dirname(os.path.abspath(__file__)), "..", "cases"))
import run  # noqa: E402

GAVE_UP = 7
# Captures and texts of more bytes are counted alone.
MOST_BYTES = 1 << 20
SECONDS = 600
LEGAL = re.compile(r"legal: (\d+) messages, (\d+) placed, (\d+) left out")


def words_of(case):
    """The words of a case's call, and the files that its options name."""
    words = [os.fsdecode(word) for word in case.words]
    return words, dict(zip(words[1::2], words[2::2]))


def cases():
    """The captures of the cases: a name, and the bytes of the capture, of the tree text and of the order, or None."""
    for case in run.all_cases():
        words, given = words_of(case)
        if words[:1] in (["check"], ["propose"], ["cut"], ["judge"], ["search"]):
            with tempfile.TemporaryDirectory() as room:
                folder = case.laid_out(room)
                paths = {option: os.path.join(folder, given.get(f"--{option}", ".")) for option in ("capture", "tree", "order")}
                found = [judge.content(path) if os.path.isfile(path) else None for path in paths.values()]
            if found[0] is not None and (found[1] is not None or "--tree" not in given):
                yield case.name, *found


def folder_of(path):
    """The captures of a folder, likewise."""
    for file in sorted(os.listdir(path)):
        if file.endswith(".cap"):
            root = os.path.join(path, file.removesuffix(".cap"))
            others = (f"{root}.{kind}" for kind in ("tree", "order"))
            yield root, judge.content(f"{root}.cap"), *(judge.content(other) if os.path.isfile(other) else None for other in others)


def kind_of(line):
    """What a line says, without its numbers but for the code; of two lines the first."""
    line = line.partition("\n")[0]
    return re.sub(r"(message|entry|line) \d+: ", "", line) if not LEGAL.fullmatch(line) else "legal"


def how_far(said):
    """How the number of the first messages that alone have no order stands to the message past which none goes."""
    if "\n" not in said:
        return "of the first messages alone nothing is told"
    at, count = (int(re.search(before + r" (\d+)", said)[1]) for before in ("message", "the first"))
    return "the first messages up to and with it have none" if count == at + 1 else "more messages alone have none than those up to it"


def is_same(ours, theirs):
    """Whether the program says what the plain judge says, which leaves out a second line that it can't tell."""
    return ours == theirs or "\n" not in ours and ours == theirs.partition("\n")[0]


class Comparison:
    """What was compared, and what differs."""

    def __init__(self, program, limits, room, seconds=SECONDS):
        self.program, self.limits, self.room, self.seconds = os.path.abspath(program), limits, room, seconds
        self.kinds, self.differences, self.judged = collections.Counter(), 0, {}

    def call(self, command, **files):
        """What the program prints for these files, and its status."""
        words = [self.program, command]
        for option, data in files.items():
            if data is not None:
                path = os.path.join(self.room, option)
                with open(path, "wb") as opened:
                    opened.write(data)
                words += [f"--{option}", path]
        try:
            ran = subprocess.run(words, stdout=subprocess.PIPE, timeout=self.seconds)
        except subprocess.TimeoutExpired:
            return "no answer in time\n", GAVE_UP
        return ran.stdout.decode("ascii", "replace"), ran.returncode

    def differs(self, name, what, ours, theirs):
        self.differences += 1
        print(f"{name}: {what}\n  plain:   {ours}\n  program: {theirs}", flush=True)

    def compare(self, name, capture, tree=None, order=None):
        """Compares all that is said of a capture, once for each capture and tree, and of its order."""
        if max(len(data or b"") for data in (capture, tree, order)) > MOST_BYTES:
            self.kinds[f"not compared: more than {MOST_BYTES} bytes"] += 1
            return
        plain = self.judged.get((capture, tree))
        if plain is None:
            plain = self.judged[capture, tree] = judge.Judged(capture, tree)
            self.compare_judged(name, plain, capture, tree, order)
        if order is not None:
            self.compare_check(name, plain, capture, tree, order)

    def compare_check(self, name, plain, capture, tree, order):
        """Compares what is said of an order."""
        line, status = plain.check(order)
        found, found_status = self.call("check", capture=capture, tree=tree, order=order)
        self.kinds["check: " + kind_of(line)] += 1
        if (found, found_status) != (line + "\n", status):
            self.differs(name, "check", (line, status), (found.removesuffix("\n"), found_status))

    def compare_judged(self, name, plain, capture, tree, order):
        """Compares the answer to a capture."""
        line, status = plain.judge(self.limits)
        found, found_status = self.call("judge", capture=capture, tree=tree)
        found = found.removesuffix("\n")
        kind = f"judge: {kind_of(line)}"
        if status == judge.TOO_LARGE:
            kind += ", by the program: " + kind_of(found)
        elif found_status != GAVE_UP and (found_status != status or status != judge.LEGAL and not is_same(line, found)):
            self.differs(name, "judge", (line, status), (found, found_status))
        self.kinds[kind] += 1
        if status == judge.NO_ORDER:
            self.kinds["no order: " + how_far(line)] += 1
        if found_status == GAVE_UP:
            self.gave_up(name, found)
        if found_status == judge.LEGAL:
            self.compare_order(name, plain, capture, tree, found)
        if plain.order is not None and order != plain.order:
            self.compare_check(name, plain, capture, tree, plain.order)

    def gave_up(self, name, line):
        self.kinds["gave up"] += 1
        print(f"{name}: {line}", flush=True)

    def compare_order(self, name, plain, capture, tree, line):
        """Whether the order that the program finds is legal, with this line."""
        order, status = self.call("search", capture=capture, tree=tree)
        if status == GAVE_UP:
            self.gave_up(name, order.removesuffix("\n"))
            return
        checked = plain.check(order.encode("ascii")) if status == 0 else ("no order", status)
        if checked != (line, judge.LEGAL):
            self.differs(name, "search", checked, line)
        ran = self.call("check", capture=capture, tree=tree, order=order.encode("ascii")) if plain.order is None else (line + "\n", 0)
        if ran != (line + "\n", judge.LEGAL):
            self.differs(name, "check of search", checked, ran)
        self.kinds["orders of search that are legal"] += checked == (line, judge.LEGAL)


def subjects(given):
    """What is compared."""
    if given.made:
        seed, count = given.made
        yield from made.all_made(seed, int(count), given.most)
    elif given.folders:
        for folder in given.folders:
            yield from folder_of(folder)
    else:
        yield from cases()


def main():
    parser = argparse.ArgumentParser(description=__doc__, formatter_class=argparse.RawDescriptionHelpFormatter)
    parser.add_argument("program")
    parser.add_argument("folders", nargs="*", metavar="FOLDER")
    parser.add_argument("--made", nargs=2, metavar=("SEED", "COUNT"))
    parser.add_argument("--most", type=int, default=orders.Limits().requests, metavar="N", help="tree requests that are decided")
    parser.add_argument("--places", type=int, default=20_000, metavar="N", help="places that entries lead to")
    parser.add_argument("--seconds", type=int, default=SECONDS, metavar="N", help="that a call of the program may take")
    given = parser.parse_args()
    with tempfile.TemporaryDirectory() as room:
        comparison = Comparison(given.program, orders.Limits(given.most, places=given.places), room, given.seconds)
        count = 0
        try:
            for name, *files in sorted(subjects(given), key=lambda subject: len(subject[1])):
                comparison.compare(name, *files)
                count += 1
        except KeyboardInterrupt:
            print("interrupted")
    for kind, number in sorted(comparison.kinds.items()):
        print(f"{number:6} {kind}")
    print(f"{count} compared, {comparison.differences} differences")
    return 1 if comparison.differences or comparison.kinds["gave up"] else 0


if __name__ == "__main__":
    sys.exit(main())
