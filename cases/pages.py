#!/usr/bin/env python3
"""Has the built program report on the capture of each case, and draw it, and holds both beside what it prints elsewhere.

usage: cases/pages.py [PROGRAM] [--only TEXT]

PROGRAM is crates/fa_audit_program/out/fa_audit_program of this repository unless it is named. With --only, only the cases whose names, as
FOLDER/NAME or FOLDER/NAME row N, hold TEXT are looked at: those of `check`, `judge` and `explain` with a capture of at most 64 KiB. By the
order of the case, if it has one, and then by a search of all orders:

- the page of `report` is HTML in which each element ends where it has to, with no element that the page itself does not have; its heading
  is the line of the verdict, in the colour that fits, its reasons are the lines of `explain` or `judge --explain`, its links lead to
  messages of its table, and its status is that of the verdict;
- each message of its table before the first that is at fault is told as `show` tells it, but for a request whose answer is that one, with
  the place that the order gives it;
- the picture of `picture` is XML, its name is the line of the verdict, and its bars have the titles of those in the page; read from left to
  right its marks are the order. Its status is 0;
- where a text is not in its format, both are what `explain` or `judge --explain` prints.

The last line is 'N passed, M failed', where each case counts once, and the status is 1 where one failed or none was looked at.
"""
import argparse
import html.parser
import os
import re
import subprocess
import sys
import tempfile
import xml.etree.ElementTree

import run

MOST_BYTES = 1 << 16
CLASSES = {0: "legal", 1: "fault", 6: "fault", 7: "open"}
# The elements of a page; those of a picture are looked at apart. The last ones have no end.
ELEMENTS = {"html", "head", "title", "style", "body", "main", "h1", "p", "dl", "dt", "dd", "code", "a", "h2", "div", "span", "table", "thead",
            "tbody", "tr", "th", "td", "script", "svg", "rect", "text", "line", "g", "path"}
EMPTY = {"meta", "input"}
SVG = "{http://www.w3.org/2000/svg}"


class Page(html.parser.HTMLParser):
    """What a page has: `verdict` and its `look`, `source`, `reasons` as pairs, `rows` by their numbers, `links`, `titles` of bars, and `wrong`,
    what is no page."""

    def __init__(self, data):
        super().__init__(convert_charrefs=True)
        self.open, self.wrong = [], []
        self.verdict = self.look = self.source = self.label = ""
        self.reasons, self.rows, self.links, self.titles = [], {}, [], []
        self.row = None
        self.feed(data)
        self.close()
        if self.open:
            self.wrong.append(f"elements without an end: {self.open}")

    def handle_starttag(self, tag, attributes):
        named = dict(attributes)
        if tag in EMPTY:
            return
        if tag not in ELEMENTS:
            self.wrong.append(f"an element <{tag}>")
        self.open.append(tag)
        if tag == "h1":
            self.look = named.get("class")
        elif tag == "dt":
            self.reasons.append(["", ""])
        elif tag == "a":
            self.links.append(int(named["href"].removeprefix("#m")))
        elif tag == "tr" and "data-n" in named:
            self.row = self.rows[int(named["data-n"])] = []
        elif tag == "td" and self.row is not None:
            self.row.append("")
        elif tag == "title" and "svg" in self.open:
            self.titles.append("")

    def handle_startendtag(self, tag, attributes):
        if tag not in ELEMENTS | EMPTY:
            self.wrong.append(f"an element <{tag}/>")

    def handle_endtag(self, tag):
        if not self.open or self.open[-1] != tag:
            self.wrong.append(f"</{tag}> in {self.open}")
        else:
            self.open.pop()
        if tag == "tr":
            self.row = None

    def handle_data(self, data):
        within = set(self.open)
        if "svg" in within:
            if self.open[-1] == "title":
                self.titles[-1] += data
        elif "h1" in within:
            self.verdict += data
        elif "dt" in within:
            self.reasons[-1][0] += data
        elif "dd" in within:
            self.reasons[-1][1] += f"`{data}`" if "code" in within else data
        elif self.row is not None and "td" in within:
            self.row[-1] += data
        elif self.open[-1:] == ["p"]:
            self.source += data


def called(program, *words):
    """What the program prints, and its status."""
    ran = subprocess.run([program, *words], capture_output=True, timeout=run.SECONDS)
    return ran.stdout.decode("ascii"), ran.returncode


def reason_lines(lines):
    """Lines of reasons as pairs of a label and a text."""
    return [[line[:9].rstrip(), line[9:]] for line in lines]


def look_of(status, reasons):
    """The class of a verdict."""
    if status != 2:
        return CLASSES[status]
    told = (text for label, text in reasons if label == "order")
    return "fault" if any("no order explains " in text or ", but none the one to " in text for text in told) else "open"


def marks_of(root):
    """The numbers of the marks of a picture, as they are read: band by band, and from left to right."""
    bands = sorted({float(line.get("y1")) for line in root.iter(f"{SVG}line") if line.get("class") == "rule"})
    marks = []
    for mark in (text for bar in root.iter(f"{SVG}g") for text in bar.iter(f"{SVG}text")):
        if mark.get("class") == "marked":
            place = float(mark.get("y"))
            band = max((top for top in bands if top <= place), default=0)
            marks.append((band, float(mark.get("x")), int(mark.text)))
    return [number for _, _, number in sorted(marks)]


def shown_rows(page, shown, fault):
    """What is wrong with the rows of a page beside the lines of `show`, before the message at fault."""
    for number, (message, unique, words, _) in page.rows.items():
        way, line = message.split()[1], shown.get(number)
        if line is None or number >= fault:
            continue
        told = f"{way} unique {unique} {words}" if unique else f"{way} {words}"
        if told not in (line, line.removesuffix(", never answered")):
            yield f"row {number}: {told!r}, and show: {line!r}"


def placed_rows(page, order, fault_entry):
    """What is wrong with the places in the rows of a page."""
    entries = [int(line.split()[0]) for line in order.splitlines()[1:-1]]
    places = {at: place for place, at in enumerate(entries[:fault_entry])}
    for number, row in page.rows.items():
        due = str(places.get(number, ""))
        if row[3] != due:
            yield f"row {number}: entry {row[3]!r}, due {due!r}"


def of_page(program, told, status, report, shown):
    """What is wrong with a page, beside the lines that are told elsewhere. The answer is a list, with the page before it."""
    text, ended = report
    if status == 3:
        return None, [] if report == (told, status) else [f"the page of a text that is none: {text[:200]!r}"]
    page = Page(text)
    wrong = list(page.wrong)
    line, *rest = told.splitlines()
    if rest and rest[0].startswith("the first "):
        rest[0] = f"shortest {rest[0]}"
    due = reason_lines(rest)
    if (page.verdict, ended) != (line, status):
        wrong.append(f"heading {page.verdict!r}, status {ended}, due {line!r}, {status}")
    if page.reasons != due:
        wrong.append(f"reasons {page.reasons}, due {due}")
    if page.look != look_of(status, due):
        wrong.append(f"class {page.look}")
    wrong += [f"a link to {number}, which is not in the table" for number in page.links if number not in page.rows]
    fault = re.match(r"fault: message (\d+)", line)
    wrong += shown_rows(page, shown, int(fault[1]) if fault else 1 << 32)
    return page, wrong


def of_picture(line, picture, page):
    """What is wrong with a picture beside a page of the same requests."""
    text, ended = picture
    if ended:
        return [f"the picture ends with {ended}"]
    root = xml.etree.ElementTree.fromstring(text)
    wrong = []
    if line and root.get("aria-label") != line:
        wrong.append(f"the picture is called {root.get('aria-label')!r}")
    titles = [title.text for title in root.iter(f"{SVG}title")]
    if page and titles != page.titles:
        wrong.append(f"titles {titles}, in the page {page.titles}")
    marks = marks_of(root)
    if marks != sorted(marks):
        wrong.append(f"marks from left to right: {marks}")
    return wrong


def by_order(program, files, shown):
    """What is wrong with page and picture by an order."""
    told, status = called(program, "explain", *files)
    page, wrong = of_page(program, told, status, called(program, "report", *files), shown)
    picture = called(program, "picture", *files)
    if status == 3:
        return wrong + ([] if picture == (told, status) else ["the picture of a text that is none"])
    line = told.splitlines()[0]
    wrong += of_picture(line, picture, page)
    entry = re.match(r"not shown: entry (\d+)", line)
    if not line.startswith("fault"):
        with open(files[files.index("--order") + 1], encoding="ascii") as order:
            wrong += placed_rows(page, order.read(), int(entry[1]) if entry else None)
    return wrong


def by_search(program, files, shown):
    """What is wrong with page and picture by a search."""
    told, status = called(program, "judge", "--explain", *files)
    page, wrong = of_page(program, told, status, called(program, "report", *files), shown)
    if status != 3:
        line = told.splitlines()[0]
        picture = called(program, "picture", *files[:2])
        wrong += of_picture(line if line.startswith("fault") else "", picture, None)
    return wrong


def wrong_of(program, case):
    """What is wrong with pages and pictures of a case; None where it has none."""
    words = [os.fsdecode(word) for word in case.words]
    if words[:1] not in (["check"], ["judge"], ["explain"]):
        return None
    with tempfile.TemporaryDirectory() as room:
        folder = case.laid_out(room)
        files = {}
        for option in ("--capture", "--tree", "--order"):
            if option in words[:-1]:
                files[option] = os.path.join(folder, words[words.index(option) + 1])
        if "--capture" not in files or not all(map(os.path.isfile, files.values())) or os.path.getsize(files["--capture"]) > MOST_BYTES:
            return None
        lines, _ = called(program, "show", "--capture", files["--capture"])
        shown = {}
        for line in lines.splitlines():
            number, _, rest = line.partition(" ")
            if number.isdigit():
                shown[int(number)] = rest
        wrong = []
        if "--order" in files:
            wrong += by_order(program, [word for pair in files.items() for word in pair], shown)
        files.pop("--order", None)
        return wrong + by_search(program, [word for pair in files.items() for word in pair], shown)


def main():
    parser = argparse.ArgumentParser(description=__doc__, formatter_class=argparse.RawDescriptionHelpFormatter)
    parser.add_argument("program", nargs="?", default=run.PROGRAM, help="the built program")
    parser.add_argument("--only", default="", metavar="TEXT", help="only the cases whose names hold this text")
    given = parser.parse_args()
    program = os.path.abspath(given.program)
    passed = failed = 0
    for case in run.all_cases():
        if given.only not in case.name:
            continue
        try:
            wrong = wrong_of(program, case)
        except (OSError, ValueError, KeyError, subprocess.TimeoutExpired, xml.etree.ElementTree.ParseError) as error:
            wrong = [f"{type(error).__name__}: {error}"]
        if wrong is None:
            continue
        passed, failed = passed + (not wrong), failed + bool(wrong)
        for line in wrong[:3]:
            print(f"{case.name}: {line}")
    print(f"{passed} passed, {failed} failed")
    return 1 if failed or not passed else 0


if __name__ == "__main__":
    sys.exit(main())
