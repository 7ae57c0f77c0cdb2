#!/usr/bin/env python3
"""Runs the built program on each case of these folders, and compares what it writes and how it ends.

usage: cases/run.py [PROGRAM] [--only TEXT] [--migrated | --piped | --watched]

PROGRAM is crates/fa_audit_program/out/fa_audit_program of this repository unless it is named. With --only, only the cases whose names,
as FOLDER/NAME or FOLDER/NAME row N, hold TEXT are run. README.md beside this script says what files a case has. That `messages.py check`
finds nothing wrong is one case more. Each failure is printed; the last line is 'N passed, M failed', and the status is 1 where a case
failed or none was run.

With --migrated, the cases of `check`, `propose`, `search`, `judge` and `cut` alone, each on its capture as `migrate` of the program writes it, where there
is no framing fault. With --piped, these cases, each with its capture from a pipe: a byte at a time, and then some at a time. What is
expected stays the same.

With --watched, the cases of these commands with an answer, each capture watched by `watch` as it comes from a pipe, as with --piped:
the line of its fault, where the case has one, or that it is good, with how many records it has. A fault that no byte behind it mends is
told while the pipe is still open.
"""
import argparse
import contextlib
import os
import shutil
import subprocess
import sys
import tempfile
import zlib

import messages
import rows

HERE = os.path.dirname(os.path.abspath(__file__))
TOP = os.path.dirname(HERE)
PROGRAM = os.path.join(TOP, "crates", "fa_audit_program", "out", "fa_audit_program")
SECONDS = 60
# The codes of a magic and of a record that may be cut off: what follows may complete them.
CUT_OFF = 1, 2
# How many reads a capture from a pipe takes at most: a larger one comes some bytes at a time.
READS = 50_000


def source_of(path):
    """The file that has the bytes for this path: the file itself, its text, or its packed form."""
    root, kind = os.path.splitext(path)
    for source in (path, f"{path}.bz2", *([f"{root}.messages"] if kind == ".cap" else [])):
        if os.path.isfile(source):
            return source
    return None


def content(source):
    """The bytes that a file stands for."""
    data = messages.bytes_of(source)
    return messages.read(data.decode("ascii")) if source.endswith(".messages") else data


def path_in(word):
    """The path in a word of a call, if it is one: the word, or what stands behind the equals sign of an option."""
    return os.fsdecode(word.partition(b"=")[2] if word.startswith(b"--") else word)


class Case:
    """A case by its name, FOLDER/NAME. `words` are those of its call, in its folder; `sources` are the files that have the bytes
    of the paths in them, by path. `shown` are lines that a failure shows."""

    shown = ()

    def __init__(self, name):
        self.name = name
        self.folder, self.base = os.path.split(os.path.join(HERE, name))
        self.words = self.own_words()
        paths = {path_in(word) for word in self.words}
        sources = {path: source_of(os.path.join(self.folder, path)) for path in paths if path}
        self.sources = {path: source for path, source in sources.items() if source}

    def own(self, kind):
        """The bytes of the case's own file of this kind, if there is one."""
        path = os.path.join(self.folder, f"{self.base}.{kind}")
        return messages.bytes_of(path) if os.path.isfile(path) else None

    def shared(self, kind):
        """The file of this kind that the case has: its own, or that of the name without its last part, and so on."""
        name = self.base
        while name and not source_of(os.path.join(self.folder, f"{name}.{kind}")):
            name = name.rpartition(".")[0]
        return f"{name}.{kind}" if name else None

    def is_explained(self):
        """Whether the case calls `explain`, as its name or its folder says."""
        return self.base.endswith(".explained") or os.path.basename(self.folder) == "explains"

    def own_words(self):
        args = self.own("args")
        if args is not None:
            return args.splitlines()
        words = [b"explain" if self.is_explained() else b"check"]
        for option, kind in (("--capture", "cap"), ("--order", "order"), ("--tree", "tree")):
            file = self.shared(kind)
            if file:
                words += [option.encode(), file.encode()]
        return words

    def expected(self):
        """What has to be written, and the status."""
        written, _, status = self.own("expect").rpartition(b"status ")
        return written, int(status)

    def files(self):
        """The files that belong to the case."""
        own = (os.path.join(self.folder, f"{self.base}.{kind}") for kind in ("expect", "args", "stderr", "output", "kept"))
        return {*own, *(os.path.normpath(source) for source in self.sources.values())}

    def laid_out(self, room):
        """Writes the bytes of the case's files into this folder, as far apart as they lie in the repository. The answer is the
        folder to call the program in."""
        folder = os.path.join(room, os.path.relpath(self.folder, TOP))
        os.makedirs(folder)
        for path, source in self.sources.items():
            target = os.path.normpath(os.path.join(folder, path))
            os.makedirs(os.path.dirname(target), exist_ok=True)
            with open(target, "wb") as opened:
                opened.write(content(source))
        return folder


class RowCase:
    """A row as a case, FOLDER/NAME row N."""

    def __init__(self, path, number, row):
        self.name = f"{os.path.relpath(path, HERE).removesuffix('.rows')} row {number}"
        self.path, self.row, self.shown = path, row, row.own
        capture, order = ["--capture", "cap"], ["--order", "order"]
        tree = ["--tree", "tree"] if row.tree() else []
        judge = ["judge", *capture, *tree]
        calls = {"good": ["cut", *capture, *order, "--at", "0"], "proposed": ["propose", *capture, *tree], "judged legal": judge,
                 "no order": judge, "gave up": [*judge, "--steps", "0"]}
        explain = ["explain", *capture, *(order if row.has_order() else []), *tree]
        self.words = explain if row.is_explained else calls.get(row.word(), ["check", *capture, *order, *tree])

    def own(self, _):
        """No file is of the row alone."""

    def expected(self):
        """What has to be written, and the status."""
        return self.row.printed().encode("ascii"), self.row.status()

    def files(self):
        """The file that the row stands in."""
        return {self.path}

    def laid_out(self, room):
        """Writes the bytes of the row's files into this folder, which is the answer."""
        capture, order, tree = messages.read(self.row.messages()), self.row.order(), self.row.tree() or ""
        for name, data in (("cap", capture), ("order", order.encode("ascii")), ("tree", tree.encode("ascii"))):
            with open(os.path.join(room, name), "wb") as opened:
                opened.write(data)
        return room


def files_of(kind):
    """The names of the files of this kind, as FOLDER/NAME."""
    for folder, _, files in sorted(os.walk(HERE)):
        for file in sorted(files):
            if file.endswith(kind):
                yield os.path.relpath(os.path.join(folder, file), HERE).removesuffix(kind)


def all_cases():
    """All cases, and then all rows as cases."""
    yield from (Case(name) for name in files_of(".expect"))
    for name in files_of(".rows"):
        path = os.path.join(HERE, f"{name}.rows")
        for number, row in enumerate(rows.read(messages.bytes_of(path).decode("ascii")), 1):
            yield RowCase(path, number, row)


class Call:
    """A call of the program: its words, what it reads on standard input, and variables of its environment."""

    def __init__(self, words):
        self.words = [os.fsdecode(word) for word in words]
        self.input = b""
        self.variables = {}
        self.expected = None
        self.held_open = False

    def kept(self, folder):
        """What is in the file for the order that is found, if the call names one and it is there."""
        if "--order-out" not in self.words[:-1]:
            return None
        path = os.path.join(folder, self.words[self.words.index("--order-out") + 1])
        return messages.bytes_of(path) if os.path.isfile(path) else None

    def capture(self, folder):
        """The path of the capture that it judges, if there is one in this folder."""
        if self.words[:1] not in (["check"], ["propose"], ["cut"], ["judge"], ["search"]) or "--capture" not in self.words[:-1]:
            return None
        path = os.path.join(folder, self.words[self.words.index("--capture") + 1])
        return path if os.path.isfile(path) else None

    def run(self, program, folder, output=None):
        """Runs the program in this folder. What it writes goes to the file `output`, where one is named."""
        if self.held_open:
            return self.run_before_the_end(program, folder)
        with open(output, "wb") if output else contextlib.nullcontext(subprocess.PIPE) as written:
            return subprocess.run([program, *self.words], input=self.input, stdout=written, stderr=subprocess.PIPE, cwd=folder,
                                  env={**os.environ, **self.variables}, timeout=SECONDS)


    def run_before_the_end(self, program, folder):
        """The same, where its standard input comes to no end."""
        with subprocess.Popen([program, *self.words], stdin=subprocess.PIPE, stdout=subprocess.PIPE, stderr=subprocess.PIPE, cwd=folder,
                              env={**os.environ, **self.variables}) as ran:
            try:
                with contextlib.suppress(BrokenPipeError):
                    ran.stdin.write(self.input)
                    ran.stdin.flush()
                status = ran.wait(SECONDS)
                return subprocess.CompletedProcess(ran.args, status, ran.stdout.read(), ran.stderr.read())
            finally:
                ran.kill()
                with contextlib.suppress(BrokenPipeError):
                    ran.stdin.close()


def as_it_stands(program, call, folder):
    """The call of the case."""
    return call


def migrated(program, call, folder):
    """The call on what `migrate` writes of its capture. None where there is no such capture."""
    path = call.capture(folder)
    ran = path and Call(["migrate", "--capture", path]).run(program, folder)
    if not ran or ran.returncode != 0:
        return None
    with open(path, "wb") as opened:
        opened.write(ran.stdout)
    return call


def piped(shim, seed):
    """How a call has its capture from a pipe: a byte at a time, or where there is a seed some that it gives. None where it judges none."""

    def change(program, call, folder):
        path = call.capture(folder)
        if not path:
            return None
        with open(path, "rb") as opened:
            call.input = opened.read()
        call.words[call.words.index("--capture") + 1] = "-"
        if shim:
            unit = max(1, len(call.input) // READS)
            call.variables = {"LD_PRELOAD": shim, "SHORT_READS": str(unit), "SHORT_READS_SEED": str(seed)}
        return call

    return change


def records(capture):
    """How many records a capture has that has no framing fault."""
    header = 5 if capture.startswith(b"FUSECAP1") else 13
    place, count = 8, 0
    while place < len(capture):
        place += header + int.from_bytes(capture[place + header - 4:place + header], "little")
        count += 1
    return count


def watched(shim, seed, case):
    """How the capture of a call is watched, from a pipe as `piped` says. None where the case has no answer on a capture."""

    def change(program, call, folder):
        expected, status = case.expected()
        if not piped(shim, seed)(program, call, folder) or status in (4, 5):
            return None
        call.words = ["watch", "--capture", "-"]
        good = b"good: %d messages\n" % records(call.input), 0
        call.expected = (expected, status) if expected.startswith(b"fault: ") else good
        call.held_open = status == 1 and int(expected.split(b"code ")[1].split(b":")[0]) not in CUT_OFF
        return call

    return change


def differences(program, case, change):
    """What is not as the case expects it, a line each, where its call is changed so. None where it can't be."""
    output, error = case.own("output"), case.own("stderr")
    try:
        expected, status = case.expected()
        with tempfile.TemporaryDirectory() as room:
            folder = case.laid_out(room)
            call = change(program, Call(case.words), folder)
            if call is None:
                return None
            expected, status = call.expected or (expected, status)
            ran = call.run(program, folder, output and output.strip())
            kept = call.kept(folder)
    except (OSError, ValueError, subprocess.TimeoutExpired) as failure:
        return [str(failure), *case.shown]
    found = []
    written = ran.stdout or b""
    if written != expected:
        found.append(f"standard output: expected {expected!r}, found {written[:400]!r}")
    if ran.returncode != status:
        found.append(f"status: expected {status}, found {ran.returncode}")
    if "--order-out" in call.words and kept != case.own("kept"):
        found.append(f"order that is kept: expected {case.own('kept')!r}, found {kept!r}")
    if error is not None and ran.stderr != error:
        found.append(f"standard error: expected {error!r}, found {ran.stderr[:400]!r}")
    return [*found, *case.shown] if found else []


def changes(given, case, room):
    """How the call of a case is changed, once and again."""
    if given.migrated:
        return [migrated]
    if given.piped:
        shim = short_reads(room)
        return [piped(shim, 0), piped(shim, zlib.crc32(case.name.encode()))]
    if given.watched:
        shim = short_reads(room)
        return [watched(shim, 0, case), watched(shim, zlib.crc32(case.name.encode()), case)]
    return [as_it_stands]


def short_reads(room):
    """The library that has a program read little at a time. None without a C compiler."""
    compiler, shim = os.environ.get("CC", "cc"), os.path.join(room, "short_reads.so")
    if not shutil.which(compiler):
        return None
    if not os.path.exists(shim):
        source = os.path.join(HERE, "short_reads.c")
        subprocess.run([compiler, "-O2", "-fPIC", "-shared", "-o", shim, source, "-ldl"], check=True)
    return shim


def without_a_case(cases):
    """The files that no case has."""
    used = set().union(*(case.files() for case in cases))
    for folder, folders, files in os.walk(HERE):
        folders[:] = [name for name in folders if name != "__pycache__"]
        for file in files:
            path = os.path.join(folder, file)
            if path not in used and file != "README.md" and not file.endswith((".py", ".c")):
                yield os.path.relpath(path, HERE)


def main():
    parser = argparse.ArgumentParser(description=__doc__, formatter_class=argparse.RawDescriptionHelpFormatter)
    parser.add_argument("program", nargs="?", default=PROGRAM, help="the built program")
    parser.add_argument("--only", default="", metavar="TEXT", help="only the cases whose names hold this text")
    changed = parser.add_mutually_exclusive_group()
    changed.add_argument("--migrated", action="store_true", help="each capture as `migrate` writes it")
    changed.add_argument("--piped", action="store_true", help="each capture from a pipe, a byte at a time, and then some")
    changed.add_argument("--watched", action="store_true", help="each capture watched, as it comes from a pipe")
    given = parser.parse_args()
    program = os.path.abspath(given.program)
    cases = list(all_cases())
    tried = [case for case in cases if given.only in case.name]
    with tempfile.TemporaryDirectory() as room:
        results = [(case.name, differences(program, case, change)) for case in tried for change in changes(given, case, room)]
    results = [(name, found) for name, found in results if found is not None]
    if not given.migrated and not given.piped and not given.watched:
        if given.only in "messages.py check":
            results.append(("messages.py check", messages.check()))
        results += [(file, ["no case has this file"]) for file in sorted(without_a_case(cases))]
    for name, found in results:
        for line in found:
            print(f"{name}: {line}")
    failed = sum(1 for _, found in results if found)
    print(f"{len(results) - failed} passed, {failed} failed")
    return 1 if failed or failed == len(results) or not cases else 0


if __name__ == "__main__":
    sys.exit(main())
