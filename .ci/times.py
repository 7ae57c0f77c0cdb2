#!/usr/bin/env python3
"""Runs the gate, and tells by crate where its time goes and what it waits for.

usage: .ci/times.py [--table FILE] [WORD ..]
       .ci/times.py [--table FILE] --command COMMAND [WORD ..]

Runs `rt ci` with these words, or COMMAND with those behind it. Its output and its status stay as they are. While it runs, this looks
twice a second in /proc at all that it starts: the processor time of a check is what it had when it was last seen, with that of what it
started. The tables go to standard error, or to FILE. A crate that was kept from an earlier run has no line in them.

The first table is in minutes of one processor. `proof` and `tests` are a crate and its tests, proved from nothing; `seed` is the proof that
the must-fail edits of a crate with two or more begin with, `edits` are the edits, and `sound` the check behind them that the seed was left as it
was; `rest` is what compiles and links, what looks at the form of the files, and the runs. The second has when each of these began and
ended, in minutes and seconds, with how many jobs, in the order of their ends. The last has the chain that the end waited for:
what ended last, what that one waited for and ended last, and so on; `idle` is how long each was ready and had no processor or memory.
"""
import argparse
import os
import re
import resource
import signal
import subprocess
import sys
import time

SECONDS = 0.5
TICKS = os.sysconf("SC_CLK_TCK")
KINDS = ("proof", "tests", "seed", "edits", "sound", "rest")


def read(pid, name):
    """The bytes of a process's file in /proc, or none if it ended or is not to be read."""
    try:
        with open(f"/proc/{pid}/{name}", "rb") as file:
            return file.read()
    except OSError:
        return b""


def folder_of(pid):
    """The folder that a process runs in."""
    try:
        return os.readlink(f"/proc/{pid}/cwd")
    except OSError:
        return ""


def processes():
    """Each process's parent, when it started, and the ticks that it and what it waited for took, by its id."""
    found = {}
    for pid in filter(str.isdigit, os.listdir("/proc")):
        fields = read(pid, "stat").rpartition(b")")[2].split()
        if fields:
            found[int(pid)] = int(fields[1]), int(fields[19]), sum(map(int, fields[11:15]))
    return found


def after(words, flag):
    """The word behind this one, or none."""
    return words[words.index(flag) + 1] if flag in words[:-1] else ""


def task_of(words, folder):
    """The crate that a command is for and what it does there, or none if it is no command of a crate."""
    crate = after(words, "--crate-name")
    if crate and os.path.basename(folder).startswith("rt-edit-"):
        return crate, "seed" if os.path.basename(after(words, "--incremental")) == "seed" else "edits"
    if crate and "--crate-checked" not in words:
        return crate, "tests" if "--test" in words else "proof"
    places = [re.search(r"/(?:crates|rt-run-[^/]*/bin)/(\w+?)(?:_tests)?(?:/|$)", it) for it in (folder, *words[:40])]
    named = crate or next((it[1] for it in places if it), "")
    return (named, "rest") if named else None


class Task:
    """What one command does of a crate: when it was seen first and last, and the ticks that it took by then."""

    def __init__(self, crate, kind, words, now):
        self.crate, self.kind, self.begin = crate, kind, now
        self.jobs = after(words, "--jobs") or "1"
        self.end, self.ticks = now, 0

    def name(self):
        return f"{self.crate} {self.kind}"


class Watch:
    """The commands of a run that were seen, by their processes."""

    def __init__(self, root):
        self.root, self.start, self.tasks = root, time.monotonic(), {}

    def look(self):
        """Looks once at all that the run has started and that has not ended."""
        now, found, below = time.monotonic() - self.start, processes(), {}
        for pid, (parent, _, _) in found.items():
            below.setdefault(parent, []).append(pid)
        left = [self.root]
        while left:
            pid = left.pop()
            task = self.task(pid, found[pid][1], now) if pid in found and pid != self.root else None
            if task:
                task.end, task.ticks = now, max(task.ticks, self.ticks(pid, found, below))
            else:
                left += below.get(pid, [])

    def task(self, pid, started, now):
        """The task of a process, if it is one."""
        if (pid, started) not in self.tasks:
            words = os.fsdecode(read(pid, "cmdline")).split("\0")
            told = task_of(words, folder_of(pid))
            if not told:
                return None
            crate, kind = told
            if kind == "seed" and any((it.crate, it.kind) == (crate, "edits") for it in self.tasks.values()):
                kind = "sound"
            self.tasks[pid, started] = Task(crate, kind, words, now)
        return self.tasks[pid, started]

    @staticmethod
    def ticks(pid, found, below):
        """The ticks of a process and of all that it started."""
        total, left = 0, [pid]
        while left:
            at = left.pop()
            total += found[at][2]
            left += below.get(at, [])
        return total


def libraries():
    """The crates that each stands on, by crates.txt, lowest first."""
    top = os.path.dirname(os.path.dirname(os.path.abspath(__file__)))
    found = {}
    with open(os.path.join(top, "crates.txt"), encoding="utf-8") as file:
        for line in file:
            name, colon, below = line.partition(":")
            if colon and not line.startswith("#"):
                found[name.split()[0]] = [it for it in below.split() if it in found]
    return found


def minutes(ticks):
    return f"{ticks / TICKS / 60:.1f}" if ticks else ""


def clock(seconds):
    return f"{int(seconds) // 60}:{int(seconds) % 60:02}"


def costs(tasks, order, elapsed, whole):
    """The lines of the first table."""
    spent = {}
    for task in tasks:
        key = task.crate, task.kind
        spent[key] = spent.get(key, 0) + task.ticks
    crates = sorted({crate for crate, _ in spent}, key=lambda it: order.index(it) if it in order else len(order))
    rows = [["crate", *KINDS, "sum"]]
    for crate in crates:
        row = [spent.get((crate, kind), 0) for kind in KINDS]
        rows.append([crate, *map(minutes, row), minutes(sum(row))])
    sums = [sum(spent.get((crate, kind), 0) for crate in crates) for kind in KINDS]
    rows.append(["sum", *map(minutes, sums), minutes(sum(sums))])
    yield "minutes of one processor"
    for row in rows:
        yield f"{row[0]:20}" + "".join(f"{it:>8}" for it in row[1:])
    yield f"all that the run started: {whole / 60:.1f} minutes of one processor, {elapsed / 60:.1f} elapsed"


def awaited(task, tasks, below):
    """The tasks that have to end before this one begins."""
    if task.kind in ("proof", "tests", "seed"):
        return [it for it in tasks if it.kind == "proof" and it.crate in below.get(task.crate, [])]
    kinds = {"edits": ("proof", "tests", "seed"), "sound": ("edits",), "rest": ("proof", "tests")}[task.kind]
    return [it for it in tasks if it.crate == task.crate and it.kind in kinds and it.end <= task.begin]


def chain(tasks, below):
    """The tasks that the run's end waited for, from the last one back, each with how long it stood ready before it began."""
    task = max(tasks, key=lambda it: it.end)
    while task:
        last = max(awaited(task, tasks, below), key=lambda it: it.end, default=None)
        yield task, task.begin - (last.end if last else 0)
        task = last


def ends(tasks, below):
    """The lines of the other two tables."""
    proved = [it for it in tasks if it.kind != "rest"]
    yield ""
    yield f"{'begun and ended':34}{'begin':>8}{'end':>8}{'jobs':>6}{'minutes':>9}"
    for task in sorted(proved, key=lambda it: it.end):
        yield f"{task.name():34}{clock(task.begin):>8}{clock(task.end):>8}{task.jobs:>6}{minutes(task.ticks):>9}"
    yield ""
    yield f"{'what the end waited for':34}{'begin':>8}{'end':>8}{'idle':>8}"
    for task, idle in reversed([*chain(proved, below)] if proved else []):
        yield f"{task.name():34}{clock(task.begin):>8}{clock(task.end):>8}{clock(max(idle, 0)):>8}"


def watched(command):
    """Runs a command, and gives its status and what was seen of it."""
    run = subprocess.Popen(command)
    watch = Watch(run.pid)
    # a break is for the command, which ends by itself
    signal.signal(signal.SIGINT, signal.SIG_IGN)
    while True:
        watch.look()
        try:
            return run.wait(timeout=SECONDS), watch
        except subprocess.TimeoutExpired:
            pass


def main():
    parser = argparse.ArgumentParser(usage=".ci/times.py [--table FILE] [--command COMMAND] [WORD ..]")
    parser.add_argument("--table", metavar="FILE", help="where the tables go; standard error if it is not given")
    parser.add_argument("--command", metavar="COMMAND", help="what to run in the place of rt ci")
    given, words = parser.parse_known_args()
    status, watch = watched([given.command, *words] if given.command else ["rt", "ci", *words])
    elapsed, used = time.monotonic() - watch.start, resource.getrusage(resource.RUSAGE_CHILDREN)
    tasks, below = [*watch.tasks.values()], libraries()
    lines = [*costs(tasks, [*below], elapsed, used.ru_utime + used.ru_stime), *ends(tasks, below)]
    with open(given.table, "w", encoding="utf-8") if given.table else sys.stderr as to:
        print("\n".join(lines), file=to)
    return status if status >= 0 else 128 - status


if __name__ == "__main__":
    sys.exit(main())
