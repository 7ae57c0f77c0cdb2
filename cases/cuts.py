#!/usr/bin/env python3
"""Cuts each legal case at each of its messages, and has the built program judge what is left.

usage: cases/cuts.py [PROGRAM] [--only TEXT]

PROGRAM is crates/fa_audit_program/out/fa_audit_program of this repository unless it is named. With --only, only the cases whose names, as
FOLDER/NAME or FOLDER/NAME row N, hold TEXT are cut. At each message number N, from 0 to one more than there are, `front --at N`
has to write the first N whole records, and `check` has to call legal what `cut --at N` leaves of the order, on these, from the
case's tree. Captures of more than 1 MiB are passed over. The first failures of each case are printed; the last line is 'N passed,
M failed', where each case counts once, and the status is 1 where one failed or none was cut.
"""
import argparse
import concurrent.futures
import itertools
import os
import signal
import sys
import tempfile

import messages
import run

PARTS = 8
MOST_BYTES = 1 << 20


def written(program, words, path):
    """Has the program write to this file, and end well. Starting it so takes half the time that `subprocess` takes."""
    how = os.O_WRONLY | os.O_CREAT | os.O_TRUNC | os.O_APPEND
    outputs = [(os.POSIX_SPAWN_OPEN, output, path, how, 0o600) for output in (1, 2)]
    process = os.posix_spawn(program, [program, *words], os.environ, file_actions=outputs)
    signal.alarm(run.SECONDS)
    try:
        _, status = os.waitpid(process, 0)
    except TimeoutError:
        os.kill(process, signal.SIGKILL)
        os.waitpid(process, 0)
        raise ValueError(f"{words[0]}: no end after {run.SECONDS} seconds") from None
    finally:
        signal.alarm(0)
    data = run.content(path)
    if status:
        raise ValueError(f"{words[0]}: status {os.waitstatus_to_exitcode(status)}: {data[:200]!r}")
    return data


def late(*_):
    raise TimeoutError


def judged(program, at, options, front):
    """Cuts at one message, and has what is left judged."""
    capture, order = (("--capture", options["--capture"]), ("--order", options["--order"]))
    left = {"--capture": "left.capture", "--order": "left.order"}
    first = written(program, ["front", *capture, "--at", str(at)], left["--capture"])
    if first != front:
        raise ValueError(f"front: {len(first)} bytes and not the {len(front)} of the first records")
    written(program, ["cut", *capture, *order, "--at", str(at)], left["--order"])
    return written(program, ["check", *itertools.chain(*(options | left).items())], "left.line")


def cut(program, case, part):
    """What is wrong with a case that is cut at each of its messages, a line each; of the messages every eighth, from this one on.
    None where its capture is too large."""
    found = []
    options = options_of(case)
    with tempfile.TemporaryDirectory() as room:
        folder = case.laid_out(room)
        data = run.content(os.path.join(folder, options["--capture"]))
        if len(data) > MOST_BYTES:
            return None
        ends = messages.ends(data)
        os.chdir(folder)
        for at in range(part, len(ends) + 1, PARTS):
            count = min(at, len(ends) - 1)
            try:
                line = judged(program, at, options, data[: ends[count]])
            except (OSError, ValueError) as error:
                line = str(error).encode()
            if not line.startswith(b"legal: %d messages, " % count):
                found.append(f"{case.name}: cut at {at}: {line[:300]!r}")
        os.chdir(run.HERE)
    return found


def options_of(case):
    """The capture, the order and the tree, if there is one, that a call of `check` names; nothing for another call."""
    command, *words = [os.fsdecode(word) for word in case.words] or [""]
    options = dict(zip(words[::2], words[1::2]))
    return options if command == "check" and {"--capture", "--order"} <= set(options) else {}


def main():
    parser = argparse.ArgumentParser(description=__doc__, formatter_class=argparse.RawDescriptionHelpFormatter)
    parser.add_argument("program", nargs="?", default=run.PROGRAM, help="the built program")
    parser.add_argument("--only", default="", metavar="TEXT", help="only the cases whose names hold this text")
    given = parser.parse_args()
    program = os.path.abspath(given.program)
    cases = [case for case in run.all_cases() if given.only in case.name]
    legal = [case for case in cases if case.expected()[0].startswith(b"legal: ") and options_of(case)]
    parts = [(case, part) for case in legal for part in range(PARTS)]
    failed, too_large = set(), set()
    signal.signal(signal.SIGALRM, late)
    with concurrent.futures.ProcessPoolExecutor(os.cpu_count()) as pool:
        results = pool.map(cut, itertools.repeat(program), *zip(*parts)) if parts else []
        for (case, _), found in zip(parts, results):
            if found is None:
                too_large.add(case.name)
            for line in (found or [])[:1]:
                failed.add(case.name)
                print(line)
    passed = len(legal) - len(too_large) - len(failed)
    print(f"{passed} passed, {len(failed)} failed")
    return 1 if failed or not passed else 0


if __name__ == "__main__":
    sys.exit(main())
