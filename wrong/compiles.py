#!/usr/bin/env python3
"""Compiles every wrong program, and proves nothing: one that is refused by a type, a name, a borrow or the syntax counts for nothing.

usage: wrong/compiles.py [CRATE..]

It takes the edits of crates/CRATE/must-fail and of wrong/CRATE, of every crate where none is named. Those that change different
functions are compiled together, on a copy in a temporary folder, whose sources are all that is read: no library has to stand. So all
take some eight minutes of one processor, and three are used. An edit at which an error is told is compiled once more by itself; if it does not compile, it is printed with
the first error. The last line is 'N passed, M failed', and the status is 1 where one failed or there is none.
"""
import concurrent.futures
import os
import pathlib
import re
import shutil
import subprocess
import sys
import tempfile

import edits

CRATES = edits.Crates()
ERROR = re.compile(r"(\S+?\.rt):(\d+):\d+: error.*")
# Asked for the proof of a function by this name, rattle compiles the crate, and then tells that there is none.
NO_FUNCTION = "no function"


def compiled(crate, texts):
    """The errors of a crate and of those below it with these texts, each as (crate, file, line, what was told)."""
    with tempfile.TemporaryDirectory() as room:
        for it in [crate, *CRATES.below(crate)]:
            shutil.copytree(edits.TOP / "crates" / it / "src", f"{room}/{it}/src")
        for (owner, path), text in texts.items():
            if os.path.isdir(f"{room}/{owner}"):
                pathlib.Path(room, owner, path).write_text(text)
        words = [CRATES.kit / "bin/rattle", "check", *CRATES.words(crate, room, True), "--start", NO_FUNCTION]
        ran = subprocess.run(words, cwd=f"{room}/{crate}", capture_output=True, text=True, errors="replace")
        told = []
        for line in (ran.stdout + ran.stderr).splitlines():
            at = ERROR.match(line)
            if at:
                path = os.path.relpath(os.path.join(room, crate, at[1]), room)
                owner, _, file = path.partition("/")
                told.append((owner, file, int(at[2]), f"{file}:{line.partition(':')[2]}"))
        if not told and f"has no function `{NO_FUNCTION}`" not in ran.stderr:
            raise RuntimeError(f"{crate}: {ran.stdout}{ran.stderr}")
        return told


def blamed(error, members, texts):
    """Which of these edits an error can be of: that of its function, or else each one of its file, or else each one."""
    owner, path, line, _ = error
    text = texts.get((owner, path), "")
    function = owner, path, edits.function_at(text, len("".join(text.splitlines(True)[:line])) - 1)
    same = [it for it in members if function in it.functions()]
    return same or [it for it in members if any(at[:2] == (owner, path) for at in it.functions())] or members


def suspects(members):
    """Those of a round at which an error was told, once the others compile together."""
    found, left = [], list(members)
    while left:
        texts = {}
        for it in left:
            texts = it.made(texts)
        names = {it.crate for it in left}
        tops = [it for it in names if not any(it in CRATES.below(other) for other in names)]
        told = [error for top in tops for error in compiled(top, texts)]
        if not told:
            break
        bad = {it.path: it for error in told for it in blamed(error, left, texts)}
        found += bad.values()
        left = [it for it in left if it.path not in bad]
    return found


def main():
    members = edits.all_edits(sys.argv[1:])
    failed = 0
    with concurrent.futures.ThreadPoolExecutor(3) as pool:
        found = [it for part in pool.map(suspects, edits.rounds_of(members, with_items=True)) for it in part]
        for edit, told in zip(found, pool.map(lambda it: compiled(it.crate, it.made({})), found)):
            if told:
                failed += 1
                print(f"{edit}: {told[0][3]}", flush=True)
    print(f"{len(members) - failed} passed, {failed} failed")
    return 0 if members and not failed else 1


sys.exit(main())
