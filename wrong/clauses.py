#!/usr/bin/env python3
"""Tells for each wrong program which goals refuse it: the clauses of the function that it changes, or what else is not proved.

usage: wrong/clauses.py CRATE[/NAME]..

It takes the edits of crates/CRATE/must-fail and of wrong/CRATE, or the one of this name. `rt check` has to have proved the crate: what it kept is taken along.
Those that change different functions are tried together, on a copy in a temporary folder; one of which nothing is told there is
tried once more by itself. For each edit it prints the function and its goals, whose names end in the clause (`clause-NAME`), and
what is told of an answer written by hand. The last line is 'N passed, M failed': an edit fails that is not refused, or refused by no
goal or answer but for the name of a step that is gone.
"""
import os
import pathlib
import re
import shutil
import subprocess
import sys
import tempfile

import edits

CRATES = edits.Crates()
GOAL = re.compile(r"note: (src/\S+\.rt):(\d+):\d+: (.*)")
ANSWER = re.compile(r"\./proofs/(\S+)/(?:Answers|Invariants|Proof)\.antt:\d+:\d+: error: (.*)")
NAMES = re.compile(r"has no field|is not in scope|has no `|was not admitted")


def linked(one, other):
    """Takes what was proved along by a link, where one can be made."""
    try:
        if one.endswith(".oantt"):
            return os.link(one, other)
    except OSError:
        pass
    return shutil.copy2(one, other)


def check(crate, texts):
    """What rattle says of the crate with these texts."""
    folder = edits.TOP / "crates" / crate
    with tempfile.TemporaryDirectory(dir=folder / "out") as room:
        for part in ("src", "specs", "proofs"):
            if (folder / part).is_dir():
                shutil.copytree(folder / part, f"{room}/{part}")
        shutil.copytree(folder / "out/incremental", f"{room}/kept", symlinks=True, copy_function=linked)
        for (_, path), text in texts.items():
            pathlib.Path(room, path).write_text(text)
        words = [CRATES.kit / "bin/rattle", "check", *CRATES.words(crate, None, False), "--incremental", f"{room}/kept"]
        ran = subprocess.run(words, cwd=room, stdout=subprocess.PIPE, stderr=subprocess.STDOUT, text=True, errors="replace")
    return ran.returncode, ran.stdout.splitlines()


def function_of(text, number):
    """Which function this line of a text is of. What is told of a whole function stands at its comment."""
    lines = text.splitlines(True)
    while lines[number - 1 :] and lines[number - 1].lstrip().startswith(("//", "#[")):
        number += 1
    return edits.function_at(text, len("".join(lines[:number])) - 1)


def told(members):
    """What is told of the functions that each of these edits changes, and of others."""
    texts = {}
    for it in members:
        texts = it.made(texts)
    status, lines = check(members[0].crate, texts)
    found, elsewhere = {it.path: [] for it in members}, []
    for line in lines:
        goal, answer = GOAL.match(line), ANSWER.match(line)
        if goal:
            key, said = (members[0].crate, goal[1], function_of(texts.get((members[0].crate, goal[1]), ""), int(goal[2]))), goal[3]
            owners = [it for it in members if key in it.functions()]
        elif answer:
            folders, said = answer[1].split("/"), answer[2]
            owners = [it for it in members if any(edits.named(it, key)[1] == folders[-1] for key in it.functions())]
            same = [it for it in owners if any(edits.named(it, key)[0] == folders[0] for key in it.functions())]
            owners = same or owners
        else:
            continue
        for it in owners:
            found[it.path].append(said)
        if not owners:
            elsewhere.append(line)
    return status, found, elsewhere, lines


def main():
    failed = count = 0
    for word in sys.argv[1:]:
        crate, _, name = word.partition("/")
        wanted = [it for it in edits.all_edits([crate]) if name in ("", it.name)]
        if not wanted:
            sys.exit(f"there is no wrong body {word}")
        for members in edits.rounds_of(wanted):
            count += len(members)
            status, found, elsewhere, lines = told(members)
            for it in members:
                said = found[it.path]
                if not said and len(members) > 1:
                    status, alone, elsewhere, lines = told([it])
                    said = alone[it.path] or elsewhere
                elif not said:
                    said = elsewhere
                good = [text for text in said if not NAMES.search(text)]
                failed += not good
                print(f"{it}: {'; '.join(f'{m}::{f}' for m, f in sorted(edits.named(it, key) for key in it.functions()))}", flush=True)
                for text in said or lines[-3:]:
                    print(f"    {text[:300]}", flush=True)
    print(f"{count - failed} passed, {failed} failed")
    return 0 if count and not failed else 1


sys.exit(main())
