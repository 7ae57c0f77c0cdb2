#!/usr/bin/env python3
"""Tells each table that is hashed with a fixed seed where none is meant, and fails if there is one.

A table whose keys come from a capture is hashed with the seed of its caller: no clause says so, since no answer depends on it. `IndexMap::new`
and its like take the toolchain's seed, and `Seed::default` is the same in each run. Each stands only in the files that are named here; crates
of tests and benchmarks may have both.
"""
import pathlib
import re
import sys

TOP = pathlib.Path(__file__).resolve().parent.parent
# Tables with few keys: the errors, and the operations, of the summary of `show`. And the calls on bytes, which are given no seed.
MEANT = {
    r"\bIndex(Map|Set)::(new|with_capacity)\(": {"fa_show/src/tally.rt", "fa_show/src/counting.rt"},
    r"\bSeed::default\(\)": {"fa_capture/src/reading.rt", "fa_audit/src/judge.rt", "fa_audit/src/protocol.rt"},
}
found = 0
for path in sorted((TOP / "crates").glob("*/src/**/*.rt")):
    name = str(path.relative_to(TOP / "crates"))
    if re.match(r"fa_(\w+_tests|tests|sample|\w*bench)/", name):
        continue
    for number, line in enumerate(path.read_text(encoding="utf-8").splitlines(), 1):
        code = line.partition("//")[0]
        for word, files in MEANT.items():
            if re.search(word, code) and name not in files:
                print(f"crates/{name}:{number}: {line.strip()}")
                found += 1
sys.exit(f"{found} tables that are hashed with a fixed seed" if found else 0)
