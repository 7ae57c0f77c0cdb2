#!/usr/bin/env python3
"""Tells each import that takes from another crate's proofs what does not stand in that crate's CallerLemmas, and fails if there is one."""
import pathlib
import re
import sys

top = pathlib.Path(__file__).resolve().parent.parent
taken = re.compile(r"\buse Rattle\.(fa_\w+)\.proofs\b(?!\.CallerLemmas\b)")
elsewhere = 0
for crate in sorted((top / "crates").iterdir()):
    files = [path for part in ("src", "specs", "proofs") for path in (crate / part).rglob("*") if path.suffix in (".rt", ".antt")]
    for path in sorted(files):
        for number, line in enumerate(path.read_text(encoding="utf-8").splitlines(), 1):
            found = taken.search(line)
            if found and found[1] != crate.name:
                print(f"{path.relative_to(top)}:{number}: {line.strip()}")
                elsewhere += 1
sys.exit(f"{elsewhere} imports from another crate's proofs that do not go by its CallerLemmas" if elsewhere else 0)
