#!/usr/bin/env python3
"""Checks that every wrong program of this repository can still be made: its edits find the texts that they replace.

usage: wrong/stands.py

A file NAME.edit of crates/CRATE/must-fail or of wrong/CRATE has a line 'file: PATH' and then pairs of lines 'old: TEXT' and 'new:
TEXT', and maybe the same for further files. Each old text has to stand exactly once in that file of crates/CRATE, as the pairs before
it left it, and the new one has to differ; no other line stands there. Each edit that is not so is printed; the last line is
'N passed, M failed', and the status is 1 where one failed or there is none.
"""
import sys

import edits


def fault(edit):
    """Why this edit can't be made, or None."""
    try:
        edit.made({})
    except (OSError, ValueError) as error:
        return str(error)
    return None


def main():
    passed = failed = 0
    for edit in edits.all_edits():
        why = fault(edit)
        if why is None:
            passed += 1
        else:
            failed += 1
            print(f"{edit}: {why}")
    print(f"{passed} passed, {failed} failed")
    return 0 if passed and not failed else 1


sys.exit(main())
