"""What the auditor says of a capture."""

import collections
import os
import re
import shutil
import subprocess

LEGAL, FAULT, NO_ORDER, GAVE_UP = 0, 1, 6, 7
# How many steps the auditor may spend. They are a second's work or some seconds', and where they are not enough one client tells more
# than more steps.
STEPS = 1_000_000

# The status and the first line of the auditor, and the message and the code that the line tells.
Verdict = collections.namedtuple("Verdict", "status line message code")


class AuditFailed(Exception):
    """The auditor came to no verdict."""


def find_program(named):
    """The auditor that was named, or fa_audit on the path, or the one that the repository has built."""
    built = os.path.join(os.path.dirname(__file__), "../../crates/fa_audit_program/out/fa_audit_program")
    program = named or shutil.which("fa_audit") or built
    if not os.access(program, os.X_OK):
        raise AuditFailed(f"{program}: no program that judges; --audit PROGRAM names it")
    return os.path.realpath(program)


def judge(program, capture, tree=None):
    """The verdict on a capture, of all orders."""
    ended = audited(program, "judge", capture, tree)
    return read_line(ended.returncode, ended.stdout.decode().partition("\n")[0].strip())


def explain(program, capture, tree=None):
    """The lines of the verdict on a capture, and those that say why."""
    return audited(program, "judge", capture, tree, "--explain").stdout.decode()


def report(program, capture, tree=None):
    """The verdict on a capture as a page, with the requests around it."""
    return audited(program, "report", capture, tree).stdout.decode()


def audited(program, command, capture, tree, *words):
    """What the auditor says, where it comes to a verdict."""
    files = ["--capture", capture, *(["--tree", tree] if tree else [])]
    ended = subprocess.run([program, command, "--steps", str(STEPS), *words, *files], capture_output=True, check=False)
    if ended.returncode not in (LEGAL, FAULT, NO_ORDER, GAVE_UP):
        said = (ended.stdout + ended.stderr).decode(errors="replace").strip().splitlines()
        how = f"{os.path.basename(program)} {command} ended with status {ended.returncode}"
        raise AuditFailed(f"{how}: {said[0] if said else 'it said nothing'}")
    return ended


def read_line(status, line):
    message, code = re.search(r"message (\d+)", line), re.search(r"code (\d+)", line)
    return Verdict(status, line, int(message[1]) if message else None, int(code[1]) if code else None)
