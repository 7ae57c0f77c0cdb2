#!/usr/bin/env python3
"""Tells where the words of the program and those of the documents, the manual and the completion part.

usage: .ci/words.py [PROGRAM]

PROGRAM is crates/fa_audit_program/out/fa_audit_program of this repository unless it is named. What `help CODE` prints of each code of
crates/fa_capture/src/codes.rt has to be what the rows of the code say in docs/formats.md, in printing ASCII. The commands that `--help`
prints, with the options that the help of each prints, have to be those of the synopsis of man/fa_audit.1 and of completions/fa_audit.bash,
and docs/using.md has to name them. The operations that `show` takes and that are completed have to be those that it shows. Behind a command
on the examples README.md and docs/using.md have what it prints, and docs/truncating-opens.svg is their picture. Each difference is printed;
the last line is 'N passed, M failed', and the status is 1 where something differs.
"""
import os
import re
import subprocess
import sys

TOP = os.path.dirname(os.path.dirname(os.path.abspath(__file__)))
PROGRAM = os.path.join(TOP, "crates", "fa_audit_program", "out", "fa_audit_program")
# The line above a table of codes in docs/formats.md, as it begins, and what the program calls the things of which its codes are told.
STEP = "an entry of an order, or the request of a reply that no order explains"
TABLES = {
    "Where the bytes stop being a capture": "the bytes of a capture",
    "A request:": "a request",
    "A message from the server:": "a message of the server",
    "An entry of an order is judged": "an entry of an order",
    "An order, after its last entry:": "an order, after its last entry",
}
TEXTS = {60: "a line of an order text", 61: "a line of a tree text"}


def read(*path):
    """A file of the repository."""
    with open(os.path.join(TOP, *path), encoding="utf-8") as opened:
        return opened.read()


def printed(program, *words):
    """What the program prints on standard output for these words, and its status."""
    ran = subprocess.run([program, *words], capture_output=True, cwd=TOP, timeout=60)
    return ran.stdout.decode("ascii"), ran.returncode


def codes():
    """The numbers of all codes, with their texts."""
    return {int(number): text for text, number in re.findall(r"/// (.*)\npub const \w+: u16 = (\d+);", read("crates", "fa_capture", "src", "codes.rt"))}


def documented():
    """What docs/formats.md says of each code: its lines of `help CODE` behind the first, as a list of blocks, one for each kind of thing."""
    said, kind = {}, None
    for line in read("docs", "formats.md").splitlines():
        kind = next((told for begin, told in TABLES.items() if line.startswith(begin)), kind)
        row = re.fullmatch(r"\| (\d+) \| (.*?) \| (.*?) \| (.*) \|", line)
        if row:
            code, text = int(row[1]), row[2]
            fails = re.sub(r"\[([^]]*)\]\([^)]*\)", r"\1", row[3])
            of = TEXTS.get(code) or (STEP if 81 <= code <= 86 else kind)
            looks = [f"look at  {look}" for look in row[4].split("<br>")]
            known, blocks = said.setdefault(code, (text, {}))
            block = blocks.setdefault(of, ([], looks))
            block[0].append(f"fails    where {fails}")
            if known != text or block[1] != looks:
                blocks[of][0].append(f"two rows of {code} differ")
    return {code: [text, *(line for of, (fails, looks) in blocks.items() for line in [f"told of  {of}", *sorted(fails), *looks])]
            for code, (text, blocks) in said.items()}


def blocks_sorted(text):
    """The lines of a paragraph, those that begin with `fails` in one block by their letters."""
    lines, fails = [], []
    for line in text.splitlines():
        if line.startswith("fails"):
            fails.append(line)
            continue
        lines += sorted(fails)
        fails = []
        lines.append(line)
    return lines + sorted(fails)


def code_faults(program):
    """What differs of each code."""
    said = documented()
    for code, text in codes().items():
        output, status = printed(program, "help", str(code))
        wanted = said.get(code, [])
        found = blocks_sorted(output)
        if status != 0 or found[:1] != [f"{code}: {text}"] or wanted[:1] != [text] or found[1:] != wanted[1:]:
            yield f"code {code}: docs/formats.md and the program differ: {wanted[1:]} and {found[1:]}"
        else:
            yield None
    for code in {*said} - {*codes()}:
        yield f"code {code} of docs/formats.md is none"


def section(text, title):
    """The lines of a help below this title, up to an empty one."""
    return re.search(rf"^{title}:\n((?:.+\n)*)", text, re.M)[1].splitlines()


def options_in(text):
    """The options that are named in a text, but those that each command has."""
    return {*re.findall(r"--[a-z]+", text)} - {"--help", "--version"}


def of_program(program):
    """The commands of the program, each with its options."""
    commands = [line.split()[0] for line in section(printed(program, "--help")[0], "Commands")]
    return {command: options_in("\n".join(section(printed(program, command, "--help")[0], "Options"))) for command in commands}


def of_manual():
    """The same by the synopsis of the manual."""
    synopsis = read("man", "fa_audit.1").split(".Sh DESCRIPTION")[0]
    return {command: options_in(rest.replace(".Fl -", "--").replace("Fl -", "--"))
            for command, rest in re.findall(r"\.Nm\n\.Cm (\w+)\n((?:(?!\.Nm).*\n)*)", synopsis)}


def completed(*words):
    """What the completion offers behind these words."""
    script = ("source completions/fa_audit.bash; COMP_WORDS=(fa_audit \"$@\"); COMP_CWORD=$#; _fa_audit; printf '%s\\n' \"${COMPREPLY[@]}\"")
    ran = subprocess.run(["bash", "-c", script, "bash", *words], capture_output=True, cwd=TOP, timeout=60)
    return {*ran.stdout.decode("ascii").split()}


def of_completion():
    """The same by the completion."""
    commands = {word for word in completed("") if not word.startswith("-")}
    return {command: options_in(" ".join(completed(command, ""))) for command in commands}


def of_page():
    """The same by the synopsis of docs/using.md."""
    return {command: options_in(rest) for command, rest in re.findall(r"^    fa_audit (\w+)(.*)$", read("docs", "using.md").split("\n## ")[0], re.M)}


def word_faults(program):
    """What differs of the commands and options."""
    wanted = of_program(program)
    for name, found in ("man/fa_audit.1", of_manual()), ("completions/fa_audit.bash", of_completion()), ("docs/using.md", of_page()):
        yield None if found == wanted else f"{name} and the program differ: {found} and {wanted}"


def operation_faults(program):
    """What differs of the operations that `show` shows, takes by --operation, and has completed."""
    table = re.search(r"static OPERATIONS: .*?\[\n(.*?)\];", read("crates", "fa_show", "src", "words.rt"), re.S)[1]
    wanted = set(re.findall(r'"(\w+)"', table))
    taken = re.search(r"--operation .*?\[possible values: (.*?)\]", printed(program, "show", "--help")[0], re.S)[1]
    for name, found in ("show --help", set(re.findall(r"\w+", taken))), ("completions/fa_audit.bash", completed("show", "--operation", "")):
        yield None if found == wanted else f"the operations of {name} and of fa_show differ: {found ^ wanted}"


def example_faults(program):
    """What differs of the commands on the examples, each with what it prints, and of the picture."""
    for page in ("README.md", "docs/using.md"):
        for call, told in re.findall(r"^    fa_audit (.*examples/\S*)\n((?:    (?!fa_audit).*\n)+)", read(page), re.M):
            output, _ = printed(program, *call.split())
            wanted = "".join(f"{line[4:]}\n" for line in told.splitlines())
            yield None if output == wanted else f"{page}: {call} prints {output!r}"
    drawn = re.search(r"^    fa_audit (picture .*) > \S+$", read("docs", "using.md"), re.M)[1]
    output, _ = printed(program, *drawn.split())
    yield None if output == read("docs", "truncating-opens.svg") else f"docs/truncating-opens.svg is not what {drawn} draws"


def main():
    program = os.path.abspath(sys.argv[1]) if len(sys.argv) > 1 else PROGRAM
    results = [*code_faults(program), *word_faults(program), *operation_faults(program), *example_faults(program)]
    faults = [fault for fault in results if fault]
    for fault in faults:
        print(fault)
    print(f"{len(results) - len(faults)} passed, {len(faults)} failed")
    return 1 if faults else 0


if __name__ == "__main__":
    sys.exit(main())
