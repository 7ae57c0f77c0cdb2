"""The wrong programs of this repository: what an edit is, how it is made, and which of them can be tried together."""
import pathlib
import re
import shutil

TOP = pathlib.Path(__file__).resolve().parent.parent
FUNCTION = re.compile(r'^ *(?:pub(?:\(\w+\))? )?(?:const )?(?:unsafe )?(?:extern "C" )?fn (\w+)', re.MULTILINE)


class Edit:
    """A file NAME.edit, and the crate of which it makes a wrong program."""

    def __init__(self, path):
        self.path, self.name, self.is_of_gate = path, path.stem, path.parent.name == "must-fail"
        self.crate = path.parent.parent.name if self.is_of_gate else path.parent.name

    def __str__(self):
        return str(self.path.relative_to(TOP))

    def steps(self):
        """The (file, old, new) of the edit, one after the other."""
        path = old = None
        for line in self.path.read_text().splitlines():
            word, colon, text = line.partition(": ")
            if word == "file" and colon and old is None:
                path = text
            elif word == "old" and colon and path and old is None:
                old = text
            elif word == "new" and colon and old is not None:
                yield path, old, text
                old = None
            else:
                raise ValueError(f"a line that is not due: {line}")
        if old is not None:
            raise ValueError("an old text without a new one")

    def made(self, texts):
        """The texts of files by (crate, path), these ones and what this edit makes of them; ValueError where it can't be made."""
        texts, steps = dict(texts), list(self.steps())
        for path, old, new in steps:
            text = texts.get((self.crate, path)) or self.read(path)
            if old == new or text.count(old) != 1:
                raise ValueError(f"{path}: {text.count(old)} times: {old}")
            texts[self.crate, path] = text.replace(old, new)
        if not steps:
            raise ValueError("no edit")
        return texts

    def read(self, path):
        """The text of a file of the crate, as it stands."""
        return (TOP / "crates" / self.crate / path).read_text()

    def functions(self):
        """The functions that the edit changes, each by crate, file and how many stand before it."""
        return {(self.crate, path, function_at(self.read(path), self.read(path).find(old))) for path, old, _ in self.steps()}


def function_at(text, place):
    """Which function of the text has this place: the number of those that begin before it."""
    return sum(1 for it in FUNCTION.finditer(text) if it.start() <= place)


def named(edit, function):
    """The module and the name of a function that an edit changes."""
    _, path, number = function
    names = FUNCTION.findall(edit.read(path))
    return path.removeprefix("src/").removesuffix(".rt").replace("/", "::"), names[number - 1] if number else ""


def all_edits(crates=()):
    """The edits of these crates, or of all where none is named."""
    paths = sorted([*TOP.glob("crates/*/must-fail/*.edit"), *TOP.glob("wrong/*/*.edit")])
    return [it for it in map(Edit, paths) if not crates or it.crate in crates]


def rounds_of(edits, with_items=False):
    """Parts edits into few rounds. Those of one round can be made together, and no two of them change one function. One that changes
    several stands alone, and so does one that changes an item outside of all, as a constant, unless it is to be taken along."""
    rounds, alone = [], []
    for edit in edits:
        functions = edit.functions()
        if len(functions) > 1 or not with_items and not all(number for _, _, number in functions):
            alone.append([edit])
            continue
        for taken, members, texts in rounds:
            try:
                made = edit.made(texts) if not functions & taken else None
            except ValueError:
                made = None
            if made:
                taken |= functions
                members.append(edit)
                texts.update(made)
                break
        else:
            rounds.append((functions, [edit], edit.made({})))
    return [members for _, members, _ in rounds] + alone


class Crates:
    """The crates of crates.txt, and the words by which rattle checks one of them."""

    def __init__(self):
        self.uses, self.kinds = {}, {}
        for line in (TOP / "crates.txt").read_text().splitlines():
            name, colon, uses = line.partition("#")[0].partition(":")
            if colon:
                self.uses[name.split()[0]], self.kinds[name.split()[0]] = uses.split(), name.split()[1:]
        self.kit = pathlib.Path(shutil.which("rt")).resolve().parent.parent

    def below(self, crate):
        """The crates that a crate stands on, each behind those that it stands on."""
        found = []
        for it in filter(self.uses.get, self.uses[crate]):
            found += [more for more in [*self.below(it), it] if more not in found]
        return found

    def words(self, crate, root, is_of_source):
        """Rattle's words for a crate of the folder root, over the sources of those below it there or over their libraries in this repository."""
        below = self.below(crate)
        named = [crate, *(below if is_of_source else [])]
        kit = dict.fromkeys(["core"] * is_of_source + ["std"] + [use for it in named for use in self.uses[it] if use not in self.uses])
        words = ["--crate-name", crate, "src/main.rt" if (TOP / "crates" / crate / "src/main.rt").exists() else "src/lib.rt"]
        words += [it for name in kit for it in ("--extern", f"{name}={self.kit}/rlibs/{name}.rlib")]
        words += ["-L", f"dependency={self.kit}/rlibs"]
        for it in below:
            if is_of_source:
                words += ["--lib", f"{it}:{','.join(['core', 'std', *self.uses[it]])}={root}/{it}/src/lib.rt"]
            else:
                library = TOP / "crates" / it / "out/rlib"
                words += ["--extern", f"{it}={library}/{it}.rlib"] * (it in self.uses[crate]) + ["-L", f"dependency={library}"]
        words += ["--antt-project", f"{self.kit}/rattle/logic/antt-project.json", "--logic-built", f"{self.kit}/logic_built"]
        return [*words, "--jobs", "1", "--links", f"{crate}=", *(["--crate-type", "staticlib"] if "staticlib" in self.kinds[crate] else [])]
