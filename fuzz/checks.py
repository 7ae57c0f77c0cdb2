"""What is looked for in the answers to an input, each by a check with a name. A check that fails raises a `Finding`."""
import collections
import functools
import random
import re
import traceback
import xml.etree.ElementTree

import captures
import drivers

import codes
import judge
import orders
import pages

# What an input of so many bytes may take, but for a search with its usual budget.
INPUT_BYTES, SECONDS, MEMORY = 100_000, 1.0, 100 << 20
FAULTS = 1, 2, 3, 4, 5, 10, 11, 12, 13, 14, 15, 16, 17, 20, 21, 22, 23, 24, 25, 30, 31, 32, 33, 34, 40, 41, 42, 50
ENTRY_FAULTS = 70, 71, 72, 73, 74, 81, 82, 83, 84, 85, 86
STEP_FAULTS = ENTRY_FAULTS[5:]
LEGAL, FAULT, NOT_SHOWN, TEXT, NO_ORDER, GAVE_UP = 0, 1, 2, 3, 6, 7
# The forms of what is written: a status, a pattern, and the codes that it may tell. N is a number.
FORMS = {
    "legal": (LEGAL, "legal: N messages, N placed, N left out", ()),
    "good": (LEGAL, "good: N messages", ()),
    "order": (LEGAL, r"fuse-order 1\n(?:N(?: w N)?\n)*end", ()),
    "capture": (LEGAL, None, ()),
    "lines": (LEGAL, None, ()),
    "fault": (FAULT, "fault: message N: code C: TEXT", FAULTS),
    "no capture": (FAULT, "fault: message 0: code C: TEXT", (1,)),
    "framing fault": (FAULT, "fault: message N: code C: TEXT", FAULTS[:5]),
    "not shown": (NOT_SHOWN, "not shown: entry N: message N: code C: TEXT", ENTRY_FAULTS),
    "tree text": (TEXT, "tree: line N: code C: TEXT", (61,)),
    "order text": (TEXT, "order: line N: code C: TEXT", (60,)),
    "no order": (NO_ORDER, r"no order: message N: code C: TEXT(?:\nthe first N messages alone have no order)?", STEP_FAULTS),
    "gave up": (GAVE_UP, "gave up: message N", ())}
# The same with lines behind them that say why: a label, padded to eight characters, a blank and a text.
FORMS |= {f"{kind}, why": (status, pattern + r"(?:\n[a-z][a-z0-9 ]{7} [ -~]+)*", told)
          for kind, (status, pattern, told) in FORMS.items() if pattern}
# A page in the place of a line, and a picture.
PAGES = "legal", "fault", "not shown", "no order", "gave up"
FORMS |= {f"page, {kind}": (FORMS[kind][0], None, ()) for kind in PAGES}
FORMS["picture"] = LEGAL, None, ()
TOLD = {
    "check": ("legal", "fault", "not shown", "tree text", "order text"), "watch": ("good", "fault"),
    "judge": ("legal", "fault", "tree text", "no order", "gave up"), "search": ("order", "fault", "tree text", "no order", "gave up"),
    "propose": ("order", "fault", "tree text"), "cut": ("order", "fault", "order text"), "front": ("capture", "no capture"),
    "migrate": ("capture", "framing fault"), "show": ("lines",)}
# A command that is to say why, by its first words.
TOLD |= {words: tuple(f"{kind}, why" for kind in TOLD[words.split()[0]]) for words in ("judge --explain",)}
TOLD["explain"] = tuple(f"{kind}, why" for kind in TOLD["check"])
TEXTS_THAT_ARE_NONE = "tree text, why", "order text, why"
TOLD["report"] = (*(f"page, {kind}" for kind in PAGES), *TEXTS_THAT_ARE_NONE)
TOLD["picture"] = ("picture", *TEXTS_THAT_ARE_NONE)
# The bytes of these that are told by no text.
BYTES = {"capture": re.compile(rb"(?:FUSECAP1|FUSECAP2).*", re.DOTALL), "lines": re.compile(rb"(?:[ -~]*\n)*"),
         "picture": re.compile(rb"<svg [ -~\n]*</svg>\n")}
BYTES |= {f"page, {kind}": re.compile(rb"<!doctype html>\n[ -~\n]*</html>\n") for kind in PAGES}
FILES = {"check": ("capture", "tree", "order"), "cut": ("capture", "order"), "judge": ("capture", "tree"),
         "search": ("capture", "tree"), "propose": ("capture", "tree"), "explain": ("capture", "tree", "order"),
         "report": ("capture", "tree", "order"), "picture": ("capture", "order", "tree")}
CODE = re.compile(rb": code (\d+): ")
MESSAGE = re.compile(rb"message (\d+)")
ALONE = re.compile(rb"the first (\d+) messages alone")
# What a line of `show` ends with that tells a code: a name that ends like this has a quote behind it.
REFUSED = re.compile(rb"[,!] code (\d+): [^\"]+$")
# What messages are chosen by.
CHOICES = ("--node", "1"), ("--node", "2"), ("--operation", "LOOKUP"), ("--operation", "WRITE"), ("--name", "a"), ("--unanswered",)
# How many steps a search is told.
STEPS = 0, 100, 2000
# How many bytes a piece of a small capture has, and a seed for up to a hundred times as many; a larger one has so many pieces.
PIECES = (1, 0), (1, 1), (7, 0), (40, 3)
MOST_PIECES = 2000
# What the plain judge is asked: captures of so many bytes, with so many requests and places.
PLAIN_BYTES, PLAIN = 4000, orders.Limits(requests=6, bytes=64, places=1500)


class Finding(Exception):
    """A check that fails, by its name, and what it found."""

    def __init__(self, check, text):
        super().__init__(check, text)
        self.check, self.text = check, text


@functools.cache
def form(kind):
    """The status of a kind of answer, and the pattern of its bytes."""
    status, pattern, told = FORMS[kind]
    if pattern is None:
        return status, BYTES[kind]
    texts = "|".join(f"{code}: {re.escape(codes.TEXTS[code])}" for code in told)
    pattern = pattern.replace("N", r"(?:0|[1-9]\d*)").replace("C: TEXT", f"(?:{texts})")
    return status, re.compile(pattern.encode() + rb"\n")


def kind_of(command, answer):
    """Which of its documented answers a command gave, if it is one of them."""
    fits = (kind for kind in TOLD[command] if form(kind)[0] == answer.status and form(kind)[1].fullmatch(answer.output))
    return next(fits, None)


class Trial:
    """An input that is tried: what answers, and how often each command told each status and code."""

    def __init__(self, driver, given, seed, counts=None):
        self.driver, self.given, self.chance = driver, given, random.Random(seed)
        self.counts = collections.Counter() if counts is None else counts

    @functools.cached_property
    def records(self):
        return captures.read(self.given.capture).records

    def ask(self, command, *words, driver=None, **files):
        """The answer to a command on the input, or on other files, which has to be one of those that are documented."""
        names = FILES.get(command, ("capture",))
        files = {name: files.get(name, getattr(self.given, name)) for name in names}
        asked = f"{command} {words[0]}" if words[:1] == ("--explain",) else command
        return self.judged(asked, (driver or self.driver).call(command, files, *words), files)

    def ask_in_pieces(self, command, *words):
        """The same, of a capture through a pipe."""
        files = {name: getattr(self.given, name) for name in FILES.get(command, ("capture",))}
        unit, seed = self.chance.choice(PIECES)
        unit = max(unit, len(self.given.capture) // MOST_PIECES)
        return self.judged(command, self.driver.program.call_in_pieces(command, files, unit, seed, *words), files)

    def judged(self, command, answer, files):
        """The answer, where its form and what it took are as they have to be."""
        told = f"{command} ended with {answer.status}: {answer.output[:200]!r}, {answer.error[:200]!r}"
        if answer.status < 0:
            raise Finding("signal", told)
        statuses = {form(kind)[0] for kind in TOLD[command]}
        if answer.status not in statuses:
            raise Finding("status", told)
        if kind_of(command, answer) is None or answer.error:
            raise Finding("line", told)
        if sum(len(data or b"") for data in files.values()) <= INPUT_BYTES and (answer.seconds > SECONDS or answer.memory > MEMORY):
            raise Finding("resources", f"{command} took {answer.seconds:.2f} s and {answer.memory >> 20} MiB")
        self.counts[command, "status", answer.status] += 1
        self.counts[command, "code", code_of(answer)] += 1
        return answer

    def same(self, check, one, other, what):
        """Nothing, where two answers are the same."""
        if one.told() != other.told():
            raise Finding(check, f"{what}: {one.told()} and {other.told()}"[:1000])

    def holds(self, check, holds, what, *answers):
        """Nothing, where this holds."""
        if not holds:
            raise Finding(check, f"{what}: {[answer.told() for answer in answers]}"[:1000])


def at_message(answer):
    return int(MESSAGE.search(answer.output)[1])


def code_of(answer):
    """The code that a line tells, or none."""
    code = CODE.search(answer.output) if answer.status else None
    return code and int(code[1])


def is_same_judgement(one, other):
    """Whether two answers to a search have the same status, and the same lines as far as both have them. The library, and a judge whose
    search for it gives up, leave out the second."""
    lines = zip(one.output.splitlines(), other.output.splitlines())
    return one.status == other.status and all(line == its for line, its in lines)


# The checks. Each is handed the trial and what `check` told.


def counted(trial, told):
    """numbers: a line tells as many messages as there are, and none of another number."""
    whole = len(trial.records)
    if told.status == LEGAL:
        trial.holds("numbers", told.output.startswith(b"legal: %d messages, " % whole), f"{whole} records", told)
    elif told.status in (FAULT, NOT_SHOWN) and code_of(told) != 70:
        within = at_message(told) < whole or code_of(told) in FAULTS[:5] and at_message(told) == whole
        trial.holds("numbers", within, f"{whole} records", told)


def compiled(trial, told):
    """compilers: the program as the other compiler built it tells the same."""
    trial.same("compilers", told, trial.ask("check", driver=trial.driver.by_rattle), "check by LLVM and by Rattle")


def in_process(trial, told):
    """library: the program tells what the library tells."""
    trial.same("library", told, trial.ask("check", driver=trial.driver.program), "check in process and by the program")


def entered(trial, told):
    """entries: the entries before the one at fault are good, and those behind it change nothing."""
    lines, entry = trial.given.order.split(b"\n"), int(told.output.split()[3][:-1])
    before = trial.ask("check", order=b"\n".join([*lines[: entry + 1], b"end", b""]))
    left_out = before.output.startswith(b"not shown: entry %d: " % entry) and code_of(before) == 73
    trial.holds("entries", before.status == LEGAL or left_out, f"the first {entry} entries", before)
    if code_of(told) != 73:
        trial.same("entries", told, trial.ask("check", order=b"\n".join([*lines[: entry + 2], b"end", b""])), "with the next entry")


def cut(trial, told):
    """cuts: what is left of a legal order and its capture at a message is legal."""
    at = trial.chance.randrange(len(trial.records) + 2)
    front = trial.ask("front", "--at", str(at)).output
    left = trial.ask("cut", "--at", str(at)).output
    line = trial.ask("check", capture=front, order=left)
    count = min(at, len(trial.records))
    trial.holds("cuts", line.output.startswith(b"legal: %d messages, " % count), f"cut at {at}", line)


def migrated(trial, told):
    """migrated: a capture as `migrate` writes it has the same answer."""
    written = trial.ask("migrate")
    framing = code_of(told) in FAULTS[:5]
    if written.status == FAULT:
        same = written.told() == told.told() if framing else told.status == FAULT and at_message(told) < at_message(written)
        trial.holds("migrated", same, "migrate and check", written, told)
        return
    trial.holds("migrated", not framing, "migrate and check", told)
    trial.same("migrated", told, trial.ask("check", capture=written.output), "check and check of migrate")


def timed(trial, told):
    """times: a capture with any times has the same answer."""
    whole = captures.read(trial.given.capture)
    records = [record._replace(time=trial.chance.getrandbits(64)) for record in whole.records]
    if whole.magic in captures.MAGICS and not whole.tail:
        retimed = captures.Capture(captures.messages.TIMED_MAGIC, records).bytes()
        trial.same("times", told, trial.ask("check", capture=retimed), "check and check with times")


def judged(trial, told):
    """judge: `judge` tells the same fault as `check`, and finds an order where there is one."""
    answer = trial.ask("judge", "--steps", str(trial.chance.choice(STEPS)))
    if told.status == FAULT or told.output.startswith(b"tree") or answer.status in (FAULT, TEXT):
        trial.same("judge", told, answer, "check and judge")
    trial.holds("judge", told.status != LEGAL or answer.status in (LEGAL, GAVE_UP), "a legal order, and judge", answer)


def searched(trial, told):
    """search: `judge`, `search`, `propose` and `check` agree."""
    steps = "--steps", str(trial.chance.choice(STEPS))
    verdict, found, proposed = trial.ask("judge", *steps), trial.ask("search", *steps), trial.ask("propose")
    if proposed.status != LEGAL or told.status == FAULT:
        for answer in (told, verdict, found):
            trial.same("search", proposed, answer, "propose, and check, judge or search")
        return
    guess = trial.ask("check", order=proposed.output)
    trial.holds("search", guess.status == LEGAL or code_of(guess) == 73, "the proposal", guess)
    trial.holds("search", guess.status != LEGAL or verdict.status == LEGAL, "a legal proposal, and judge", verdict)
    if verdict.status == LEGAL:
        trial.holds("search", found.status == LEGAL, "judge and search", verdict, found)
        trial.same("search", verdict, trial.ask("check", order=found.output), "judge, and check of search")
        return
    trial.holds("search", is_same_judgement(verdict, found), "judge and search", verdict, found)
    front = trial.ask("front", "--at", str(at_message(verdict))).output
    before = trial.ask("judge", *steps, capture=front)
    trial.holds("search", before.status in (LEGAL, GAVE_UP), "what comes before", verdict, before)
    trial.holds("search", verdict.status != GAVE_UP or not captures.is_serial(trial.records), "one request after the other", verdict)


def alone(trial, told):
    """alone: so many first messages as the second line tells have no order, and one fewer have one; it is there where requests come one
    after the other."""
    steps = "--steps", str(STEPS[-1])
    found = trial.ask("search", *steps)
    if found.status != NO_ORDER:
        return
    trial.same("alone", found, trial.ask("judge", *steps, driver=trial.driver.program), "search and judge")
    line = ALONE.search(found.output)
    if not line:
        trial.holds("alone", not captures.is_serial(trial.records), "one request after the other", found)
        return
    count = int(line[1])
    trial.holds("alone", count > at_message(found), "no fewer messages than those up to the stop", found)
    for number, wanted in (count, NO_ORDER), (count - 1, LEGAL):
        front = trial.ask("front", "--at", str(number)).output
        answer = trial.ask("judge", *steps, capture=front)
        trial.holds("alone", answer.status == wanted, f"the first {number} messages", found, answer)


def in_pieces(trial, told):
    """pieces: a capture that comes through a pipe in pieces has the same answer."""
    command, *words = trial.chance.choice((("check",), ("check",), ("judge", "--steps", "1000"), ("propose",), ("migrate",)))
    whole = trial.ask(command, *words, driver=trial.driver.program)
    trial.same("pieces", whole, trial.ask_in_pieces(command, *words), f"{command} of a file and of a pipe")


def watched(trial, told):
    """watch: a capture that is watched has the fault that `check` tells, or none."""
    through_a_pipe = len(trial.given.capture) < drivers.PIPE_BYTES and trial.chance.random() < 0.5
    seen = trial.ask_in_pieces("watch") if through_a_pipe else trial.ask("watch")
    good = drivers.Answer(LEGAL, b"good: %d messages\n" % len(trial.records))
    trial.same("watch", told if told.status == FAULT else good, seen, "check and watch")


def shown(trial, told):
    """show: each message has its line, the first fault of `check` is the first code that one tells, and those that are chosen have the
    same lines."""
    how = trial.chance.choice(((), ("--whole",)))
    lines = trial.ask("show", *how).output.splitlines()
    signs = [b"!" if line.split(b" ", 2)[1] == b"!" else b"<" if record.direction else b">" for line, record in zip(lines, trial.records)]
    signs += [b"!"] * (len(lines) - len(signs))
    begun = all(line.startswith(b"%d %b " % (number, sign)) for number, (line, sign) in enumerate(zip(lines, signs)))
    trial.holds("show", begun and b"!" not in signs[:-1], f"{len(lines)} lines of {len(trial.records)} messages", told)
    refused = next(((number, code) for number, code in enumerate(map(REFUSED.search, lines)) if code), None)
    first = refused and (refused[0], int(refused[1][1]))
    fault = (at_message(told), code_of(told)) if told.status == FAULT else None
    trial.holds("show", first == fault, f"the first code of the lines, {first}", told)
    chosen = trial.ask("show", *how, *trial.chance.choice(CHOICES)).output.splitlines()
    trial.holds("show", set(chosen) <= set(lines), "lines that are chosen", told)
    trial.ask("show", "--summary")


def explained(trial, told):
    """explain: behind the line of `check`, of this order or of the one that is proposed, or those of `judge`, lines say why, and there is
    something to look at."""
    how = trial.chance.choice(("order", "proposal", "search"))
    if how == "order":
        line, why = told, trial.ask("explain")
    elif how == "proposal":
        proposed = trial.ask("propose")
        line = trial.ask("check", order=proposed.output) if proposed.status == LEGAL else proposed
        why = trial.ask("explain", order=None)
    else:
        steps = "--steps", str(trial.chance.choice(STEPS))
        line, why = trial.ask("judge", *steps, driver=trial.driver.program), trial.ask("judge", "--explain", *steps)
    trial.holds("explain", why.status == line.status and why.output.startswith(line.output), f"without and with the reasons, {how}", line, why)
    lines = why.output[len(line.output):].splitlines()
    looked = any(one.startswith(b"look at  ") for one in lines) or why.status in (LEGAL, GAVE_UP)
    trial.holds("explain", looked, f"what to look at, {how}", why)


def drawn(trial, told):
    """drawn: the heading of a page is the line of `check` or `judge`, with its status, and its reasons are those of `explain` or
    `judge --explain`; page and picture are well-formed, and the picture has the name that it should."""
    by_order = trial.chance.choice((True, False))
    if by_order:
        line, page, why, picture = told, trial.ask("report"), trial.ask("explain"), trial.ask("picture")
    else:
        steps = "--steps", str(trial.chance.choice(STEPS))
        line = trial.ask("judge", *steps, driver=trial.driver.program)
        page, why = trial.ask("report", *steps, order=None), trial.ask("judge", "--explain", *steps)
        picture = trial.ask("picture", order=None, tree=None)
    if line.status == TEXT:
        trial.same("drawn", page, why, "the page of a text that is none, and why")
        return
    first = line.output.splitlines()[0].decode()
    read = pages.Page(page.output.decode())
    due = pages.reason_lines(told.decode() for told in why.output.splitlines()[1:] if not ALONE.match(told))
    wrong = read.wrong + ([] if (page.status, read.verdict) == (line.status, first) else [f"heading {read.verdict!r}"])
    wrong += [] if [reason for reason in read.reasons if reason[0] != "shortest"] == due else [f"reasons {read.reasons}"]
    try:
        name = xml.etree.ElementTree.fromstring(picture.output).get("aria-label")
    except xml.etree.ElementTree.ParseError as error:
        wrong.append(f"the picture: {error}")
    else:
        wrong += [] if name == first or not by_order and line.status != FAULT else [f"the picture is called {name!r}"]
    trial.holds("drawn", not wrong, "; ".join(wrong), line, page)


def plainly(trial, told):
    """plain: the plain judge tells the same, and of a search too."""
    try:
        plain = judge.Judged(trial.given.capture, trial.given.tree)
        line, status = plain.check(trial.given.order)
        searched, decided = plain.judge(PLAIN)
    except Exception:
        raise Finding("plain", traceback.format_exc()) from None
    trial.same("plain", drivers.Answer(status, line.encode() + b"\n"), told, "plain and check")
    if decided != judge.TOO_LARGE:
        answer = trial.ask("judge", "--steps", "5000", driver=trial.driver.program)
        same = answer.status == decided and (decided == LEGAL or is_same_judgement(answer, drivers.Answer(decided, searched.encode())))
        trial.holds("plain", same or answer.status == GAVE_UP, f"{searched!r} and judge", answer)


def checks_of(trial, told):
    """The checks that an input may be put to, and how often each of them is."""
    in_library = trial.driver is not trial.driver.program
    found = {timed: 20 if in_library else 1, judged: 20 if in_library else 1, migrated: 2, searched: 6, alone: 2, watched: 2, shown: 2, explained: 4, drawn: 4}
    if in_library:
        found[in_process] = 1
    if len(trial.given.capture) < drivers.PIPE_BYTES:
        found[in_pieces] = 2
    if len(trial.given.capture) <= PLAIN_BYTES:
        found[plainly] = 2
    if told.status == LEGAL:
        found[cut] = 6
    if told.status == NOT_SHOWN:
        found[entered] = 4
    if trial.driver.by_rattle:
        found[compiled] = 2
    return found


def try_input(driver, given, seed, check=None, counts=None):
    """Puts an input to `check` and to one check more, this one or one that the seed picks: which one, and the finding or None."""
    trial = Trial(driver, given, seed, counts)
    try:
        told = trial.ask("check")
        counted(trial, told)
        found = checks_of(trial, told)
        check = check or trial.chance.choices(list(found), list(found.values()))[0]
        trial.chance.seed(seed)
        check(trial, told)
    except Finding as finding:
        return check, finding
    except Exception:
        return check, Finding("fuzzer", traceback.format_exc())
    return check, None
