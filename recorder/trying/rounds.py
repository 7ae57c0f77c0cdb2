"""Rounds: a server is started, clients work in its mount, and what was recorded is judged."""

import functools
import os
import sys
import tempfile
import time

from trying import captures, judging, serving, shrinking, work

NOT_TRIED = 125
# Of a tree text: its first line, the root's and the last one.
LINES_OF_EMPTY_ROOT = 3


class Round:
    """What came of one: the calls that were made, with their times, the capture, and its verdict."""

    def __init__(self, server, clients, verdict):
        self.verdict = verdict
        self.made = clients.made()
        self.capture = captures.Capture.read(server.capture)
        self.tree = read(server.tree) if server.tree else None

    def is_finding(self):
        """A fault is one, and that no order explains the replies. Where the auditor gave up nothing is known."""
        return self.verdict.status in (judging.FAULT, judging.NO_ORDER)

    def calls_before_finding(self, by_end=False):
        """Those that were begun before the reply at fault, in the order in which they were begun, or ended."""
        _, last = captures.pair_at(self.capture, self.verdict.message)
        until = captures.time_of(self.capture.messages[last]) if last is not None else time.monotonic()
        before = [(ended or until if by_end else begun, call) for begun, ended, call in self.made if begun <= until]
        return [call for _, call in sorted(before, key=lambda pair: pair[0])]

    def orders_for_one(self):
        """The same calls made by one client."""
        for by_end in (False, True):
            yield [call._replace(client=0) for call in self.calls_before_finding(by_end)]


class Rounds:
    """
    What is asked for (of `words`: server, lower, mounted, trace, patience, kinds, clients, calls, seed, seconds, rounds, lists, keep, shrink),
    the folder that all takes place in, and the auditor.
    """

    def __init__(self, words, folder):
        self.words, self.folder = words, folder
        self.program = judging.find_program(words.audit)
        self.progress = told_on_error if words.progress else lambda said: None

    def run(self):
        """The worst status of the rounds, up to the first with a finding."""
        if not self.words.lower and not self.words.mounted and self.has_files():
            told_on_error("the server begins with files of its own: what they are is taken from a mount before each round")
            self.words.mounted = True
        until, worst, seed = time.monotonic() + self.words.seconds, judging.LEGAL, self.words.seed
        while True:
            name = "script" if self.words.lists else f"seed {seed}"
            try:
                found = self.try_round(name, seed)
            except (serving.NotTried, judging.AuditFailed) as error:
                print(f"{name}: not tried: {error}", flush=True)
                return NOT_TRIED
            if found.is_finding():
                if self.words.keep:
                    self.keep_finding(found)
                else:
                    told_on_error("--keep FOLDER makes a finding small, and keeps what shows it and says why")
                return found.verdict.status
            worst, seed = max(worst, found.verdict.status), seed + 1
            if time.monotonic() >= until or seed - self.words.seed == self.words.rounds:
                return worst

    def try_round(self, name, seed):
        words = self.words
        lists = words.lists or work.seeded_calls(seed, words.clients, words.calls, words.kinds)
        self.progress(f"{name}: {len(lists)} clients")
        found = self.try_lists(lists)
        tell(name, found)
        if found.verdict.status != judging.GAVE_UP:
            return found
        self.keep_given_up(found)
        return self.by_one_client(name, found) or found

    def by_one_client(self, name, found):
        """
        Where the auditor gave up, too many requests overlapped. So one client makes the calls, in the order in which they were begun,
        or ended: what came of it, where that is a finding.
        """
        for calls in found.orders_for_one():
            again = self.try_calls(calls)
            if again and again.is_finding():
                tell(f"{name}, by one client", again)
                return again
        return None

    def try_calls(self, calls):
        """What came of these calls, or None where they could not be tried."""
        try:
            return self.try_lists(work.by_client(calls))
        except (serving.NotTried, judging.AuditFailed):
            return None

    def try_lists(self, lists):
        """Starts the server in a new folder, has the lists of calls carried out, a client for each, and has what was recorded judged."""
        return self.in_new_folder(lambda server: self.try_on(server, lists))

    def has_files(self):
        """Whether a mount of the server, which is not recorded, has files. Where there is no mount, a round will say so."""
        try:
            text = self.in_new_folder(lambda server: server.tree_of_mount(self.words.patience))
        except serving.NotTried:
            return False
        return len(text.splitlines()) > LINES_OF_EMPTY_ROOT

    def in_new_folder(self, use):
        """What comes of a server that has a new folder, of which nothing is left."""
        words, place = self.words, tempfile.mkdtemp(dir=self.folder)
        try:
            return use(serving.Server(place, words.server, ["--trace"] if words.trace else [], words.lower, "link" in words.kinds))
        finally:
            if serving.take_down(self.folder):
                serving.remove(place)

    def try_on(self, server, lists):
        words = self.words
        if words.mounted:
            server.begin_with(server.tree_of_mount(words.patience))
        server.start(words.patience)
        clients = work.Clients(server.mount, lists)
        if clients.wait(words.patience, self.progress):
            unanswered = server.end()
        else:
            serving.end_all()
            unanswered = f"requests were never answered: no client got on for {words.patience} seconds"
        found = Round(server, clients, judging.judge(self.program, server.capture, server.tree))
        if unanswered and not found.is_finding():
            raise serving.NotTried(f"{unanswered} ({found.verdict.line})")
        return found

    def keep_given_up(self, found):
        """Keeps the first capture on which the auditor gave up: with more steps it may say more."""
        if self.words.keep and not os.path.exists(self.path_kept("gave-up.cap")):
            self.keep_capture("gave-up.cap", found)

    def keep_finding(self, found):
        """Keeps the capture of a finding, and the smallest calls and the shortest capture that show it."""
        self.keep_capture("first.cap", found)
        shrinker = shrinking.Shrinker(self.try_calls, found, self.words.shrink, self.progress)
        calls = shrinker.shrink()
        write(self.path_kept("script"), work.write_script(calls))
        shown, tries = shrinker.times_shown(calls)
        path = self.keep_capture("shortest.cap", shrinker.found)
        tree = path + ".tree" if found.tree else None
        judge = functools.partial(judging.judge, self.program, path, tree)
        verdict = shrinking.shrink_capture(shrinker.found, judge, path, self.words.shrink)
        write(self.path_kept("verdict"), verdict.line + "\n")
        write(self.path_kept("why"), judging.explain(self.program, path, tree))
        write(self.path_kept("report.html"), judging.report(self.program, path, tree))
        acting = sum(map(captures.acts_on_tree, captures.Capture.read(path).messages))
        told_on_error(f"kept in {self.words.keep}: {len(calls)} calls, which showed it in {shown} of {tries} tries, "
                      f"and a capture of {acting} requests that act on the tree: {verdict.line}")

    def path_kept(self, name):
        return os.path.join(self.words.keep, name)

    def keep_capture(self, name, found):
        os.makedirs(self.words.keep, exist_ok=True)
        found.capture.write(self.path_kept(name))
        if found.tree:
            write(self.path_kept(name + ".tree"), found.tree)
        return self.path_kept(name)


def tell(name, found):
    """The line of a round."""
    most = captures.most_in_flight(found.capture)
    print(f"{name}: {len(found.made)} calls, {len(found.capture.messages)} messages, {most} in flight: {found.verdict.line}", flush=True)


def told_on_error(said):
    print(f"fuse-try: {said}", file=sys.stderr, flush=True)


def read(path):
    with open(path, encoding="ascii") as file:
        return file.read()


def write(path, text):
    with open(path, "w", encoding="ascii") as file:
        file.write(text)
