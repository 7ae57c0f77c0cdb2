"""Orders of calls, one that is given and all of them: docs/model.md, 'Orders', 'Runs' and 'Messages without an order'."""
import typing

from codes import Refused, check
from steps import step


class TooLarge(Exception):
    """More requests, or more trees behind them, than are tried."""


class Limits(typing.NamedTuple):
    """How many tree requests are tried, how many bytes of unanswered WRITEs, and how many places that entries lead to."""

    requests: int = 9
    bytes: int = 512
    places: int = 1_000_000


def check_place(calls, placed, number, count):
    """The checks of an entry's place, behind entries that name these requests: 70, 71, 72 and 74."""
    check(number in calls, 70)
    check(number not in placed, 71)
    before = (call for call in calls.values() if call.answered is not None and call.answered < number)
    check(all(call.number in placed for call in before), 72)
    check(is_choice(calls[number], count), 74)


def is_choice(call, count):
    """Whether this choice is allowed: the last of what makes an order valid."""
    if call.answered is not None:
        return count is None
    if call.request.operation == "WRITE":
        return count is not None and count <= call.request.fields["size"]
    return count is None and not call.only_reads()


class Fault(typing.NamedTuple):
    """The first entry at fault."""

    entry: int
    message: int
    code: int


def fault_of(calls, tree, entries):
    """The first entry of an order at fault, or none where it is legal."""
    placed = set()
    for index, (number, count) in enumerate(entries):
        try:
            check_place(calls, placed, number, count)
            tree = step(tree, calls[number], count)
        except Refused as refused:
            return Fault(index, number, refused.code)
        placed.add(number)
    left = [call.number for call in calls.values() if call.answered is not None and call.number not in placed]
    return Fault(len(entries), min(left), 73) if left else None


def choices_of(call):
    """The counts with which an entry may name a call."""
    if call.answered is None and call.request.operation == "WRITE":
        return range(call.request.fields["size"] + 1)
    return [None] if is_choice(call, None) else []


class Stop(typing.NamedTuple):
    """The message past which no order goes, with its code."""

    message: int
    code: int


class Search:
    """All entries that are placed rightly and are a run from a tree, each place that they lead to once: the requests that are placed,
    and the tree."""

    def __init__(self, calls, tree, limits):
        unanswered = [call for call in calls.values() if call.answered is None and call.request.operation == "WRITE"]
        if len(calls) > limits.requests or sum(call.request.fields["size"] for call in unanswered) > limits.bytes:
            raise TooLarge
        self.calls, self.limits = calls, limits
        self.answered = sorted((call for call in calls.values() if call.answered is not None), key=lambda call: call.answered)
        self.start = frozenset(), tree

    def next_unexplained(self, placed):
        """The call of the first reply that entries with these requests do not explain, if there is one."""
        return next((call for call in self.answered if call.number not in placed), None)

    def behind(self, placed, tree):
        """The entries that may come next, each with the place that it leads to."""
        for number, call in self.calls.items():
            for count in choices_of(call):
                try:
                    check_place(self.calls, placed, number, count)
                    yield (number, count), (placed | {number}, step(tree, call, count))
                except Refused:
                    pass

    def places(self):
        """Each place with the entries that lead to it, depth first."""
        waiting, met = [(self.start, ())], set()
        while waiting:
            (placed, tree), entries = waiting.pop()
            key = placed, tree.key()
            if key in met:
                continue
            met.add(key)
            if len(met) > self.limits.places:
                raise TooLarge
            yield placed, tree, entries
            waiting += [(place, (*entries, entry)) for entry, place in self.behind(placed, tree)]

    def answer(self):
        """The entries of a legal order, or the stop where there is none."""
        stop = Stop(-1, 0)
        for placed, tree, entries in self.places():
            call = self.next_unexplained(placed)
            if call is None:
                return entries
            stop = self.further(stop, Stop(call.answered, self.refusal(tree, call)))
        return stop

    def further(self, one, other):
        """The stop at the later message; of two at the same one, the one with the lesser code."""
        return max(one, other, key=lambda stop: (stop.message, -stop.code))

    def refusal(self, tree, call):
        """The code with which a call is refused as the next entry, or 99 where it is not."""
        try:
            step(tree, call)
        except Refused as refused:
            return refused.code
        return 99


def answer_of(calls, tree, limits=Limits()):
    """The entries of a legal order of these calls from this tree, or the stop where there is none."""
    return Search(calls, tree, limits).answer()
