"""Makes a finding small: fewer calls that show it, and a capture of what has to do with it alone."""

import time

from trying import captures

TRIES = 20  # for calls that show the finding no more, where several clients make them
TRIES_OF_ONE = 3
STEADY = 2  # one after the other, for calls of one client that showed it each time
ORDERS = 5  # that are looked for one client in, each by a round of several
TRIES_AT_LAST, SECONDS_AT_LAST = 10, 10


def without_parts(items, still):
    """
    Leaves items out as long as it is still so: halves of them, quarters, and at last each one, from the end. `still` tells for a list
    of items whether it is, and None where no time is left.
    """
    size = (len(items) + 1) // 2
    while size and items:
        end = len(items)
        while end > 0:
            fewer = items[: max(0, end - size)] + items[end:]
            shown = still(fewer)
            if shown is None:
                return items
            if shown:
                items = fewer
            end -= size
        size = size // 2 if size > 1 else 0
    return items


def what_is_shown(found):
    """The same finding has the same code, and it is at the same operation."""
    verdict = found.verdict
    return verdict.status, verdict.code, captures.operation_at(found.capture, verdict.message)


class Shrinker:
    """Tries calls as long as there is time. `attempt` starts the server for them, and answers what came of it."""

    def __init__(self, attempt, found, seconds, progress):
        self.attempt, self.found, self.progress = attempt, found, progress
        self.until = time.monotonic() + seconds
        self.wanted = what_is_shown(found)
        self.is_steady = False
        self.count = 0

    def still(self, calls):
        """Whether the finding is seen once in so many tries, or each time where it was before."""
        if self.is_steady:
            return self.is_shown_each_time(calls)
        tries = TRIES if len({call.client for call in calls}) > 1 else TRIES_OF_ONE
        for _ in range(tries if calls else 0):
            if time.monotonic() > self.until:
                return None
            if self.shows(calls):
                return True
        return False

    def is_shown_each_time(self, calls):
        if time.monotonic() > self.until:
            return None
        return bool(calls) and all(self.shows(calls) for _ in range(STEADY))

    def shows(self, calls):
        """Whether the finding is seen now."""
        self.count += 1
        found = self.attempt(calls)
        if not found or not found.is_finding() or what_is_shown(found) != self.wanted:
            return False
        self.found = found
        return True

    def times_shown(self, calls):
        """In how many tries the finding is seen, and how many there were time for."""
        until, shown = time.monotonic() + SECONDS_AT_LAST, []
        while len(shown) < TRIES_AT_LAST and time.monotonic() < until:
            shown.append(self.shows(calls))
        return sum(shown), len(shown)

    def by_one_client(self):
        """The calls by one client, where it shows the finding too. When requests meet differs, and so does the order of the calls."""
        several = self.found.calls_before_finding()
        for _ in range(ORDERS):
            for calls in self.found.orders_for_one():
                if self.still(calls):
                    self.is_steady = bool(self.is_shown_each_time(calls))
                    return calls
            if not self.still(several):
                return None
        return None

    def shrink(self):
        """The smallest calls that showed the finding."""
        calls = self.found.calls_before_finding()
        calls = self.by_one_client() or calls
        calls = self.smaller(calls, self.found.calls_before_finding())
        for client in sorted({call.client for call in calls}):
            calls = self.smaller(calls, [call for call in calls if call.client != client])
        for name in sorted({call.name for call in calls}):
            calls = self.smaller(calls, [call for call in calls if call.name != name])
        before = None
        while before != calls and time.monotonic() < self.until:
            before, calls = calls, without_parts(calls, self.still)
            calls = self.smaller(calls, self.found.calls_before_finding())
            self.progress(f"{len(calls)} calls are left after {self.count} tries")
        return calls

    def smaller(self, calls, fewer):
        return fewer if len(fewer) < len(calls) and self.still(fewer) else calls


def fronts(capture, place):
    """
    The captures up to the reply at a place, up to the last answer of what was in flight there, and whole. What is said of a reply rests
    on the answers of such requests too, whenever they came, and on nothing behind them.
    """
    answered = captures.answers(capture)
    late = [answer for request, answer in answered.items() if request < place < answer]
    for last in (place, max(late, default=place), len(capture.messages) - 1):
        yield captures.Capture(capture.magic, capture.messages[: last + 1])


def shrink_capture(found, judge, path, seconds):
    """
    Writes the shortest capture that the auditor still says the same of: it ends with the reply at fault, or with what was in flight
    there, and lacks requests that touch nothing of it, and those that changed nothing. `judge` has the capture at the path judged.
    Answers the verdict.
    """
    until, verdict = time.monotonic() + seconds, found.verdict

    def verdict_without(whole, gone):
        fewer, places = captures.without(whole, gone)
        fewer.write(path)
        now = judge()
        same = verdict._replace(line=now.line, message=places.get(verdict.message))
        return now if now == same else None

    whole = next((front for front in fronts(found.capture, verdict.message) if verdict_without(front, [])), found.capture)
    request, _ = captures.pair_at(whole, verdict.message)
    others = captures.may_go(whole, request) if request is not None else []

    def verdict_with(kept):
        return verdict_without(whole, set(others) - set(kept))

    def still(kept):
        return None if time.monotonic() > until else verdict_with(kept) is not None

    if verdict_with(others):
        return verdict_with(without_parts(others, still))
    whole.write(path)
    return judge()
