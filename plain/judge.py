#!/usr/bin/env python3
"""Judges a small capture by trying all orders, from docs/model.md and docs/formats.md alone, and prints what the audit prints: a line, and
behind `no order` that of the first messages that alone have none.

usage: plain/judge.py CAPTURE [--tree FILE] [--order FILE] [--most N] [--places N]

With --order it says what that order is, as `check` does; without, whether any order is legal, as `judge` does. A capture with more
than N tree requests (9 where nothing is said) is `too large`, status 8, and so is one whose orders lead to too many places. Where the
first messages are too large, their line is left out.
"""
import argparse
import sys

import orders
import texts
from codes import told
from ledger import ledger_of, ledger_of_front
from tree import empty_tree

LEGAL, FAULT, NOT_SHOWN, NO_TEXT, NO_ORDER, TOO_LARGE = 0, 1, 2, 3, 6, 8


class Judged:
    """A capture and its first tree, judged: the ledger, the line and the status where these are at fault, and the text of a legal
    order, when one was found."""

    def __init__(self, capture, tree_text=None):
        self.capture, self.order = capture, None
        self.ledger, fault = ledger_of(capture)
        self.line = f"fault: message {fault[0]}: {told(fault[1])}" if fault else None
        self.status = FAULT if fault else LEGAL
        self.tree = empty_tree()
        if not fault and tree_text is not None:
            try:
                self.tree = texts.tree_of(tree_text)
            except texts.NoText as no_text:
                self.line, self.status = f"tree: line {no_text.line}: {told(61)}", NO_TEXT

    def legal(self, entries):
        """The line of a legal order."""
        left = sum(call.answered is None and call.number not in dict(entries) for call in self.ledger.calls.values())
        return f"legal: {self.ledger.number} messages, {len(entries)} placed, {left} left out"

    def check(self, order_text):
        """The line and the status of an order."""
        if self.line:
            return self.line, self.status
        try:
            entries = texts.order_of(order_text)
        except texts.NoText as no_text:
            return f"order: line {no_text.line}: {told(60)}", NO_TEXT
        fault = orders.fault_of(self.ledger.calls, self.tree, entries)
        if fault:
            return f"not shown: entry {fault.entry}: message {fault.message}: {told(fault.code)}", NOT_SHOWN
        return self.legal(entries), LEGAL

    def judge(self, limits=orders.Limits()):
        """What is printed of all orders, and the status."""
        if self.line:
            return self.line, self.status
        try:
            answer = orders.answer_of(self.ledger.calls, self.tree, limits)
        except orders.TooLarge:
            return "too large", TOO_LARGE
        if isinstance(answer, orders.Stop):
            return "\n".join([f"no order: message {answer.message}: {told(answer.code)}", *self.alone(limits)]), NO_ORDER
        self.order = texts.text_of(answer).encode("ascii")
        return self.legal(answer), LEGAL

    def alone(self, limits):
        """The line that tells how many of the first messages have no order alone: docs/model.md, 'Messages without an order'. Each number
        of them is tried, from none on."""
        try:
            count = next(count for count in range(self.ledger.number + 1) if self.is_without_order(count, limits))
        except orders.TooLarge:
            return []
        return [f"the first {count} messages alone have no order"]

    def is_without_order(self, count, limits):
        """Whether so many first messages, as a capture of their own, have no order."""
        return isinstance(orders.answer_of(ledger_of_front(self.capture, count).calls, self.tree, limits), orders.Stop)


def content(path):
    with open(path, "rb") as opened:
        return opened.read()


def main():
    parser = argparse.ArgumentParser(description=__doc__, formatter_class=argparse.RawDescriptionHelpFormatter)
    parser.add_argument("capture")
    parser.add_argument("--tree", metavar="FILE")
    parser.add_argument("--order", metavar="FILE")
    parser.add_argument("--most", type=int, default=orders.Limits().requests, metavar="N", help="tree requests")
    parser.add_argument("--places", type=int, default=orders.Limits().places, metavar="N", help="places that entries lead to")
    given = parser.parse_args()
    judged = Judged(content(given.capture), content(given.tree) if given.tree else None)
    if given.order:
        said, status = judged.check(content(given.order))
    else:
        said, status = judged.judge(orders.Limits(requests=given.most, places=given.places))
    print(said)
    return status


if __name__ == "__main__":
    sys.exit(main())
