#!/usr/bin/env python3
"""Prints the order in which the requests of a capture were sent, as an order text: each answered request that acts on the tree.

usage: serial-order.py CAPTURE

For a server that answers one request before it reads the next, that is the order in which they took effect. A capture is
little-endian. What is no capture, or is cut off, ends the list there.
"""
import struct
import sys

# LOOKUP, GETATTR, SETATTR, READLINK, SYMLINK, MKNOD, MKDIR, UNLINK, RMDIR, RENAME, LINK, OPEN, READ, WRITE, OPENDIR, READDIR,
# CREATE, READDIRPLUS
ACT_ON_THE_TREE = {1, 3, 4, 5, 6, 8, 9, 10, 11, 12, 13, 14, 15, 16, 27, 28, 35, 44}

# RENAME2 does with these flags: none, RENAME_NOREPLACE and RENAME_EXCHANGE.
RENAME2 = 45
FLAGS = {0, 1, 2}


# What stands before a message, by the 8 bytes that a capture begins with: the direction, the time behind FUSECAP2, and the length.
HEADS = {b"FUSECAP1": "<BI", b"FUSECAP2": "<BQI"}


def messages(capture):
    """The direction and the bytes of each message."""
    at, head = 8, HEADS.get(capture[:8])
    while head and at + struct.calcsize(head) <= len(capture):
        direction, *_, length = struct.unpack_from(head, capture, at)
        at += struct.calcsize(head)
        yield direction, capture[at : at + length]
        at += length


def acts_on_the_tree(message):
    """Whether a request does."""
    _, opcode = struct.unpack_from("<II", message)
    if opcode == RENAME2 and len(message) >= 52:
        return struct.unpack_from("<I", message, 48)[0] in FLAGS
    return opcode in ACT_ON_THE_TREE


def order(capture):
    """The numbers of the answered requests that act on the tree, by rising numbers."""
    waiting, answered = {}, []
    for number, (direction, message) in enumerate(messages(capture)):
        if direction == 0 and len(message) >= 16:
            _, _, unique = struct.unpack_from("<IIQ", message)
            if acts_on_the_tree(message):
                waiting[unique] = number
        elif len(message) >= 16:
            _, _, unique = struct.unpack_from("<IiQ", message)
            if unique in waiting:
                answered.append(waiting.pop(unique))
    return sorted(answered)


def main():
    if len(sys.argv) != 2:
        sys.exit(__doc__)
    with open(sys.argv[1], "rb") as capture:
        numbers = order(capture.read())
    print("fuse-order 1", *numbers, "end", sep="\n")


if __name__ == "__main__":
    main()
