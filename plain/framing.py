"""The records of a capture: docs/formats.md, 'Captures'."""
from codes import Refused, check

MOST_MESSAGES = 16_777_216
MOST_OF_A_MESSAGE = 2_097_152
MOST_OF_A_CAPTURE = 268_435_456
# What stands before a message: its direction, a time in FUSECAP2, and its length.
HEADS = {b"FUSECAP1": 5, b"FUSECAP2": 13}


def record(capture, place, head, untimed, count):
    """The direction and the bytes of the message at this place, and where it ends. `untimed` is the place without times."""
    check(count < MOST_MESSAGES, 5)
    check(capture[place] in (0, 1), 3)
    check(len(capture) - place >= head, 2)
    begin = place + head
    length = int.from_bytes(capture[begin - 4 : begin], "little")
    check(length <= MOST_OF_A_MESSAGE, 4)
    check(untimed + 5 + length <= MOST_OF_A_CAPTURE, 5)
    check(begin + length <= len(capture), 2)
    return capture[place], capture[begin : begin + length], begin + length


def messages_of(capture):
    """The messages that a capture begins with, as pairs of a direction and bytes, and the code of the framing fault behind them, if
    there is one."""
    if capture[:8] not in HEADS:
        return [], 1
    head, place, untimed, found = HEADS[capture[:8]], 8, 8, []
    while place < len(capture):
        try:
            direction, message, place = record(capture, place, head, untimed, len(found))
        except Refused as refused:
            return found, refused.code
        untimed += 5 + len(message)
        found.append((direction, message))
    return found, None
