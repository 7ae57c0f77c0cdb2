"""The codes of docs/formats.md, 'Captures' and 'Codes', with their texts, and what is raised where a check fails."""

TEXTS = {
    1: "no FUSECAP1 or FUSECAP2 at the start",
    2: "record cut off",
    3: "direction byte",
    4: "message too long",
    5: "too many messages or bytes",
    10: "header too short",
    11: "length field differs from the record",
    12: "operation out of the set",
    13: "request body",
    14: "limit of this profile",
    15: "error value out of range",
    16: "reply body",
    17: "notification",
    20: "first message is not INIT",
    21: "second INIT",
    22: "request before INIT was answered",
    23: "INIT refused",
    24: "version",
    25: "negotiated flags",
    30: "unique in use",
    31: "no request waits for this reply",
    32: "success of an operation left out",
    33: "open without a file handle",
    34: "request with unique 0",
    40: "forgotten node",
    41: "forgotten too often",
    42: "node id not allowed",
    50: "closed file handle",
    60: "not an order text",
    61: "not a tree text",
    70: "no tree request",
    71: "placed twice",
    72: "an earlier answered request is not placed yet",
    73: "answered request left out",
    74: "choice not allowed",
    80: "node or file handle not known here",
    81: "success not allowed",
    82: "error without a cause",
    83: "attributes",
    84: "node id of another file",
    85: "bytes read",
    86: "listing",
}


class Refused(Exception):
    """A check that fails, by its code."""

    def __init__(self, code):
        super().__init__(code)
        self.code = code


def check(holds, code):
    """Nothing, where this holds."""
    if not holds:
        raise Refused(code)


def told(code):
    """How a line tells a code."""
    return f"code {code}: {TEXTS[code]}"
