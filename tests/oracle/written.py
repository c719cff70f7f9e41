"""Writes messages of TCAP from words, by the tables of Q.773 and with the shortest lengths of X.690. It shares no code
with what is tested. A line is the end, the kind of message with its IDs, and its parts, with semicolons between:

    A Begin 1f000a01; AARQ 04000001001302; Invoke 1 59
    B Continue 2b000001 1f000a01; AARE 04000001001302; Invoke 1 60 linked 1; Result 1 59; Reject null general 0

`AARE NAME RESULT DIAGNOSTIC` has the result and the user's diagnostic, 0 and 0 without them. `octets 6c00` is a part of
these octets. Last may come what spoils the message: `cut 2` leaves out the last two octets, `behind 0000` adds two, and
`tag 63` changes the first. The line `Q` is a quiet mark."""

DIALOGUE, UNIDIALOGUE = "060700118605010101", "060700118605010201"
KINDS = {"Unidirectional": "61", "Begin": "62", "End": "64", "Continue": "65", "Abort": "67"}
PROBLEMS = {"general": "80", "invoke": "81", "result": "82", "error": "83"}
VERSION, DIALOGUE_PDUS = "80020780", ("AARQ", "AARE", "ABRT", "AUDT")


def element(tag, *contents):
    digits = "".join(contents)
    size = len(digits) // 2
    return f"{tag}{f'{size:02x}' if size < 0x80 else f'81{size:02x}' if size < 0x100 else f'82{size:04x}'}{digits}"


def integer(value, tag="02"):
    """An INTEGER of -128 to 127."""
    return element(tag, f"{int(value) & 0xFF:02x}")


def pdu(name, *words):
    """A dialogue portion."""
    context = element("a1", element("06", words[0]))
    if name in ("AARQ", "AUDT"):
        content = element("60", VERSION, context)
    elif name == "AARE":
        result, diagnostic = words[1:] or (0, 0)
        outcome = element("a2", integer(result)), element("a3", element("a1", integer(diagnostic)))
        content = element("61", VERSION, context, *outcome)
    else:
        content = element("64", integer(words[0], "80"))
    return element("6b", element("28", UNIDIALOGUE if name == "AUDT" else DIALOGUE, element("a0", content)))


def component(name, id, *words):
    """A component. Parameters are empty sequences."""
    invoked = "0500" if id == "null" else integer(id)
    if name == "Invoke":
        linked = integer(words[2], "80") if len(words) > 1 else ""
        return element("a1", invoked, linked, integer(words[0]), "3000")
    if name in ("Result", "NotLast"):
        result = element("30", integer(words[0]), "3000") if words else ""
        return element("a2" if name == "Result" else "a7", invoked, result)
    if name == "Error":
        return element("a3", invoked, integer(words[0]))
    return element("a4", invoked, integer(words[1], PROBLEMS[words[0]]))


def spoiled(digits, name, word):
    """The digits of a message after what spoils it."""
    if name == "cut":
        return digits[: -2 * int(word)]
    return digits + word if name == "behind" else word + digits[2:]


def ids_of(kind, ids):
    """The transaction portion of a message."""
    tags = {"Begin": ["48"], "End": ["49"], "Continue": ["48", "49"], "Abort": ["49"], "Unidirectional": []}[kind]
    cause = integer(ids[1], "4a") if kind == "Abort" and len(ids) > 1 else ""
    return "".join(element(tag, id) for tag, id in zip(tags, ids)) + cause


def written(line):
    """Returns a line of digits."""
    if line == "Q":
        return line
    (end, kind, *ids), *parts = (part.split() for part in line.split("; "))
    dialogue = "".join(pdu(*part) for part in parts if part[0] in DIALOGUE_PDUS)
    odd = [part for part in parts if part[0] in ("cut", "behind", "tag")]
    raw = "".join(part[1] for part in parts if part[0] == "octets")
    others = [part for part in parts if part not in odd and part[0] not in (*DIALOGUE_PDUS, "octets")]
    components = element("6c", *(component(*part) for part in others)) if others else ""
    digits = element(KINDS[kind], ids_of(kind, ids), dialogue, components, raw)
    for part in odd:
        digits = spoiled(digits, *part)
    return f"{end} {digits}"
