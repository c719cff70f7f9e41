"""Records, with what `tcapjudge judge RECORD TABLE --cert` prints of them: `tests/program.py` runs them. A record is its entries:
an end and a message in hexadecimal digits, or `Q`, a quiet mark."""

# 45 of class 1, 46 of class 2, 47 of class 3, 48 of class 4, and 50 of class 1, to which 48 may be linked.
TABLE = (
    '{"operations":[{"class":1,"code":45},{"class":2,"code":46},{"class":3,"code":47},{"class":4,"code":48},'
    '{"class":1,"code":50,"linked":[48]}]}'
)
# The same, where an invocation of 45 outlasts the record.
LASTING = TABLE.replace('{"class":1,"code":45}', '{"class":1,"code":45,"expires":false}')

INVOKE = "620D4801016C08A10602010102012D"
RESULT = "640A4901016C05A203020101"
REQUEST = "622D4801016B1E281C060700118605010101A011600F80020780A1090607040000010013026C08A10602010102012D"
ACCEPTED = (
    "65394801024901016B2A2828060700118605010101A01D611B80020780A109060704000001001302A203020100A305A103020100"
    "6C05A203020101"
)
END, BEGIN, CONTINUE = "6403490102", "6203480101", "6506480102490101"
CLOSED, REFUSED = "67064901024A0101", "67064901014A0104"
WITH_RESULT, UNRECOGNIZED = "650D4801024901016C05A203020101", "640D4901026C08A40602010182" + "0100"
AGAIN, UNEXPECTED = "65104801014901026C08A10602010102012E", "65104801014901026C08A406020101820101"
TWICE = "62154801016C10A10602010102012DA10602010102012D"
LINKING, LINKED = "620D4801016C08A106020101020132", "65134801024901016C0BA109020105800101020130"
LONE, OTHER, TO_NINE, BACK = "610A6C08A106020101020130", "6203480103", "6403490109", "6506480101490102"
CLASS_3, ERROR = "620D4801016C08A10602010102012F", "640D4901016C08A306020101020101"
NO_MESSAGE, BAD_VERSION = "62054801016C00", REQUEST.replace("80020780", "80020700")


def proposed(fates, expire="", close=""):
    """The line of a certificate."""
    return f'{{"close":[{close}],"expire":[{expire}],"fates":[{fates}],"version":1}}'


A_CLOSING = '{"at":2,"end":"A","entry":0}'
AN_EXPIRY = '{"at":2,"component":0,"end":"A","entry":0}'

# The entries, what is printed, and, where it is not TABLE, the table.
ROWS = [
    ("", ["LAWFUL 0", proposed("")]),
    (f"A {INVOKE} B {RESULT}", ["LAWFUL 2", proposed("1,2")]),
    (f"A {REQUEST} B {ACCEPTED} A {END}", ["LAWFUL 3", proposed("1,2,3")]),
    (f"A {BEGIN} B {CONTINUE} A {END} B {CONTINUE} A {CLOSED}", ["LAWFUL 5", proposed('1,2,4,{"by":4},5')]),
    (f"A {BEGIN} B {CONTINUE} A {CLOSED}", ["LAWFUL 3", proposed('1,{"by":2},3', close=A_CLOSING)]),
    (f"A {INVOKE} B {REFUSED}", ["LAWFUL 2", proposed('{"by":1},2')]),
    (f"A {INVOKE} B {WITH_RESULT} A {UNRECOGNIZED}", ["LAWFUL 3", proposed("1,2,3", expire=AN_EXPIRY)]),
    (f"A {INVOKE} B {WITH_RESULT} A {UNRECOGNIZED}", ["UNDECIDED 0 66/51"], LASTING),
    (
        f"A {BEGIN} B {CONTINUE} A {END} A {OTHER} B {CONTINUE} A {CLOSED}",
        ["LAWFUL 6", proposed('1,2,"lost",4,{"by":5},6')],
    ),
    (f"A {LINKING} B {LINKED}", ["LAWFUL 2", proposed("1,2")]),
    (f"A {LONE}", ["LAWFUL 1", proposed("1")]),
    (f"A {INVOKE} B {RESULT} Q A {INVOKE} B {RESULT}", ["LAWFUL 5", proposed("1,2,3,4,5")]),
    ("Q", ["LAWFUL 1", proposed("1")]),
    # Neither.
    (f"A {TWICE}", ["UNDECIDED 0 65/45"]),
    (f"A {INVOKE} B {CONTINUE} B {WITH_RESULT} A {AGAIN} A {UNEXPECTED}", ["UNDECIDED 4 65/50"]),
    (f"A {INVOKE} B {LINKED}", ["UNDECIDED 1 65/49"]),
    (f"A {BEGIN} B {CONTINUE} A {END} B {CONTINUE}", ["UNDECIDED 3 64"]),
    (f"A {BAD_VERSION}", ["UNDECIDED 0 68/12"]),
    (f"A {BEGIN} A {BAD_VERSION} B {TO_NINE}", ["UNDECIDED 1 68/12"]),
    (f"A {BEGIN} Q", ["UNDECIDED 1 67"]),
    ("A 610A6C08A406020101810101", ["UNDECIDED 0 65/46"]),
    (
        f"A {REQUEST} B {ACCEPTED} A 67174901026B122810060700118605010101A0056403800101",
        ["UNDECIDED 2 65/43"],
    ),
    # One end is at fault.
    (f"A {NO_MESSAGE}", ["REFUTED 0 F1"]),
    (f"A {TO_NINE} A {NO_MESSAGE}", ["REFUTED 0 F2"]),
    (f"A {INVOKE} B {TO_NINE}", ["REFUTED 1 F2"]),
    (f"A {BEGIN} A {BACK}", ["REFUTED 1 F2"]),
    (f"A {BEGIN} A {BACK} B {CONTINUE}", ["REFUTED 1 F2"]),
    (f"A {BEGIN} B 67064901014A0101", ["REFUTED 1 F2"]),
    (f"A {BEGIN} B 67064901014A0102", ["REFUTED 1 F2"]),
    (f"A {INVOKE} Q B {RESULT}", ["REFUTED 2 F2"]),
    (f"A {BEGIN} A {BEGIN}", ["REFUTED 1 F3"]),
    (f"A {INVOKE} B {RESULT} A {INVOKE} B {RESULT}", ["REFUTED 2 F3"]),
    (f"A {BEGIN} A {OTHER} B {CONTINUE} B 6506480102490103", ["REFUTED 3 F3"]),
    (f"A {BEGIN} B {CONTINUE} A {END} A {END}", ["REFUTED 3 F4"]),
    (f"A {BEGIN} B {RESULT}", ["REFUTED 1 F5"]),
    (f"A {BEGIN} B {CONTINUE} A 650F4801014901026C07A4050500800100", ["REFUTED 2 F5"]),
    (f"A {CLASS_3} B {ERROR}", ["REFUTED 1 F6"]),
    ("A 620D4801016C08A106020101020163", ["REFUTED 0 F6"]),
    (f"A {INVOKE} B {ACCEPTED}", ["REFUTED 1 F7"]),
]

STATUSES = {"LAWFUL": 0, "REFUTED": 1, "UNDECIDED": 2}


def octets_of(entries):
    """The octets of a record."""
    ends = {"A": b"\x41", "B": b"\x42", "Q": b"\x51"}
    return b"".join(ends.get(word) or bytes.fromhex(word) for word in entries.split())


def rows():
    """Of each row the octets of the record, those of the table, what is to be printed, and the exit status."""
    for entries, lines, *table in ROWS:
        printed = "".join(f"{line}\n" for line in lines).encode()
        yield octets_of(entries), (table or [TABLE])[0].encode(), printed, STATUSES[lines[0].split()[0]]
