"""Shows the cost of inputs that are made to be slow. For each it prints the processor time for n, 2n and 4n entries or
octets, the two ratios, and the program's first line. The status is 1 if twice the input takes more than LIMIT times as
long, or the program prints another line than the input was made for. The start of the program, over an empty record
and the same table, is subtracted, and the least of several runs counts. Times below NOISE mean nothing: n grows until
its time is above NOISE, as far as the limits of a record, a table and a certificate allow. `make attack` builds the
program first; its words choose attacks by parts of their names."""

import json
import math
import os
import random
import subprocess
import sys
import tempfile
import time

import judging
from judging import A, B, MARK, PROGRAM, abort, begin, components, element, end, going_on, invoke, result, transaction

LIMIT = 2.5
# The seconds below which a time means nothing, and above which no greater input is tried.
NOISE, MOST = 0.05, 15
# The most entries of a record, and the longest text of a table or a certificate.
ENTRIES, TEXT = 100_000, 67_108_864
OPERATION = judging.TABLE
EMPTY = b'{"operations":[]}'

# ---- parts of messages


def integer(tag, value):
    """Returns an INTEGER with as few octets as possible."""
    return element(tag, value.to_bytes((value.bit_length() + 8) // 8, "big", signed=True))


def invoke_of(number, code, linked=None):
    """Returns an Invoke of an operation: a number, or the octets of an OBJECT IDENTIFIER."""
    link = b"" if linked is None else element(0x80, bytes([linked]))
    operation = element(6, code) if isinstance(code, bytes) else integer(2, code)
    return element(0xA1, element(2, bytes([number])), link, operation)


def error(number):
    return element(0xA3, element(2, bytes([number])), element(2, b"\x01"))


def reject(number, tag, problem):
    return element(0xA4, element(2, bytes([number])), element(tag, bytes([problem])))


def unidirectional(*parts):
    return element(0x61, components(*parts))


def nested(depth, inside=b""):
    """Returns nested elements of indefinite length."""
    return b"\x30\x80" * depth + inside + b"\0\0" * depth


def table(rows, prearranged=False):
    return json.dumps({"operations": rows, "prearranged": prearranged}, separators=(",", ":")).encode()


def certificate(fates, expire=(), close=()):
    given = {"close": list(close), "expire": list(expire), "fates": list(fates), "version": 1}
    return json.dumps(given, separators=(",", ":")).encode()


def prompt(entries):
    return certificate(range(1, len(entries) + 1))


USUAL = table(OPERATION["operations"])
OPENED = [A + begin(1), B + going_on(1, 1)]

# ---- the inputs: each function makes, for n, the octets of a record, and of a table and a certificate if the command
# takes them


def cut_at_each_depth(n):
    """Nested indefinite lengths in a definite one, cut at each depth"""
    # From the depth of 33 on it is too deep, and also cut.
    head = element(2, b"\x01") + element(2, b"\x2d")
    one = [A + begin(1, element(0xA1, head, b"\x30\x80" * depth)) for depth in range(1, 65)]
    entries = [one[at % len(one)] for at in range(n)]
    return b"".join(entries), USUAL, prompt(entries)


def nested_to_the_limit(n):
    """Messages that are full of nested indefinite lengths, and cut in the last"""
    inner = nested(28) * ((65_000 - 40) // 112)
    whole = b"\x62\x80" + transaction(0x48, 1) + b"\x6c\x80\xa1\x80" + element(2, b"\x01") + element(2, b"\x2d")
    one = A + whole + b"\x30\x80" + inner + b"\0\0" * 4
    return one * n + one[:-3], USUAL


def endings_in_endings(n):
    """One message of n octets of empty indefinite elements, in each level of the grammar, a hundred times"""
    inner = b"\xa1\x80" + element(2, b"\x01") + element(2, b"\x2d") + b"\x30\x80\0\0" + b"\0\0"
    one = A + b"\x62\x80" + transaction(0x48, 1) + b"\x6c\x80" + inner * (n // len(inner)) + b"\0\0" * 2
    return one * 100, USUAL


def user_information(n):
    """One dialogue portion with n octets of EXTERNALs of indefinite length, a hundred times"""
    name = element(6, bytes.fromhex("00118605010101"))
    context = element(0xA1, element(6, bytes.fromhex("04000001001302")))
    inner = b"\xbe\x80" + b"\x28\x80\0\0" * (n // 4) + b"\0\0"
    pdu = b"\xa0\x80\x60\x80" + context + inner + b"\0\0" * 2
    one = A + b"\x62\x80" + transaction(0x48, 1) + b"\x6b\x80\x28\x80" + name + pdu + b"\0\0" * 3
    return one * 100, USUAL


def one_transaction(n):
    """All entries in one transaction"""
    entries = OPENED + [(A if at % 2 else B) + going_on(1, 1, invoke(at // 2 % 120, 48)) for at in range(n - 2)]
    return b"".join(entries), USUAL, prompt(entries)


def one_invoke_id(n):
    """One invoke ID: invocations of class 4, and behind them answers that walk over these"""
    entries = OPENED + [A + going_on(1, 1, invoke(1, 48)) for _ in range(n // 2)] + [A + going_on(1, 1, invoke(1, 45))]
    entries += [B + going_on(1, 1, result(1, last=False)) for _ in range(n - len(entries))]
    return b"".join(entries), USUAL, prompt(entries)


def links_over_one_invoke_id(n):
    """One invoke ID: invocations to which nothing may be linked, and behind them Invokes that are linked to the last"""
    rows = OPERATION["operations"] + [{"class": 4, "code": 50, "linked": [48]}]
    entries = OPENED + [A + going_on(1, 1, invoke(1, 48)) for _ in range(n // 2)] + [A + going_on(1, 1, invoke(1, 50))]
    entries += [B + going_on(1, 1, invoke_of(at % 120, 48, linked=1)) for at in range(n - len(entries))]
    return b"".join(entries), table(rows), prompt(entries)


def rejects_over_one_invoke_id(n):
    """One invoke ID: Invokes without a link, and behind them linked ones that the peer rejects for their links"""
    entries = OPENED + [A + going_on(1, 1, invoke(1, 48)) for _ in range(n // 2)]
    # A may link 48 to B's invocation 2 of 50. When the links come, B no longer has it: its 2 is one of 51, which lists
    # nothing.
    rows = OPERATION["operations"] + [{"class": 4, "code": 50, "linked": [48]}, {"class": 4, "code": 51}]
    entries += [B + going_on(1, 1, invoke(2, 50)), B + going_on(1, 1, invoke(2, 51))]
    count = (n - len(entries)) // 2
    entries += [A + going_on(1, 1, invoke_of(1, 48, linked=2)) for _ in range(count)]
    entries += [B + going_on(1, 1, reject(1, 0x81, 6)) for _ in range(n - len(entries))]
    return b"".join(entries), table(rows), prompt(entries)


def grants_of_one_id(n):
    """Answers of one ID, of which the oldest do not allow the Rejects that come behind them"""
    count = n // 3
    entries = OPENED + [A + going_on(1, 1, invoke(1, 45))]
    entries += [B + going_on(1, 1, result(1, last=False)) for _ in range(count)]
    # The ID is invoked again, with class 2: B's further answers to the first invocation are not expected.
    entries += [A + going_on(1, 1, invoke(1, 46))]
    entries += [B + going_on(1, 1, result(1, last=False)) for _ in range(count)]
    entries += [A + going_on(1, 1, reject(1, 0x82, 1)) for _ in range(min(count, n - len(entries)))]
    return b"".join(entries), USUAL, prompt(entries)


def grants_in_few_messages(n):
    """Answers of one ID, a thousand in a message, of which the oldest do not allow the Rejects that come behind them"""
    count = n // 3
    entries = OPENED + [A + going_on(1, 1, invoke(1, 45))]
    entries += [B + going_on(1, 1, *[result(1, last=False)] * 1000) for _ in range(count)]
    entries += [A + going_on(1, 1, invoke(1, 46))]
    entries += [B + going_on(1, 1, *[result(1, last=False)] * 1000) for _ in range(count)]
    entries += [A + going_on(1, 1, *[reject(1, 0x82, 1)] * 1000) for _ in range(count)]
    return b"".join(entries), USUAL, prompt(entries)


def global_code(length, number):
    """Returns the contents of an OBJECT IDENTIFIER of that length, which differs from others in its last two
    octets."""
    return b"\x2a" * (length - 2) + bytes([0x80 | 1 + number // 128, number % 128])


def codes_of_many_octets(n):
    """A thousand global codes of n octets that differ in the last two, and Invokes of each"""
    rows = [{"class": 4, "code": global_code(n, at).hex()} for at in range(1000)]
    entries = OPENED + [A + going_on(1, 1, invoke_of(at % 120, global_code(n, at))) for at in range(1000)]
    return b"".join(entries), table(rows), prompt(entries)


def many_invokes_of_such_codes(n):
    """Invokes of a thousand global codes of 200 octets that differ in the last two"""
    rows = [{"class": 4, "code": global_code(200, at).hex()} for at in range(1000)]
    entries = OPENED + [A + going_on(1, 1, invoke_of(at % 120, global_code(200, at % 1000))) for at in range(n)]
    return b"".join(entries), table(rows), prompt(entries)


def linked_to_many(n):
    """A thousand operations, each with a thousand linked codes, and Invokes that ask them"""
    rows = [{"class": 4, "code": at, "linked": list(range(1000))} for at in range(1000)]
    entries = OPENED + [B + going_on(1, 1, *[invoke_of(at, 8 * at) for at in range(120)])]
    entries += [A + going_on(1, 1, invoke_of(at % 120, at % 1000, linked=at % 120)) for at in range(n - 3)]
    return b"".join(entries), table(rows), prompt(entries)


def many_linked(n):
    """A thousand operations, each with n linked codes"""
    rows = [{"class": 4, "code": at, "linked": list(range(n))} for at in range(1000)]
    return OPENED[0], table(rows), prompt(OPENED[:1])


def many_closings(n):
    """A certificate that closes all halves in the last gap, from the last on"""
    entries = [A + begin(at) for at in range(n)]
    close = [{"at": n, "end": "A", "entry": at} for at in reversed(range(n))]
    return b"".join(entries), USUAL, certificate([n] * n, close=close)


def many_expiries(n):
    """A certificate that ends an invocation of each half in the last gap, from the last on"""
    entries = [A + begin(at, invoke(1, 45)) for at in range(n)]
    expire = [{"at": n, "component": 0, "end": "A", "entry": at} for at in reversed(range(n))]
    return b"".join(entries), USUAL, certificate([n] * n, expire=expire)


def closings_of_one(n):
    """A certificate that closes one half again and again"""
    entries = [A + begin(1)]
    return entries[0], USUAL, certificate([1], close=[{"at": 1, "end": "A", "entry": 0}] * n)


def expiries_of_one(n):
    """A certificate that ends the last of many components again and again"""
    entries = [A + begin(1, *[invoke(at % 128, 45) for at in range(100)])]
    return entries[0], USUAL, certificate([1], expire=[{"at": 1, "component": 99, "end": "A", "entry": 0}] * n)


def ties_across(n):
    """Continues that cross an End, and behind them all a provider's Abort for each"""
    count = (n - 3) // 2
    entries = OPENED + [A + end(1)] + [B + going_on(1, 1)] * count + [A + abort(1, 1)] * count
    fates = [1, 2, len(entries)] + [{"by": 3 + count + at} for at in range(count)] + [len(entries)] * count
    return b"".join(entries), USUAL, certificate(fates)


def refusals_across(n):
    """Begins, and behind them all a provider's Abort for each"""
    count = n // 2
    entries = [A + begin(at) for at in range(count)] + [B + abort(at, 4) for at in range(count)]
    fates = [{"by": count + at} for at in range(count)] + [len(entries)] * count
    return b"".join(entries), USUAL, certificate(fates)


def taken_by_one(n):
    """A certificate by which one Abort takes all entries before it"""
    entries = OPENED + [A + end(1)] + [B + going_on(1, 1)] * (n - 4) + [A + abort(1, 1)]
    fates = [1, 2, n] + [{"by": n - 1}] * (n - 4) + [n]
    return b"".join(entries), USUAL, certificate(fates)


def all_bad(n):
    """Entries that are no messages"""
    entries = [A + bytes.fromhex("62054801016c00")] * n
    return b"".join(entries), USUAL, prompt(entries)


def all_bad_at_the_end(n):
    """Messages of 4,000 components of which the last is none"""
    one = A + element(0x62, transaction(0x48, 1), components(*[result(1)] * 4000, b"\xa9\0"))
    return one * n, USUAL, prompt([one] * n)


def beyond_the_profile(n):
    """Entries beyond the limits of the profile, of which no end is at fault"""
    version = "622d4801016b1e281c060700118605010101a011600f80020700a1090607040000010013026c08a10602010102012d"
    return (A + bytes.fromhex(version)) * n, USUAL, prompt([version] * n)


def white_table(n):
    """A table behind n octets of white space"""
    return b"", b" " * (n - len(EMPTY)) + EMPTY


def white_certificate(n):
    """A certificate behind n octets of white space"""
    return b"", EMPTY, certificate([]).rjust(n)


def long_key(n):
    """A table with a key of n octets"""
    return b"", b'{"operations":[],"' + b"k" * n + b'":0}'


def long_key_of_escapes(n):
    """A table with a key of n octets of escapes"""
    return b"", b'{"operations":[],"' + b"\\u00e9" * (n // 6) + b'":0}'


def many_keys(n):
    """A table with n keys"""
    return b"", b'{"operations":[],' + b",".join(b'"%d":0' % at for at in range(n)) + b"}"


def many_keys_in_a_certificate(n):
    """A certificate with n keys"""
    return b"", EMPTY, b'{"close":[],' + b",".join(b'"%d":0' % at for at in range(n)) + b"}"


def one_key_again(n):
    """A table with one key n times"""
    return b"", b"{" + b'"operations":[],' * n + b'"prearranged":false}'


def many_values(n):
    """A table that is a list of n lists"""
    return b"", b"[" + b",".join([b"[]"] * n) + b"]"


def long_number(n):
    """A table whose class is a number of n digits"""
    return b"", b'{"operations":[{"class":' + b"1" * n + b',"code":1}]}'


def long_fraction(n):
    """A table whose class is a fraction of n digits"""
    return b"", b'{"operations":[{"class":0.' + b"1" * n + b',"code":1}]}'


def long_exponent(n):
    """A table whose class has an exponent of n digits"""
    return b"", b'{"operations":[{"class":1e' + b"1" * n + b',"code":1}]}'


def many_open_lists(n):
    """A table of n lists that are not closed"""
    return b"", b"[" * n


def many_fates(n):
    """A certificate of n fates"""
    return b"", EMPTY, certificate(range(1, n + 1))


def too_many_rows(n):
    """A table of n rows"""
    return b"", table([{"class": 1, "code": at} for at in range(n)])


def falling_ids(n):
    """Begins with falling transaction IDs"""
    entries = [A + begin(n - at) for at in range(n)]
    return b"".join(entries), USUAL, prompt(entries)


def shuffled_ids(n):
    """Begins with transaction IDs in no order, half of them answered"""
    numbers = list(range(n // 2))
    random.Random(n).shuffle(numbers)
    entries = [A + begin(at) for at in numbers] + [B + going_on(at * 7919 % (n // 2), at) for at in sorted(numbers)]
    return b"".join(entries), USUAL, prompt(entries)


def all_delayed(n):
    """Messages that all come behind the last entry"""
    entries = [A + begin(at, invoke(1, 45)) for at in range(n)]
    return b"".join(entries), USUAL, certificate([n] * n)


def marks_alone(n):
    """Quiet marks alone"""
    return MARK * n, USUAL, certificate(range(1, n + 1))


def marks_between(n):
    """A quiet mark behind each dialogue"""
    entries = [A + begin(1, invoke(1, 45)), B + end(1, result(1)), MARK] * (n // 3)
    return b"".join(entries), USUAL, prompt(entries)


def lone_messages(n):
    """Unidirectionals with 120 Invokes each"""
    entries = [A + unidirectional(*[invoke(at, 48) for at in range(120)])] * n
    return b"".join(entries), USUAL, prompt(entries)


def unrecognized_results(n):
    """Results that come behind the end of their invocation, and are rejected all at once behind them"""
    entries = OPENED + [A + going_on(1, 1, *[invoke(at, 45) for at in range(100)])]
    entries += [B + going_on(1, 1, *[result(at, last=False) for at in range(100)])] * (n // 200)
    entries += [A + going_on(1, 1, *[reject(at, 0x82, 0) for at in range(100)])] * (n // 200)
    return b"".join(entries), USUAL


def aborts_to_open_halves(n):
    """Halves that are surely open, Continues of one ID that go to each of them, and Aborts that ask whether all do"""
    count = n // 4
    entries = [B + begin(at) for at in range(count)] + [A + going_on(at, at) for at in range(count)]
    # The last one goes to an ID that A never used, so the Aborts answer something.
    entries += [B + going_on(0, at) for at in range(count)] + [B + going_on(0, 999_999_999)] * 2
    entries += [A + abort(0, 1) for _ in range(n - len(entries))]
    return b"".join(entries), USUAL


def links_to_many_operations(n):
    """One invoke ID with many operations, of which the last lists those that are linked to it"""
    rows = OPERATION["operations"] + [{"class": 4, "code": 50, "linked": [48]}]
    entries = OPENED + [B + going_on(1, 1, invoke_of(1, 1000 + at)) for at in range(n // 2)]
    entries += [B + going_on(1, 1, invoke(1, 50))]
    entries += [A + going_on(1, 1, invoke_of(at % 120, 48, linked=1)) for at in range(n - len(entries))]
    return b"".join(entries), table(rows)


def rejects_of_links(codes, operations, count):
    """Returns a record with `count` Rejects, and a table with this many operations, which list this many codes. B
    begins, so that all of A's invocations are known. A invokes 7 with each operation. B's Invokes of 1 are linked to
    7, one for each code and then some of a code that is not listed. A rejects 1 for its unexpected link, which is true
    only of these last ones."""
    listed = list(range(2000, 2000 + codes))
    rows = [{"class": 4, "code": 1000 + at, "linked": listed} for at in range(operations)]
    entries = [B + begin(1), A + going_on(1, 1)]
    entries += [A + going_on(1, 1, invoke_of(7, 1000 + at)) for at in range(operations)]
    for at in range(0, codes, 500):
        entries.append(B + going_on(1, 1, *[invoke_of(1, code, linked=7) for code in listed[at : at + 500]]))
    entries += [B + going_on(1, 1, *[invoke_of(1, 48, linked=7)] * 500) for _ in range(count // 500 + 1)]
    entries += [A + going_on(1, 1, reject(1, 0x81, 7)) for _ in range(count)]
    return b"".join(entries), table(rows)


def rejects_of_many_links(n):
    """Rejects that say that a link is unexpected, where there are a thousand linked Invokes to a thousand operations"""
    return rejects_of_links(999, 999, n)


def one_reject_of_many_links(n):
    """One Reject that says that a link is unexpected, behind linked Invokes of each of the n links of the table"""
    # Twice the input is twice the table: each of its links may cost a look.
    side = math.isqrt(n)
    return rejects_of_links(side, side, 1)


def answers_over_many_own_ids(n):
    """Continues of one ID that come back to n / 2 own IDs, and one End of n / 25 results that may answer any of them"""
    count = n // 2
    entries = [A + begin(at) for at in range(count)]
    entries += [B + going_on(1, at, invoke(0, 45), invoke(1, 45)) for at in range(count)]
    entries += [A + end(1, *[result(at % 2) for at in range(n // 25)])]
    return b"".join(entries), USUAL


def codes_of_one_end(n):
    """One invoke ID with as many operations as Invokes, none of which the table has, and Rejects of them behind"""
    entries = OPENED + [A + going_on(1, 1, invoke_of(1, 1000 + at)) for at in range(n // 2)]
    entries += [B + going_on(1, 1, reject(1, 0x81, 1)) for _ in range(n - len(entries))]
    return b"".join(entries), USUAL


def codes_of_one_end_twice(n):
    """One invoke ID with half as many operations as Invokes, none of which the table has, and Rejects of them behind"""
    entries = OPENED + [A + going_on(1, 1, invoke_of(1, 1000 + at)) for at in range(n // 4)] * 2
    entries += [B + going_on(1, 1, reject(1, 0x81, 1)) for _ in range(n // 2 - 2)]
    return b"".join(entries), USUAL


def results_of_many_operations(n):
    """One invoke ID with many operations, and results that name them"""
    rows = [{"class": 1, "code": at} for at in range(1000)]
    entries = OPENED + [B + going_on(1, 1, invoke_of(1, at % 1000)) for at in range(n // 2)]
    for at in range(n - len(entries)):
        named = element(0xA2, element(2, b"\x01"), element(0x30, integer(2, at % 1000)))
        entries.append(A + going_on(1, 1, named))
    return b"".join(entries), table(rows), prompt(entries)


def empty_lines(n):
    """Lines that are empty"""
    return b"\n" * n


def comment_lines(n):
    """Lines of comments of 60 octets"""
    return (b"#" * 60 + b"\n") * n


def begin_lines(n):
    """Lines of Begins"""
    return b"A 6203480101\n" * n


def long_line(n):
    """One line of n octets without an end"""
    return b"A" * n


# The word or words, the input, the greatest n, and the beginning of the first line.
CHECK, ALL = ("check",), ("check", "judge", "blame")
ATTACKS = [
    (("show", "judge", "blame"), cut_at_each_depth, ENTRIES, ("0 A FAULT 5", "REFUTED 0 F1", "REFUTED 0 F1")),
    (("show", "judge"), nested_to_the_limit, 1_000, ("0 A Begin", "FAULT 21")),
    (("show", "judge"), endings_in_endings, 65_000, ("0 A Begin", "REFUTED 1 F3")),
    (("show", "judge"), user_information, 65_000, ("0 A Begin", "REFUTED 1 F3")),
    (ALL, one_transaction, ENTRIES, "LAWFUL"),
    (ALL, one_invoke_id, ENTRIES, "LAWFUL"),
    (ALL, links_over_one_invoke_id, ENTRIES, "LAWFUL"),
    (ALL, rejects_over_one_invoke_id, ENTRIES, "LAWFUL"),
    (ALL, grants_of_one_id, ENTRIES, "LAWFUL"),
    (ALL, grants_in_few_messages, 1_000, "LAWFUL"),
    (ALL, codes_of_many_octets, 32_000, "LAWFUL"),
    (ALL, many_invokes_of_such_codes, ENTRIES - 2, "LAWFUL"),
    (ALL, linked_to_many, ENTRIES, "LAWFUL"),
    (CHECK, many_linked, 1_000, "LAWFUL"),
    (CHECK, many_closings, ENTRIES, "LAWFUL"),
    (CHECK, many_expiries, ENTRIES, "LAWFUL"),
    (CHECK, closings_of_one, 1_600_000, "NOT SHOWN 0 66/52"),
    (CHECK, expiries_of_one, 1_200_000, "NOT SHOWN 0 66/51"),
    (ALL, ties_across, ENTRIES, "LAWFUL"),
    (ALL, refusals_across, ENTRIES, "LAWFUL"),
    (CHECK, taken_by_one, ENTRIES, "NOT SHOWN"),
    (("show", *ALL), all_bad, ENTRIES, ("0 A FAULT 11 6", "NOT SHOWN 0 68/11", "REFUTED 0 F1", "REFUTED 0 F1")),
    (("show", *ALL), all_bad_at_the_end, 4_000, ("0 A FAULT 8", "NOT SHOWN 0 68/8", "REFUTED 0 F1", "REFUTED 0 F1")),
    (("show", "check"), beyond_the_profile, ENTRIES, ("0 A FAULT 12", "NOT SHOWN 0 68/12")),
    (("judge", "blame"), beyond_the_profile, ENTRIES, "UNDECIDED 0 68/12"),
    (("judge",), white_table, TEXT, "LAWFUL 0"),
    (CHECK, white_certificate, TEXT, "LAWFUL 0"),
    (("judge",), long_key, TEXT - 100, "FAULT 31 0"),
    (("judge",), long_key_of_escapes, TEXT - 100, "FAULT 31 0"),
    (("judge",), many_keys, 4_000_000, "FAULT 31 0"),
    (CHECK, many_keys_in_a_certificate, 4_000_000, "FAULT 60 0"),
    (("judge",), one_key_again, 4_000_000, ""),
    (("judge",), many_values, 4_000_000, "FAULT 31 0"),
    (("judge",), long_number, TEXT - 100, "FAULT"),
    (("judge",), long_fraction, TEXT - 100, "FAULT"),
    (("judge",), long_exponent, TEXT - 100, "FAULT"),
    (("judge",), many_open_lists, TEXT, "FAULT 30 0"),
    (CHECK, many_fates, ENTRIES, "NOT SHOWN 0 61"),
    (("judge",), too_many_rows, 2_000_000, "FAULT 34 0"),
    (ALL, falling_ids, ENTRIES, "LAWFUL"),
    (ALL, shuffled_ids, ENTRIES, "LAWFUL"),
    (CHECK, all_delayed, ENTRIES, "LAWFUL"),
    (ALL, marks_alone, ENTRIES, "LAWFUL"),
    (ALL, marks_between, ENTRIES, "LAWFUL"),
    (ALL, lone_messages, 10_000, "LAWFUL"),
    (("judge", "blame"), unrecognized_results, ENTRIES * 100, "UNDECIDED"),
    (("judge", "blame"), aborts_to_open_halves, ENTRIES, "REFUTED"),
    (("judge", "blame"), links_to_many_operations, ENTRIES, "REFUTED 2 F6"),
    (("judge", "blame"), rejects_of_many_links, 40_000, "REFUTED"),
    (("judge", "blame"), one_reject_of_many_links, 998_001, "REFUTED"),
    (("judge", "blame"), answers_over_many_own_ids, ENTRIES - 1, "REFUTED"),
    (ALL, results_of_many_operations, ENTRIES, "LAWFUL"),
    (("judge --end B",), codes_of_one_end, ENTRIES, "LAWFUL"),
    (("judge --end B",), codes_of_one_end_twice, ENTRIES, "LAWFUL"),
    (("pack",), empty_lines, 1_000_000, ""),
    (("pack",), comment_lines, 1_000_000, ""),
    (("pack",), begin_lines, 100_000, ""),
    (("pack",), long_line, TEXT, ""),
]

# ---- measures


def cost(command):
    """Returns the processor seconds of a run, and its first line."""
    with subprocess.Popen(command, stdout=subprocess.PIPE, stderr=subprocess.DEVNULL) as run:
        line = run.stdout.readline()
        while run.stdout.read(1 << 20):
            pass
        _, _, used = os.wait4(run.pid, 0)
        run.returncode = 0
    return used.ru_utime + used.ru_stime, line.decode(errors="replace").rstrip("\n")


def least(command, turns):
    """Returns the least of this many runs, or of fewer if they are long, and the first line of the last."""
    times = []
    for _ in range(turns):
        seconds, line = cost(command)
        times.append(seconds)
        if sum(times) > 2:
            break
    return min(times), line


def files(folder, given):
    """Writes a record, and a table and a certificate if they are given. Returns their paths."""
    octets = (given,) if isinstance(given, bytes) else given
    return [judging.written(folder, name, text) for name, text in zip(("record", "table", "cert"), octets)]


def command_of(word, paths):
    return [PROGRAM, *word.split(), *paths[: {"show": 1, "pack": 1, "check": 3}.get(word, 2)]]


def start_of(folder, word, make, turns):
    """Returns the processor time of the program's start: over an empty record, with the table for n = 1."""
    given = make(1)
    given_table = EMPTY if isinstance(given, bytes) else given[1]
    paths = files(folder, (b"", given_table, certificate([])))
    return least(command_of(word, paths), turns)[0]


def times_of(folder, word, make, count, turns, start):
    """Returns the times for `count`, twice and four times as much, without the time of the start, and the first line
    of the last run. Stops after a time that is too long."""
    times, line = [], ""
    for factor in (1, 2, 4):
        seconds, line = least(command_of(word, files(folder, make(count * factor))), turns)
        times.append(max(seconds - start, 1e-6))
        if times[-1] > MOST:
            break
    return times, line


def is_over(times):
    """Returns whether the times show that twice the input takes too long."""
    ratios = [after / before for before, after in zip(times, times[1:])]
    return max(times) >= NOISE and (len(times) < 3 or any(ratio > LIMIT for ratio in ratios))


def attacked(folder, word, make, most):
    """Returns the n that was taken, the times for n, 2n and 4n, and the line. Times that seem too long are measured
    again."""
    start, count = start_of(folder, word, make, 3), max(1, most // 64)
    while count * 8 <= most:
        if least(command_of(word, files(folder, make(count))), 3)[0] - start >= NOISE:
            break
        count *= 2
    times, line = times_of(folder, word, make, count, 3, start)
    if is_over(times) and times[-1] < MOST:
        again, _ = times_of(folder, word, make, count, 9, start)
        times = [min(pair) for pair in zip(times, again)]
    return count, times, line


def main():
    chosen = sys.argv[1:]
    over, wrong, run = [], [], 0
    began = time.monotonic()
    with tempfile.TemporaryDirectory() as folder:
        for words, make, most, wanted in ATTACKS:
            for at, word in enumerate(words):
                name = f"{word}, {make.__doc__[0].lower()}{make.__doc__[1:]}"
                if chosen and not any(part in f"{word} {make.__name__}" for part in chosen):
                    continue
                run += 1
                count, times, line = attacked(folder, word, make, most)
                ratios = [after / before for before, after in zip(times, times[1:])]
                prefix = wanted if isinstance(wanted, str) else wanted[at]
                if is_over(times):
                    over.append(name)
                if not line.startswith(prefix):
                    wrong.append(name)
                print(
                    f"{'OVER ' if is_over(times) else ''}{name}: {count * 2 ** (len(times) - 1)} in {times[-1]:.3f} s;"
                    f" twice as many {' and '.join(f'{ratio:.2f}' for ratio in ratios) or 'were not tried'}"
                    f"{' (too fast to tell)' if max(times) < NOISE else ''}; {line[:60]}"
                    f"{'' if line.startswith(prefix) else f', WANTED {prefix}'}",
                    flush=True,
                )
    print(
        f"{run} inputs in {time.monotonic() - began:.0f} s: {len(over)} over {LIMIT} times for twice the input,"
        f" {len(wrong)} with another answer than wanted"
    )
    return int(bool(over or wrong))


if __name__ == "__main__":
    sys.exit(main())
