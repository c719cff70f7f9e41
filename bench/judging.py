"""Shows that `tcapjudge check`, `tcapjudge judge` and `tcapjudge blame` take time linear in the entries of a record,
and how long they take compared to `tcapjudge show`. For records of several shapes it prints the time for 100,000
entries, that time divided by the time of `show`, the ratios of the times for 25,000, 50,000 and 100,000 entries, and,
for `check`, the peak of memory with the greatest count of waiting messages. `make bench` builds the program first."""

import json
import os
import subprocess
import sys
import tempfile
import time

PROGRAM = "crates/tcapjudge/out/tcapjudge"
A, B, MARK = b"\x41", b"\x42", b"\x51"
COUNTS = 25_000, 50_000, 100_000
# Operations of each class, as docs/TABLES.md writes tables.
TABLE = {"operations": [{"class": class_, "code": 44 + class_} for class_ in (1, 2, 3, 4)]}


def element(tag, *contents):
    """Returns an element of definite length."""
    content = b"".join(contents)
    length = len(content)
    head = bytes([length]) if length < 128 else bytes([0x81, length]) if length < 256 else b"\x82" + length.to_bytes(2, "big")
    return bytes([tag]) + head + content


def transaction(tag, number):
    return element(tag, number.to_bytes(4, "big"))


def components(*parts):
    return element(0x6C, *parts) if parts else b""


def begin(otid, *parts):
    return element(0x62, transaction(0x48, otid), components(*parts))


def going_on(otid, dtid, *parts):
    return element(0x65, transaction(0x48, otid), transaction(0x49, dtid), components(*parts))


def end(dtid, *parts):
    return element(0x64, transaction(0x49, dtid), components(*parts))


def abort(dtid, cause):
    return element(0x67, transaction(0x49, dtid), element(0x4A, bytes([cause])))


def invoke(number, code):
    return element(0xA1, element(2, bytes([number])), element(2, bytes([code])))


def result(number, last=True):
    return element(0xA2 if last else 0xA7, element(2, bytes([number])))


def reject(number, problem):
    return element(0xA4, element(2, bytes([number])), element(0x82, bytes([problem])))


def prompt(entries):
    return {"close": [], "expire": [], "fates": [at + 1 for at in range(len(entries))], "version": 1}


# ---- records, each with a certificate that gives a run, and the greatest count of waiting messages


def in_turn(count):
    """Begins and Ends in turn."""
    entries = [x for n in range(count // 2) for x in (A + begin(n, invoke(1, 45)), B + end(n, result(1)))]
    return entries, prompt(entries), 1


def open_at_once(count):
    """A tenth as many dialogues open at once."""
    dialogues = range(count // 10)
    entries = [A + begin(n) for n in dialogues] + [B + going_on(n, n) for n in dialogues]
    for turn in range(7):
        entries += [(B if turn % 2 else A) + going_on(n, n, invoke(turn, 48)) for n in dialogues]
    entries += [A + end(n) for n in dialogues]
    return entries, prompt(entries), 1


def delayed(count):
    """Each message comes behind the last entry."""
    entries = [A + begin(n, invoke(1, 45)) for n in range(count)]
    return entries, prompt(entries) | {"fates": [count] * count}, count


def expiring(count):
    """An invocation ends unseen in each gap."""
    entries = [A + begin(0), B + going_on(0, 0)]
    entries += [A + going_on(0, 0, invoke(n % 100, 48)) for n in range(2, count)]
    listed = [{"at": n + 1, "component": 0, "end": "A", "entry": n} for n in range(2, count)]
    return entries, prompt(entries) | {"expire": listed}, 1


def of_one_id(count):
    """One ID is invoked again and again in class 4, then in class 1, and that is answered again and again."""
    entries = [A + begin(0), B + going_on(0, 0)]
    entries += [A + going_on(0, 0, invoke(1, 48)) for _ in range(count // 2)]
    entries += [A + going_on(0, 0, invoke(1, 45))]
    entries += [B + going_on(0, 0, result(1, last=False)) for _ in range(count - len(entries))]
    return entries, prompt(entries), 1


CHECKED = [in_turn, open_at_once, delayed, expiring, of_one_id]

# ---- records that are judged without a certificate


def short(count):
    """Many short dialogues."""
    return in_turn(count)[0]


def many_open(count):
    """A tenth as many dialogues open at once."""
    return open_at_once(count)[0]


def one_dialogue(count):
    """One dialogue."""
    entries = [A + begin(0), B + going_on(0, 0)]
    entries += [(A if n % 2 else B) + going_on(0, 0, invoke(n % 100, 48)) for n in range(count - 2)]
    return entries


def refused(count):
    """Continues that cross an End, each answered by a provider's Abort."""
    entries = []
    for n in range(count // 5):
        entries += [A + begin(n), B + going_on(n, n), A + end(n), B + going_on(n, n), A + abort(n, 1)]
    return entries


def rejected(count):
    """Results that come behind the end of their invocation, each rejected."""
    entries = [A + begin(0), B + going_on(0, 0)]
    for _ in range((count - 2) // 3):
        entries += [A + going_on(0, 0, invoke(1, 45)), B + going_on(0, 0, result(1)), A + going_on(0, 0, reject(1, 0))]
    return entries


def refuted_at_last(count):
    """Many short dialogues, and an End to an ID that was never asked from."""
    return short(count)[:-1] + [B + end(999_999_999)]


JUDGED = [short, many_open, one_dialogue, refused, rejected, refuted_at_last]


def one_id(count):
    """One dialogue and one invoke ID."""
    entries = [A + begin(0), B + going_on(0, 0)]
    for turn in range((count - 2) // 2):
        entries += [A + going_on(0, 0, invoke(1, 45)), B + going_on(0, 0, result(1))]
    return entries


BLAMED = [short, many_open, one_dialogue, one_id, refused, rejected]


def unheard(count):
    """Each message of A is one that B cannot receive."""
    return [A + going_on(n, 999_999_999) for n in range(count)]


ALONE = [short, many_open, one_dialogue, refused, rejected, unheard]

# ---- measures


def seconds(command):
    """Returns the least time of three runs, and the output of the last."""
    times = []
    for _ in range(3):
        start = time.perf_counter()
        run = subprocess.run(command, stdout=subprocess.PIPE, check=False)
        times.append(time.perf_counter() - start)
    return min(times), run.stdout


PEAK = """
import resource, subprocess, sys
subprocess.run(sys.argv[1:], stdout=subprocess.DEVNULL, check=False)
print(resource.getrusage(resource.RUSAGE_CHILDREN).ru_maxrss)
"""


def peak(command):
    """Returns the greatest memory of a run in kilobytes, or that of a small Python if that is more."""
    return int(subprocess.run([sys.executable, "-c", PEAK, *command], stdout=subprocess.PIPE, check=True).stdout)


def written(folder, name, octets):
    path = os.path.join(folder, name)
    with open(path, "wb") as file:
        file.write(octets)
    return path


def compared(folder, words, entries, *certificate):
    """Runs a command on a record. Returns its seconds, the seconds of `show`, its first line and the command."""
    record = written(folder, "record", b"".join(entries))
    table = written(folder, "table", json.dumps(TABLE).encode())
    paths = [written(folder, "certificate", json.dumps(c, separators=(",", ":")).encode()) for c in certificate]
    command = [PROGRAM, *words.split(), record, table, *paths]
    own, printed = seconds(command)
    shown, _ = seconds([PROGRAM, "show", record])
    return own, shown, printed.decode().split("\n")[0], command


def main():
    with tempfile.TemporaryDirectory() as folder:
        for shape in CHECKED:
            times = []
            for count in COUNTS:
                entries, certificate, waiting = shape(count)
                own, shown, line, command = compared(folder, "check", entries, certificate)
                times.append(own)
            print(
                f"check, {shape.__doc__.lower().rstrip('.')}: {len(entries)} entries in {own:.3f} s, {own / shown:.1f} times"
                f" `show`; twice as many {times[1] / times[0]:.2f}, four times {times[2] / times[0]:.2f};"
                f" {line}; {peak(command)} kB where {waiting} wait",
                flush=True,
            )
        asked = [("judge", JUDGED), ("blame", BLAMED), ("judge --end B", ALONE)]
        for word, shape in [(word, shape) for word, shapes in asked for shape in shapes]:
            times = []
            for count in COUNTS:
                entries = shape(count)
                own, shown, line, command = compared(folder, word, entries)
                times.append(own)
            print(
                f"{word}, {shape.__doc__.lower().rstrip('.')}: {len(entries)} entries in {own:.3f} s, {own / shown:.1f} times"
                f" `show`; twice as many {times[1] / times[0]:.2f}, four times {times[2] / times[0]:.2f}; {line}",
                flush=True,
            )


if __name__ == "__main__":
    main()
