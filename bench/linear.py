"""Shows that `tcapjudge show` and reading messages as views take time linear in the octets, and that `show` takes no
more memory for a longer record. It prints the ratios of the times, and the peaks of memory, for an input and for
inputs with two and four times as many entries or messages. The records have short entries, long ones, entries with as
many components as fit, and entries with dialogue portions. The viewed messages are those of the worked rows, one after
the other. It does the same for walks over an element of indefinite length made of elements of two octets; for framing
a record, at once and one octet at a time; and for an end that sends and one that receives a transaction of many
Continues, each with an Invoke that is never answered. If there is a C compiler, it prints how much longer `show` takes
than a plain C program that prints the same lines. `make bench` builds the programs first."""

import re
import shutil
import subprocess
import sys
import tempfile
import time

SHOW = ["crates/tcapjudge/out/tcapjudge", "show"]
VIEW = ["crates/tcap_bench/out/tcap_bench"]
SMALL = bytes.fromhex("41620d4801016c08a10602010102012d")
RAW = bytes.fromhex("0482ffea") + bytes(65514)
MANY = bytes.fromhex("416282fffc4801016c82fff5") + bytes.fromhex("a203020101") * 13_105
LARGE = bytes.fromhex("416282ffff4801016c82fff8a182fff402010102012d") + RAW
DIALOGUE = bytes.fromhex(
    "42653948010249010"
    "16b2a2828060700118605010101a01d611b80020780a109060704000001001302a203020100a305a1030201006c05a203020101"
)
# How often the program reads its input.
ROUNDS = 200

with open("crates/tcap_vectors/src/vectors.rt") as file:
    # The digits of a row come after its name.
    DIGITS = re.findall(r'^\w+;([0-9a-f]+);', file.read(), re.MULTILINE)
VECTORS = b"".join(bytes.fromhex(digits) for digits in DIGITS)


def element(count):
    """Returns an element of indefinite length that has this many elements of two octets."""
    return bytes.fromhex("6280") + bytes.fromhex("0400") * count + bytes(2)


def seconds(command, given):
    """Returns the least time of three runs over that input."""
    times = []
    for _ in range(3):
        start = time.perf_counter()
        subprocess.run(command, input=given, stdout=subprocess.DEVNULL, check=True)
        times.append(time.perf_counter() - start)
    return min(times)


# Runs a command and prints the greatest memory that it took. It is a separate small process, since the memory of the
# process that starts a program counts for the program too.
PEAK = """
import resource, subprocess, sys
subprocess.run(sys.argv[1:], stdout=subprocess.DEVNULL, check=True)
print(resource.getrusage(resource.RUSAGE_CHILDREN).ru_maxrss)
"""


def peak(command, given):
    """Returns the greatest memory of a run over that input in kilobytes, or that of a small Python if that is more."""
    with tempfile.TemporaryFile() as file:
        file.write(given)
        file.seek(0)
        run = subprocess.run([sys.executable, "-c", PEAK, *command], stdin=file, stdout=subprocess.PIPE, check=True)
    return int(run.stdout)


def growth(command, part, count):
    """Returns the times for this many parts one after the other, for twice and for four times as many."""
    return [seconds(command, part * (count * times)) for times in (1, 2, 4)]


KINDS = [
    ("small entries", SMALL, 25_000),
    ("large entries", LARGE, 200),
    ("entries of many components", MANY, 20),
    ("entries with dialogue portions", DIALOGUE, 10_000),
]
for name, entry, count in KINDS:
    once, twice, again = growth(SHOW, entry, count)
    least, most = (peak(SHOW, entry * (count * times)) for times in (1, 4))
    print(
        f"show, {name}: {count} in {once:.3f} s; twice as many {twice / once:.2f}, four times {again / once:.2f};"
        f" memory {least} kB, of four times as many {most} kB"
    )
once, twice, again = growth(VIEW, VECTORS, 20)
each = once / (20 * ROUNDS * len(DIGITS)) * 1e9
print(
    f"view of the {len(DIGITS)} vectors, {20 * ROUNDS} times: {once:.3f} s, {each:.0f} ns a message;"
    f" twice as many {twice / once:.2f}, four times {again / once:.2f}"
)
QUARTER = 8_125
for way, name in (("walk", "in one go"), ("octets", "one octet at a time")):
    once, twice, again = (seconds(VIEW + [way], element(QUARTER * times)) for times in (1, 2, 4))
    each = again / (ROUNDS * 4 * QUARTER * 2) * 1e9
    print(
        f"walk of an element of {QUARTER * 8} octets, {name}, {ROUNDS} times: {again:.3f} s, {each:.1f} ns an octet;"
        f" a quarter of it {once:.3f} s, half {twice / once:.2f} times that, all {again / once:.2f}"
    )
WAYS = [VIEW + [way] for way in ("frames", "frames-octets")]
WHOLE, OCTETS = (seconds(way, SMALL * 50_000) for way in WAYS)
MOST, LEAST = (peak(way, SMALL * 50_000) for way in WAYS)
print(
    f"framing 50000 small entries: whole {WHOLE:.3f} s, one octet at a time {OCTETS / WHOLE:.2f} times that;"
    f" memory, with the record's {len(SMALL) * 50} kB, {MOST} kB and {LEAST} kB"
)
# A Begin from end B, and a Continue that answers it with an Invoke of class 4; then from end A, and from end B.
SENT = bytes.fromhex("426203480101"), bytes.fromhex("4165104801024901016c08a106020101020130")
RECEIVED = bytes.fromhex("416203480101"), bytes.fromhex("4265104801024901016c08a106020101020130")
for name, (begin, going_on) in (("sent", SENT), ("received", RECEIVED)):
    once, twice, again = (seconds(VIEW + ["end"], begin + going_on * (25_000 * times - 1)) for times in (1, 2, 4))
    print(
        f"99999 Continues {name} by one end, each with an Invoke of class 4: {again:.3f} s;"
        f" a quarter of them {once:.3f} s, half {twice / once:.2f} times that, all {again / once:.2f}"
    )
COMPILER = shutil.which("cc") or shutil.which("gcc")
if COMPILER:
    with tempfile.TemporaryDirectory() as folder:
        plain = f"{folder}/show_begins"
        subprocess.run([COMPILER, "-O2", "-o", plain, "bench/show_begins.c"], check=True)
        for name, entry in (("Begins", bytes.fromhex("416203480101")), ("Begins with an Invoke", SMALL)):
            # In turn, since the speed of the machine may change.
            turns = [[seconds(command, entry * 100_000) for command in (SHOW, [plain])] for _ in range(10)]
            ours, theirs = (min(times) for times in zip(*turns))
            print(f"show of 100000 {name}: {ours:.4f} s, {ours / theirs:.1f} times the {theirs:.4f} s of a plain C program")
