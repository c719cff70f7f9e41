"""Makes captures (capture_rows.py, made_captures.py ..), has tools/lines_of_capture.py make lines from them, packs and
shows or judges these with the built program, and compares. Then it compares the output of `tshark` and of `tcapjudge show` for
every named vector and for random messages (wireshark.py). Last it runs the commands of the pages (capture_recipes.py).
If tshark is not installed, it says so and counts nothing."""

import concurrent.futures
import contextlib
import glob
import io
import os
import random
import re
import shutil
import subprocess
import sys
import tempfile

import rooms  # noqa: F401
import made_captures as made
import made_network
from tested import PROGRAM

sys.path.insert(0, "tools")

import capture_answers
import capture_carried
import capture_frames
import capture_malformed
import capture_recipes
import capture_shapes
import capture_rows
import cut_rows
import lines_of_capture
import wireshark

TOOL, OPERATIONS = "tools/lines_of_capture.py", "examples/operations.json"
VECTORS = "crates/tcap_vectors/src/vectors.rt"
DAMAGED = 3000
# The number of messages of the network.
MESSAGES = 3000


def run(*words, env=None):
    return subprocess.run(words, capture_output=True, check=False, env=env)


def lines_of(folder, capture, options):
    """Returns the tool's run on a capture, and all lines of each file that it wrote."""
    path, out = f"{folder}/capture", f"{folder}/lines"
    shutil.rmtree(out, ignore_errors=True)
    if capture is not None:
        with open(path, "wb") as file:
            file.write(capture)
    said = run(sys.executable, TOOL, path if capture is not None else f"{folder}/none", out, *options)
    files = []
    for number in range(1, 1 + len(os.listdir(out)) if os.path.isdir(out) else 1):
        with open(f"{out}/pair-{number}.hex", encoding="utf-8") as file:
            files.append((file.name, file.read().splitlines()))
    return said, files


def entries_of(lines):
    """Returns the lines of digits."""
    return [line for line in lines if not line.startswith("#")]


def are_commented(lines):
    """Returns whether the comment above each line of digits has its entry, also if lines are in another order than
    their frames."""
    at = [number for number, line in enumerate(lines) if not line.startswith("#")]
    entries = [re.fullmatch(r"# frames? .*, entry (\d+)(, sent before frame \d+)?", lines[one - 1]) for one in at]
    counted = [int(found[1]) if found else None for found in entries]
    return counted == list(range(len(at)))


def are_directed(path, lines, options, printed):
    """Returns whether a file has these directives and no others: at its head both ends, as standard output describes
    them, and that dialogues were under way if that was asked for; at its end perhaps that the trace is broken off,
    after a comment."""
    first = next((number for number, line in enumerate(lines) if not line.startswith("#")), len(lines))
    head = [line for line in lines[:first] if line.startswith("#:")]
    a, b = ([line[5:] for line in head if line.startswith(f"#: {letter} ")] for letter in "AB")
    wanted = [*(f"#: A {it}" for it in a), *(f"#: B {it}" for it in b), *["#: under way"] * ("--under-way" in options)]
    foot = [line for line in lines[first:] if line.startswith("#:")]
    is_said = len(a) == len(b) == 1 and f"{path}: A is {a[0]}, B is {b[0]}, messages: " in printed
    is_last = not foot or foot == lines[-1:] and re.match(r"# \w+, frame \d+ of capture: ", lines[-2]) is not None
    return head == wanted and is_said and is_last


def broken_of(lines):
    """Returns the text after `#: broken off` at the end of a file, or None if it is not broken off."""
    found = re.fullmatch(r"#: broken off((?:, (?:1 message|\d+ messages) missing)?)", lines[-1])
    return found and found[1]


def are_broken(row, files):
    """Returns whether the files of a row are broken off as the row says, and the program judges the rest of such a
    file."""
    found = [broken_of(lines) for _, lines in files]
    if row.broken is not None and found != row.broken or row.status == 0 and any(it is not None for it in found):
        return False
    for path, lines in files:
        judged = run(PROGRAM, "test", path).stdout.decode() if broken_of(lines) is not None else ""
        error = f"{path}: error: line {len(lines)}: the trace was broken off{broken_of(lines)}; "
        if judged and (error not in judged or f"; {len(entries_of(lines))} message" not in judged.splitlines()[-1]):
            print(f"{row.name}: {judged}")
            return False
    return True


def are_judged(row, files):
    """Returns whether the program makes the wanted record of each file or, if the row has expressions,
    prints what they match."""
    if row.judged is None:
        return all(packed(path)[0] == record_of(entries_of(lines)) for path, lines in files)
    printed = [run(PROGRAM, "test", "--table", OPERATIONS, path).stdout.decode() for path, _ in files]
    holds = len(row.judged) == len(files) and all(map(re.search, row.judged, printed))
    if not holds:
        print(f"{row.name}: {printed}, not {row.judged}")
    return holds


def record_of(lines):
    """Returns the record that lines of digits spell."""
    return b"".join(line[:1].encode() + bytes.fromhex(line[2:]) for line in lines)


def packed(path):
    """Returns the record that the program makes from a file of lines, and the lines that it shows for this record."""
    record = run(PROGRAM, "pack", path).stdout
    shown = subprocess.run([PROGRAM, "show"], input=record, capture_output=True, check=False)
    return record, shown.stdout


def is_as_wanted(row):
    """Returns whether the tool and the program do what a row says. Otherwise prints what they do."""
    with tempfile.TemporaryDirectory() as folder:
        return is_so(row, *lines_of(folder, row.capture, row.options))


def is_so(row, said, files):
    errors = said.stderr.decode()
    wanted = [list(lines) for lines in row.files]
    holds = [entries_of(lines) for _, lines in files] == wanted and said.returncode == row.status
    holds = holds and all(are_commented(lines) for _, lines in files) and are_broken(row, files)
    holds = holds and all(are_directed(*file, row.options, said.stdout.decode()) for file in files)
    holds = holds and all(word in errors for word in row.said) and "Traceback" not in errors
    # Nothing unforeseen may be printed in any run.
    holds = holds and (row.said or not errors)
    holds = holds and are_judged(row, files)
    if not holds:
        print(f"{row.name}: {said.returncode}\n{said.stdout.decode()}{errors}{files}")
    return holds


def is_shown_alike(folder, name, entries, frames, link):
    """Returns whether the records of examples, each of a pair of ends, come back from one capture, and are shown
    alike."""
    said, files = lines_of(folder, made.pcap(frames, link), ["--apart"])
    found = {record_of(entries_of(lines)): packed(path) for path, lines in files}
    wanted = [record_of(lines) for lines in entries]
    holds = said.returncode == 0 and len(files) == len(entries)
    for record in wanted:
        shown = subprocess.run([PROGRAM, "show"], input=record, capture_output=True, check=False).stdout
        holds = holds and found.get(record) == (record, shown)
    if not holds:
        print(f"{name}: {said.returncode} {said.stdout.decode()}{said.stderr.decode()}")
    return holds


def named_by_beginning(lines):
    """Returns the lines with A for the end that begins first, as if only the capture decided which end is A."""
    first = next((line[0] for line in lines if line[2:4] == "62"), "A")
    return lines if first == "A" else [("B" if line[0] == "A" else "A") + line[1:] for line in lines]


def example_lines():
    """Yields the lines of each example without its quiet marks, which a capture does not have."""
    for path in sorted(glob.glob("examples/*.hex")):
        with open(path, encoding="utf-8") as file:
            lines = file.read().splitlines()
        yield named_by_beginning([line[:2] + line[2:].lower() for line in lines if line[:1] in ("A", "B")])


def examples_come_back(folder):
    """Returns for each of three ways whether it gives back the examples: SCCP over M3UA over SCTP, SCCP over MTP3, and
    TCAP alone."""
    entries = list(example_lines())
    numbers = range(1000, 1000 + 2 * len(entries), 2)
    wires = [capture_rows.Wire(ends=((n, 8), (n + 1, 6)), tag=n) for n in numbers]
    over = [frame for wire, lines in zip(wires, entries) for line in lines for frame in wire.frames(line)]
    under = [wire.mtp3(line) for wire, lines in zip(wires, entries) for line in lines]
    alone = [wire.alone(line) for wire, lines in zip(wires, entries) for line in lines]
    rows = [("over SCTP", over, made.ETHERNET), ("over MTP3", under, made.MTP3), ("alone", alone, made.EXPORTED)]
    return [is_shown_alike(folder, name, entries, frames, link) for name, frames, link in rows]


def vectors():
    """Returns the octets of each named vector, and the lines that `show` prints for it."""
    with open(VECTORS, encoding="utf-8") as file:
        rows = [line.split(";") for line in file.read().splitlines() if line.count(";") == 3]
    return [(bytes.fromhex(row[1]), row[3].replace("\\n", "\n")) for row in rows if re.fullmatch("[0-9a-f]+", row[1])]


def vectors_come_back(folder):
    """Returns whether each named vector, sent by A, comes back from a capture, and is shown as its row says."""
    wire = capture_rows.Wire()
    rows = vectors()
    lines = [f"A {octets.hex()}" for octets, _ in rows]
    said, files = lines_of(folder, made.pcap([frame for line in lines for frame in wire.frames(line)]), [])
    wanted = "".join(f"{number}{printed[1:]}" for number, (_, printed) in enumerate(rows))
    holds = [entries_of(one) for _, one in files] == [lines] and packed(files[0][0])[1].decode() == wanted and len(rows) > 20
    if not holds:
        print(f"vectors: {said.returncode} {said.stdout.decode()}{said.stderr.decode()}")
    return holds


def is_network_lawful(folder):
    """Returns whether all dialogues of a lawful network pass. The network shares load, translates titles, and repeats
    and delays packets. Each dialogue must be in the record of its register, and each message in one record."""
    said, files = lines_of(folder, made.pcap(list(made_network.shaken(MESSAGES))), [])
    judged = run(PROGRAM, "test", *(name for name, _ in files))
    entries = sorted(len(entries_of(lines)) for _, lines in files)
    holds = judged.returncode == 0 and sum(entries) == MESSAGES and len([one for one in entries if one > 9]) == 3
    holds = holds and said.returncode == 3 and b"FAULT adaptation" in said.stderr and b"may be: 1" not in said.stderr
    if not holds:
        print(f"network: {entries} {said.stdout.decode()}{said.stderr.decode()}{judged.stdout.decode()[:2000]}")
    return holds


def damaged_frames():
    """Yields frames of damaged packets, with their octets."""
    chance, packets = random.Random(7), capture_rows.PACKETS + capture_carried.PACKETS
    for number in range(1, DAMAGED + 1):
        octets = bytearray(chance.choice(packets))
        for _ in range(chance.randint(1, 4)):
            octets[chance.randrange(12, len(octets))] = chance.choice([0, 1, 0x7F, 0x80, 0xFF, chance.randrange(256)])
        octets = octets[: chance.choice([len(octets), chance.randrange(1, len(octets))])]
        fields = {"number": str(number), "time": "1.5", "octets": octets.hex(), "ip": "132", "protocols": "ip:data"}
        fields |= {"kept": "9", "length": chance.choice(["9", "10"]), "source": "10.0.0.1", "target": "10.0.0.2"}
        values = [fields.get(name, "") for name in capture_shapes.FIELDS]
        yield octets, capture_shapes.Frame(*values[: capture_shapes.OWN], "\t".join(values[capture_shapes.OWN :]))


def is_steady():
    """Returns whether the tool takes damaged packets, each alone and all in one capture, and reports their faults
    without an error of its own."""
    for octets, frame in damaged_frames():
        try:
            pairs_of_frames([frame], [])
        except Exception as error:
            print(f"damaged packet {frame.number}: {octets.hex()} {error!r}")
            return False
    for options in [], ["--join"], ["--apart"], ["--under-way"], ["--whole"], ["--by", "ssn"]:
        try:
            pairs_of_frames([frame for _, frame in damaged_frames()], options)
        except Exception as error:
            print(f"damaged packets, {options}: {error!r}")
            return False
    return True


def pairs_of_frames(frames, options):
    """Returns the lines that the tool makes from frames."""
    reader, words = capture_frames.Reader(), lines_of_capture.words_of(["capture", "folder", *options])
    for frame in frames:
        reader.take(frame)
    reader.close()
    pairs, ends, _ = lines_of_capture.pairs_in(reader, list(reader.gaps()), words)
    return [list(lines_of_capture.lines_of(pair, None, ends, reader.times)) for pair in pairs]


def is_progress_said(folder):
    """Returns whether a run prints its progress once a second, and nothing if that is not asked for."""
    with open(f"{folder}/capture", "wb") as file:
        file.write(made.pcap(capture_rows.Wire().all(capture_rows.DIALOGUE)))
    ended = run(sys.executable, TOOL, f"{folder}/capture", f"{folder}/said", "--progress")
    form = re.compile(r"(frames read: \d+, messages written: \d+\n)*")
    holds = ended.returncode == 0 and form.fullmatch(ended.stderr.decode()) is not None
    for is_asked, wanted in (True, "frames read: 2, messages written: 0\n"), (False, ""):
        progress, said = lines_of_capture.Progress(is_asked), io.StringIO()
        with contextlib.redirect_stderr(said):
            for number, _ in enumerate(progress.over("frames read", range(5))):
                # The second ends while the second item is taken, and then never again.
                progress.due = 0 if number == 1 else float("inf")
        holds = holds and said.getvalue() == wanted
    if not holds:
        print(f"progress: {ended}")
    return holds


def words_are_refused(folder):
    """Returns whether wrong words, a missing capture, a folder with files in it, and a missing tshark end with their statuses, and some
    of them with these words. For a missing capture no folder is made."""
    with open(f"{folder}/capture", "wb") as file:
        file.write(made.pcap([]))
    has_files = f"error: {folder} is not empty: name another folder, or remove this one\n"
    runs = [
        ([f"{folder}/capture"], None, 4, None),
        ([f"{folder}/capture", f"{folder}/new", "--by", "name"], None, 4, None),
        ([f"{folder}/capture", f"{folder}/new", "--a", "ssn"], None, 4, None),
        ([f"{folder}/capture", f"{folder}/new", "--join", "--apart"], None, 4, None),
        ([f"{folder}/capture", folder], None, 4, has_files),
        ([f"{folder}/capture", f"{folder}/capture"], None, 4, None),
        ([f"{folder}/gone", f"{folder}/unmade"], None, 3, f"FAULT capture, {folder}/gone: there is no such file\n"),
        ([f"{folder}/capture", f"{folder}/new"], os.environ | {"PATH": "/no/such/folder"}, 2, None),
        (["--help"], None, 0, ""),
    ]
    wrong = [words for words, env, *wanted in runs if not ends_so(run(sys.executable, TOOL, *words, env=env), *wanted)]
    if wrong or os.path.exists(f"{folder}/unmade"):
        print(f"wrong statuses or words of {wrong}, or a folder is made")
        return False
    return True


def ends_so(ran, status, words):
    """Returns whether a run has this status, and these words on standard error if there are some to compare."""
    return ran.returncode == status and words in (None, ran.stderr.decode())


def main():
    if not shutil.which("tshark"):
        print("tshark is not installed, so the tests of captures were skipped")
        print("0 passed, 0 failed")
        return 0
    with tempfile.TemporaryDirectory() as folder:
        # Most of the time goes into the start of tshark.
        with concurrent.futures.ThreadPoolExecutor(os.cpu_count()) as lanes:
            rows = [*capture_rows.rows(), *capture_malformed.rows(), *cut_rows.rows(), *capture_answers.rows()]
            rows += capture_carried.rows()
            held = list(lanes.map(is_as_wanted, rows))
        held += [*examples_come_back(folder), vectors_come_back(folder), is_network_lawful(folder), is_steady()]
        held += [is_progress_said(folder), words_are_refused(folder), cut_rows.are_cuts_met(folder)]
        messages = [octets for octets, _ in vectors()]
        messages += [bytes.fromhex(line[2:]) for lines in example_lines() for line in lines]
        held += [*wireshark.agreements(PROGRAM, folder, messages), wireshark.addresses_agree(folder)]
        held.append(wireshark.sua_addresses_agree(folder))
        held += [*capture_recipes.of_one_capture(PROGRAM), *capture_recipes.of_many_captures(PROGRAM)]
    print(f"{sum(held)} passed, {len(held) - sum(held)} failed")
    return int(not all(held))


if __name__ == "__main__":
    sys.exit(main())
