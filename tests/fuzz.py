"""Runs the words of the built program over random and mutated records, tables and certificates, for a number of
seconds: `make fuzz SECONDS=60 SEED=1`. The same seed gives the same cases in order. The files of a case that fails are
kept in a folder, which is printed, with the words that show the failure.

Most records come from a run that tests/oracle/runs.py plays by the rules of docs/MODEL.md, which it implements
independently: of two ends that keep the rules, or of one, whose peer sends anything. Others are such records with
changed octets, entries or ends, or come from tests/oracle/random_dialogues.py. For each record it checks that

- each run ends within a second, with a status and lines that docs/FORMAT.md and docs/VERDICTS.md define;
- the certificate of a run of two ends is LAWFUL under `check`, neither of its ends is BLAMED, and it is not REFUTED;
  and no end that kept the rules is BLAMED, no matter what its peer sent;
- a record that is LAWFUL under `judge --cert` is LAWFUL under `check` with that certificate;
- a record that is REFUTED or BLAMED is not LAWFUL under any certificate that is tried;
- the REFUTED entry, and the BLAMED entry of each end, are exactly those that tests/oracle/kinds.py finds;
- the words agree on faults and on the first line;
- exchanging the letters of the ends exchanges the lines of `blame`, and changes no other line;
- standard input in pieces of any size gives the same result as a file;
- if the program has `--end`: a record that is LAWFUL for two ends is LAWFUL for each with the same certificate, the
  certificate of the run is LAWFUL for the end that kept the rules, a certificate that `judge --end --cert` proposes is
  LAWFUL under `check --end`, and no end is both BLAMED and LAWFUL, under any certificate that is tried."""

import json
import os
import random
import re
import resource
import shutil
import subprocess
import sys
import tempfile
import time
from collections import Counter

import rooms  # noqa: F401
import kinds
import random_dialogues
import random_messages
import runs
import shown
from tested import PROGRAM

# The processor seconds that a run may take, and the seconds after which it is stopped.
MOST, HANGS = 1, 30
REASON = r"(0|[1-9]\d*)(/[1-9]\d*)?"
FAULT = r"FAULT [1-9]\d* \d+\n"
BLAMED = (
    r"(BLAMED A \d+ F\d+\n(BLAMED B \d+ F\d+|NOT BLAMED B \d+)\n"
    r"|BLAMED B \d+ F\d+\n(BLAMED A \d+ F\d+|NOT BLAMED A \d+)\n"
    r"|NOT BLAMED A (?P<n>\d+)\nNOT BLAMED B (?P=n)\n)"
)
# With `--end`, an end that is not blamed may be LAWFUL.
ALONE = r"((BLAMED|NOT BLAMED|LAWFUL) [AB] \d+( F\d+| unheard \d+)?\n){2}"
LINES = {
    "show": rf"((\d+ ([AB] (Unidirectional|Begin|Continue|End|Abort|FAULT) ?.*|Q)|  \w+ id=.*)\n)*({FAULT})?",
    "check": rf"LAWFUL \d+( unheard \d+)?\n|NOT SHOWN \d+ {REASON}\n|{FAULT}",
    "judge": rf"LAWFUL \d+( unheard \d+)?\n(\{{.*\}}\n)?|REFUTED \d+ F\d+\n|UNDECIDED \d+ {REASON}\n|{FAULT}",
    "blame": rf"(LAWFUL \d+|REFUTED \d+ F\d+|UNDECIDED \d+ {REASON})\n({BLAMED}|{ALONE})|{FAULT}",
    "pack": r"(?s:.*)",
}
STATUSES = {"LAWFUL": 0, "REFUTED": 1, "UNDECIDED": 2, "NOT": 2, "FAULT": 3}
TURN = bytes.maketrans(b"AB", b"BA")


class Wrong(Exception):
    """Something is not as it must be."""


def must(holds, what):
    if not holds:
        raise Wrong(what)


class Program:
    """Runs the program over files of a folder, and counts its answers."""

    def __init__(self, folder):
        self.folder, self.said, self.count, self.longest = folder, Counter(), 0, 0
        usage = subprocess.run([PROGRAM, "judge", "--help"], capture_output=True, check=True).stdout
        self.has_ends = b"--end" in usage

    def file(self, name, octets):
        path = os.path.join(self.folder, name)
        with open(path, "wb") as file:
            file.write(octets)
        return path

    def run(self, word, *words, given=b""):
        """Runs a word. Returns both streams and the status."""
        before = resource.getrusage(resource.RUSAGE_CHILDREN)
        try:
            command = [PROGRAM, word, *words]
            ended = subprocess.run(command, input=given, capture_output=True, timeout=HANGS, check=False)
        except subprocess.TimeoutExpired as error:
            raise Wrong(f"{word} {words} does not end") from error
        after = resource.getrusage(resource.RUSAGE_CHILDREN)
        used = after.ru_utime + after.ru_stime - before.ru_utime - before.ru_stime
        self.count, self.longest = self.count + 1, max(self.longest, used)
        must(used <= MOST, f"{word} {words} takes {used:.1f} s")
        must(0 <= ended.returncode <= 3, f"{word} {words} ends with {ended.returncode}: {ended.stderr[-300:]}")
        return ended.stdout, ended.stderr, ended.returncode

    def say(self, word, *words):
        """Runs a word over files. Returns its text, after checking its form and the status."""
        out, error, status = self.run(word, *words)
        text = out.decode()
        # There may be hints for files that begin like something else.
        are_hints = status == 3 and re.fullmatch(rb"(  hint: [^\n]+: this looks like [^\n]+\n)+", error)
        must(error == b"" or are_hints, f"{word} {words} says {error} on standard error")
        must(re.fullmatch(LINES[word], text), f"{word} {words} prints {text!r}")
        first = text.split(" ")[0].strip()
        if word == "show":
            wanted = 3 if re.search(r"^(\d+ [AB] )?FAULT ", text, re.M) else 0
        elif word == "blame" and re.search("^BLAMED", text, re.M):
            wanted = 1
        elif word == "blame" and first == "REFUTED":
            # Nobody is blamed for it.
            wanted = 2
        else:
            wanted = STATUSES[first]
        must(status == wanted, f"{word} {words} ends with {status} behind {text!r}")
        self.note(word, words, text)
        return text

    def note(self, word, words, text):
        """Counts an answer: the verdict, with its kind or its reason."""
        if word == "show":
            self.said.update("show FAULT " + reason for reason in re.findall(r"FAULT (\d+)", text))
            self.said.update("show " + kind for kind in re.findall(r"^\d+ (?:[AB] )?([A-Z][a-z]+|Q)\b", text, re.M))
            return
        name = word + "".join(f" {part}" for part in words if part in ("--end",))
        for line in text.splitlines():
            if line.startswith("{"):
                continue
            verdict = re.match(r"(NOT SHOWN|NOT BLAMED|[A-Z]+)", line)[1]
            kind = re.search(r" (F\d+)$", line) or re.search(r"^(?:NOT SHOWN|UNDECIDED) \d+ (\S+)$", line)
            fault = re.match(r"FAULT (\d+)", line)
            self.said[" ".join(filter(None, [name, verdict, kind and kind[1] or fault and fault[1]]))] += 1


# ---- cases


def other_letters(octets):
    """Returns a record's entry for the other end."""
    return octets[:1].translate(TURN) + octets[1:]


def turned(given):
    """Returns a certificate with the letters of the ends exchanged."""
    swap = {"A": "B", "B": "A"}
    return {
        key: [{**row, "end": swap[row["end"]]} for row in value] if key in ("close", "expire") else value
        for key, value in given.items()
    }


def text_of(given):
    return json.dumps(given, separators=(",", ":")).encode()


def prompt(count):
    return {"close": [], "expire": [], "fates": list(range(1, count + 1)), "version": 1}


def changed_certificate(rng, given, count):
    """Returns a certificate with one change, which may still give a run."""
    made = json.loads(text_of(given))
    part = rng.randrange(5)
    if part < 3 and made["fates"]:
        at = rng.randrange(len(made["fates"]))
        later = rng.randint(at + 1, max(at + 1, count))
        made["fates"][at] = rng.choice(["lost", at + 1, later, {"by": rng.randint(0, count)}])
    elif part == 3:
        rows = made[rng.choice(["close", "expire"])]
        if rows:
            del rows[rng.randrange(len(rows))]
    else:
        row = {"at": rng.randint(0, count), "end": rng.choice("AB"), "entry": rng.randint(0, count)}
        if rng.random() < 0.5:
            made["close"].append(row)
        else:
            made["expire"].append({**row, "component": rng.choice([0, 0, 1, 2])})
    return made


def mutated(rng, octets):
    """Returns the octets with some changes."""
    octets = bytearray(octets)
    for _ in range(rng.choice([1, 1, 1, 2, 3, 8])):
        at, way = rng.randrange(len(octets) + 1), rng.randrange(7)
        if way == 0 and at < len(octets):
            octets[at] ^= 1 << rng.randrange(8)
        elif way == 1 and at < len(octets):
            octets[at] = rng.choice([0, 1, 0x7F, 0x80, 0xFF, 0x41, 0x42, 0x51, rng.randrange(256)])
        elif way == 2:
            del octets[at : at + rng.choice([1, 1, 2, 5])]
        elif way == 3:
            some = rng.randbytes(rng.randint(1, 4))
            octets[at:at] = rng.choice([b"\0", b"\0\0", b"\x80", b"\x51", b"\x30\x80", some])
        elif way == 4:
            octets[at:at] = octets[at : at + rng.randint(1, 20)]
        elif way == 5:
            del octets[at:]
        elif at < len(octets):
            octets[at] = (octets[at] + rng.choice([1, 255])) % 256
    return bytes(octets)


TOKENS = [b"{", b"}", b"[", b"]", b",", b":", b'"', b"-1", b"1.5", b"1e5", b"null", b"true", b"0", b"100000", b"100001"]
TOKENS += [b"18446744073709551616", b"-9223372036854775809", b'"lost"', b'{"by":1}', b'{"by":1,"x":2}', b'"version":2']
TOKENS += [b"\xff", b"\\ud800", b" "]


def mutated_text(rng, text):
    """Returns a JSON text with changed tokens or octets."""
    if rng.random() < 0.3:
        return mutated(rng, text)
    tokens = re.findall(rb'"[^"]*"|[-\d.e]+|\w+|\S|\s+', text)
    for _ in range(rng.choice([1, 1, 2])):
        at, way = rng.randrange(len(tokens) + 1), rng.randrange(4)
        if way == 0:
            del tokens[at : at + rng.choice([1, 2, 4])]
        elif way == 1:
            tokens[at : at + 1] = [rng.choice(TOKENS)]
        elif way == 2:
            tokens[at:at] = [rng.choice(TOKENS)]
        else:
            tokens[at:at] = tokens[at : at + rng.randint(1, 6)]
    return b"".join(tokens)


def changed_entries(rng, entries):
    """Returns the entries, with some left out, doubled, reordered, or given to the other end."""
    entries = list(entries)
    for _ in range(rng.choice([1, 1, 2])):
        if not entries:
            break
        at, way = rng.randrange(len(entries)), rng.randrange(5)
        if way == 0:
            del entries[at]
        elif way == 1:
            entries.insert(rng.randrange(len(entries) + 1), entries[at])
        elif way == 2:
            entries[at : at + 2] = reversed(entries[at : at + 2])
        elif way == 3:
            entries[at] = other_letters(entries[at])
        else:
            entries.insert(at, b"\x51")
    return entries


class Case:
    """A record with its table, and what is known about it: its entries, the certificate of a run, and the ends that
    kept the rules in that run."""

    def __init__(self, rng):
        self.rng = rng
        table = runs.usual_table(rng) if rng.random() < 0.6 else runs.any_table(rng)
        self.keepers, self.given, self.is_whole = "", None, True
        kind = rng.random()
        if kind < 0.05:
            self.entries = self.random_entries(table)
        elif kind < 0.15:
            table = random_dialogues.any_table(rng)
            self.entries = random_dialogues.entries(rng, table)
        else:
            keepers = rng.choices(["AB", "A", "B"], [2, 1, 1])[0]
            play = runs.Play(rng, table, keepers, rng.random() < 0.5)
            play.play(rng.choice([0, 1, 2, 3, 4, 5, 6, 8, 10, 14, 20, 40]))
            self.entries, self.keepers, self.given = play.octets(runs.Writer(rng)), keepers, play.certificate()
            if kind < 0.25:
                self.entries, self.keepers = changed_entries(rng, self.entries), ""
        self.record = b"".join(self.entries)
        if 0.25 <= kind < 0.5:
            self.record, self.keepers, self.is_whole = mutated(rng, self.record), "", False
        self.table = runs.table_text(table)
        if rng.random() < 0.08:
            # It may be another table then, with other lawful records.
            self.table, self.keepers = mutated_text(rng, self.table), ""

    def random_entries(self, table):
        """Returns messages of any kind: random ones of the grammar, or ones with few IDs."""
        rng, entries = self.rng, []
        maker, writer = random_messages.Maker(rng.random()), runs.Writer(rng)
        for _ in range(rng.randint(1, 8)):
            message = maker.message() if rng.random() < 0.3 else writer.message(runs.any_message(rng, table, []))
            entries.append(rng.choice([b"A", b"B"]) + message)
        return entries

    def certificates(self):
        """Returns the certificates to try. That of the run is the first, if there is one."""
        count = len(self.entries)
        tried = [self.given] if self.given else []
        tried += [prompt(count), {**prompt(count), "fates": ["lost"] * count}]
        base = self.given or prompt(count)
        tried += [changed_certificate(self.rng, base, count) for _ in range(2)]
        return tried


# ---- what must hold


def verdicts_of(blame):
    """Returns for each blamed end its entry at fault."""
    return {end: int(at) for end, at in re.findall(r"^BLAMED ([AB]) (\d+)", blame, re.M)}


def is_lawful(text):
    return text.startswith("LAWFUL")


def first_of(line, blame):
    """Returns the first line of `blame`, given that of `judge`: the record is lawful if each end on its own is."""
    both = re.findall(r"^LAWFUL [AB] (\d+) ", blame, re.M)
    return f"LAWFUL {both[0]}\n" if len(both) == 2 else line


def look_at_kinds(program, paths, show, line, blame):
    """Checks that the refuted and blamed entries are what tests/oracle/kinds.py finds."""
    if line.startswith("FAULT"):
        return
    entries, table = shown.entries_of(show), shown.Table(program.run("table", paths[1])[0].decode())
    refuted, faults = kinds.refuted_in(table, entries), kinds.faults_in(table, entries)
    wanted = [f"REFUTED {refuted[0]} {refuted[1]}"] if refuted else []
    wanted += [f"BLAMED {end} {fault[0]} {fault[1][0]}" for end, fault in faults.items() if fault]
    found = re.findall(r"^(?:REFUTED|BLAMED [AB]) \d+ F\d+$", blame, re.M)
    must(sorted(found) == sorted(wanted), f"{found}, and tests/oracle/kinds.py has {wanted}")


def look_at_case(program, case):
    paths = [program.file("record", case.record), program.file("table", case.table)]
    show = program.say("show", paths[0])
    judge = program.say("judge", *paths, "--cert")
    blame = program.say("blame", *paths)
    line = judge.splitlines(keepends=True)[0]
    must(program.say("judge", *paths) == line, "judge without --cert prints another line")
    must(blame.startswith(first_of(line, blame)), f"blame begins with another line than {line!r}: {blame!r}")
    blamed = verdicts_of(blame)
    look_at_faults(program, case, paths, show, line)
    look_at_kinds(program, paths, show, line, blame)
    if is_lawful(line):
        must(not blamed, f"{line!r} and {blame!r}")
    for end in case.keepers:
        must(end not in blamed, f"{end} kept the rules: {blame!r}")
    if case.keepers == "AB":
        must(line.split()[0] in ("LAWFUL", "UNDECIDED"), f"two ends kept the rules: {line!r}")
    texts = [text_of(given) for given in case.certificates()]
    if is_lawful(line):
        texts.append(judge.splitlines()[1].encode())
    lines = []
    for number, text in enumerate(texts):
        lines.append(program.say("check", *paths, program.file(f"cert{number}", text)))
        if is_lawful(lines[-1]):
            must(not blamed, f"certificate {number} is lawful, and {blame!r}")
            must(not line.startswith("REFUTED"), f"certificate {number} is lawful, and {line!r}")
    if is_lawful(line):
        must(lines[-1] == line, f"{line!r}, and with that certificate {lines[-1]!r}")
    if case.keepers == "AB":
        must(lines[0] == f"LAWFUL {len(case.entries)}\n", f"the run's own certificate: {lines[0]!r}")
    if program.has_ends:
        look_at_ends(program, case, paths, blamed, lines)
    if case.is_whole:
        look_at_other_letters(program, case, line, blame, lines)
    if case.rng.random() < 0.1:
        text = program.file("broken", mutated_text(case.rng, texts[0]))
        program.say("check", *paths, text)


def look_at_faults(program, case, paths, show, line):
    """Checks that a fault of the record is the last line of `show`, and the line of the others if the table has no
    fault."""
    last = show.splitlines(keepends=True)[-1:]
    fault = last[0] if last and last[0].startswith("FAULT") else None
    is_table = not re.match("FAULT 3[0-4] ", line)
    if is_table:
        must(line.startswith("FAULT") == (fault is not None), f"show has {fault!r}, judge {line!r}")
    if line.startswith("FAULT"):
        must(not is_table or line == fault, f"show has {fault!r}, judge {line!r}")
        cert = program.file("cert", text_of(prompt(len(case.entries))))
        said = program.say("check", *paths, cert)
        must(said == line, f"check has {said!r}, judge {line!r}")
    elif is_lawful(line):
        count = len(re.findall(r"^\d+ ", show, re.M))
        must(line == f"LAWFUL {count}\n", f"{line!r} of {count} entries")


def look_at_ends(program, case, paths, blamed, lines):
    """Checks the answers for one end alone."""
    for end in "AB":
        words = ["--end", end, *paths]
        judge = program.say("judge", *words, "--cert")
        found = judge.splitlines(keepends=True)
        if is_lawful(judge):
            must(end not in blamed, f"{end} is blamed, and {judge!r}")
            cert = program.file("cert-alone", found[1].encode())
            said = program.say("check", *words, cert)
            must(said == found[0], f"{judge!r}, and with that certificate {said!r}")
        refuted = re.match(r"REFUTED (\d+) F", judge)
        must((refuted is not None) == (end in blamed), f"blamed are {blamed}, and of {end} {judge!r}")
        must(not refuted or int(refuted[1]) == blamed[end], f"blamed are {blamed}, and of {end} {judge!r}")
        for number, line in enumerate(lines):
            cert = os.path.join(program.folder, f"cert{number}")
            said = program.say("check", *words, cert)
            if is_lawful(line):
                must(is_lawful(said), f"certificate {number}: {line!r}, and of {end} {said!r}")
            if is_lawful(said):
                must(end not in blamed, f"{end} is blamed, and certificate {number}: {said!r}")
            if number == 0 and end in case.keepers:
                must(is_lawful(said), f"{end} kept the rules in the run: {said!r}")


def look_at_other_letters(program, case, line, blame, lines):
    """Checks the answers with A and B exchanged."""
    paths = [program.file("turned", b"".join(map(other_letters, case.entries))), os.path.join(program.folder, "table")]
    said = program.say("blame", *paths)
    must(said.startswith(first_of(line, blame)), f"{line!r}, and turned round {said!r}")
    ends = sorted(tail.translate(str.maketrans("AB", "BA")) for tail in re.findall(r" ([AB] \d+.*)$", blame, re.M))
    must(sorted(re.findall(r" ([AB] \d+.*)$", said, re.M)) == ends, f"{blame!r}, and turned round {said!r}")
    if case.given:
        cert = program.file("cert-turned", text_of(turned(case.given)))
        said = program.say("check", *paths, cert)
        must(said == lines[0], f"{lines[0]!r}, and turned round {said!r}")


def in_pieces(program, word, octets, rng):
    """Runs a word with the standard input in pieces of random sizes. Returns both streams and the status."""
    with subprocess.Popen(
        [PROGRAM, word], stdin=subprocess.PIPE, stdout=subprocess.PIPE, stderr=subprocess.PIPE, bufsize=0
    ) as run:
        at = 0
        most = rng.choice([1, 3, 20, 5_000])
        while at < len(octets):
            size = rng.randint(1, most)
            try:
                run.stdin.write(octets[at : at + size])
            except BrokenPipeError:
                # What comes after a fault is not read.
                break
            at += size
            if rng.random() < 0.3:
                time.sleep(0.0002)
        run.stdin.close()
        out, error = run.stdout.read(), run.stderr.read()
        status = run.wait(HANGS)
    program.count += 1
    return out, error, status


def look_at_pieces(program, case):
    """Checks that `show` and `pack` answer alike for standard input, in one piece or many, and for a file."""
    rng = case.rng
    lines = lines_of(case)
    is_broken = rng.random() < 0.3
    if is_broken:
        lines = mutated(rng, lines)
    for word, octets in ("show", case.record), ("pack", lines):
        whole = program.run(word, given=octets)
        path = program.file("whole", octets)
        out, error, status = program.run(word, path)
        of_file = out, error.replace(f"  hint: {path}: ".encode(), b"  hint: "), status
        must(of_file == whole, f"{word} says another thing of a file")
        must(in_pieces(program, word, octets, rng) == whole, f"{word} says another thing of pieces")
    fault = rb"FAULT 24 [1-9]\d*\n  why: [^\n]+; column [1-9]\d*\n(  hint: [^\n]+\n)?"
    must(re.fullmatch(rb"|" + fault, whole[1]), f"pack says {whole[1]!r} on standard error")
    must(whole[2] == (3 if whole[1] else 0), f"pack ends with {whole[2]} behind {whole[1]!r}")
    program.said["pack FAULT 24" if whole[1] else "pack, all"] += 1
    if not is_broken and case.is_whole:
        must(whole == (case.record, b"", 0), f"pack writes {whole[0].hex()}, not {case.record.hex()}")


def lines_of(case):
    """Returns the lines of the entries, with other lines between them."""
    rng, lines = case.rng, []
    for entry in case.entries:
        if rng.random() < 0.1:
            lines.append(rng.choice([b"", b"#", b"# A 62", b"#\xff"]))
        digits = entry[1:].hex()
        digits = rng.choice([digits, digits.upper(), "".join(rng.choice([d, d.upper()]) for d in digits)])
        lines.append(b"Q" if entry == b"\x51" else entry[:1] + b" " + digits.encode())
    ends = rng.choice([[b"\n"], [b"\n", b"\r\n"]])
    text = b"".join(line + rng.choice(ends) for line in lines)
    return text[:-1] if text.endswith(b"\n") and not text.endswith(b"\r\n") and rng.random() < 0.2 else text


def kept(program, folder, name, why):
    """Keeps the files of a case that fails, and prints where."""
    place = os.path.join(folder, name)
    os.makedirs(place, exist_ok=True)
    for file in os.listdir(program.folder):
        shutil.copy(os.path.join(program.folder, file), os.path.join(place, file))
    with open(os.path.join(place, "why"), "w", encoding="utf-8") as file:
        file.write(why + "\n")
    print(f"{name}: {why}\n  kept in {place}", flush=True)


def main():
    seconds, seed = float(sys.argv[1]), sys.argv[2] if len(sys.argv) > 2 else str(int(time.time()))
    # A third word chooses one case of that seed.
    numbers = [int(sys.argv[3])] if len(sys.argv) > 3 else range(10**9)
    failed, count, began = 0, 0, time.monotonic()
    keeping = os.path.join(tempfile.gettempdir(), "tcapjudge-fuzz")
    with tempfile.TemporaryDirectory(dir="/dev/shm" if os.path.isdir("/dev/shm") else None) as folder:
        program = Program(folder)
        for number in numbers:
            if time.monotonic() - began > seconds:
                break
            for file in os.listdir(folder):
                os.remove(os.path.join(folder, file))
            count += 1
            case = Case(random.Random(f"{seed}/{number}"))
            try:
                look_at_case(program, case)
                if number % 4 == 0:
                    look_at_pieces(program, case)
            except Wrong as wrong:
                failed += 1
                kept(program, keeping, f"{seed}-{number}", str(wrong))
    for name, times in sorted(program.said.items()):
        print(f"{times:8} {name}")
    print(
        f"seed {seed}: {count} cases, {program.count} runs of the program in {time.monotonic() - began:.0f} s, the"
        f" longest {program.longest:.3f} s{'' if program.has_ends else '; it has no --end'}"
    )
    print(f"{count - failed} passed, {failed} failed")
    return int(failed != 0 or count == 0)


if __name__ == "__main__":
    sys.exit(main())
