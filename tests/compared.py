"""Runs tools/compare_reports.py over files of `tcapjudge test --json`: pairs of runs with faults that are new, gone and the
same, or were not judged, and files that are no whole report. What it prints and its exit status were worked out by hand."""

import os
import subprocess
import sys
import tempfile

import rooms  # noqa: F401
from trace_rows import LACKED, OPERATIONS, SHORT, WIDE, WRONG_END, end, lines
from traced import Checks, content, put, run

TOOL = os.path.abspath("tools/compare_reports.py")
FAILS, LACKS, PASSES = [SHORT[0], WRONG_END, "Q"], [LACKED, SHORT[1], "Q"], [*SHORT, "Q"]
NEVER_SENT = ["Q", f"B {end('09')}"]
NOT_WHOLE = "the line of the run is missing: the run did not end"
OTHER_FORM = "a line is none of `tcapjudge test --json`"
# Lines with a field of another type, or without one that is needed.
WRONG_FIELDS = [
    b'{"trace":[],"verdict":1}',
    b'{"trace":5,"verdict":"error","text":"x"}',
    b'{"trace":"a","verdict":"error","text":5}',
    b'{"trace":"a","dialogue":"0","verdict":"error","text":"x"}',
    b'{"trace":"a","dialogue":0}',
    b'{"trace":"a","dialogue":0,"verdict":["error"]}',
    b'{"trace":"a","dialogue":0,"verdict":"fail","A":[]}',
    b'{"trace":"a","dialogue":0,"verdict":"fail","B":{}}',
    b'{"trace":"a","dialogue":0,"verdict":"fail","B":{"verdict":1}}',
    b'{"trace":"a","dialogue":0,"verdict":"fail","B":{"verdict":"fail","kind":6}}',
    b'{"trace":"a","dialogue":0,"verdict":"inconc","B":{"verdict":"inconc","reason":{}}}',
    b'{"total":5}',
]


class Runs:
    """A folder in which runs of `test` write their reports."""

    def __init__(self, folder):
        self.folder = folder

    def judge(self, name, traces, *flags, table=OPERATIONS):
        """Judges traces, given by their names and entries; one without entries is no file. Returns the name of the report."""
        put(self.folder, "table.json", table.encode())
        for trace, entries in traces.items():
            if entries is not None:
                put(self.folder, trace, lines(*entries).encode())
        run(["test", "--table", "table.json", "--json", name, *flags, *traces], cwd=self.folder)
        for trace, entries in traces.items():
            if entries is not None:
                os.remove(f"{self.folder}/{trace}")
        return name

    def compare(self, *words, encoding="utf-8"):
        """Returns the status of the tool, the lines that it prints, and its lines on standard error."""
        env = os.environ | {"PYTHONIOENCODING": encoding}
        ran = subprocess.run([sys.executable, TOOL, *words], cwd=self.folder, env=env, capture_output=True, check=False)
        return ran.returncode, ran.stdout.decode().splitlines(), ran.stderr.decode().splitlines()


def pairs(runs):
    """Two runs, of which the second has faults that are new, gone and the same."""
    checks = Checks("pairs of runs")
    old = runs.judge("old", {"a.hex": FAILS * 2 + LACKS, "b.hex": FAILS, "c.hex": PASSES, "d.hex": FAILS, "e.hex": PASSES, "f.hex": None})
    traces = {"a.hex": FAILS + LACKS * 3, "b.hex": PASSES, "c.hex": PASSES + NEVER_SENT, "e.hex": None, "f.hex": None, "g.hex": LACKS}
    wanted = [
        "new: c.hex: B, F2: 0 before, 1 now",
        "new: e.hex: the trace itself: 0 before, 1 now",
        "new: g.hex: A, F6, lacking_operation: 0 before, 1 now",
        "gone: b.hex: B, F5: 1 before, 0 now",
        "same: a.hex: A, F6, lacking_operation: 1 before, 3 now",
        "same: a.hex: B, F5: 2 before, 1 now",
        "same: f.hex: the trace itself: 1 before, 1 now",
        "not judged: d.hex",
        "3 new, 1 gone, 3 same, 1 not judged",
    ]
    checks.same("some are new", runs.compare(old, runs.judge("new", traces)), (1, wanted, []))
    same = [line.replace("3 now", "1 now").replace("2 before, 1 now", "2 before, 2 now") for line in wanted[4:6]]
    status, told, error = runs.compare(old, old)
    checks.same("twice the same", (status, told[:2], told[-1], error), (0, same, "0 new, 0 gone, 5 same, 0 not judged", []))
    good = runs.judge("good", {"b.hex": PASSES})
    gone = ["gone: b.hex: B, F5: 1 before, 0 now", "not judged: a.hex", "not judged: c.hex", "not judged: d.hex"]
    gone += ["not judged: e.hex", "not judged: f.hex", "0 new, 1 gone, 0 same, 5 not judged"]
    checks.same("all are gone", runs.compare(old, good), (0, gone, []))
    # Another reason is another fault, and an end that isn't asked for has none.
    open_at_end = runs.judge("open", {"a.hex": SHORT[:1]}, "--complete")
    of_b = runs.judge("of", {"a.hex": SHORT[:1]}, "--complete", "--of", "B")
    gone = ["gone: a.hex: A, open: 1 before, 0 now", "same: a.hex: B, open: 1 before, 1 now", "0 new, 1 gone, 1 same, 0 not judged"]
    checks.same("one end", runs.compare(open_at_end, of_b), (0, gone, []))
    no_table = runs.judge("no", {"a.hex": SHORT}, table=f'{{"tables":[{WIDE}]}}')
    told = ["new: a.hex: no table: 0 before, 1 now", "gone: a.hex: A, open: 1 before, 0 now"]
    told += ["gone: a.hex: B, open: 1 before, 0 now", "1 new, 2 gone, 0 same, 0 not judged"]
    checks.same("no table", runs.compare(open_at_end, no_table), (1, told, []))
    return checks


def not_judged(runs):
    """The faults of a trace are not gone if the trace is an error by itself: it may have been cut before them."""
    checks = Checks("traces that are errors by themselves")
    old = runs.judge("old", {"a.hex": FAILS + LACKS, "b.hex": FAILS})
    cut = runs.judge("cut", {"a.hex": [*FAILS, "no line"], "b.hex": PASSES})
    told = [
        "new: a.hex: the trace itself: 0 before, 1 now",
        "gone: b.hex: B, F5: 1 before, 0 now",
        "same: a.hex: B, F5: 1 before, 1 now",
        "not judged: a.hex: A, F6, lacking_operation: 1 before, 0 now",
        "1 new, 1 gone, 1 same, 1 not judged",
    ]
    checks.same("a line is none", runs.compare(old, cut), (1, told, []))
    no_file = runs.judge("no file", {"a.hex": None, "b.hex": None})
    told = [
        "new: a.hex: the trace itself: 0 before, 1 now",
        "same: b.hex: the trace itself: 1 before, 1 now",
        "not judged: a.hex: B, F5: 1 before, 0 now",
        "1 new, 0 gone, 1 same, 1 not judged",
    ]
    old = runs.judge("one", {"a.hex": FAILS, "b.hex": None})
    checks.same("no file", runs.compare(old, no_file), (1, told, []))
    # The error itself is gone if the trace is judged.
    told = ["new: b.hex: B, F5: 0 before, 1 now", "gone: b.hex: the trace itself: 1 before, 0 now"]
    told += ["same: a.hex: B, F5: 1 before, 1 now", "1 new, 1 gone, 1 same, 0 not judged"]
    checks.same("judged again", runs.compare(old, runs.judge("again", {"a.hex": FAILS, "b.hex": FAILS})), (1, told, []))
    return checks


def names(runs):
    """A name with an ESC and a newline is printed in one line, without them; a letter that the output lacks, by its number."""
    checks = Checks("names")
    report = runs.judge("named", {"a\x1b[31m\nb": FAILS})
    told = ["same: a\ufffd[31m\ufffdb: B, F5: 1 before, 1 now", "0 new, 0 gone, 1 same, 0 not judged"]
    checks.same("a name", runs.compare(report, report), (0, told, []))
    report = runs.judge("letters", {"\xe9.hex": FAILS})
    for encoding, name in ("utf-8", "\xe9.hex"), ("ascii", "\\xe9.hex"):
        told = [f"same: {name}: B, F5: 1 before, 1 now", "0 new, 0 gone, 1 same, 0 not judged"]
        checks.same(encoding, runs.compare(report, report, encoding=encoding), (0, told, []))
    return checks


def not_whole(runs):
    """Files that are cut, are no reports or can't be read: as the old file and as the new one."""
    checks = Checks("files that are no whole report")
    good = runs.judge("good", {"a.hex": FAILS, "b.hex": PASSES})
    text = content(f"{runs.folder}/{good}")
    for name, octets, why in [
        ("empty", b"", NOT_WHOLE),
        ("without the run", b"".join(text.splitlines(True)[:-1]), NOT_WHOLE),
        ("two runs, the last cut", text + text.splitlines(True)[0], NOT_WHOLE),
        ("within a line", text[:-20], "line 5 is no JSON"),
        ("text", b"a.hex: pass\n", "line 1 is no JSON"),
        ("a list", b"[]\n", "line 1 is no object"),
        ("other objects", b'{"a":1}\n', "line 1 is none of `tcapjudge test --json`"),
        ("deep", b"[" * 200_000 + b"\n", "line 1 is nested too deeply"),
        *((f"field {number}", octets + b"\n" + text, OTHER_FORM) for number, octets in enumerate(WRONG_FIELDS)),
        ("octets", b"\xff\xfe\n", "no text"),
        ("no file", None, "No such file or directory"),
        (".", None, "Is a directory"),
    ]:
        if octets is not None:
            put(runs.folder, name, octets)
        for words in [good, name], [name, good]:
            checks.same(f"{words}", runs.compare(*words), (2, [], [f"error: {name}: {why}"]))
    status, told, error = runs.compare(good)
    checks.same("one file", (status, told, error[-1:] != []), (2, [], True))
    return checks


def main():
    passed, failed = 0, 0
    for case in pairs, not_judged, names, not_whole:
        with tempfile.TemporaryDirectory() as folder:
            checks = case(Runs(folder))
        for line in checks.wrong:
            print(line)
        passed, failed = passed + checks.count - len(checks.wrong), failed + len(checks.wrong)
    print(f"{passed} passed, {failed} failed")
    return int(failed > 0)


if __name__ == "__main__":
    sys.exit(main())
