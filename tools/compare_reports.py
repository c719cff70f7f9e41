#!/usr/bin/env python3
"""Compares the faults in two files of `tcapjudge test --json`, as those of last night's run and of tonight's.

    python3 tools/compare_reports.py OLD NEW

A fault is an end that does not pass, with the kind (`F12`) and the code of the reason why it is inconclusive; or a
dialogue without a table; or an error of a trace itself. It is new if the old file has none of its kind in the same
trace. If a trace itself is an error in the new file, faults that are missing there are not judged, rather than gone.
The exit status is 0, or 1 if a fault is new, or 2 if a file can't be read or its run did not end."""

import argparse
import collections
import json
import sys

SAME, NEW, NOT_ENDED = 0, 1, 2
ITSELF = "the trace itself"
# The type of each field that is used, of a line or of an end.
TYPES = dict.fromkeys(["trace", "verdict", "text", "kind", "reason"], str) | dict.fromkeys(["A", "B", "total"], dict)
TYPES["dialogue"] = int
ABOUT = "Compares the faults in two files of `tcapjudge test --json`: which are new, gone and the same."
STATUSES = """exit statuses:
  0           no fault is new
  1           a fault is new
  2           a file can't be read, or its run did not end"""


class Fault(Exception):
    """A file can't be compared, for this reason."""


def shown(name):
    """Returns the name of a trace in one line, without control characters."""
    return "".join(letter if letter.isprintable() else "\N{REPLACEMENT CHARACTER}" for letter in name)


def check_types(fields):
    """Raises a TypeError if a field that is used is not of its type."""
    for name, wanted in TYPES.items():
        if name in fields and not isinstance(fields[name], wanted):
            raise TypeError(name)


def fault_of(end, found):
    """Returns what is said of an end, or None if it passes."""
    check_types(found)
    parts = [end, found.get("kind"), found.get("reason")]
    return None if found["verdict"] == "pass" else ", ".join(part for part in parts if part)


def faults_of(line):
    """Returns what is said of the ends of a dialogue, or of a trace by itself."""
    if "dialogue" not in line:
        return [ITSELF] if "text" in line else []
    if line["verdict"] == "error":
        return ["no table"]
    return [fault for fault in (fault_of(end, line[end]) for end in "AB" if end in line) if fault]


def lines_of(path):
    """Yields the objects of the lines of a file."""
    with open(path, encoding="utf-8") as file:
        for number, text in enumerate(file, 1):
            try:
                line = json.loads(text)
            except ValueError as error:
                raise Fault(f"{path}: line {number} is no JSON") from error
            except RecursionError as error:
                raise Fault(f"{path}: line {number} is nested too deeply") from error
            if not isinstance(line, dict):
                raise Fault(f"{path}: line {number} is no object")
            yield line


def read(path):
    """Returns how many dialogues have each fault, by the names of the traces."""
    traces, has_ended = collections.defaultdict(collections.Counter), False
    try:
        for number, line in enumerate(lines_of(path), 1):
            check_types(line)
            has_ended = "trace" not in line and "total" in line
            if "trace" in line:
                traces[line["trace"]].update(faults_of(line))
            elif not has_ended:
                raise Fault(f"{path}: line {number} is none of `tcapjudge test --json`")
    except (OSError, UnicodeDecodeError) as error:
        raise Fault(f"{path}: {getattr(error, 'strerror', None) or 'no text'}") from error
    except (KeyError, TypeError) as error:
        raise Fault(f"{path}: a line is none of `tcapjudge test --json`") from error
    if not has_ended:
        raise Fault(f"{path}: the line of the run is missing: the run did not end")
    return traces


def compared(old, new):
    """Returns the lines of the faults that are new, gone and the same, and of what the new run did not judge: traces
    that only the old file has, and faults of traces that are errors by themselves."""
    found = {"new": [], "gone": [], "same": [], "not judged": []}
    for name in [*new, *(name for name in old if name not in new)]:
        before, now = old.get(name, {}), new.get(name, {})
        if name not in new:
            found["not judged"].append(shown(name))
            continue
        for fault in sorted({*before, *now}):
            gone = "not judged" if ITSELF in now else "gone"
            what = "same" if fault in before and fault in now else "new" if fault in now else gone
            counts = f"{before.get(fault, 0)} before, {now.get(fault, 0)} now"
            found[what].append(f"{shown(name)}: {fault}: {counts}")
    return found


def main():
    form = argparse.RawDescriptionHelpFormatter
    words = argparse.ArgumentParser(description=ABOUT, epilog=STATUSES, formatter_class=form)
    words.add_argument("old", metavar="OLD", help="the file of the earlier run")
    words.add_argument("new", metavar="NEW", help="the file of the later run")
    asked = words.parse_args()
    # A name may have letters that the encoding of the output lacks.
    if sys.stdout:
        sys.stdout.reconfigure(errors="backslashreplace")
    try:
        found = compared(read(asked.old), read(asked.new))
    except Fault as fault:
        print(f"error: {shown(str(fault))}", file=sys.stderr)
        return NOT_ENDED
    for what, lines in found.items():
        for line in lines:
            print(f"{what}: {line}")
    print(", ".join(f"{len(lines)} {what}" for what, lines in found.items()))
    return NEW if found["new"] else SAME


if __name__ == "__main__":
    sys.exit(main())
