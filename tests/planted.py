"""Judges the dialogues of cases/planted.json by `tcapjudge test` with its own tables: dialogues of MAP and CAP, each with
one planted fault. Of each it is known which end is at fault, at which line, by which kind (docs/RULES.md), and a phrase
of the sentence that a ticket needs: which rule is broken. That was worked out from the standard and the page. The
verdict on that end is `fail` if a row has no other. The other end must not fail.

    tests/planted.py [--show]

--show prints of each dialogue what `test` prints."""

import json
import os
import subprocess
import sys
import tempfile

import rooms
from tested import PROGRAM
from written import written

CASES = f"{rooms.HERE}/cases/planted.json"


def judged(folder, rows):
    """Judges a trace for each row. Returns the JSON of the dialogues by the trace, and the text."""
    names = [f"{number}.hex" for number in range(len(rows))]
    for name, row in zip(names, rows):
        with open(f"{folder}/{name}", "w", encoding="utf-8") as file:
            file.writelines(f"{written(line)}\n" for line in row["lines"])
    words = [PROGRAM, "test", "--json", "verdicts", *names]
    said = subprocess.run(words, cwd=folder, stdin=subprocess.DEVNULL, capture_output=True, check=False)
    with open(f"{folder}/verdicts", encoding="utf-8") as file:
        lines = [json.loads(line) for line in file]
    of_traces = {name: [it for it in lines if it.get("trace") == name and "dialogue" in it] for name in names}
    return [of_traces[name] for name in names], said.stdout.decode() + said.stderr.decode()


def faults_in(dialogues):
    """Returns the blames in the dialogues of a trace, each the end, the verdict, the line, the kind and the sentence;
    and the errors."""
    ends = [(end, it[end]) for it in dialogues for end in "AB" if "kind" in it.get(end, {})]
    sentences = [of["text"].strip().partition("\n")[0] for _, of in ends]
    blamed = [(end, of["verdict"], of["line"], of["kind"], why) for (end, of), why in zip(ends, sentences)]
    return blamed, [it["text"] for it in dialogues if it["verdict"] == "error"]


def is_found(row, dialogues):
    """Returns whether the planted fault is found, and no other. Otherwise prints what was found."""
    blamed, errors = faults_in(dialogues)
    wanted = row["end"], row.get("verdict", "fail"), row["line"], row["kind"]
    holds = not errors and [fault[:4] for fault in blamed] == [wanted] and row["phrase"] in blamed[0][4]
    if not holds:
        print(f"{row['name']}: {blamed} {errors}, not {wanted} {row['phrase']}")
    return holds


def shown_of(text, name):
    """Returns the lines that `test` prints of a trace."""
    lines = text.splitlines()
    at = [number for number, line in enumerate(lines) if line.startswith(f"{name}: ")]
    return "\n".join(lines[at[0] : at[-1] + 1])


def main(words):
    with open(CASES, encoding="utf-8") as file:
        rows = json.load(file)
    with tempfile.TemporaryDirectory() as folder:
        found, text = judged(folder, rows)
    held = [is_found(row, dialogues) for row, dialogues in zip(rows, found)]
    for number, row in enumerate(rows if "--show" in words else []):
        print(f"== {row['name']}\n{shown_of(text, f'{number}.hex')}")
    print(f"{sum(held)} passed, {len(held) - sum(held)} failed")
    return int(not all(held))


if __name__ == "__main__":
    sys.exit(main(sys.argv[1:]))
