"""Runs `tcapjudge blame` over each example of docs/RULES.md: the end of its last line, or at a quiet mark one end,
must be blamed for that line, with the kind of the heading above it. Then runs `tcapjudge test` over each: it must say
in the sentence of tests/cases/rule_sentences.txt which rule is broken."""

import itertools
import re
import subprocess
import sys
import tempfile

from tested import PROGRAM

PAGE, TABLE, SENTENCES = "docs/RULES.md", "examples/operations.json", "tests/cases/rule_sentences.txt"
LASTING = '{"operations":[{"class":1,"code":45,"expires":false}]}'
# The line of an end that is blamed.
SAID = re.compile(
    r"^  [AB]: \w+ at entry \d+ of the dialogue, line (\d+), (F\d+: .*?)(?:; it comes later, and may follow .*)?$", re.MULTILINE
)
# A heading, and a row: what breaks the rule, a section, and the lines of an example.
KIND, ROW = re.compile(r"^## (F\d+): "), re.compile(r"^\| (.*?) \| .*? \| (`.*`) \|$")


def examples():
    """Yields the kind, the words and the lines of each example."""
    kind = None
    with open(PAGE, encoding="utf-8") as file:
        for line in file:
            heading, row = KIND.match(line), ROW.match(line.rstrip("\n"))
            kind = heading[1] if heading else kind
            if row:
                yield kind, row[1], re.findall(r"`([^`]*)`", row[2])


def run(words, given=b""):
    return subprocess.run([PROGRAM, *words], input=given, capture_output=True, check=False).stdout


def text_of(lines):
    return "".join(f"{line}\n" for line in lines).encode()


def is_blamed(kind, lines, table, folder):
    """Returns whether the last line of an example is blamed as required."""
    record = f"{folder}/record"
    with open(record, "wb") as file:
        file.write(run(["pack"], text_of(lines)))
    end = "[AB]" if lines[-1] == "Q" else lines[-1][0]
    return re.search(rf"^BLAMED {end} {len(lines) - 1} {kind}$", run(["blame", record, table]).decode(), re.MULTILINE)


def said(lines, table, folder):
    """Returns the kind with the sentence for each end that is blamed for the last line of an example."""
    trace = f"{folder}/trace.hex"
    with open(trace, "wb") as file:
        file.write(text_of(lines))
    found = SAID.findall(run(["test", "--ids", "once", "--table", table, trace]).decode())
    return [sentence for line, sentence in found if int(line) == len(lines)]


def sentences():
    with open(SENTENCES, encoding="utf-8") as file:
        return file.read().splitlines()


def main():
    passed, failed, kinds = 0, 0, set()
    with tempfile.TemporaryDirectory() as folder:
        with open(f"{folder}/table.json", "w", encoding="utf-8") as file:
            file.write(LASTING)
        for (kind, words, lines), wanted in itertools.zip_longest(examples(), sentences()):
            kinds.add(kind)
            table = f"{folder}/table.json" if words.endswith("*") else TABLE
            found = said(lines, table, folder)
            if is_blamed(kind, lines, table, folder) and wanted in found:
                passed += 1
            else:
                failed += 1
                print(f"{kind}: {words}: {lines}: wanted {wanted!r}, found {found}")
    if kinds != {f"F{number}" for number in range(1, 16)}:
        failed += 1
        print(f"{PAGE} lacks a kind")
    print(f"{passed} passed, {failed} failed")
    return int(failed != 0)


if __name__ == "__main__":
    sys.exit(main())
