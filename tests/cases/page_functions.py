"""Cases of tests/page.py that need no browser: what functions of the page's scripts return for reports of the program."""

import json

import node
import rules
from page_traces import SHORTENED
from traced import run

# The table of a row of docs/RULES.md with an asterisk.
LASTING = rules.LASTING


def reports(folder):
    """Yields the sentence of each row of docs/RULES.md, and what JSON says of the ends that are blamed for its last line."""
    table, trace, report = f"{folder}/table.json", f"{folder}/trace.hex", f"{folder}/report.ndjson"
    with open(table, "w", encoding="utf-8") as file:
        file.write(LASTING)
    for (_, words, lines), wanted in zip(rules.examples(), rules.sentences()):
        with open(trace, "wb") as file:
            file.write(rules.text_of(lines))
        run(["test", "--ids", "once", "--table", table if words.endswith("*") else rules.TABLE, "--json", report, trace])
        with open(report, encoding="utf-8") as file:
            objects = [json.loads(line) for line in file]
        ends = [it[end] for it in objects for end in "AB" if end in it]
        yield wanted, [it for it in ends if it.get("line") == len(lines)]


def sentences(checks, folder):
    """The page finds the sentence on each fault in what the program writes."""
    found = [*reports(folder)]
    told = iter(node.called([["sentenceOf", said] for _, ends in found for said in ends]))
    for wanted, ends in found:
        returned = [f"{said['kind']}: {next(told)}" for said in ends]
        checks.holds(f"{wanted!r}, the page has {returned}", wanted in returned)


def folders(checks, _):
    """The folder that the lists leave out of the names of traces."""
    calls = [["folderOf", {"traces": [{"head": {"trace": name}} for name in names]}] for names, _ in SHORTENED]
    for (names, words), folder in zip(SHORTENED, node.called(calls)):
        checks.same(f"folder of {names}", [f"{folder}{word}" for word in words], names)
    checks.same("of no trace", node.called([["folderOf", {"traces": []}]]), [""])


CASES = [sentences, folders]
