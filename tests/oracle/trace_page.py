"""Reads the page that `tcapjudge test --html` writes, for tests/traces.py: what an HTML parser finds in its frame, and
whether that agrees with the lines of JSON."""

import html.parser
import itertools
import json
import re

# The most dialogues that do not pass in a page.
MOST = 10_000
# The characters that a JSON text must escape: the start of a tag, and control characters of lines and texts.
TOLD_BY_NUMBER = re.compile("[<\x00-\x09\x0b-\x1f\x7f-\x9f\u2028\u2029]")


class Script(html.parser.HTMLParser):
    """The content of the script element that has the report."""

    def __init__(self, page):
        super().__init__(convert_charrefs=False)
        self.is_within, self.held = False, []
        self.feed(page)
        self.close()

    def handle_starttag(self, tag, attrs):
        self.is_within = tag == "script" and ("id", "report") in attrs

    def handle_endtag(self, _):
        self.is_within = False

    def handle_data(self, data):
        if self.is_within:
            self.held.append(data)


def lines_in(page):
    """Returns the lines of objects in a page."""
    return [line for line in "".join(Script(page).held).split("\n") if line]


def sum_of(traces):
    """Returns the sums over all traces."""
    of, verdicts = [it["dialogues"] for it in traces], [it["verdict"] for it in traces]
    return {
        "traces": {verdict: verdicts.count(verdict) for verdict in ("pass", "inconc", "fail", "error")},
        "messages": sum(it["messages"] for it in traces),
        "dialogues": {verdict: sum(it[verdict] for it in of) for verdict in ("pass", "inconc", "fail", "error")},
        "unheard": sum(it["unheard"] for it in traces),
    }


def shown(lines):
    """Returns the lines of JSON that belong in the page, and how many dialogues that do not pass are left out."""
    kept, room = [], itertools.count(1)
    for line in lines:
        it = json.loads(line)
        if "dialogue" not in it or (it["verdict"] != "pass" and next(room) <= MOST):
            kept.append(line)
    return kept, max(0, next(room) - 1 - MOST)


def look_at_page(checks, page, found, text):
    """Checks that the page has the lines of JSON of traces and of dialogues that do not pass, and then the sum, with the
    version that the line of the run has."""
    # The last line is that of the run.
    *lines, ran = [line for line in text.split("\n") if line]
    checks.holds("JSON has nothing that means something to HTML", not TOLD_BY_NUMBER.search(text))
    wanted, left_out = shown(lines)
    *found, last = found or ["null"]
    checks.same("one report, and an end", (page.count('<script type="application/x-ndjson" id="report">\n'), page[-8:]), (1, "</html>\n"))
    checks.holds("the lines of the page are those of JSON", found == wanted)
    traces = [it for it in map(json.loads, lines) if "dialogue" not in it]
    wanted = {"total": sum_of(traces), "left_out": left_out, "version": json.loads(ran)["version"]}
    checks.same("the sum", json.loads(last), wanted)
