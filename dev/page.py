"""Makes crates/tcap_page/src/frame.rt from the files in page/: the frame of the pages that `tcapjudge test --html` and
`explain --chart` write.

A page is the frame up to its marker, objects of JSON, and the rest of the frame. frame.html has a place for the style
and one for the script, which is the files of SCRIPTS in this order. A browser accepts no other style or script, since
the policy of the page has their checksums (Content Security Policy, W3C). With --check it writes nothing, compares,
and prints `N passed, M failed`. The exit status is 0 if none failed."""

import base64
import hashlib
import re
import sys

FOLDER = "page"
FRAME = "crates/tcap_page/src/frame.rt"
SCRIPTS = ["text", "report", "list", "filters", "ladder", "parts", "dialogue", "rows", "links", "run", "frame"]
SCRIPT_FORM = '"use strict";\n(() => {{\n{}}})();\n'
MARKER = "MARKER\n"
# What a script defines for all scripts.
DEFINED = re.compile(r"^(?:function|class|const|let) (\w+)", re.MULTILINE)
POLICY = "default-src 'none'; base-uri 'none'; form-action 'none'; img-src data:; style-src '{}'; script-src '{}'"
FORM = """//! The frame of a page. dev/page.py writes this file from the files in page/.

/// The frame of a page before its objects of JSON: the style, the script, and the elements that the script fills.
pub const FRAME_HEAD: &str = {};

/// The frame of a page after its objects of JSON.
pub const FRAME_TAIL: &str = {};
"""


def text_of(path):
    """Returns the text of a file, or an empty text if there is no file."""
    try:
        with open(path, encoding="utf-8") as file:
            return file.read()
    except OSError:
        return ""


def checksum_of(text):
    """Returns the checksum of a style or a script, as a policy spells it."""
    return f"sha256-{base64.b64encode(hashlib.sha256(text.encode()).digest()).decode()}"


def frame():
    """Returns the text before a report and the text after it."""
    style = "\n" + text_of(f"{FOLDER}/frame.css")
    script = "\n" + SCRIPT_FORM.format("\n".join(text_of(f"{FOLDER}/{name}.js") for name in SCRIPTS))
    places = {"{policy}": POLICY.format(checksum_of(style), checksum_of(script)), "{style}": style, "{script}": script}
    text = text_of(f"{FOLDER}/frame.html")
    for place, filling in places.items():
        text = text.replace(place, filling)
    head, _, tail = text.partition(MARKER)
    return head, tail


def raw(text):
    """Returns a text as a raw string, with enough signs # that no quote in the text ends it."""
    signs = "#"
    while f'"{signs}' in text:
        signs += "#"
    return f'r{signs}"{text}"{signs}'


def constants():
    """Returns the text of the file with the frame."""
    head, tail = frame()
    return FORM.format(raw(head), raw(tail))


def checks():
    """Yields each check with whether it holds."""
    head, tail = frame()
    parts = [text_of(f"{FOLDER}/{name}") for name in ["frame.css", *(f"{name}.js" for name in SCRIPTS)]]
    names = [name for part in parts for name in DEFINED.findall(part)]
    yield "each file of the frame is there", all(parts) and head != "" and tail != ""
    yield "the frame is ASCII", (head + tail).isascii()
    yield "no name is defined twice", len(names) == len(set(names))
    yield "no style or script ends its element or is markup", not any("</" in part or "<!--" in part for part in parts)
    yield f"{FRAME} is made of {FOLDER}/", text_of(FRAME) == constants()


def check():
    """Prints the checks that do not hold, and the counts. Returns the exit status."""
    held = []
    for what, holds in checks():
        held.append(holds)
        if not holds:
            print(f"not so: {what}", file=sys.stderr)
    print(f"{sum(held)} passed, {len(held) - sum(held)} failed")
    return int(not all(held))


def main():
    if sys.argv[1:] == ["--check"]:
        sys.exit(check())
    with open(FRAME, "w", encoding="utf-8") as file:
        file.write(constants())


if __name__ == "__main__":
    main()
