"""Makes the pages for `man`: one of the program and one of each of its commands, from what `--help` prints and from the table of
docs/PROGRAM.md; and one of each tool, from what its `--help` prints."""

import collections
import os
import re
import subprocess
import sys
import time

PAGE = "docs/PROGRAM.md"
PROGRAM = "tcapjudge"
TOOLS = ["lines_of_capture", "judge_archive", "compare_reports"]
# A command that prints help, and has no page.
LEFT_OUT = "help"
# The spaces before a line of help that continues the text of an option.
INDENTED = " " * 20
# What Markdown sets off: links, strong words and code.
LINK, STRONG, CODE = re.compile(r"\[([^\]]*)\]\([^)]*\)"), re.compile(r"\*\*([^*]*)\*\*"), re.compile(r"`([^`]*)`")

# Characters that roff would take for a request, or print as others.
TYPED = {"\\": "\\e", "-": "\\-", "'": "\\(aq", "`": "\\(ga", "^": "\\(ha", "~": "\\(ti", ".": "\\&."}

# A help text: its first line, what is typed, an example, and the rows of each section, pairs of a tag and a text.
Help = collections.namedtuple("Help", "about usage example sections")


# ---- roff


def escaped(text):
    """Returns a text for roff, in which nothing is a request and each character is as it is typed."""
    return "".join(TYPED.get(letter, letter) for letter in text)


def of_markdown(text):
    """Returns a paragraph of Markdown for roff. Code and strong words are bold; of a link its text is left."""
    parts = CODE.split(STRONG.sub(r"`\1`", LINK.sub(r"\1", text)))
    return "".join(f"\\fB{escaped(part)}\\fR" if at % 2 else escaped(part) for at, part in enumerate(parts) if part)


def section(title, *lines):
    """Returns the lines of a section, none if it is empty."""
    return [f'.SH "{title.upper()}"', *lines] if lines else []


def listed(rows):
    """Returns the lines of rows: a list of tags with their texts. A row without a tag is a paragraph."""
    return [line for tag, text in rows for line in ([".TP", f"\\fB{escaped(tag)}\\fR"] if tag else [".PP"]) + [of_markdown(text)] if line]


def see(*names):
    """Returns the lines of the section that names other pages."""
    return section("See also", ", ".join(f"\\fB{escaped(name)}\\fR(1)" for name in names))


def page_of(name, purpose, lines, version, when):
    """Returns the octets of a page of that time, in seconds: its name, what it is for, and the lines of its other sections."""
    day = time.strftime("%Y-%m-%d", time.gmtime(when))
    head = f'.TH "{name.upper()}" 1 "{day}" "{PROGRAM} {version}" "{PROGRAM}"'
    named = section("Name", f"{escaped(name)} \\- {of_markdown(purpose[:1].lower() + purpose[1:].rstrip('.'))}")
    return "\n".join([head, *named, *lines, ""]).encode()


# ---- sources


def help_of(words, executable=None):
    """Returns the help that a command prints."""
    env = os.environ | {"COLUMNS": "1000", "LC_ALL": "C.UTF-8"}
    text = subprocess.run(words, executable=executable, env=env, stdout=subprocess.PIPE, text=True, check=True).stdout
    about, usage, example, sections = "", "", "", {}
    for first, *lines in (block.splitlines() for block in text.strip().split("\n\n")):
        heading, _, rest = first.partition(": ")
        if heading.lower() == "usage":
            usage = rest
        elif heading == "Example":
            example = rest
        elif first.endswith(":"):
            sections[first[:-1].capitalize()] = rows_of(lines)
        else:
            about = about or first
    return Help(about, usage, example, sections)


def rows_of(lines):
    """Returns the rows of a section of help."""
    rows = []
    for line in lines:
        if line.startswith(INDENTED) and rows:
            rows[-1] = rows[-1][0], f"{rows[-1][1]} {line.strip()}".strip()
        elif line.startswith(" "):
            tag, _, text = line.strip().partition("  ")
            rows.append((tag, text.strip()))
        else:
            rows.append(("", line))
    return rows


def text_of_page():
    """Returns the text of PAGE."""
    with open(PAGE, encoding="utf-8") as file:
        return file.read()


def commands_of_page():
    """Returns the rows of the table of PAGE: what is typed, and what that does."""
    return re.findall(r"^\| `([^`]*)` \| (.*?) \| .*\|$", text_of_page(), re.MULTILINE)


def after_table():
    """Returns the paragraph of PAGE after its table, in one line."""
    paragraphs = text_of_page().split("\n\n")
    at = next(at for at, text in enumerate(paragraphs) if text.startswith("|"))
    return " ".join(paragraphs[at + 1].splitlines())


# ---- pages


def program_lines(found, commands):
    """Returns the sections of the program's page."""
    rows = commands_of_page()
    return [
        *section("Synopsis", escaped(found.usage)),
        *section("Description", escaped(f"{found.about}."), *listed(rows), ".PP", of_markdown(after_table())),
        *[line for name in ("Options", "Exit statuses") for line in section(name, *listed(found.sections[name]))],
        *see(*(f"{PROGRAM}-{word}" for word in commands), *TOOLS),
    ]


def command_lines(found, word):
    """Returns the sections of the page of a command."""
    rows = [row for row in commands_of_page() if row[0].split()[0] == word]
    example = [".nf", escaped(found.example), ".fi"] if found.example else []
    return [
        *section("Synopsis", escaped(found.usage)),
        *section("Description", *listed(rows)),
        *[line for name, options in found.sections.items() for line in section(name, *listed(options))],
        *section("Example", *example),
        *see(PROGRAM),
    ]


def tool_lines(found):
    """Returns the sections of the page of a tool."""
    options = [line for name, rows in found.sections.items() for line in section(name.replace("`", ""), *listed(rows))]
    return [*section("Synopsis", escaped(found.usage)), *options, *see(f"{PROGRAM}-test")]


def pages(program, version, when):
    """Returns the octets of each page by its name, of a program and of the tools, with that version and time."""
    found = help_of([PROGRAM, "--help"], program)
    commands = [word for word, _ in found.sections["Commands"] if word != LEFT_OUT]
    made = {PROGRAM: page_of(PROGRAM, found.about, program_lines(found, commands), version, when)}
    for word in commands:
        own = help_of([PROGRAM, word, "--help"], program)
        made[f"{PROGRAM}-{word}"] = page_of(f"{PROGRAM}-{word}", own.about, command_lines(own, word), version, when)
    for tool in TOOLS:
        own = help_of([sys.executable, f"tools/{tool}.py", "--help"])
        own = own._replace(usage=own.usage.replace(f"{tool}.py", tool))
        made[tool] = page_of(tool, own.about, tool_lines(own), version, when)
    return made
