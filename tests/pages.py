"""Shows that the examples and commands in the pages are true.

The example on each library's page is proved code: the block of code in crates/tcap_NAME/README.md is, word for word,
the file crates/tcap_uses/src/NAME.rt without its `ghost use` lines, which import the words of the clauses. So is the
block of docs/LIBRARY.md.

Each command in README.md and docs/*.md prints what the page says. A block between fences with a line that begins with
`$ ` consists of commands, each followed by its output. A command whose line ends with a backslash continues in the
next line. A line `..` stands for one or more lines that are left out. A last line `[status N]` is not output: it gives
the exit status, which is 0 without such a line. A command must not print on standard error, but may redirect it. The
commands of a page run one after the other, in bash with pipefail, in a new folder with copies of COPIED. `tcapjudge`
is the program that is tested (tests/tested.py).

Each link of a page leads to an existing file and heading; each `make WORD` names a target."""

import glob
import itertools
import os
import re
import shutil
import subprocess
import sys
import tempfile

from tested import PROGRAM

LIBRARIES = ["ber", "parts", "msg", "record", "end", "books", "model", "dialogues", "readings", "certificate_text", "check", "refute", "faults", "evidence", "search", "lines", "judge", "diagnostics", "explain", "traces", "command_line"]
PAGES = {f"crates/tcap_{name}/README.md": [name] for name in LIBRARIES}
PAGES["docs/LIBRARY.md"] = ["judge"]
RUST = re.compile(r"^```rust\n(.*?)^```$", re.DOTALL | re.MULTILINE)

COPIED = ["examples", "tools"]
# The most seconds that a command of a page may take.
LIMIT = 60
BLOCK = re.compile(r"^```\w*\n(.*?)^```$", re.DOTALL | re.MULTILINE)
PROMPT = re.compile(r"^\$ ", re.MULTILINE)
STATUS = re.compile(r"\[status (\d+)\]")
FENCE = re.compile(r"^[ \t]*(```|~~~).*$", re.MULTILINE)
LINK = re.compile(r"\]\(([^)#\s]*)#?([^)\s]*)\)")
TARGET = re.compile(r"`make ([a-z]+)|^make ([a-z]+)", re.MULTILINE)


def text_of(path):
    """Returns the text of a file, or an empty text if there is no file."""
    try:
        with open(path, encoding="utf-8") as file:
            return file.read()
    except OSError:
        return ""


def shown(source):
    """Returns what a page shows of a file of tcap_uses."""
    lines = source.splitlines(keepends=True)
    return "".join(line for line in lines if not line.startswith("ghost use ")).lstrip("\n")


def is_proved(page, names):
    """Returns whether the blocks of code of a page are the proved code."""
    files = [f"crates/tcap_uses/src/{name}.rt" for name in names]
    sources = [text_of(file) for file in files]
    if all(sources) and RUST.findall(text_of(page)) == [shown(source) for source in sources]:
        return True
    print(f"{page} does not show {' '.join(files)}", file=sys.stderr)
    return False


def headings_of(path):
    """Returns the headings of a page, as links name them."""
    titles = re.findall(r"^#+ (.*)$", text_of(path), re.MULTILINE)
    return {re.sub(r"[^\w\- ]", "", title.lower()).replace(" ", "-") for title in titles}


def is_there(page, path, heading):
    """Returns whether a link of a page leads somewhere."""
    if path.startswith("http"):
        return True
    to = os.path.join(os.path.dirname(page), path) if path else page
    return os.path.exists(to) and (not heading or heading in headings_of(to))


def is_sound(page):
    """Returns whether the links of a page lead somewhere, the targets that it names exist, and each of its prompts is
    run."""
    text = text_of(page)
    wrong = ["#".join(link) for link in LINK.findall(text) if not is_there(page, *link)]
    targets = {word for pair in TARGET.findall(text) for word in pair if word}
    wrong += [f"make {word}" for word in targets if not re.search(rf"^{word}:", text_of("Makefile"), re.MULTILINE)]
    wrong += [fence[0] for fence in FENCE.finditer(text) if not re.fullmatch(r"```\w*", fence[0])]
    prompts = sum(len(PROMPT.findall(block)) for block in BLOCK.findall(text))
    if prompts != len(PROMPT.findall(text)):
        wrong.append("a prompt that stands in no block")
    if wrong:
        print(f"{page}: {', '.join(wrong)}", file=sys.stderr)
    return not wrong


def command_of(part):
    """Returns a command as it is typed; what the page says that it prints; and its exit status."""
    lines = part.splitlines()
    typed = 1 + sum(1 for _ in itertools.takewhile(lambda line: line.endswith("\\"), lines))
    status = STATUS.fullmatch(lines[-1]) if len(lines) > typed else None
    printed = lines[typed:-1] if status else lines[typed:]
    return "\n".join(lines[:typed]), printed, int(status[1]) if status else 0


def commands_of(page):
    """Returns the commands of a page. Text in a block before its first command counts as output of a command that
    prints nothing."""
    blocks = [PROMPT.split(block) for block in BLOCK.findall(text_of(page))]
    parts = [part for first, *others in blocks if others for part in ([f":\n{first}"] if first else []) + others]
    return [command_of(part) for part in parts]


def is_printed(printed, output):
    """Returns whether the lines of a page are what was printed."""
    wanted = "".join("(?:.*\n)+" if line == ".." else re.escape(f"{line}\n") for line in printed)
    return re.fullmatch(wanted, output) is not None


def is_so(page, command, how):
    """Returns whether a command of a page does what the page says."""
    typed, printed, status = command
    # If it takes too long, `timeout` also ends what bash started, with the status 124.
    words = ["timeout", str(LIMIT), "bash", "-c", f"set -o pipefail\n{typed}"]
    run = subprocess.run(words, stdin=subprocess.DEVNULL, capture_output=True, check=False, **how)
    output, error = run.stdout.decode(errors="replace"), run.stderr.decode(errors="replace")
    if is_printed(printed, output) and not error and run.returncode == status:
        return True
    print(f"{page}: `{typed}` prints, with the status {run.returncode}:\n{output}{error}", file=sys.stderr)
    return False


def runs_of(page, program):
    """Returns for each command of a page whether it does what the page says. `program` is a folder that has the
    program."""
    with tempfile.TemporaryDirectory() as folder:
        for name in COPIED:
            shutil.copytree(name, f"{folder}/{name}")
        env = os.environ | {"PATH": f"{program}:{os.environ['PATH']}", "LC_ALL": "C"}
        return [is_so(page, command, {"cwd": folder, "env": env}) for command in commands_of(page)]


def main():
    held = [is_proved(page, names) for page, names in PAGES.items()]
    held += map(is_sound, ["README.md", "CONTRIBUTING.md", *sorted(glob.glob("docs/*.md") + glob.glob("crates/*/README.md"))])
    with tempfile.TemporaryDirectory() as folder:
        os.symlink(os.path.abspath(PROGRAM), f"{folder}/tcapjudge")
        for page in ["README.md", *sorted(glob.glob("docs/*.md"))]:
            held += runs_of(page, folder)
    print(f"{sum(held)} passed, {len(held) - sum(held)} failed")
    return int(not all(held))


if __name__ == "__main__":
    sys.exit(main())
