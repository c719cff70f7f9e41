"""Compares docs/THEOREM.md with the sources: the clauses that it quotes, and the definitions that each of them
reaches, file by file in reading order, with the number of lines to read. `python3 tests/theorem.py --write` writes
these parts of the page again.

A definition reaches each definition of this repository that it names, and whatever these reach. A list of the page
leaves out what an earlier list has. It names the definitions to read, or those to leave out if they are fewer."""

import glob
import itertools
import re
import sys

PAGE = "docs/THEOREM.md"
CHECKING, BLAMING = "crates/tcap_judge/src/checking.rt", "crates/tcap_judge/src/blaming.rt"
TRACES, RUNS, TESTING = "crates/tcap_traces/src/laws.rt", "crates/tcap_report/src/laws.rt", "crates/tcapjudge/src/testing.rt"
MEANING = "tcap_traces.TraceMeaning"
# The results that a judge finds: what a verdict means holds for any results that the laws allow.
RESULTS = "tcap_traces.Dialogue", "ends_on"
# For each list of the page: its name, the clauses that are quoted before it (file, function, and the clause's name if
# it has one), and the definitions that it begins with. The clause before the second is that before the first.
LISTS = [
    ("lawful", [(CHECKING, "run_check", "lawful")], [("tcap_judge.LawfulRecord", "FindsLawful")]),
    ("end", [], [("tcap_judge.LawfulEnd", "FindsLawfulFor")]),
    ("blamed", [(BLAMING, "run_blame", "blames")], [("tcap_faults.BlameMeaning", "IsAtFaultOf")]),
    (
        "test",
        [(TRACES, "pass_is_lawful", ""), (TRACES, "fail_is_at_fault", "verdict")],
        [(MEANING, "MeansPass"), (MEANING, "MeansFail")],
    ),
    (
        "status",
        [(TESTING, "test", ""), (RUNS, "pass_of_run_is_of_each_trace", "")],
        [("tcapjudge.TestStatus", "IsStatus")],
    ),
]
IMPORT = re.compile(r"^(?:pub )?use Rattle\.(tcap_\w+)\.specs\.(\w+)\.\{([^}]*)\}", re.MULTILINE)
HEAD = re.compile(r"(?:(?:abbrev|unfoldable|opaque|pub|data|record)\s+)*([^\s:{(]+)")
DECLARES = re.compile(r"(abbrev|unfoldable|opaque|pub|data|record|use|infix)\b|\S+ :")
WORD = re.compile(r"[^\s(){}\[\],;:λ→×«»\"`]+")
SKIPPED = ("use ", "pub use", "infix", "pub mod")


def without_comments(lines):
    return re.sub(r"--.*", "", "\n".join(lines))


class Module:
    """A file of definitions."""

    def __init__(self, path):
        self.path = path
        with open(path, encoding="utf-8") as file:
            self.lines = file.read().split("\n")
        self.imports = {}
        for crate, module, names in IMPORT.findall(without_comments(self.lines)):
            for name in names.split(","):
                known, _, called = name.strip().partition(" as ")
                self.imports[called or known] = f"{crate}.{module}", known
        # For each definition: the first line, or that of its comment if it has one, and the line after the last.
        self.found, name = {}, None
        for number, line in enumerate(self.lines):
            if not line.strip() or line.startswith("--"):
                continue
            if line[0] in " ()}]" or name and "◌" in name and not DECLARES.match(line):
                if name:
                    self.found[name][1] = number + 1
            elif line.startswith(SKIPPED):
                name = None
            else:
                name = HEAD.match(line)[1]
                above = itertools.takewhile(self.is_comment, range(number - 1, -1, -1))
                self.found.setdefault(name, [number - len([*above]), 0])[1] = number + 1

    def is_comment(self, number):
        return re.match("-- (?!----)", self.lines[number])

    def words(self, name):
        """Returns the words of a definition."""
        start, end = self.found[name]
        words = WORD.findall(without_comments(self.lines[start:end]))
        return [part for word in words for part in (word, *word.split("."))]

    def about(self, name=None):
        """Returns the first sentence of the file, or of a definition's comment, without what is in brackets."""
        lines = self.lines[slice(*self.found[name])] if name else self.lines
        head = itertools.takewhile(lambda line: line.startswith("-- "), lines)
        text = " ".join(line[3:].strip() for line in head)
        return re.sub(r" \([^)]*\)", "", re.match(r".*?(?:[.?](?= [A-Z]|$)|$)", text)[0])


def modules():
    """Returns all files of definitions by their names."""
    found = {}
    for path in sorted(glob.glob("crates/*/specs/*.antt")):
        _, crate, _, name = path.split("/")
        found[f"{crate}.{name[:-5]}"] = Module(path)
    return found


def resolved(known, module, word):
    """Returns the module and the name of the definition that a word of a module names, or None if it names none of this repository."""
    while module in known:
        if word in known[module].found:
            return module, word
        if word not in known[module].imports:
            return None
        module, word = known[module].imports[word]
    return None


def reached(known, roots, seen):
    """Adds to `seen` what the definitions reach, each after the one that names it first. Returns what is new, in that order."""
    new, waiting = [], [*reversed(roots)]
    while waiting:
        module, name = waiting.pop()
        if (module, name) in seen:
            continue
        seen.add((module, name))
        new.append((module, name))
        named = [resolved(known, module, word) for word in known[module].words(name)]
        waiting += [it for it in reversed(named) if it]
    return new


def chosen(module, names, left):
    """Returns which definitions of a file a list has, in words: nothing if they are all of it, `The rest` if earlier lists
    have all others. `left` are those that no list has so far."""
    if len(names) == len(module.found):
        return ""
    if not left:
        return "The rest"
    some = left if len(left) < len(names) else names
    return ("All but " if some is left else "") + ", ".join(f"`{name}`" for name in some)


def sentences(module, names, left, is_first):
    """Returns what a list says of a file: its first sentence, if no earlier list has it, and which definitions to read.
    Instead of the sentence of the file, a single definition has its own, if this is a noun."""
    own = module.about(names[0]) if len(names) == 1 < len(module.found) else ""
    if is_first and own[:1].islower():
        return f"`{names[0]}`: {own}"
    return " ".join(filter(None, [module.about() if is_first else "", chosen(module, names, left)]))


def by_file(known, new):
    """Yields for each file its name, the definitions that are new, and the number of their lines."""
    files = {}
    for module, name in new:
        files.setdefault(module, []).append(name)
    for module, names in files.items():
        yield module, names, sum(end - start for start, end in (known[module].found[name] for name in names))


def total(known, new):
    """Returns how much there is to read, in words."""
    files = [*by_file(known, new)]
    return f"{len(new)} definitions in {len(files)} files, {sum(lines for _, _, lines in files)} lines"


def link(known, module):
    """Returns the link to a file."""
    return f"[{module.replace('.', '/')}](../{known[module].path})"


def listed(known, new, seen):
    """Returns the lines of the list of definitions, an item for each file."""
    earlier = {module for module, _ in seen - {*new, RESULTS}}
    rows = []
    for module, names, lines in by_file(known, new):
        left = [name for name in known[module].found if (module, name) not in seen]
        said = sentences(known[module], names, left, module not in earlier)
        rows.append(f"- {link(known, module)} ({lines}): {said}")
    return [*rows, "", f"{total(known, new)}."]


def folded(known, new):
    """Returns the lines of a list of files without their definitions."""
    *others, last = [link(known, module) for module, _, _ in by_file(known, new)]
    return [f"{total(known, new)}:", *(f"{it}," for it in others), f"{last}."]


def clause(path, function, name):
    """Returns a clause of a function as it is in the code: the clause of that name, or the one without a name."""
    with open(path, encoding="utf-8") as file:
        text = file.read()
    text = text[re.search(rf"^pub(\(crate\))? fn {function}[<(]", text, re.MULTILINE).start() :]
    start = text.index(f"    ensures {name} {{" if name else "    ensures {")
    end = min(text.index(stop, start + 1) for stop in ("\n    ensures ", "\n{") if stop in text[start + 1 :])
    return [f"// {function}, {path}", *(line[4:] for line in text[start:end].split("\n"))]


def parts():
    """Yields the name and the lines of each part that is made of the sources."""
    known, seen = modules(), {RESULTS}
    for name, clauses, roots in LISTS:
        quoted = [line for it in clauses for line in ["", *clause(*it)]]
        if quoted:
            yield f"{name}-clause", ["```rust", *quoted[1:], "```"]
        new = reached(known, roots, seen)
        yield f"{name}-definitions", listed(known, new, seen)
    yield "results", folded(known, reached(known, [RESULTS], seen - {RESULTS}))


def main():
    with open(PAGE, encoding="utf-8") as file:
        page = file.read()
    passed, failed = 0, 0
    for name, lines in parts():
        start, end = f"<!--{name}-->\n", f"<!--/{name}-->\n"
        before, _, rest = page.partition(start)
        old, _, after = rest.partition(end)
        made = "\n" + "\n".join(lines) + "\n\n"
        if old == made:
            passed += 1
        else:
            failed += 1
            print(f"{PAGE}: the part {name} is not what the sources say: python3 tests/theorem.py --write")
        page = before + start + made + end + after
    if sys.argv[1:] == ["--write"]:
        with open(PAGE, "w", encoding="utf-8") as file:
            file.write(page)
    print(f"{passed} passed, {failed} failed")
    return int(failed != 0)


if __name__ == "__main__":
    sys.exit(main())
