"""Runs `make edits`: tries all edits of the named crates, or of all crates. An edit is a wrong body of a function, in
crates/NAME/edits, which the prover must refuse. With --gate it tries the edits of dev/gate_edits.txt; with --beside-ci
it does so while `rt ci` still proves other crates.

The proof of a function uses the contracts of the functions that it calls, and not their bodies. So edits of several
functions are tried in one check of these functions and of those that they call. An edit counts as refused if the check
fails to prove its own function for another reason than a callee without a proof. Other edits are tried again in a
check each, and at last in a check of the whole crate, as the kit's command `rt must-fail` does. Checks work on a copy
of the crate's files, over the libraries below it. As many checks run at once as there are processors and memory for,
or as RT_JOBS says."""

import contextlib
import glob
import os
import re
import signal
import subprocess
import sys
import tempfile
import threading
import time

import kept
import kit

# The edits that the gate tries: each line has a crate's name, a colon, and the names of edits.
GATE = "dev/gate_edits.txt"
# What `rt` prints for an edit that is refused for a reason that proves little.
SAYS_LITTLE = "only because a proof file names what the edit took away"
# The most edits that are tried in one check.
TOGETHER = 14
FUNCTION = re.compile(r"\s*(?:pub(?:\([a-z]+\))? )?(?:const )?(?:unsafe )?fn (\w+)")
# A block of methods: of a type, of a trait for a type, or of a trait.
IMPL = re.compile(r"(?:unsafe )?impl\b(?:<.*?>)? (?:(?P<trait>\w[^{]*?) for )?(?P<type>\w+)|pub (?:\([a-z]+\) )?trait (?P<own>\w+)")
DECLARED = re.compile(r"^(?:pub(?:\([a-z]+\))? )?(?:struct|enum|trait) (\w+)", re.MULTILINE)
# What a check prints about a function, about a goal of one, and about an error in a file of its proof; and the errors
# that prove little.
STATE = re.compile(r"fn (\S+): (?:no proof|not proved)(.*)")
GOAL = re.compile(r"(?:note: )?(?:\./)?(src/\S+?):(\d+):\d+: .*is not proved")
PROOF = re.compile(r"(?:\./)?proofs/(\S+)/\w+\.antt:\d+:\d+: error: (.*)")
NAMES = re.compile(r"has no field|is not in scope|has no `|was not admitted")
UNKNOWN = re.compile(r"has no function `|fits several")


def edits_of(crate):
    """Returns the paths of the edits of the crate in that folder. Exits if another file is there."""
    found = sorted(glob.glob(f"{crate}/edits/*"))
    others = ["/".join(path.split("/")[-4:]) for path in found if not path.endswith((".edit", ".md"))]
    if others:
        sys.exit(f"the name of an edit ends in .edit: {' '.join(others)}")
    return [path for path in found if path.endswith(".edit")]


def pairs_of(edit):
    """Returns the file, the old text and the new text of each pair of an edit."""
    path, old, pairs = None, None, []
    with open(edit, encoding="utf-8") as file:
        for line in file.read().split("\n"):
            if line.startswith("file: "):
                path = line[6:].strip()
            elif line.startswith("old: "):
                old = line[5:]
            elif line.startswith("new:"):
                pairs.append((path, old, line[4:].removeprefix(" ")))
    return pairs


def module_of(path):
    """Returns the module that a file of src/ is, below its crate."""
    return [part for part in path[len("src/") : -len(".rt")].split("/") if part not in ("lib", "main", "mod")]


def types_of(crate):
    """Returns the modules of the types and traits that a crate in that folder declares, by their names."""
    found = {}
    for path in glob.glob(f"{crate}/src/**/*.rt", recursive=True):
        with open(path, encoding="utf-8") as file:
            names = DECLARED.findall(file.read())
        found.update(dict.fromkeys(names, module_of(os.path.relpath(path, crate))))
    return found


def function_at(path, text, line, types):
    """Returns the function that a line of a file is in; lines count from 0. The name is the one that a check gives the
    function below its crate: the module and the names of its type and its trait, else the module of the file; and its
    own name. Returns None if the line is in no function. `types` are the modules of the crate's types."""
    lines = text.split("\n")
    while lines[line].lstrip().startswith("#["):
        line += 1
    at, found = next(((at, FUNCTION.match(lines[at])) for at in range(line, -1, -1) if FUNCTION.match(lines[at])), (0, None))
    if not found:
        return None
    block = next((IMPL.match(it) for it in lines[at::-1] if IMPL.match(it)), None) if lines[at].startswith(" ") else None
    if not block:
        return "::".join([*module_of(path), found[1]])
    name = block["own"] or block["type"]
    return "::".join([*types.get(name, module_of(path)), name + re.sub(r"\W", "", block["trait"] or ""), found[1]])


class Together:
    """Edits of different functions of a crate, in one copy of its files."""

    def __init__(self, folder):
        self.folder, self.types = folder, types_of(folder)
        self.texts, self.functions, self.edits = {}, set(), []

    def text(self, path):
        """Returns the text of a file, with the edits in it."""
        if path in self.texts:
            return self.texts[path]
        with open(f"{self.folder}/{path}", encoding="utf-8") as file:
            return file.read()

    def function_at(self, path, text, line):
        return function_at(path, text, line, self.types)

    def takes(self, edit):
        """Takes an edit along, if each of its old texts occurs once, in a function that no other edit here changes.
        Returns whether it did."""
        texts, functions = dict(self.texts), set()
        for path, old, new in pairs_of(edit):
            text = texts.get(path) or self.text(path)
            if not path.startswith("src/") or text.count(old) != 1:
                return False
            function = self.function_at(path, text, text[: text.index(old)].count("\n"))
            if not function or function in self.functions:
                return False
            functions.add(function)
            texts[path] = text.replace(old, new)
        if len(self.edits) >= TOGETHER:
            return False
        self.texts, self.functions = texts, self.functions | functions
        self.edits.append((edit, functions))
        return True

    def refused(self, said):
        """Returns the edits with a function that a check refuses for its own sake. If a function lacks only the proof
        of a function that it calls, a check prints just that."""
        found = lambda pattern: [match for match in map(pattern.match, said.split("\n")) if match]
        # The proofs of a function are in a folder with its name, below the folders of its file and its type.
        at_fault = {error[1].replace("/", "::") for error in found(PROOF) if not NAMES.search(error[2])}
        at_fault |= {self.function_at(goal[1], self.text(goal[1]), int(goal[2]) - 1) for goal in found(GOAL)}
        at_fault |= {state[1].partition("::")[2] for state in found(STATE) if "did not prove" in state[2]}
        refused = at_fault & {state[1].partition("::")[2] for state in found(STATE)}
        return [edit for edit, functions in self.edits if functions & refused]


def together(crate, edits):
    """Returns the edits of a crate that change only functions, in as few groups as can be tried together."""
    groups = []
    for edit in edits:
        if not any(group.takes(edit) for group in groups):
            group = Together(crate.folder)
            if group.takes(edit):
                groups.append(group)
    return groups


class Tries:
    """The edits of a crate to try, some of them at the same time, and their results."""

    def __init__(self, rt, crate, edits, log):
        self.rt, self.crate, self.edits, self.log = rt, crate, edits, log
        self.lock, self.start, self.failed = threading.Lock(), None, 0

    @contextlib.contextmanager
    def kept_work(self):
        """Yields a copy of what the crate's own check keeps, so that the original does not change and no edit is
        checked over another. Yields None if it keeps nothing."""
        self.start = self.start or time.monotonic()
        folder = f"{self.crate.folder}/out/incremental"
        if not os.path.isdir(folder):
            yield None
            return
        with tempfile.TemporaryDirectory(prefix="kept-") as room:
            kept.copy_folder(folder, room)
            yield f"{room}/incremental"

    def check(self, texts, words):
        """Checks the crate with these texts in place of its own. Returns the check's result."""
        with self.kept_work() as work:
            return self.rt.checked(self.crate, texts, ["--jobs", "1", *words], work)

    def try_group(self, group):
        """Tries edits together. Returns those that are refused."""
        ran = self.check(group.texts, [f"--only={it}" for it in sorted(group.functions)])
        if ran.returncode == 2 and UNKNOWN.search(ran.stdout):
            # A check gives some function another name: check all functions of these modules.
            modules = sorted({"::".join(module_of(path)) for path in group.texts})
            ran = self.check(group.texts, [f"--only={it}" for it in modules] if all(modules) else [])
        refused = group.refused(ran.stdout) if ran.returncode == 1 else []
        self.note([f"{self.name(edit)}: refused, as it must be" for edit in refused])
        return refused

    def try_whole(self, edit):
        """Tries an edit in a check of the whole crate. If that does not refuse it over what is kept, tries it from
        nothing. Prints the edit if it is not refused, or for a reason that proves little. Returns whether it is
        refused."""
        with self.kept_work() as work:
            is_refused, said = self.rt.must_fail(self.crate, edit, ["--jobs", "1"], work)
        if work and not is_refused:
            is_refused, said = self.rt.must_fail(self.crate, edit, ["--jobs", "1"])
        said = f"{self.name(edit)}: {said.partition(': ')[2]}"
        self.note([said])
        if not is_refused or SAYS_LITTLE in said:
            print(said, flush=True)
        return is_refused

    def name(self, edit):
        return f"{self.crate.name}/{os.path.basename(edit).removesuffix('.edit')}"

    def note(self, lines):
        """Writes lines to the log."""
        with self.lock, open(self.log, "a", encoding="utf-8") as log:
            print(*lines, sep="\n", end="\n" * bool(lines), file=log)


def in_lanes(rt, tries, tasks):
    """Runs tasks at the same time; each is a crate's name and a call without arguments. Returns the result of each."""
    # For `rt`, a task waits for nothing, has this size, takes this much memory, and is this call.
    size = lambda name: ([], tries[name].crate.count(rb"\n"), rt.need(tries[name].crate))
    lanes = {(name, "edits", at): (*size(name), lambda given, jobs, call=call: call()) for at, (name, call) in enumerate(tasks)}
    return [*rt.in_lanes(lanes).values()]


def try_all(rt, tree, chosen, log):
    """Tries the chosen edits of each crate, by its name, in a folder with the built libraries below these crates.
    Returns how many edits were not refused."""
    crates = [it for it in rt.rtlib.crates_below(tree) if chosen.get(it.name)]
    tries = {it.name: Tries(rt, it, chosen[it.name], log) for it in crates}
    left = {it.name: [*chosen[it.name]] for it in crates}
    for grouped in (together, lambda crate, edits: [group for edit in edits for group in together(crate, [edit])]):
        tasks = []
        for name, edits in left.items():
            tasks += [(name, lambda name=name, group=group: tries[name].try_group(group)) for group in grouped(tries[name].crate, edits)]
        refused = {edit for edits in in_lanes(rt, tries, tasks) for edit in edits}
        left = {name: [edit for edit in edits if edit not in refused] for name, edits in left.items()}
    last = [(name, edit) for name, edits in left.items() for edit in edits]
    results = in_lanes(rt, tries, [(name, lambda name=name, edit=edit: tries[name].try_whole(edit)) for name, edit in last])
    return results.count(False)


def counted(rt, tree, chosen, log, failed):
    """Tries the chosen edits, prints how that went, and returns `failed` plus the number of edits not refused."""
    start, used = time.monotonic(), os.times()
    failed += try_all(rt, tree, chosen, log)
    seconds, now = time.monotonic() - start, os.times()
    processor = now.children_user + now.children_system - used.children_user - used.children_system
    tried = sum(map(len, chosen.values()))
    print(f"{tried} edits tried in {seconds:.0f} seconds, and {processor:.0f} seconds of processor time; {log} has each")
    return failed


def of_gate():
    """Returns the edits that the gate tries, by the names of their crates."""
    with open(GATE, encoding="utf-8") as file:
        lines = [line.split(":") for line in file.read().splitlines() if line and not line.startswith("#")]
    return {name: edits.split() for name, edits in lines}


def try_for_gate(are_there):
    """Tries the edits of the gate over the libraries that `rt ci` has built here. `are_there` returns whether the
    libraries below a crate are there. Ends with a line of the counts."""
    rt, tree, failed, chosen = kit.load_rt(), os.path.abspath("."), 0, of_gate()
    crates = {it.name: it for it in rt.rtlib.crates_below(tree)}
    for name, edits in [*chosen.items()]:
        chosen[name] = [f"{tree}/crates/{name}/edits/{edit}.edit" for edit in edits]
        lost = [path for path in chosen[name] if not os.path.isfile(path)]
        if lost or not are_there(crates[name]):
            print(f"{name}: its edits were not tried: {' '.join(lost) or 'the libraries below it are not there'}")
            failed += len(chosen.pop(name))
    total = sum(map(len, of_gate().values()))
    with tempfile.NamedTemporaryFile("w", prefix="edits-", suffix=".log", delete=False) as log:
        failed = counted(rt, tree, chosen, log.name, failed)
    print(f"{total - failed} passed, {failed} failed", flush=True)
    return int(failed != 0)


def made_there(crate):
    """Returns whether the libraries below a crate are there after `rt ci` has ended. In the folder where the user
    works, `rt ci` leaves the libraries of its own checks."""
    return kit.take_libraries(crate) or subprocess.run(["rt", "check"], cwd=crate.folder, stdout=subprocess.DEVNULL).returncode == 0


def main(names):
    # Python would wait for the running checks. They end with this process.
    signal.signal(signal.SIGINT, signal.SIG_DFL)
    if names == ["--gate"]:
        return try_for_gate(made_there)
    if names == ["--beside-ci"]:
        return try_for_gate(kit.has_libraries)
    lost = [name for name in names if not os.path.isdir(f"crates/{name}/src")]
    if lost:
        sys.exit(f"no such crate: {' '.join(lost)}")
    copy, failed = kept.Kept(), 0
    # The next run removes what an interrupted run leaves there.
    tempfile.tempdir = copy.rooms
    found = {name: edits_of(f"{copy.tree}/crates/{name}") for name in names or os.listdir(f"{copy.tree}/crates")}
    chosen = {name: edits for name, edits in sorted(found.items()) if edits}
    for name in [*chosen]:
        if not copy.step(f"{name} is proved", ["rt", "check"], f"crates/{name}"):
            failed += len(chosen.pop(name))
    failed = counted(kit.load_rt(), copy.tree, chosen, copy.log, failed)
    print(f"{failed} not refused or not tried")
    return int(failed != 0)


if __name__ == "__main__":
    sys.exit(main(sys.argv[1:]))
