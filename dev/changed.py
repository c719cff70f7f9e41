"""Runs `make changed`: proves and tests, in the kept copy (dev/kept.py), what changed since a commit. That is the
named commit, else origin/main, else HEAD~1. Changes that are not committed count too.

It checks every crate, and so proves again those that changed. It tries the edits that the changes touch, runs the
programs that look at test vectors, builds the program and runs it. It is no gate: at its end it prints what it left out."""

import os
import shutil
import signal
import subprocess
import sys
import tempfile
import time

import edits
import gate
import kept
import kit

# The programs that look at test vectors.
VECTORS = "tcap_octet_vectors", "tcap_rule_vectors"
SKIPPED = """Left to `make test`: proofs from nothing, edits of crates and files that did not change, the layout,
the other stored runs, the second compiler, feeding while an entry is lent, and allocations that fail in turn."""


def base_of(names):
    """Returns the first of the names that is a commit, and the last commit that it and HEAD have in common."""
    for name in names:
        run = subprocess.run(["git", "merge-base", name, "HEAD"], capture_output=True, text=True, check=False)
        if run.returncode == 0:
            return name, run.stdout.strip()
    sys.exit(f"no commit to begin at: {' '.join(names)}")


def changes_since(base):
    """Returns the paths of the files that differ from that commit, except edits that only moved."""
    paths = kept.listed_by_git("diff", "--name-only", "--no-renames", "-z", base)
    moved = kept.listed_by_git("diff", "--name-only", "-M100%", "--diff-filter=R", "-z", base)
    others = kept.listed_by_git("ls-files", "--others", "--exclude-standard", "-z")
    return {*paths, *others} - {path for path in moved if path.endswith(".edit")}


def touched(rt, tree, crate, changes):
    """Returns the edits of the crate that the changes touch: all if its definitions changed, else those that are new
    or changed, or edit a file that changed."""
    found = edits.edits_of(f"{tree}/{crate}")
    if any(path.startswith(f"{crate}/specs/") for path in changes):
        return found

    def is_touched(edit):
        texts, why = rt.read_edit(edit, f"{tree}/{crate}")
        return why or os.path.relpath(edit, tree) in changes or any(f"{crate}/{path}" in changes for path in texts)

    return [edit for edit in found if is_touched(edit)]


def chosen_of(rt, copy, changes):
    """Returns the edits to try, by the names of the crates whose files changed."""
    names = {path.split("/")[1] for path in changes if path.startswith("crates/")}
    there = sorted(name for name in names if os.path.isdir(f"{copy.tree}/crates/{name}/src"))
    print(f"{len(changes)} files changed, in the crates {' '.join(there) or '(none)'}", flush=True)
    return {name: touched(rt, copy.tree, f"crates/{name}", changes) for name in there}


def main(names):
    # Python would wait for the running checks. They end with this process.
    signal.signal(signal.SIGINT, signal.SIG_DFL)
    name, base = base_of(names or ["origin/main", "HEAD~1"])
    start, copy, rt, passed = time.monotonic(), kept.Kept(), kit.load_rt(), []
    # The next run removes what an interrupted run leaves there.
    tempfile.tempdir = copy.rooms
    print(f"What changed since {name}, from {base[:12]} on, is proved in {copy.tree}", flush=True)
    chosen = chosen_of(rt, copy, changes_since(base))
    is_proved = copy.step("every crate is proved", ["rt", "all", "check"])
    passed.append(is_proved)
    if is_proved:
        passed.append(edits.counted(rt, copy.tree, chosen, copy.log, 0) == 0)
        for name in VECTORS:
            looked = ["sh", "-c", "rt run <stdin | diff stdout -"]
            passed.append(copy.step(f"test vectors of {name}", looked, f"crates/{name}"))
    if is_proved and copy.step("the program is built", ["make", "--silent", "program"]):
        passed += [copy.step(what, [sys.executable, f"tests/{name}.py"]) for name, what in gate.TESTS.items()]
        if shutil.which("cc") and shutil.which("ar"):
            passed.append(copy.step("the library for C", [sys.executable, "dev/clib.py"]))
        else:
            print("the library for C was not built: it needs cc and ar", flush=True)
        passed += [copy.step(what, [sys.executable, f"tests/{name}.py"]) for name, what in gate.PACKED.items()]
    else:
        passed.append(False)
        print("the program was not run", flush=True)
    print(SKIPPED)
    print(f"{'passed' if all(passed) else 'FAILED'} after {time.monotonic() - start:.0f} seconds")
    return int(not all(passed))


if __name__ == "__main__":
    sys.exit(main(sys.argv[1:]))
