"""The kept copy of the repository, in which `make edits` and `make changed` work: a folder among the temporary files,
named after the repository's place. So an interrupted run never leaves edits or proofs among the user's own files.
Proofs stay in the copy, so the next run proves only what changed since."""

import fcntl
import filecmp
import glob
import hashlib
import os
import shutil
import subprocess
import sys
import tempfile
import time


def listed_by_git(*words):
    """Returns the paths that a command of git lists, each ended by a zero octet."""
    run = subprocess.run(["git", *words], stdout=subprocess.PIPE, check=True)
    return [path for path in os.fsdecode(run.stdout).split("\0") if path]


def files_here():
    """Returns the paths of the repository's files as they are now, committed or not, without those that git
    ignores."""
    paths = listed_by_git("ls-files", "-z", "--cached", "--others", "--exclude-standard")
    return [path for path in paths if os.path.isfile(path)]


def hold(folder, kind):
    """Locks a folder until the descriptor that this returns is closed, and prints a line if it must wait."""
    held = os.open(folder, os.O_RDONLY)
    try:
        fcntl.flock(held, kind | fcntl.LOCK_NB)
    except BlockingIOError:
        print(f"waiting for another run to end in {folder}", flush=True)
        fcntl.flock(held, kind)
    return held


class Kept:
    """The copy, which is brought to the repository's present state: its `tree`, a folder `rooms` for temporary files
    of one run, and a `log` of the output of its steps."""

    def __init__(self):
        here = os.path.realpath(".")
        name = hashlib.sha256(os.fsencode(here)).hexdigest()[:12]
        base = f"{tempfile.gettempdir()}/kept-{os.path.basename(here)}-{name}"
        os.makedirs(base, mode=0o700, exist_ok=True)
        if os.stat(base).st_uid != os.geteuid():
            sys.exit(f"{base} is another user's: set TMPDIR")
        self.tree, self.rooms, self.log = f"{base}/tree", f"{base}/rooms", f"{base}/log"
        # Held until this process ends.
        self.held = hold(base, fcntl.LOCK_EX)
        shutil.rmtree(self.rooms, ignore_errors=True)
        for folder in (self.tree, self.rooms):
            os.makedirs(folder, exist_ok=True)
        with open(self.log, "w", encoding="utf-8"):
            pass
        files = files_here()
        self.drop_others(set(files))
        self.copy_changes(files)
        self.take_proofs()

    def drop_others(self, files):
        """Removes what the repository no longer has, except the proofs of crates that are still there."""
        for at, folders, names in os.walk(self.tree):
            place = os.path.relpath(at, self.tree)
            folders[:] = [name for name in folders if name != "out"]
            for name in names:
                if os.path.normpath(f"{place}/{name}") not in files:
                    os.remove(f"{at}/{name}")
        crates = {path.split("/")[1] for path in files if path.startswith("crates/")}
        for name in set(os.listdir(f"{self.tree}/crates") if os.path.isdir(f"{self.tree}/crates") else []) - crates:
            shutil.rmtree(f"{self.tree}/crates/{name}")

    def copy_changes(self, files):
        """Copies the files that differ."""
        for path in files:
            copy = f"{self.tree}/{path}"
            if not os.path.isfile(copy) or not filecmp.cmp(path, copy, shallow=False):
                os.makedirs(os.path.dirname(copy), exist_ok=True)
                shutil.copy(path, copy)

    def take_proofs(self):
        """Copies the user's own proofs of each crate that has no proofs here yet."""
        for out in sorted(glob.glob("crates/*/out")):
            crate, copy = os.path.dirname(out), f"{self.tree}/{out}"
            if os.path.isdir(copy) or not os.path.isdir(os.path.dirname(copy)):
                continue
            # `rt` locks a crate's folder while it works there.
            held = hold(crate, fcntl.LOCK_SH)
            part = f"{self.rooms}/{os.path.basename(crate)}"
            copy_folder(out, part)
            os.close(held)
            os.rename(part, copy)

    def step(self, what, command, folder="."):
        """Runs a command in a folder of the copy. Prints how many seconds it took and, if it failed, its last output.
        Returns whether it passed."""
        start, place = time.monotonic(), f"{self.tree}/{folder}"
        # A `make` that this runs must not inherit from the one that may have started it, and must use the program that
        # is built there.
        others = "MAKE", "MFLAGS", "TCAPJUDGE"
        environment = {name: value for name, value in os.environ.items() if not name.startswith(others)}
        how = {"stdin": subprocess.DEVNULL, "stdout": subprocess.PIPE, "stderr": subprocess.STDOUT}
        run = subprocess.run(command, cwd=place, env=environment, errors="replace", check=False, **how)
        with open(self.log, "a", encoding="utf-8") as log:
            print(f"== {what}", run.stdout, sep="\n", file=log)
        print(f"{time.monotonic() - start:6.0f} s  {what}{': FAILED' if run.returncode else ''}", flush=True)
        if run.returncode:
            print(*run.stdout.splitlines()[-20:], f"(all that it printed is in {self.log})", sep="\n", flush=True)
        return run.returncode == 0


def copy_folder(folder, to):
    """Copies a folder as cheaply as the file system can."""
    subprocess.run(["cp", "-a", "--reflink=auto", folder, to], check=True)
