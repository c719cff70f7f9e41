"""Names the tree of files that git sees here, committed or not, and keeps what the gate said of one."""

import contextlib
import os
import re
import subprocess
import tempfile

RESULT = "out/gate-result"
# The last line of the gate.
COUNTS = re.compile(r"\d+ passed, \d+ failed")


def git(*words, **more):
    """Returns what a command of git prints, without the end of its line. None if it fails or there is no git."""
    with contextlib.suppress(OSError, subprocess.CalledProcessError):
        how = {"stdout": subprocess.PIPE, "stderr": subprocess.DEVNULL, "text": True, "check": True}
        return subprocess.run(["git", *words], env=os.environ | more, **how).stdout.strip()
    return None


def tree():
    """Returns git's hash of the files that are here, without those that git ignores. None if this is no clone. It equals
    `git rev-parse COMMIT^{tree}` if nothing has changed since that commit."""
    kept = git("rev-parse", "--git-path", "objects")
    if kept is None:
        return None
    with tempfile.TemporaryDirectory() as folder:
        # Nothing is written to the clone: neither its index nor its objects.
        place = {"GIT_INDEX_FILE": f"{folder}/index", "GIT_OBJECT_DIRECTORY": folder}
        place["GIT_ALTERNATE_OBJECT_DIRECTORIES"] = os.path.abspath(kept)
        added = git("add", "--all", **place)
        return None if added is None else git("write-tree", **place)


def forget_result():
    """Removes what the gate said earlier."""
    with contextlib.suppress(FileNotFoundError):
        os.remove(RESULT)


def keep_result(of, line):
    """Keeps the gate's last line about a tree, if that is still the tree that is here."""
    if of is not None and of == tree():
        os.makedirs(os.path.dirname(RESULT), exist_ok=True)
        with open(RESULT, "w", encoding="utf-8") as file:
            file.write(f"{of}\n{line}\n")


def result_of(of):
    """Returns the gate's last line about a tree, or `not run`."""
    with contextlib.suppress(OSError, ValueError), open(RESULT, encoding="utf-8") as file:
        found, line = file.read().splitlines()
        if found == of and COUNTS.fullmatch(line):
            return line
    return "not run"
