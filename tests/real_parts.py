"""Has two ends, users of a real SCCP (tests/real/end.c, over libosmo-sigtran), exchange the dialogues of examples/ as
unitdata over a real transfer point, osmo-stp, by M3UA and SCTP on a loopback interface. It captures this at each end
(tests/real/on_loopback.py), has tools/lines_of_capture.py make lines from the captures, and `tcapjudge test` judge
them. The lines must be those of the examples, and the verdicts those in the heads of the examples. If a part is
missing, it says which, and counts nothing.

Everything runs in a new network and among new processes, which end with it. If the kernel has no SCTP, that is inside
user-mode Linux, which runs another kernel as a process."""

import collections
import contextlib
import glob
import json
import os
import re
import shlex
import shutil
import signal
import socket
import subprocess
import sys
import tempfile
import time

from tested import PROGRAM

sys.path.insert(0, "dev")

import unproved

TOOL, SOURCE, ON_LOOPBACK = "tools/lines_of_capture.py", "tests/real/end.c", "tests/real/on_loopback.py"
LIBRARIES = "libosmo-sigtran", "libosmocore"
# A run takes some ten seconds. It is ended after this many.
LIMIT = "300"
# The status if this kernel can't lose packets, and the one if no status was left.
LOSSLESS, NO_STATUS = 5, 99
ALONE = ["unshare", "--map-root-user", "--net", "--pid", "--fork", "--kill-child", "--mount-proc"]
UML, MODULES, SBIN = "linux.uml", "/usr/lib/uml/modules", "/usr/sbin:/sbin"
EXAMPLES = sorted(glob.glob("examples/*.hex"))
# The addresses of end A and of end B in the dialogues of an example. Its number is in them, for B counted from the
# third value.
NUMBERS = "ni=0 pc=101 ssn=8", "ni=0 pc=202 ssn={}", 10
TITLES = "ni=0 pc=101 ssn=8 gt=49170000{:02}", "ni=0 pc=202 ssn=6 gt=49172000{:02}", 0
WAYS = {"numbers": NUMBERS, "titles": TITLES, "lossy": TITLES}

Row = collections.namedtuple("Row", "name verdict blamed", defaults=["pass", None])

# By the heads of the examples, under the words for their table: the lawful ones, and who is blamed for which entry of
# its dialogue, and of which kind.
ROWS = {
    (): [Row("announcement"), Row("password"), Row("ussd")],
    ("--table", "examples/operations.json"): [
        *map(Row, ["answered", "crossing", "dialogue", "expired", "indefinite"]),
        Row("no_message", "fail", ("A", 0, "F1")),
        Row("unknown_transaction", "fail", ("B", 0, "F2")),
        Row("after_end", "fail", ("A", 3, "F4")),
        Row("answers_nothing", "fail", ("B", 1, "F5")),
        Row("wrong_operation", "fail", ("B", 1, "F6")),
        Row("misplaced_dialogue", "fail", ("B", 1, "F7")),
        Row("wrong_half", "fail", ("A", 2, "F8")),
        Row("negative_test_failed", "fail", ("A", 4, "F8")),
        Row("wrong_dialogue", "fail", ("B", 1, "F9")),
        Row("invoke_id_busy", "fail", ("A", 0, "F10")),
        Row("bad_link", "fail", ("B", 1, "F11")),
        Row("answered_already", "fail", ("B", 1, "F12")),
        Row("reject_not_allowed", "fail", ("B", 1, "F13")),
        Row("wrong_reply", "fail", ("B", 2, "F14")),
    ],
}


def run(*words):
    return subprocess.run(words, capture_output=True, check=False)


# ---- the parts


def has_sctp():
    """Returns whether the kernel has SCTP, and allows this process to make a new network."""
    with contextlib.suppress(OSError), socket.socket(socket.AF_INET, socket.SOCK_STREAM, socket.IPPROTO_SCTP):
        return run(*ALONE, "true").returncode == 0
    return False


def missing(is_direct):
    """Returns the parts that are not installed."""
    tools = ["cc", "pkg-config", "tshark", "dumpcap", "ip", "unshare", "osmo-stp"] + [UML, "modprobe"] * (not is_direct)
    lacking = [tool for tool in tools if not shutil.which(tool)]
    if "pkg-config" not in lacking:
        lacking += [name for name in LIBRARIES if run("pkg-config", name).returncode]
    return lacking + [MODULES] * (not is_direct and not os.path.isdir(MODULES))


def version_of(*words):
    """Returns the first number with points that a command prints."""
    said = run(*words)
    return re.search(rb"\d+(\.\d+)+", said.stdout + said.stderr)[0].decode()


def build(folder):
    flags = run("pkg-config", "--cflags", "--libs", *LIBRARIES).stdout.decode().split()
    subprocess.run(["cc", "-O2", "-Wall", "-Wextra", "-Werror", SOURCE, *flags, "-o", f"{folder}/end"], check=True)


# ---- the exchange

INIT = """#!/bin/sh
export PATH={path}
mount -t proc proc /proc
mount -t hostfs -o {folder} none {folder}
modprobe -d {folder} -a sctp hmac && uname -r > {folder}/kernel
modprobe -d {folder} sch_netem
cd {here} && {words} > {folder}/said 2>&1
echo $? > {folder}/status
echo o > /proc/sysrq-trigger
sleep 9
"""


def within_uml(folder, words):
    """Returns the command that runs this one inside user-mode Linux, which sees all files of this machine and writes
    only to the folder. A listening socket of SCTP needs the module hmac."""
    os.makedirs(f"{folder}/lib", exist_ok=True)
    with contextlib.suppress(FileExistsError):
        os.symlink(MODULES, f"{folder}/lib/modules")
    with open(f"{folder}/init", "w", encoding="utf-8") as file:
        parts = {"path": shlex.quote(os.environ["PATH"]), "here": shlex.quote(os.getcwd())}
        file.write(INIT.format(folder=folder, words=shlex.join(words), **parts))
    os.chmod(f"{folder}/init", 0o755)
    root = ["root=/dev/root", "rootfstype=hostfs", "rootflags=/", "ro", f"init={folder}/init"]
    own = ["mem=256M", "con=null", "con0=null", f"uml_dir={folder}/", "umid=uml"]
    return ["unshare", "--map-root-user", "--pid", "--fork", "--kill-child", UML, *root, *own]


def exchanged(folder, way, is_direct):
    """Has the ends exchange the examples. Returns the version of the kernel whose SCTP was used, or None if it did not
    start; and the status, which is 0 if all lines have passed."""
    words = [*ALONE, sys.executable, ON_LOOPBACK, folder, way, *EXAMPLES]
    paths = {name: f"{folder}/{name}" for name in ("kernel", "status", "said")}
    forget(paths.values())
    limited = ["timeout", "-s", "KILL", LIMIT, *(words if is_direct else within_uml(folder, words))]
    said = f"{folder}/{'said' if is_direct else 'boot'}"
    with open(said, "wb") as file, unproved.started(
        limited, signal.SIGKILL, stdin=subprocess.DEVNULL, stdout=file, stderr=file
    ) as running:
        while running.poll() is None and not read(paths["status"]).strip():
            time.sleep(0.1)
    if is_direct:
        return os.uname().release, running.returncode
    texts = {name: read(path).strip() for name, path in paths.items()}
    return texts["kernel"] or None, int(texts["status"] or NO_STATUS)


def forget(paths):
    """Removes the files of an earlier run."""
    for path in paths:
        with contextlib.suppress(FileNotFoundError):
            os.remove(path)


def read(path):
    with contextlib.suppress(FileNotFoundError), open(path, encoding="utf-8", errors="replace") as file:
        return file.read()
    return ""


# ---- the results


def example_lines(path):
    """Returns the lines of an example without its quiet marks, which a capture does not have."""
    return [line[:2] + line[2:].lower() for line in read(path).splitlines() if line[:1] in ("A", "B")]


def files_of(folder, way, tap):
    """Returns the tool's run on a capture, and the files that it made, by the addresses of their ends, with their
    lines."""
    made = f"{folder}/{way}-{tap}"
    said = run(sys.executable, TOOL, f"{made}.pcapng", made, "--a", "ssn=8", "--whole")
    files = {}
    for path in glob.glob(f"{made}/*.hex"):
        lines = read(path).splitlines()
        ends = tuple(next(line[5:] for line in lines if line.startswith(f"#: {end} ")) for end in "AB")
        files[ends] = path, [line for line in lines if not line.startswith("#")]
    return said, files


def addresses_of(way, number):
    a, b, first = WAYS[way]
    return a.format(number), b.format(first + number)


def lines_hold(folder, way, tap):
    """Returns for each example whether its lines came back in order, and for the capture whether it has nothing else;
    and the files."""
    said, files = files_of(folder, way, tap)
    held = [said.returncode == 0 and len(files) == len(EXAMPLES)]
    for number, path in enumerate(EXAMPLES):
        found = files.get(addresses_of(way, number), (None, None))[1]
        held.append(found == example_lines(path))
        if not held[-1]:
            print(f"{way}, beside {tap}: {path}: {found}")
    if not all(held):
        print(f"{way}, beside {tap}: {said.returncode}\n{said.stdout.decode()}{said.stderr.decode()}")
    return held, files


def verdicts_of(folder, table, paths):
    """Returns the worst verdict on the dialogues of each trace, and the end, the entry and the kind of the first fault
    in a dialogue that fails."""
    out, found = f"{folder}/verdicts", {}
    forget([out])
    run(PROGRAM, "test", *table, "--json", out, *paths)
    # The last line is that of the run.
    for one in map(json.loads, read(out).splitlines()[:-1]):
        blamed = found.setdefault(one["trace"], [None, None])
        if "dialogues" in one:
            blamed[0] = one["verdict"]
        else:
            faults = [(end, one[end]["entry"], one[end]["kind"]) for end in "AB" if one[end]["verdict"] == "fail"]
            blamed[1] = blamed[1] or (faults or [None])[0]
    return found


def verdicts_hold(folder, way, files):
    """Returns for each row whether the lines of the capture, and the example itself, have its verdict."""
    held = []
    for table, rows in ROWS.items():
        paths = {row: f"examples/{row.name}.hex" for row in rows}
        captured = {row: files.get(addresses_of(way, EXAMPLES.index(path)), ("none", []))[0] for row, path in paths.items()}
        found = verdicts_of(folder, table, [*paths.values(), *captured.values()])
        for row in rows:
            both = [found.get(one) for one in (captured[row], paths[row])]
            held.append(both == [[row.verdict, row.blamed]] * 2)
            if not held[-1]:
                print(f"{way}: {row.name}: {both}, not {row.verdict} {row.blamed}")
    return held


def held_of(folder, way):
    """Returns whether each comparison holds for the captures of one way."""
    held, files = lines_hold(folder, way, "A")
    held += lines_hold(folder, way, "B")[0] + verdicts_hold(folder, way, files)
    if way == "lossy":
        # Some lost or overtaken messages must be back at the place where they were sent.
        held.append(any("sent before frame" in read(path) for path, _ in files.values()))
    return held


def tried(folder, is_direct):
    """Returns whether each comparison holds, the ways that were tried, and the kernel, which is None if it does not
    start."""
    held, ways, kernel = [], [], None
    for way in WAYS:
        kernel, status = exchanged(folder, way, is_direct)
        if kernel is None:
            break
        if status == LOSSLESS:
            print(f"{way}: not tried, since packets can't be lost here")
            continue
        ways.append(way)
        held += [status == 0, *held_of(folder, way)]
        if status:
            print("".join(f"{path}:\n{read(path)}" for path in [f"{folder}/said", *glob.glob(f"{folder}/{way}*.end")]))
    return held, ways, kernel


def skipped(why):
    print(f"skipped: {why}\n0 passed, 0 failed")
    return 0


def main():
    unproved.machine.end_in_order()
    os.environ["PATH"] += f":{SBIN}"
    is_direct = has_sctp()
    if lacking := missing(is_direct):
        return skipped(f"a real stack was not tried, for want of {', '.join(lacking)}")
    with tempfile.TemporaryDirectory(ignore_cleanup_errors=True) as folder:
        build(folder)
        held, ways, kernel = tried(folder, is_direct)
        if kernel is None:
            return skipped(f"a real stack was not tried: {UML} with its module sctp does not start here")
    versions = f"osmo-stp {version_of('osmo-stp', '--version')}, libosmo-sigtran"
    versions += f" {version_of('pkg-config', '--modversion', LIBRARIES[0])}, SCTP of Linux {kernel}"
    versions += "" if is_direct else " in user-mode Linux, since this kernel has none"
    print(f"a real stack, {versions}: {len(EXAMPLES)} examples, {', '.join(ways)}")
    print(f"{sum(held)} passed, {len(held) - sum(held)} failed")
    return int(not all(held))


if __name__ == "__main__":
    sys.exit(main())
