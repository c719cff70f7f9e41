"""What `make dist-test` runs: installs the package of out/dist in a Debian that debootstrap makes, uses it as a bench does, and removes it.

    dev/dist_test.py [--from FOLDER] [--in FOLDER]

A capture becomes a verdict, the example in C is compiled and agrees with the program, and the removed package leaves nothing. --from
names another folder with a package. --in names a Debian that has PACKAGES and is used instead of a new one, which is of the release
DEBIAN_SUITE (bookworm) from DEBIAN_MIRROR. Without root, debootstrap or a mirror this prints a line and tries nothing."""

import argparse
import glob
import os
import shutil
import signal
import subprocess
import sys
import tempfile
import urllib.request

SUITE = os.environ.get("DEBIAN_SUITE", "bookworm")
MIRROR = os.environ.get("DEBIAN_MIRROR", "http://deb.debian.org/debian")
PACKAGES = "gcc,libc6-dev,python3,tshark"
PATH = "/usr/local/sbin:/usr/local/bin:/usr/sbin:/usr/bin:/sbin:/bin"
# What the tests write, and what Debian's own tools note of any package.
NOT_LOOKED_AT = ("root", "tmp", "proc", "sys", "dev", "run", "var/lib/dpkg", "var/log", "var/cache")
# Commands of a bench in a copy of the package's folder, with the status that each has to have and a text that it has to print.
BEGIN = "set -e -o pipefail; export LC_ALL=C.UTF-8; cd /root/try;"
CAPTURE = """awk '/^[AB] /{ gsub(/../, "& ", $2); print ($1 == "A" ? "O" : "I") "\\n0000 " $2 }' examples/ussd.hex |
    text2pcap -q -D -P tcap - ussd.pcapng 2>text2pcap.said"""
STEPS = [
    ("the folder is copied", "cp -rL /usr/share/tcapjudge /root/try", 0, ""),
    ("the checksums are those of the manifest", "cd /usr && sha256sum -c --quiet share/tcapjudge/MANIFEST", 0, ""),
    ("the program says what it is", "tcapjudge --version", 0, "tcapjudge "),
    ("a capture is made", CAPTURE, 0, ""),
    ("lines are made of a capture", "lines_of_capture ussd.pcapng lines", 0, "messages: 4"),
    ("these lines pass", "tcapjudge test lines/pair-1.hex", 0, "1 trace: 1 pass, 0 inconc, 0 fail, 0 error"),
    ("a trace fails", "tcapjudge test --table examples/operations.json examples/answered_already.hex", 1, "B: fail at entry 1"),
]
# The example of the library says what the program says, without the line of the run.
AGREES = (
    "for it in crossing answered_already; do cp examples/$it.hex trace; tcapjudge test --table examples/operations.json --json said trace "
    ">/dev/null || true; head -n -1 said > wanted; {} --test trace examples/operations.json | cmp - wanted; done"
)
LIBRARY_STEPS = [
    ("the C example is linked with the archive", "cc -Wall -Werror clib/example.c clib/out/libtcapjudge.a -o static", 0, ""),
    ("the C example is linked with the library", "cc -Wall -Werror clib/example.c -ltcapjudge -o shared", 0, ""),
    ("the first agrees with the program", f"set +o pipefail; {AGREES.format('./static')}", 0, ""),
    ("the second agrees with the program", f"set +o pipefail; {AGREES.format('./shared')}", 0, ""),
    ("the example in Python agrees with the program", f"set +o pipefail; {AGREES.format('python3 clib/example.py')}", 0, ""),
]


def debootstrap():
    """Returns the path of debootstrap, which may be where only root looks for programs. None if it is not installed."""
    return shutil.which("debootstrap", path=f"{os.environ['PATH']}:{PATH}")


def why_not(wants_debian):
    """Returns why nothing can be tried here, or None."""
    if os.geteuid():
        return "not root"
    if not wants_debian:
        return None
    if not debootstrap():
        return "missing: debootstrap"
    try:
        with urllib.request.urlopen(f"{MIRROR}/dists/{SUITE}/Release", timeout=20) as answer:
            answer.read(1)
    except OSError as error:
        return f"no mirror at {MIRROR}: {error}"
    return None


def make_debian(folder):
    """Makes a Debian in an empty folder."""
    print(f"Making a Debian, {SUITE}, in {folder}: one to five minutes", flush=True)
    words = [debootstrap(), "--variant=minbase", f"--include={PACKAGES}", SUITE, folder, MIRROR]
    run = subprocess.run(words, stdout=subprocess.PIPE, stderr=subprocess.STDOUT, check=False)
    if run.returncode:
        sys.stderr.buffer.write(run.stdout[-4000:])
        sys.exit(f"debootstrap ended with {run.returncode}")


def inside(debian, command):
    """Runs a command by bash in a Debian. Returns its status with all that it printed."""
    words = ["chroot", debian, "/bin/bash", "-c", command]
    env = {"PATH": PATH, "HOME": "/root", "DEBIAN_FRONTEND": "noninteractive"}
    run = subprocess.run(words, stdin=subprocess.DEVNULL, stdout=subprocess.PIPE, stderr=subprocess.STDOUT, env=env, check=False)
    return run.returncode, run.stdout.decode(errors="replace")


def files_of(debian):
    """Returns the paths of all files and folders of a Debian that are looked at."""
    found = set()
    for at, folders, names in os.walk(debian):
        inner = os.path.relpath(at, debian)
        folders[:] = [name for name in folders if os.path.normpath(f"{inner}/{name}") not in NOT_LOOKED_AT]
        found.update(os.path.normpath(f"{inner}/{name}") for name in [*folders, *names])
    return found


def tried(debian, deb):
    """Installs a package in a Debian, tries it and removes it. Yields each step, what went wrong, and whether it went well."""
    before = files_of(debian)
    shutil.rmtree(f"{debian}/root/try", ignore_errors=True)
    shutil.copy(deb, f"{debian}/root/tcapjudge.deb")
    status, said = inside(debian, "dpkg -i /root/tcapjudge.deb")
    yield "the package is installed", said, status == 0
    has_library = os.path.exists(f"{debian}/usr/lib/libtcapjudge.so")
    for what, command, wanted, text in [*STEPS, *(LIBRARY_STEPS if has_library else [])]:
        status, said = inside(debian, (BEGIN if what != STEPS[0][0] else "") + command)
        yield what, f"{said}[status {status}]", status == wanted and text in said
    if not has_library:
        print("The library for C was not tried: it is not in this package")
    status, said = inside(debian, "dpkg -P tcapjudge")
    left = sorted(files_of(debian) ^ before)
    yield "the removed package leaves nothing", f"{said}{left}", status == 0 and not left


def try_all(debian, deb):
    """Tries a package in a Debian, and prints what went wrong and the counts. Returns the exit status."""
    held = []
    for what, said, holds in tried(debian, deb):
        held.append(holds)
        print(f"{'yes' if holds else 'NO'}: {what}", flush=True)
        if not holds:
            print(said, file=sys.stderr)
    print(f"{sum(held)} passed, {len(held) - sum(held)} failed")
    return int(not all(held))


def main():
    parser = argparse.ArgumentParser(description="Installs, tries and removes the package in a Debian.")
    parser.add_argument("--from", dest="source", metavar="FOLDER", default="out/dist")
    parser.add_argument("--in", dest="debian", metavar="FOLDER")
    asked = parser.parse_args()
    if why := why_not(not asked.debian):
        print(f"the package was not tried: {why}\n0 passed, 0 failed")
        return 0
    packages = glob.glob(f"{asked.source}/*.deb")
    if len(packages) != 1:
        sys.exit(f"{asked.source} has {len(packages)} packages, and one is wanted: make dist")
    if asked.debian:
        return try_all(asked.debian, packages[0])
    # A signal ends this as an error does, so that the folder is removed.
    signal.signal(signal.SIGTERM, lambda *_: sys.exit(1))
    with tempfile.TemporaryDirectory(prefix="dist-test-") as room:
        make_debian(f"{room}/debian")
        return try_all(f"{room}/debian", packages[0])


if __name__ == "__main__":
    sys.exit(main())
