"""Packs the program by dev/dist.py, looks at both packages, and runs tests/program.py and tests/words.py over the unpacked program.

    tests/dist.py [FOLDER]

It packs twice, and both times have to give the same octets; if FOLDER has packages, theirs too. The library for C is packed if it is
built. What can't be tried here, for want of a tool, is left out and named."""

import gzip
import hashlib
import io
import os
import re
import shutil
import stat
import subprocess
import sys
import tarfile
import tempfile

from tested import PROGRAM

LIBRARY = "clib/out/libtcapjudge.so"
SHARE, DOC = "share/tcapjudge", "share/doc/tcapjudge"
MANIFEST = f"{SHARE}/MANIFEST"
SCRIPTS = ["tests/program.py", "tests/words.py"]
COUNTS = re.compile(r"^(\d+) passed, (\d+) failed$", re.MULTILINE)
LINK = re.compile(r"\]\(([^)#\s]*)#?[^)\s]*\)")
# Pages that are not packaged.
LEFT_OUT = re.compile("CERTIFICATES|CONTRIBUTING|DECISIONS|LAWS|PERF|PROOFS|THEOREM")
# What packaged pages have in the place of links to such pages.
READS = {
    "README.md": ["lists what is proved, what is only tested,", "; in the repository: THEOREM, CERTIFICATES, LAWS |\n"],
    "docs/EXPLAIN.md": ["\nSome facts are compared and not listed.\n"],
    "docs/FORMAT.md": ["what happened unseen. It is a JSON object"],
    "docs/PROMISES.md": ["chosen by this profile ([MODEL.md](MODEL.md)), so each verdict"],
    "docs/VERDICTS.md": ["that the record is unlawful**.\n"],
}
# The time of the packages.
WHEN = os.environ.get("SOURCE_DATE_EPOCH", "1700000000")
UNPROVED = "tcapjudge-unproved"


def run(*words, **env):
    """Runs a command, and returns its status with all that it printed."""
    how = {"stdin": subprocess.DEVNULL, "stdout": subprocess.PIPE, "stderr": subprocess.STDOUT, "env": os.environ | env}
    ended = subprocess.run(words, check=False, **how)
    return ended.returncode, ended.stdout.decode(errors="replace")


def pack(*words, **env):
    """Runs dev/dist.py over the program. Stops if that fails."""
    library = [] if os.path.exists(LIBRARY) else ["--no-library"]
    status, said = run(sys.executable, "dev/dist.py", "--program", PROGRAM, *library, *words, **env)
    if status:
        sys.exit(f"dev/dist.py ended with {status}:\n{said}")


def octets_of(path):
    """Returns the octets of a file."""
    with open(path, "rb") as file:
        return file.read()


def files_in(folder):
    """Returns what is in each file below a folder, with its mode, or what a link holds, by its path."""
    found = {}
    for at, folders, names in os.walk(folder):
        for name in [*names, *(it for it in folders if os.path.islink(f"{at}/{it}"))]:
            path = f"{at}/{name}"
            mode = stat.S_IMODE(os.lstat(path).st_mode)
            found[os.path.relpath(path, folder)] = os.readlink(path) if os.path.islink(path) else (mode, octets_of(path))
    return found


def unpack(octets, folder):
    """Unpacks a tar archive into a folder. Returns the only file or folder that then is in it."""
    with tarfile.open(fileobj=io.BytesIO(octets)) as tar:
        tar.extractall(folder)
    (only,) = os.listdir(folder)
    return f"{folder}/{only}"


def members_of(octets):
    """Returns the members of an `ar` archive by their names, in their order."""
    found, at = {}, len(b"!<arch>\n")
    while at < len(octets):
        head = octets[at : at + 60].decode()
        size = int(head[48:58])
        found[head[:16].strip()] = octets[at + 60 : at + 60 + size]
        at += 60 + size + size % 2
    return found


# ---- what is looked at


def same(folder, *others):
    """Yields whether the packages in these folders have the same names and octets."""
    for other in others:
        yield f"the packages in {other} are those in {folder}", files_in(folder) == files_in(other)


def manifest(files):
    """Yields whether the manifest has each file with its checksum, and says of the program what that says."""
    lines = files[MANIFEST][1].decode().splitlines()
    sums = dict(reversed(line.split("  ", 1)) for line in lines if not line.startswith("#"))
    wanted = {path: hashlib.sha256(it[1]).hexdigest() for path, it in files.items() if isinstance(it, tuple) and path != MANIFEST}
    yield "the manifest has each file with its checksum", sums == wanted
    said = dict(line[2:].split(": ", 1) for line in lines if line.startswith("#"))
    _, version = run(PROGRAM, "--version")
    yield "the manifest says who proved the program", version == f"tcapjudge {said['tcapjudge'].split(',')[0]} ({said['program']})\n"
    yield "the manifest says what the gate said", said["gate"] == "not run" or COUNTS.fullmatch(said["gate"]) is not None
    has_library = said["library for C"] == "in this package"
    yield "the manifest names the library that is there", has_library == ("lib/libtcapjudge.so" in files)
    is_static = b"/ld-linux-x86-64.so.2" not in files["bin/tcapjudge"][1][:1024]
    yield "the manifest says what the program needs", said["program needs"].startswith("no library") == is_static


def pages(top):
    """Yields of each page whether its links lead to files of the package; and whether all links of the package do."""
    for at, _, names in os.walk(f"{top}/{DOC}"):
        for path in (f"{at}/{name}" for name in names if name.endswith(".md")):
            links = [link for link in LINK.findall(octets_of(path).decode()) if link and not link.startswith("http")]
            wrong = [link for link in links if not os.path.exists(f"{at}/{link}")]
            yield f"{os.path.basename(path)} leads to {wrong}", not wrong
    lost = [path for path, it in files_in(top).items() if isinstance(it, str) and not os.path.exists(f"{top}/{path}")]
    yield f"links lead nowhere: {lost}", not lost


def texts(top):
    """Yields of each page whether each paragraph, row or item that names a page which is not packaged says that it is in the repository;
    and whether pages read as they have to."""
    for path in [f"{at}/{name}" for at, _, names in os.walk(f"{top}/{DOC}") for name in names if name.endswith(".md")]:
        parts = re.split(r"\n\n|\n(?=[|-])", octets_of(path).decode())
        lost = [part for part in parts if LEFT_OUT.search(part) and "repository" not in part]
        yield f"{os.path.basename(path)} names pages that are not packaged: {lost}", not lost
    for path, wanted in READS.items():
        text = octets_of(f"{top}/{DOC}/{path}").decode()
        missing = [part for part in wanted if part not in text]
        yield f"{path} lacks {missing}", not missing


def debian(octets, files, room):
    """Yields whether a Debian package has these files below /usr, and is sound."""
    members = members_of(octets)
    yield "the members of the Debian package", list(members) == ["debian-binary", "control.tar.gz", "data.tar.gz"]
    os.mkdir(room)
    yield "the files of the Debian package", files_in(unpack(gzip.decompress(members["data.tar.gz"]), room)) == files
    with tarfile.open(fileobj=io.BytesIO(members["control.tar.gz"])) as tar:
        sums = tar.extractfile("./md5sums").read().decode().splitlines()
    wanted = {f"{hashlib.md5(it[1], usedforsecurity=False).hexdigest()}  usr/{path}" for path, it in files.items() if isinstance(it, tuple)}
    yield "the checksums of the Debian package", set(sums) == wanted
    if shutil.which("dpkg-deb"):
        with tempfile.NamedTemporaryFile() as file:
            file.write(octets)
            file.flush()
            yield "dpkg-deb reads the package", not any(run("dpkg-deb", word, file.name)[0] for word in ("--info", "--contents"))


def commands(top):
    """Yields whether each tool starts, and whether `man` shows each page without a warning."""
    for name in sorted(os.listdir(f"{top}/bin")):
        yield f"{name} --help", run(f"{top}/bin/{name}", "--help", PYTHONDONTWRITEBYTECODE="1")[0] == 0
    if not shutil.which("man"):
        print("pages for man: not looked at, for want of man")
        return
    for name in sorted(os.listdir(f"{top}/share/man/man1")):
        status, said = run("sh", "-c", 'man --warnings -l "$0" 2>&1 >/dev/null', f"{top}/share/man/man1/{name}", MANWIDTH="80")
        yield f"{name}: {said}", not status and not said
        text = gzip.decompress(octets_of(f"{top}/share/man/man1/{name}"))
        yield f"{name} has a description or options", re.search(rb'^\.SH "(DESCRIPTION|OPTIONS)"\n\.', text, re.MULTILINE) is not None


def tests(top):
    """Runs the tests over the unpacked program. Returns how many passed and failed."""
    program = f"{top}/bin/tcapjudge"
    if "not proved" in run(program, "--version")[1]:
        # By this name the tests know that it is not proved.
        os.rename(program, f"{top}/bin/{UNPROVED}")
        os.symlink(UNPROVED, program)
    both = [0, 0]
    for script in SCRIPTS:
        status, said = run(sys.executable, script, TCAPJUDGE=program)
        counts = COUNTS.findall(said)
        passed, failed = map(int, counts[-1]) if counts else (0, 1)
        failed = max(failed, int(status != 0))
        print(f"{script} over the packaged program: {passed} passed, {failed} failed", flush=True)
        if failed:
            print(said, file=sys.stderr)
        both = [both[0] + passed, both[1] + failed]
    return both


def looks(room, made):
    """Yields what is looked at, with whether it holds. `made` are folders with packages; the first archive is unpacked in `room`."""
    yield from same(*made)
    names = sorted(os.listdir(made[0]))
    yield "there are two packages", [os.path.splitext(name)[1] for name in names] == [".gz", ".deb"]
    tarball, deb = (octets_of(f"{made[0]}/{name}") for name in names)
    top = unpack(gzip.decompress(tarball), f"{room}/tar")
    files = files_in(top)
    yield from manifest(files)
    yield from pages(top)
    yield from texts(top)
    yield from debian(deb, files, f"{room}/deb")
    pack("--install", f"{room}/installed", SOURCE_DATE_EPOCH=WHEN)
    yield "the installed files are those of the package", files_in(f"{room}/installed") == files
    yield from commands(top)


def main():
    with tempfile.TemporaryDirectory(prefix="dist-") as room:
        made = [f"{room}/first", f"{room}/second"]
        for folder, zone in zip(made, ["UTC", "Asia/Tokyo"]):
            pack("--to", folder, SOURCE_DATE_EPOCH=WHEN, TZ=zone)
        held = []
        for what, holds in looks(room, [*made, *sys.argv[1:]]):
            held.append(holds)
            if not holds:
                print(f"not so: {what}", file=sys.stderr)
        (top,) = (entry.path for entry in os.scandir(f"{room}/tar"))
        passed, failed = tests(top)
    print(f"{passed + sum(held)} passed, {failed + len(held) - sum(held)} failed")
    return int(failed or not all(held))


if __name__ == "__main__":
    sys.exit(main())
