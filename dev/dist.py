"""Packs what users run, for `make dist` and `make install`.

    dev/dist.py [--to FOLDER] [--install FOLDER] [--program PATH] [--no-library]

It writes out/dist/tcapjudge-VERSION-x86_64-linux.tar.gz and out/dist/tcapjudge_VERSION_amd64.deb, or these files into FOLDER of --to;
with --install it writes the same files below that folder and packs nothing. All times in a package are SOURCE_DATE_EPOCH, or that of
the commit: one build packed twice gives the same octets.

--program packs another program than the one that `make program` built, and --no-library leaves the library for C out. Both are for
tests: the manifest says whether the program is proved, and what is missing."""

import argparse
import glob
import hashlib
import os
import re
import subprocess
import sys

import formats
import man
import static
import tree
from formats import Entry

NAME, PROGRAM, TO = "tcapjudge", "crates/tcapjudge/out/tcapjudge", "out/dist"
VERSION = re.compile(rf"{NAME} (\S+) \((.*)\)\n")
SHARE, DOC = f"share/{NAME}", f"share/doc/{NAME}"
MANIFEST = f"{SHARE}/MANIFEST"
SCHEMA = "docs/report.schema.json"
LIBRARIES, HEADER = ["libtcapjudge.a", "libtcapjudge.so"], "clib/tcapjudge.h"
# Pages for those who change the code or compare its definitions with the standard. All others are packed.
LEFT_OUT = [f"docs/{name}.md" for name in "CERTIFICATES DECISIONS LAWS PERF PROOFS THEOREM".split()]
# What is used as it is, in folders of the same names.
SHARED = ["clib/example.*", "clib/titan/*", "tools/*.py"]
SHARED += ["examples/*.*", "examples/ci/*", "examples/pytest/*.py", "examples/tables/*"]
LINK = re.compile(r"(?<!!)\[([^\[\]]*)\]\(([^)#\s]*)(#[^)\s]*)?\)")
# Brackets with nothing but links between them, and the blanks before them.
BRACKETS = re.compile(r"\s+\((\[[^\[\]]*\]\([^)\s]*\)(?:,\s+\[[^\[\]]*\]\([^)\s]*\))*)\)")
NO_LICENCE = "No licence has been chosen by the owner.\n"
# The program without glibc, and the text about glibc in it.
OBJECT = f"lib/{NAME}/{NAME}.o"
OF_GLIBC = f"""
The program bin/{NAME} has parts of the GNU C Library in it, of {{}}, whose licence is the GNU Lesser General Public
License, version 2.1 or later: https://www.gnu.org/licenses/old-licenses/lgpl-2.1.html. {OBJECT} is the program without these
parts. To link it with another version of that library, type

    cc -static-pie {OBJECT} -o {NAME}
"""
ABOUT = """judges TCAP traces by ITU-T Q.771 to Q.774
 tcapjudge reads the messages that two ends of SS7 TCAP exchanged, and says
 which end broke the rules of ITU-T Q.771 to Q.774 (1997), by which message,
 and why. Also the library for C, tools for captures and archives, tables of
 operations, examples and pages."""
# The tools run as root leave compiled modules, which no package has.
BEFORE_REMOVAL = f"#!/bin/sh\nset -e\nrm -rf /usr/{SHARE}/tools/__pycache__\n"


def octets_of(path):
    """Returns the octets of a file."""
    with open(path, "rb") as file:
        return file.read()


def files_of(patterns):
    """Returns the paths of the files of the repository that these patterns name."""
    return sorted(path for pattern in patterns for path in glob.glob(pattern) if os.path.isfile(path))


def version_of(program):
    """Returns the version of a program, and by which kit it is proved, or `not proved`."""
    run = subprocess.run([NAME, "--version"], executable=program, stdout=subprocess.PIPE, text=True, check=True)
    return VERSION.fullmatch(run.stdout).groups()


# ---- what is packed


def page(path, kept):
    """Returns the octets of a page. A link to what is not in the package, `kept`, becomes its text. If it is in brackets that hold only
    links, it is left out, and the brackets with the last of their links."""

    def is_kept(link):
        to = os.path.normpath(os.path.join(os.path.dirname(path), link[2])) if link[2] else path
        return to in kept or link[2].startswith("http")

    def brackets(found):
        links = [*LINK.finditer(found[1])]
        left = [link[0] for link in links if is_kept(link)]
        if len(left) == len(links):
            return found[0]
        return f" ({', '.join(left)})" if left else ""

    text = BRACKETS.sub(brackets, octets_of(path).decode())
    return LINK.sub(lambda link: link[0] if is_kept(link) else link[1], text).encode()


def pages(has_library):
    """Returns the entries of the pages, which lie as they lie in the repository, and of links to what they name."""
    shared = files_of(SHARED)
    docs = [path for path in ["README.md", *files_of(["docs/*.md", "docs/*.png"])] if path not in LEFT_OUT]
    kept = {*docs, *shared, SCHEMA, *([HEADER] if has_library else []), *formats.folders_of(shared)}
    entries = [Entry(f"{DOC}/{path}", page(path, kept) if path.endswith(".md") else octets_of(path)) for path in docs]
    entries += [Entry(f"{DOC}/{name}", target=f"../../{NAME}/{name}") for name in ("clib", "examples", "tools")]
    return [*entries, Entry(f"{DOC}/{SCHEMA}", target=f"../../../{NAME}/report.schema.json")]


def tools():
    """Returns the entries of what is used as it is, and of the commands that the tools are."""
    entries = [Entry(f"{SHARE}/{path}", octets_of(path), 0o755 if is_command(path) else 0o644) for path in files_of(SHARED)]
    entries += [Entry(f"bin/{tool}", target=f"../{SHARE}/tools/{tool}.py") for tool in man.TOOLS]
    return [*entries, Entry(f"{SHARE}/report.schema.json", octets_of(SCHEMA)), Entry(f"{SHARE}/docs", target=f"../doc/{NAME}/docs")]


def is_command(path):
    """Returns whether a tool is run by its name."""
    return os.path.basename(path).removesuffix(".py") in man.TOOLS


def library():
    """Returns the entries of the library for C, and of links to it where its examples look for it."""
    entries = [Entry(f"lib/{name}", octets_of(f"clib/out/{name}")) for name in LIBRARIES]
    entries += [Entry(f"{SHARE}/clib/out/{name}", target=f"../../../../lib/{name}") for name in LIBRARIES]
    links = Entry(f"{SHARE}/{HEADER}", target="../../../include/tcapjudge.h")
    return [*entries, Entry("include/tcapjudge.h", octets_of(HEADER)), links]


def programs(program):
    """Returns the entries of a program and of the text of its licence, and what it needs of a system. It is linked statically if
    that can be done here."""
    why = static.why_not(program)
    if why:
        print(f"The program is linked dynamically: {why}", file=sys.stderr)
        octets, licence, object_entries = octets_of(program), NO_LICENCE, []
        needs = f"glibc {floor_of(octets)} or later"
    else:
        octets, unlinked = static.linked(program)
        object_entries = [Entry(OBJECT, unlinked)]
        licence, needs = NO_LICENCE + OF_GLIBC.format(static.glibc()), f"no library; {static.glibc()} is linked in"
    return [Entry(f"bin/{NAME}", octets, 0o755), Entry(f"{DOC}/copyright", licence.encode()), *object_entries], needs


def manifest(entries, version, proved, needs):
    """Returns the entry of the manifest, which `sha256sum -c` reads: what the package was made of, and the checksum of each file."""
    own, commit = tree.tree(), tree.git("rev-parse", "HEAD")
    is_whole = own is not None and own == tree.git("rev-parse", "HEAD^{tree}")
    said = {
        NAME: f"{version}, for Linux on x86-64",
        "program": proved,
        "library for C": "in this package" if any(it.path == f"lib/{LIBRARIES[0]}" for it in entries) else "not in this package",
        "program needs": needs,
        "commit": f"{commit}{'' if is_whole else ', with changes that are not committed'}" if commit else "unknown",
        "tree": own or "unknown",
        "gate": tree.result_of(own),
        "licence": NO_LICENCE.strip(),
    }
    lines = [f"# {name}: {text}\n" for name, text in said.items()]
    lines += [f"{hashlib.sha256(it.content).hexdigest()}  {it.path}\n" for it in entries if it.target is None]
    return Entry(MANIFEST, "".join(lines).encode())


def floor_of(octets):
    """Returns the version of glibc that a dynamically linked file needs."""
    found = re.findall(rb"GLIBC_(2\.[\d.]+)\0", octets)
    return max((text.decode() for text in found), key=lambda text: [*map(int, text.split("."))], default="")


def packed(program, has_library, when):
    """Returns all entries of a package of that program, sorted, and its version."""
    version, proved = version_of(program)
    own, needs = programs(program)
    entries = [*own, *tools(), *pages(has_library), *(library() if has_library else [])]
    made = man.pages(program, version, when)
    entries += [Entry(f"share/man/man1/{name}.1.gz", formats.zipped(text)) for name, text in made.items()]
    return sorted([*entries, manifest(sorted(entries), version, proved, needs)]), version


def control_of(entries, version):
    """Returns the fields of the Debian package. It depends on glibc if a file in it is linked dynamically."""
    paths = {it.path: it.content for it in entries}
    dynamic = [path for path in (f"bin/{NAME}" if OBJECT not in paths else None, f"lib/{LIBRARIES[1]}") if path in paths]
    floors = [floor_of(paths[path]) for path in dynamic]
    return {
        "Package": NAME,
        "Version": version,
        "Architecture": "amd64",
        "Maintainer": "Domhayik maintainers <maintainers@users.noreply.domhayik.example>",
        "Section": "net",
        "Priority": "optional",
        **({"Depends": ", ".join(f"libc6 (>= {floor})" for floor in sorted(set(floors)))} if floors else {}),
        "Recommends": "python3, tshark",
        "Suggests": "python3-distributed",
        "Description": ABOUT,
    }


def pack(entries, version, when, folder):
    """Writes both packages into a folder, and prints their paths."""
    top = f"{NAME}-{version}-x86_64-linux"
    made = [
        Entry(f"{top}.tar.gz", formats.zipped(formats.tar_of(entries, top, when))),
        Entry(f"{NAME}_{version}_amd64.deb", formats.deb_of(entries, control_of(entries, version), {"prerm": BEFORE_REMOVAL}, when)),
    ]
    formats.write_all(made, folder)
    for entry in made:
        print(f"{folder}/{entry.path}", flush=True)


def words():
    """Returns the words of the command line."""
    parser = argparse.ArgumentParser(description="Packs the program, the library for C, the tools and the pages.")
    parser.add_argument("--to", metavar="FOLDER", default=TO)
    parser.add_argument("--install", metavar="FOLDER")
    parser.add_argument("--program", metavar="PATH", default=PROGRAM)
    parser.add_argument("--no-library", action="store_true")
    return parser.parse_args()


def main():
    asked = words()
    when = int(os.environ.get("SOURCE_DATE_EPOCH") or tree.git("log", "-1", "--format=%ct") or 0)
    wanted = [asked.program, *([] if asked.no_library else [f"clib/out/{name}" for name in LIBRARIES])]
    missing = [path for path in wanted if not os.path.exists(path)]
    if missing:
        sys.exit(f"missing: {' '.join(missing)}; `make clib` builds the program and the library")
    entries, version = packed(os.path.abspath(asked.program), not asked.no_library, when)
    if asked.install:
        formats.write_all(entries, asked.install)
        print(f"{len(entries)} files are below {asked.install}")
    else:
        pack(entries, version, when, asked.to)


if __name__ == "__main__":
    main()
