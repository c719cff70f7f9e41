"""Links the program statically, from the object that the kit's linker made it of, so that it runs on systems with another glibc or none.

The kit links dynamically. `rt` leaves the object next to the program: `PROGRAM.o`. It is used only if the kit makes of it exactly the
program. What the program calls of the system is held to HANDLES before, since a static program can't be asked for that."""

import os
import shutil
import subprocess
import sys
import tempfile

import kit

FLAGS = ["-static-pie", "-Wl,--gc-sections,-z,relro,-z,now,-z,noexecstack,--build-id=sha1"]
TARGET = "x86_64-unknown-linux-gnu"


def ran(*words):
    """Returns what a command prints. Stops if it fails."""
    run = subprocess.run(words, capture_output=True, text=True, check=False)
    if run.returncode:
        sys.exit(f"{' '.join(words)} ended with {run.returncode}:\n{run.stdout}{run.stderr}")
    return run.stdout


def kit_folder():
    """Returns the folder of the kit."""
    return os.path.dirname(ran("rt", "doc").strip())


def archives(folder):
    """Returns the archives of the kit with which it links each program."""
    return [f"{folder}/c/libos_c.a", f"{folder}/c/liblibc_c.a"]


def octets_of(path):
    """Returns the octets of a file."""
    with open(path, "rb") as file:
        return file.read()


def is_made_of(program, made):
    """Returns whether the kit's linker makes exactly this program of this object."""
    folder = kit_folder()
    with tempfile.TemporaryDirectory() as room:
        words = [f"{folder}/bin/rattle-link", "--target", TARGET, "--toolchain", f"{folder}/toolchain", "-o", f"{room}/again"]
        ran(*words, made, *archives(folder))
        return octets_of(f"{room}/again") == octets_of(program)


def hold_to_handles(program):
    """Stops if a program calls what HANDLES does not allow, as `rt ci` finds it."""
    rt = kit.load_rt()
    crate = rt.Crate(os.path.abspath("crates/tcapjudge"), os.path.abspath("."), {})
    crate.allowed = rt.handles_of(os.path.abspath("."))
    if crate.calls_beyond(program):
        sys.exit(f"{program} calls what HANDLES does not allow")


def glibc():
    """Returns the name of the glibc of this machine."""
    return ran("ldd", "--version").splitlines()[0].partition("(")[2].partition(")")[0]


def why_not(program):
    """Returns why a program can't be linked statically here, or None."""
    if not os.path.exists(f"{program}.o"):
        return f"there is no {os.path.basename(program)}.o"
    missing = [tool for tool in ("rt", "cc", "ldd") if not shutil.which(tool)]
    if missing:
        return f"missing: {' '.join(missing)}"
    if not os.path.isabs(ran("cc", "-print-file-name=libc.a").strip()):
        return "there is no libc.a"
    return None if is_made_of(program, f"{program}.o") else f"{os.path.basename(program)}.o is another object"


def linked(program):
    """Returns the octets of a program linked statically, and of the object that it is linked of, which lacks glibc alone."""
    hold_to_handles(program)
    with tempfile.TemporaryDirectory() as room:
        ran("cc", "-r", "-nostdlib", "-o", f"{room}/tcapjudge.o", f"{program}.o", *archives(kit_folder()))
        ran("cc", *FLAGS, "-o", f"{room}/tcapjudge", f"{room}/tcapjudge.o")
        return octets_of(f"{room}/tcapjudge"), octets_of(f"{room}/tcapjudge.o")
