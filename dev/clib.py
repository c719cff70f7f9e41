"""Runs `make clib`: proves and builds crates/tcap_c, puts it with the functions of the C library that it calls into
clib/out/libtcapjudge.a, links clib/out/libtcapjudge.so and clib/out/example, and runs tests/clib.py.

With --over-ci, as the gate calls it, it proves only crates/tcap_c over the libraries that `rt ci` has just built here.
If it can't, it says so and runs nothing."""

import glob
import os
import shutil
import subprocess
import sys
import tempfile

import kit

BUILT, OUT = "crates/tcap_c/out/libtcap_c.a", "clib/out"
ARCHIVE, SHARED, EXAMPLE = (f"{OUT}/{name}" for name in ("libtcapjudge.a", "libtcapjudge.so", "example"))
TOOLS = "cc", "ar"


def run(*words, cwd=None):
    """Returns what a command prints. If the command fails, prints its output and exits."""
    ended = subprocess.run(words, cwd=cwd, capture_output=True, check=False)
    if ended.returncode:
        sys.stderr.buffer.write(ended.stdout + ended.stderr)
        sys.exit(f"{' '.join(words)} ended with {ended.returncode}")
    return ended.stdout.decode()


def library():
    """Returns the crate of the library, as the kit's command `rt` represents it."""
    return kit.load_rt().rtlib.Crate(os.path.abspath("crates/tcap_c"), os.path.abspath("."), {})


def link():
    """Makes both libraries and the example, from what `rt lib` built and the functions of the kit in C that it
    calls."""
    kit = os.path.dirname(run("rt", "doc").strip())
    os.makedirs(OUT, exist_ok=True)
    with tempfile.TemporaryDirectory() as folder:
        for archive in BUILT, f"{kit}/c/liblibc_c.a":
            run("ar", "x", os.path.abspath(archive), cwd=folder)
        objects = sorted(glob.glob(f"{folder}/*.o"))
        if os.path.exists(ARCHIVE):
            os.remove(ARCHIVE)
        run("ar", "rcs", ARCHIVE, *objects)
        run("cc", "-shared", "-o", SHARED, *objects)
    run("cc", "-O2", "-Wall", "-Wextra", "-Werror", "-I", "clib", "clib/example.c", ARCHIVE, "-o", EXAMPLE)


def main():
    is_over_ci = sys.argv[1:] == ["--over-ci"]
    missing = [tool for tool in TOOLS if not shutil.which(tool)]
    if is_over_ci and (missing or not kit.take_libraries(library())):
        why = f"missing: {' '.join(missing)}" if missing else "what `rt ci` built does not stand here; see `make clib`"
        print(f"the library for C was not built: {why}\n0 passed, 0 failed")
        return 0
    if missing:
        sys.exit(f"missing: {' '.join(missing)}")
    run("rt", "lib", cwd="crates/tcap_c")
    link()
    print(f"The library is {ARCHIVE} and {SHARED}; clib/tcapjudge.h declares it", flush=True)
    return subprocess.run([sys.executable, "tests/clib.py"], check=False).returncode


if __name__ == "__main__":
    sys.exit(main())
