"""The program that the tests run: the one that `make program` proves and builds, or the one whose path is in the
environment variable TCAPJUDGE."""

import os
import sys

# By its whole path, since some tests run it in another folder.
PROGRAM = os.path.abspath(os.environ.get("TCAPJUDGE") or "crates/tcapjudge/out/tcapjudge")
if not os.path.exists(PROGRAM):
    sys.exit(f"there is no program to run, {PROGRAM}: make program")
