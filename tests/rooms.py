"""Lets the tests of this folder import the files of oracle/ and cases/. Import it before those."""

import os
import sys

HERE = os.path.dirname(os.path.abspath(__file__))
sys.path[1:1] = [f"{HERE}/oracle", f"{HERE}/cases"]
