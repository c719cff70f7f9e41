"""Loads the kit's command `rt` as a module, and finds the libraries that `rt ci` built."""

import importlib.machinery
import importlib.util
import os
import shutil
import sys


def load_rt():
    """Returns the kit's command `rt` as a module."""
    path = shutil.which("rt")
    if not path:
        sys.exit("missing: rt")
    loader = importlib.machinery.SourceFileLoader("rt", os.path.realpath(path))
    rt = importlib.util.module_from_spec(importlib.util.spec_from_loader("rt", loader))
    loader.exec_module(rt)
    # Its first call sets a signal's handler, which only the main thread may do.
    rt.rtlib.guarded()
    return rt


def take_libraries(crate):
    """Makes other commands of `rt` accept the libraries below a crate that `rt ci` left without a stamp. Returns
    whether all are there."""
    stamps = {it: f"{it.folder}/out/rlib/stamp" for it in crate.below()}
    for library, path in stamps.items():
        if os.path.isdir(library.rlib) and not os.path.exists(path):
            with open(path, "w", encoding="utf-8") as file:
                file.write(library.stamp())
    return all(library.is_built() for library in stamps)


def has_libraries(crate):
    """Returns whether the libraries below a crate are there."""
    return all(os.path.isdir(it.rlib) for it in crate.below())
