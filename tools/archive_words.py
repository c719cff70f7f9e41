"""Reads the command line of tools/judge_archive.py, and finds the traces and captures that it names."""

import argparse
import itertools
import os
import sys

import lines_of_capture
import machine

FAULTY, WRONG_WORDS = 3, 4
CAPTURES = ".pcap", ".pcapng"
# The endings of the files that are taken from a folder.
ENDINGS = ".hex", ".rec", ".record", *CAPTURES


class Fault(Exception):
    """Nothing can be judged, for this reason and with this exit status."""

    def __init__(self, why, status=FAULTY):
        super().__init__(why)
        self.status = status


def say(text, end="\n"):
    print(text, end=end, file=sys.stderr, flush=True)


# ---- command line


class Passed(argparse.Action):
    """Notes an option as it was given, for the command that it is passed to."""

    def __call__(self, parser, words, values, option=None):
        getattr(words, self.dest).extend([option] if self.nargs == 0 else [option, values])


def words_of(arguments):
    text = "Judges an archive of traces and captures by many workers side by side."
    words = lines_of_capture.Words(description=text, allow_abbrev=False)
    words.add_argument("traces", metavar="TRACE", nargs="*", help="a trace, a capture, or a folder of them")
    words.add_argument("--json", metavar="FILE", required=True, help="where the verdicts go, as lines of JSON")
    words.add_argument("--resume", action="store_true", help="go on with the results of an earlier run")
    words.add_argument("--list", metavar="LIST", action="append", default=[], help="a file with a path a line")
    words.add_argument("--program", metavar="PATH", default="tcapjudge", help="the program; else tcapjudge in PATH")
    words.add_argument("--progress", action="store_true", help="say how far it is, as it is said to a terminal")
    which = words.add_mutually_exclusive_group()
    which.add_argument("--workers", metavar="N", type=int, help="so many, on this machine")
    which.add_argument("--scheduler", metavar="ADDRESS", help="of a cluster, as tcp://HOST:PORT")
    passed = {
        "test": (["--of", "--table", "--ids", "--linger"], ["--complete", "--heard"]),
        "lines": (["--a", "--by"], ["--join", "--apart", "--under-way", "--whole"]),
    }
    owners = {"test": "`tcapjudge test`", "lines": "`lines_of_capture`"}
    for dest, kinds in passed.items():
        group = words.add_argument_group(f"options of {owners[dest]}")
        for names, how in zip(kinds, ({"metavar": "WORD"}, {"nargs": 0})):
            for name in names:
                group.add_argument(name, action=Passed, dest=dest, default=argparse.SUPPRESS, **how)
    found = words.parse_args(arguments, argparse.Namespace(test=[], lines=[]))
    # The parser would take a number that equals its default as not given, and so accept it together with --scheduler.
    found.workers = machine.cores() if found.workers is None else found.workers
    if found.workers < 1:
        words.error("--workers: at least one")
    if "-" in found.traces or found.json == "-":
        words.error("an archive has no standard input or output in it: -")
    return found


# ---- traces and captures


def below(folder, results):
    """Returns the traces and captures below a folder, ordered by path, without the kept results of a run."""
    found, others = [], 0
    for room, rooms, names in os.walk(folder):
        rooms[:] = [one for one in rooms if os.path.realpath(os.path.join(room, one)) != os.path.realpath(results)]
        fits = [name for name in names if name.lower().endswith(ENDINGS)]
        found += [os.path.join(room, name) for name in fits]
        others += len(names) - len(fits)
    if not found:
        raise Fault(f"{folder}: no file below it ends in one of {', '.join(ENDINGS)}")
    if others:
        say(f"NOTE {folder}: files below it with other endings, left out: {others}")
    return sorted(found)


def lines_in(path):
    """Returns the paths in a list, which has one on each line."""
    try:
        with open(path, encoding="utf-8", errors="surrogateescape") as file:
            return [line for line in file.read().split("\n") if line]
    except OSError as error:
        raise Fault(f"{path}: {error.strerror}") from None


def names_of(words, results):
    """Returns the names of the traces and captures, in the order given."""
    given = [*words.traces, *itertools.chain(*map(lines_in, words.list))]
    names = [name for one in given for name in (below(one, results) if os.path.isdir(one) else [one])]
    if not names:
        raise Fault("no trace is named", WRONG_WORDS)
    for name in names:
        try:
            name.encode()
        except UnicodeEncodeError:
            raise Fault(f"{name!r} is not text, so no trace can have that name", WRONG_WORDS) from None
    return names


def is_capture(name):
    return name.lower().endswith(CAPTURES)


def tables_of(words):
    """Returns the paths of the tables."""
    return [path for option, path in zip(words.test, words.test[1:]) if option == "--table"]
