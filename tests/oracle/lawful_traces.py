"""Makes traces of two ends that keep the rules, for tests/traces.py, with the errors that a bench may make: quiet
marks that come too early, and a trace that begins while dialogues are under way, with a line that says so. Each end
uses an ID again when its dialogue is over and none of its messages is in transit; or, with `--ids once`, only after a
right mark. So no end fails."""

import random

import runs
import trace_rows
from traced import Checks, Report, agree, put

# How many traces of one table a run judges; how many runs there are; and how many entries a trace has.
TRACES, RUNS, ENTRIES = 12, 10, (10, 30, 90)
# Options for how IDs are used.
ONCE = ["--ids", "once"]
FLAGS = [[], ["--ids", "settled"], ["--linger", "2"], ["--linger", "2", "--ids", "settled"], ONCE]
# How the trace of a run is spoilt: by early marks, or by a missing beginning. With both, a dialogue that was under way
# at the beginning may first be seen after an early mark, where no line says so.
SPOILT = [(True, False), (False, True)]


def ids_in(sender, message):
    """Returns the IDs of a message, each with its end."""
    ids = {(sender, message.otid)} if message.otid is not None else set()
    return ids | ({(runs.OTHER[sender], message.dtid)} if message.dtid is not None else set())


def ids_of(side, half):
    """Returns the IDs of a half of a transaction, each with its end."""
    return {(end, id) for end, id in ((side, half.own), (runs.OTHER[side], half.peer)) if id is not None}


def joined(ids, groups):
    """Returns the IDs with all that share a group with one of them, directly or through others."""
    count = -1
    while count != len(ids):
        count, ids = len(ids), ids.union(*(group for group in groups if group & ids))
    return ids


class Patient(runs.Play):
    """A run whose ends forget a transaction, and use its IDs again, when it is closed at both, was ended by an End or
    an Abort, and has nothing in transit."""

    def __init__(self, *how):
        super().__init__(*how)
        # The IDs to which an End or an Abort went since they were last used.
        self.ended = set()

    def add(self, side, message):
        super().add(side, message)
        if message.kind in ("End", "Abort"):
            self.ended |= ids_in(side, message)

    def pass_gap(self, last=False):
        super().pass_gap(last)
        halves = [(side, half) for side in "AB" for half in self.ends[side].halves]
        groups = [ids_of(*it) for it in halves]
        kept = set().union(*(ids_in(*self.entries[number]) for side in "AB" for number in self.waiting[side]))
        kept = joined(kept.union(*(ids_of(*it) for it in halves if it[1].is_open())), groups)
        forgotten = joined(self.ended, groups) - kept
        self.ended -= forgotten
        for side in "AB":
            end = self.ends[side]
            end.halves = [half for half in end.halves if not ids_of(side, half) & forgotten]


def spoilt(rng, entries, has_early_marks, lacks_beginning):
    """Returns the lines of a trace of those entries."""
    made = [f"{chr(octets[0])} {octets[1:].hex()}".strip() for octets in entries]
    if has_early_marks:
        for _ in range(rng.choice([1, 1, 2, 3])):
            made.insert(rng.randint(1, len(made)), "Q")
    if lacks_beginning:
        made = [trace_rows.MAY_BE_UNDER_WAY, *made[rng.randrange(len(made)) :]]
    return made


def played(rng, table, player):
    """Returns the entries of a run of two ends that keep the rules."""
    made = []
    while not made:
        play = player(rng, table, "AB", rng.random() < 0.5)
        play.play(rng.choice(ENTRIES))
        made = play.octets(runs.Writer(rng, plain=True))
    return made


def traces_of(seed, player=Patient):
    """Returns a table, and the lines of traces of it."""
    rng = random.Random(seed)
    table = runs.usual_table(rng)
    return table, [spoilt(rng, played(rng, table, player), *rng.choice(SPOILT)) for _ in range(TRACES)]


def nobody_fails(seed, folder):
    """Checks that no end that keeps the rules fails."""
    checks, flags = Checks(f"lawful traces {seed}"), FLAGS[seed % len(FLAGS)]
    table, traces = traces_of(seed, runs.Play if flags == ONCE else Patient)
    paths = [put(folder, f"x{at}.hex", trace_rows.lines(*lines).encode()) for at, lines in enumerate(traces)]
    report = Report(folder, flags, paths, table=runs.table_text(table).decode())
    agree(checks, report)
    for lines, path in zip(traces, paths):
        failed = [it["entries"] for it in report.dialogues[path] if it["verdict"] not in ("pass", "inconc")]
        checks.same(f"{flags}, {lines}, dialogues that fail", failed, [])
    return checks


def jobs(seed):
    """Yields each run, with its seed."""
    yield from ((nobody_fails, seed * 1000 + number) for number in range(RUNS))
