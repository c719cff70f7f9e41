"""Finds what a run may take of this machine, and makes a run end properly on a signal."""

import os
import signal
import sys


def cores():
    """Returns how many processors this process may use, as `taskset` may have limited them."""
    return len(os.sched_getaffinity(0))


def free_memory():
    """Returns how much memory is free, in GB (10^9 octets)."""
    with open("/proc/meminfo", encoding="utf-8") as file:
        sizes = dict(line.split(":") for line in file)
    return int(sizes["MemAvailable"].split()[0]) * 1024 / 10**9


def say_if_short(wanted, what):
    """Prints on standard error that a task takes more memory, in GB, than is free."""
    if free_memory() < wanted:
        print(
            f"{what} takes up to {wanted} GB of memory, and {free_memory():.1f} are free: it may be stopped for want of it",
            file=sys.stderr,
            flush=True,
        )


def end_in_order():
    """Makes the signals that end this process end it as an error does, so that its child processes end and its files
    are removed."""
    # A shell makes background commands ignore SIGINT, and their children would inherit that. `nohup` makes them ignore
    # SIGHUP, and that stays.
    numbers = [signal.SIGINT, signal.SIGTERM] + [signal.SIGHUP] * (signal.getsignal(signal.SIGHUP) != signal.SIG_IGN)

    def end(number, _):
        for it in numbers:
            signal.signal(it, signal.SIG_IGN)
        sys.exit(128 + number)

    for it in numbers:
        signal.signal(it, end)
