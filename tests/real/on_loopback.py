"""on_loopback.py FOLDER numbers|titles|lossy FILE..: has two ends (end.c) exchange the lines of these files over osmo-stp,
and captures what passes between each end and the transfer point. It runs in a network of its own, where nothing else uses
the loopback interface: real_parts.py starts it. `lossy` is `titles` where that interface loses packets, doubles some and
lets some overtake others. FOLDER has the program of the ends, and takes the captures, as lossy-A.pcapng and
lossy-B.pcapng, and what all programs print. The exit status is 0 where both ends have passed all lines, and LOSSLESS where
this kernel can lose none."""

import collections
import contextlib
import os
import signal
import subprocess
import sys
import time

# Those of M3UA (RFC 4666 1.4.8), and of the two ends.
STP_PORT = 2905
PORTS = {"A": 20001, "B": 20002}
STP = f"""cs7 instance 0
 xua rkm routing-key-allocation dynamic-permitted
 listen m3ua {STP_PORT}
  accept-asp-connections dynamic-permitted
  local-ip 127.0.0.1
"""
LOSS = "tc qdisc add dev lo root netem delay 2ms 2ms loss 10% duplicate 5%".split()
LOSSLESS = 5
# Milliseconds behind which SCTP sends again what was lost (RFC 9260 16).
RESENT = {"rto_min": 20, "rto_initial": 50, "rto_max": 200}
# The seconds that a step may take, and those in which the kernel hands over what was captured last.
LONG, SETTLED = 80, 1.5


@contextlib.contextmanager
def started(words, said, number=signal.SIGTERM):
    """A command that runs, what it prints going into a file. That signal ends it where this is left."""
    with open(said, "wb") as file:
        run = subprocess.Popen(words, stdin=subprocess.PIPE, stdout=file, stderr=file)
        try:
            yield run
        finally:
            run.send_signal(number)
            try:
                run.wait(LONG)
            except subprocess.TimeoutExpired:
                run.kill()
                run.wait()


def wait_for(word, path, run):
    """Waits until that word stands in a file that a command which runs fills."""
    ends = time.monotonic() + LONG
    while time.monotonic() < ends and run.poll() is None:
        with contextlib.suppress(OSError), open(path, encoding="utf-8", errors="replace") as file:
            if word in file.read():
                return
        time.sleep(0.05)
    sys.exit(f"{' '.join(run.args[:2])}: no {word} in {path}")


def settle(paths, wanted):
    """Waits until files have each of these octets so often, and then until they grow no more."""
    ends, before = time.monotonic() + LONG, None
    while time.monotonic() < ends and not all(has_all(path, wanted) for path in paths):
        time.sleep(0.2)
    while (sizes := [os.path.getsize(path) for path in paths]) != before:
        before = sizes
        time.sleep(SETTLED)


def has_all(path, wanted):
    """Whether a file has each of these octets so often."""
    with open(path, "rb") as file:
        octets = file.read()
    return all(octets.count(one) >= count for one, count in wanted.items())


def messages_of(files):
    """The octets of each message of files of lines, and how often it stands there."""
    messages = collections.Counter()
    for path in files:
        with open(path, encoding="utf-8") as file:
            messages.update(bytes.fromhex(line[2:]) for line in file if line[:1] in ("A", "B"))
    return messages


def exchange(folder, way, files):
    """Has both ends exchange the lines, with a capture beside each."""
    addresses = "numbers" if way == "numbers" else "titles"
    ends = {end: [f"{folder}/end", end, str(port), addresses, *files] for end, port in PORTS.items()}
    captures = {end: f"{folder}/{way}-{end}.pcapng" for end in PORTS}
    with contextlib.ExitStack() as stack:
        for end, port in PORTS.items():
            words = ["dumpcap", "-q", "-i", "lo", "-f", f"sctp port {port}", "-w", captures[end]]
            said = f"{folder}/{way}-{end}.dumpcap"
            wait_for("File: ", said, stack.enter_context(started(words, said, signal.SIGINT)))
        stp = stack.enter_context(started(["osmo-stp", "-c", f"{folder}/stp.cfg"], f"{folder}/{way}.stp"))
        wait_for(f" {STP_PORT} ", "/proc/net/sctp/eps", stp)
        running = [stack.enter_context(started(words, f"{folder}/{way}-{end}.end")) for end, words in ends.items()]
        for end, run in zip(ends, running):
            wait_for("ready", f"{folder}/{way}-{end}.end", run)
        if way == "lossy" and subprocess.run(LOSS, check=False).returncode:
            sys.exit(LOSSLESS)
        for run in running:
            run.stdin.write(b"\n")
            run.stdin.close()
        statuses = [run.wait(LONG) for run in running]
        settle(captures.values(), messages_of(files))
    return statuses


def main():
    folder, way, *files = sys.argv[1:]
    subprocess.run(["ip", "link", "set", "lo", "up"], check=True)
    with open(f"{folder}/stp.cfg", "w", encoding="utf-8") as file:
        file.write(STP)
    for name, value in RESENT.items():
        with open(f"/proc/sys/net/sctp/{name}", "w", encoding="utf-8") as file:
            file.write(str(value))
    statuses = exchange(folder, way, files)
    if any(statuses):
        sys.exit(f"{way}: the ends A and B ended with {statuses}")
    return 0


if __name__ == "__main__":
    sys.exit(main())
