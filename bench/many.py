"""Shows how many records a second are judged by 1, 2 and 4 processes at once, as docs/CAPTURES.md runs them: 1,000
records of short dialogues, each in its own file. `make bench` builds the program first."""

import json
import os
import subprocess
import sys
import tempfile
import time

import judging

RECORDS = 1_000
# The numbers of entries in a record.
SIZES = 10, 1_000
PROCESSES = 1, 2, 4


def seconds(folder, count, line):
    """Returns the least time of three runs over the records of a folder, with this many processes at once. Exits if
    any verdict is not that line."""
    paths = b"".join(os.path.join(folder, f"{number}.record").encode() + b"\0" for number in range(RECORDS))
    words = ["xargs", "-0", "-P", str(count), "-I{}", judging.PROGRAM, "judge", "{}", f"{folder}/table.json"]
    times = []
    for _ in range(3):
        start = time.perf_counter()
        run = subprocess.run(words, input=paths, stdout=subprocess.PIPE, check=False)
        times.append(time.perf_counter() - start)
        if run.returncode or run.stdout.splitlines() != [line] * RECORDS:
            sys.exit(f"not all {RECORDS} records are {line.decode()}: {run.stdout[:200]}")
    return min(times)


def main():
    print(f"{RECORDS} records, each judged by a run of its own, on {os.cpu_count()} processors", flush=True)
    for size in SIZES:
        with tempfile.TemporaryDirectory() as folder:
            judging.written(folder, "table.json", json.dumps(judging.TABLE).encode())
            record = b"".join(judging.short(size))
            for number in range(RECORDS):
                judging.written(folder, f"{number}.record", record)
            times = [seconds(folder, count, f"LAWFUL {size}".encode()) for count in PROCESSES]
        rates = ", ".join(f"{RECORDS / time:.0f} with {count}" for count, time in zip(PROCESSES, times))
        print(f"of {size} entries: records a second {rates}", flush=True)


if __name__ == "__main__":
    main()
