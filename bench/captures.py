"""Measures tools/lines_of_capture.py: its processor time next to that of the `tshark` that it runs, and the memory of
each, over a capture of 100,000 frames of the network of tests/cases/made_network.py. The exit status is 1 if the tool
takes over TIMES the processor time of tshark or over MOST of memory, or loses messages. If tshark is not installed, it
says so."""

import shutil
import subprocess
import sys
import tempfile

sys.path.insert(0, "tests/cases")

import made_captures as made
import made_network

FRAMES = 100_000
# The greatest processor time of the tool, in times that of tshark, and its greatest memory without tshark, in MB (2^20
# octets).
TIMES, MOST = 2, 150
# Runs the tool in a separate process, and prints the processor times of the tool and of tshark, and the peaks of their
# memory.
RUN = """
import resource, runpy, sys
sys.argv, sys.path[0] = sys.argv[1:], "tools"
try:
    runpy.run_path(sys.argv[0], run_name="__main__")
finally:
    own, other = (resource.getrusage(who) for who in (resource.RUSAGE_SELF, resource.RUSAGE_CHILDREN))
    print(own.ru_utime + own.ru_stime, other.ru_utime + other.ru_stime, own.ru_maxrss, other.ru_maxrss)
"""


def main():
    if not shutil.which("tshark"):
        print("lines of a capture: tshark is not installed")
        return
    with tempfile.TemporaryDirectory() as folder:
        with open(f"{folder}/capture", "wb") as file:
            file.write(made.pcap(made_network.frames(FRAMES)))
        words = [sys.executable, "-c", RUN, "tools/lines_of_capture.py", f"{folder}/capture", f"{folder}/lines"]
        run = subprocess.run(words, capture_output=True, text=True, check=False)
    *files, numbers = run.stdout.splitlines()
    messages = sum(int(line.rpartition(" ")[2]) for line in files)
    if run.returncode or messages != FRAMES:
        sys.exit(f"{messages} messages of {FRAMES} frames:\n{run.stdout}{run.stderr}")
    own, tshark, *peaks = map(float, numbers.split())
    mine, other = (peak / 1024 for peak in peaks)
    times, sizes = f"{own:.1f} s beside {tshark:.1f} s of tshark", f"{mine:.0f} MB beside {other:.0f} MB"
    print(f"lines of a capture of {FRAMES} frames: {times}, {sizes}")
    if own > TIMES * tshark or mine > MOST:
        sys.exit(f"the tool may take {TIMES} times the processor time of tshark, and {MOST} MB")


if __name__ == "__main__":
    main()
