"""Shows that feeding frames while one of their entries is lent does not compile: adds a function that does this to a
copy of the crate, and looks for the error of the borrow checker. The copy's files are links, so it takes no room."""

import os
import shutil
import subprocess
import sys
import tempfile

SOURCE = "crates/tcap_record/src/feeder.rt"
BODY = """
fn feeds_while_lent(frames: &mut Frames) -> bool {
    let entry = frames.front();
    let _ = frames.feed_some(&[]);
    entry.is_some()
}
"""

with tempfile.TemporaryDirectory(dir=".") as folder:
    shutil.copytree("crates", f"{folder}/crates", copy_function=os.link)
    shutil.copy("crates.txt", folder)
    changed = f"{folder}/{SOURCE}"
    with open(changed) as file:
        text = file.read()
    os.remove(changed)
    with open(changed, "w") as file:
        file.write(text + BODY)
    check = ["rt", "check", "--only", "feeder::feeds_while_lent"]
    run = subprocess.run(check, cwd=f"{folder}/crates/tcap_record", capture_output=True, text=True, check=False)
refused = "error[borrow-e0502]" in run.stdout + run.stderr
print(f"{int(refused)} passed, {int(not refused)} failed")
sys.exit(not refused)
