"""Node.js, in which tests/page.py calls functions of the page's scripts. It needs no browser, and the functions that are
called here make no elements."""

import json
import shutil
import subprocess

import page

# page/frame.js works on the page as soon as it is read.
SCRIPTS = [name for name in page.SCRIPTS if name != "frame"]
CALLS = """
process.stdout.write(JSON.stringify(JSON.parse(require("fs").readFileSync(0, "utf8")).map(
  ([name, ...given]) => eval(name)(...given))));
"""


def missing():
    """Returns what is not installed."""
    return [] if shutil.which("node") else ["node"]


def called(calls):
    """Returns the results of calls, each of which is the name of a function and what it is given."""
    script = "\n".join(page.text_of(f"{page.FOLDER}/{name}.js") for name in SCRIPTS) + CALLS
    ran = subprocess.run(["node", "-e", script], input=json.dumps(calls).encode(), capture_output=True, check=True)
    return json.loads(ran.stdout)
