"""Tests the examples for CI systems over traces of each verdict: runs the lines of shell of examples/ci/gitlab-ci.yml
and examples/ci/Jenkinsfile, as these systems run them, and looks at the reports that they keep; and runs
examples/pytest without pytest and, if it is installed, with it. Neither system is here, so whether they accept these
files is not tested."""

import importlib.util
import os
import re
import shutil
import subprocess
import sys
import tempfile
import xml.etree.ElementTree

from tested import PROGRAM

GITLAB, JENKINS, TEST = "examples/ci/gitlab-ci.yml", "examples/ci/Jenkinsfile", "examples/pytest/test_traces.py"
TABLE = os.path.abspath("examples/operations.json")
# The exit status for traces with these examples, and how many tests of JUnit XML have failed.
RUNS = {("answered",): (0, 0), ("answered", "late_result"): (2, 1), (): (3, 1)}
RUNS[("answered_already", "crossing", "late_result")] = 1, 2
REPORTS = {"tcap.html", "tcap.ndjson", "tcap.txt", "tcap.xml"}
# The first reason why each of these does not pass.
REASONS = {
    "answered_already": "dialogue 0, B: fail at line 3, F12: invocation 1 of operation 45 was answered already, by the ",
    "late_result": "dialogue 0, A: inconc: it is not found how it can have sent its part, and no entry of it is blamed",
    "open_at_mark": "dialogue 0, B: inconc at line 5, F15: a transaction of B is open at this quiet mark: that from 02",
    "broken": "the trace: error: line 1: ",
}


def text_of(path):
    with open(path, encoding="utf-8") as file:
        return file.read()


def room(folder, names):
    """Makes a folder with `tcapjudge`, which has the table of the examples, a bench, traces, and reports of an earlier
    run."""
    for name in "bin", "traces", "report":
        os.mkdir(f"{folder}/{name}")
    texts = {"bin/tcapjudge": f'#!/bin/sh\nshift\nexec {PROGRAM} test --table {TABLE} "$@"\n'}
    texts["bench"] = "#!/bin/sh\ntest -d $1\n"
    for path, text in texts.items():
        with open(f"{folder}/{path}", "w", encoding="utf-8") as file:
            file.write(text)
        os.chmod(f"{folder}/{path}", 0o755)
    for name in names:
        shutil.copy(f"examples/{name}.hex", f"{folder}/traces")
    with open(f"{folder}/report/old", "w", encoding="utf-8") as file:
        file.write("of an earlier run")
    return os.environ | {"PATH": f"{folder}/bin:{os.environ['PATH']}"}


def is_run(what, shell, lines):
    """Yields for each of RUNS whether lines of shell end with its status, and leave all reports."""
    for names, (status, failed) in RUNS.items():
        with tempfile.TemporaryDirectory() as folder:
            how = {"cwd": folder, "env": room(folder, names), "stdin": subprocess.DEVNULL, "capture_output": True}
            ran = subprocess.run([*shell, lines], check=False, **how)
            found = set(os.listdir(f"{folder}/report"))
            tests = xml.etree.ElementTree.parse(f"{folder}/report/tcap.xml").getroot() if "tcap.xml" in found else {}
            counts = sum(int(tests.get(name, -1)) for name in ("failures", "errors"))
            holds = (ran.returncode, found, counts) == (status, REPORTS, failed)
            if not holds:
                print(f"{what}, {names}: {ran.returncode}, {found}, {counts}: {ran.stderr.decode()}")
            yield holds


def gitlab():
    """Yields whether the pipeline of GitLab is YAML with the keys that it needs, and what its jobs do."""
    if not importlib.util.find_spec("yaml"):
        print("skipped: the pipeline of GitLab, for want of PyYAML")
        return
    import yaml

    jobs = yaml.safe_load(text_of(GITLAB))
    bench, judge, kept = jobs["bench"], jobs["judge"], jobs["judge"]["artifacts"]
    holds = jobs["stages"] == [bench["stage"], judge["stage"]] and bench["artifacts"] == {"paths": ["traces"]}
    holds = holds and (kept["when"], kept["paths"], kept["reports"]) == ("always", ["report"], {"junit": "report/tcap.xml"})
    lines = [*bench["script"], *judge["script"], *judge["after_script"]]
    if not (holds and all(isinstance(line, str) for line in lines)):
        print(f"{GITLAB}: {jobs}")
    yield holds
    # A runner ends a script at the first line that fails.
    yield from is_run(GITLAB, ["sh", "-ec"], "\n".join(bench["script"] + judge["script"]))


def jenkins():
    """Yields whether each block of the pipeline of Jenkins is closed, it keeps the reports, and what its steps do."""
    text = re.sub(r"^\s*//.*$", "", text_of(JENKINS), flags=re.MULTILINE)
    steps = [first or last for first, last in re.findall(r"\bsh (?:'''(.*?)'''|'([^'\n]*)')", text, re.DOTALL)]
    rest = re.sub(r"'''.*?'''|'[^'\n]*'", "", text, flags=re.DOTALL)
    depths = [rest[:at].count("{") - rest[:at].count("}") for at in range(len(rest) + 1)]
    post = text[text.index("post {") :]
    holds = min(depths) == 0 == depths[-1] and len(steps) == 2 and rest.count("(") == rest.count(")")
    wanted = "always {", "junit 'report/tcap.xml'", "artifacts: 'report/*, traces/*'"
    holds = holds and "'" not in rest and all(text in post for text in wanted)
    if not holds:
        print(f"{JENKINS}: {steps} {depths[-1]}")
    yield holds
    # Jenkins runs the shell with -xe.
    yield from is_run(JENKINS, ["sh", "-xec"], "\n".join(steps))


def traces_below(folder):
    """Makes a folder of traces, one of them in a folder of its own, and one with a wrong line. Returns the names of those
    that pass."""
    os.makedirs(f"{folder}/node")
    for name in "answered", "crossing", "answered_already", "late_result", "open_at_mark":
        shutil.copy(f"examples/{name}.hex", f"{folder}/node" if name == "late_result" else folder)
    with open(f"{folder}/broken.hex", "w", encoding="utf-8") as file:
        file.write("A 6\n")
    with open(f"{folder}/notes.txt", "w", encoding="utf-8") as file:
        file.write("no trace")
    return ["answered", "crossing"]


def ran_tests(folder, *words):
    """Runs the example for pytest over a folder. Returns its exit status and its output."""
    env = os.environ | {"TRACES": folder, "TCAPJUDGE": PROGRAM, "TCAPJUDGE_WORDS": f"--table {TABLE}", "COLUMNS": "400"}
    env |= {"PYTHONDONTWRITEBYTECODE": "1"}
    ran = subprocess.run([sys.executable, *words, TEST], check=False, env=env, capture_output=True)
    return ran.returncode, (ran.stdout + ran.stderr).decode()


def tests():
    """Yields whether the example for pytest has a test for each trace, which fails with the reason."""
    with tempfile.TemporaryDirectory() as folder:
        passing = traces_below(f"{folder}/traces")
        status, said = ran_tests(f"{folder}/traces")
        found = re.findall(r"^(.*): FAILED\n(.*)$", said, re.MULTILINE)
        failed = {re.sub(r".*/|\.hex", "", path): reason for path, reason in found}
        passed = re.findall(r"^(?:.*/(\w+)\.hex|the folder): passed$", said, re.MULTILINE)
        holds = status == 1 and passed == ["", *passing] and failed.keys() == REASONS.keys()
        holds = holds and all(failed[name].startswith(reason) for name, reason in REASONS.items())
        empty = ran_tests(f"{folder}/none")
        runs = [holds, empty == (1, f"the folder: FAILED\nno trace is below {folder}/none\n")]
        if importlib.util.find_spec("pytest"):
            status, told = ran_tests(f"{folder}/traces", "-m", "pytest", "-q", "-p", "no:cacheprovider")
            is_told = all(f": {reason}" in told for reason in REASONS.values())
            runs.append(status == 1 and "4 failed, 3 passed" in told and is_told)
            status, nothing = ran_tests(f"{folder}/none", "-m", "pytest", "-q", "-p", "no:cacheprovider")
            runs.append(status == 1 and "1 failed, 1 skipped" in nothing)
            said += told + nothing
        else:
            print("pytest is not installed, so its example ran without it")
    if not all(runs):
        print(f"{TEST}: {runs} {said} {empty}")
    yield from runs


def main():
    held = [*gitlab(), *jenkins(), *tests()]
    print(f"{sum(held)} passed, {len(held) - sum(held)} failed")
    return int(not all(held))


if __name__ == "__main__":
    sys.exit(main())
