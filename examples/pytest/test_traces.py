"""A test of pytest for each trace below a folder. If a trace does not pass, its test fails with the reason as the text.

    TRACES=night pytest test_traces.py
    TRACES=night python3 test_traces.py     # without pytest: a line for each trace; the status is 1 if one does not pass

The environment may have TRACES, the folder (`traces`); TCAPJUDGE, the program (`tcapjudge`); and TCAPJUDGE_WORDS,
options of `tcapjudge test`, as `--table operations.json --of B`."""

import json
import os
import shlex
import subprocess
import sys
import tempfile

FOLDER = os.environ.get("TRACES", "traces")
COMMAND = [os.environ.get("TCAPJUDGE", "tcapjudge"), "test", *shlex.split(os.environ.get("TCAPJUDGE_WORDS", ""))]
ENDINGS = ".hex", ".rec", ".record"


def traces():
    """Returns the paths of all traces below the folder."""
    found = (os.path.join(at, name) for at, _, names in os.walk(FOLDER) for name in names)
    return sorted(path for path in found if path.lower().endswith(ENDINGS))


def judged(trace):
    """Judges a trace. Returns the lines of JSON as objects, and all that was printed."""
    with tempfile.TemporaryDirectory() as folder:
        path = os.path.join(folder, "verdicts.ndjson")
        how = {"stdin": subprocess.DEVNULL, "stdout": subprocess.PIPE, "stderr": subprocess.STDOUT}
        run = subprocess.run([*COMMAND, "--json", path, trace], check=False, encoding="utf-8", errors="replace", **how)
        if not os.path.exists(path):
            return [], run.stdout
        with open(path, encoding="utf-8") as file:
            # A run that was killed may leave a part of a line.
            return [json.loads(line) for line in file if line.endswith("\n")], run.stdout


def heads_of(it):
    """Yields why a dialogue or a trace does not pass, a line for each reason."""
    where = f"dialogue {it['dialogue']}" if "dialogue" in it else "the trace"
    for end in "AB":
        said = it.get(end, {"verdict": "pass"})
        if said["verdict"] != "pass":
            place = f" at line {said['line']}" if "line" in said else ""
            place += f", {said['kind']}" if "kind" in said else ""
            why = said.get("text", said.get("reason", "")).strip().partition("\n")[0]
            doubt = f" (in doubt: {said['doubt']})" if "doubt" in said else ""
            yield f"{where}, {end}: {said['verdict']}{place}: {why}{doubt}"
    if "text" in it:
        yield f"{where}: {it['verdict']}: {it['text'].strip()}"


def reason_of(trace):
    """Returns why a trace does not pass, or an empty text if it passes: a line for each reason, then what `test`
    prints."""
    lines, printed = judged(trace)
    heads = [head for it in lines if "trace" in it and it["verdict"] != "pass" for head in heads_of(it)]
    # The last line is that of the run.
    if not lines or "total" not in lines[-1]:
        heads.append("there is no verdict: the run did not end")
    return "\n".join([*heads, "", printed]).strip() if heads else ""


def pytest_generate_tests(metafunc):
    """Makes a test for each trace. pytest calls this."""
    if "trace" in metafunc.fixturenames:
        found = traces()
        metafunc.parametrize("trace", found, ids=[os.path.relpath(path, FOLDER) for path in found])


def test_there_are_traces():
    """Fails if there is no trace, for example because the bench wrote none."""
    if not traces():
        raise AssertionError(f"no trace is below {FOLDER}")


def test_trace(trace):
    """Fails if a trace does not pass."""
    reason = reason_of(trace)
    if reason:
        raise AssertionError(reason)


def main():
    """Runs the tests without pytest. Returns the exit status."""
    failed, tests = 0, [("the folder", test_there_are_traces, [])]
    tests += [(path, test_trace, [path]) for path in traces()]
    for name, test, words in tests:
        try:
            test(*words)
            print(f"{name}: passed")
        except AssertionError as reason:
            failed += 1
            print(f"{name}: FAILED\n{reason}")
    return int(failed != 0)


if __name__ == "__main__":
    sys.exit(main())
