"""Compares the faults that tests/oracle/kinds.py finds in the records of tests/cases/faults.json, each as it is, after
a quiet mark, and twice, with the known faults: for each end the entry at fault and its kinds."""

import sys

import rooms  # noqa: F401
import blamed
from kinds import faults_in
from shown import Table, entries_in, printed


def main():
    passed, failed, tables = 0, 0, {}
    for name, record, table, ends in blamed.faults():
        if table not in tables:
            tables[table] = Table(printed("table", table))
        found = faults_in(tables[table], entries_in(record))
        passed, failed = passed + (found == ends), failed + (found != ends)
        if found != ends:
            print(f"{name}: {found}, not {ends}")
    print(f"{passed} passed, {failed} failed")
    return int(failed != 0)


if __name__ == "__main__":
    sys.exit(main())
