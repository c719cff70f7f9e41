"""Compares the operation tables of examples/tables, their pages, the table set that is made from them, and its text in
the program, as dev/book.py does."""

import sys

sys.path.insert(0, "dev")

import book

if __name__ == "__main__":
    sys.exit(book.check())
