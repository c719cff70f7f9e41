"""Makes examples/tables/book.json, the set of operation tables that the program carries, and
crates/tcap_books/src/carried.rt, which has its text.

The tables are examples/tables/map.json and cap.json. The names of their operations are in the tables of map.md and
cap.md, and the contexts in the table of book.md. With --check it writes nothing, compares all these, and prints `N
passed, M failed`. The exit status is 0 if none failed."""

import json
import re
import sys

FOLDER = "examples/tables"
BOOK = f"{FOLDER}/book.json"
CARRIED = "crates/tcap_books/src/carried.rt"
# The file of each table, and the name of the table in the set.
TABLES = {"map": "MAP", "cap": "CAP"}
CARRIED_FORM = '''//! The book that the program carries: the text of examples/tables/book.json, word for word. dev/book.py writes this
//! file.

/// The text of a book: the operations of MAP and CAP with their names, and the application contexts that each table is
/// for.
pub const CARRIED_BOOK: &str = r#"{}"#;
'''


def text_of(path):
    """Returns the text of a file, or an empty text if there is no file."""
    try:
        with open(path, encoding="utf-8") as file:
            return file.read()
    except OSError:
        return ""


def rows_of(page):
    """Returns the rows of the table on a page."""
    lines = re.findall(r"^\| (.*) \|$", text_of(f"{FOLDER}/{page}.md"), re.MULTILINE)
    return [line.split(" | ") for line in lines[1:]]


def names_of(page):
    """Returns the names of the operations on a page, by their codes."""
    return {int(row[0]): row[1] for row in rows_of(page)}


def said_of(page):
    """Returns the code, the class and the linked codes in each row of a page."""
    def linked(words):
        return [] if words == "none" else [int(part.split()[0]) for part in words.split(", ")]

    return [(int(row[0]), int(row[2]), linked(row[3])) for row in rows_of(page)]


def table_of(name):
    """Returns the table in the file of that name."""
    return json.loads(text_of(f"{FOLDER}/{name}.json"))


def content_of(arcs):
    """Returns the hex digits of the content of an OBJECT IDENTIFIER (X.690 8.19)."""
    first, second, *others = map(int, arcs.split("."))
    octets = []
    for arc in [40 * first + second, *others]:
        parts = [arc & 0x7F]
        while arc := arc >> 7:
            parts.append(0x80 | arc & 0x7F)
        octets += reversed(parts)
    return bytes(octets).hex()


def contexts_of(name):
    """Returns the application contexts of the table of that name."""
    return [row[1] for row in rows_of("book") if row[0] == name]


def line_of(value):
    """Returns a value as JSON on one line."""
    return json.dumps(value, separators=(",", ":"))


def book():
    """Returns the text of the table set, with a line for each row."""
    parts = []
    for file, name in TABLES.items():
        names, table = names_of(file), table_of(file)
        rows = [{"name": names[row["code"]], **row} for row in table["operations"]]
        contexts = ",\n".join(map(line_of, contexts_of(name)))
        operations = ",\n".join(map(line_of, rows))
        end = f'],"prearranged":{line_of(table["prearranged"])}}}'
        parts.append(f'{{"name":{line_of(name)},"contexts":[\n{contexts}\n],"operations":[\n{operations}\n{end}')
    return '{"tables":[\n' + ",\n".join(parts) + "\n]}\n"


def checks():
    """Yields each comparison with whether it holds."""
    for name in [*TABLES, "ussd"]:
        rows = table_of(name)["operations"]
        found = [(row["code"], row["class"], row.get("linked", [])) for row in rows]
        yield f"{name}.md says what {name}.json has", said_of(name) == found
    for table, context, arcs, *_ in rows_of("book"):
        yield f"{context} of {table} is {arcs}", context == content_of(arcs)
    rows = {name: table_of(name)["operations"] for name in ["ussd", "map"]}
    yield "USSD has rows of MAP alone", all(row in rows["map"] for row in rows["ussd"])
    yield "each context is one of MAP or CAP", {row[0] for row in rows_of("book")} == set(TABLES.values())
    yield f"{BOOK} is made of the tables", text_of(BOOK) == book()
    yield f"{CARRIED} has the text of {BOOK}", text_of(CARRIED) == CARRIED_FORM.replace("{}", book())


def check():
    """Prints the comparisons that do not hold, and the counts. Returns the exit status."""
    held = []
    for what, holds in checks():
        held.append(holds)
        if not holds:
            print(f"not so: {what}", file=sys.stderr)
    print(f"{sum(held)} passed, {len(held) - sum(held)} failed")
    return int(not all(held))


def main():
    if sys.argv[1:] == ["--check"]:
        sys.exit(check())
    with open(BOOK, "w", encoding="utf-8") as file:
        file.write(book())
    with open(CARRIED, "w", encoding="utf-8") as file:
        file.write(CARRIED_FORM.replace("{}", book()))


if __name__ == "__main__":
    main()
