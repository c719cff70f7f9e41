"""Files of each look for tests/words.py, which gives them to each word by mistake, and what has to be told of them. It was worked out by
hand: Q.773 and RFC 8259 for records and JSON, Q.713 and RFC 4666 for SCCP and M3UA, RFC 1952 for gzip, and RFC 3629 for the byte order mark."""

CAPTURE = "a capture, which `lines_of_capture` reads (in the repository: tools/lines_of_capture.py)"
# By what a file of a name begins, as what it is told, and the roles that it may have.
LOOKS = {
    "record": (bytes.fromhex("416203480101"), "a record, which `tcapjudge show` prints", "shown record"),
    "long": (bytes.fromhex("51426482000c4901026c"), "a record, which `tcapjudge show` prints", "shown record"),
    "lines": (b"# One.\nA 6203480101\n", "lines of hexadecimal digits, of which `tcapjudge pack` makes a record", "lines"),
    "table": (b'{"operations":[{"class":1,"code":45}]}', "an operation table, which `tcapjudge table` prints", "table book"),
    "spaced": (b' \r\n\t{\n "prearranged" :true', "an operation table, which `tcapjudge table` prints", "table book"),
    "book": (
        b'{"tables":[{"operations":[]}]}',
        "a book of operation tables, which `tcapjudge test --table` takes",
        "book",
    ),
    "cert": (
        b'{"close":[],"expire":[],"fates":[1],"version":1}',
        "a certificate, which `tcapjudge check` takes after the table",
        "cert",
    ),
    "other": (b'{"x":1}', "JSON, as an operation table or a certificate is", "table book cert"),
    "empty": (b"{}", "JSON, as an operation table or a certificate is", "table book cert"),
    "pcap": (bytes.fromhex("d4c3b2a102000400"), CAPTURE, ""),
    "pcapng": (bytes.fromhex("0a0d0d0a1c000000"), CAPTURE, ""),
    "gzip": (bytes.fromhex("1f8b080000000000"), "a compressed file, which `gunzip` unpacks", ""),
    "marked": (
        b"\xef\xbb\xbfA 6203480101\n",
        "a text after a byte order mark, EF BB BF, which is not allowed",
        "",
    ),
    "marked_table": (
        b'\xef\xbb\xbf{"operations":[]}',
        "a text after a byte order mark, EF BB BF, which is not allowed",
        "",
    ),
    "ansi": (bytes.fromhex("e206c70401020304"), "TCAP of ANSI (T1.114), and a record holds that of ITU-T (Q.773)", ""),
    "sccp": (bytes.fromhex("0981030507024206"), "SCCP, and an entry of a record holds the TCAP message in it", ""),
    "m3ua": (bytes.fromhex("0100010100000018"), "M3UA, and an entry of a record holds the TCAP message in it", ""),
    # None of these; the last is a text of letters that looks like a message no longer than its tag and length.
    "nothing": (b"", None, ""),
    "marks": (b"QQ", None, ""),
    "blank": (b"\n\nhello\n", None, ""),
    "text": (b"hello", None, ""),
    "begin": (b"Begin otid=01\n", None, ""),
}
# Texts of JSON are told alike, and lines otherwise, where a record is shown.
SHOWN_LOOKS = {name: "JSON, as an operation table or a certificate is" for name in ("table", "spaced", "book", "cert")}
SHOWN_LOOKS["lines"] = "lines of hexadecimal digits, which `tcapjudge show --lines` reads"
# Words with a file in the place of `-`, and the role that it is given.
GIVEN = [
    ("show -", "shown"),
    ("show --lines -", "lines"),
    ("show --lines --why -", "lines"),
    ("pack -", "lines"),
    ("table -", "book"),
    ("judge - table", "record"),
    ("judge record -", "table"),
    ("judge --end A - table", "record"),
    ("judge --end A record -", "table"),
    ("blame - table", "record"),
    ("blame record -", "table"),
    ("explain - table", "record"),
    ("explain record -", "table"),
    ("explain - table cert", "record"),
    ("explain record - cert", "table"),
    ("explain record table -", "cert"),
    ("check - table cert", "record"),
    ("check record - cert", "table"),
    ("check record table -", "cert"),
    ("check --end B record table -", "cert"),
    ("test --table - record", "book"),
]
# Words with several files given by mistake, and what is told of them, in order.
SWAPPED = [
    ("judge table record", ["table", "record"]),
    ("blame table record", ["table", "record"]),
    ("judge lines cert", ["lines", "cert"]),
    ("explain table record", ["table", "record"]),
    ("explain cert record table", ["cert", "record", "table"]),
    ("check record cert table", ["cert", "table"]),
    ("check cert table record", ["cert", "record"]),
    # The record is what it should be, and so is not told of.
    ("judge record book", ["book"]),
]
