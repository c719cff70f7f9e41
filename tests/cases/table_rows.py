"""Texts of operation tables and of books of them, for tests/words.py, with what `table` has to print of each. It was worked out by hand
from docs/TABLES.md."""


def meant(place, code, octets, number):
    """The line that tells of a code that may be meant as a number."""
    return f"  hint: {place}: {code} is an OBJECT IDENTIFIER of the {octets}; a local code is a number: {number}\n"


def unlisted(place, code):
    """The line that tells of a linked code that no row has."""
    return f'  hint: {place}: "linked":[{code}] is the code of no row\n'


def same_context(one, other):
    """The line that tells of two tables with one context."""
    return f"error: two tables have the same context, so which is for its dialogues is not told: {one} and {other}\n"


# The text of a table, the lines that are wanted, and the status.
TABLES = [
    ('{"operations":[]}', "", 0),
    ('{"operations":[{"class":1,"code":45}]}', "op=45 class=1\n", 0),
    (
        '{"prearranged":true,"operations":[{"class":4,"code":"2A03","expires":false},{"code":7,"class":2,"linked":[7,"290A",-2]},'
        '{"class":3,"code":-2},{"class":1,"code":"290a"}]}',
        "op=-2 class=3\nop=7 class=2 linked=7,g:290a,-2\nop=g:290a class=1\nop=g:2a03 class=4 expires=false\n"
        "prearranged=true\n",
        0,
    ),
    ("", "FAULT 30 0\n  why: the text is no JSON\n", 3),
    ("{", "FAULT 30 0\n  why: the text is no JSON\n", 3),
    ('{"operations":[],}', "FAULT 30 0\n  why: the text is no JSON\n", 3),
    ("[]", "FAULT 31 0\n  why: the table is no object\n", 3),
    ("{}", 'FAULT 31 0\n  why: "operations" is missing\n', 3),
    ('{"operations":{}}', 'FAULT 31 0\n  why: "operations" is no list\n', 3),
    ('{"operations":[],"rows":1}', 'FAULT 31 0\n  why: no key "rows" may stand there\n', 3),
    ('{"operations":[],"prearranged":1}', 'FAULT 31 0\n  why: "prearranged" is neither true nor false\n', 3),
    ('{"operations":[7]}', "FAULT 31 0\n  why: row 0; the row is no object\n", 3),
    ('{"operations":[{"class":1,"code":1},{"class":1}]}', 'FAULT 31 1\n  why: row 1; "code" is missing\n', 3),
    ('{"operations":[{"code":1}]}', 'FAULT 31 0\n  why: row 0; "class" is missing\n', 3),
    (
        '{"operations":[{"code":1,"class":"1"}]}',
        'FAULT 31 0\n  why: row 0; "class" is no whole number\n',
        3,
    ),
    (
        '{"operations":[{"code":1,"class":1.0}]}',
        'FAULT 31 0\n  why: row 0; "class" is no whole number\n',
        3,
    ),
    (
        '{"operations":[{"code":2147483648,"class":1}]}',
        'FAULT 31 0\n  why: row 0; "code" is neither a whole number of 32 bits nor the digits of an OBJECT IDENTIFIER\n',
        3,
    ),
    (
        '{"operations":[{"code":"2A80","class":1}]}',
        'FAULT 31 0\n  why: row 0; "code" is neither a whole number of 32 bits nor the digits of an OBJECT IDENTIFIER\n',
        3,
    ),
    (
        '{"operations":[{"code":1,"class":1,"expires":0}]}',
        'FAULT 31 0\n  why: row 0; "expires" is neither true nor false\n',
        3,
    ),
    (
        '{"operations":[{"code":1,"class":1,"timer":5}]}',
        'FAULT 31 0\n  why: row 0; no key "timer" may stand there\n',
        3,
    ),
    ('{"operations":[{"code":1,"class":1,"linked":2}]}', 'FAULT 31 0\n  why: row 0; "linked" is no list\n', 3),
    (
        '{"operations":[{"code":1,"class":1,"linked":[2,"x"]}]}',
        'FAULT 31 0\n  why: row 0; "linked" has what is no code\n',
        3,
    ),
    (
        '{"operations":[{"code":1,"class":1,"linked":[' + ",".join(["2"] * 1001) + "]}]}",
        'FAULT 31 0\n  why: row 0; "linked" has over 1,000 codes\n',
        3,
    ),
    (
        '{"operations":[{"code":1,"class":1},{"code":2,"class":1},{"code":1,"class":2}]}',
        'FAULT 32 2\n  why: row 2; an earlier row has this "code"\n',
        3,
    ),
    (
        '{"operations":[{"code":"2a","class":1},{"code":"2A","class":1}]}',
        'FAULT 32 1\n  why: row 1; an earlier row has this "code"\n',
        3,
    ),
    ('{"operations":[{"code":1,"class":5}]}', 'FAULT 33 0\n  why: row 0; "class" is not 1, 2, 3 or 4\n', 3),
    ('{"operations":[{"code":1,"class":0}]}', 'FAULT 33 0\n  why: row 0; "class" is not 1, 2, 3 or 4\n', 3),
    (
        '{"operations":[' + ",".join('{"code":%d,"class":1}' % code for code in range(1001)) + "]}",
        "FAULT 34 0\n  why: there are over 1,000 rows\n",
        3,
    ),
    (" " * 67_108_865, "FAULT 30 0\n  why: the text has over 67,108,864 octets\n", 3),
]

ROW = '{"code":1,"class":1}'
NAMED = '{"name":"x","code":1,"class":1}'
# The text of a book, or of a table, what is printed of it, what standard error tells, and the status.
BOOKS = [
    ('{"tables":[{"operations":[]}]}', "table 0\n", "", 0),
    (f'{{"tables":[{{"operations":[{ROW}]}}]}}', "table 0\nop=1 class=1\n", "", 0),
    # Each table has its own rows, in the order of their codes, and its own last line.
    (
        '{"tables":[{"prearranged":true,"name":"one","operations":[{"code":"2A03","class":4,"name":"global"},'
        '{"code":7,"class":2,"linked":[8,"2b05"],"expires":false,"name":"last"},{"code":-1,"class":3}],"contexts":["2A0401","2a05"]},'
        '{"operations":[{"class":1,"name":"other","code":7}]},{"contexts":[""],"name":"","operations":[],"prearranged":false}]}',
        'table 0 name="one"\ncontext=2a0401\ncontext=2a05\nop=-1 class=3\n'
        'op=7 class=2 linked=8,g:2b05 expires=false name="last"\nop=g:2a03 class=4 name="global"\nprearranged=true\n'
        'table 1\nop=7 class=1 name="other"\ntable 2 name=""\ncontext=\n',
        unlisted("table 0, row 1", 8),
        0,
    ),
    # A name keeps to its line (RFC 8259 7).
    (
        r'{"tables":[{"name":"a\"b\\c\nd\te\u0001\u000d","operations":[{"name":"\u00e9 op=2","class":1,"code":1}]}]}',
        'table 0 name="a\\"b\\\\c\\nd\\te\\u0001\\r"\nop=1 class=1 name="\u00e9 op=2"\n',
        "",
        0,
    ),
    # Faults of the book.
    ('{"tables":[', "FAULT 30 0\n  why: the text is no JSON\n", "", 3),
    ('{"tables":[]}', 'FAULT 31 0\n  why: "tables" is no list, or an empty one\n', "", 3),
    ('{"tables":{}}', 'FAULT 31 0\n  why: "tables" is no list, or an empty one\n', "", 3),
    ('{"tables":[{"operations":[]}],"name":"x"}', 'FAULT 31 0\n  why: beside "tables" the book has another key\n', "", 3),
    ('{"tables":[' + ",".join(['{"operations":[]}'] * 101) + "]}", "FAULT 34 0\n  why: there are over 100 tables\n", "", 3),
    # Of a table.
    ('{"tables":[{"operations":[]},5]}', "FAULT 31 0\n  why: table 1: the table is no object\n", "", 3),
    ('{"tables":[{"name":"x"}]}', 'FAULT 31 0\n  why: table 0: "operations" is missing\n', "", 3),
    ('{"tables":[{"operations":[],"rows":[]}]}', 'FAULT 31 0\n  why: table 0: no key "rows" may stand there\n', "", 3),
    ('{"tables":[{"operations":[],"name":5}]}', 'FAULT 31 0\n  why: table 0: "name" is no text\n', "", 3),
    (
        '{"tables":[{"operations":[]},{"operations":[],"contexts":["2a0"]}]}',
        'FAULT 31 0\n  why: table 1: "contexts" is no list of hex digits, two for each octet, or dotted numbers\n',
        "",
        3,
    ),
    (
        '{"tables":[{"operations":[]},{"operations":[' + ",".join('{"code":%d,"class":1}' % code for code in range(1001)) + "]}]}",
        "FAULT 34 0\n  why: table 1: there are over 1,000 rows\n",
        "",
        3,
    ),
    # Of a row.
    (
        f'{{"tables":[{{"operations":[]}},{{"operations":[{ROW},{{"code":2,"class":5}}]}}]}}',
        'FAULT 33 1\n  why: table 1, row 1: "class" is not 1, 2, 3 or 4\n',
        "",
        3,
    ),
    (
        f'{{"tables":[{{"operations":[{NAMED},{{"code":2,"class":1}},{ROW}]}}]}}',
        'FAULT 32 2\n  why: table 0, row 2: an earlier row has this "code"\n',
        "",
        3,
    ),
    (
        '{"tables":[{"operations":[{"name":"x","code":1,"class":1,"timer":5}]}]}',
        'FAULT 31 0\n  why: table 0, row 0: no key "timer" may stand there\n',
        "",
        3,
    ),
    (
        f'{{"tables":[{{"operations":[{ROW},{{"name":5,"code":2,"class":1}}]}}]}}',
        'FAULT 31 1\n  why: table 0, row 1: "name" is no text\n',
        "",
        3,
    ),
    # A table by itself has neither a name nor contexts.
    ('{"operations":[],"name":"x"}', 'FAULT 31 0\n  why: no key "name" may stand there\n', "", 3),
    ('{"operations":[],"contexts":[]}', 'FAULT 31 0\n  why: no key "contexts" may stand there\n', "", 3),
    (f'{{"operations":[{NAMED}]}}', 'FAULT 31 0\n  why: row 0; no key "name" may stand there\n', "", 3),
    (r'{"operations":[],"a\nb\"c":1}', 'FAULT 31 0\n  why: no key "a\\nb\\"c" may stand there\n', "", 3),
    # Codes that may be meant as numbers: texts of one or two octets in decimal digits.
    ('{"operations":[{"class":1,"code":"45"}]}', "op=g:45 class=1\n", meant("row 0", '"code":"45"', "octet 45", '"code":45'), 0),
    (
        f'{{"operations":[{ROW},{{"class":1,"code":"0045"}},{{"class":1,"code":"00"}}]}}',
        "op=1 class=1\nop=g:00 class=1\nop=g:0045 class=1\n",
        meant("row 1", '"code":"0045"', "octets 0045", '"code":45') + meant("row 2", '"code":"00"', "octet 00", '"code":0'),
        0,
    ),
    (
        '{"operations":[{"class":1,"code":1,"linked":[2,"4a","1234","45"]}]}',
        "op=1 class=1 linked=2,g:4a,g:1234,g:45\n",
        meant("row 0", '"linked":["1234"]', "octets 1234", '"linked":[1234]') + unlisted("row 0", 2),
        0,
    ),
    # Linked codes that no row has: of each table the first, whatever row lists it. A global code is not the local one of its digits.
    (
        '{"operations":[{"class":1,"code":1,"linked":[1,2]},{"class":1,"code":2,"linked":[9,1,8]},{"class":1,"code":3,"linked":[7]}]}',
        "op=1 class=1 linked=1,2\nop=2 class=1 linked=9,1,8\nop=3 class=1 linked=7\n",
        unlisted("row 1", 9),
        0,
    ),
    (
        '{"tables":[{"operations":[{"class":1,"code":1}]},{"operations":[{"class":1,"code":"2A"},{"class":1,"code":2,"linked":["2a",42]}]},'
        '{"operations":[{"class":1,"code":2,"linked":[1]}]}]}',
        "table 0\nop=1 class=1\ntable 1\nop=2 class=1 linked=g:2a,42\nop=g:2a class=1\ntable 2\nop=2 class=1 linked=1\n",
        unlisted("table 1, row 1", 42) + unlisted("table 2, row 0", 1),
        0,
    ),
    # Contexts in dotted numbers (X.690 8.19).
    (
        '{"tables":[{"contexts":["0.4.0.0.1.0.21.2","2.999","1.3.6.1.4.1.311"],"operations":[]},{"contexts":["04000001001502"],"operations":[]}]}',
        "table 0\ncontext=04000001001502\ncontext=8837\ncontext=2b060104018237\ntable 1\ncontext=04000001001502\n",
        same_context("table 0", "table 1"),
        3,
    ),
    (
        '{"tables":[{"operations":[],"contexts":["0.4.00"]}]}',
        'FAULT 31 0\n  why: table 0: "contexts" is no list of hex digits, two for each octet, or dotted numbers\n',
        "",
        3,
    ),
    # Two tables with one context: the first that shares one with a later table, and the first such. A beginning of a context is another.
    (
        '{"tables":[{"contexts":["04","0400"],"operations":[]},{"name":"M","contexts":["05"],"operations":[]},'
        '{"contexts":["06"],"operations":[]},{"contexts":["06","2A","05"],"operations":[]},{"contexts":["05"],"operations":[]}]}',
        'table 0\ncontext=04\ncontext=0400\ntable 1 name="M"\ncontext=05\ntable 2\ncontext=06\ntable 3\ncontext=06\ncontext=2a\n'
        "context=05\ntable 4\ncontext=05\n",
        same_context("table 1 (M)", "table 3"),
        3,
    ),
    (
        '{"tables":[{"contexts":["2a","2A"],"operations":[]},{"contexts":["2A03"],"operations":[]},{"operations":[]}]}',
        "table 0\ncontext=2a\ncontext=2a\ntable 1\ncontext=2a03\ntable 2\n",
        "",
        0,
    ),
    (
        '{"tables":[{"operations":[]},{"operations":[{"class":1,"code":"2a03"},{"class":1,"code":"47"}]}]}',
        "table 0\ntable 1\nop=g:2a03 class=1\nop=g:47 class=1\n",
        meant("table 1, row 1", '"code":"47"', "octet 47", '"code":47'),
        0,
    ),
    (
        '{"operations":[{"class":9,"code":"45"}]}',
        'FAULT 33 0\n  why: row 0; "class" is not 1, 2, 3 or 4\n',
        meant("row 0", '"code":"45"', "octet 45", '"code":45'),
        3,
    ),
    ('{"operations":[{"class":1,"code":"4a"},{"class":1,"code":"123456"}]}', "op=g:123456 class=1\nop=g:4a class=1\n", "", 0),
    (
        '{"operations":[{"class":1,"code":"81"}]}',
        'FAULT 31 0\n  why: row 0; "code" is neither a whole number of 32 bits nor the digits of an OBJECT IDENTIFIER\n',
        "",
        3,
    ),
]
