"""Lines on the command line by `-c`, and results in the formats of `-o`."""

from case import Case, Contains
from samples import FILES, FIRST, FIRST_REPLIES, OTHER

SUBJECT = "commands and formats on the command line"

# The results as CSV and JSON are those of Python's csv and json modules, and the box was made by hand.
TEXTS = r"""create t (id int, a text, "b c" text nocase)
upsert t (1, 'x,"y"', null)
upsert t (-2, 'é😀', 'NULL')
upsert t (null, '', '\N')
load t
a,b c,id
"two
lines{tab}and{one}",\N,3
\.
show t
""".format(tab="\t", one="\x01")
TEXTS_AS = {
    "csv": 'id,a,b c\n\\N,,\\N\n-2,é😀,NULL\n1,"x,""y""",\\N\n3,"two\nlines\tand\x01",\\N\n',
    "json": r"""{"id":null,"a":"","b c":"\\N"}
{"id":-2,"a":"é😀","b c":"NULL"}
{"id":1,"a":"x,\"y\"","b c":null}
{"id":3,"a":"two\nlines\tand\u0001","b c":null}
""",
    "box": r"""┌──────┬──────────────────────┬──────┐
│   id │ a                    │ b c  │
├──────┼──────────────────────┼──────┤
│ NULL │                      │ \N   │
│   -2 │ é😀                  │ NULL │
│    1 │ x,"y"                │ NULL │
│    3 │ two\nlines\tand\u{1} │ NULL │
└──────┴──────────────────────┴──────┘
(4 rows)
""",
}

NO_ROWS = """create t (a int, b text)
show t
distinct t on b
group t show count(*), count(*), sum(a)"""
NO_ROWS_AS_BOX = """┌───┬───┐
│ a │ b │
├───┼───┤
└───┴───┘
(0 rows)

┌───┐
│ b │
├───┤
└───┘
(0 rows)

┌──────────┬──────────┬────────┐
│ count(*) │ count(*) │ sum(a) │
├──────────┼──────────┼────────┤
│        0 │        0 │ NULL   │
└──────────┴──────────┴────────┘
(1 row)
"""

REFUSALS = {"refusals": "creat t\n\n-- nothing\ncreate t (a int)\nload t\na\n1\nx\n\\.\nshow t\nshow u"}
REPORTED = """groupsh: line 1: err 1 Syntax
  column 1: expected 'create', 'drop', 'load', 'upsert', 'delete', 'show', 'group' or 'distinct', found 'creat'
groupsh: line 5: err 11 BadInt 2
  a field is not a whole number of 64 bits
groupsh: line 11: err 3 NoTable
  no table has that name
"""

# Lines that are no commands: after a byte-order mark and blanks, a dash alone, a load with its payload, and the last line.
WRONG = {"wrong": "\ufeff  show\r\n-\nload 7\na\n\n\\.\ncreate t (a int)\n\tshow t u\nshow"}
DIAGNOSED = """groupsh: line 1: err 1 Syntax
  column 7: expected a name, found the end of the line
groupsh: line 2: err 1 Syntax
  column 1: expected 'create', 'drop', 'load', 'upsert', 'delete', 'show', 'group' or 'distinct', found '-'
groupsh: line 3: err 1 Syntax
  column 6: expected a name, found '7'
groupsh: line 8: err 1 Syntax
  column 9: expected the end of the line, found 'u'
groupsh: line 9: err 1 Syntax
  column 5: expected a name, found the end of the line
"""

CASES = [
    Case("-c", ["-c", FIRST.rstrip("\n")], OTHER, stdout=FIRST_REPLIES),
    Case(
        "--command, line by line",
        ["--command", "create t (a int)", "--command=upsert t (7)", "-c", "show t"],
        OTHER,
        stdout="ok 0\nok 1\nok 1\na\n7\n",
    ),
    Case(
        "-c with a payload",
        ["-c", "create t (a int)", "-c", "load t\na\n1\n2\n\\.", "-c", "show t"],
        stdout="ok 0\nok 2\nok 2\na\n1\n2\n",
    ),
    Case(
        "-c with a payload over several options",
        ["-c", "create t (a int)", "-c", "load t", "-c", "a", "-c", "1", "-c", "\\."],
        stdout="ok 0\nok 1\n",
    ),
    Case("-c without commands", ["-c", ""]),
    Case("-c and a refusal", ["-c", "show t"], status=1, stdout="err 3 NoTable\n"),
    Case(
        "-c and --check",
        ["--check", "-c", "show t", "-c", "show"],
        status=1,
        stdout="<command>:2:5: expected a name, found the end of the line\n",
    ),
    Case(
        "-c and SCRIPT",
        ["-c", "show t", "first"],
        status=2,
        stderr=Contains("error: the argument '--command <LINES>' cannot be used with '[SCRIPT]'"),
        files=FILES,
    ),
    Case("-c without a value", ["-c"], status=2, stderr=Contains("error: a value is required for '--command <LINES>'")),
    Case("-o xml", ["-o", "xml"], status=2, stderr=Contains("error: invalid value 'xml' for '--output <FORMAT>'")),
    Case("two formats", ["-o", "csv", "-o", "csv"], status=2, stderr=Contains("cannot be used multiple times")),
    Case("-o replies", ["-o", "replies", "first"], stdout=FIRST_REPLIES, files=FILES),
    *[Case(f"texts as {format}", ["-o", format], TEXTS, stdout=results) for format, results in TEXTS_AS.items()],
    Case("no rows as csv", ["-o", "csv", "-c", NO_ROWS], stdout="a,b\n\nb\n\ncount(*),count(*),sum(a)\n0,0,\\N\n"),
    Case("no rows as json", ["-o", "json", "-c", NO_ROWS], stdout='{"count(*)":0,"count(*)_2":0,"sum(a)":null}\n'),
    Case("no rows in a box", ["-o", "box", "-c", NO_ROWS], stdout=NO_ROWS_AS_BOX),
    Case("refusals under -o csv", ["-o", "csv", "refusals"], status=1, stdout="a\n", stderr=REPORTED, files=REFUSALS),
    Case("refusals under -o json", ["-o", "json", "refusals"], status=1, stderr=REPORTED, files=REFUSALS),
    *[
        Case(f"lines that are no commands under -o {format}", ["-o", format, "wrong"], status=1, stderr=DIAGNOSED, files=WRONG)
        for format in ("csv", "json", "box")
    ],
    Case(
        "refusals with replies",
        ["refusals"],
        status=1,
        stdout="err 1 Syntax\nok 0\nerr 11 BadInt 2\nok 0\na\nerr 3 NoTable\n",
        files=REFUSALS,
    ),
    Case(
        "a report after refusals",
        ["--stats", "-o", "csv", "refusals"],
        status=1,
        stdout="a\n",
        stderr=Contains("groupsh: read 0, written 0, groups 0, runs 0"),
        files=REFUSALS,
    ),
    Case(
        "a full device for results",
        ["-o", "csv", "refusals"],
        status=3,
        stderr=Contains("groupsh: write fault"),
        files=REFUSALS,
        shell='"$@" >/dev/full',
    ),
    Case(
        "a full device for refusals",
        ["-o", "csv", "refusals"],
        status=1,
        stdout="a\n",
        files=REFUSALS,
        shell='"$@" 2>/dev/full',
    ),
]
