"""Tables from files by `-t`: their names, kinds, several files for one table, and what is refused of a file."""

from case import Case, Contains

SUBJECT = "tables from files"
BY_COUNTRY = "group cities by country show count(*)"
COUNTRIES = "country,count(*)\nIT,1\nNO,2\n"
FILES = {
    "cities.csv": "city,country\nOslo,NO\nRome,IT\nBergen,NO\n",
    "2026-01.csv": "day\n1\n",
    "kinds.csv": b"\xef\xbb\xbfa,b,c,d,e,f\r\n007, +5 ,,\\N,1,9223372036854775807\r\n-1,\\N,,,x,9223372036854775808\r\n",
    "keyed.csv": "city,n\nOslo,1\nParis,7\nRome,7\n",
    "a.csv": "x,y\n1,2\n",
    "b.csv": "y,x\nz,3\n",
    "crlf.csv": 'a,b\r\n1,"2\r\n3"',
    "marks.csv": "a\n\\.\nx\n",
    "head.csv": "a,b\n",
    "empty": "",
    "twice.csv": "a,a\n1,2\n",
    "bytes.csv": b"a\n\xff\n",
    "short.csv": "a,b,c\n1,2,3\n4\n5,6,7,8\n",
    "ragged.csv": "a,b,c\n1,x,3\n4\n",
    "words.csv": "n,w\n1,abcdefg\n2,\n3,é\n4,\\N\n5,abc\n6,abcdefg\n7,abcdefgh\n8,abcdefg\n9,\\N\n",
    "brief.csv": "n,w\n1,abcdefg\n2,\n3,é\n4,\\N\n5,abc\n6,abcdefg\n",
    "more.csv": "n,w\n10,abc\n11,\\N\n12,\n",
    "wide.csv": "id,name,x,y,note\n1,Oslo,3,\\N,a\n2,a name of its own block,5,2,b\n3,Rome,1,7,c\n"
    "4,Oslo,8,8,d\n5,\\N,2,9,e\n6,Rome,6,1,f\n",
    "few.csv": "n\n1\n3\n\\N\n3\n",
}
# Which rows of wide.csv are kept by columns that are neither shown nor grouped by.
KEPT = {
    "count(*), sum(x) where y > 1": "\\N,1,2\nOslo,1,8\nRome,1,1\na name of its own block,1,5\n",
    "count(*), sum(x) where x < y": "\\N,1,2\nRome,1,1\n",
    "count(*), sum(x) where y is null": "Oslo,1,3\n",
    "count(*), sum(x) exists wide (name) = (name)": "Oslo,2,11\nRome,2,7\na name of its own block,1,5\n",
    "count(*), sum(x) not exists few (n) = (id)": "\\N,1,2\nOslo,1,8\nRome,1,6\na name of its own block,1,5\n",
    "count(*), sum(x) where x > 2 and note < 'b' exists few (n) = (id)": "Oslo,1,3\n",
}
def lines(*values: object) -> str:
    """One value a line."""
    return "".join(f"{value}\n" for value in values)


# More records than a guess at the columns reads, of which a last one, or a later file, has another kind of field.
MANY = range(2_000)
LATE = {
    "late.csv": lines("n", *range(100_000), "x"),
    "numbers.csv": lines("n", *MANY),
    "text.csv": lines("n", "x"),
    "nulls.csv": lines("n,m", *["1,"] * 2_000, "1,7"),
    "uneven.csv": lines("n", *MANY, "1,2"),
}
THOUSAND = {f"thousand/{number}.csv": f"i\n{number}\n" for number in range(1, 1001)}
# More rows than columns that grow by doubling have: numbers, numbers with nulls, and texts of which the last ones are long.
LONG = {"long.csv": lines("n,m,w", *(f"{n},{n if n % 7 else ''},{'a' if n < 135_000 else 'b' * 30}" for n in range(140_000)))}
# Numbers on both sides of 32 bits.
SHORT_NUMBERS, LONG_NUMBERS = range(-70_000, 70_000), range(2**31 - 70_000, 2**31 + 70_000)
NUMBERS = {"short.csv": lines("n", *SHORT_NUMBERS), "long.csv": lines("n", *LONG_NUMBERS)}
LONGEST_NAME = "n" * 63
NAME_WANTED = Contains("write NAME=FILE, with a name of 1 to 63 bytes")
USED_TWICE = Contains("error: standard input is used twice")


def of_tables(*words: str) -> list[str]:
    """An option `-t` for each word."""
    return [arg for word in words for arg in ("-t", word)]


def numbered(count: int) -> str:
    """The numbers from 1, as a record."""
    return ",".join(str(number) for number in range(1, count + 1)) + "\n"


def names() -> list[Case]:
    replies = "ok 2\n" + COUNTRIES
    return [
        Case("-t", ["-t", "cities.csv", "-c", BY_COUNTRY, "-o", "csv"], stdout=COUNTRIES, files=FILES),
        Case(
            "--table with a name",
            ["--table=t=./cities.csv", "-c", "distinct t on city"],
            stdout="ok 3\ncity\nBergen\nOslo\nRome\n",
            files=FILES,
        ),
        Case("-t beside a script", ["-tcities.csv"], BY_COUNTRY + "\n", stdout=replies, files=FILES),
        Case("-t from the standard input", ["-t", "cities=-", "-c", BY_COUNTRY], FILES["cities.csv"], stdout=replies),
        Case(
            "-t from a pipe",
            ["-t", "cities=/dev/stdin", "-c", BY_COUNTRY],
            stdout=replies,
            files=FILES,
            shell='cat cities.csv | "$@"',
        ),
        Case("-t from two of the standard input", ["-t", "a=-", "-t", "b=-", "-c", "show a"], status=2, stderr=USED_TWICE),
        Case("-t and the script from the standard input", ["-t", "a=-"], status=2, stderr=USED_TWICE),
        Case("a name to quote", ["-t", "2026-01.csv", "-c", 'show "2026-01"'], stdout="ok 1\nday\n1\n", files=FILES),
        Case(
            "the longest name",
            ["-t", f"{LONGEST_NAME}=cities.csv", "-c", f"show {LONGEST_NAME}"],
            stdout=Contains("ok 3"),
            files=FILES,
        ),
        Case("a longer name", ["-t", f"n{LONGEST_NAME}=cities.csv"], status=2, stderr=NAME_WANTED, files=FILES),
        Case("no name", ["-t", "=cities.csv"], status=2, stderr=NAME_WANTED, files=FILES),
    ]


def kinds() -> list[Case]:
    """A column of whole numbers is INT, and any other TEXT, unless the kinds are given."""
    return [
        Case(
            "kinds",
            ["-t", "kinds.csv", "-c", "group kinds show max(a), max(b), count(c), count(d), max(e), max(f)"],
            stdout="ok 1\nmax(a),max(b),count(c),count(d),max(e),max(f)\n7,5,2,1,x,9223372036854775808\n",
            files=FILES,
        ),
        Case(
            "a last field that is no number",
            ["-t", "late.csv", "-c", "group late show max(n), count(*)"],
            stdout="ok 1\nmax(n),count(*)\nx,100001\n",
            files=LATE,
        ),
        Case(
            "a text in a later file",
            [*of_tables("numbers.csv", "numbers=text.csv"), "-c", "group numbers show max(n), count(*)"],
            stdout="ok 1\nmax(n),count(*)\nx,2001\n",
            files=LATE,
        ),
        Case(
            "a text in a later file, both from pipes",
            [*of_tables("t=/dev/fd/3", "t=/dev/fd/4"), "-c", "group t show max(n), count(*)"],
            stdout="ok 1\nmax(n),count(*)\nx,2001\n",
            files=LATE,
            shell='"$@" 3< <(cat numbers.csv) 4< <(cat text.csv)',
        ),
        Case(
            "a number after many nulls",
            ["-t", "nulls.csv", "-c", "group nulls show max(m), count(m), count(*)"],
            stdout="ok 1\nmax(m),count(m),count(*)\n7,1,2001\n",
            files=LATE,
        ),
        Case(
            "a text in a table of its own after one that was made twice",
            [*of_tables("late.csv", "other=text.csv"), "-c", "group other show max(n)", "-c", "group late show count(*)"],
            stdout="ok 1\nmax(n)\nx\nok 1\ncount(*)\n100001\n",
            files=LATE,
        ),
        Case(
            "the first fault in the order of the command line",
            [*of_tables("a=numbers.csv", "b=uneven.csv", "a=text.csv", "a=missing.csv"), "-c", "show a"],
            status=1,
            stderr=Contains("groupsh: uneven.csv: err 10 FieldCount 2001"),
            files=LATE,
        ),
        Case(
            "a fault in a file before one that is missing",
            [*of_tables("a=late.csv", "a=uneven.csv", "b=missing.csv"), "-c", "show a"],
            status=1,
            stderr=Contains("groupsh: uneven.csv: err 10 FieldCount 2001"),
            files=LATE,
        ),
        Case(
            "kinds and a key by hand",
            ["-t", "k (n int, city text nocase, key (n))=keyed.csv", "-c", "show k"],
            stdout="ok 2\nn,city\n1,Oslo\n7,Rome\n",
            files=FILES,
        ),
        Case(
            "columns that no command has",
            ["-t", "k (n int=keyed.csv", "-c", "show k"],
            status=2,
            stderr=Contains("write the columns as in a create command"),
            files=FILES,
        ),
        Case(
            "other columns by hand",
            ["-t", "k (n int)=keyed.csv", "-c", "show k"],
            status=1,
            stderr="groupsh: keyed.csv: err 9 Header\n  the header does not name each column of the table once\n",
            files=FILES,
        ),
        Case(
            "a number by hand that is none",
            ["-t", "k (n int, city int)=keyed.csv", "-c", "show k"],
            status=1,
            stderr=Contains("groupsh: keyed.csv: err 11 BadInt 1"),
            files=FILES,
        ),
    ]


def several_files() -> list[Case]:
    return [
        Case("two files", ["-t", "log=a.csv", "-t", "log=b.csv", "-c", "show log"], stdout="ok 2\nx,y\n1,2\n3,z\n", files=FILES),
        Case(
            "two files, and another between them",
            [
                *of_tables("log=a.csv", "cities.csv", "log=b.csv"),
                *("-c", "show log"),
                *("-c", "load cities\ncountry,city\na,b\nc,d\ne,f\n\\."),
            ],
            stdout="ok 2\nx,y\n1,2\n3,z\nok 3\n",
            files=FILES,
        ),
        Case(
            "another header",
            ["-t", "log=a.csv", "-t", "log=cities.csv", "-c", "show log"],
            status=1,
            stderr=Contains("groupsh: cities.csv: err 9 Header"),
            files=FILES,
        ),
        Case(
            "columns by hand twice",
            ["-t", "log (x int, y text)=a.csv", "-t", "log (x int, y text)=b.csv", "-c", "show log"],
            status=1,
            stderr=Contains("groupsh: b.csv: err 4 TableExists"),
            files=FILES,
        ),
        Case(
            "short texts and nulls in two files",
            ["-t", "t=brief.csv", "-t", "t=more.csv", "-c", "group t by w show count(*), sum(n)"],
            stdout="ok 5\nw,count(*),sum(n)\n\\N,2,15\n,2,14\nabc,2,15\nabcdefg,2,7\né,1,3\n",
            files=FILES,
        ),
        Case(
            "a longer text after short ones, in two files",
            ["-t", "t=words.csv", "-t", "t=more.csv", "-c", "group t by w show count(*), sum(n)"],
            stdout="ok 6\nw,count(*),sum(n)\n\\N,3,24\n,2,14\nabc,2,15\nabcdefg,3,15\nabcdefgh,1,7\né,1,3\n",
            files=FILES,
        ),
        Case(
            "a thousand files",
            [*of_tables(*(f"m={name}" for name in THOUSAND)), "-c", "group m show count(*), sum(i)"],
            stdout="ok 1\ncount(*),sum(i)\n1000,500500\n",
            files=THOUSAND,
        ),
        Case(
            "columns of a long file",
            ["-t", "long.csv", "-c", "group long by w show count(*), sum(n), count(m), sum(m)"],
            stdout=f"ok 2\nw,count(*),sum(n),count(m),sum(m)\na,135000,9112432500,115714,7810675715\n{'b' * 30},5000,687497500,4286,589324285\n",
            files=LONG,
        ),
        Case(
            "numbers of up to 32 bits, and of more",
            ["-t", "long.csv", "-c", "group long show count(*), sum(n), min(n), max(n)"],
            stdout=f"ok 1\ncount(*),sum(n),min(n),max(n)\n140000,{sum(LONG_NUMBERS)},{LONG_NUMBERS[0]},{LONG_NUMBERS[-1]}\n",
            files=NUMBERS,
        ),
        Case(
            "numbers of three files, of which one has more than 32 bits",
            [*of_tables("m=short.csv", "m=long.csv", "m=short.csv"), "-c", "group m show count(*), sum(n), min(n), max(n)"],
            stdout="ok 1\ncount(*),sum(n),min(n),max(n)\n"
            f"420000,{2 * sum(SHORT_NUMBERS) + sum(LONG_NUMBERS)},{SHORT_NUMBERS[0]},{LONG_NUMBERS[-1]}\n",
            files=NUMBERS,
        ),
        Case(
            "CSV records into a pipe that is closed",
            ["-t", "long.csv", "-o", "csv", "-c", "show long"],
            status=3,
            stdout="n,m,w\n",
            stderr="groupsh: write fault\n",
            files=LONG,
            shell='"$@" | head -n 1; exit "${PIPESTATUS[0]}"',
        ),
        Case(
            "one table too many",
            [*of_tables(*(f"t{number}=a.csv" for number in range(1, 66))), "-c", "show t1"],
            status=1,
            stderr=Contains("groupsh: a.csv: err 14 Limit"),
            files=FILES,
        ),
    ]


def shown(name: str, file: str, stdout: str, *args: str) -> Case:
    """A table that is shown as CSV."""
    return Case(name, ["-t", f"t={file}", *args, "-c", "show t", "-o", "csv"], stdout=stdout, files=FILES)


def faulty(name: str, file: str, stderr: str | Contains, *args: str, status: int = 1) -> Case:
    """A table whose file is refused, so that the command doesn't run."""
    return Case(name, ["-t", f"t={file}", *args, "-c", "show t"], status=status, stderr=stderr, files=FILES, folders=["folder"])


def odd_files() -> list[Case]:
    too_few = "  the record has more or fewer fields than the header; --ragged completes short records with nulls\n"
    too_many = "  the record has more or fewer fields than the header\n"
    return [
        shown("CR LF, a quoted line break and no final newline", "crlf.csv", 'a,b\n1,"2\r\n3"\n'),
        shown("a line \\. in a file", "marks.csv", "a\n\\.\nx\n"),
        shown("a header alone", "head.csv", "a,b\n"),
        faulty("an empty file", "empty", Contains("groupsh: empty: err 9 Header")),
        faulty("a repeated header name", "twice.csv", Contains("groupsh: twice.csv: err 9 Header")),
        Case("128 columns", ["-t", "wide.csv", "-c", "show wide"], stdout=Contains("ok 1"), files={"wide.csv": numbered(128) * 2}),
        Case(
            "129 columns",
            ["-t", "wider.csv", "-c", "show wider"],
            status=1,
            stderr=Contains("groupsh: wider.csv: err 14 Limit"),
            files={"wider.csv": numbered(129)},
        ),
        faulty("a text that is not UTF-8", "bytes.csv", Contains("groupsh: bytes.csv: err 12 BadText 1")),
        faulty("a short record", "short.csv", "groupsh: short.csv: err 10 FieldCount 2\n" + too_few),
        faulty("a long record and --ragged", "short.csv", "groupsh: short.csv: err 10 FieldCount 3\n" + too_many, "--ragged"),
        shown("--ragged", "ragged.csv", "a,b,c\n1,x,3\n4,\\N,\\N\n", "--ragged"),
        faulty("no such file", "none.csv", "groupsh: none.csv: cannot open\n", status=3),
        faulty("a folder", "folder", "groupsh: folder: read fault\n", status=3),
        faulty("the first error", "short.csv", Contains("groupsh: short.csv: err 10"), "-t", "none.csv"),
        Case(
            "the first error, of an opening",
            [*of_tables("cities.csv", "none.csv", "short.csv"), "-c", "show none"],
            status=3,
            stderr="groupsh: none.csv: cannot open\n",
            files=FILES,
        ),
        Case("--check leaves tables out", ["--check", "-t", "none.csv", "-c", "show none"]),
    ]


def kept() -> list[Case]:
    tables = of_tables("wide.csv", "few.csv")
    return [
        Case(
            f"a table of five columns, {query}",
            [*tables, "-o", "csv", "-c", f"group wide by name show {query}"],
            stdout="name,count(*),sum(x)\n" + rows,
            files=FILES,
        )
        for query, rows in KEPT.items()
    ]


CASES = [*names(), *kinds(), *several_files(), *odd_files(), *kept()]
