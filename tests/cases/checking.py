"""Scripts that `--check` looks at and doesn't run. Columns were counted by hand."""

from collections.abc import Iterable

from case import PROGRAM, ROOT, Case, Check, Contains, judge, run_script
from samples import FILES, FIRST, OTHER

SUBJECT = "checks of scripts"
WORDS = "'create', 'drop', 'load', 'upsert', 'delete', 'show', 'group' or 'distinct'"
MARKED = b"\xef\xbb\xbfshow\r\n\r\n-- x\r\n\tshow s s\r\nload s\r\ncreat\r\n\\.\r\ncreat"
MARKED_REPORTS = f"""<stdin>:1:5: expected a name, found the end of the line
<stdin>:4:9: expected the end of the line, found 's'
<stdin>:8:1: expected {WORDS}, found 'creat'
"""
BYTES = b"show s\xff\nupsert s ('\xc3\xa9', x)\n"
BYTES_REPORTS = """<stdin>:1:7: expected the end of the line, found what is not UTF-8
<stdin>:2:17: expected a number, a text or 'null', found 'x'
"""
LONG_NAME = (
    "<stdin>:2:1: Limit: a name has more than 63 bytes, a text more than 65535, "
    "or there are more than 128 columns or 16 aggregates\n"
)
X63 = "x" * 63
LONGEST_PAYLOAD = 4_194_304


def of_script(name: str) -> Iterable[Case]:
    """A check of a script with mistakes, whose reports are in a file next to it."""
    path, files = f"{name}.gq", {f"{name}.gq": ROOT / f"{name}.gq"}
    text, reports = files[path].read_text(), (ROOT / f"{name}.out").read_text()
    of_stdin = "".join(f"<stdin>:{line.partition(':')[2]}" for line in reports.splitlines(keepends=True))
    options = ["--stats", "--seed=random", "--budget", "1", "--check", "--spill", "none"]
    yield Case(f"a check of {path}", ["--check", path], status=1, stdout=reports, files=files)
    yield Case(f"a check of {path}, and not of the standard input", [path, "--check"], FIRST, 1, reports, files=files)
    yield Case(f"a check of {path} from the standard input", ["--check"], text, 1, of_stdin)
    yield Case(
        f"a check of {path} byte by byte",
        ["--check"],
        status=1,
        stdout=of_stdin,
        files=files,
        shell=f'dd if={path} bs=1 status=none | "$@"',
    )
    yield Case(f"a check of {path} beside options", [*options, path], status=1, stdout=reports, files=files)
    yield Case(f"a check of {path} with line ends of two bytes", ["--check"], text.replace("\n", "\r\n"), 1, of_stdin)


def of_payload(name: str, lines: int, reports: str) -> Case:
    """A check of a payload of this many lines of 64 bytes, with a mistake after it."""
    make = f"""{{ echo load s; yes {X63} | head -n {lines}; printf '%s\\n' '\\.' 'show s s'; }}"""
    return Case(name, ["--check"], status=1, stdout=reports, shell=f'{make} | "$@"')


def unreadable(name: str, args: list[str], fault: str, shell: str = "") -> Case:
    return Case(name, args, FIRST, 3, stderr=f"groupsh: {fault}\n", folders=["folder"], shell=shell)


def check_prefixes() -> None:
    """Each prefix of the lines that LANGUAGE shows, and of some long ones, is reported at its end."""
    judge(run_script("fronts.py", PROGRAM, "docs/LANGUAGE.md"), 0, Contains(", 0 wrong"))


def check_lines_by_grammar() -> None:
    """Lines made by the grammar that LANGUAGE shows, right and altered, are reported if they aren't commands."""
    judge(run_script("grammar.py", PROGRAM, "docs/LANGUAGE.md"), 0, Contains(", 0 wrong"))


def after_payload(line: int) -> str:
    return f"<stdin>:{line}:8: expected the end of the line, found 's'\n"


CASES = [
    *of_script("examples/mistakes"),
    *of_script("tests/check"),
    Case("a check of nothing", ["--check"]),
    Case("a check of commands", ["--check", "first"], OTHER, files=FILES),
    Case("a check of commands that a run refuses", ["--check", "other"], files=FILES),
    *[
        Case(f"a check of {path}", ["--check", path], files={path: ROOT / path})
        for path in ("examples/stations.gq", "examples/observations.gq", "examples/rain.gq")
    ],
    Case("a check behind a byte-order mark", ["--check"], MARKED, 1, MARKED_REPORTS),
    Case("a check of what is not UTF-8, and columns in bytes", ["--check"], BYTES, 1, BYTES_REPORTS),
    Case("a check of a name of 64 bytes", ["--check"], f"show {X63}\nshow {X63}x\n", 1, LONG_NAME),
    Case(
        "a check of a line of 65,537 bytes",
        ["--check"],
        f"\n{'x' * 65_537}\nshow s\n",
        1,
        "<stdin>:2:1: LineTooLong: the line has more than 65536 bytes\n",
    ),
    Case("a check of a line of 65,536 bytes", ["--check"], f"{'show s':>65536}\n"),
    Case("a check of a comment of 65,537 bytes", ["--check"], f"--{'x':>65535}\n"),
    of_payload("a check of a payload at its limit", LONGEST_PAYLOAD, after_payload(LONGEST_PAYLOAD + 3)),
    of_payload(
        "a check of a payload past its limit",
        LONGEST_PAYLOAD + 1,
        "<stdin>:1:1: Limit: the payload has more than 268435456 bytes\n" + after_payload(LONGEST_PAYLOAD + 4),
    ),
    unreadable("a check of the missing file 'none'", ["--check", "none"], "cannot open script"),
    unreadable("a check of the missing file ''", ["--check", ""], "cannot open script"),
    unreadable("a check of a folder", ["--check", "folder"], "read fault"),
    unreadable("a check without a standard input", ["--check"], "read fault", shell='"$@" <&-'),
    Case(
        "a full device for reports",
        ["--check", ROOT / "tests/check.gq"],
        status=3,
        stderr="groupsh: write fault\n",
        shell='"$@" >/dev/full',
    ),
    Case("a full device for no reports", ["--check", "first"], files=FILES, shell='"$@" >/dev/full'),
    Case(
        "--check=x",
        ["--check=x", "first"],
        status=2,
        stderr=Contains("error: unexpected value 'x' for '--check' found"),
        files=FILES,
    ),
    Case("two checks", ["--check", "--check", "first"], status=2, stderr=Contains("cannot be used multiple times"), files=FILES),
    Case(
        "a check and a mistake",
        ["--check", "--seed", "x", "first"],
        status=2,
        stderr=Contains("error: invalid value 'x' for '--seed <N>'"),
        files=FILES,
    ),
    Case("a check and help", ["--check", "--help", "refused"], stdout=Contains("Usage: groupsh"), files=FILES),
    Check("fronts of lines", check_prefixes),
    Check("lines by the grammar", check_lines_by_grammar),
]
