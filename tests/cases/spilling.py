"""Runs in the folder of `--spill`: the same replies as in memory, and no file is left."""

from case import Case, with_spill_checks
from samples import FILES as SCRIPTS
from samples import FIRST_REPLIES

SUBJECT = "runs in a folder"
ROWS = """create b (id int, n int)
upsert b (1, 5)
upsert b (2, 7)
upsert b (3, null)
group b by id show sum(n)
group b show count(distinct n)
distinct b on n
show b
"""
MADE = "ok 0\nok 1\nok 1\nok 1\n"
GROUPED = "ok 3\nid,sum(n)\n1,5\n2,7\n3,\\N\nok 1\ncount(distinct n)\n2\nok 3\nn\n\\N\n5\n7\n"
SHOWN = "ok 3\nid,n\n1,5\n2,7\n3,\\N\n"
ROWS_REPLIES = MADE + GROUPED + SHOWN
# The replies where no run can be made.
FAILED_REPLIES = MADE + "err 16 StoreFault\n" * 3 + SHOWN
FILES = SCRIPTS | {"rows": ROWS}
REPORT = "groupsh: read 2, written 0, groups 1, runs 0\n"


def rows(name: str, *args: str, **rest) -> Case:
    """A run of ROWS with one group at a time."""
    return Case(name, ["--budget", "1", *args, "rows"], **{"stdout": ROWS_REPLIES, "files": FILES} | rest)


CASES = list(
    with_spill_checks(
        [
            rows("runs in memory"),
            rows("runs in a folder", "--spill", "runs", spill="runs"),
            rows("an old file of a run", "--spill=runs", files=FILES | {"runs/run-0.gq": "old\n"}, spill="runs"),
            Case(
                "a folder and a report",
                ["--stats", "--spill", "runs", "first"],
                stdout=FIRST_REPLIES,
                stderr=REPORT,
                files=FILES,
                spill="runs",
            ),
            rows("a folder that is not there", "--spill", "none", status=1, stdout=FAILED_REPLIES),
            rows("a folder that is a file", "--spill", "first", status=1, stdout=FAILED_REPLIES),
            Case("a folder that is not needed", ["--spill", "none", "first"], stdout=FIRST_REPLIES, files=FILES),
            Case("a folder of no name", ["--spill=", "first"], stdout=FIRST_REPLIES, files=FILES),
            rows("a folder named -d", "--spill=-d", spill="-d"),
        ]
    )
)
