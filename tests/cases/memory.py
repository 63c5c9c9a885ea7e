"""Each request for memory refused in turn: at most one command is answered Memory and leaves nothing, all others as before."""

import os
import tempfile
from collections.abc import Iterable
from pathlib import Path

from case import PROGRAM, ROOT, Check, Contains, Outcome, folder_in_memory, judge, need, once, run, run_script

SUBJECT = "requests for memory that are refused"
WORKED = sorted((ROOT / "crates/gq_examples/data").glob("*.gq"))
FORTY_ROWS = ROOT / "tests/forty_rows.gq"


@once
def library() -> Path:
    """The library that refuses a request."""
    need("cc")
    path = Path(tempfile.mkdtemp()) / "refuse_memory.so"
    judge(run(["cc", "-O1", "-shared", "-fPIC", "-o", path, "tests/refuse_memory.c"]), 0)
    return path


def refuse(*words: str | Path) -> None:
    judge(run_script("refused_memory.py", PROGRAM, library(), *words), 0, Contains(", 0 wrong"))


@once
def refused_in_folder(budget: str) -> tuple[Outcome, list[str]]:
    """Refused requests of runs in a folder, and the files left there."""
    with folder_in_memory() as folder:
        words = [PROGRAM, library(), "--budget", budget, "--spill", folder, "--", FORTY_ROWS]
        return run_script("refused_memory.py", *words), os.listdir(folder)


def of_budget(budget: str) -> Iterable[Check]:
    def in_folder() -> None:
        judge(refused_in_folder(budget)[0], 0, Contains(", 0 wrong"))

    def leaves_nothing() -> None:
        assert refused_in_folder(budget)[1] == []

    name = f"requests of forty rows, {budget} at a time"
    yield Check(name, lambda: refuse("--budget", budget, "--", FORTY_ROWS))
    yield Check(f"{name}, in a folder", in_folder)
    yield Check(f"{name}, in a folder: no file is left", leaves_nothing)


def refuse_with_tables() -> None:
    """The kinds of the first table are guessed wrong, and the last one has a key by hand."""
    cities = ROOT / "examples/cities.csv"
    with tempfile.TemporaryDirectory() as folder:
        late, script = Path(folder, "late.csv"), Path(folder, "script")
        late.write_text("n,city\n" + "".join(f"{number},a\n" for number in range(1_100)) + "x,b\n")
        script.write_text("group late by city show count(*), max(n)\nshow cities\nshow k\n")
        keyed = f"k (city text, country text, key (city))={cities}"
        refuse("-t", str(late), "-t", f"cities={cities}", "-t", keyed, "--", script)


CASES = [
    Check("requests of tables from files", refuse_with_tables),
    Check("requests of the worked scripts", lambda: refuse("--", *WORKED)),
    *of_budget("1"),
    *of_budget("7"),
]
