"""What the pages show and name: commands and what they print, scripts and their replies, tables, snippets and names."""

import os
import re
import shutil
import sys
import tempfile
import unittest
from collections.abc import Callable, Iterable
from functools import partial
from pathlib import Path

import pages
from case import PROGRAM, ROOT, Check, Contains, Outcome, judge, need, once, put, run, run_script

SUBJECT = "pages"
PAGES = ["README.md", "CONTRIBUTING.md", *sorted(str(path.relative_to(ROOT)) for path in (ROOT / "docs").glob("*.md"))]
PARTS = [part for page in PAGES for part in pages.parts(ROOT, page)]
# The grammars that were seen, since two pages have the same one.
GRAMMARS: dict[str, str] = {}

# The instructions that docs/PROOFS.md names.
MACHINE_CODE = {
    "match_h2": ("pshufb", "pcmpeqb", "pmovmskb"),
    "match_free": ("pcmpeqb", "por", "pmovmskb"),
    "match_full": ("pmovmskb", "not"),
    "lowest": ("tzcnt", "cmov"),
    "mark_for_rehash": ("pblendvb",),
}
OBJECT = ROOT / "crates/sw_parts_tests/out/sw_parts_tests_tests.o"

missing_tools = once(pages.missing_tools)


@once
def results_of(part: int) -> dict[str, pages.Result]:
    return pages.try_part(ROOT, PARTS[part], missing_tools(), GRAMMARS)


def look_at(part: int, name: str) -> None:
    result = results_of(part)[name]
    if result.left_out:
        raise unittest.SkipTest(result.left_out)
    if result.failure:
        raise AssertionError(result.failure)


def blocks() -> Iterable[Check]:
    for number, part in enumerate(PARTS):
        for name in part:
            yield Check(name, partial(look_at, number, name))


def find_blocks() -> None:
    assert all(PARTS)


def passes(script: str, *words: str) -> Callable[[], None]:
    """A script of this folder that ends with status 0."""
    return lambda: judge(run_script(script, *words), 0, Contains(""))


def try_language_tables() -> None:
    judge(run_script("language_page.py", PROGRAM, "docs/LANGUAGE.md"), 0, Contains(", 0 wrong"))


def run_docs_script(name: str, *words: str) -> Outcome:
    """Runs a script of docs."""
    return run([sys.executable, "-B", f"docs/{name}", *words])


def print_definitions() -> None:
    judge(run_docs_script("definitions.py", "sw_ctrl"), 0, Contains("| `sw_ctrl` `Bytes` | `is_full` |"))
    judge(run_docs_script("definitions.py", "--under", "Ran"), 0, Contains("| `gq_row` `Tables` | `of_key` |"))


def compare_crates() -> None:
    page = (ROOT / "docs/ARCHITECTURE.md").read_text()
    crates = set(re.findall(r"^(\w+):", (ROOT / "crates.txt").read_text(), re.M))
    assert set(re.findall(r"\b(?:gq|sw|starved)_\w+", page)) == crates
    assert f"\n{len(crates)} crates: " in page


def print_times() -> None:
    """The table of times, by the files of a check that took five seconds, three of them for the borrows of a function."""
    with tempfile.TemporaryDirectory() as name:
        folder = Path(name)
        (folder / "docs").mkdir()
        shutil.copy(ROOT / "docs/times.py", folder / "docs")
        (folder / "crates.txt").write_text("gq_shell: gq_row csv\ngq_row:\n")
        modules = "incremental/x/Rattle-gq_row-proofs.row.Row.len"
        for path, seconds in ((f"{modules}.Key.oantt", 100), (f"{modules}.Lts.oantt", 103), ("rlib/stamp", 105)):
            put(folder / "crates/gq_row/out", path, "")
            os.utime(folder / "crates/gq_row/out" / path, (seconds, seconds))
        words = [sys.executable, "-B", folder / "docs/times.py"]
        judge(run(words), 0, Contains("| `gq_row` | 0:00 | 5 |"))
        judge(run([*words, "gq_row"]), 0, "   3.0 row.Row.len: borrows 3.0\n")


def print_mutants() -> None:
    judge(run_docs_script("mutants.py", "gq_agg"), 0, Contains("- null is the least: `src/state.rt`"))


def lay_out_manual() -> None:
    need("man")
    words = ["man", "--warnings", "-E", "UTF-8", "-l", "docs/groupsh.1"]
    judge(run(words, env={"LC_ALL": "C.UTF-8", "MANROFFSEQ": ""}), 0, Contains("GROUPSH(1)"))


def run_example_of_manual() -> None:
    page = (ROOT / "docs/groupsh.1").read_text()
    examples = re.findall(r"^\.nf$\n(.*?)^\.fi$", page, re.M | re.S)
    lines = [line for example in examples for line in example.splitlines() if not line.startswith(".")]
    script = "\n".join(lines).replace(r"\e", "\\")
    with tempfile.TemporaryDirectory() as folder:
        (Path(folder) / "groupsh").symlink_to(ROOT / "groupsh")
        path = f"{folder}{os.pathsep}{os.environ['PATH']}"
        outcome = run(["bash", "-c", script], folder=ROOT / "examples", env={"PATH": path})
    judge(outcome, 0, "country,count(*)\n,1\nCH,2\nFR,1\nNO,2\n")


def look_at_machine_code(function: str) -> None:
    need("objdump")
    if not OBJECT.exists():
        raise unittest.SkipTest("no object of the gate's tests")
    section = f".text.sw_parts_tests::lanes::{function}"
    code = run(["objdump", "-d", "--no-show-raw-insn", "-j", section, OBJECT]).stdout.decode()
    missing = [step for step in MACHINE_CODE[function] if step not in code]
    assert not missing, f"without {missing}"


@once
def bench() -> object:
    return run(["./bench", "1000"])


def measure_small_tables() -> None:
    judge(bench(), 0, Contains("all texts"))


def one_line_for_each_shape() -> None:
    assert len(bench().stdout.splitlines()) == 10


def one_line_for_each_question() -> None:
    outcome = run(["./bench", "--questions", "1000"])
    judge(outcome, 0, Contains("all six: sum v3, count"))
    assert len(outcome.stdout.splitlines()) == 9


def refuse_words_of_bench(word: str) -> None:
    judge(run(["./bench", word]), 2, "", Contains("usage: ./bench"))


CASES = [
    Check("the pages are gone through", find_blocks),
    *blocks(),
    Check("links and names of the pages", passes("names.py", str(ROOT), *PAGES)),
    Check("the snippets of docs/LIBRARY.md", passes("library_page.py", str(ROOT))),
    Check("the tables of docs/LANGUAGE.md", try_language_tables),
    Check("the crates of docs/ARCHITECTURE.md", compare_crates),
    Check("the times of proofs", print_times),
    Check("the quotes of docs/DEFINITIONS.md", lambda: judge(run_docs_script("definitions.py", "--check"), 0)),
    Check("the definitions that docs/definitions.py prints", print_definitions),
    Check("the mutants of docs/ASSURANCE.md", lambda: judge(run_docs_script("mutants.py", "--check"), 0)),
    Check("the mutants that docs/mutants.py prints", print_mutants),
    Check("the manual page", lay_out_manual),
    Check("the example of the manual page", run_example_of_manual),
    *[Check(f"the machine code of {function}", partial(look_at_machine_code, function)) for function in MACHINE_CODE],
    Check("./bench 1000", measure_small_tables),
    Check("./bench 1000: a line for each shape", one_line_for_each_shape),
    Check("./bench --questions 1000: a line for each question", one_line_for_each_question),
    *[Check(f"./bench {word}", partial(refuse_words_of_bench, word)) for word in ("x", "--help")],
]
