"""The report of `--stats`, after the replies, on the standard error, and the random seed that it shows."""

import re

from case import PROGRAM, Case, Check, Contains, Outcome, judge, once, run, run_script
from samples import FILES, FIRST, FIRST_REPLIES, OTHER, REFUSED_REPLIES

SUBJECT = "reports and large answers"
NOTHING = "groupsh: read 0, written 0, groups 0, runs 0\n"
ONE = "groupsh: read 2, written 0, groups 1, runs 0\n"


@once
def random_run(number: int) -> tuple[Outcome, str]:
    """A run under a random seed, and the seed that it reports."""
    outcome = run([PROGRAM, "--seed", "random", "--stats"], stdin=FIRST)
    seed = re.fullmatch(rb"groupsh: .*, runs 0, seed ([0-9]+)\n", outcome.stderr)
    return outcome, seed[1].decode() if seed else ""


def report_of_random_run(number: int) -> None:
    outcome, seed = random_run(number)
    judge(outcome, 0, FIRST_REPLIES, f"{ONE.rstrip()}, seed {seed}\n")


def seed_of_its_own(number: int) -> None:
    seeds = [random_run(earlier)[1] for earlier in range(1, number + 1)]
    assert all(seeds) and len(set(seeds)) == len(seeds), seeds


def run_with_its_seed(number: int) -> None:
    judge(run([PROGRAM, "--seed", random_run(number)[1], "--stats"], stdin=FIRST), 0, FIRST_REPLIES, ONE)


def compare_quotes() -> None:
    judge(run_script("quotes.py", PROGRAM), 0, Contains(", 0 wrong"))


CASES = [
    Case("a report", ["--stats", "first"], OTHER, stdout=FIRST_REPLIES, stderr=ONE, files=FILES),
    Case("a report behind a script", ["first", "--stats"], OTHER, stdout=FIRST_REPLIES, stderr=ONE, files=FILES),
    Case("a report beside a seed and a budget", ["--seed=7", "--stats", "--budget=1"], FIRST, stdout=FIRST_REPLIES, stderr=ONE),
    *[
        Check(name, lambda look=look, number=number: look(number))
        for number in (1, 2)
        for name, look in (
            (f"a report on a random seed, run {number}", report_of_random_run),
            (f"a seed of its own, run {number}", seed_of_its_own),
            (f"the seed of run {number}, given", run_with_its_seed),
        )
    ],
    Case("a report on refusals", ["--stats", "refused"], status=1, stdout=REFUSED_REPLIES, stderr=NOTHING, files=FILES),
    Case("a report on an empty script", ["--stats"], stderr=NOTHING),
    Case("no report on a missing file", ["--stats", "none"], status=3, stderr="groupsh: cannot open script\n"),
    Case("no report on a read fault", ["--stats", "folder"], status=3, stderr="groupsh: read fault\n", folders=["folder"]),
    Case(
        "no report on a write fault",
        ["--stats", "first"],
        status=3,
        stderr="groupsh: write fault\n",
        files=FILES,
        shell='"$@" >/dev/full',
    ),
    Case("a full device for a report", ["--stats", "first"], stdout=FIRST_REPLIES, files=FILES, shell='"$@" 2>/dev/full'),
    Check("texts that call for quotes", compare_quotes),
]
