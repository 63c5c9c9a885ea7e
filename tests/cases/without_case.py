"""Texts without case and rollups: worked scripts that the gate runs too, with each budget, in memory and in a folder."""

from collections.abc import Iterable

from case import ROOT, Case, Check, leaves_nothing

SUBJECT = "texts without case and rollups"
DATA = ROOT / "crates/gq_examples/data"
NAMES = [
    *(f"{name}_without_case" for name in ("texts", "key", "order", "conditions", "exists", "kinds", "load", "rollup")),
    *("least_spellings", "least_spelling_last", "letters_with_accents"),
    *("rollup", "rollup_of_sales", "rollup_refused", "rollup_beside_a_level", "rollup_sums_out_of_range", "totals_by_rollup"),
]
BUDGETS = ("1", "2", "65536")


def of_script(name: str) -> Iterable[Case | Check]:
    script, replies = DATA / f"{name}.gq", DATA / f"{name}.out"
    status = 1 if b"\nerr " in b"\n" + replies.read_bytes() else 0
    spilled = []
    for budget in BUDGETS:
        args = ["--budget", budget, "--spill", "runs", script]
        spilled.append(Case(f"{name}, {budget} at a time, in a folder", args, status=status, stdout=replies, spill="runs"))
        yield Case(f"{name}, {budget} at a time", ["--budget", budget, script], status=status, stdout=replies)
        yield spilled[-1]
    yield leaves_nothing(name, spilled)


CASES = [case for name in NAMES for case in of_script(name)]
