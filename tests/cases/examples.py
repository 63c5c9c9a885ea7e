"""The examples, with all groups at once and with one at a time, in memory and in a folder."""

from collections.abc import Iterable
from functools import partial
from pathlib import Path

from case import ROOT, Case, Check, leaves_nothing

SUBJECT = "examples"
STATUS = {"stations": 0, "observations": 1, "rain": 1}


def is_the_one_of_the_gate(path: str) -> None:
    assert (ROOT / path).read_bytes() == (ROOT / "crates/gq_examples/data" / Path(path).name).read_bytes()


def of_example(name: str) -> Iterable[Case | Check]:
    path, status, replies = f"examples/{name}.gq", STATUS[name], ROOT / f"examples/{name}.out"
    budget = ["--budget", "1"]
    yield Case(path, [ROOT / path], status=status, stdout=replies)
    yield Case(f"{path}, one group at a time", [*budget, ROOT / path], status=status, stdout=replies)
    words = [*budget, "--spill", "runs", ROOT / path]
    spilled = Case(f"{path}, one group at a time, in a folder", words, status=status, stdout=replies, spill="runs")
    yield spilled
    yield leaves_nothing(path, [spilled])
    yield Check(f"{path} is the one that the gate runs", partial(is_the_one_of_the_gate, path))


CASES = [case for name in STATUS for case in of_example(name)]
