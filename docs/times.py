#!/usr/bin/env python3
"""Prints how long proofs took, by the files that the last checks left in crates/*/out.

    times.py           the table of docs/PROOFS.md: when each crate of the program began, and how many seconds it took
    times.py CRATE     the functions of a crate that took longest, with what the seconds went to

A check writes each module when it is done, so a module's seconds are those since the file before it. They are by the clock, so other
work on the machine counts, and if a crate had several jobs they are mixed. The table is right after a build from nothing.
"""

import sys
from collections import Counter
from itertools import pairwise
from pathlib import Path

ROOT = Path(__file__).resolve().parent.parent
PROGRAM = "gq_shell"
COLUMNS = 3
MOST = 20
# The last words of modules that belong to a function, and what they are.
KINDS = {"Lts": "borrows", "Proof": "goals", "Answers": "answers", "Tie": "contracts", "Invariants": "loops"}


def crates() -> list[str]:
    """The program's crates, by crates.txt."""
    lines = (line.partition("#")[0].partition(":") for line in (ROOT / "crates.txt").read_text().splitlines())
    uses = {name.strip(): rest.split() for name, colon, rest in lines if colon}
    found = [PROGRAM]
    for name in found:
        found += [use for use in uses[name] if use in uses and use not in found]
    return found


def modules(crate: str) -> list[tuple[float, str]]:
    """The modules that the last check of a crate wrote, each with its time."""
    files = (ROOT / "crates" / crate / "out/incremental").rglob("*.oantt")
    return sorted((path.stat().st_mtime, path.name.removesuffix(".oantt").removesuffix(".decls")) for path in files)


def ended(crate: str) -> float | None:
    """When a crate's library, or the program, was made."""
    out = ROOT / "crates" / crate / "out"
    made = [path for path in (out / "rlib/stamp", out / crate) if path.exists()]
    return max((path.stat().st_mtime for path in made), default=None)


def steps(crate: str) -> list[tuple[float, str]]:
    """The seconds of each module, and its name."""
    return [(after - before, name) for (before, _), (after, name) in pairwise(modules(crate))]


def table() -> list[str]:
    spans = {crate: (written[0][0], end) for crate in crates() if (written := modules(crate)) and (end := ended(crate))}
    if not spans:
        return ["no check left its modules in crates/*/out"]
    began = min(start for start, _ in spans.values())
    cells = []
    for crate, (start, end) in sorted(spans.items(), key=lambda item: item[1]):
        minutes, seconds = divmod(round(start - began), 60)
        cells.append(f"| `{crate}` | {minutes}:{seconds:02} | {round(end - start)} |")
    rows = -(-len(cells) // COLUMNS)
    lines = [" ".join(["| Crate | Begins | Seconds |"] * COLUMNS), "|---|---|---|".join([""] + ["---"] * (COLUMNS - 1) + [""])]
    lines += [" ".join(cells[row::rows]) for row in range(rows)]
    kinds = Counter()
    for crate in spans:
        for seconds, name in steps(crate):
            kinds[KINDS.get(name.rpartition(".")[2], "the rest")] += seconds
    shares = ", ".join(f"{kind} {seconds / kinds.total():.0%}" for kind, seconds in kinds.most_common())
    last = max(end for _, end in spans.values())
    return [*lines, "", f"{len(spans)} crates in {round((last - began) / 60)} minutes; {shares}"]


def functions(crate: str) -> list[str]:
    took: dict[str, Counter] = {}
    for seconds, name in steps(crate):
        function, _, kind = name.partition("-proofs.")[2].rpartition(".")
        if kind in KINDS:
            took.setdefault(function, Counter())[KINDS[kind]] += seconds
    if not took:
        return [f"no check left modules of {crate}"]
    longest = sorted(took.items(), key=lambda item: -item[1].total())[:MOST]
    return [f"{kinds.total():6.1f} {name}: " + ", ".join(f"{kind} {s:.1f}" for kind, s in kinds.most_common()) for name, kinds in longest]


def main(words: list[str]) -> None:
    print(*(functions(words[0]) if words else table()), sep="\n")


if __name__ == "__main__":
    main(sys.argv[1:])
