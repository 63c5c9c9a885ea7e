#!/usr/bin/env python3
"""Lists the mutants of crates/*/must-fail: mistakes planted on purpose, which the contracts of their crate must refuse.

    mutants.py [CRATE]..   the mutants of these crates, or of all, each with the files that it changes
    mutants.py --write     writes the number of mutants of each crate into docs/ASSURANCE.md, between its marks
    mutants.py --check     prints nothing; status 1 if the page has other numbers
"""

from __future__ import annotations

import re
import sys
from pathlib import Path

ROOT = Path(__file__).resolve().parent.parent
PAGE = ROOT / "docs" / "ASSURANCE.md"
MARKED = re.compile(r"(?<=^<!-- made by docs/mutants\.py --write -->\n).*?(?=^<!-- end -->$)", re.M | re.S)
# Crates in a row of the table.
IN_ROW = 3


def mutants() -> dict[str, list[Path]]:
    """The mutants of each crate that has some."""
    found: dict[str, list[Path]] = {}
    for path in sorted(ROOT.glob("crates/*/must-fail/*.edit")):
        found.setdefault(path.parts[-3], []).append(path)
    return found


def line(mutant: Path) -> str:
    """A mutant's name in words, and the files that it changes."""
    files = re.findall(r"^file: *(.*?) *$", mutant.read_text(encoding="utf-8"), re.M)
    return f"- {mutant.stem.replace('_', ' ')}: {', '.join(f'`{file}`' for file in dict.fromkeys(files))}"


def table() -> str:
    """The numbers of mutants, with their sum, as the page has them."""
    numbers = [(crate, len(paths)) for crate, paths in mutants().items()]
    cells = [f"`{crate}` | {number}" for crate, number in numbers]
    cells += [" | "] * (-len(cells) % IN_ROW)
    rows = [f"| {' | '.join(cells[at : at + IN_ROW])} |" for at in range(0, len(cells), IN_ROW)]
    head = f"| {' | '.join(['Crate | Mutants'] * IN_ROW)} |"
    total = sum(number for _, number in numbers)
    lines = [f"There are {total} mutants, of {len(numbers)} crates.", "", head, "|---" * 2 * IN_ROW + "|", *rows]
    return "\n" + "\n".join(lines) + "\n\n"


def main(words: list[str]) -> int:
    page = PAGE.read_text(encoding="utf-8")
    if words in (["--write"], ["--check"]):
        new = MARKED.sub(table(), page)
        if words == ["--write"]:
            PAGE.write_text(new, encoding="utf-8")
        elif new != page or not MARKED.search(page):
            print("docs/ASSURANCE.md has other numbers of mutants: run docs/mutants.py --write")
            return 1
        return 0
    found = mutants()
    if not set(words) <= set(found):
        print(__doc__, file=sys.stderr)
        return 2
    for crate in words or found:
        print(f"{crate}, {len(found[crate])}:", *map(line, found[crate]), "", sep="\n")
    return 0


if __name__ == "__main__":
    sys.exit(main(sys.argv[1:]))
