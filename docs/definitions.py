#!/usr/bin/env python3
"""Prints the public definitions of specs/ as Markdown tables, each with the comment above it.

    definitions.py [CRATE]..      those that public contracts use, then those that only contracts within a crate use
    definitions.py --under NAME   NAME and the definitions that it rests on; NAME is one as Ran, or CRATE.FILE.NAME
    definitions.py --check        prints nothing; status 1 if a definition has no comment, or if docs/DEFINITIONS.md quotes or
                                  names what isn't in the file that it says

A definition without a comment belongs to the one before it, and the first of a file to the head of the file. A public
contract is one of an exported function, trait or type; it uses a definition if a clause names it, or another that rests on it.
"""

from __future__ import annotations

import re
import sys
from collections.abc import Callable, Iterable, Iterator
from dataclasses import dataclass, field
from pathlib import Path

ROOT = Path(__file__).resolve().parent.parent
PAGE = ROOT / "docs" / "DEFINITIONS.md"
DEFINITION = re.compile(r"^(?:abbrev |unfoldable )?pub (?:abbrev |unfoldable )?(?:record |data )?([^\s:({]+)")
IMPORT = re.compile(r"use Rattle\.(\w+\.specs\.[\w.]+)\.\{([^}]*)\}")
ITEM = re.compile(r"^(?:pub )?(?:unsafe )?(impl|trait|fn|struct|enum)\b(.*)", re.M)
WORD = re.compile(r"[^\s(){}\[\],;.`\"]+")
QUOTE = re.compile(r"^```antt\n-- (\S+)\n(.*?)^```$", re.M | re.S)
# `name` of `crate` `File`, or `crate` `File` alone.
NAMED = re.compile(r"(?:`(\w+)`\s+of\s+)?`((?:gq|sw)_\w+)`\s+`([A-Z]\w+)`")

# A crate, a file of its specs, and a name.
Name = tuple[str, str, str]


@dataclass
class Group:
    """A comment, and the definitions below it."""

    comment: str
    names: list[str] = field(default_factory=list)


def libraries() -> list[str]:
    """The crates with definitions, lowest first, as crates.txt has them."""
    needs = {}
    for line in (ROOT / "crates.txt").read_text().splitlines():
        name, colon, deps = line.split("#")[0].partition(":")
        if colon:
            needs[name.strip()] = deps.split()
    order: list[str] = []

    def visit(name: str) -> None:
        if name in needs and name not in order:
            for dep in needs[name]:
                visit(dep)
            order.append(name)

    for name in needs:
        visit(name)
    return [name for name in order if not name.endswith(("_tests", "_bench", "_examples"))]


def imports(text: str) -> dict[str, Name]:
    """What the names that a file imports from these specs mean."""
    found: dict[str, Name] = {}
    for where, listed in IMPORT.findall(text):
        crate, _, *folders = where.split(".")
        if folders[0] == "declared":
            continue
        for item in listed.split(","):
            name, _, alias = item.strip().partition(" as ")
            found[alias or name] = (crate, folders[-1], name)
    return found


class Specs:
    """All public definitions: in groups by crate and file, and what each one names."""

    def __init__(self) -> None:
        self.groups: dict[tuple[str, str], list[Group]] = {}
        self.uses: dict[Name, set[Name]] = {}
        for crate in libraries():
            for path in sorted((ROOT / "crates" / crate / "specs").glob("*.antt")):
                self.read(crate, path)

    def read(self, crate: str, path: Path) -> None:
        text = path.read_text()
        known = imports(text)
        head = text.splitlines()[0].lstrip("- ") if text.startswith("--") else ""
        groups: list[Group] = []
        comment: list[str] = []
        current, is_inside = None, False
        for line in text.splitlines():
            if line and not line.startswith((" ", "--")):
                is_inside = line.startswith("module _")
            if is_inside:
                line = line.removeprefix("  ")
            if line.startswith("--"):
                comment.append(line.lstrip("- ").strip())
                continue
            match = DEFINITION.match(line)
            if match and " mod " not in line and " use " not in line:
                if comment or not groups:
                    groups.append(Group(" ".join(comment) or head))
                groups[-1].names.append(match[1])
                current = (crate, path.stem, match[1])
                self.uses[current] = set()
            comment = []
            if current and not line.startswith("use "):
                self.uses[current].update(known.get(word, (crate, path.stem, word)) for word in WORD.findall(line))
        if groups:
            self.groups[crate, path.stem] = groups

    def under(self, names: Iterable[Name]) -> set[Name]:
        """These definitions, and those that they rest on."""
        todo = [name for name in names if name in self.uses]
        found = set(todo)
        while todo:
            new = self.uses[todo.pop()] & self.uses.keys() - found
            found |= new
            todo += new
        return found

    def table(self, wanted: Callable[[Name], bool]) -> Iterator[str]:
        """The lines of a table of some definitions."""
        yield "| Where | Name | What it is |"
        yield "|---|---|---|"
        for (crate, file), groups in self.groups.items():
            for group in groups:
                names = [f"`{name}`" for name in group.names if wanted((crate, file, name))]
                if names:
                    cells = (f"`{crate}` `{file}`", ", ".join(names), group.comment)
                    yield f"| {' | '.join(cell.replace('|', chr(92) + '|') for cell in cells)} |"


def exported(crate: str) -> tuple[set[str] | None, set[str]]:
    """The names that a library exports, or None for a program, and its public modules."""
    lib = ROOT / "crates" / crate / "src" / "lib.rt"
    if not lib.exists():
        return None, {"laws"}
    text = lib.read_text()
    names: set[str] = set()
    for listed in re.findall(r"^pub use ([^;]+);", text, re.M):
        names |= set(re.findall(r"\w+", listed.rpartition("::")[2]))
    return names, set(re.findall(r"^pub mod (\w+);", text, re.M))


def public_clauses(crate: str) -> set[Name]:
    """What the clauses of a crate's exported items name."""
    names, modules = exported(crate)
    found: set[Name] = set()
    for path in sorted((ROOT / "crates" / crate / "src").rglob("*.rt")):
        text = path.read_text()
        known = imports(text)
        for item in re.split(r"\n(?=(?!where)[a-z#/])", text):
            head = ITEM.search(item)
            if not head:
                continue
            kind, rest = head.groups()
            if names is not None and path.stem not in modules and names.isdisjoint(re.findall(r"\w+", rest)):
                continue
            if kind != "impl":
                parts = [item] if head[0].startswith("pub ") else []
            elif " for " in rest:
                parts = [item]
            else:
                parts = re.findall(r"^    pub fn .*?^    \{|^    ghost .*?;$", item, re.M | re.S)
            found |= {known[word] for part in parts for word in WORD.findall(part) if word in known}
    return found


def mistakes(specs: Specs) -> Iterator[str]:
    """What --check finds."""
    for (crate, file), groups in specs.groups.items():
        yield from (f"{crate} {file}: no comment on {group.names[0]}" for group in groups if not group.comment)
    page = PAGE.read_text()
    for name, crate, file in NAMED.findall(page):
        names = {other for group in specs.groups.get((crate, file), ()) for other in group.names}
        if not names or (name and name not in names):
            yield f"{PAGE.name} names {name or 'definitions'} of {crate} {file}, which isn't there"
    quotes = QUOTE.findall(page)
    if not quotes:
        yield f"{PAGE.name} quotes nothing"
    for name, quote in quotes:
        path = ROOT / "crates" / name
        text = "\n" + path.read_text() if path.exists() else ""
        for piece in quote.strip("\n").split("\n\n"):
            if f"\n{piece}\n" not in text:
                yield f"{PAGE.name} quotes of {name} what isn't there:\n{piece}"


def main(words: list[str]) -> int:
    specs = Specs()
    if words == ["--check"]:
        found = list(mistakes(specs))
        print(*found, sep="\n", end="\n" if found else "")
        return 1 if found else 0
    if len(words) == 2 and words[0] == "--under":
        parts = tuple(words[1].split("."))
        top = [name for name in specs.uses if name[-len(parts) :] == parts]
        under = specs.under(top)
        files = {(crate, file) for crate, file, _ in under}
        print(*specs.table(lambda name: name in under), "", f"{len(under)} definitions in {len(files)} files", sep="\n")
        return 0 if top else 1
    crates = words or libraries()
    if not set(crates) <= set(libraries()):
        print(__doc__, file=sys.stderr)
        return 2
    public = specs.under(name for crate in libraries() for name in public_clauses(crate))
    print("Definitions that public contracts use:", "", sep="\n")
    print(*specs.table(lambda name: name[0] in crates and name in public), sep="\n")
    print("", "Definitions that only contracts within a crate use:", "", sep="\n")
    print(*specs.table(lambda name: name[0] in crates and name not in public), sep="\n")
    return 0


if __name__ == "__main__":
    sys.exit(main(sys.argv[1:]))
