"""Checks within a second that each mutant of `crates/*/must-fail` still applies, and proves nothing.

    edits.py FOLDER

FOLDER is the top of the repository. A mutant that can't be tried costs a whole run of the gate, so this reports it before: its
file is gone, a text that it replaces isn't there exactly once, or its new text names a module by `crate::` that the crate doesn't
have. The last line counts; the status is 0 if nothing is off.
"""
import re
import sys
from pathlib import Path


def has_module(crate, name):
    """Whether the crate has a file, a folder or an inline module of this name."""
    source = crate / "src"
    places = (source / f"{name}.rt", source / name)
    return any(place.exists() for place in places) or any(
        re.search(rf"^\s*(pub(\(\w+\))? )?(mod|use) .*\b{name}\b", file.read_text(encoding="utf-8"), re.M)
        for file in (source / "lib.rt", source / "main.rt")
        if file.is_file()
    )


def mistakes(edit):
    """What keeps a mutant from being tried."""
    crate, path, old, texts, replaced = edit.parent.parent, None, None, {}, 0
    for line in edit.read_text(encoding="utf-8").split("\n"):
        word, _, text = line.partition(":")
        text = text.removeprefix(" ")
        if word == "file":
            path = text.strip()
            if path not in texts:
                if not (crate / path).is_file():
                    yield f"there is no {path}"
                    return
                texts[path] = (crate / path).read_text(encoding="utf-8")
        elif word == "old":
            old = text
        elif word == "new":
            if path is None or not old:
                yield "a new text comes before any old one"
                return
            if texts[path].count(old) != 1:
                yield f"an old text is {texts[path].count(old)} times in {path}"
                return
            texts[path], old, replaced = texts[path].replace(old, text), None, replaced + 1
            for module in re.findall(r"\bcrate::([a-z_0-9]+)::", text):
                if not has_module(crate, module):
                    yield f"its new text names crate::{module}, and there is no such module"
    if not replaced:
        yield "it replaces nothing"


def main(root):
    edits = sorted(Path(root).glob("crates/*/must-fail/*.edit"))
    found = [f"{edit.relative_to(root)}: {why}" for edit in edits for why in mistakes(edit)]
    print(*found, f"{len(edits)} mutants, {len(found)} off", sep="\n")
    return 1 if found else 0


if __name__ == "__main__":
    sys.exit(main(sys.argv[1] if len(sys.argv) > 1 else "."))
