"""Checks that each snippet of docs/LIBRARY.md is word for word in crates/sw_examples.

    library_page.py FOLDER

FOLDER is the top of the repository. A snippet's pieces, separated by empty lines, are whole lines of one
file: of `rust` in the crate's sources, of `antt` in its proofs, and of others in what it prints, as a
whole, or in `crates.txt`. The last line counts; the status is 0 if nothing is off.
"""
import re
import sys
from pathlib import Path

FENCE = re.compile(r"^```(\w*)\n(.*?)^```$", re.M | re.S)


def texts_of(root, kind):
    """The texts in one of which a snippet of this kind must be."""
    crate = root / "crates" / "sw_examples"
    files = {"rust": crate.glob("src/*.rt"), "antt": crate.glob("proofs/**/*.antt")}.get(kind, [root / "crates.txt"])
    return ["\n" + file.read_text(encoding="utf-8") for file in files]


def stands(root, kind, snippet):
    """Whether a snippet is in a text of its kind."""
    if kind not in ("rust", "antt") and snippet == (root / "crates/sw_examples/stdout").read_text(encoding="utf-8"):
        return True
    texts = texts_of(root, kind)
    pieces = [piece.strip("\n") for piece in snippet.split("\n\n")]
    return any(all(f"\n{piece}\n" in text for piece in pieces) for text in texts)


def main(root):
    page = (root / "docs" / "LIBRARY.md").read_text(encoding="utf-8")
    snippets = FENCE.findall(page)
    off = [snippet for kind, snippet in snippets if not stands(root, kind, snippet)]
    for snippet in off:
        print(f"this isn't in crates/sw_examples:\n{snippet}")
    print(f"{len(snippets)} snippets, {len(off)} off")
    return 1 if off or not snippets else 0


if __name__ == "__main__":
    sys.exit(main(Path(sys.argv[1])))
