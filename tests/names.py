"""Checks that what the pages name is there: files, folders, headings, tests, mutants, and names of the code.

    names.py ROOT PAGE..

ROOT is the top of the repository, and each PAGE a file there. It checks:

    [words](link)             the file, and the heading of it
    `crate::module::test`     that function, in src/module.rt of the crate, or below it
    `crate/name`              a mutant of the crate, or a file of it
    `folder/file.rt`          a file or a folder at the top, in crates/, or in some crate
    `some_name`               with an underscore: a word of some source, definition, proof, test, example or manifest here

The last line counts; the status is 0 if all is there.
"""
import re
import sys
from pathlib import Path

FENCED = re.compile(r"^```.*?^```$", re.M | re.S)
LINK = re.compile(r"\]\(([^)#\s]*)(?:#([^)\s]*))?\)")
TOKEN = re.compile(r"`([^`\n]+)`")
WORD = re.compile(r"\w+")
PATH = re.compile(r"[\w*.-]+(/[\w*.-]+)+/?|\w+\.(rt|antt|py|c|gq|md|txt|awk)")
TEST = re.compile(r"(\w+)((?:::\w+)*)::(\w+)")
EDIT = re.compile(r"(?:gq|sw|starved)_\w+/\w+")

# Names of other libraries, of the toolchain and of the system.
FOREIGN = {
    *("try_reserve", "or_insert", "remove_entry", "entry_ref", "lazy_emplace", "erase_if", "bucket_count", "contains_key"),
    *("with_hasher", "with_hasher_in", "with_capacity_and_hasher", "flat_hash_map", "flat_hash_set", "into_mut"),
    *("shrink_to_fit", "needs_drop", "read_exact", "write_all", "O_CREAT", "O_EXCL", "O_TMPFILE"),
}
# Where a path may begin.
FRONTS = ("", "tests/", "docs/", "crates/", "crates/*/", "crates/*/src/", "crates/*/specs/", "crates/*/proofs/", "crates/*/proofs/**/")


def headings(path):
    """The anchors of a page, as GitHub makes them of its headings."""
    text = FENCED.sub("", path.read_text(encoding="utf-8"))
    for title in re.findall(r"^#+ (.*)$", text, re.M):
        yield re.sub(r"[^\w\- ]", "", title.replace("`", "").lower()).replace(" ", "-")


def words_in(*paths):
    """All words of some files."""
    found = set()
    for path in paths:
        found |= set(WORD.findall(path.read_text(encoding="utf-8", errors="replace")))
    return found


def words_of(root):
    """All words of the sources, and the names of files."""
    folders = [root / "tests", root / "examples", *root.glob("crates/*/[!o]*/")]
    files = [path for folder in folders for path in folder.rglob("*") if path.is_file() and path.suffix != ".pyc"]
    files += [root / name for name in ("crates.txt", "groupsh", "build", "try", "package", "test", "bench")]
    return words_in(*files).union(*(WORD.findall(path.stem) for path in files))


def is_file(root, text):
    """Whether a path names something, from the top, from `crates`, or from some crate."""
    return any(next(root.glob(front + text.rstrip("/")), None) for front in FRONTS)


def missing(root, page, words):
    """What a page names and isn't there."""
    text = page.read_text(encoding="utf-8")
    prose = FENCED.sub("", text)
    for target, anchor in LINK.findall(prose):
        if target.startswith("http"):
            continue
        path = (page.parent / target) if target else page
        if not path.exists():
            yield f"the link {target}"
        elif anchor and anchor not in headings(path):
            yield f"the heading #{anchor} of {path.name}"
    for token in TOKEN.findall(prose):
        if not stands(root, token, words):
            yield token


def stands(root, token, words):
    """Whether a text in backquotes is there, if it is a name of ours."""
    crates = {path.name for path in (root / "crates").iterdir()}
    test = TEST.fullmatch(token)
    if test and test[1] in crates:
        sources = (root / "crates" / test[1] / "src").rglob("*.rt")
        known = words_in(*sources) | {path.stem for path in (root / "crates" / test[1] / "src").rglob("*")}
        return all(name in known for name in [*test[2].split("::")[1:], test[3]])
    if EDIT.fullmatch(token) and token.split("/")[0] in crates:
        return is_file(root, token.replace("/", "/must-fail/", 1) + ".edit") or is_file(root, token)
    if PATH.fullmatch(token):
        return re.search("NAME|CRATE|run-", token) or "." not in token.split("/")[-1] or is_file(root, token)
    names = WORD.findall(token.partition("(")[0]) if re.fullmatch(r"[\w.:]+(\(.*\))?", token) else []
    return all("_" not in name.strip("_") or name in words or name in FOREIGN for name in names)


def main():
    root = Path(sys.argv[1]).resolve()
    words = words_of(root)
    found = [f"{page}: {name}" for page in sys.argv[2:] for name in dict.fromkeys(missing(root, root / page, words))]
    print(*found, f"{len(sys.argv) - 2} pages, {len(found)} names of what isn't there", sep="\n")
    return 1 if found else 0


if __name__ == "__main__":
    sys.exit(main())
