"""Runs what the pages show, and compares the results with the pages.

    pages.py ROOT PAGE..

ROOT is the top of the repository, and each PAGE a file there. The word after the first fence of a block is its kind, which says
whether and how it is tried:

    sh      commands for bash, run in a folder that has `groupsh`, `examples` and `docs`, with `groupsh` in the PATH too; one
            folder for all blocks under a heading of level 1 or 2. The block `text` after it is all that they print, on either
            stream, byte for byte, with status 0. Without one they print nothing.
    gq      lines of a script, run after the lines of all such blocks before it under the heading. The block `text` after it
            is the replies to these lines. Without one each of these is `ok`.
    vim     commands for Vim, run on examples/mistakes.gq: its first report is jumped to, and the next one with `:cnext`.
    ebnf    a grammar: if two pages have the rule `command`, it is the same block.
    rust, antt, text after none of these: snippets that tests/library_page.py and docs/definitions.py check, and pictures.
    console  commands that prove and build, whose results `./test` takes from the gate.

A block of no other word, and code that is indented by spaces, is a mistake of the page. Each block has a line: `0 NAME` if it
passed, `1 NAME` if it didn't, with the reason on standard error, or `no TOOL here, so not tried: NAME`. The status is 0 if all
blocks were tried or left out.
"""
import difflib
import itertools
import os
import re
import signal
import subprocess
import sys
import tempfile
from dataclasses import dataclass
from pathlib import Path

SECONDS = 120
BLOCK = re.compile(r"^##? ([^\n]*)$|^```(\w*)\n(.*?)^```$", re.M | re.S)
SET_IN = re.compile(r"\n\n {4}\S")
LEFT_OUT = {"rust", "antt", "console"}

# A command that succeeds if a tool can be used, and the reason to skip a block if it can't.
PROBES = {
    "sqlite3": (["sqlite3", "-version"], "no sqlite3"),
    "psql": (["psql", "-X", "-w", "-c", "select 1"], "no psql that reaches a server"),
    "gnuplot": (["gnuplot", "--version"], "no gnuplot"),
    "man": (["man", "--version"], "no man"),
    "vim": (["vim", "--version"], "no Vim"),
}


@dataclass(frozen=True)
class Block:
    """A block that is tried, and the block `text` after it."""

    page: str
    heading: str
    kind: str
    text: str
    shown: str | None


@dataclass(frozen=True)
class Result:
    """The result of a block: it failed for a reason, was skipped for one, or passed."""

    failure: str = ""
    left_out: str = ""


def blocks(page, text):
    """The blocks of a page that are tried. A block of no known kind is one of them."""
    heading, waiting = "", None
    for block in BLOCK.finditer(text):
        title, kind, body = block.groups()
        if waiting and kind == "text":
            yield Block(page, heading, *waiting, body)
            waiting = None
            continue
        if waiting:
            yield Block(page, heading, *waiting, None)
            waiting = None
        heading = title or heading
        if title is None and kind != "text" and kind not in LEFT_OUT:
            waiting = kind, body
    if waiting:
        yield Block(page, heading, *waiting, None)
    if SET_IN.search(BLOCK.sub("", text)):
        yield Block(page, "", "", "code that is set in by spaces", None)


def parts(root, page):
    """The blocks of a page, one heading at a time, each with its name."""
    found = blocks(page, (root / page).read_text(encoding="utf-8"))
    for _, part in itertools.groupby(found, key=lambda block: block.heading):
        yield {f"{page}, {block.heading or 'the top'}, {number}": block for number, block in enumerate(part, 1)}


def run(words, folder=None, given=b""):
    """What a process prints, and its status, or what kept it from having one."""
    paths = os.pathsep.join(filter(None, [folder, os.environ.get("PATH")]))
    try:
        process = subprocess.Popen(
            words,
            cwd=folder,
            env={**os.environ, "PATH": paths},
            stdin=subprocess.PIPE,
            stdout=subprocess.PIPE,
            stderr=subprocess.STDOUT,
            start_new_session=True,
        )
    except OSError as fault:
        return b"", fault.strerror
    try:
        return process.communicate(given, timeout=SECONDS)[0], process.returncode
    except subprocess.TimeoutExpired:
        os.killpg(process.pid, signal.SIGTERM)
        return process.communicate()[0], f"none after {SECONDS} s"


def differs(shown, printed, note):
    """A result that says what a page shows and what was printed."""
    page, here = (text.split("\n") for text in (shown, printed.decode(errors="backslashreplace")))
    return Result("\n".join([f"{note}:", *difflib.unified_diff(page, here, "page", "printed", lineterm="")]))


def shell(block, folder):
    printed, status = run(["bash", "-c", block.text], folder)
    shown = block.shown or ""
    if printed == shown.encode() and status == 0:
        return Result()
    return differs(shown, printed, f"status {status}, wanted 0")


def script(block, folder, before):
    """Whether the lines of a block get the replies that the page shows, after the lines before it."""
    prefix, _ = run(["groupsh"], folder, before.encode())
    whole, _ = run(["groupsh"], folder, (before + block.text).encode())
    printed = whole[len(prefix) :]
    if block.shown is None:
        replies = [line for line in printed.decode().splitlines() if line.startswith(("ok", "err"))]
        accepted = bool(replies) and all(re.fullmatch(r"ok \d+", reply) for reply in replies)
        return Result() if accepted else differs("ok each time\n", printed, "a line is refused")
    return Result() if printed == block.shown.encode() else differs(block.shown, printed, "other replies")


def editor(block, folder):
    """Whether Vim goes to the reports of examples/mistakes.gq by these commands."""
    lines = [line.strip().removeprefix(":") for line in block.text.splitlines()]
    lines[-1] = "silent " + lines[-1]
    place = "call writefile([line('.') . ':' . col('.')], 'places', 'a')"
    words = itertools.chain.from_iterable(("-c", line) for line in [*lines, place, "silent cnext", place, "quitall!"])
    run(["vim", "-e", "-s", "-u", "NONE", "-N", *words, "examples/mistakes.gq"], folder)
    places = Path(folder, "places")
    found = places.read_bytes() if places.exists() else b""
    wanted = "".join(":".join(line.split(":")[1:3]) + "\n" for line in Path(folder, "examples/mistakes.out").read_text().splitlines()[:2])
    return Result() if found == wanted.encode() else differs(wanted, found, "other places")


def grammar(block, grammars):
    """Whether each page that has the grammar of commands has the same."""
    if "command " not in block.text:
        return Result()
    first = grammars.setdefault("command", block.text)
    return Result() if first == block.text else differs(first, block.text.encode(), "another grammar")


def try_block(block, folder, before, missing, grammars):
    for tool, reason in missing.items():
        if re.search(rf"\b{tool}\b", block.text if block.kind == "sh" else block.kind):
            return Result(left_out=reason)
    if block.kind == "sh":
        return shell(block, folder)
    if block.kind == "gq":
        return script(block, folder, before)
    if block.kind == "vim":
        return editor(block, folder)
    if block.kind == "ebnf":
        return grammar(block, grammars)
    return Result(f"a block of no kind that is tried:\n{block.text}")


def missing_tools():
    """The tools that can't be used here, each with the reason."""
    return {tool: reason for tool, (probe, reason) in PROBES.items() if run(probe)[1] != 0}


def try_part(root, part, missing, grammars):
    """The results of the blocks under one heading, in a folder of their own."""
    results, before = {}, ""
    with tempfile.TemporaryDirectory() as folder:
        for name in ("groupsh", "examples", "docs"):
            os.symlink(root / name, Path(folder) / name)
        for name, block in part.items():
            results[name] = try_block(block, folder, before, missing, grammars)
            if block.kind == "gq":
                before += block.text
    return results


def main():
    root = Path(sys.argv[1]).resolve()
    missing, grammars = missing_tools(), {}
    for page in sys.argv[2:]:
        for part in parts(root, page):
            for name, result in try_part(root, part, missing, grammars).items():
                if result.left_out:
                    print(f"{result.left_out} here, so not tried: {name}")
                    continue
                print(f"{1 if result.failure else 0} {name}", flush=True)
                if result.failure:
                    print(f"{name}: {result.failure}", file=sys.stderr)


if __name__ == "__main__":
    main()
