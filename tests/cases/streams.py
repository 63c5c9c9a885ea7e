"""Streams that can't be opened, read or written, a writer that pauses, and a terminal: mostly status 3."""

import subprocess
import threading
import time
import unittest

from case import PROGRAM, Case, Check, Outcome, judge, run_script
from samples import FILES, FIRST, REFUSED_REPLIES

SUBJECT = "what can't be read or written"
READ_FAULT = "groupsh: read fault\n"
WRITE_FAULT = "groupsh: write fault\n"
CANNOT_OPEN = "groupsh: cannot open script\n"


def write_fault(name: str, args: list[str], redirection: str = ">/dev/full") -> Case:
    return Case(name, args, status=3, stderr=WRITE_FAULT, files=FILES, shell=f'"$@" {redirection}')


def writer_that_pauses() -> None:
    """Each reply comes before the next line is sent, a line sent in pieces among them."""
    process = subprocess.Popen([PROGRAM], stdin=subprocess.PIPE, stdout=subprocess.PIPE, stderr=subprocess.PIPE, bufsize=0)
    killer = threading.Timer(120, process.kill)
    killer.start()
    replies = b""
    for line in ("create s (a int, key (a))", "", "-- a comment", "upsert s (1)", "creat", "upsert s (2)"):
        process.stdin.write(line[:5].encode())
        time.sleep(0.2)
        process.stdin.write(f"{line[5:]}\n".encode())
        if line and not line.startswith("--"):
            replies += process.stdout.readline()
    process.stdin.write(b"group s by a show count(*)")
    rest, errors = process.communicate()
    killer.cancel()
    outcome = Outcome(process.returncode, replies + rest, errors)
    judge(outcome, 1, "ok 0\nok 1\nerr 1 Syntax\nok 1\nok 2\na,count(*)\n1,1\n2,1\n")


def typed(end: str) -> Outcome:
    """Two lines typed at a terminal, and its end."""
    outcome = run_script("terminal.py", PROGRAM, "create s (a int)", "upsert s (1)", end, seconds=60)
    if outcome.status == 100:
        raise unittest.SkipTest("no terminal")
    return outcome


def script_at_terminal() -> None:
    judge(typed("ctrl-d"), 0, "ok 0\nok 1\n")


def terminal_that_goes_away() -> None:
    outcome = typed("hangup")
    # The system reports this as the end of input or as a fault.
    judge(outcome, outcome.status and 3, "ok 0\nok 1\n", READ_FAULT if outcome.status else "")


CASES = [
    Case("a missing file", ["none"], FIRST, 3, stderr=CANNOT_OPEN),
    Case("an empty name", [""], FIRST, 3, stderr=CANNOT_OPEN),
    Case("a folder", ["folder"], FIRST, 3, stderr=READ_FAULT, folders=["folder"]),
    Case("a folder as the standard input", status=3, stderr=READ_FAULT, folders=["folder"], shell='"$@" <folder'),
    Case("no standard input", status=3, stderr=READ_FAULT, shell='"$@" <&-'),
    write_fault("a full device", ["first"]),
    write_fault("help for a full device", ["--help"]),
    write_fault("the version for a full device", ["--version"]),
    write_fault("no standard output", ["first"], ">&-"),
    Case("a full device for errors", ["none"], status=3, shell='"$@" 2>/dev/full'),
    Case("a full device for a mistake", ["first", "first"], status=2, files=FILES, shell='"$@" 2>/dev/full'),
    Case("no standard error", ["refused"], status=1, stdout=REFUSED_REPLIES, files=FILES, shell='"$@" 2>&-'),
    Check("a writer that pauses", writer_that_pauses),
    Check("a script typed at a terminal", script_at_terminal),
    Check("a terminal that goes away", terminal_that_goes_away),
]
