"""Runs scripts while one request for memory is refused, for each request in turn.

    refused_memory.py PROGRAM LIBRARY [ARGUMENT..] -- SCRIPT..

LIBRARY is `refuse_memory.c`, made a shared library. For each SCRIPT every request is refused in a run of its own. The run must
answer as if no request was refused; or it answers one command with `err 15 Memory`, and all others as a run of the script without
that command does: so only that command was lost, and nothing of it was kept. If a request is refused before the script is read, or
while a table is made by `-t`, the run must end with status 3 and say so. Some runs go in parallel; with `--spill DIR` each process
has a folder of its own there, which must be empty at the end. Prints how many runs there were, and each that is wrong; the status
is 0 if none is.
"""
import io
import os
import sys
from concurrent.futures import ProcessPoolExecutor
from functools import partial
from tempfile import TemporaryFile

MEMORY = b"err 15 Memory\n"
BEFORE = (3, b"", b"groupsh: out of memory\n")
# How many requests are tried in parallel before the next ones.
AT_ONCE = 32


def commands_of(script):
    """The commands of a script, payloads with their lines, and where each begins and ends."""
    spans, at = [], 0
    lines = io.BytesIO(script).readlines()
    place = 0
    while place < len(lines):
        line, start = lines[place], at
        at, place = at + len(line), place + 1
        words = line.split()
        if not words or words[0].startswith(b"--"):
            continue
        if words[0].lower() == b"load":
            while place < len(lines):
                payload_line = lines[place]
                at, place = at + len(payload_line), place + 1
                if payload_line.rstrip(b"\r\n") == b"\\.":
                    break
        spans.append((start, at))
    return spans


class Runs:
    """Runs of one program with some arguments."""

    def __init__(self, program, library, arguments):
        self.program, self.library, self.arguments = program, library, arguments
        self.spill = arguments[arguments.index("--spill") + 1] if "--spill" in arguments else None

    def words(self):
        """The command line, with a folder of this process's own."""
        if self.spill is None:
            return [self.program, *self.arguments]
        own = os.path.join(self.spill, str(os.getpid()))
        os.makedirs(own, exist_ok=True)
        return [self.program, *(own if word == self.spill else word for word in self.arguments)]

    def clear(self):
        """Removes the processes' folders that are empty."""
        for name in os.listdir(self.spill) if self.spill else ():
            os.rmdir(os.path.join(self.spill, name))

    def run(self, script, refused=0):
        """Status, replies and errors of a run, and whether the request with that number was refused."""
        reading, writing = os.pipe()
        os.set_inheritable(writing, True)
        environment = {"LD_PRELOAD": self.library, "REFUSED": str(refused), "TOLD": str(writing)}
        with TemporaryFile() as stdin, TemporaryFile() as stdout, TemporaryFile() as stderr:
            stdin.write(script)
            stdin.seek(0)
            streams = [(os.POSIX_SPAWN_DUP2, file.fileno(), number) for number, file in enumerate((stdin, stdout, stderr))]
            # There are tens of thousands of runs, and `subprocess` takes half as much time again for each.
            process = os.posix_spawn(self.program, self.words(), environment, file_actions=streams)
            status = os.waitstatus_to_exitcode(os.waitpid(process, 0)[1])
            stdout.seek(0)
            stderr.seek(0)
            found = status, stdout.read(), stderr.read()
        os.close(writing)
        was_refused = os.read(reading, 1) != b""
        os.close(reading)
        return found, was_refused

    def replies(self, script):
        return self.run(script)[0][1]

    def without(self, script, span):
        """What a run of the script may give if the command at this place gets no memory."""
        start, end = span
        before = self.replies(script[:start])
        others = self.replies(script[:start] + script[end:])
        return {(1, before + MEMORY + others[len(before):], b"")} if others.startswith(before) else set()

    def before_script(self):
        """What a run may give that ends before its script, perhaps while a table is made from a file."""
        words = [str(word) for option, word in zip(self.arguments, self.arguments[1:]) if option == "-t"]
        files = [word.rpartition("=")[2] for word in words]
        return {BEFORE, *((3, b"", f"groupsh: {file}: out of memory\n".encode()) for file in files)}

    def rightful(self, script, pool):
        """What a run of the script may give if one request is refused."""
        answers = pool.map(partial(self.without, script), commands_of(script))
        return {self.run(script)[0]}.union(self.before_script(), *answers)

    def wrong(self, script, pool):
        """How many requests were refused in turn, some at once, and those after which the run was wrong."""
        rightful, wrong, first = self.rightful(script, pool), [], 1
        while True:
            requests = range(first, first + AT_ONCE)
            for request, (found, was_refused) in zip(requests, pool.map(partial(self.run, script), requests, chunksize=4)):
                if found not in rightful:
                    wrong.append((request, found))
                if not was_refused:
                    return request - 1, wrong
            first += AT_ONCE


def main():
    cut = sys.argv.index("--")
    program, library, *arguments = sys.argv[1:cut]
    runs = Runs(program, library, arguments)
    total, wrongs = 0, 0
    with ProcessPoolExecutor(os.cpu_count()) as pool:
        for name in sys.argv[cut + 1 :]:
            with open(name, "rb") as file:
                requests, wrong = runs.wrong(file.read(), pool)
            total, wrongs = total + requests, wrongs + len(wrong)
            for request, found in wrong:
                print(f"{name}: request {request} refused: {found}")
    runs.clear()
    print(f"{total} requests refused, {wrongs} wrong")
    sys.exit(wrongs != 0)


if __name__ == "__main__":
    main()
