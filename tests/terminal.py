"""Types a script into the program at a terminal, and writes what comes back.

    terminal.py PROGRAM FIRST SECOND END

Types FIRST, waits for a reply, types SECOND, waits for a reply. Then END is `ctrl-d`, or `hangup`: the
terminal goes away. Writes the replies, and the program's errors on standard error; its status is
the program's. Status 100: there is no terminal here.
"""
import os
import select
import subprocess
import sys
import termios


def open_terminal():
    try:
        ours, theirs = os.openpty()
    except OSError:
        sys.exit(100)
    modes = termios.tcgetattr(theirs)
    modes[3] &= ~termios.ECHO
    termios.tcsetattr(theirs, termios.TCSANOW, modes)
    return ours, theirs


def reply(pipe):
    """The next line of replies, or nothing after ten seconds."""
    line = b""
    while not line.endswith(b"\n"):
        if not select.select([pipe], [], [], 10)[0]:
            break
        byte = os.read(pipe.fileno(), 1)
        if not byte:
            break
        line += byte
    return line


def main(program, first, second, end):
    ours, theirs = open_terminal()
    run = subprocess.Popen([program], stdin=theirs, stdout=subprocess.PIPE, stderr=sys.stderr)
    os.close(theirs)
    for line in [first, second]:
        os.write(ours, line.encode() + b"\n")
        sys.stdout.buffer.write(reply(run.stdout))
    if end == "ctrl-d":
        os.write(ours, b"\x04")
    else:
        os.close(ours)
    sys.stdout.buffer.write(run.stdout.read())
    return run.wait(timeout=30)


if __name__ == "__main__":
    sys.exit(main(*sys.argv[1:]))
