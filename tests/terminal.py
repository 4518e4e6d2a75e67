#!/usr/bin/env python3
"""Runs PROGRAM at a terminal, and without one: tests/terminal.py PROGRAM

If standard input is a terminal, one line on standard error reports it, with the key that ends the input. The output is
the same as without a terminal. `explain` reads nothing, so it has no such line. The last line that is printed is
'N passed, M failed', and the exit status is 0 if M is 0.
"""
import os
import pty
import subprocess
import sys

SOURCE = b"node 000 5 a! 3 .\n"
OUTPUT = b"node 000 entry 000 code 3 words 3\n04A12 00005 00003\n"


def at_terminal(program):
    """Returns the output and the messages of a run whose input is typed, and ended by Ctrl-D."""
    typist, terminal = pty.openpty()
    run = subprocess.Popen([program, "asm"], stdin=terminal, stdout=subprocess.PIPE, stderr=subprocess.PIPE)
    os.write(typist, SOURCE + b"\x04")
    output, messages = run.communicate(timeout=60)
    os.close(typist)
    os.close(terminal)
    return output, messages


def reads_nothing(program):
    """Returns the messages of a run at a terminal that reads no input."""
    typist, terminal = pty.openpty()
    run = subprocess.run([program, "explain"], stdin=terminal, capture_output=True, timeout=60)
    os.close(typist)
    os.close(terminal)
    return run.stderr


def main():
    if len(sys.argv) != 2:
        sys.exit("usage: tests/terminal.py PROGRAM")
    program = os.path.abspath(sys.argv[1])
    typed, hint = at_terminal(program)
    piped = subprocess.run([program, "asm"], input=SOURCE, capture_output=True, timeout=60)
    checks = {
        "the output of what is typed": typed == OUTPUT,
        "one line for whoever types": hint.count(b"\n") == 1 and b"Ctrl-D" in hint,
        "the output of what is piped": piped.stdout == OUTPUT,
        "no line without a terminal": piped.stderr == b"",
        "no line if nothing is read": reads_nothing(program) == b"",
    }
    for what, held in checks.items():
        if not held:
            print(f"failed: {what}")
    failed = list(checks.values()).count(False)
    print(f"{len(checks) - failed} passed, {failed} failed")
    return 1 if failed else 0


if __name__ == "__main__":
    sys.exit(main())
