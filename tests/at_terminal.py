#!/usr/bin/env python3
"""Runs a program at a terminal and types lines there, each behind a prompt `> `: tests/at_terminal.py PROGRAM.. -- LINE..

Behind the last prompt the input ends. Prints the screen without that prompt, and ends with the program's status.
"""
import os
import pty
import select
import subprocess
import sys

SECONDS = 60


def screen_of(arguments, lines):
    """Returns the bytes of the screen, and the status."""
    typist, terminal = pty.openpty()
    run = subprocess.Popen(arguments, stdin=terminal, stdout=terminal, stderr=terminal, close_fds=True)
    os.close(terminal)
    screen = b""
    for typed in [*(line.encode() + b"\n" for line in lines), b"\x04", None]:
        while select.select([typist], [], [], SECONDS)[0]:
            try:
                screen += os.read(typist, 65536)
            except OSError:  # the program has ended, and its terminal with it
                break
            if typed and is_prompt(screen):
                os.write(typist, typed)
                break
    os.close(typist)
    return screen.replace(b"\r\n", b"\n"), run.wait(SECONDS)


def is_prompt(screen):
    """Whether the last line of a screen is a prompt alone."""
    return screen.rsplit(b"\n", 1)[-1] == b"> "


def main():
    at = sys.argv.index("--")
    screen, status = screen_of(sys.argv[1:at], sys.argv[at + 1:])
    sys.stdout.write(screen.decode().removesuffix("> \n"))
    return status


if __name__ == "__main__":
    sys.exit(main())
