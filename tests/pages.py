#!/usr/bin/env python3
"""Runs the commands that the pages show, and compares what they print: tests/pages.py PROGRAM [PAGE..]

The pages are README.md and docs/*.md, or those that are named. In an indented code block the lines that
begin with '$ ' are commands, and the lines behind one, up to the next or to the block's end, are what it
prints: standard output and standard error together, to the byte, as a terminal shows them. Empty lines in
front of a command or at the block's end are no output. Lines of a here-document belong to their command.
Blocks without '$ ' are listings, and nothing is done with them.

A command that begins with './ga-bench debug ' and redirects nothing runs at a terminal. The lines behind it are the
screen, of which those that begin with '> ' are typed there, one after the other, and then the end of the input.

The commands of a page are run in order by one bash, in a folder of their own in which ./ga-bench is PROGRAM
and examples/ is a copy of the repository's. Standard input is empty.

The last line that is printed is 'N passed, M failed', and the exit status is 0 if M is 0 and N isn't.
"""
import difflib
import glob
import os
import re
import shlex
import shutil
import signal
import subprocess
import sys
import tempfile

SECONDS = 120
ROOT = os.path.dirname(os.path.dirname(os.path.abspath(__file__)))

PROMPT = re.compile(r"\./ga-bench debug [^<|>&]+$")

HERE = re.compile(r"(?<!<)<<(-?)\s*(?:'([^']+)'|\"([^\"]+)\"|([A-Za-z_]\w*))")


def blocks(lines):
    """Yields the indented code blocks of a page, each as a list of (line number, text)."""
    block = []
    for number, line in enumerate([*lines, "the end"], 1):
        if line.startswith("    ") or block and not line.strip():
            block.append((number, line[4:]))
        elif block:
            while not block[-1][1].strip():
                block.pop()
            yield block
            block = []


def commands(block):
    """Yields each command of a block: its line number, its text, its expected output, and its faults."""
    if not any(text.startswith("$ ") for _, text in block):
        return
    at = 0
    if not block[0][1].startswith("$ "):
        yield block[0][0], block[0][1], "", "a line in front of the block's first command"
        while not block[at][1].startswith("$ "):
            at += 1
    while at < len(block):
        number, text = block[at]
        command, wrong = [text[2:]], None
        at += 1
        for dash, *names in HERE.findall(text):
            end = "".join(names)
            while at < len(block) and (block[at][1].lstrip("\t") if dash else block[at][1]) != end:
                command.append(block[at][1])
                at += 1
            if at == len(block):
                wrong = f"the here-document has no line {end}"
            else:
                command.append(end)
                at += 1
        wanted = []
        while at < len(block) and not block[at][1].startswith("$ "):
            wanted.append(block[at][1])
            at += 1
        while wanted and not wanted[-1].strip():
            wanted.pop()
        yield number, "\n".join(command), "".join(line + "\n" for line in wanted), wrong


def at_terminal(text, screen):
    """The text of a command that runs another one at a terminal, at which the lines of a screen are typed."""
    typed = [line[2:] for line in screen.decode().split("\n") if line.startswith("> ")]
    return " ".join(["python3", shlex.quote(f"{ROOT}/tests/at_terminal.py"), text, "--", *map(shlex.quote, typed)])


def run(program, texts):
    """Returns the output of each command, or None if the shell didn't reach its end."""
    with tempfile.TemporaryDirectory() as folder:
        work, printed = f"{folder}/work", f"{folder}/printed"
        os.mkdir(work)
        os.mkdir(printed)
        shutil.copytree(f"{ROOT}/examples", f"{work}/examples")
        os.symlink(program, f"{work}/ga-bench")
        script = "".join(
            f"eval {shlex.quote(text)} >{printed}/{i} 2>&1\n: >{printed}/{i}.done\n" for i, text in enumerate(texts)
        )
        environment = {**os.environ, "LC_ALL": "C"}
        shell = subprocess.Popen(
            ["bash", "--noprofile", "--norc", "-c", script],
            cwd=work, env=environment, stdin=subprocess.DEVNULL, start_new_session=True,
        )
        try:
            shell.wait(SECONDS)
        except subprocess.TimeoutExpired:
            os.killpg(shell.pid, signal.SIGKILL)
            shell.wait()
        came = []
        for i in range(len(texts)):
            if os.path.exists(f"{printed}/{i}.done"):
                with open(f"{printed}/{i}", "rb") as output:
                    came.append(output.read())
            else:
                came.append(None)
        return came


def check(program, page):
    """Runs a page, prints what fails, and returns how many commands passed and failed."""
    with open(f"{ROOT}/{page}", encoding="utf-8") as text:
        lines = text.read().split("\n")
    found, failures, seen = [], [], set()
    for block in blocks(lines):
        for number, text, wanted, wrong in commands(block):
            seen.update(number for number, _ in block)
            if wrong:
                failures.append((number, text, [wrong]))
            else:
                found.append((number, text, wanted.encode()))
    for number, line in enumerate(lines, 1):
        if number not in seen and re.match(r"\s*\$ \S", line):
            failures.append((number, line, ["a command that is in no indented code block"]))
    came = run(program, [at_terminal(text, wanted) if PROMPT.match(text) else text for _, text, wanted in found])
    passed = 0
    for (number, text, wanted), output in zip(found, came):
        if output == wanted:
            passed += 1
        elif output is None:
            failures.append((number, text, [f"not done: the shell ended, or took more than {SECONDS} seconds"]))
        else:
            sides = [it.decode(errors="backslashreplace").splitlines(keepends=True) for it in (wanted, output)]
            shown = difflib.unified_diff(*sides, "the page", "the program", n=1)
            why = [line[:-1] if line.endswith("\n") else f"{line} (without LF)" for line in shown]
            failures.append((number, text, why))
    for number, text, why in sorted(failures):
        print(f"FAILED {page}:{number}: {text}", *why, sep="\n    ")
    print(f"{page}: {passed} passed, {len(failures)} failed", flush=True)
    return passed, len(failures)


def main(program, *pages):
    program = os.path.abspath(program)
    # The launcher unpacks or builds its program at the first call, and says so.
    if subprocess.run([program, "--version"], stdin=subprocess.DEVNULL, capture_output=True).returncode:
        print(f"{program} --version failed")
        print("0 passed, 1 failed")
        return 1
    pages = pages or ["README.md", *sorted(os.path.relpath(it, ROOT) for it in glob.glob(f"{ROOT}/docs/*.md"))]
    counts = [check(program, page) for page in pages]
    passed, failed = sum(it[0] for it in counts), sum(it[1] for it in counts)
    if not passed + failed:
        failed = 1
        print("no command was found")
    print(f"{passed} passed, {failed} failed")
    return 1 if failed else 0


if __name__ == "__main__":
    if len(sys.argv) < 2:
        sys.exit(__doc__)
    sys.exit(main(*sys.argv[1:]))
