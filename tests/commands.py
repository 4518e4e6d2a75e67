#!/usr/bin/env python3
"""Compares the commands of sessions with what names them: tests/commands.py PROGRAM

The rows of crates/ga_debug/specs/Commands.antt have each command's name, the words that follow it and the texts that have it.

- `help` at the prompt shows each of them, and a misspelt one is refused with its name.
- The help of `debug` and `replay` shows each command that its texts have, with these words, and no other.
- docs/FORMATS.md has a row of each, under Sessions or Transcripts, and tests/operands.py reads these words.
- `explain BadCommand` names the commands that a session has and a replay text doesn't.

The last line that is printed is 'N passed, M failed'.
"""
import os
import re
import subprocess
import sys
import tempfile
from collections import namedtuple

import operands

ROOT = os.path.dirname(os.path.dirname(os.path.abspath(__file__)))
ROW = re.compile(r'^\w+_row \w+ =\s+row\s+\(codes "(\w+)"\)\s+(?:\(([^()]*?)\s∷\s\[\]\)|\[\])\s+(\w+)\s+(\w+)$', re.M)
EQUATION = re.compile(r"^(?:action|follow|view)_row \w+ =", re.M)
# The words of a command that has others in transcripts.
IN_TRANSCRIPTS = re.compile(r"^shapes_in Transcripts \(\w+ (\w+)\) = (.*?) ∷ \[\]$", re.M)
# The words of each shape: in help, in FORMATS, and as tests/operands.py names them.
SHAPES = {
    "Node": ("NNN", "NNN", "node"),
    "Address": ("HHH", "HHH", "address"),
    "Side": ("SIDE", "S", "side"),
    "Count": ("K", "K", "count"),
    "CountIf": ("[K]", "[K]", "count?"),
    "AddressIf": ("[HHH]", "[HHH]", "address?"),
    "OneIf": ("[K]", "[K]", "one?"),
    "PassesIf": ("[xN]", "[xN]", "passes?"),
    "RangeIf": ("[HHH [COUNT]]", "[HHH [COUNT]]", "range?"),
    "What": ("WHAT", "WHAT", "what"),
    "Values": ("VALUE ..", "VALUE ..", "values"),
    "GoalIf": ("[= VALUE]", "[= VALUE]", "goal?"),
}
STATES = {"Nothing": [], "Outcome": ["=", "outcome"], "Steps": ["=", "number"]}


# `others` are the shapes in transcripts.
Row = namedtuple("Row", "name shapes others scope states")


def rows():
    """The row of each command, one for each equation of the table."""
    with open(f"{ROOT}/crates/ga_debug/specs/Commands.antt", encoding="utf-8") as file:
        text = file.read()
    found, others = ROW.findall(text), {name.lower(): words for name, words in IN_TRANSCRIPTS.findall(text)}
    if len(found) != len(EQUATION.findall(text)):
        sys.exit("commands: a row of specs/Commands.antt can't be read")
    shapes_of = re.compile(r"shape\.(\w+)").findall
    return [Row(name, shapes_of(it), shapes_of(others.get(name, it)), *rest) for name, it, *rest in found]


def form(name, shapes, column):
    return " ".join([name, *(SHAPES[shape][column] for shape in shapes)])


def shows_rightly(text, wanted, has):
    """Whether a list of commands shows this one, if its texts have it; or else has no line of it."""
    if has:
        return re.search(rf"(?<!\S){re.escape(wanted)}(?! [\[NHK])(?:[,;.]?\s|$)", text) is not None
    return re.search(rf"^  {re.escape(wanted)}\b", text, flags=re.M) is None


def section(page, heading):
    with open(f"{ROOT}/docs/{page}", encoding="utf-8") as file:
        return re.split(rf"^## {heading}$", file.read(), flags=re.M)[1].split("\n## ")[0]


def prompt(program, lines):
    """Returns the lines that the prompt writes for lines, without one of its own."""
    with tempfile.NamedTemporaryFile("w") as source:
        source.write("node 000 .")
        source.flush()
        run = subprocess.run([program, "debug", source.name], input="\n".join(lines), capture_output=True, text=True)
    return run.stdout.splitlines()


def wrong(program):
    """Yields each check and whether it passes."""
    help_of = {
        name: subprocess.run([program, name, "--help"], capture_output=True, text=True, check=True).stdout
        for name in ("debug", "replay")
    }
    told = subprocess.run([program, "explain", "BadCommand"], capture_output=True, text=True, check=True).stdout
    pages = {name: section("FORMATS.md", name) for name in ("Sessions", "Transcripts")}
    table = rows()
    for name, shapes, others, scope, states in table:
        in_help = form(name, shapes, 0)
        yield f"debug --help: {in_help}", shows_rightly(help_of["debug"], in_help, scope != "Transcripts")
        yield f"replay --help: {in_help}", shows_rightly(help_of["replay"], in_help, scope == "Replays")
        in_pages = {("Transcripts" if scope == "Transcripts" else "Sessions", form(name, shapes, 1))}
        in_pages |= {("Transcripts", form(name, others, 1))} if others != shapes else set()
        yield f"FORMATS.md: {name}", all(f"`{wanted}`" in pages[page] for page, wanted in in_pages)
        yield f"explain BadCommand: {name}", (f"'{name}'" in told) >= (scope == "Sessions")
        yield f"operands.py: {name}", operands.IN_TRANSCRIPTS.get(name) == [SHAPES[shape][2] for shape in others]
        words = [SHAPES[shape][2] for shape in shapes]
        of_sessions = words if scope != "Transcripts" else None
        yield f"operands.py: {name} of sessions", operands.COMMANDS.get(name) == of_sessions
        of_replays = words + STATES[states] if scope == "Replays" else None
        yield f"operands.py: {name} of replays", operands.IN_REPLAYS.get(name) == of_replays
    shown = prompt(program, [f"help {it.name}" for it in table] + [f"{it.name}x" for it in table])
    for name, _, others, *_ in table:
        yield f"help {name} at the prompt", any(line.startswith(form(name, others, 0) + " ") for line in shown)
        yield f"the nearest to {name}x", f"refused BadCommand, the nearest is {name}" in shown
    yield "operands.py has no others", set(operands.IN_TRANSCRIPTS) == {it.name for it in table}


def main(program):
    results = list(wrong(program))
    failed = [name for name, passes in results if not passes]
    print("".join(f"FAILED {name}\n" for name in failed), end="")
    print(f"commands: {len(results) - len(failed)} passed, {len(failed)} failed")
    return 1 if failed else 0


if __name__ == "__main__":
    if len(sys.argv) != 2:
        sys.exit(__doc__)
    sys.exit(main(os.path.abspath(sys.argv[1])))
