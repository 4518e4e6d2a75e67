#!/usr/bin/env python3
"""Compares the texts of `explain` with the pages and with the recorded cases: tests/explain.py PROGRAM

- Its names are those of the tables of faults, warnings, needs, stops, outcomes and the carry in docs/FORMATS.md and
  docs/CHIP.md, the TERMS, which are entries of docs/GLOSSARY.md, and the WORDS of the larger language. No name of the tables is missing, nor any that the code has for
  a reply or a message (NAMING).
- A fault of source text or of layout has a meaning, which a recorded case of `list` shows; a warning has one that a case of
  `lint` and the table of the page show.
- A text has at most 24 lines of 80 columns (that of BadToken is longer), and begins with its name.
- A text has an example that shows its name, or what is SHOWN for it, and a fixed one that doesn't. Exceptions are
  names without an example (UNRECORDED) and those that aren't faults (HARMLESS).
- Each example in a text is a recorded case in tests/cases/explain.jsonl, with the same input, arguments and output, and
  each case is an example, except those of `explain` itself. tests/run_cases.py runs the cases. An example that uses the
  file my.source is run here instead.

An example is a command that begins with '  $ ' and ends in ga-bench and its arguments. It continues on the next line
if the line ends in '|' or a backslash. The lines behind it are its output; a line that begins with three blanks
continues the one before. The last line that is printed is 'N passed, M failed'.
"""
import base64
import json
import os
import re
import shlex
import subprocess
import sys
import tempfile

from answers import MEANINGS

ROOT = os.path.dirname(os.path.dirname(os.path.abspath(__file__)))
CASES = f"{ROOT}/tests/cases/explain.jsonl"
SECONDS = 60
LINES, COLUMNS = 24, 80

WARNINGS = "`lint`: warnings"
TERMS = {"stuck", "ring", "race", "turn", "place", "step", "slot", "follower", "profile"}
# The words of the larger language.
WORDS = {"const", "body", "use", "include", "to"}
# No recorded case can make a read, a write or an allocation fail, or a node step 2^64 times. The example of `ring` is
# that of `stuck`.
UNRECORDED = {"read", "write", "memory", "Memory", "Counted", "ring"} | WORDS
HARMLESS = {"own", "moved"} | TERMS | WORDS
# What an output has in place of a name.
# The files of crates/ that have the names of replies and messages.
NAMING = [
    "ga_debug/src/error.rt", "ga_debug/src/replay_error.rt", "ga_expand/src/error.rt", "ga_include/src/error.rt",
    "ga_input/src/fault.rt", "ga_lint/src/warning.rt", "ga_prompt/src/answer.rt", "ga_prompt/src/refusal.rt", "ga_transcript/src/error.rt",
]  # fmt: skip
SHOWN = {"carry": "C 1", "turn": "moved", "place": "at fetch", "step": "steps", "slot": "slot2"}


def section(page, heading):
    with open(f"{ROOT}/docs/{page}", encoding="utf-8") as text:
        sections = re.split(r"^#+ (.*)$", text.read(), flags=re.M)
    return dict(zip(sections[1::2], sections[2::2]))[heading]


def rows(page, heading):
    """Yields the first cell of each row of the tables in one section of a page."""
    yield from re.findall(r"^\| *(.*?) *\|.*\|$", section(page, heading), flags=re.M)


def names_of_code():
    """Returns the names that the code has for replies and messages."""
    names = set()
    for file in NAMING:
        with open(f"{ROOT}/crates/{file}", encoding="utf-8") as text:
            names.update(re.findall(r'"(?:[^"\n]* )?([A-Z][a-z]\w*)[",]', text.read()))
    return names


def names_of_pages():
    """Returns the names that the pages have in their tables of faults, warnings, needs, stops, outcomes and the carry."""
    names = set()
    headings = [
        "Faults of source text", "Faults of layout", "Faults of larger source text", "Faults of included files", WARNINGS, "Routes", "Trees", "Plans", "Sessions",
        "Replay texts",
    ]  # fmt: skip
    for heading in headings:
        for cell in rows("FORMATS.md", heading):
            names.update(re.findall(r"^`([A-Z][a-z]\w*)(?: [A-Z]+)?`$", cell))
            names.update(re.findall(r"^`([a-z]+)` L$", cell))
    for cell in rows("FORMATS.md", "Faults"):
        names.update(re.findall(r"^`ga-bench: (?:\w+:? )*?([A-Z][a-z]\w*)(?: [A-Z]+)?`", cell))
        names.update(re.findall(r"^`ga-bench: (\w+)`$", cell))
    names.update(re.findall(r"`(?:refused )?([A-Z][a-z]\w*)`", section("FORMATS.md", "`debug FILE`")))
    heads = {"Need", "Outcome", "Stop", "Bit"}
    for heading in ["Needs", "Tries", "Stops", "Extended arithmetic"]:
        for cell in rows("CHIP.md", heading):
            if cell not in heads and not cell.startswith("--"):
                names.add(re.match(r"\w+", cell)[0] if heading == "Stops" else re.match(r"\w+", cell)[0].lower())
    return names


def glossary():
    """The words of the glossary, without what its entries have in brackets behind them."""
    with open(f"{ROOT}/docs/GLOSSARY.md", encoding="utf-8") as text:
        return set(re.findall(r"^- \*\*(.+?)\*\*", text.read(), flags=re.M))


def examples(text):
    """Yields each example of a text: its command, and what it has to print."""
    command, printed, goes_on = None, [], False
    for line in [*text.split("\n"), ""]:
        if line.startswith("  $ ") or not line.startswith("  "):
            if command:
                yield command, "".join(f"{it}\n" for it in printed)
            command, printed = (line[4:], []) if line.startswith("  $ ") else (None, [])
        elif command and goes_on:
            command += f"\n{line}"
        elif command and line.startswith("   "):
            printed[-1] += line[2:]
        elif command:
            printed.append(line[2:])
        goes_on = bool(command) and line.endswith(("|", "\\"))


def joined(printed):
    """A text, whose lines that begin with a blank are joined to the one before, as a long line of a text is."""
    return re.sub("\n(?= )", "", printed)


def key(args, data, printed):
    """What makes two examples the same."""
    return tuple(args), data, joined(printed)


def key_of_case(case):
    data = base64.b64decode(case["stdin_base64"]) if "stdin_base64" in case else case.get("stdin", "").encode()
    return key(case["args"], data.ljust(case.get("pad_to", 0), b" "), case["stdout"] + case["stderr"])


def key_of_example(command, printed):
    typed, args = re.fullmatch(r"(?s)(?:(.*)\|\s*)?ga-bench (.*)", command).groups()
    made = subprocess.run(["bash", "-c", typed or ":"], stdin=subprocess.DEVNULL, capture_output=True, timeout=SECONDS)
    return key(shlex.split(args), made.stdout, printed)


def explain(program, *names):
    ran = subprocess.run([program, "explain", *names], stdin=subprocess.DEVNULL, capture_output=True, timeout=SECONDS)
    if ran.returncode != 0 or ran.stderr:
        sys.exit(f"explain {' '.join(names)}: status {ran.returncode}, {ran.stderr.decode()}")
    return ran.stdout.decode()


def run_beside_source(program, command):
    """Returns what an example prints in a folder with the file my.source."""
    with tempfile.TemporaryDirectory() as folder:
        os.symlink(program, f"{folder}/ga-bench")
        with open(f"{folder}/my.source", "w", encoding="utf-8") as source:
            source.write("node 000 .\n")
        found = {**os.environ, "PATH": f"{folder}:{os.environ['PATH']}"}
        ran = subprocess.run(["bash", "-c", f"{command} 2>&1"], cwd=folder, env=found, capture_output=True, timeout=SECONDS)
    return ran.stdout.decode()


def faults_of_text(program, name, text, recorded, shown):
    """Returns the faults of a text. Its examples are added to those that are shown."""
    wrong = [line for line in text.split("\n") if len(line) > COLUMNS]
    if name != "BadToken" and text.count("\n") > LINES:
        wrong.append(f"more than {LINES} lines")
    if not text.startswith(f"{name}: "):
        wrong.append("doesn't begin with its name")
    has_name = set()
    for command, printed in examples(text):
        has_name.add(re.search(rf"\b{SHOWN.get(name, name)}\b", printed) is not None)
        if "my.source" in command:
            if joined(run_beside_source(program, command)) != joined(printed):
                wrong.append(f"prints something else: {command}")
            continue
        try:
            it = key_of_example(command, printed)
        except (AttributeError, subprocess.TimeoutExpired) as error:
            wrong.append(f"{command}: {error!r}")
            continue
        shown.add(it)
        if it not in recorded:
            wrong.append(f"no recorded case: {command}")
    if name not in UNRECORDED and True not in has_name:
        wrong.append("no example shows the name")
    if name not in UNRECORDED | HARMLESS and False not in has_name:
        wrong.append("no example is fixed")
    return wrong


def main():
    if len(sys.argv) != 2:
        sys.exit("usage: tests/explain.py PROGRAM")
    program = os.path.abspath(sys.argv[1])
    checks = []
    names, expected = explain(program).split(), names_of_pages() | TERMS | WORDS
    checks.append(("names that no page has", sorted(set(names) - expected)))
    checks.append(("names of the pages that are missing", sorted(expected - set(names))))
    checks.append(("names of the code that are missing", sorted(names_of_code() - set(names))))
    checks.append(("terms that the glossary lacks", sorted(TERMS - glossary())))
    headings = ["Faults of source text", "Faults of layout", "Faults of larger source text", WARNINGS]
    of_texts = {cell for heading in headings for cell in rows("FORMATS.md", heading)}
    of_texts = {cell.strip("`") for cell in of_texts if re.fullmatch(r"`[A-Z]\w+`", cell)}
    checks.append(("faults without a meaning", sorted(name for name in of_texts if not MEANINGS.get(name))))
    described = re.findall(r"^\| `(\w+)` \| (.*) \|$", section("FORMATS.md", WARNINGS), flags=re.M)
    checks.append(("warnings with another meaning", [name for name, meaning in described if MEANINGS.get(name) != meaning]))
    with open(CASES, encoding="utf-8") as lines:
        cases = [json.loads(line) for line in lines]
    recorded = {key_of_case(case): case["name"] for case in cases if case["args"][0] != "explain"}
    shown = set()
    for name in names:
        checks.append((f"explain {name}", faults_of_text(program, name, explain(program, name), recorded, shown)))
    checks.append(("cases that no text shows", sorted(recorded[it] for it in recorded if it not in shown)))
    for what, wrong in checks:
        if wrong:
            print(f"FAILED {what}", *wrong, sep="\n    ")
    failed = sum(bool(wrong) for _, wrong in checks)
    print(f"{len(checks) - failed} passed, {failed} failed")
    return 1 if failed else 0


if __name__ == "__main__":
    sys.exit(main())
