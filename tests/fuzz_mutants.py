"""Shows that tests/fuzz.py fails wrong programs: python3 tests/fuzz_mutants.py PROGRAM [--seed S] [--workers N]

A mutant answers as PROGRAM does, but changes all its answers in one way, or those of one subcommand. It has to fail one
of the first INPUTS inputs of tests/fuzz.py, and PROGRAM has to pass that input. One mutant is the program `true`. The
last line that is printed is 'mutants: N passed, M failed', a mutant each, and the exit status is 0 if M is 0.
"""
import argparse
import multiprocessing
import os
import re
import shutil
import sys

from answers import CASES, SUBCOMMANDS, Answer, wrong
from fuzz import Runner, folder_of_files, input_of

INPUTS = 5000


# Each change makes another answer of the right one. `run` runs the program.


def always(fault):
    def change(run, args, data, answer):
        return Answer(1, "", f"ga-bench: {fault}\n")

    change.__name__ = f"always {fault}"
    return change


def empty(run, args, data, answer):
    return Answer(0, "", "")


def accepts_all(run, args, data, answer):
    return Answer(0, "", "") if answer.status == 1 else answer


def refuses_2000_bytes(run, args, data, answer):
    return Answer(1, "", "ga-bench: input TooLong\n") if len(data) > 2000 and answer.status == 0 else answer


def lacks_last_line(run, args, data, answer):
    return answer._replace(output="".join(answer.output.splitlines(True)[:-1]))


def swaps_last_lines(run, args, data, answer):
    lines = answer.output.splitlines(True)
    return answer._replace(output="".join(lines[:-2] + lines[:-3:-1]))


def other_byte(run, args, data, answer):
    """The letter or digit in the middle of them is another one."""
    places = [found.start() for found in re.finditer("[0-9A-Za-z]", answer.output)]
    if not places:
        return answer
    at = places[len(places) // 2]
    other = "1" if answer.output[at] == "0" else "0"
    return answer._replace(output=answer.output[:at] + other + answer.output[at + 1 :])


def lacks_last_line_of_fault(run, args, data, answer):
    return answer._replace(error="".join(answer.error.splitlines(True)[:-1]))


def next_column(run, args, data, answer):
    """Each fault is reported one column further on."""
    return answer._replace(error=re.sub("(?<=[0-9]:)[0-9]+(?=:? )", lambda it: str(int(it[0]) + 1), answer.error))


def never_denies(run, args, data, answer):
    return answer._replace(status=0) if answer.output else answer


def warns_of_the_expansion(run, args, data, answer):
    """The lines and columns are those of the expansion."""
    expanded = run(["expand"], data)
    return run([it for it in args if it != "/dev/stdin"], expanded.output.encode()) if expanded.status == 0 else answer


def lacks_hints(run, args, data, answer):
    """No fault of FILE has anything that may help."""
    return answer._replace(error=re.sub("^(.*?: error: .*?); .*", r"\1", answer.error, flags=re.M))


def lists_no_warnings(run, args, data, answer):
    return answer._replace(output=answer.output.split("\n\n")[0] + "\n") if "\n\n" in answer.output else answer


def writes_no_json(run, args, data, answer):
    return run([it for it in args if it != "--json"], data)


def lacks_hints_in_json(run, args, data, answer):
    return answer._replace(output=re.sub('"hint":"[^"]*"', '"hint":null', answer.output))


def answers_as_asm(run, args, data, answer):
    return run(["asm"], data)


def writes_its_input(run, args, data, answer):
    return answer._replace(output=data.decode()) if answer.status == 0 else answer


def finds_all_the_same(run, args, data, answer):
    """Whatever the results of a session, they are those that the lines state."""
    is_judged = answer.status == 0 or re.match("ga-bench: (check|replay) differs ", answer.error)
    mark = b"> " if args[0] == "check" else b" = "
    count = sum(mark in line for line in data.partition(b"\ngo\n")[2].split(b"\n"))
    return Answer(0, f"same {count}\n", "") if is_judged else answer


# Whose answers each change changes: those of a subcommand, or all.
LONG = sorted({case["args"][0] for case in CASES if case.get("stdout", "").count("\n") > 1} & {*SUBCOMMANDS})
CHANGES = {
    empty: ["all", *SUBCOMMANDS],
    lacks_last_line: ["all", *SUBCOMMANDS],
    other_byte: ["all", *SUBCOMMANDS],
    swaps_last_lines: ["all", *LONG],
    accepts_all: ["all"],
    refuses_2000_bytes: ["all"],
    next_column: ["all"],
    lacks_last_line_of_fault: ["expand", "list", "lint", "check", "record"],
    lacks_hints: ["all"],
    lists_no_warnings: ["list"],
    writes_no_json: ["lint"],
    lacks_hints_in_json: ["lint"],
    answers_as_asm: ["list"],
    never_denies: ["lint"],
    warns_of_the_expansion: ["lint"],
    writes_its_input: ["expand", "record"],
    finds_all_the_same: ["check", "replay"],
    always("input TooLong"): ["all"],
    always("input BadText"): ["all"],
    always("source 1:1 NoNode"): ["all", "asm", "list", "boot", "run"],
    always("source 1:9 Empty"): ["all"],
    always("words Empty"): ["all", "dis", "one"],
    always("route BadRoute"): ["all"],
    always("replay NoGo"): ["all", "debug", "replay", "check", "record"],
}
MUTANTS = [("all", None), *((name, change) for change, names in CHANGES.items() for name in names)]


class Mutant:
    """Runs a program, and changes its answers."""

    def __init__(self, runner, name, change):
        self.run, self.name, self.change = runner.answer, name, change

    def answer(self, args, data):
        answer = self.run(args, data)
        return self.change(self.run, args, data, answer) if self.name in ("all", *args[:1]) else answer


def failing_input(program, number, seed):
    """The first input that the mutant of this number fails, or None. An input that the program fails doesn't count."""
    runner = Runner(program)
    name, change = MUTANTS[number]
    mutant = Mutant(runner, name, change) if change else Runner(shutil.which("true"))
    for at in range(INPUTS):
        args, data = input_of(seed, at)
        if name in ("all", *args[:1]) and wrong(mutant, args, data) is not None:
            return at if wrong(runner, args, data) is None else None
    return None


def main():
    parser = argparse.ArgumentParser()
    parser.add_argument("program")
    parser.add_argument("--seed", type=int, default=1)
    parser.add_argument("--workers", type=int, default=os.cpu_count() or 1)
    given = parser.parse_args()
    runs = [(os.path.abspath(given.program), number, given.seed) for number in range(len(MUTANTS))]
    with folder_of_files() as folder, multiprocessing.Pool(given.workers, os.chdir, [folder]) as pool:
        found = pool.starmap(failing_input, runs, chunksize=1)
    for (name, change), at in zip(MUTANTS, found):
        if at is None:
            print(f"mutants: no input of seed {given.seed} fails '{name} {change.__name__ if change else 'true'}'")
    failed = found.count(None)
    print(f"mutants: {len(found) - failed} passed, {failed} failed")
    return 1 if failed else 0


if __name__ == "__main__":
    sys.exit(main())
