"""Runs a program with each prefix of some texts: python3 tests/cut_texts.py PROGRAM [--every N]

The texts are those of recorded cases, one of each file and subcommand. tests/answers.py judges each answer. The last
line that is printed is 'cut texts: N passed, M failed', a prefix each, and the exit status is 0 if M is 0. With --every each
Nth prefix is run.
"""
import argparse
import glob
import json
import os
import sys
from concurrent.futures import ProcessPoolExecutor
from functools import partial

import answers
from fuzz import Runner
from run_cases import stream

MOST = 800


def texts_of(file):
    """For each subcommand the command line and the text of the accepted case with the most bytes, up to MOST."""
    longest = {}
    with open(file, encoding="utf-8") as lines:
        for case in map(json.loads, lines):
            args, data = case["args"], stream(case, "stdin") or b""
            if case["status"] == 0 and args[0] in answers.SUBCOMMANDS and len(data) <= MOST:
                longest[args[0]] = max((args, data), longest.get(args[0], (args, data)), key=lambda run: len(run[1]))
    return longest.values()


def run_prefixes(program, every, args, data):
    """How many runs with a prefix of these bytes were right, and the faults of the others."""
    runner = Runner(program)
    told = [(length, answers.wrong(runner, args, data[:length])) for length in range(len(data) % every, len(data) + 1, every)]
    wrong = [f"FAILED {args} with {length} bytes: {what}" for length, what in told if what is not None]
    if runner.answer(args, data)[0] != 0:
        wrong.append(f"FAILED {args}: the whole text is refused")
    return len(told) - len(wrong), wrong


def main(program, every):
    runs = [run for file in sorted(glob.glob(f"{answers.ROOT}/tests/cases/*.jsonl")) for run in texts_of(file)]
    passed, failed = 0, 0
    with ProcessPoolExecutor() as pool:
        for right, wrong in pool.map(partial(run_prefixes, program, every), *zip(*runs)):
            print("\n".join(wrong), end="\n" if wrong else "")
            passed, failed = passed + right, failed + len(wrong)
    print(f"cut texts: {passed} passed, {failed} failed")
    return 1 if failed else 0


if __name__ == "__main__":
    options = argparse.ArgumentParser()
    options.add_argument("program", type=os.path.abspath)
    options.add_argument("--every", type=int, default=1)
    sys.exit(main(**vars(options.parse_args())))
