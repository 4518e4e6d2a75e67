#!/usr/bin/env python3
"""Compares the listings with counts of the worked programs with those that follow from their tries:
python3 tests/counted.py PROGRAM

Each source text of examples/ is placed, and runs for at most TURNS turns. tests/counts.py works the same text out from the
replies of `record`. The last line that is printed is 'counted: N passed, M failed', a listing each, and the exit status is 0
if M is 0.
"""
import glob
import os
import sys
from concurrent.futures import ThreadPoolExecutor

import answers
from assembler import images_of
from counts import counted_list
from profiled import ROOT, TURNS, output
from profiles import Run
from sessions import text_of


def model_of(program, text):
    """The listing of a placed source text, by the tries of its run."""

    def session(head, commands):
        replies = output(program, ["record"], head + text_of(commands, "> "))
        return [it.reply for it in answers.transcript_of(replies).exchanges]

    head, commands = answers.session_in(answers.Job(["list", "--counts", "--place"]), text)
    return counted_list(images_of(text), Run(session, head, commands, TURNS).look())


def is_same(program, file):
    with open(file, encoding="utf-8") as it:
        text = it.read()
    return output(program, ["list", "--counts", "--place", "--turns", str(TURNS)], text) == model_of(program, text)


def main():
    program, files = os.path.abspath(sys.argv[1]), sorted(glob.glob(f"{ROOT}/examples/*/*.source"))
    with ThreadPoolExecutor() as pool:
        found = [*pool.map(lambda file: is_same(program, file), files)]
    failed = [os.path.relpath(file, ROOT) for file, same in zip(files, found) if not same]
    print("".join(f"FAILED {name}\n" for name in failed), end="")
    print(f"counted: {len(files) - len(failed)} passed, {len(failed)} failed")
    return 1 if failed or not files else 0


if __name__ == "__main__":
    sys.exit(main())
