#!/usr/bin/env python3
"""Compares the profiles of the worked programs with those that follow from their tries: python3 tests/profiled.py PROGRAM

Each source text of examples/ is placed, runs for at most TURNS turns, and is profiled from its last node, its first node and
its turn 10 on, as text and as JSON. tests/profiles.py works both out from the replies of `record`. The turns of the path are all
turns of the window, and no node has more of them. The last line that is printed is 'profiled: N passed, M failed', a profile
each, and the exit status is 0 if M is 0.
"""
import glob
import json
import os
import subprocess
import sys

import answers
from profiles import Run, profile_json, profile_of, profile_text
from sessions import text_of

ROOT = os.path.dirname(os.path.dirname(os.path.abspath(__file__)))
TURNS = 400
STARTS = ["last", "first", "10"]


def output(program, args, text):
    return subprocess.run([program, *args], input=text.encode(), capture_output=True, timeout=120).stdout.decode()


def has_sums(numbers):
    """Whether each turn of a window is credited to one node of the path, and no turn twice to a node. The turns of a node that never
    started, but runs what others send it, are in its lines alone."""
    turns = max(0, numbers["window"]["end"] - numbers["window"]["first"])
    nodes, names = numbers["nodes"], {node["name"] for node in numbers["nodes"]}
    others = sum(line["path"] for line in numbers["lines"] if line["name"] not in names)
    return sum(node["path"] for node in nodes) + others == turns and all(sum(node["turns"].values()) <= turns for node in nodes)


def main():
    program, passed, failed = os.path.abspath(sys.argv[1]), 0, 0

    def session(head, commands):
        text = output(program, ["record"], head + text_of(commands, "> "))
        return [it.reply for it in answers.transcript_of(text).exchanges]

    for file in sorted(glob.glob(f"{ROOT}/examples/*/*.source")):
        with open(file, encoding="utf-8") as it:
            text = it.read()
        args = ["profile", "--place", "--turns", str(TURNS)]
        run = Run(session, *answers.session_in(answers.Job(args), text), TURNS)
        for start in STARTS:
            profile = profile_of(run, start)
            for options, wanted in (([], profile_text(profile)), (["--json"], profile_json(profile))):
                came = output(program, [*args, "--from", start, *options], text)
                is_right = came == wanted and (not options or has_sums(json.loads(came)))
                passed, failed = passed + is_right, failed + (not is_right)
                if not is_right:
                    print(f"FAILED {os.path.relpath(file, ROOT)} from {start} {options}")
    print(f"profiled: {passed} passed, {failed} failed")
    return 1 if failed or not passed else 0


if __name__ == "__main__":
    sys.exit(main())
