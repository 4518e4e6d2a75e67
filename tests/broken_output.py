"""Runs a program whose output can't be written: python3 tests/broken_output.py PROGRAM

For each subcommand a recorded case that has output is run, and a conversation at the prompt,
- with a standard output that is full, as /dev/full is;
- with a pipe as standard output that nobody reads;
- with a pipe from which a part is read and which is closed then, if the output is longer than a pipe holds.
Each ends with `ga-bench: write` and status 1, and what was read is a prefix of the output. No signal ends the
program. The last line that is printed is 'output: N passed, M failed', and the exit status is 0 if M is 0.
"""
import glob
import json
import os
import subprocess
import sys

from vcd import FOR_EVER

ROOT = os.path.dirname(os.path.dirname(os.path.abspath(__file__)))
SECONDS = 60
FAULT = (1, b"ga-bench: write\n")
# A pipe holds 65,536 bytes, so this output doesn't fit. These numbers of its bytes are read.
LONG = (["debug"], b"profile 2\nplace\nnode 000 .\ngo\n" + b"mem 000\n" * 2000)
FILE = f"{ROOT}/examples/two_nodes/two_nodes.transcript"
# A waveform is written as it is made.
LONG_WAVEFORM = (["trace", "--turns", "350"], FOR_EVER.encode())
TALK = (["debug", FILE], b"turn 4\nback\n")
LONG_TALK = (["debug", FILE], b"mem 708\n" * 2000)
PARTS = [1, 100, 5000, 70000]


def cases():
    """For each subcommand the first recorded case that has output."""
    found = {}
    for file in sorted(glob.glob(f"{ROOT}/tests/cases/*.jsonl")):
        with open(file, encoding="utf-8") as lines:
            for case in map(json.loads, lines):
                if case.get("status") == 0 and case.get("stdout") and "stdin" in case:
                    found.setdefault(case["args"][0], (case["args"], case["stdin"].encode()))
    return [*found.values(), (["--help"], b""), (["--version"], b""), LONG, LONG_WAVEFORM, TALK]


def ended(program, args, data, output):
    """The status of a run and its standard error, with this file as standard output."""
    ran = subprocess.run([program, *args], input=data, stdout=output, stderr=subprocess.PIPE, timeout=SECONDS)
    return ran.returncode, ran.stderr


def full(program, args, data):
    with open("/dev/full", "wb") as output:
        return ended(program, args, data, output)


def unread(program, args, data):
    reader, writer = os.pipe()
    os.close(reader)
    with open(writer, "wb") as output:
        return ended(program, args, data, output)


def front(program, args, data, most):
    """The status, standard error and the part that was read of an output of which only a part is read."""
    child = subprocess.Popen([program, *args], stdin=subprocess.PIPE, stdout=subprocess.PIPE, stderr=subprocess.PIPE)
    child.stdin.write(data)
    child.stdin.close()
    part = child.stdout.read(most)
    child.stdout.close()
    error = child.stderr.read()
    return (child.wait(SECONDS), error), part


def main(program):
    program = os.path.abspath(program)
    failed, passed = [], 0
    for args, data in cases():
        for run in (full, unread):
            told = run(program, args, data)
            passed += told == FAULT
            if told != FAULT:
                failed.append(f"{args} to an output that is {run.__name__}: {told}")
    for args, data in (LONG, LONG_WAVEFORM, LONG_TALK):
        whole = subprocess.run([program, *args], input=data, capture_output=True, timeout=SECONDS).stdout
        for most in PARTS:
            told, part = front(program, args, data, most)
            if told == FAULT and len(part) == most and whole.startswith(part):
                passed += 1
            else:
                failed.append(f"{args} of which {most} bytes are read: {told}, {len(part)} bytes")
    print("\n".join(failed), end="\n" if failed else "")
    print(f"output: {passed} passed, {len(failed)} failed")
    return 1 if failed or not passed else 0


if __name__ == "__main__":
    sys.exit(main(*sys.argv[1:]))
