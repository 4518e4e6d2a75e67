"""Runs recorded cases through a program: python3 tests/run_cases.py PROGRAM FILE..

Each line of a FILE is one case, a JSON object with the keys
  name            of the case
  args            the program's arguments, a list of strings
  stdin           its standard input, as text (in UTF-8); none: empty
  stdin_base64    its standard input in base64, if it is no text
  stdin_file      a file that holds its standard input; its path is from the top of the repository
  pad_to          a number of bytes: the input is filled up with spaces to this length
  status          the expected exit status
  stdout, stderr  what it must write there, as text, to the byte
  stdout_file     a file that holds what it must write to standard output
A status or output that a case leaves out is not compared. The program runs with a stack of 128 KiB. The last line that is printed is
'cases: N passed, M failed', and the exit status is 0 if M is 0.
"""
import base64
import json
import os
import subprocess
import sys
import tempfile
from concurrent.futures import ThreadPoolExecutor

SECONDS = 60
ROOT = os.path.dirname(os.path.dirname(os.path.abspath(__file__)))
# The program has to run with the stack that docs/FORMATS.md names, in KiB.
WITH_STACK = ["bash", "-c", 'ulimit -S -s 128 && exec "$0" "$@"']
KEYS = {"name", "args", "stdin", "stdin_base64", "stdin_file", "pad_to", "status", "stdout", "stdout_file", "stderr"}


def shortened(value):
    text = repr(value)
    return text if len(text) <= 300 else f"{text[:200]} .. {text[-80:]} ({len(value)} bytes)"


def stream(case, name):
    """Returns the bytes of a stream that the case gives: as text, in base64, or as a file."""
    if f"{name}_file" in case:
        with open(f"{ROOT}/{case[f'{name}_file']}", "rb") as it:
            return it.read()
    if f"{name}_base64" in case:
        return base64.b64decode(case[f"{name}_base64"])
    return case[name].encode() if name in case else None


def differences(program, folder, line):
    """Returns the name of the case in this line, and its differences."""
    try:
        case = json.loads(line)
        name, command = case["name"], [*WITH_STACK, program, *case["args"]]
        data = (stream(case, "stdin") or b"").ljust(case.get("pad_to", 0), b" ")
        wanted = {"status": case.get("status"), "stdout": stream(case, "stdout"), "stderr": stream(case, "stderr")}
        wanted = {key: value for key, value in wanted.items() if value is not None}
        if not KEYS >= {*case} or not wanted:
            return name, ["the case has an unknown key, or wants nothing"]
    except (ValueError, KeyError, TypeError, AttributeError, OSError) as error:
        return line[:60], [f"this is no case: {error!r}"]
    try:
        ran = subprocess.run(command, input=data, capture_output=True, cwd=folder, timeout=SECONDS)
    except (OSError, subprocess.TimeoutExpired) as error:
        return name, [shortened(str(error))]
    came = {"status": ran.returncode, "stdout": ran.stdout, "stderr": ran.stderr}
    return name, [f"{key}: wanted {shortened(wanted[key])}, came {shortened(came[key])}" for key in wanted if wanted[key] != came[key]]


def main(program, *files):
    passed = failed = 0
    with tempfile.TemporaryDirectory() as folder, ThreadPoolExecutor(os.cpu_count()) as pool:
        for file in files:
            with open(file, encoding="utf-8") as text:
                lines = [line for line in text.read().split("\n") if line.strip()]
            for name, why in pool.map(lambda line: differences(os.path.abspath(program), folder, line), lines):
                passed, failed = passed + (not why), failed + bool(why)
                if why:
                    print(f"FAILED {file}: {name}", *why, sep="\n    ")
            print(f"{file}: {len(lines)} cases")
    if not passed + failed:
        failed = 1
        print("no case was found")
    print(f"cases: {passed} passed, {failed} failed")
    return 1 if failed else 0


if __name__ == "__main__":
    if len(sys.argv) < 3:
        sys.exit(__doc__)
    sys.exit(main(*sys.argv[1:]))
