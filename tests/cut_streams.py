"""Cuts the boot streams of the recorded cases into pieces: python3 tests/cut_streams.py CUTTER FILE..

CUTTER is the program of the crate ga_cut_streams. For each case of a FILE (as tests/run_cases.py has them) that writes a
boot stream, it must report that each cut leaves the frames and the chip alike. The last line that is printed is
'cuts: N passed, M failed', a stream each, and the exit status is 0 if M is 0.
"""
import json
import subprocess
import sys
from concurrent.futures import ThreadPoolExecutor

SECONDS = 600


def streams(files):
    """Yields the name of each case that writes a boot stream, with the first node of its routes and the words."""
    for file in files:
        with open(file, encoding="utf-8") as cases:
            for case in map(json.loads, cases):
                if case["args"][:1] == ["boot"] and case["status"] == 0:
                    lines = case["stdout"].splitlines()
                    words = [word for line in lines if not line.startswith(("load ", "start ")) for word in line.split()]
                    yield case["name"], case["args"][1][:3], words


def cut(cutter, stream):
    """Returns the program's line for a stream, if it isn't the expected one."""
    name, node, words = stream
    try:
        ran = subprocess.run([cutter, node, *words], capture_output=True, timeout=SECONDS, text=True)
    except subprocess.TimeoutExpired:
        return f"{name}: took over {SECONDS} seconds"
    # behind each word at once, in two behind each word except the last, and eight times at random
    wanted = [f"alike {len(words) + 8}, {late}\n" for late in ("at rest", "without rest")]
    right = ran.returncode == 0 and ran.stdout in wanted and not ran.stderr
    return None if right else f"{name}: status {ran.returncode}, {ran.stdout!r}, {ran.stderr!r}"


def main(cutter, *files):
    with ThreadPoolExecutor() as pool:
        answers = list(pool.map(lambda stream: cut(cutter, stream), streams(files)))
    failed = [answer for answer in answers if answer is not None] if answers else ["no case writes a boot stream"]
    print("\n".join(failed), end="\n" if failed else "")
    print(f"cuts: {max(0, len(answers) - len(failed))} passed, {len(failed)} failed")
    return 1 if failed else 0


if __name__ == "__main__":
    sys.exit(main(*sys.argv[1:]))
