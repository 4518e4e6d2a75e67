"""Runs the tests of the program, side by side, for the command ./test: python3 tests/runner.py PROGRAM [OPTION] [NAME..]

  --list    lists the tests
  --whole   at full size, with the programs of tests that a build of all crates leaves, if they are there

Each test prints a line when it ends: its name, how many checks passed, failed or were skipped, and its seconds. The last line of
a test's own output is `N passed, M failed`, and a line `skipped: needs NAME` is a check that needs more than python3. The output
is kept in out/tests/NAME.log. The last line is `tests: N passed, M failed, K skipped`, and the status 0 if nothing failed.
"""
import argparse
import functools
import glob
import os
import re
import shutil
import subprocess
import sys
import tempfile
import time
from concurrent.futures import ThreadPoolExecutor, as_completed
from typing import NamedTuple

ROOT = os.path.dirname(os.path.dirname(os.path.abspath(__file__)))
COUNTS = re.compile(r"\b(\d+) passed, (\d+) failed\b")
SKIPPED = re.compile(r"^(?:.*: )?skipped: needs .*$", re.M)
FAULT = re.compile(r"FAILED|failed|Traceback")
SECONDS = 3600
MOST_SHOWN = 20
CASES = sorted(glob.glob(f"{ROOT}/tests/cases/*.jsonl"))
BOOTS = [f"{ROOT}/tests/cases/{name}.jsonl" for name in ("boot", "trees_boot")]
CUT_STREAMS, REFUSED_CALLS = (f"{ROOT}/crates/{name}/out/{name}" for name in ("ga_cut_streams", "ga_refused_calls"))


class Test(NamedTuple):
    """A test: what it looks at, and its command. `small` and `whole` are the arguments that it has at each size."""

    name: str
    about: str
    command: list
    small: list = []
    whole: list = []
    # what must be on PATH
    needs: tuple = ()


class Result(NamedTuple):
    passed: int
    failed: int
    skipped: int
    seconds: float
    # lines to show
    lines: list


def script(name, about, *arguments, **more):
    """A test that is a script of tests/, given the program and these arguments."""
    file = f"{ROOT}/tests/{more.pop('file', name)}"
    start = [sys.executable, f"{file}.py"] if os.path.exists(f"{file}.py") else [file]
    return Test(name, about, [*start, "PROGRAM", *arguments], **more)


def check(name, about, file):
    """A test of the sources, which takes no program."""
    start = [sys.executable] if file.endswith(".py") else []
    return Test(name, about, [*start, f"{ROOT}/{file}"])


# Those that take longest come first.
TESTS = [
    script("kills", "installations and removals that are killed", file="try_kills", small=["4", "new", "there"], whole=["52", "new", "there"]),
    script("kills_deep", "the same below a new folder, and through a link", file="try_kills",
           small=["4", "deep", "linked"], whole=["52", "deep", "linked"]),
    script("install", "installing and uninstalling", file="try_install"),
    script("prompt", "sessions at the prompt"),
    script("profiled", "profiles of the worked programs, beside what follows from tries"),
    script("long_output", "recordings up to the most that is written"),
    script("saves", "calls that write a file and are killed", small=["--kills", "20"], whole=["--kills", "100"]),
    script("fuzz", "recorded inputs, changed at random", "--seed", "1", small=["--runs", "3000"], whole=["--seconds", "60"]),
    script("memory", "runs with each allocation refused in turn", file="refuse_memory", small=["--every", "20"],
           whole=[REFUSED_CALLS], needs=(os.environ.get("CC", "cc"),)),
    script("cut_texts", "each prefix of some texts", small=["--every", "5"]),
    script("release", "the launcher, with releases of all kinds", file="try_release"),
    script("package", "the Debian package", file="try_package"),
    script("cases", "recorded cases, to the byte", *CASES, file="run_cases"),
    script("vcd", "waveforms, turn by turn beside what tries show"),
    script("counted", "listings with counts, beside what follows from tries"),
    script("workers", "runs of several workers that come to rest"),
    script("turns", "chips by turns, and by tries one after the other"),
    script("mutants", "wrong programs, which `fuzz` must fail", "--seed", "1", file="fuzz_mutants"),
    Test("cuts", "boot streams in pieces", [sys.executable, f"{ROOT}/tests/cut_streams.py", CUT_STREAMS, *BOOTS]),
    script("schedules", "boots of routes and trees in random orders", *BOOTS),
    script("races", "verdicts on races, and the witness of each race"),
    check("race_pieces", "verdicts of streams in pieces, which a test of ga_call_tests has, by all schedules", "tests/race_pieces.py"),
    script("race_model", "verdicts on races, beside all schedules of random small programs", small=["--programs", "300"], whole=["--programs", "3000"]),
    script("report_page", "pages of report, read, and shown by a browser"),
    script("broken_output", "output that can't be written"),
    script("pages", "the commands in the pages, with their output"),
    script("examples", "the worked programs, also with other data"),
    script("terminal", "runs at a terminal"),
    script("files", "errors, warnings and refusals of a FILE, by each subcommand", whole=["--whole"]),
    script("faults_of_texts", "all errors of a text, what helps, as JSON, and in listings", whole=["--whole"]),
    script("mistakes", "what lint reports of small programs, and code that never runs", whole=["--whole"]),
    script("includes", "lines that include a file", whole=["--whole"]),
    script("transcripts", "check and record of several transcripts, and all that read one which names its source", whole=["--whole"]),
    script("explain", "the texts of explain"),
    script("commands", "the commands in help and pages"),
    script("manual", "the manual page and the completions"),
    script("editors", "the files for Vim and VS Code"),
    check("definitions", "definitions are where they belong, and name no constant of the code", "scripts/definitions"),
    check("cited", "each lemma and definition is cited", "scripts/cited"),
    check("shape", "no line and no function is too long", "scripts/shape"),
    check("links", "the links of the pages lead somewhere", "tests/links.py"),
    check("words", "pages, help and comments use the project's words", "tests/words.py"),
    Test("edits", "each wrong body changes places that are there", [sys.executable, f"{ROOT}/scripts/wrong_bodies", "--check"]),
]


@functools.cache
def is_built():
    """Whether the programs of tests are there, and no source has changed since they were built."""
    built = [CUT_STREAMS, REFUSED_CALLS]
    sources = [file for part in ("src", "specs", "proofs") for file in glob.glob(f"{ROOT}/crates/*/{part}/**", recursive=True)]
    return all(map(os.path.exists, built)) and min(map(os.path.getmtime, built)) >= max(map(os.path.getmtime, sources))


def run(test, program, is_whole):
    """Runs a test, keeps its output, and counts its checks. One whose last line has no counts is a check itself."""
    began = time.time()
    words = [program if it == "PROGRAM" else it for it in test.command]
    words += test.whole if is_whole else test.small
    missing = [it for it in test.needs if not shutil.which(it)]
    if {CUT_STREAMS, REFUSED_CALLS} & {*words} and not is_built():
        missing.append("the programs of tests, which ./test --prove builds")
    if missing:
        return Result(0, 0, 1, 0, [f"skipped: needs {missing[0]}"])
    log = f"{ROOT}/out/tests/{test.name}.log"
    with open(log, "wb") as file:
        try:
            status = subprocess.run(words, cwd=ROOT, stdin=subprocess.DEVNULL, stdout=file, stderr=subprocess.STDOUT, timeout=SECONDS).returncode
        except (OSError, subprocess.TimeoutExpired) as error:
            file.write(f"FAILED {error}\n".encode())
            status = -1
    with open(log, encoding="utf-8", errors="backslashreplace") as file:
        lines = file.read().splitlines()
    found = COUNTS.search(lines[-1]) if lines else None
    passed, failed = map(int, found.groups()) if found else (int(status == 0), int(status != 0))
    failed += status != 0 and failed == 0
    skipped = [it for it in lines if SKIPPED.match(it)]
    first = next((at for at, line in enumerate(lines) if FAULT.match(line)), 0)
    shown = lines[first:][:MOST_SHOWN] + [f"see {os.path.relpath(log, ROOT)}"] if failed else skipped
    return Result(passed, failed, len(skipped), time.time() - began, shown)


def told(test, result):
    """The lines that report the result of a test."""
    counts = [(result.passed, "passed"), (result.failed, "failed"), (result.skipped, "skipped")]
    text = ", ".join(f"{count} {what}" for count, what in counts if count) or "no check"
    return "\n".join([f"{test.name:<16} {text:<32} {result.seconds:6.1f} s", *(f"    {line}" for line in result.lines)])


def run_all(tests, program, is_whole):
    """Runs tests side by side on the processors of this process, with a copy of the program, and prints each result as it comes."""
    shutil.rmtree(f"{ROOT}/out/tests", ignore_errors=True)
    os.makedirs(f"{ROOT}/out/tests")
    results = []
    jobs = len(os.sched_getaffinity(0))
    with tempfile.TemporaryDirectory() as folder, ThreadPoolExecutor(jobs) as pool:
        copy = shutil.copy(program, f"{folder}/ga-bench")
        running = {pool.submit(run, test, copy, is_whole): test for test in tests}
        for ended in as_completed(running):
            results.append(ended.result())
            print(told(running[ended], results[-1]), flush=True)
    return results


def main():
    options = argparse.ArgumentParser()
    options.add_argument("program")
    options.add_argument("--list", action="store_true")
    options.add_argument("--whole", action="store_true")
    options.add_argument("names", nargs="*")
    given = options.parse_intermixed_args()
    if given.list:
        print("\n".join(f"{test.name:<16} {test.about}" for test in TESTS))
        return 0
    tests = [test for test in TESTS if not given.names or test.name in given.names]
    results = run_all(tests, given.program, given.whole)
    passed, failed, skipped = (sum(result[at] for result in results) for at in range(3))
    print(f"tests: {passed} passed, {failed} failed, {skipped} skipped")
    return 1 if failed or not passed + skipped else 0


if __name__ == "__main__":
    sys.exit(main())
