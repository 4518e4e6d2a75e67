"""What the test scripts share: their command line, counts of checks, runs of the program, files in a temporary folder.

A script has a function for each kind of checks, whose doc string has what they check. Each gets a `Test` with a new
folder:

    def words(test):
        "The words of a node."
        test.write("one.source", "node 000 .")
        test.expect("asm one.source", test.run(["asm", "one.source"])[0], 0)

    if __name__ == "__main__":
        main(__doc__, words, files)

    python3 tests/NAME.py PROGRAM [--whole] [KIND..]

KIND is the name of a function; by default all are called. Random and large parts are small, unless `--whole` is given.
Each check that fails is printed at once. The last line is `N passed, M failed`, or if something that a check needs
wasn't there, `N passed, M failed, K skipped`. The exit status is 0 if nothing failed and something passed, and 2 if the
command line is wrong.
"""
import os
import re
import subprocess
import sys
import tempfile
import traceback

# No run of the program may take longer.
SECONDS = 120


def drawn(text):
    """A text as it is shown: without what a terminal would obey or not draw."""
    return re.sub("[\0-\x08\x0b-\x1f\x7f-\x9f\u061c\u200b-\u200f\u2028-\u202e\u2066-\u2069\ufeff]", " ", text)


def excerpts(values, before=100, most=500):
    """Values as they are printed, from a little before where they begin to differ."""
    shown = [*map(repr, values)]
    start = max(0, len(os.path.commonprefix(shown)) - before)
    return [".. " * (start > 0) + it[start : start + most] + " .." * (len(it) > start + most) for it in shown]


class Test:
    """The checks of a script on a program. `kind` is the kind of checks that is being made, and `folder` its folder."""

    def __init__(self, program, is_whole):
        self.program, self.is_whole = os.path.abspath(program), is_whole
        self.kind, self.folder = "", ""
        self.passed = self.failed = self.skipped = 0

    def expect(self, what, came, wanted):
        """A check: what came is what was wanted."""
        if came == wanted:
            self.passed += 1
            return
        shown, other = excerpts([wanted, came])
        self.fail(f"{what}: wanted {shown}, came {other}")

    def holds(self, what, is_so):
        """A check: something is so."""
        self.expect(what, bool(is_so), True)

    def fail(self, what):
        self.failed += 1
        print(f"FAILED {self.kind}: {what}", flush=True)

    def skip(self, what, needs):
        """Counts a check that can't be made here, since it needs something that isn't there."""
        self.skipped += 1
        print(f"{self.kind}: {what}: skipped: needs {needs}", flush=True)

    def size(self, small, whole):
        """How much is tested: more with `--whole`."""
        return whole if self.is_whole else small

    def run(self, arguments, data=b"", **more):
        """A run of the program in the folder: its status, its output, and its text on standard error. The status is
        None if it took too long."""
        options = {"cwd": self.folder, "stdout": subprocess.PIPE, "stderr": subprocess.PIPE, "timeout": SECONDS, **more}
        data = data.encode() if isinstance(data, str) else data
        try:
            ran = subprocess.run([self.program, *arguments], input=data, check=False, **options)
        except subprocess.TimeoutExpired:
            return None, "", f"no answer in {options['timeout']} s"
        return ran.returncode, *((it or b"").decode(errors="backslashreplace") for it in (ran.stdout, ran.stderr))

    def write(self, name, text):
        """Writes a file in the folder, or elsewhere if its name begins with `/`, and returns its name."""
        path = os.path.join(self.folder, name)
        os.makedirs(os.path.dirname(path), exist_ok=True)
        with open(path, "wb") as file:
            file.write(text.encode() if isinstance(text, str) else text)
        return name

    def read(self, name):
        """The text of a file, to the byte."""
        with open(os.path.join(self.folder, name), encoding="utf-8", newline="") as file:
            return file.read()

    def make(self, kind):
        """Makes the checks of a kind. One that ends by an exception has failed, and the others are made."""
        with tempfile.TemporaryDirectory() as folder:
            self.kind, self.folder = kind.__name__, os.path.realpath(folder)
            try:
                kind(self)
            except Exception:  # whatever it is, the next kind is tested
                self.fail(f"an exception ended it\n{traceback.format_exc()}")


def main(usage, *kinds):
    """Makes the checks that the command line asks for, and ends the script."""
    words = [it for it in sys.argv[1:] if it != "--whole"]
    known = {it.__name__: it for it in kinds}
    if not words or words[0].startswith("-") or not {*words[1:]} <= {*known}:
        print(usage, *(f"{name}: {it.__doc__}" for name, it in known.items()), sep="\n", file=sys.stderr)
        sys.exit(2)
    test = Test(words[0], "--whole" in sys.argv)
    for name in words[1:] or known:
        test.make(known[name])
    print(f"{test.passed} passed, {test.failed} failed" + f", {test.skipped} skipped" * (test.skipped > 0))
    sys.exit(0 if test.passed and not test.failed else 1)
