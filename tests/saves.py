"""Kills calls that write files at random moments: python3 tests/saves.py PROGRAM [--kills N]

The calls are `save` and `save!` at the prompt, `record --write`, and `trace --save`. After a kill the file is as it was, or as
the whole call leaves it. The same call, made again, finishes, and leaves no other file. The last line is
'saves: N passed, M failed', and the status is 0 if M is 0.
"""
import argparse
import os
import random
import shutil
import subprocess
import sys
import tempfile
import time

HEAD = "profile 2\nplace\nnode 708\nright a! go: 1 ! jump go\nnode 709\nright a! go: @ drop jump go\ngo\n"
# Its first reply is wrong.
OLD = HEAD + "> turn 0\nmoved 9\n" + "> turn 0\nmoved 4\n" * 3000
SOURCE = "node 708\nright a! go: 1 ! jump go\nnode 709\nright a! go: @ drop jump go\n"
UNFINISHED = ".ga-bench-unfinished"


def calls(folder):
    """Each kind of call: its arguments, what it reads, the file that it writes, and what that holds before, if it is there."""
    kept = f"{folder}/kept"
    steps = "turn 1\n" * 2000
    return {
        "save": (["debug", f"{folder}/source"], f"{steps}save {kept}\n", None),
        "save!": (["debug", f"{folder}/source"], f"{steps}save! {kept}\n", "old"),
        "record": (["record", "--write", kept], "", OLD),
        "trace": (["trace", "--turns", "100", "--save", kept, f"{folder}/source"], "", "old"),
    }


class Kills:
    def __init__(self, program, folder):
        self.program, self.folder = program, folder
        self.calls = calls(folder)

    def lay(self, kind):
        """Makes the folder as it is before a call."""
        shutil.rmtree(self.folder, ignore_errors=True)
        os.mkdir(self.folder)
        for name, text in (("source", SOURCE), ("kept", self.calls[kind][2])):
            if text is not None:
                with open(f"{self.folder}/{name}", "w") as file:
                    file.write(text)

    def started(self, kind):
        arguments, text, _ = self.calls[kind]
        process = subprocess.Popen([self.program, *arguments], stdin=subprocess.PIPE, stdout=subprocess.DEVNULL, stderr=subprocess.DEVNULL)
        process.stdin.write(text.encode())
        process.stdin.close()
        return process

    def files(self):
        """The text of each file in the folder."""
        found = {}
        for name in os.listdir(self.folder):
            with open(f"{self.folder}/{name}", encoding="utf-8", errors="replace") as file:
                found[name] = file.read()
        return found

    def whole(self, kind):
        """The files after a call that isn't killed, and its seconds."""
        self.lay(kind)
        began = time.monotonic()
        self.started(kind).wait()
        return self.files(), time.monotonic() - began

    def fault(self, kind, moment, wanted):
        """What is wrong after a call that is killed at a moment, and the same call again."""
        self.lay(kind)
        before = self.files()
        process = self.started(kind)
        time.sleep(moment)
        process.kill()
        process.wait()
        left = self.files()
        left.pop(f"kept{UNFINISHED}", None)
        if left not in (before, wanted):
            return "a file is neither as it was nor whole"
        self.started(kind).wait()
        return None if self.files() == wanted else f"left by the next call: {sorted(self.files())}"


def main():
    options = argparse.ArgumentParser()
    options.add_argument("program")
    options.add_argument("--kills", type=int, default=100)
    given = options.parse_args()
    chance = random.Random(1)
    failed = 0
    with tempfile.TemporaryDirectory() as room:
        kills = Kills(os.path.abspath(given.program), f"{room}/folder")
        whole = {kind: kills.whole(kind) for kind in kills.calls}
        for kind, (wanted, _) in whole.items():
            if wanted.get("kept") in (None, "", kills.calls[kind][2]):
                failed += 1
                print(f"FAILED {kind}: a whole call writes nothing")
        for number in range(given.kills):
            kind = [*kills.calls][number % len(kills.calls)]
            wanted, seconds = whole[kind]
            moment = seconds * chance.random()
            if fault := kills.fault(kind, moment, wanted):
                failed += 1
                print(f"FAILED {kind}, killed after {moment * 1000:.1f} ms: {fault}")
    print(f"saves: {given.kills - failed} passed, {failed} failed")
    return 1 if failed or not given.kills else 0


if __name__ == "__main__":
    sys.exit(main())
