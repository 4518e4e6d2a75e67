"""Runs a program with random inputs:
python3 tests/fuzz.py PROGRAM [--runs N | --seconds N] [--seed S] [--first NUMBER] [--workers N]

An input is a recorded case of tests/cases/, changed at random: words replaced by others of their kind; or cut, doubled,
with other bytes, with lines swapped or taken from another case, with numbers at their limits, with misspelt words. Its
command line may be changed too, and it may be read as FILE, and then have lines that include some of FILES. A third of the inputs are for
`list`, `check` and `record`: their own cases, texts of `asm` and `boot`, and sessions of `debug` and `replay` as
transcripts. An answer is right if
- tests/answers.py finds its status, its output and its text on standard error right;
- it comes within 20 seconds, and takes at most 256 MiB of memory and 1,024 bytes for each byte of the input.
A turn costs up to 144 tries, so an input asks for at most 2,000 turns in all. (It has at most 1,048,576 bytes, so at
most some 110,000 tries; `one` takes 1,000,000 at most.)

By default 1,000 inputs are run, by as many workers as there are processors. A failure is printed with its number:
`--seed S --first NUMBER --runs 1` runs it again. The last line that is printed is 'fuzz: N passed, M failed', an input
each, and the exit status is 0 if M is 0. tests/fuzz_mutants.py shows that wrong programs fail.
"""
import argparse
import multiprocessing
import os
import random
import re
import resource
import select
import signal
import sys
import tempfile
import time
from contextlib import contextmanager

from answers import CASES, LIMIT, SUBCOMMANDS, Answer, wrong
from run_cases import stream
from schedules import neighbours

SECONDS = 20
MOST_TURNS = 2000
# How many failures a worker prints.
MOST_SHOWN = 10
# A third of the inputs are for the first three. `other` are all other command lines, and those of `explain`.
THIRD = ["list", "check", "record"]
OTHERS = [*sorted({*SUBCOMMANDS} - {*THIRD, "explain"}), "other"]
NUMBERS = ["0", "1", "7", "8", "63", "64", "65", "143", "144", "511", "512", "717", "718", "262143", "262144",
           "1000000", "1000001", "4294967295", "4294967296", "18446744073709551616", "-1", "-0", "$3ffff", "$40000",
           "$ffffffffff", "1ff", "200", "3FFFF", "40000", "999999999", "0x10", "00000001"]  # fmt: skip
# Texts of ROUTE: a route and trees, routes that are no tree, and what is neither.
ROUTES = ["708,709", "708,709,710/708,608/708,709,609", "708/708", "708,709/000,001", "708,709,609/708,608,609",
          "708,709/708,710", "708//709", "/", "708,709/"]  # fmt: skip
# Words of one kind each, any of which may replace another.
KINDS = [kind.encode().split() for kind in (
    "@p a! ; ex unext @+ @b @ !p !+ !b ! +* 2* 2/ - + and or drop dup pop over a . push b!", "jump call next if -if",
    "right down left up io rdlu warm", "0 1 2 3 5 10 17 $1D5 $3FFFF", "708 709 710 608 609 017 300", "r d l u",
    "const body end use to north east south west", "-1 %101 'A' right|left 2*(3+4) 1<<5|3 -A/2%3",
    "000 001 002 003 008 03F 041 0A9 175", "moved waits held stopped", "regs mem ports node sides depth", "break clear until",
    "step trace", "where nodes map breaks", "P A B R S T C io steps at", "none IoRead Rom Unmapped", "written read",
)]  # fmt: skip
# Files that a FILE may include, in the folder where the program runs. There is also a folder, and a pipe that nobody writes.
FILES = {
    "library": "const ONE 1\nbody PAIR\n  dup drop\nend\n", "section": "node 710 5 !b\n", "items": ". dup drop\n  again: jump again",
    "faulty": "node 711 frob\n\\ a note\nnode 712 jump gone\n", "nested": 'include "sub/deep"\n include "items"\t\\ twice\n',
    "sub/deep": 'include "../section"', "itself": '. dup\ninclude "itself"\n', "malformed": " include items\n", "nothing": "",
    "crlf": "node 713 .\r\n", "bytes": b"\xff", "half": " " * (LIMIT // 2), "long": " " * (LIMIT + 1),
}  # fmt: skip
HERE = "/proc/self/cwd"


@contextmanager
def folder_of_files():
    with tempfile.TemporaryDirectory() as folder:
        os.mkdir(f"{folder}/sub")
        os.mkfifo(f"{folder}/pipe")
        for name, text in FILES.items():
            with open(f"{folder}/{name}", "wb") as file:
                file.write(text if isinstance(text, bytes) else text.encode())
        yield folder


def as_transcript(name, data, output):
    """The session of a case of `debug` or `replay` as a transcript, with the replies of its output or of its lines."""
    head, go, rest = data.partition(b"\ngo\n")
    replies, lines = output.split(b"\n"), []
    for line in rest.split(b"\n"):
        command, _, stated = line.partition(b" = ")
        lines.append(b"> " + command if line else b"")
        if line and name == "replay":
            lines.append(b"moved " + stated if command.startswith(b"turn") else stated or b"ok")
        elif line and output:
            is_ports = line.startswith(b"ports ") and not replies[0].startswith(b"refused")
            count = len(neighbours(int(line[6:9]))) if is_ports else 8 if replies[0].startswith(b"000 ") else 1
            lines, replies = lines + replies[:count], replies[count:]
    return head.replace(b"profile 1\n", b"profile 2\n", 1) + go + b"\n".join(lines)


def pools():
    """The command lines and inputs of each subcommand: those of its recorded cases, and those made of others."""
    recorded, made = ({name: [] for name in THIRD + OTHERS} for _ in range(2))
    for case in CASES:
        args, data, output = case["args"], stream(case, "stdin") or b"", stream(case, "stdout") or b""
        name = args[0] if args[:1] and args[0] in recorded else "other"
        recorded[name].append((args, data))
        if name in ("asm", "boot", "list", "expand"):
            made["lint"].append((["lint"] + ["--deny"] * (len(data) % 2), data))
            made["lint"].append((["lint", "--json"] + ["--deny"] * (len(data) % 2), data))
        if name in ("asm", "boot"):
            made["list"].append((["list"] + ["--labels"] * (name == "boot"), data))
        if name in ("profile", "asm"):
            made["list"].append((["list", "--counts", "--turns", "100"], data))
            made["report"].append((["report", "--turns", "100"], data))
            made["report"].append((["report", "--from", "first", "--turns", "100"], data))
        if name == "profile":
            made["profile"].append(([name, "--json", *args[1:]], data))
        if name in ("debug", "replay"):
            made["check"].append((["check"], as_transcript(name, data, output)))
            made["record"].append((["record"], as_transcript(name, data, b"")))
            made["list"].append((["list", "--counts", "--turns", "50"], as_transcript(name, data, b"")))
            for shown in ("trace", "report"):
                made[shown].append(([shown, "--turns", "100"], as_transcript(name, data, b"")))
    return {name: [pool for pool in (recorded[name], made[name]) if pool] for name in recorded}


def cut(chance, data, other):
    return data[: chance.randint(0, len(data))]


def doubled(chance, data, other):
    begin, end = sorted(chance.choices(range(len(data) + 1), k=2))
    return data[:end] + data[begin:end] * chance.choice([1, 1, 2, 40]) + data[end:]


def other_bytes(chance, data, other):
    changed = bytearray(data)
    for _ in range(chance.choice([1, 1, 2, 8])):
        if changed:
            likely = chance.choice(b" \n\r\t0123789$abfFxu:,[]()\\;-=@!")
            changed[chance.randrange(len(changed))] = chance.randrange(256) if chance.random() < 0.3 else likely
    return bytes(changed)


def swapped_lines(chance, data, other):
    lines = data.split(b"\n")
    one, two = chance.randrange(len(lines)), chance.randrange(len(lines))
    lines[one], lines[two] = lines[two], lines[one]
    return b"\n".join(lines)


def lines_of_another(chance, data, other):
    lines, more = data.split(b"\n"), other.split(b"\n")
    begin = chance.randrange(len(more))
    at = chance.randint(0, len(lines))
    return b"\n".join(lines[:at] + more[begin : begin + chance.randint(1, 4)] + lines[at:])


def other_numbers(chance, data, other):
    words = re.split(rb"(\s+)", data)
    places = [at for at, word in enumerate(words) if re.search(rb"\d", word)]
    for _ in range(chance.choice([1, 1, 3])):
        if places:
            words[chance.choice(places)] = chance.choice(NUMBERS).encode()
    return b"".join(words)


def misspelt_words(chance, data, other):
    """Some words with a letter more or less, or with two that are swapped."""
    words = re.split(rb"(\s+)", data)
    for _ in range(chance.choice([1, 1, 2, 4])):
        place = chance.randrange(0, len(words), 2)
        word = words[place]
        at = chance.randint(0, len(word))
        swapped = word[at + 1 : at + 2] + word[at : at + 1]
        words[place] = word[:at] + chance.choice([b"e", b"a", swapped, b""]) + word[at + chance.randrange(3) :]
    return b"".join(words)


def words_of_a_kind(chance, data, other):
    """Other words of the same kinds, so that most texts stay right."""
    words = re.split(rb"(\s+)", data)
    for _ in range(chance.choice([2, 4, 8, 16])):
        at = chance.randrange(0, len(words), 2)
        if re.fullmatch(b"[0-3][0-9A-Fa-f]{4}", words[at]):
            words[at] = b"%05X" % chance.getrandbits(18)
        for kind in KINDS:
            if words[at] in kind:
                words[at] = chance.choice(kind)
                break
    return b"".join(words)


def with_includes(chance, data):
    """The same with some lines that include a file."""
    lines = data.split(b"\n")
    for _ in range(chance.choice([1, 1, 2])):
        name = chance.choice([*FILES, "library", "section", "items", "nested", "sub", "pipe", "gone"])
        line = f'include "{HERE}/{name}"' + chance.choice(["", "", "", "\r", " \\ a note", " x"])
        lines.insert(chance.randint(0, len(lines)), line.encode())
    return b"\n".join(lines)


CHANGES = [cut, doubled, other_bytes, swapped_lines, lines_of_another, other_numbers, misspelt_words]


def few_turns(args, data):
    """The same with at most MOST_TURNS turns of sessions in all, and 200 of `run`, of waveforms, pages and counts. But the
    commands `watch` and `trace` make up to 1,000,000 turns, if other nodes move, so at most two of them are left."""
    left = MOST_TURNS

    def fewer(found):
        nonlocal left
        count = min(int(found[2]), left)
        left -= count
        return found[1] + str(count).encode()

    def fewer_or_all(found):
        return fewer([b"", found[1] + b" ", found[2] or b"1000000"])

    def first_two(found):
        nonlocal endless
        endless += 1
        return found[0] if endless <= 2 else b"> turn 4"

    endless = 0
    data = re.sub(rb"> (watch|trace) [^\n]*", first_two, data)
    data = re.sub(rb"((?:turn|step [^ \n]+|trace [^ \n]+) )(\d{1,7})(?!\d)", fewer, data)
    data = re.sub(rb"(until [^ \n]+ [^ \n]+(?: x\d*)?)( \d{1,7})?(?=\n|$)", fewer_or_all, data)
    data = re.sub(rb"(> run)( \d{1,7})?(?=\n|$)", fewer_or_all, data)
    if args[:1] in (["race"], ["map"], ["profile"]) and not any(it.startswith("--turns") for it in args):
        args = [args[0], "--turns", str(MOST_TURNS), *args[1:]]
    if args[:1] == ["run"] and len(args) > 3 and args[3].isdecimal() and int(args[3]) <= 1000000:
        args = [*args[:3], str(min(int(args[3]), 200)), *args[4:]]
    if args[:1] in (["trace"], ["report"]) or args[:1] == ["list"] and "--counts" in args:
        turns = [] if any(it.startswith("--turns") for it in args) else ["--turns", "200"]
        args = [args[0], *turns, *(re.sub("(?<![^=])([0-9]{4,6}|1000000)$", "200", it) for it in args[1:])]
    return args, data


def any_case(chance):
    return chance.choice(chance.choice(POOLS[chance.choice(OTHERS + THIRD)]))


def input_of(seed, number):
    """The command line and the input with this number."""
    chance = random.Random(f"{seed} {number}")
    name = chance.choice(THIRD if chance.random() < 1 / 3 else OTHERS)
    args, data = chance.choice(chance.choice(POOLS[name]))
    is_kept = chance.random() < 0.5
    for _ in range(chance.choice([0, 1, 1] if is_kept else [1, 1, 1, 2, 4])):
        change = words_of_a_kind if is_kept else chance.choice(CHANGES)
        data = change(chance, data, any_case(chance)[1])
    args = list(args)
    # `check` of several files has an output of its own: tests/transcripts.py.
    has_one_file = args and args[0] in SUBCOMMANDS and args[0] != "check" and "FILE" in SUBCOMMANDS[args[0]].values
    if has_one_file and chance.random() < 0.2:
        args.append("/dev/stdin")
        data = with_includes(chance, data) if chance.random() < 0.4 else data
    if args and chance.random() < 0.05:
        args[chance.randrange(len(args))] = chance.choice([*NUMBERS, *any_case(chance)[0], "", *ROUTES, "--", "é"])
    if chance.random() < 0.001:
        data = data.ljust(1048576 + chance.choice([-1, 0, 1]), b" ")
    return few_turns(args, data)


class Runner:
    """Runs a program with files in memory as its streams, which are used again for each run."""

    def __init__(self, program):
        self.program, self.environment = program, dict(os.environ)
        self.streams = [open(os.memfd_create(name), "r+b", buffering=0) for name in ("input", "output", "error")]
        self.actions = [(os.POSIX_SPAWN_DUP2, it.fileno(), number) for number, it in enumerate(self.streams)]

    def answer(self, args, data):
        for it in self.streams:
            it.truncate(0)
            it.seek(0)
        os.pwrite(self.streams[0].fileno(), data, 0)
        # The bound is this process's own for a moment, since the program takes it over.
        most = (256 << 20) + 1024 * len(data)
        resource.setrlimit(resource.RLIMIT_AS, (most, resource.RLIM_INFINITY))
        child = os.posix_spawn(self.program, [self.program, *args], self.environment, file_actions=self.actions)
        resource.setrlimit(resource.RLIMIT_AS, (resource.RLIM_INFINITY, resource.RLIM_INFINITY))
        ended = os.pidfd_open(child)
        is_done = select.select([ended], [], [], SECONDS)[0]
        if not is_done:
            os.kill(child, signal.SIGKILL)
        os.close(ended)
        status = os.waitstatus_to_exitcode(os.waitpid(child, 0)[1])
        return Answer(status if is_done else None, *map(self.written, self.streams[1:]))

    def written(self, stream):
        stream.seek(0)
        return stream.read().decode(errors="backslashreplace")


def run_some(program, seed, numbers, until):
    """Runs the inputs with these numbers while there is time. Returns how many passed, and how many failed."""
    runner = Runner(program)
    ran, failed = 0, 0
    for number in numbers:
        if until is not None and time.time() > until:
            break
        args, data = input_of(seed, number)
        fault = wrong(runner, args, data)
        ran, failed = ran + 1, failed + (fault is not None)
        if fault is not None and failed <= MOST_SHOWN:
            shown = f"{args} with {data[:120]!r} ({len(data)} bytes)"
            print(f"fuzz: seed {seed} number {number}: {shown}: {fault}", flush=True)
    return ran - failed, failed


def main():
    parser = argparse.ArgumentParser()
    parser.add_argument("program")
    parser.add_argument("--runs", type=int, default=1000)
    parser.add_argument("--seconds", type=float)
    parser.add_argument("--seed", type=int, default=time.time_ns() % 1_000_000)
    parser.add_argument("--first", type=int, default=0)
    parser.add_argument("--workers", type=int, default=os.cpu_count() or 1)
    given = parser.parse_args()
    until = None if given.seconds is None else time.time() + given.seconds
    last = given.first + given.runs if until is None else 1 << 60
    parts = [range(given.first + worker, last, given.workers) for worker in range(given.workers)]
    print(f"fuzz: seed {given.seed}", flush=True)
    with folder_of_files() as folder, multiprocessing.Pool(given.workers, os.chdir, [folder]) as pool:
        runs = [(os.path.abspath(given.program), given.seed, numbers, until) for numbers in parts]
        counts = pool.starmap(run_some, runs)
    passed, failed = (sum(column) for column in zip(*counts))
    print(f"fuzz: {passed} passed, {failed} failed")
    return 1 if failed or not passed else 0


POOLS = pools()

if __name__ == "__main__":
    sys.exit(main())
