"""Refuses each allocation of the program in turn: python3 tests/refuse_memory.py PROGRAM [CALLER] [--every N]

With one allocation refused a run must report `ga-bench: memory`, with status 3 and nothing on standard output, or answer
as it does with ample memory, save that the faults of a file, and those that are written as JSON, may be reported as of standard
input: the first one alone, without the file's name, and without what may help. The runs are those of recorded cases, SESSIONS,
and those of files that have names. CALLER is the program of the crate ga_refused_calls: its call must answer as it does with
ample memory, or be refused and leave its borrowed values as they were before, unless memory runs out outside the call; and at
least one is refused. In a conversation at the prompt it may also be one line that is answered `refused Memory`; the others are
then answered as if this one had no effect. The last line that is printed is 'memory: N passed, M failed', a run each, and the
exit status is 0 if M is 0. With --every only the first allocation and each Nth one behind it are refused. It needs a C compiler,
the command in the variable CC or else cc.
"""
import argparse
import os
import re
import subprocess
import sys
import tempfile
from concurrent.futures import ThreadPoolExecutor
from functools import partial

from answers import CASES, SUBCOMMANDS
from run_cases import stream

FOLDER = os.path.dirname(os.path.abspath(__file__))
MOST_BYTES = 200
HEAD = b"profile 2\nplace\nnode 000 . align 5 x: jump x\ngo\n"
ROUTE = b"profile 2\nroute 708,709\nnode 709 5 .\ngo\n"
TREE = b"profile 2\nroute 708,709/708,608\nnode 709 5 .\nnode 608 .\ngo\n"
# Runs beside those of recorded cases: each command of a session, and workers that leave the same chip each time.
SESSIONS = [
    (["run", "708,709", "2", "0"], b"node 709 main: $5 $7 + @b"),
    (["run", "708,709/708,608", "2", "0"], b"node 709 main: $5 $7 + @b"),
    (["debug"], HEAD + b"break 000 001\nturn 9\nregs 000\nmem 000\nports 000\npass 000\npass 000\nstep\n"),
    (["debug"], ROUTE + b"turn 40\ntry 709 r\n"),
    (["debug"], TREE + b"turn 40\ntry 608 d\n"),
    (["replay"], HEAD + b"break 000 001\nturn 9 = 5\ntry 000 r = held\n"),
    (["replay"], ROUTE + b"turn 1 = 1\n"),
    (["replay"], TREE + b"turn 1 = 1\n"),
    (["replay"], b"profile 1\nplace\nnode 000 jump $200\ngo\nturn 4 = 2\ntry 000 r = stopped\n"),
    (["asm", "/dev/stdin"], b"const A 5\nbody B X\n  X b! A !b\nend\nnode 708,709 use B east &here\nhere: .\n"),
    (["lint"], b"node 709 5 push x:\nsub: [ push unext ]\n1 2 3 dup @ ! +\nnode 708 jump warm sub: $1F5 a! 5 ! ;\n"),
    (["lint", "--deny", "/dev/stdin"], b"const A 5\nbody B X\n  X b! A !b\nend\nnode 708,709 use B east &here\nhere: .\n"),
    (["lint", "--json"], b"node 709 5 push x:\nsub: [ push unext ]\n1 2 3 dup @ ! +\nnode 708 jump warm sub: $1F5 a! 5 ! ;\n"),
    (["lint", "--json", "--deny", "/dev/stdin"], b"const A 5\nbody B X\n  X b! A !b\nend\nnode 708,709 use B east &here\nhere: .\n"),
    (["list", "/dev/stdin"], b"const A 5\nbody B X\n  X b! A !b\nend\nnode 708,709 use B east &here\nhere: .\n"),
    (["list", "-"], b"node 709 main: $5 $7 + @b\ndata x: , main"),
    (["list", "--labels", "-"], b"node 709 main: $5 $7 + @b\ndata x: , main"),
    (["list", "--counts", "--turns", "9", "-"], HEAD + b"> turn 3\n"),
    (["report", "--turns", "9"], b"node 708 right b! $5 !b @b\nnode 709 right b! @b !b jump warm"),
    (["report", "--from", "first", "--turns", "9", "-"], b"node 708 right b! $5 !b\nnode 709 right b! @b jump warm"),
    (["profile", "--json", "--turns", "9"], b"node 708 right b! $5 !b @b\nnode 709 right b! @b !b jump warm"),
    (["profile", "--json", "--turns", "9", "/dev/stdin"], b"const A 5\nnode 708 east b! A !b\nnode 709 west b! @b jump warm"),
    (["check"], HEAD + b"> break 000 x\nok\n> until 000 x 9\nturns 5 moved 5\n> breaks\n000 001 x, held\n> node x\n"),
    (["check"], HEAD + b"> where\n> node 000\n> mem 000\n> stop\nrefused BadCommand\n"),
    (["check"], TREE + b"> turn 1\nmoved 1\n"),
    (["record"], HEAD + b"> break 000 002\n> until 000 x 9\n> breaks\n> where\n> pass 000\n> regs 000\nold\n\\ end\n"),
    (["record"], HEAD + b"> step 000 3\n> step 001\n> trace 000 2\n> watch 000 P\n> watch 000 steps = 9\n> run 9\n> nodes\n"),
    (["record"], HEAD + b"> code 000\n> code 001\n> sides 000\n> depth 000\n> map\n> mem 000 x+1 3\n> expect 000 T 1\n> expect 000 x 0 0\n"),
    (["record"], ROUTE + b"> turn 40\n> until 709 1D5\n> where\n> try 709 r\n"),
    (["record"], TREE + b"> turn 40\n> until 608 115\n> where\n"),
]


def recorded_runs():
    """Of each subcommand the accepted case with the most bytes, up to MOST_BYTES, and of each fault that it reports the
    refused case with the fewest. JSON_RUNS has what is written as JSON."""
    runs = {}
    for data, case in sorted(((stream(case, "stdin") or b"", case) for case in CASES), key=lambda it: len(it[0])):
        name, is_told = (case["args"] or [""])[0], {"stdout", "stderr"} & {*case}
        is_json = case["args"][:2] == ["lint", "--json"]
        if name in SUBCOMMANDS and case.get("status") in (0, 1) and is_told and len(data) <= MOST_BYTES and not is_json:
            fault = re.sub("[0-9]", "", case.get("stderr", "").partition("\n")[0])
            runs[name, fault] = runs[name, fault] if fault and (name, fault) in runs else (case["args"], data)
    return [*runs.values()]


RUNS = recorded_runs() + SESSIONS
SUM = f"{os.path.dirname(FOLDER)}/examples/sum/sum.transcript"
# Calls of several files: whole reports may come before memory runs out, and the fault may name the file.
FILES = [
    (["check", "-", SUM], HEAD + b"> turn 1\nmoved 2\n> where\nold\n> mem 000\n"),
    (["check", SUM, "-"], HEAD + b"early\n"),
    (["record", "--write", SUM], b""),
]
# Command lines that name no job.
LINES = [
    (["dis", "--code", "65"], b""),
    (["explain", "notheld"], b""),
    (["one"], b""),
    (["one", "--help"], b""),
]
# The calls of CALLER: those that borrow values mutably, or that no subcommand makes.
CALLS = [
    (["words_text"], b""),
    (["push_words"], b""),
    (["tokens"], b""),
    (["origin"], b""),
    (["write_frame"], b""),
    (["read_frames"], b""),
    (["feed"], b""),
    (["boot"], b""),
    (["chip_text"], b""),
    (["begin"], b""),
    (["run_workers"], b""),
    *[
        (["command", line], b"")
        for line in (
            "break 708 006", "clear 709 005", "pass 709", "try 708 r", "try 709 r", "turn 9", "regs 708", "mem 708",
            "ports 708", "pass 708",
        )
    ],
    *[(["reply_into", line], b"") for line in ("try 708 r", "turn 9", "mem 708", "pass 708")],
]  # fmt: skip
MOST = 10000
# How far the allocations are from each other that are refused.
every = 1
# A fault of a file with a name, as compilers show it, with the node and with what may help.
NAMED_FAULT = re.compile(
    rb"^.*:(\d+:\d+): error: (\w+): (.*?)(?: \(node (\d+)\))?(?:; .*)?\n((?:  .*\n)*)", re.M
)


def answer(program, words, data, **variables):
    ran = subprocess.run([program, *words], input=data, capture_output=True, timeout=60, env={**os.environ, **variables})
    return ran.returncode, ran.stdout, ran.stderr


def refuse_each(program, library, rights_of, run):
    """Runs a program with each allocation refused in turn. Returns how many runs were right, and the faults of the
    others. `rights_of` makes of the answer with ample memory all right answers, of which the last one must come."""
    words, data = run
    ample = answer(program, words, data)
    rights = rights_of(ample)
    if ample not in rights:
        return 0, [f"FAILED {words} with ample memory: got {ample}"]
    passed, wrong, seen = 0, [], set()
    for number in range(1, MOST, every):
        came = answer(program, words, data, LD_PRELOAD=library, REFUSED=str(number))
        if came[0] == 77:
            break
        seen.add(came)
        if came in rights:
            passed += 1
        else:
            wrong.append(f"FAILED {words} with allocation {number} refused: got {came}")
    if came[0] != 77 or rights[-1] not in seen:
        wrong.append(f"FAILED {words}: no allocation was refused, or there was no end of them")
    return passed, wrong


def rights_of_talk(program, words, lines, ample):
    """All answers with an allocation refused: that of each conversation in which one line has no effect. BadText has
    none, and needs no memory."""
    rights = [ample]
    for at in range(len(lines)):
        kept = [*lines[:at], b"\xff", *lines[at + 1 :]]
        code, told, error = answer(program, words, b"".join(line + b"\n" for line in kept))
        rights.append((code, told.replace(b"refused BadText", b"refused Memory"), error))
    return [*rights, (3, b"", b"ga-bench: memory\n")]


def refuse_in_talk(program, library, folder):
    """Refuses each allocation of a conversation in which a file is replaced."""
    file, kept = f"{folder}/file", f"{folder}/kept"
    for name in (file, kept):
        with open(name, "wb") as text:
            text.write(HEAD + b"> turn 4\n> break 000 x\n")
    words = ["debug", file]
    lines = [b"turn 2", b"where", b"turm 2", b"help turn", b"back 2", b"regs 000", b"save! " + kept.encode(), b"quit"]
    run = (words, b"".join(line + b"\n" for line in lines))
    passed, wrong = refuse_each(program, library, partial(rights_of_talk, program, words, lines), run)
    if sorted(os.listdir(folder)) != ["file", "kept"]:
        wrong.append(f"FAILED {words}: files are left over: {os.listdir(folder)}")
    return passed, wrong


# A transcript whose head names its source, and files of which one includes others. The included lines with an error have the same
# numbers in the whole text.
NAMED = {
    "x.source": b"node 000 . align 5 x: jump x\n",
    "x.transcript": b"profile 2\nplace\nsource x.source\ngo\n> turn 1\nmoved 1\n"
    b"> break 000 xx\nrefused BadAddress, the nearest label is x\n",
    "good": b'include "sub/library"\nnode 708 A use B east\ninclude "end"\n',
    "sub/library": b'const A 5\nbody B X\n  X b! !b\nend\n',
    "end": b"node 709 5 !b",
    "errors": b'include "faulty"\n',
    "faulty": b"node 708 frob\nnode 709 jump gone\nnode 710 to 000\nnode 711 5 . .\n",
    "misspelt": b"const A 5\nbody B X\n  X b! A !b\nend\nnode 708 A use B east drpo\nnode 709 jmup x\n",
    "labels": b'const LOOPS 5\nnode 708 main: .\nnode 709 loop: . lap: jump lop\n',
    "bodies": b"body SEND\n  .\nend\nnode 708 use SEDN\n",
    "full": b"node 709 5 " + b"[ . ] " * 63 + b"data , 5 , 6",
    "missing": b'include "sub/library"\ninclude "gone"\n',
    "malformed": b"node 708 .\ninclude gone\n",
    "itself": b'include "itself"\n',
}
NAMED_RUNS = [
    *[(job, "x.transcript") for job in ("check", "record", "debug", "race", "map", "list --counts --turns 9")],
    *[(job, "good") for job in ("asm", "expand", "lint", "list --labels", "map", "profile --json --turns 9", "debug")],
    *[(job, "errors") for job in ("asm", "lint", "boot 708,709", "trace", "debug")],
    *[("list", name) for name in ("good", "missing", "malformed", "itself", "misspelt", "labels", "bodies", "full")],
    *[("debug", name) for name in ("misspelt", "full")],
]
# Warnings and faults as JSON.
JSON_RUNS = [("lint --json", name) for name in ("good", "errors", "misspelt", "labels", "full", "missing")]
JSON_RUNS += [("lint --json --deny", name) for name in ("good", "labels")]


def write_named(folder):
    os.makedirs(f"{folder}/sub")
    for name, text in NAMED.items():
        with open(f"{folder}/{name}", "wb") as file:
            file.write(text)


def runs_of(folder, runs):
    """Runs of files with names of their own."""
    return [([*job.split(), f"{folder}/{name}"], b"") for job, name in runs]


def rights_of_run(ample):
    """Memory may be too short for the name of a file, too, so that its fault is shown as one of standard input; or for all faults
    of a text, so that one is."""
    code, told, fault = ample
    unnamed = [re.sub(rb"^ga-bench: .*: (input \w+\n)$", rb"ga-bench: \1", fault)]
    for place, name, means, node, lines in NAMED_FAULT.findall(fault):
        kinds = [b"asm " + node] if node else [b"source", b"expand", b"include"]
        unnamed += [b"ga-bench: %b %b %b\n%b%b\n" % (kind, place, name, lines, means) for kind in kinds]
    return [ample, *[(code, told, text) for text in unnamed], (3, b"", b"ga-bench: memory\n")] if code != 3 else []


def refuse_run(program, library, run):
    """Refuses each allocation of a run. A fault of words or of a replay text in /dev/stdin may come as that of standard input."""
    args, text = run
    is_placed = args[:1] in (["dis"], ["one"], ["replay"]) and "/dev/stdin" in args
    alone = [answer(program, [it for it in args if it != "/dev/stdin"], text)] if is_placed else []

    def rights(ample):
        first, *others = rights_of_run(ample) or [None]
        return [first, *alone, *others] if first else []

    return refuse_each(program, library, rights, run)


def refuse_json(program, library, run):
    """Refuses each allocation of a run with faults as JSON. Those of standard input have the same lines as in the text form."""
    as_text = answer(program, [it for it in run[0] if it != "--json"], b"")

    def rights(ample):
        return [ample, *rights_of_run((as_text[0], b"", as_text[2]))[1:]] if ample[0] == as_text[0] else []

    return refuse_each(program, library, rights, run)


def rights_of_files(ample):
    """A prefix of whole lines, and then that memory ran out."""
    lines = ample[1].splitlines(keepends=True)
    faults = [b"ga-bench: memory\n", f"ga-bench: {SUM}: memory\n".encode()]
    early = [(3, b"".join(lines[:count]), fault) for count in range(len(lines), -1, -1) for fault in faults]
    last = faults[1] if ample[1].endswith(b".transcript: same\n") else faults[0]
    return [ample, *early, (3, b"", last)] if ample[0] != 3 else []


def rights_of_call(ample):
    """With ample memory a call gives its result, or another fault than `Memory`; 3 is for memory refused outside it."""
    is_told = ample in [(0, told, b"") for told in (b"answered\n", b"fault alike\n")]
    return [ample, (3, b"", b""), (0, b"refused alike\n", b"")] if is_told else []


def main(program, caller=None):
    with tempfile.TemporaryDirectory() as folder, ThreadPoolExecutor() as pool:
        library = f"{folder}/refuse_memory.so"
        compiler = os.environ.get("CC", "cc")
        subprocess.run([compiler, "-shared", "-fPIC", "-O1", "-o", library, f"{FOLDER}/refuse_memory.c", "-ldl"], check=True)
        told = [*pool.map(partial(refuse_run, program, library), RUNS + LINES)]
        told += pool.map(partial(refuse_each, program, library, rights_of_files), FILES)
        write_named(f"{folder}/named")
        told += pool.map(partial(refuse_each, program, library, rights_of_run), runs_of(f"{folder}/named", NAMED_RUNS))
        told += pool.map(partial(refuse_json, program, library), runs_of(f"{folder}/named", JSON_RUNS))
        os.mkdir(f"{folder}/talk")
        told.append(refuse_in_talk(program, library, f"{folder}/talk"))
        if caller:
            told += pool.map(partial(refuse_each, caller, library, rights_of_call), CALLS)
    wrong = [line for _, lines in told for line in lines]
    print("\n".join(wrong), end="\n" if wrong else "")
    print(f"memory: {sum(passed for passed, _ in told)} passed, {len(wrong)} failed")
    return 1 if wrong else 0


if __name__ == "__main__":
    options = argparse.ArgumentParser()
    options.add_argument("programs", nargs="+", type=os.path.abspath)
    options.add_argument("--every", type=int, default=1)
    given = options.parse_args()
    every = given.every
    sys.exit(main(*given.programs))
