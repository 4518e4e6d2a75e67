#!/usr/bin/env python3
"""What each subcommand does with a FILE, after tests/jobs.py: python3 tests/files.py PROGRAM [--whole] [KIND..]"""
import os

from answers import LINES_MEAN, WORDS_MEAN, Report, fault_report, meaning_of, report_text, shown_text
from jobs import (
    JOBS, LIMIT, MODELLED, NAMES, OF_ALL_ERRORS, OF_SESSIONS, OF_SOURCE, OTHER_NAMES, all_reports, fault_from, job,
    odd_files, reports_of, shown,
)  # fmt: skip
from sessions import head_of
from testing import main

FILE = "my.source"
TOKEN = "a token that the language doesn't have, or one that may not stand there"
LABEL = "a name that is no label of its node"
RUNS_OFF = "the last word of the code, and execution goes on behind it"
WARNED, FROB, LOOP = "node 709 .", "node 708 frob\nnode 709 .\n", "node 000\nloop: jump lop\n"
# Texts with what is reported of them, to the byte: as text, and as JSON; and the listing in front of warnings.
WRITTEN = {
    WARNED: (
        f"my.source:1:10: warning: RunsOff: {RUNS_OFF} (node 709)\n  node 709 .\n           ^\n",
        '{"column":10,"file":"my.source","hint":null,"level":"warning","line":1,'
        f'"meaning":"{RUNS_OFF}","name":"RunsOff","node":"709"}}\n',
        "node 709 entry 000 code 1 words 1\n000  2C9B2  code         1  [ . . . . ]\n"),
    "\nbody B\n\t.\nend\nnode 709 use B\n": (
        f"my.source:3:2: warning: RunsOff: {RUNS_OFF} (node 709)\n  \t.\n  \t^\n", None,
        "node 709 entry 000 code 1 words 1\n000  2C9B2  code         3  [ . . . . ]\n"),
    "node 709\n\tdup frob\nnode 000\nloop: jump lop\n": (
        f"my.source:2:6: error: BadToken: {TOKEN}\n  \tdup frob\n  \t    ^\n"
        f"my.source:4:12: error: UndefinedLabel: {LABEL} (node 000); the nearest name is loop\n"
        "  loop: jump lop\n             ^\n",
        '{"column":6,"file":"my.source","hint":null,"level":"error","line":2,'
        f'"meaning":"{TOKEN}","name":"BadToken","node":null}}\n'
        '{"column":12,"file":"my.source","hint":"the nearest name is loop","level":"error","line":4,'
        f'"meaning":"{LABEL}","name":"UndefinedLabel","node":"000"}}\n', None),
    "const ONE 1\nbody B\n  ONE jump gone\nend\nnode 708 use B\nnode 709 to 000\n": (
        f"my.source:3:12: error: UndefinedLabel: {LABEL} (node 708)\n    ONE jump gone\n             ^\n"
        "my.source:6:13: error: NoNeighbour: no neighbour of the node, or a direction in which the chip ends\n"
        "  node 709 to 000\n              ^\n", None, None),
    "": (
        "my.source:1:1: error: NoNode: something before the first 'node', or a text without one\n  \n  ^\n", None, None),
}
# Texts with warnings, errors and neither.
TEXTS = [
    *WRITTEN, "node 709 main: dup jump main\n", "node 708 .\nnode 709 .\n",
    "body B\n\t.\nend\nnode 708 use B\nnode 709 use B\n",
    "node 709 right b! left a! 9 push\n  @ !b unext jump warm\n", FROB, "node 709\n\tdup frob\n", LOOP,
    "node 708\n  dupp\nnode 017\nloop: jump lop\n", "node 709\n" + "[ . ]\n" * 66, "node 708 frob\nnode 709 to 000\n",
]  # fmt: skip


def judge(test, it, file, text, data=""):
    """The answer of a subcommand to a text in a FILE. Some write much of one without an error, but no warnings."""
    came, wanted = test.run(it.words("--", file), data), it.answer(text, file)
    if wanted is None:
        came, wanted = (came[0], came[2], "warning: " in came[1]), (0, "", False)
    test.expect(f"{it.line} {file!r} with {text!r}", came, wanted)


def inputs(test):
    """FILE isn't there, is a folder, too long or no text; and standard input that is too long or no text."""
    for file, kind in odd_files(test).items():
        for it in JOBS:
            front = "" if it.errors == "bare" and file != "gone" else f"{file}: "
            wanted = (2 if file == "gone" else 1, "", f"ga-bench: {front}input {kind}\n")
            test.expect(f"{it.line} {file}", test.run(it.words(file)), wanted)
    for data, kind in (b"node 709 \xff", "BadText"), (b"\n" * (LIMIT + 1), "TooLong"):
        for it in JOBS:
            for file in ([], ["-"]) if it.input != "-" else []:
                wanted = (1, "", f"ga-bench: input {kind}\n")
                test.expect(f"{it.line} {file}, {kind}", test.run(it.words(*file), data), wanted)


def written(test):
    """Texts with errors, warnings or neither, in FILE and /dev/stdin; some to the byte; warnings of `-`."""
    for text in TEXTS:
        test.write(FILE, text)
        for it in OF_SOURCE:
            judge(test, it, FILE, text)
            judge(test, it, "/dev/stdin", text, text)
            if it.input_fault(text) is None and it.line in MODELLED:
                judge(test, it, "-", text, text)
                test.expect(f"{it.line} with {text!r}", test.run(it.words(), text), test.run(it.words("-"), text))
    for text, (told, as_json, listing) in WRITTEN.items():
        test.write(FILE, text)
        for line in ["list"] if listing else ["list", "lint", "asm", "map", "debug"]:
            wanted = (0, f"{listing}\n{told}", "") if listing else (1, "", told)
            test.expect(f"{line} with {text!r}, to the byte", test.run([line, FILE]), wanted)
        if as_json:
            came = test.run(["lint", "--json", FILE])
            test.expect(f"JSON of {text!r}, to the byte", came, (int(listing is None), as_json, ""))


def names(test):
    """FILE with any characters, shown without those that a terminal would obey, and as it is in JSON."""
    jobs = test.size([job("list"), job("lint"), job("lint --json"), job("map --turns 50")], OF_SOURCE)
    for name in NAMES + OTHER_NAMES:
        for it in JOBS:
            wanted = (2, "", f"ga-bench: {shown(name)}: input NoFile\n")
            test.expect(f"{it.line} {name!r}", test.run(it.words("--", name)), wanted)
        for text in WARNED, FROB, LOOP, "":
            test.write(name, text)
            for it in jobs:
                judge(test, it, name, text)
        os.remove(f"{test.folder}/{name}")
    test.write(FILE, WARNED)
    for name in f"./{FILE}", f"{test.folder}/{FILE}", f"../{os.path.basename(test.folder)}/{FILE}", f".//{FILE}":
        for it in jobs:
            judge(test, it, name, WARNED)


MANY = "".join(f"node {at:03} dupp\n" for at in [*range(18), *range(100, 118)])
# Texts with an error; that of the last one is of the larger language alone.
FAULTY = [
    "node 708 frob\nnode 709 frob\n", "node 709 dupp\n", "node 709 loop: jump lop\n", "node 709\n" + "[ . ]\n" * 65,
    "node 709 foo: . foo\n", "node 709 2*3\n", "node 709\n\tdup frob", "", 'node 708 .\ninclude "lib"\n', MANY,
    "const A 1 const A 2\nnode 708 frob\n",
]  # fmt: skip


def standard(test):
    """Errors of standard input: the first alone, without help, but all of them as JSON; no line includes a file."""
    test.write("lib", "node 709 .\n")
    for text in FAULTY:
        for it in OF_SOURCE:
            if it.line.startswith("debug"):
                continue
            fault = it.input_fault(text)
            wanted = it.input_refusal(fault, text) if fault and it.input != "json" else it.answer(text, "-")
            for file in [], ["-"]:
                test.expect(f"{it.line} {file} of {text!r}", test.run(it.words(*file), text), wanted)
    line = f"  node 708 frob\n           ^\n{TOKEN}\n"
    for name, behind in {"asm": "", "list": line, "lint": line, "map": line}.items():
        wanted = (1, "", f"ga-bench: source 1:10 BadToken\n{behind}")
        test.expect(f"{name}, to the byte", test.run([name], FROB), wanted)


def sessions(test):
    """Errors of sessions, and of sources that they name: the first alone, without help; no line includes a file."""
    test.write("lib", "node 709 .\n")
    for source in FAULTY[:-1]:
        session = f"profile 2\nplace\n{source}{chr(10) * (source[-1:] != chr(10))}go\n"
        fault = fault_from(head_of, session, shows_source=True)
        report = fault_report(lambda line: ("my.session", line), fault, session)
        test.write("my.session", session)
        for it in JOBS:
            what, wanted = f"{it.line} of a session with {source!r}", it.input_refusal(fault, session)
            if it in OF_SESSIONS:
                named = wanted if it.errors == "bare" else it.refusal([report])
                test.expect(what, test.run(it.words("my.session")), named)
                # without FILE, `debug` reports less
                for file in [["-"], []][: 1 if it.line == "debug" else 2]:
                    test.expect(f"{what}, {file}", test.run(it.words(*file), session), wanted)
            elif it in OF_ALL_ERRORS:
                test.expect(what, test.run(it.words("my.session")), it.refusal(all_reports(session, "my.session")))
        named_source(test, source)


def named_source(test, source):
    test.write(FILE, source)
    test.write("named", f"profile 2\nplace\nsource {FILE}\ngo\n")
    fault = job("asm").input_fault(source)
    place = ":".join(map(str, fault.place))
    report = reports_of(source, [fault], FILE)[0]._replace(hint=None)
    for it in OF_SESSIONS:
        told = it.input_refusal(fault, source)[2].replace(f" {place} ", f" {FILE}:{place} ", 1)
        wanted = (1, "", told) if it.errors == "bare" else it.refusal([report])
        test.expect(f"{it.line}, the source {source!r}", test.run(it.words("named")), wanted)


HEAD = "profile 2\nplace\nnode 709 .\ngo\n"
# Faults of words, of replay texts and of heads of sessions in a file: the subcommand, the text, and the place and the
# name.
PLACED = [
    ("one 5", "2C9B2 x", "1:7 BadWord"), ("dis", "2C9B2\r\n\t 4C9B2 é\n", "2:3 BadWord"),
    ("dis", "x y\n", "1:1 BadWord"), ("dis", "\\ words\n2C9B2\n", "1:1 BadWord"), ("one 5", "\n é\n", "2:2 BadWord"),
    ("one 5", "\n \n", "3:1 Empty"), ("dis", "", "1:1 Empty"),
    ("one 5", "00000\n" * 63 + " 00000  00000 x", "64:15 BadWord"),
    ("dis", "00000\n" * 63 + " 00000  00000\n00000", "64:9 TooLong"), ("one 5", 'include "lib"\n', "1:1 BadWord"),
    ("dis", 'include "lib"\n', "1:1 BadWord"), ("replay", "node 709 .\n", "1:1 BadProfile"),
    ("replay", "", "1:1 BadProfile"), ("replay", "profile 2", "2:1 BadRoute"),
    ("replay", 'include "lib"\n', "1:1 BadProfile"), ("replay", "profile 2\nplace\nnode 709 .\n", "3:1 NoGo"),
    ("replay", HEAD.replace(".", "frob"), "3:10 BadToken"),
    ("replay", "profile 2\nroute 709,709\nnode 709 .\ngo\n", "2:1 Route"),
    ("replay", HEAD + "frob\n", "5:1 BadCommand"), ("replay", HEAD + "turn 4\n", "5:1 BadCommand"),
    ("replay", HEAD + "try 800 r = moved\n", "5:1 BadNode"), ("replay", HEAD + "break 709 200\n", "5:1 BadAddress"),
    ("replay", HEAD + "try 709 x = moved\n", "5:1 BadSide"), ("replay", HEAD + "turn +1 = 1\n", "5:1 BadCount"),
    ("replay", HEAD.replace(" .", ""), "3:9 Empty"),
    ("replay", "profile 2\nroute 708/709\nnode 708 .\ngo\n", "2:1 Tree"), ("debug", "profile 3\n", "1:1 BadProfile"),
    ("replay", "profile 2\nroute 708\nnode 709 .\ngo\n", "2:1 Boot 709"),
    ("replay", HEAD + "\npass 709\n", "6:1 NotHeld"), ("replay", HEAD + "turn 4 = 5\n", "5:1 differs"),
    ("replay", HEAD + 'include "lib"\n', "5:1 BadCommand"), ("race", "profile 2\nplace\nnode 709 .\n", "3:1 NoGo"),
    ("map", HEAD + "moved 4\n", "5:1 EarlyReply"),
]  # fmt: skip
# Text that expands to a session, by its lines behind `profile 2`: a fault shows a line of the expansion, and has no
# place in FILE.
EXPANDED = {
    "place\nnode 709 FIVE\n": ("replay NoGo", "node 709 $00005"),
    "plaze\nnode 709 FIVE\n": ("replay BadRoute", "plaze"),
    "place\nnode 709 FIVE\ngo\nmoved 4\n": ("transcript line 5 EarlyReply", "moved 4"),
}  # fmt: skip
# Faults without a place.
ELSEWHERE = {
    "boot 708,709,708 my.source": "route Repeated 2", "run 708 1 5 my.source": "boot Unreached 709",
    "run 708,709 3 5 my.source": "plan Empty 2", "trace --nodes 7 my.source": "route BadRoute",
    "dis --code 3 two.words": "words BadCode",
}  # fmt: skip


def places(test):
    """Errors in FILE of words, replay texts and heads of sessions; errors of expansions, and those without a place."""
    test.write("lib", "2C9B2\n")
    for line, text, told in PLACED:
        test.write("input", text)
        place, name, *node = told.split()
        row, column = map(int, place.split(":"))
        means = WORDS_MEAN[name] if line in ("dis", "one 5") else LINES_MEAN.get(name) or meaning_of(name, text)
        report = "input", row, column, "error", name, means, *(node or [None]), None, shown_text(text, row, column)
        wanted = (1, "", report_text(Report(*report)))
        test.expect(f"{line} of {text!r}", test.run([*line.split(), "input"]), wanted)
    for text, (fault, row) in EXPANDED.items():
        test.write("input", f"const FIVE 5\nprofile 2\n\n{text}")
        wanted = (1, "", f"ga-bench: {fault}\n  {row}\n{meaning_of(fault.split()[-1], text)}\n")
        for it in OF_SESSIONS:
            # `race` does not look at the lines behind `go`, and a transcript is not of the larger language
            if it in OF_SOURCE and not (it.line.startswith("race") and "\ngo\n" in text):
                test.expect(f"{it.line} of {text!r} in an expansion", test.run(it.words("input")), wanted)
    test.write(FILE, "node 708 .\nnode 709 .")
    test.write("two.words", "2C9B2\n00000\n")
    for line, error in ELSEWHERE.items():
        test.expect(line, test.run(line.split()), (1, "", f"ga-bench: {error}\n"))


def lines(test):
    """Command lines with `--json`; listings of FILE that have no warnings; and all warnings of a text."""
    wrong = [["--json", "--json"], ["--json=1"], ["--json=", FILE], ["-j"], ["--JSON"], ["--json", FILE, FILE]]
    wrong = [["lint", *it] for it in wrong] + [[it, "--json", FILE] for it in ("asm", "list", "expand", "race", "map")]
    for text in "node 709 main: dup jump main\n", FROB, WARNED:
        test.write(FILE, text)
        as_file = test.run(["lint", "--json", FILE])
        for words in (["--json", FILE, "--deny"], ["--deny", "--json", FILE], [FILE, "--json", "--deny"]):
            test.expect(f"{words} with {text!r}", test.run(["lint", *words]), (int(as_file[1] != ""), *as_file[1:]))
        test.expect(f"FILE first, {text!r}", test.run(["lint", FILE, "--json"]), as_file)
    for words in wrong:
        status, output, error = test.run(words, WARNED)
        test.expect(f"{words}", (status, output, error != ""), (2, "", True))
    text = "node 709 main: 5 !b\n"
    test.write(FILE, text)
    for options in (["--labels"], ["--counts", "--turns", "50"], ["--counts", "--place", "--turns", "50"]):
        wanted = test.run(["list", *options], text)
        test.expect(f"list {options}", (wanted[0], wanted[1] != "", "RunsOff" in wanted[1]), (0, True, False))
        test.expect(f"list {options} of FILE", test.run(["list", *options, FILE]), wanted)
    test.expect("list --labels", test.run(["list", "--labels", FILE]), (0, "709 main 000\n", ""))
    test.write(FILE, MANY.replace("dupp", "."))
    test.expect("all warnings, not 20 alone", test.run(["list", FILE])[1].count("RunsOff"), 36)


def wrong_words(test):
    """Words of a command line that is refused are shown without what a terminal would obey."""
    word = "\x1b[31mred\u202e"
    for words in ([word], ["asm", f"--{word}"], ["race", "--turns", word], ["run", "708", word, "5"], ["dis", "--code", word], ["one", "1", word, word]):
        status, output, error = test.run(words)
        test.expect(ascii(words), (status, output, " [31mred " in error, "\x1b" in error or "\u202e" in error), (2, "", True, False))


if __name__ == "__main__":
    main(__doc__, inputs, written, names, standard, sessions, places, lines, wrong_words)
