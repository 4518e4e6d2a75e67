#!/usr/bin/env python3
"""Transcripts, several of them, and their sources, also of views: python3 tests/transcripts.py PROGRAM [--whole] [KIND..]"""
import os
import random
import re
import shutil
import subprocess

from jobs import LIMIT, NAMES, OTHER_NAMES, odd_files, shown
from sessions import Transcript
from testing import SECONDS, main

TWO = "node 708\nmain: right b! 1 2 3 !b !b\ndone: jump done\nnode 709\nmain: right b! @b @b + @b\ndone: jump done\n"
HEAD = "profile 2\nplace\nsource two.source\ngo\n"
WHOLE = "profile 2\nplace\n" + TWO + "go\n"
TURN = "> turn 1\nmoved 2\n"
COMMANDS = [
    "turn 4", "turn 1", "regs 708", "node 709", "where", "breaks", "ports 708", "mem 708", "try 709 r",
    "break 709 done", "clear 709 done", "until 709 done 20", "turn x", "regs 800", "chip",
]  # fmt: skip
SHOWN = 10
# Subcommands that show a run of a session, and the same with more options.
VIEWS = [["race"], ["map"], ["profile"], ["trace"], ["report"], ["list", "--counts"]]
MORE_VIEWS = [
    *([*words, "--turns", "60"] for words in VIEWS), ["race", "--witness"], ["profile", "--json"],
    ["profile", "--from", "first", "--turns", "9"], ["trace", "--nodes", "709", "--turns", "9"],
]  # fmt: skip
ROOT = os.path.dirname(os.path.dirname(os.path.abspath(__file__)))


def first_line(told):
    """The status, the output and the first line on standard error of an answer."""
    return *told[:2], told[2].split("\n")[0]


def begins(test, words, output, error, what=""):
    """A call fails with this output and this text on standard error, and perhaps more of the one that isn't empty."""
    told = test.run(words)
    came = told[0], told[1][: len(output) or None], told[2][: len(error) or None]
    test.expect(f"{what} {words}", came, (1, output, error))


def worked(test):
    """Answers of heads that name their source, by hand: of `check`, `record`, and `debug` with its `save`."""
    test.write("two.source", TWO)
    good, early = test.write("good", HEAD + TURN), test.write("early", HEAD + "\nmoved 3\n")
    other = test.write("other", HEAD + "\\ a note\n> turn 1\nmoved 3\n\n> turn 0\nmoved 0\n> turn x\n:7: differs\n")
    test.expect("check", test.run(["check", good]), (0, "same 1\n", ""))
    test.expect("a difference", test.run(["check", other]), (1, "", "ga-bench: check differs 6\n-moved 3\n+moved 2\n"))
    told = "transcript line 6 EarlyReply\n  moved 3\na line that is no command or comment, with no command before it\n"
    test.expect("early", test.run(["check", early]), (1, "", f"ga-bench: {told}"))
    told = ("good: same 1\nother:6: differs: > turn 1\n-moved 3\n+moved 2\nother:11: differs: > turn x\n-:7: differs\n"
            f"+refused BadCount\nother: 2 of 3 differ\nearly: {told}1 passed, 2 failed\n")  # fmt: skip
    test.expect("several", test.run(["check", good, other, early]), (1, told, ""))
    recorded = HEAD + "\\ a note\n> turn 1\nmoved 2\n\n> turn 0\nmoved 0\n> turn x\nrefused BadCount\n"
    test.expect("record", test.run(["record", other]), (0, recorded, ""))
    test.expect("write", test.run(["record", "--write", good, other]), (0, "good: same\nother: recorded\n", ""))
    test.expect("what is written", (test.read("other"), test.read("two.source")), (recorded, TWO))
    test.expect("it is accepted", test.run(["check", other]), (0, "same 3\n", ""))
    test.expect("again", test.run(["record", "--write", other]), (0, "other: same\n", ""))
    test.write("other", HEAD + "> turn 1\nmoved 3\n")
    with open("/dev/full", "wb") as full:
        told = test.run(["record", "--write", other], stdout=full)
    test.expect("a full output", told, (1, "", "ga-bench: other: recorded\nga-bench: write\n"))
    test.expect("the file is written", test.read("other"), HEAD + "> turn 1\nmoved 2\n")
    status, output, error = test.run(["debug", good], "turn 0\nsave saved\n")
    test.expect("debug", (status, output.split("\n")[0], error), (0, "moved 0", ""))
    test.expect("save", test.read("saved"), f"{WHOLE}{TURN}> turn 0\nmoved 0\n")
    test.expect("debug --place", test.run(["debug", "--place", "two.source"], "turn 1\n")[:2], (0, "moved 2\n"))
    test.write("two.source", TWO.replace("1 2 3 !b", "1 2 4 !b").rstrip("\n"))
    test.expect("without an LF at its end", test.run(["check", good]), (0, "same 1\n", ""))
    for source, place in {"": "1:1 NoNode\n", "node 000 .\n\\\ngo\n": "3:1 BadToken\n  go\n  ^\n"}.items():
        test.write("two.source", source)
        begins(test, ["check", good], "", f"ga-bench: source two.source:{place}", f"a source {source!r}")
    text = WHOLE + "> turn 4\nmoved 9\n> turn 4\nmoved 9\n"
    first = Transcript(test.run(["record"], text)[1]).exchanges[0]
    wanted = (1, "", f"ga-bench: check differs {first.line}\n-moved 9\n+{first.reply[0]}\n")
    for words, data in (["check", test.write("alone", text)], ""), (["check", "-"], text), (["check"], text):
        test.expect(f"one, {words}", test.run(words, data), wanted)


def excerpt(sign, lines):
    more = [f"  and {len(lines) - SHOWN} more"] if len(lines) > SHOWN else []
    return [sign + line for line in lines[:SHOWN]] + more


def report(name, text, recorded):
    """What is to be reported of a file, by the replies that `record` writes, and whether it passes."""
    lines, commands = [], Transcript(text).exchanges
    differing = [(it, other) for it, other in zip(commands, Transcript(recorded).exchanges) if it.reply != other.reply]
    for it, other in differing:
        lines += [f"{name}:{it.line}: differs: > {it.text}", *excerpt("-", it.reply), *excerpt("+", other.reply)]
    end = f"{len(differing)} of {len(commands)} differ" if differing else f"same {len(commands)}"
    return [*lines, f"{name}: {end}"], not differing


def changed(text, dice):
    """A transcript of which some lines behind the head are changed, removed or made longer."""
    head, _, rest = text.partition("go\n")
    lines = []
    for line in rest.splitlines():
        what = dice.random()
        if line.startswith("> ") or what < 0.7:
            lines.append(line)
        elif what < 0.8:
            lines.append(line + " ?")
        elif what < 0.9:
            lines += [line, "\\ a comment", ""] + [f"line {index}" for index in range(dice.randrange(14))]
    return f"{head}go\n" + "".join(line + "\n" for line in lines)


def several(test):
    """Random transcripts: the report has each command whose reply isn't the one that `record` writes, and no other."""
    dice = random.Random(1)
    for number in range(test.size(5, 12)):
        files, lines, good = [], [], 0
        for index in range(dice.randrange(2, 7)):
            session = WHOLE + "".join(f"> {dice.choice(COMMANDS)}\n" for _ in range(dice.randrange(12)))
            recorded = test.run(["record"], session)[1]
            text = recorded if dice.random() < 0.4 else changed(recorded, dice)
            files.append(test.write(f"{number}_{index}.transcript", text))
            told, is_good = report(files[-1], text, recorded)
            lines, good = lines + told, good + is_good
            test.expect(f"{files[-1]} alone", test.run(["check", files[-1]])[0], int(not is_good))
        lines.append(f"{good} passed, {len(files) - good} failed\n")
        test.expect(f"{number}", test.run(["check", *files]), (int(good < len(files)), "\n".join(lines), ""))


def expectations(test):
    """A recorded reply to an expectation that isn't met fails the check, and a recording reports it."""
    one = "> expect 709 T 5\nexpected 00005, is 00000\n"
    three = one + "> turn 0\nmoved 0\n> expect 708 T 0\nok\n" + one * 2
    test.write("two.source", TWO)
    good = test.write("good", WHOLE + TURN)
    for head, line in (WHOLE, 11), (HEAD, 6):
        alone, first = f"1 expectation failed, in line {line}", "expected 00005, is 00000\n"
        for replies, told in (one, alone), (three, f"3 expectations failed, the first in line {line}"):
            text, bare = head + replies, head + "".join(it + "\n" for it in replies.splitlines() if it[0] == ">")
            file, new = test.write("unmet", text), test.write("bare", bare)
            test.expect(f"check: {told}", test.run(["check", file]), (1, "", f"ga-bench: check: {told}\n{first}"))
            wanted = f"good: same 1\nunmet: check: {told}\n{first}1 passed, 1 failed\n"
            test.expect(f"check of two: {told}", test.run(["check", good, file]), (1, wanted, ""))
            test.expect(f"record: {told}", test.run(["record", new]), (1, text, f"ga-bench: {told}\n"))
            for what in "recorded", "same":
                wanted = 1, f"bare: {what}\n", f"ga-bench: bare: {told}\n"
                test.expect(f"{what}: {told}", test.run(["record", "--write", new]), wanted)
            test.expect(f"written: {told}", test.read("bare"), text)
        other = test.write("other", head + one.replace("expected", "ok\nexpected"))
        test.holds("a line more differs", test.run(["check", other])[2].startswith(f"ga-bench: check differs {line - 1}\n"))
        told = "-ok\n+expected 00005, is 00000\n"
        met = test.write("met", head + "> expect 709 T 5\nok\n")
        wanted = 1, "", f"ga-bench: check differs {line - 1}\n{told}"
        test.expect("one that isn't recorded differs", test.run(["check", met]), wanted)
    label = "profile 2\nplace\nnode 708 call\nexpected . expected: ;\ngo\n> turn 0\nmoved 0\n"
    test.expect("a label is none", test.run(["check"], label), (0, "same 1\n", ""))
    test.expect("a label is none, recorded", test.run(["record"], label), (0, label, ""))


def hostile(test):
    """Files that are missing, folders, too long, no text, without a head have their fault; the others are checked."""
    good = test.write("good", WHOLE + TURN)
    files = {name: f"{name}: input {kind}" for name, kind in odd_files(test).items()} | {
        test.write("empty", ""): "empty: replay BadProfile",
        test.write("early", WHOLE + "moved 4\n"): "early: transcript line 10 EarlyReply",
        test.write("source", "profile 2\nplace\nnode 000 what\ngo\n"): "source: source 3:10 BadToken",
    }
    for name, first in files.items():
        status, output, error = test.run(["check", good, name, good])
        lines = output.split("\n")
        came = status, error, lines[0], lines[1], *lines[-3:]
        test.expect(name, came, (1, "", "good: same 1", first, "good: same 1", "2 passed, 1 failed", ""))
    output = test.run(["check", good, *files])[1]
    told = [line for line in output.split("\n") if line in files.values()]
    test.expect("all at once, in order", told, [*files.values()])
    test.holds("all counted", output.endswith(f"\n1 passed, {len(files)} failed\n"))
    told = test.run(["check", good, "-", "-"], WHOLE + TURN)[1].split("\n")[:3]
    test.expect("standard input, and nothing left of it", told, ["good: same 1", "-: same 1", "-: replay BadProfile"])
    output = test.run(["check", good, test.write("escapes", WHOLE + "> turn 1\n\x1b[2J\r\n")])[1]
    test.holds("no control characters are shown", output and not re.search("[\x00-\x09\x0b-\x1f]", output))
    test.expect("a name that is no text", test.run(["check", good, b"\xff"])[:2], (2, ""))
    words = [b"\xff/ga-bench", b"check", good.encode()]
    came = subprocess.run(words, executable=test.program, cwd=test.folder, capture_output=True, check=False)
    test.expect("called by a path that is no text", (came.returncode, came.stdout), (0, b"same 1\n"))


def names(test):
    """Files and sources with names of any characters; which file the name of a source means."""
    good = test.write("good", WHOLE + TURN)
    for name in [*NAMES, *OTHER_NAMES, "..", "--"]:
        is_good = name not in ("..", "--")
        if is_good:
            test.write(name, WHOLE + TURN)
        end = "same 1" if is_good else "input Folder" if name == ".." else "input NoFile"
        wanted = f"good: same 1\n{shown(name)}: {end}\n{1 + is_good} passed, {1 - is_good} failed\n"
        test.expect(f"FILE {name!r}", test.run(["check", "--", good, name])[1], wanted)
    for file in "two.source", "sub/two.source", "sub/..x/two.source", "sub/a/two.source":
        test.write(file, TWO)
    shown_of = {words[0]: test.run([*words, good]) for words in VIEWS}
    # whether a source of this name lies in the folder of the transcript, or below
    places = dict.fromkeys(["two.source", "./two.source", "..x/two.source", "a/two.source", "a/./two.source"], True)
    places |= dict.fromkeys(["../two.source", "../sub/two.source", "a/../two.source", "./../two.source", f"{test.folder}/two.source"], False)
    for name, is_below in places.items():
        test.write("sub/file", HEAD.replace("two.source", name) + TURN)
        for file, cwd in ("sub/file", test.folder), ("file", f"{test.folder}/sub"), (f"{test.folder}//sub/file", "/"):
            wanted = 0, "same 1\n", ""
            test.expect(f"any source {name}, {file}", test.run(["check", "--any-source", file], cwd=cwd), wanted)
            if not is_below:
                path = name if name[0] == "/" else os.path.dirname(file) + "/" * ("/" in file) + name
                wanted = 1, "", f"ga-bench: input {path} Outside\n"
                for words in ["record"], ["debug"], *VIEWS:
                    test.expect(f"{words} {name}, {file}", test.run([*words, file], "", cwd=cwd), wanted)
                told = f"ga-bench: {file}: input {path} Outside\n"
                test.expect(f"written {name}, {file}", test.run(["record", "--write", file], cwd=cwd), (1, "", told))
            test.expect(f"the source {name}, {file}", test.run(["check", file], cwd=cwd), wanted)
            if is_below:
                for words in VIEWS:
                    test.expect(f"{words} {name}, {file}", test.run([*words, file], cwd=cwd), shown_of[words[0]])
    # links: to a source elsewhere, to a folder elsewhere, to one with a longer name beside, to a pipe, to a source below, to nothing
    test.write("sub2/two.source", TWO)
    os.mkfifo(f"{test.folder}/sub2/pipe")
    links = {"out": "../two.source", "away": "..", "near": "../sub2", "beside": "../sub2/two.source", "in": "a/two.source"}
    for link, target in links.items():
        is_below = link == "in"
        os.symlink(target, f"{test.folder}/sub/{link}")
        name = f"{link}/two.source" if link in ("away", "near") else link
        file = test.write("sub/linked", HEAD.replace("two.source", name) + TURN)
        test.expect(f"any source behind a link {target}", test.run(["check", "--any-source", file]), (0, "same 1\n", ""))
        wanted = (0, "same 1\n", "") if is_below else (1, "", f"ga-bench: input sub/{name} Outside\n")
        test.expect(f"a link {target}", test.run(["check", file]), wanted)
        test.expect(f"a link {target}, debug", test.run(["debug", file], "")[::2], (1 - is_below, wanted[2]))
        test.expect(f"a link {target}, record", test.run(["record", file])[::2], (1 - is_below, wanted[2]))
        told = (0, f"{file}: same\n", "") if is_below else (1, "", f"ga-bench: {file}: input sub/{name} Outside\n")
        test.expect(f"a link {target}, written", test.run(["record", "--write", file]), told)
        for words in VIEWS:
            told = shown_of[words[0]] if is_below else wanted
            test.expect(f"a link {target}, {words}", test.run([*words, file]), told)
    os.symlink("../sub2/pipe", f"{test.folder}/sub/pipe")
    file = test.write("sub/linked", HEAD.replace("two.source", "pipe") + TURN)
    test.expect("a link to a pipe", test.run(["check", file]), (1, "", "ga-bench: input sub/pipe Outside\n"))
    os.symlink("nowhere", f"{test.folder}/sub/lost")
    file = test.write("sub/linked", HEAD.replace("two.source", "lost") + TURN)
    test.expect("a link to nothing", test.run(["check", file]), (1, "", "ga-bench: input sub/lost NoFile\n"))
    for name in ["-", "--", *NAMES]:
        file = test.write("sub/odd", HEAD.replace("two.source", name) + TURN)
        test.write(f"sub/{name}", TWO)
        test.expect(f"the source {name!r}", test.run(["check", file]), (0, "same 1\n", ""))
        os.remove(f"{test.folder}/sub/{name}")
        told = f"input sub/{shown(name)} NoFile\n"
        test.expect(f"the source {name!r} isn't there", test.run(["check", file]), (1, "", f"ga-bench: {told}"))
        wanted = (1, f"{file}: {told}" * 2 + "0 passed, 2 failed\n", "")
        test.expect(f"the source {name!r} isn't there, several", test.run(["check", file, file]), wanted)
    file = test.write("a\x1b:7: b", HEAD + "> turn 1\nmoved 3\n")
    told = "a :7: b:5: differs: > turn 1\n-moved 3\n+moved 2\na :7: b: 1 of 1 differ\n"
    test.expect("several, which differ", test.run(["check", file, file]), (1, told * 2 + "0 passed, 2 failed\n", ""))
    test.expect("written", test.run(["record", "--write", file]), (0, "a :7: b: recorded\n", ""))


# Sources with a fault, and what is reported of each. `debug` has the name in front of an error with a place, and FILE
# in front of one of the whole input.
SOURCES = {
    "gone": "input gone NoFile", "dir": "input dir Folder", "fifo": "input fifo NotAFile", "long": "input long TooLong",
    "/dev/null": "input /dev/null NotAFile", "/dev/stdin": "input /dev/stdin NotAFile", "bytes": "input bytes BadText",
    "token": "source token:3:7 BadToken\n    . . what\n        ^\n", "fits": "input TooLong",
    "label": "asm 000 label:2:8 UndefinedLabel\n  . jump x\n         ^\n",
}  # fmt: skip
DEBUGGED = {
    "token": "token:3:7: error: BadToken: a token that the language doesn't have, or one that may not stand there\n"
    "    . . what\n        ^\n",
    "label": "label:2:8: error: UndefinedLabel: a name that is no label of its node (node 000)\n"
    "  . jump x\n         ^\n",
    "fits": "ga-bench: faulty: input TooLong\n",
}


def faults(test):
    """Each fault of a source, at its place and before all other faults, and faults of the head; the longest text."""
    odd_files(test)
    os.mkfifo(f"{test.folder}/fifo")
    test.write("token", "node 000\n\\ what\n  . . what\n")
    test.write("label", "node 000\n. jump x\n")
    test.write("fits", b"node 000 .".ljust(LIMIT))
    for name, fault in SOURCES.items():
        right = f"profile 2\nplace\nsource {name}\ngo\n> turn 1\nmoved 0\n"
        for text in right, right.replace("profile 2\nplace", "profile 3\nplac"), right.replace("> ", ""):
            file = test.write("faulty", text)
            what, fault = f"{text!r},", fault.removesuffix("\n") + "\n"
            wanted = 1, "", DEBUGGED.get(name, f"ga-bench: {fault}")
            test.expect(f"{what} debug", test.run(["debug", "--any-source", file]), wanted)
            begins(test, ["check", "--any-source", file], "", f"ga-bench: {fault}", what)
            begins(test, ["record", "--any-source", file], "", f"ga-bench: {fault}", what)
            begins(test, ["record", "--write", "--any-source", file], "", f"ga-bench: {file}: {fault}", what)
            begins(test, ["check", "--any-source", file, file], f"{file}: {fault}", "", what)
            if name[0] == "/":
                wanted = 1, "", f"ga-bench: input {name} Outside\n"
            for words in VIEWS:
                test.expect(f"{what} {words}", test.run([*words, file]), wanted)
            test.expect(f"{what} left", test.read(file), text)
    test.write("two.source", TWO)
    heads = {
        "profile 3\nplace": (1, "BadProfile"), "profile 2\nplac": (2, "BadRoute"),
        "profile 2\nroute 708,000": (2, "Route"), "profile 2\nroute 708": (2, "Boot"),
    }  # fmt: skip
    for first, (line, fault) in heads.items():
        test.write("head", HEAD.replace("profile 2\nplace", first))
        begins(test, ["check", "head"], "", f"ga-bench: replay {fault}\n", first)
        told = test.run(["debug", "head"])
        test.holds(f"debug {first!r}", told[2].startswith(f"head:{line}:1: error: {fault}: "))
        for words in VIEWS:
            test.expect(f"{words} {first!r}", test.run([*words, "head"]), told)
    text = "\n" * (LIMIT - len(WHOLE)) + TURN[:-1]
    for more, wanted in (0, (0, "same 1\n", "")), (1, (1, "", "ga-bench: input TooLong\n")):
        test.write("long", HEAD + text[len(TURN) - 1 - more :])
        test.expect(f"the longest text, and {more} bytes", test.run(["check", "long"]), wanted)
        told = (1, "", "ga-bench: long: input TooLong\n") if more else test.run(["map"], WHOLE)
        test.expect(f"map of the longest text, and {more} bytes", test.run(["map", "long"]), told)


def plain(test):
    """What names no source is answered like standard input; no line of a source or of a transcript includes a file."""
    test.write("two.source", TWO)
    text, row = HEAD + TURN, 'include "two"'
    file, as_text = test.write("file", text), test.run(["check"], text)
    test.expect("standard input", first_line(as_text), (1, "", "ga-bench: source 3:1 NoNode"))
    for words in (["check", "-"], ["record"], ["record", "-"], ["debug", "-"], *VIEWS, *([*words, "-"] for words in VIEWS)):
        test.expect(f"{words}", test.run(words, text), as_text)
    told = test.run(["check", "-", file], text)[1].split("\n")
    wanted = ("-: source 3:1 NoNode", "file: same 1", "1 passed, 1 failed", "")
    test.expect("- of several", (told[0], *told[-3:]), wanted)
    texts = [
        text.replace("\ngo", "\n.\ngo"), text.replace("source two", "source  two").replace("\ngo", "\n\ngo"),
        text.replace("two.source", ""), text.replace("source ", "source"), text.replace("\n", "\r\n"),
        text.replace("source", "Source"), text.replace("\ngo", "\ngo "), "profile 2\nplace\nsource two.source", "",
        "\n\nsource two.source\ngo\r\n", "source two.source\ngo\n", f"{row}\n", f"{WHOLE}{row}\n",
    ]  # fmt: skip
    for other in texts:
        test.write("other", other)
        for name in ("check", "record"):
            test.expect(f"{name} {other!r}", test.run([name, "other"]), test.run([name], other))
        told = [test.run([*words, "other"]) for words in VIEWS]
        os.rename(f"{test.folder}/two.source", f"{test.folder}/away")
        test.expect(f"views of {other!r} read no source", [test.run([*words, "other"]) for words in VIEWS], told)
        os.rename(f"{test.folder}/away", f"{test.folder}/two.source")
    for options in (["--place"], ["--route", "708,709"]):
        for words in VIEWS:
            begins(test, [*words, *options, file], "", "file:1:1: error: NoNode: ")
    begins(test, ["check", "other"], "", "ga-bench: transcript line 10 EarlyReply\n", row)
    test.write("two", "")
    test.write("two.source", f"{row}\n{TWO}")
    fault = "ga-bench: source two.source:1:1 NoNode\n"
    for words in ["check"], ["record"], ["debug"], *VIEWS:
        error = fault if words[0] in ("check", "record") else "two.source:1:1: error: NoNode: "
        begins(test, [*words, file], "", error, "a source includes nothing,")


def random_source(dice):
    """The lines of TWO, with others between them, of any bytes."""
    tokens = [*TWO.split(), "\\", "what", "\t", "go", "data", ",", "$5", "é"]
    lines = TWO.split("\n")
    for _ in range(dice.randrange(4)):
        line = dice.choice(["", "\\ note", " ", "\r", "\\ go", "\\ :5: x"])
        line = " ".join(dice.choices(tokens, k=dice.randrange(3))) if dice.random() < 0.2 else line
        lines.insert(dice.randrange(len(lines)), line)
    return "\n".join(lines) + dice.choice(["", "\n", "\n\n"])


def random_rest(dice):
    """Commands, with comments and replies behind them."""
    behind = ["", "old\n", ":9: differs\n", "\\ note\n", "\n"]
    rest = "".join(f"> {dice.choice(COMMANDS)}\n{dice.choice(behind)}" for _ in range(dice.randrange(8)))
    return dice.choice([rest, rest, rest.rstrip("\n"), "\n" + rest, "early\n" + rest])


# The line of a difference, or of an early reply, in a report.
PLACE = r"^(ga-bench: check differs |(?:ga-bench|whole): transcript line |whole:)(\d+)"


def sourced(test):
    """Random sources and commands: the answers are those for the text with the source in it, by lines of the file."""
    dice = random.Random(1)
    for number in range(test.size(25, 150)):
        source, rest = random_source(dice) if number % 3 else TWO, random_rest(dice)
        test.write("two.source", source)
        kept = source.removesuffix("\n").split("\n")
        kept = "".join(line + (" \n" if line == "go" else "\n") for line in kept)
        file, whole = test.write("file", HEAD + rest), test.write("whole", f"profile 2\nplace\n{kept}go\n{rest}")
        came, wanted = (test.run(["check", it]) for it in (file, whole))
        if re.match(r"ga-bench: (source|asm \d+) \d", wanted[2]):
            told = re.sub(r"^ga-bench: (source|asm \d+) ", r"ga-bench: \1 two.source:", test.run(["list"], source)[2])
            test.expect(f"{number}: fault of {source!r}", came, (1, "", told))
            continue

        def moved(told, more=kept.count("\n") - 1):
            told = re.sub(PLACE, lambda it: f"{it[1]}{int(it[2]) - more}", told, flags=re.M)
            return re.sub("^whole:", "file:", told, flags=re.M)

        test.expect(f"{number}: check", came, (*wanted[:2], moved(wanted[2])))
        came, wanted = (test.run(["check", it, it])[1] for it in (file, whole))
        test.expect(f"{number}: several", came, moved(wanted))
        came, wanted = (test.run(["record", it]) for it in (file, whole))
        wanted = wanted[1].replace(f"place\n{kept}go", "place\nsource two.source\ngo", 1)
        test.expect(f"{number}: record", came[1], wanted)
        if came[0] == 0:
            test.write("file", came[1])
            test.expect(f"{number}: accepted", test.run(["check", file])[0], 0)


RACING = "node 709\nmain: $1F5 a! @ jump warm\nnode 708 right a! 1 !\nnode 710 left a! 2 !\n"
# What some views show of this source, behind a head of two lines.
RACE = """\
race: 709 at 000 main reads 1F5 (line 4); the schedule decides which word it takes
  right 00001 from 708 at 003 (line 5)
  left  00002 from 710 at 003 (line 6)
"""
COUNTS = """\
node 709 entry 000 code 3 words 3
  fetches  slot0  slot1  slot2  slot3  at   word    line  kind      reading
main:
        .                              000  04A0A      4  code      [ @p a! @ . ]
        .                              001  001F5      4  follower  , $001F5
*       1                              002  100A9      4  code      [ jump $000A9 ]
"""


def views(test):
    """What shows a run of a session answers for a head that names its source as for the text with the source in it."""
    test.write("sub/a/racing.source", RACING)
    rest = "> turn 8\nmoved 0\n> regs 709\n"
    file = test.write("sub/file", f"profile 2\nplace\nsource a/racing.source\ngo\n{rest}")
    whole = test.write("whole", f"profile 2\nplace\n{RACING}go\n{rest}")
    test.expect("race", test.run(["race", file]), (1, RACE, ""))
    status, output, error = test.run(["list", "--counts", file])
    test.expect("list --counts", (status, output[: len(COUNTS)], error), (0, COUNTS, ""))
    status, output, error = test.run(["race", "--witness", file])
    test.expect("a witness has the source", (status, output.partition("go\n")[0], error), (1, f"profile 2\nplace\n{RACING}", ""))
    output = test.run(["report", file])[1]
    test.holds("a page has the source", "\n4\tmain: $1F5 a! @ jump warm\n" in output and "\n8\t&gt; turn 8\n" in output)
    for words in MORE_VIEWS:
        test.expect(f"{words}", test.run([*words, file]), test.run([*words, whole]))
        test.expect(f"{words} behind include", test.run([*words, test.write("sub/all", 'include "file"\n')]), test.run([*words, whole]))
    test.write("sub/early", f"profile 2\nplace\nsource a/racing.source\ngo\n\nmoved 3\n{rest}")
    test.write("sub/all", 'include "early"\n')
    early = "sub/early:6:1: error: EarlyReply: a line that is no command or comment, with no command before it\n  moved 3\n  ^\n"
    for words in VIEWS:
        # `race` doesn't look at the lines behind `go`
        wanted = (1, RACE, "") if words == ["race"] else (1, "", early)
        for name in "sub/early", "sub/all":
            test.expect(f"{words} {name}", test.run([*words, name]), wanted)
    save_files(test, file, whole)


def save_files(test, file, whole):
    """`trace --save` writes the same for both, and replaces neither FILE nor its source."""
    source = "sub/a/racing.source"
    waves = [test.run(["trace", "--save", f"{name}.gtkw", name]) for name in (file, whole)]
    test.expect("a waveform", (waves[0][::2], waves[0] == waves[1]), ((0, ""), True))
    test.expect("a save file", test.read(f"{file}.gtkw"), test.read(f"{whole}.gtkw"))
    told = test.run(["trace", "--nodes", "7", "--save", "none.gtkw", file])
    test.expect("wrong nodes", told, (1, "", "ga-bench: route BadRoute\n"))
    os.symlink("a/racing.source", f"{test.folder}/sub/link")
    os.link(f"{test.folder}/{source}", f"{test.folder}/twin")
    lost, before = "the source that FILE names", [test.read(source), test.read(file)]
    saved = dict.fromkeys([source, f"./{source}", f"{test.folder}/{source}", "sub/a/../a/racing.source", "sub/link", "twin"], lost)
    for name, what in (saved | {file: "FILE", f"./{file}": "FILE"}).items():
        status, output, error = test.run(["trace", "--save", name, file])
        wanted = (2, "", f"error: the save file would replace {what}")
        test.expect(f"--save {name}", (status, output, error.split("\n")[0]), wanted)
        test.expect(f"{name}, both are left", [test.read(source), test.read(file)], before)
    test.write(source, "node 708 frob\n")
    told = test.run(["trace", "--save", source, file])
    wanted = (1, "", f"{source}:1:10: error: BadToken: ")
    test.expect("a source with a fault", (*told[:2], told[2][: len(wanted[2])]), wanted)
    test.expect("it is left, and nothing is written", (test.read(source), os.path.exists(f"{test.folder}/none.gtkw")), ("node 708 frob\n", False))


def random_views(test):
    """Random sources and commands: what is shown is that of the text with the source in it, with faults by lines of the file."""
    dice = random.Random(2)
    for number in range(test.size(10, 60)):
        source, rest = random_source(dice) if number % 3 else TWO, random_rest(dice)
        test.write("two.source", source)
        kept = source.removesuffix("\n").split("\n")
        kept = "".join(line + (" \n" if line == "go" else "\n") for line in kept)
        file, whole = test.write("file", HEAD + rest), test.write("whole", f"profile 2\nplace\n{kept}go\n{rest}")
        debugged, more = test.run(["debug", file]), kept.count("\n") - 1
        for words in MORE_VIEWS:
            came, wanted = test.run([*words, file]), test.run([*words, whole])
            if debugged[2].startswith("two.source:"):
                wanted = debugged
            error = re.sub(r"^whole:(\d+):", lambda it: f"file:{int(it[1]) - more}:", wanted[2])
            test.expect(f"{number}: {words}", came, (*wanted[:2], error))


def states(test, files):
    """What a write of files would change."""
    found = (os.stat(f"{test.folder}/{name}") for name in files)
    return [(it.st_mtime_ns, it.st_ino, it.st_mode, it.st_size) for it in found]


def rewriting(test):
    """`record --write` leaves what `record` writes; it touches no file that is so already, or has a fault."""
    texts = {"old": WHOLE + "> turn 4\nmoved 9\n> where\n", "bare": WHOLE + "\\ note\n> turn 4", "none": WHOLE}
    recorded = {name: test.run(["record"], text)[1] for name, text in texts.items()}
    for name, text in texts.items():
        os.chmod(f"{test.folder}/{test.write(name, text)}", 0o640)
    told = "".join(f"{name}: {'same' if text == recorded[name] else 'recorded'}\n" for name, text in texts.items())
    test.expect("what is reported", test.run(["record", "--write", *texts]), (0, told, ""))
    test.expect("what is written", {name: test.read(name) for name in texts}, recorded)
    test.expect("their modes", [oct(it[2]) for it in states(test, texts)], ["0o100640"] * len(texts))
    test.expect("no other file", sorted(os.listdir(test.folder)), sorted(texts))
    before = states(test, texts)
    test.expect("again", test.run(["record", *texts, "--write"]), (0, "".join(f"{name}: same\n" for name in texts), ""))
    test.expect("untouched", states(test, texts), before)
    odd = {name: f"input {kind}" for name, kind in odd_files(test).items()} | {
        "fifo": "input NotAFile", "/dev/null": "input NotAFile", "-": "input NoFile",
        test.write("faulty", WHOLE + "early\n"): "transcript line 10 EarlyReply",
        test.write("more", WHOLE + "> turn 1\n" * 110000): "output TooLong",
    }  # fmt: skip
    os.mkfifo(f"{test.folder}/fifo")
    stale, held = test.write("stale", texts["old"]), ("faulty", "bytes", "long", "more")
    before = states(test, held)
    for name, fault in odd.items():
        told = test.run(["record", "--write", name])
        test.expect(name, first_line(told), (1, "", f"ga-bench: {name}: {fault}"))
    test.expect("the others are recorded", test.run(["record", "--write", *odd, stale])[:2], (1, "stale: recorded\n"))
    test.expect("what has a fault is left", states(test, held), before)
    for words in (["record", "--write"], ["record", "old", "bare"]):
        test.expect(f"{words}", test.run(words)[:2], (2, ""))


def firmwares(test):
    """The command of examples/firmwares/ci.yml passes, and fails if a reply is changed; `make record` renews it."""
    if not shutil.which("make"):
        test.skip("the command of ci.yml", "make")
        return
    shutil.copytree(f"{ROOT}/examples", f"{test.folder}/examples")
    commands = re.findall(r"- run: (.*)", test.read("examples/firmwares/ci.yml"))
    test.expect("a command", len(commands), 1)

    def ran(command):
        made = {"cwd": test.folder, "env": {**os.environ, "BENCH": test.program}, "timeout": SECONDS}
        return subprocess.run(command, shell=True, capture_output=True, text=True, check=False, **made)

    came = ran(commands[0])
    test.holds("all pass", came.returncode == 0 and "\n5 passed, 0 failed\n" in came.stdout)
    path = "examples/crc/crc.transcript"
    text = test.read(path)
    test.write(path, re.sub(r"(> regs .*\n.*) T \w+", r"\1 T 12345", text, count=1))
    came = ran(commands[0])
    test.holds("a change fails", came.returncode != 0 and "\n4 passed, 1 failed\n" in came.stdout)
    test.holds("and is named", re.search(r"^\.\./crc/crc\.transcript:\d+: differs: > regs", came.stdout, re.M))
    test.expect("make record", (ran("make -C examples/firmwares record").returncode, test.read(path)), (0, text))


def ends(test):
    """Output that can't be written, a source that may not be read, but by root, pipes, and many files."""
    good, file = test.write("good", WHOLE + TURN), test.write("file", HEAD + TURN)
    test.write("two.source", TWO)
    for count in 2, 500:
        status, output, _ = test.run(["check", *[good] * count])
        test.expect(f"{count} files", (status, output.split("\n")[-2]), (0, f"{count} passed, 0 failed"))
    many = ["check", file], ["record", file], ["check", file, file], ["check", good, good], *([*words, file] for words in VIEWS)
    for words in many:
        with open("/dev/full", "wb") as full:
            test.expect(f"full: {words}", test.run(words, stdout=full), (1, "", "ga-bench: write\n"))
    if os.getuid():
        os.chmod(f"{test.folder}/two.source", 0)
        for words in ["check"], *VIEWS:
            test.expect("it may not be read", test.run([*words, file]), (1, "", "ga-bench: input two.source read\n"))
        os.chmod(f"{test.folder}/two.source", 0o600)
    else:
        test.skip("a source that may not be read", "a user who isn't root")
    os.mkfifo(f"{test.folder}/pipe")
    with subprocess.Popen(["sh", "-c", "cat file >pipe"], cwd=test.folder) as writer:
        test.expect("FILE may be a pipe", test.run(["check", "pipe"]), (0, "same 1\n", ""))
        writer.kill()


if __name__ == "__main__":
    kinds = worked, several, expectations, hostile, names, faults, plain, sourced, views, random_views, rewriting, firmwares, ends
    main(__doc__, *kinds)
