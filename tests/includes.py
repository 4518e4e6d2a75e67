#!/usr/bin/env python3
"""Lines that include a file: python3 tests/includes.py PROGRAM [--whole] [KIND..]

What includes no file, as standard input, sessions and their sources, is in tests/files.py and transcripts.py.
"""
import json
import os
import random
import re
import shutil
import socket
import threading
import time

from answers import include_report, shown_name
from faulty_texts import faulty_lines
from including import IncludeFault, bytes_of, included, whole
from jobs import LIMIT, NAMES, OF_SOURCE, job, odd_files, shown
from testing import main
from vcd import is_sanitized

ALL = "all.source"
# The line of a word of a listing, up to the number of its line in the text.
ROW = re.compile("^([0-9A-F]{3}  [0-9A-F]{5}  .{8} ) *([0-9]+)(?=  )", re.M)
TWO_JOBS = [job("asm"), job("lint --json")]
LIBRARY = "const FIVE 5\nbody SEND PORT\n  PORT b! !b\nend\n"
WORDS = "[ . ]\n" * 33
# The listing of the first of these files, worked out by hand.
LISTED = """node 708 entry 000 code 4 words 4
000  05DA2  code         2  [ @p @p b! . ]
001  00005  follower     2  , $00005
002  001D5  follower     2  , $001D5
003  089B2  code     lib.source:3  [ !b . . . ]
node 709 entry 000 code 2 words 2
000  04B02  code         3  [ @p b! @b . ]
001  001D5  follower     3  , $001D5"""
# Files, and the text that the first of them stands for.
TREES = [
    ({ALL: 'include "lib.source"\nnode 708 FIVE use SEND east\nnode 709 west b! @b\n', "lib.source": LIBRARY},
     LIBRARY + "node 708 FIVE use SEND east\nnode 709 west b! @b\n"),
    ({ALL: 'node 708\n  include "code"\nnode 709\n  include "code"\n', "code": ". right b! @b\nagain: jump again\n"},
     "node 708\n. right b! @b\nagain: jump again\nnode 709\n. right b! @b\nagain: jump again\n"),
    ({ALL: '\t include \t "code" \\ a note\r\nnode 709 .\r\n', "code": "node 708 .\r\n\\ include \"gone\"\r\n"},
     "node 708 .\r\n\\ include \"gone\"\r\nnode 709 .\r\n"),
    ({ALL: 'include "code" \\\nnode 709 .\n', "code": "node 708 ."}, "node 708 .\nnode 709 .\n"),
    ({ALL: 'include "code"', "code": "node 708 ."}, "node 708 .\n"),
    ({ALL: 'node 709 .\ninclude "code"\r', "code": "node 708 ."}, "node 709 .\nnode 708 .\n"),
    ({ALL: 'node 708 .\ninclude "none"\ninclude "none"\nnode 709 .', "none": ""}, "node 708 .\n\n\nnode 709 ."),
    ({ALL: 'node 708 .\ninclude "lf"\nnode 709 .', "lf": "\n"}, "node 708 .\n\nnode 709 ."),
    ({ALL: 'include "a"\ninclude "a"\n', "a": 'include "b"\n. include: jump include\n', "b": "node 708 ."},
     "node 708 .\n. include: jump include\nnode 708 .\n. include: jump include\n"),
    ({ALL: 'const ONE 1 body B\ninclude "b"\ninclude "rest"\nend node 709 use B\n', "b": " . ONE\n", "rest": "dup\n"},
     "const ONE 1 body B\n . ONE\ndup\nend node 709 use B\n"),
    ({ALL: 'include "x/a"\nnode 000 .\n', "x/a": 'include "b"\ninclude "y/c"\ninclude "../d"\n', "x/b": "node 001 .\n",
     "x/y/c": 'include "../../d"\ninclude "../b2"', "x/b2": "node 003 .\n", "d": ". .\n"},
     "node 001 .\n. .\nnode 003 .\n. .\nnode 000 .\n"),
    ({ALL: 'node 708\n[ dup\ninclude "in"\n. ]\n', "in": "drop\n"}, "node 708\n[ dup\ndrop\n. ]\n"),
    ({ALL: 'include "all"\n', "all": "profile 2\nplace\nnode 708 .\ngo\n"}, "profile 2\nplace\nnode 708 .\ngo\n"),
    # errors and warnings in several files, and what helps with them
    ({ALL: 'include "lib/part"\nnode 709 .\ninclude "x/é \'y\' \\z"\ninclude "lib/../lib/nested"\n',
     "lib/part": "node 708 .\n", "x/é 'y' \\z": "node 710\ndupp\n", "lib/nested": 'include "deep"\n',
     "lib/deep": "node 711\n.\nloop: jump loob\n"},
     "node 708 .\nnode 709 .\nnode 710\ndupp\nnode 711\n.\nloop: jump loob\n"),
    ({ALL: 'include "part"\n', "part": "\\ a note\nnode 708 to 000\n"}, "\\ a note\nnode 708 to 000\n"),
    ({ALL: 'include "part"\nnode 709 SPED\n', "part": "const SPEED 5\n"}, "const SPEED 5\nnode 709 SPED\n"),
    ({ALL: 'node 709\nloop: .\ninclude "part"\n', "part": "jump loob\n"}, "node 709\nloop: .\njump loob\n"),
    ({ALL: 'node 709\ninclude "part"\njump loob\n', "part": "loop: .\n"}, "node 709\nloop: .\njump loob\n"),
    ({ALL: 'node 709\ninclude "part"\ninclude "part"\n', "part": WORDS}, f"node 709\n{WORDS}{WORDS}"),
    ({ALL: 'node 709\ninclude "part"\nloop: ;\n', "part": ". loop\n"}, "node 709\n. loop\nloop: ;\n"),
    ({ALL: 'include "lib"\nnode 709 SEND\n', "lib": LIBRARY}, f"{LIBRARY}node 709 SEND\n"),
    ({ALL: 'include "lib"\nnode 709 FIVE: .\n', "lib": LIBRARY}, f"{LIBRARY}node 709 FIVE: .\n"),
    ({ALL: 'include "lib"\nnode 708 use SEND\ninclude "part"\n', "lib": LIBRARY, "part": "node 709 .\n"},
     f"{LIBRARY}node 708 use SEND\nnode 709 .\n"),
    ({ALL: 'include "lib"\nnode 709 use GONE\n', "lib": "\\ a note\nbody STAGE\n  .\n"},
     "\\ a note\nbody STAGE\n  .\nnode 709 use GONE\n"),
]  # fmt: skip
# Lines that are at fault, by what is wrong with them.
INCLUDE = 'include "gone"'
FAULTS = {
    "BadInclude": ["include", "include ", 'include ""', "include gone", 'include "gone', 'include gone"', "include '",
     'include "a" "b"', 'include "a"b', 'include "a" b', 'include "a"\\', 'include "a" \\b', 'include \\ "a"',
     'include x "a"', 'include x"a"', 'include "a"\u00a0', 'include\t"a"\x0b', 'include "a";', 'include "a"" \\',],
    "NoFile": [INCLUDE, ' \tinclude\t"gone" \\ here', 'include "dangling"', 'include "gone/gone"', 'include " "',
     'include " a"', 'include "\\"', 'include "\\ x"', 'include "é→"', f'include "{"x" * 120}"',],
    "Folder": ['include "dir"', 'include "."', 'include ".."', 'include "/"'], "BadText": ['include "bytes"'],
    "NotAFile": ['include "pipe"', 'include "/dev/null"', 'include "/dev/zero"'], "IncludeSize": ['include "long"'],
}  # fmt: skip
# Lines that include no file, since `include` isn't their first token.
UNTOUCHED = [
    'node 708 include "gone"', '\\ include "gone"', 'include: "gone"', 'include"gone"', 'Include "gone"',
    '"include" "gone"', 'includes "gone"', '\x0binclude "gone"', '\u00a0include "gone"', '. include',
]  # fmt: skip


def run(test, it, file, folder="files"):
    return test.run(it.words(file), "turn 4\nwhere\n", cwd=f"{test.folder}/{folder}")


def line_name(name, line):
    """What a listing of the file with a name shows of a line."""
    return str(line.number) if line.file == name else f"{shown_name(line.file)}:{line.number}"


def moved(it, told, name, lines):
    """Messages about a file, and its listing, if its lines were written where `lines` has it."""
    if it.line == "list":
        told = ROW.sub(lambda found: found[1] + line_name(name, lines[int(found[2]) - 1]).rjust(5), told)
    if it.errors == "json":
        found = [json.loads(row) for row in told.split("\n")[:-1]]
        found = [one | {"file": lines[one["line"] - 1].file, "line": lines[one["line"] - 1].number} for one in found]
        return "".join(json.dumps(one, ensure_ascii=False, separators=(",", ":")) + "\n" for one in found)

    def at(found):
        line = lines[int(found[1]) - 1]
        return f"{shown_name(line.file)}:{line.number}:"

    return re.sub(rf"^{re.escape(shown_name(name))}:(\d+):(?=\d+: (?:error|warning): )", at, told, flags=re.M)


def put(test, files, is_new=True):
    """Writes files in a folder, which is emptied if it is to be new."""
    if is_new:
        shutil.rmtree(f"{test.folder}/files", ignore_errors=True)
    for name, text in files.items():
        test.write(f"files/{name}", text)


def judge(test, what, files, told=None, jobs=(*TWO_JOBS,), is_new=True):
    """Each of these jobs answers for the first file as the models do for a fault of an include, or as for the text that
    the file stands for. By hand, `told` is the place and the kind of the fault, or that text. `is_new` is whether the
    folder is emptied."""
    put(test, files, is_new)
    name = [*files][0]
    try:
        lines = included(name, files[name], lambda path: bytes_of(os.path.join(test.folder, "files", path)))
    except IncludeFault as fault:
        report, found = include_report(fault), str(fault)
        wanted = {it: it.refusal([report]) for it in jobs}
    else:
        found = whole(lines)
        test.write(f"whole/{name}", found)
        answers = {it: run(test, it, name, "whole") for it in jobs}
        wanted = {it: (one[0], *(moved(it, text, name, lines) for text in one[1:])) for it, one in answers.items()}
    if told is not None:
        test.expect(f"{what}, the model", found, told)
    for it in jobs:
        test.expect(f"{what}, {it.line}", run(test, it, name), wanted[it])


def same(test):
    """A subcommand answers for a FILE that includes others as for the text that it stands for, which is written out."""
    for number, (files, text) in enumerate(TREES):
        judge(test, number, files, text, OF_SOURCE)
    put(test, TREES[0][0])
    told = (0, "node 708 $00005 $001D5\nb! !b\nnode 709 $001D5 b! @b\n", "")
    for file in ALL, f"./{ALL}", f"{test.folder}/files/{ALL}", f"../files/{ALL}", f"{test.folder}//files/./{ALL}":
        test.expect(f"expand {file}", run(test, job("expand"), file), told)
    test.expect("its listing", run(test, job("list"), ALL)[1].split("\n\n")[0], LISTED)
    test.expect("from another folder", run(test, job("expand"), f"files/{ALL}", "."), told)


def names(test):
    """Which file a name means, and how the names of files are shown."""
    for name in ["-", *NAMES]:
        row = f'include "{name}"'
        judge(test, f"{name!r} isn't there", {ALL: f"\n{row}\n"}, f"{ALL}:2:1 NoFile")
        files = {ALL: f"{row}\n", name: "node 709\n  .\n"}
        judge(test, f"{name!r} with a warning", files, None, [job("lint"), job("lint --json")])
        judge(test, f"{name!r} with an error", {ALL: f"{row}\n", name: "\\ note\nnode 709 frob\n"})
        test.expect(f"{name!r} in an error", place_of(run(test, job("map --turns 50"), ALL)), f"{shown(name)}:2:10:")
        judge(test, f"FILE is {name!r}", {f"./{name}": 'include "lib/a"\n', "lib/a": 'include "../b"\n', "b": "frob\n"})
        test.expect(f"an error behind {name!r}", place_of(run(test, job("asm"), f"./{name}")), "./lib/../b:1:1:")
    top = f"{test.folder}/files"
    put(test, {"x/all": 'include "y/a"', "x/y/a": 'include "../b"\n', "x/b": "frob\n", "a": "node 708 .\n"})
    for file in ("x/all", f"{top}/x/all", "./x/all", "x//all"):
        test.expect(f"{file}, of the error", place_of(run(test, job("asm"), file)), f"{file[: -len('all')]}y/../b:1:1:")
    for row in f'include "{top}/a"', 'include "a"':
        told = test.run(["expand", "/dev/stdin"], row)
        fault = "/dev/stdin:1:1: error: NoFile: no file has this name\n"
        wanted = (0, "node 708 .\n", "") if top in row else (1, "", fault)
        test.expect(f"{row} in /dev/stdin", (*told[:2], told[2][: len(wanted[2])]), wanted)
    test.write("files/x/y/a", f'include "../../a"\ninclude "{top}/c"\n')
    test.write("files/c", 'include "x/d"')
    test.write("files/x/d", "node 709 frob\n")
    for file in ("x/all", f"{top}/x/all"):
        test.expect(f"{file}, of the error", place_of(run(test, job("asm"), file)), f"{top}/x/d:1:10:")


def place_of(told):
    return told[2].split(" error: ")[0]


def errors(test):
    """Each error of a line that includes a file, to the byte; files that include themselves."""
    put(test, {})
    add_odd_files(test, "files/")
    add_odd_files(test, "files/x/")
    for row, kind in [(row, kind) for kind, rows in FAULTS.items() for row in rows]:
        column = row.index("include") + 1
        jobs = OF_SOURCE if row in ("include", INCLUDE) else TWO_JOBS
        judge(test, f"{row!r}", {ALL: f"{row}\nnode 709 frob\n"}, f"{ALL}:1:{column} {kind}", jobs, False)
        files = {ALL: f"node 708 frob\nconst\n{row}\nnode 709 frob\n"}
        judge(test, f"{row!r} behind errors", files, f"{ALL}:3:{column} {kind}", TWO_JOBS, False)
        files = {ALL: 'node 708 .\ninclude "x/in"\n', "x/in": row}
        judge(test, f"{row!r} in another file", files, f"x/in:1:{column} {kind}", TWO_JOBS, False)
    for row in UNTOUCHED:
        test.write(ALL, f"node 708\n{row}\n")
        error = test.run(["expand", ALL])[2]
        is_other = "nclude" not in error or re.search("BadToken|NoNode|: error: BadNode", error)
        test.holds(f"{row!r} includes nothing", is_other)
    judge(test, "the first counts", {ALL: f"node 708 frob\n{INCLUDE}\ninclude\n"}, f"{ALL}:2:1 NoFile")
    files = {ALL: 'include "a"\ninclude\n', "a": 'node 708 .\ninclude "b"\n', "b": ". \\\n\ninclude x\n"}
    judge(test, "the first counts, inside", files, "b:3:1 BadInclude")
    judge(test, "itself", {ALL: f'\n  include "{ALL}" \\ again\n'}, f"{ALL}:2:3 IncludeCycle")
    judge(test, "each other", {ALL: 'include "b"\n', "b": f'\ninclude "{ALL}"\n'}, "b:2:1 IncludeCycle")
    judge(test, "an included one itself", {ALL: 'include "b"\n', "b": '\ninclude "b"\n'}, "b:2:1 IncludeCycle")
    judge(test, "itself by other names", {ALL: f'include "./{ALL}"'}, f"{'./' * 15}{ALL}:1:1 IncludeDepth")
    whole_name = f"{test.folder}/files/{ALL}"
    judge(test, "itself by a whole name", {ALL: f'include "{whole_name}"'}, f"{whole_name}:1:1 IncludeCycle")


def add_odd_files(test, folder):
    odd_files(test, folder)
    os.mkfifo(f"{test.folder}/{folder}pipe")
    os.symlink("nowhere", f"{test.folder}/{folder}dangling")


def chain(count, last):
    """Files that include one another, of which the last has a text."""
    return {f"f{at}": f'include "f{at + 1}"\n' for at in range(1, count)} | {f"f{count}": last}


def blank_lines(size):
    """Lines that have this many bytes, 1,024 in each but the first."""
    return " " * ((size - 1) % 1024) + "\n" + (" " * 1023 + "\n") * ((size - 1) // 1024)


def limits(test):
    """Files that include one another 16 and 17 deep, and 64 and 65 files."""
    text = "node 708 .\n"
    judge(test, "16 deep", chain(16, text), text)
    judge(test, "17 deep", chain(17, text), "f16:1:1 IncludeDepth", OF_SOURCE)
    files = chain(15, 'include "a"\ninclude "b"\ninclude "f1"\n') | {"a": text, "b": 'include "c"\n', "c": ". dup\n"}
    judge(test, "the second line is too deep", files, "b:1:1 IncludeDepth")
    judge(test, "one too deep that isn't there", chain(16, INCLUDE), "f16:1:1 NoFile")
    for count in 64, 65:
        rows = [f'include "n{at}"' for at in range(1, count)]
        files = {ALL: "\n".join([*rows, *rows[1:4]]), **{f"n{at}": "" for at in range(1, count)}, "n1": text}
        judge(test, f"{count} files", files, f"{ALL}:64:1 IncludeCount" if count == 65 else text + "\n" * (count + 1))
    del files["n64"]
    judge(test, "64 files, and one that isn't there", files, f"{ALL}:64:1 IncludeCount")


def sizes(test):
    """Texts of about 1,048,576 bytes: the first line that doesn't fit is at fault, or that of a file too long."""
    text, row, jobs = "node 708 .\n", 'include "long"', [job("expand"), *TWO_JOBS]
    for more in -1, 0, 1, len(text):
        long = blank_lines(LIMIT - len(text) + more)
        told = f"{ALL}:2:1 IncludeSize" if more > 0 else long + text
        judge(test, f"{more} bytes more, in front", {ALL: f"{row}\n{text}", "long": long}, told, jobs)
        told = f"long:{long.count(chr(10))}:1 IncludeSize" if more > 0 else text + long
        for end in "\n", "":
            judge(test, f"{more} bytes more, behind {end!r}", {ALL: f"{text}{row}{end}", "long": long}, told, jobs)
    judge(test, "an LF more", {ALL: row, "long": " " * LIMIT}, "long:1:1 IncludeSize")
    files = {ALL: row, "long": text.ljust(LIMIT - 1)}
    judge(test, "no LF at its end", files, files["long"] + "\n", jobs)
    judge(test, "a long file", {ALL: f"\n{row}\n", "long": " " * (LIMIT + 1)}, f"{ALL}:2:1 IncludeSize", OF_SOURCE)
    for more in 0, 2:
        long = text + blank_lines(LIMIT // 2 - len(text) + more)
        told = f"long:{LIMIT // 2048 + 1}:1 IncludeSize" if more else long * 2
        judge(test, f"twice, {more} bytes more", {ALL: f"{row}\n{row}\n", "long": long}, told)
    judge(test, "FILE is as long as it may be", {ALL: f"{INCLUDE}\n".ljust(LIMIT)}, f"{ALL}:1:1 NoFile")
    for data, kind in (f"{INCLUDE}\n".ljust(LIMIT + 1), "TooLong"), (b'include "gone"\n\xff\n', "BadText"):
        test.write(ALL, data)
        test.expect(f"FILE is {kind}", test.run(["list", ALL]), (1, "", f"ga-bench: {ALL}: input {kind}\n"))


def hostile(test):
    """Pipes, devices, folders, links, and files that may not be read, but by root: each ends, with its fault."""
    add_odd_files(test, "files/")
    top = f"{test.folder}/files"
    for name, target in {"loop": "loop", "zero": "/dev/zero", "to_dir": "dir"}.items():
        os.symlink(target, f"{top}/{name}")
    with socket.socket(socket.AF_UNIX) as unix:
        unix.bind(f"{top}/socket")
    os.chmod(f"{test.folder}/{test.write('files/secret', 'node 708 .')}", 0)
    kinds = dict.fromkeys(["pipe", "/dev/zero", "/dev/stdin", "zero", "socket"], "NotAFile")
    kinds |= {"dir": "Folder", "to_dir": "Folder", "bytes": "BadText"}
    kinds |= dict.fromkeys(["loop", "/proc/self/mem", "bytes/x", "x" * 300, "nul\0"], "read")
    if os.getuid():
        kinds["secret"] = "read"
    else:
        test.skip("a file that may not be read", "a user who isn't root")
    for name, kind in kinds.items():
        row = f'include "{name}"'
        test.write(f"files/{ALL}", row)
        report = include_report(IncludeFault(ALL, 1, 1, kind, row))
        for it in OF_SOURCE:
            test.expect(f"{name[:20]!r}, {it.line}", run(test, it, ALL), it.refusal([report]))
    for name in ("/proc/version", "/proc/self/cmdline", "/proc/self/environ"):
        test.write(f"files/{ALL}", f'\\\ninclude "{name}"')
        told = run(test, job("asm"), ALL)
        test.expect(name, (*told[:2], place_of(told)), (1, "", f"{name}:1:1:"))


def trees_of_many(many_lines, leaf):
    """Files that stand for very many lines."""
    def rows(name, count=many_lines):
        return f'include "{name}"\n' * count

    behind, third = "".join(f'include "n{at}"\n' for at in range(48)), many_lines // 3
    twice, often = ({f"f{at}": rows(f"f{at + 1}", count) for at in range(1, 16)} | {"f16": leaf}
                    for count in (2, many_lines))  # fmt: skip
    return {
        "each twice": twice, "each many times": often, "empty files": {"f1": rows("f2"), "f2": rows("f3"), "f3": ""},
        "long chains": chain(16, "") | {"f1": rows("f2"), "f2": rows("f3") + "frob\n"},
        "long chains, and files behind them": chain(16, "") | {f"n{at}": "\n" for at in range(48)}
        | {"f1": rows("f2", third) + behind, "f2": rows("f3", third)},
        "a long line": {"f1": 'include "f2" \\' + " " * (LIMIT - 16), "f2": "node 708 frob\n"},
        "many faults": {"f1": rows("f2", 20), "f2": "".join(f"node {at:03} frob\n" for at in range(18)) * third},
    }  # fmt: skip


def many(test):
    """Files that stand for more lines than memory has room for; fewer for a program with an address sanitizer."""
    is_small = not test.is_whole or is_sanitized(test.program)
    for name, files in trees_of_many(*((30, "\n" * 4096) if is_small else (300, "\n"))).items():
        put(test, files)
        start = time.time()
        told = run(test, job("asm"), "f1")
        print(f"many: {name}: {time.time() - start:.1f} s")
        test.expect(name, (*told[:2], ": error: " in told[2]), (1, "", True))


def growing(test):
    """A file that grows while it is read is read up to some place, or is too long."""
    put(test, {ALL: 'node 708 .\ninclude "grows"\n', "grows": "\n" * (LIMIT // 2)})
    ended = threading.Event()

    def grow():
        with open(f"{test.folder}/files/grows", "ab", buffering=0) as file:
            while not ended.is_set() and file.tell() < 1 << 24:
                file.write(b"\n" * 4096)

    thread = threading.Thread(target=grow)
    thread.start()
    for number in range(test.size(5, 20)):
        told = run(test, job("expand"), ALL)
        is_right = told == (0, "node 708 .\n", "") or told[:2] == (1, "") and "IncludeSize" in told[2]
        test.holds(f"{number}: {told}", is_right)
    ended.set()
    thread.join()


def saves(test):
    """`trace --save` replaces none of the files."""
    files = {ALL: 'include "x/lib"\nnode 709 .\n', "x/lib": 'node 708 .\ninclude "../more"\n', "more": "node 710 .\n"}
    for name, text in files.items():
        test.write(name, text)
    os.symlink("more", f"{test.folder}/link")
    os.link(f"{test.folder}/x/lib", f"{test.folder}/twin")
    for name in [ALL, f"./{ALL}", "x/lib", f"{test.folder}/x/lib", "x/../more", "more", "./more", "link", "twin"]:
        for words in (["--save", name, ALL], [f"--save={name}", f"{test.folder}/{ALL}"]):
            status, output, error = test.run(["trace", *words])
            wanted = (2, "", "error: the save file would replace FILE")
            test.expect(f"{words}", (status, output, error.split("\n")[0]), wanted)
        test.expect(f"{name}, each is left", {file: test.read(file) for file in files}, files)
    status, output, error = test.run(["trace", "--save", "new.gtkw", ALL])
    saved = [name in test.read("new.gtkw") for name in ("708", "709", "710")]
    test.expect("another name", (status, error, output != "", saved), (0, "", True, [True] * 3))
    test.write("more", "node 708 frob\n")
    for name in ("wave.vcd", "/dev/stdout"):
        with open(f"{test.folder}/wave.vcd", "wb") as wave:
            status, _, error = test.run(["trace", "--save", name, "x/lib"], stdout=wave)
        test.expect(f"{name} is standard output", (status, error.split("\n")[0], test.read("wave.vcd")),
                    (2, "error: the save file would replace the waveform, which goes there, too", ""))  # fmt: skip
    told = test.run(["trace", "--save", "newer.gtkw", ALL])
    test.expect("with an error", (*told[:2], os.path.exists(f"{test.folder}/newer.gtkw")), (1, "", False))


def cut(dice, lines, files, path, depth=1):
    """Writes lines to a file, some of them to others that it includes, cut at random borders."""
    rows, files[path] = [], ""
    while lines:
        count = dice.choice([1, 1, 2, 5, 20]) if depth < 5 and dice.random() < 0.25 else 0
        if count:
            folder = os.path.dirname(path)
            name = dice.choice(["", "", "x/", "y/"] + ["../"] * (folder != ""))
            name += f"{dice.choice(['a', 'b', 'b '])}{len(files)}"
            cut(dice, lines[:count], files, os.path.normpath(os.path.join(folder, name)), depth + 1)
            front = dice.choice(["include ", "include \t", "  include "])
            rows.append(f'{front}"{name}"{dice.choice(["", " ", " " + chr(92), chr(9) + chr(92) + " a note"])}')
        else:
            rows.append(lines[0])
        lines = lines[count or 1 :]
    files[path] = "\n".join(rows) + "\n" * (depth == 1 or dice.random() < 0.7 or rows[-1] == "")


def spoil(dice, files):
    """Adds lines that include any of the files again, or none; or leaves out an LF."""
    for _ in range(dice.choice([1, 1, 2])):
        path = dice.choice([*files])
        rows = files[path].split("\n")
        other = os.path.relpath(dice.choice([*files]), os.path.dirname(path) or ".")
        wrong = ['include "gone"', "include", 'include "x" y', 'include "."']
        row = dice.choice([f'include "{other}"', f'include "{other}" \\', *wrong])
        rows.insert(dice.randint(0, len(rows)), row)
        files[path] = "\n".join(rows) + dice.choice(["", "\n", "\r\n"])


def any_text(test):
    """Random texts with errors and warnings, cut into files: a message has the place where its token was written."""
    dice = random.Random(1)
    for number in range(test.size(60, 500)):
        files, is_spoiled = {}, number % 2
        lines = faulty_lines(dice, 8 if is_spoiled else 30)
        cut(dice, lines, files, ALL)
        if is_spoiled:
            spoil(dice, files)
        jobs = [*TWO_JOBS, job("lint"), *dice.sample(OF_SOURCE, 1 if is_spoiled else 2)]
        judge(test, f"{number}: {files}", files, None if is_spoiled else "\n".join(lines) + "\n", jobs)


if __name__ == "__main__":
    main(__doc__, same, names, errors, limits, sizes, hostile, many, growing, saves, any_text)
