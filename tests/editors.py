#!/usr/bin/env python3
"""Compares the files for Vim and VS Code with the program's words, and tries them: tests/editors.py PROGRAM [KIND..]

- words: each file that scripts/for_editors.py makes is the one in the repository, to the byte; the opcodes are those of
  docs/CHIP.md.
- vscode: the JSON can be read, all files and scopes that it names are there, and the grammars show each sign of each
  example as what it is.
- vim: Vim opens each example without an error, and shows each sign as what it is.
- errors: `:make` of Vim goes to the place of each error and warning, and the tasks of VS Code report it.

What a sign is, this file works out itself, from docs/FORMATS.md. What needs Vim isn't tried if it isn't there, and that
is printed. With KINDs only these are tried. The last line that is printed is 'N passed, M failed', and the exit status
is 0 if M is 0 and N isn't.
"""
import glob
import json
import os
import re
import shutil
import subprocess
import sys
import tempfile
from concurrent.futures import ThreadPoolExecutor

ROOT = os.path.dirname(os.path.dirname(os.path.abspath(__file__)))
sys.dont_write_bytecode = True
sys.path.insert(0, f"{ROOT}/scripts")
import for_editors  # noqa: E402

VSCODE, VIM = f"{ROOT}/editors/vscode", f"{ROOT}/editors/vim"
SECONDS = 60
JUMPS = {"jump", "call", "next", "if", "-if"}
NUMBERS = {"right", "down", "left", "up", "io", "rdlu", "warm"}
LARGER = {"const", "body", "end", "use", "to"}
DIRECTIONS = {"north", "east", "south", "west"}
# Commands without a node behind them.
OF_CHIP = {"turn", "run", "breaks", "where", "nodes", "map"}
# What a sign is, with its group of Vim and its scope of VS Code.
SHOWN = {
    "comment": ("gaComment", "comment.line.backslash"),
    "label": ("gaLabel", "entity.name.function.label"),
    "jump": ("gaJump", "keyword.control"),
    "opcode": ("gaOpcode", "support.function"),
    "name of a number": ("gaNumberName", "constant.language"),
    "node": ("gaNode", "keyword.other"),
    "name of a node": ("gaNodeName", "entity.name.type"),
    "keyword": ("gaKeyword", "keyword.other"),
    "mark": ("gaMark", "punctuation.definition"),
    "number": ("gaNumber", "constant.numeric"),
    "name": ("gaName", "variable.other"),
    "include": ("gaInclude", "keyword.control.import"),
    "error": ("gaError", "invalid.illegal"),
    "bad node": ("gaBadNode", "invalid.illegal"),
    "head": ("gaHead", "keyword.other"),
    "place": ("gaPlace", "keyword.other"),
    "source": ("gaFileWord", "keyword.other"),
    "path": ("gaPath", "string.unquoted"),
    "prompt": ("gaPrompt", "punctuation.definition"),
    "command": ("gaCommand", "keyword.control"),
    "bad command": ("gaBadCommand", "invalid.illegal"),
    "at node": ("gaAtNode", "entity.name.type"),
    "value": ("gaValue", "constant.numeric"),
    "word": ("gaWord", "variable.other"),
    "=": ("gaOutcome", "keyword.operator"),
    "reply": ("gaReply", "string.unquoted"),
    "refused": ("gaRefused", "markup.deleted"),
}
# Texts that no example has, with the kinds of their tokens.
MORE = {
    "faults.source": [
        ("node 709 dup: again: DUP: dup_again DUP", "node,name of a node,error,label,label,name,name"),
        ("0x15 #21 $1D5 $1d5 123456789 $123456789 -1", "error,error,number,number,error,error,error"),
        ("a_name_of_16_abc: a_name_of_17_abcd: 1st: a\\b \\", "label,error,error,error,comment"),
        ("[ jump $3D5 / 2 ] , x", "mark,jump,number,mark,number,mark,mark,name"),
        ("  node 820 node \\", "node,bad node,node,comment"),
        ("; ex @p @+ é :", "opcode,opcode,opcode,opcode,error,error"),
    ],
    "faults.larger": [
        ("const ONE_1 -5 \\ 1", "keyword,name,number,comment,comment"),
        ("body PUT WHERE value end use PUT east", "keyword,name,name,name,keyword,keyword,name,name of a number"),
        ("node 709,710,0x1 node 709,710 node 708", "node,bad node,node,name of a node,node,name of a node"),
        ("to 709 north ' 'A' '\\' '' 'AB' '~'", "keyword,number,name of a number,error,number,number,error,error,number"),
        ("%101 %2 % -123456789 - -1 include", "number,error,error,error,opcode,number,name"),
        ("up|down up|io right|left|up|down |up", "name of a number,number,name of a number,error"),
        ("const A 2*(ONE-1)<<3 const B (1|2 *3", "keyword,name,number,keyword,name,number,error"),
        ("const A 7/2%%101 const B -(ONE)*-5 const C -SIZE --5", "keyword,name,number,keyword,name,number,keyword,name,number,error"),
        ("&again & &1 to: - &x", "name,error,error,label,opcode,name"),
        ('include "a.larger"', "include,include"),
        (' \tinclude \t"two words.larger" \\ "a"', "include,include,include,comment,comment"),
        ('include "a', "name,error"),
        ("include x", "name,name"),
    ],
    "named.transcript": [
        ("profile 2", "head,head"),
        ("route 708,709/708,608", "place,path"),
        ("source two words.source", "source,path,path"),
        ("go", "head"),
        ("> until 709 add+1 x3 20", "prompt,command,at node,word,value,value"),
        ("not reached", "reply,reply"),
        ("> watch 709 right read = 3", "prompt,command,at node,word,word,=,value"),
        ("  1 004 loop", "reply,reply,reply"),
        ("> expect 709 A FF", "prompt,command,at node,word,value"),
        ("refused BadValue", "refused,refused"),
        ("> turn 708", "prompt,command,value"),
        ("> map", "prompt,command"),
        ("> save here", "prompt,bad command,bad command"),
        (". > turn", "reply,reply,reply"),
        ("\\ a comment", "comment,comment,comment"),
    ],
    "other.replay": [
        ("profile 1", "head,head"),
        ("place", "place"),
        ("node 000 go main: jump main", "node,name of a node,name,label,jump,name"),
        ("go", "head"),
        ("try 000 r = moved", "command,at node,word,=,word"),
        ("until 000 003", "bad command,bad command,bad command"),
        ("turn 20 = 16", "command,value,=,value"),
    ],
}
# Texts with a fault: what it is and means, its line and its column, and the file if it is another.
FAULTS = {
    "token.source": ("\\ a comment\nnode 000\n  dup #\n", "BadToken", 3, 7),
    "two words.source": ("node 000 main: jump mian\n", "UndefinedLabel", 1, 21),
    "node.source": ("node 820\n", "BadNode", 1, 6),
    "unext.source": ("node 000\n  unext\n", "UnextAlone", 2, 3),
    "label.larger": ("body B\n  jump gone\nend\nnode 708 use B\n", "UndefinedLabel", 2, 8),
    "neighbour.larger": ("node 708\n  to 710 b!\n", "NoNeighbour", 2, 6),
    "head.transcript": ("profile 2\nplace\nnode 000\n  foo\ngo\n> turn 4\nmoved 5\n", "BadToken", 4, 3),
    "reply.transcript": ("profile 2\nplace\nnode 000 .\ngo\n> turn 4\nmoved 5\n", "differs", 5, 0),
    "early.transcript": ("profile 2\nplace\nnode 000 .\ngo\nfoo\n> turn 4\nmoved 4\n", "EarlyReply", 5, 0),
    "source.transcript": ("profile 2\nplace\nsource token.source\ngo\n> turn 4\nmoved 4\n", "BadToken", 3, 7, "token.source"),
    "side.replay": ("profile 2\nplace\nnode 000 .\ngo\ntry 000 r = moved\ntry 000 x = moved\n", "BadSide", 6, 1),
    "outcome.replay": ("profile 2\nplace\nnode 000 .\ngo\nturn 4 = 5\n", "differs", 5, 1),
}
# Texts with several errors, also in a file that one includes: of each its name, its line and its column, and the file if it is another.
SEVERAL = {
    "two errors.source": ("node 000 frob\nnode 001\n  jump gone\n", [("BadToken", 1, 10), ("UndefinedLabel", 3, 8)]),
    "including.larger": ('include "inner/library.larger"\nnode 708 use B\n include "inner/section.larger"\nnode 709 #\n',
                         [("BadToken", 2, 3, "inner/library.larger"), ("UndefinedLabel", 2, 8, "inner/section.larger"), ("BadToken", 4, 10)]),
    "missing.source": ('node 000 .\n  include "gone.source"\n', [("NoFile", 2, 3)]),
    "malformed.larger": ("node 708 .\n include library.larger\n", [("BadInclude", 2, 2)]),
}  # fmt: skip
INNER = {"inner/library.larger": "body B\n  frob\nend\n", "inner/section.larger": "node 710\n  jump gone"}
# Texts with warnings: what each is, its line and its column.
WARNED = {
    "two warnings.source": ("node 000 main: 5 b! jump main\n  dup\nunused: jump $3F\n", [("Unreachable", 2, 3), ("UnusedLabel", 3, 1), ("OverMemory", 3, 9)]),
    "body.larger": ("body END\n  5 !b\nend\nnode 708,709 use END\n", [("RunsOff", 2, 3), ("RunsOff", 2, 3)]),
}
GOOD = {
    "good.source": "node 000 main: . again: jump again\n",
    "good.larger": "node 000,001 main: . again: jump again\n",
    "good.transcript": "profile 2\nplace\nnode 000 .\ngo\n> turn 4\nmoved 4\n",
    "good.replay": "profile 2\nplace\nnode 000 .\ngo\nturn 4 = 4\n",
}
TASKS = {".source": 0, ".larger": 0, ".transcript": 1, ".replay": 2}


class Counts:
    """The counts of the checks."""

    def __init__(self):
        self.passed, self.failed = 0, 0

    def same(self, what, actual, expected):
        if actual == expected:
            self.passed += 1
        else:
            self.failed += 1
            print(f"FAILED {what}: expected {str(expected)[:300]}, got {str(actual)[:300]}")


def read(path):
    with open(path, encoding="utf-8") as file:
        return file.read()


def opcodes_of_page():
    return re.findall(r"^\| [01][0-9A-F] \| `(\S+)` \|", read(f"{ROOT}/docs/CHIP.md"), re.M)


# What each sign of a text is.


NAME = r"[A-Za-z_][A-Za-z0-9_]{0,15}"


INCLUDING = re.compile(r'[ \t]*include[ \t]+"[^"]+"(?![^ \t\r])')


def kind_in_larger(token, before):
    """What a token is that only the larger language has, or none of it."""
    if before == "node" and re.fullmatch(r"[0-7](0\d|1[0-7])(,[0-7](0\d|1[0-7]))+", token):
        return "name of a node"
    sides = token.split("|")
    fits = {
        "keyword": token in LARGER,
        "name of a number": token in DIRECTIONS or len(sides) > 1 and {*sides} <= {"right", "down", "left", "up"},
        "number": re.fullmatch(r"-\d{1,8}|%[01]{1,18}|'[!-~]'", token),
        "name": re.fullmatch("&" + NAME, token),
    }
    return next((kind for kind, fit in fits.items() if fit and before != "node"), None)


def kind_of_token(token, before, opcodes):
    """What a token of source text is, behind the token before it."""
    if before == "node":
        return "name of a node" if re.fullmatch(r"[0-7](0\d|1[0-7])", token) else "bad node"
    fits = {
        "jump": token in JUMPS,
        "opcode": token in opcodes,
        "name of a number": token in NUMBERS,
        "node": token == "node",
        "keyword": token in ("align", "data"),
        "mark": token in ("[", "]", ",", "/"),
        "number": re.fullmatch(r"\d{1,8}|\$[0-9A-Fa-f]{1,8}", token),
        "name": re.fullmatch(NAME, token),
        "label": re.fullmatch(NAME + ":", token) and token[:-1] not in {*opcodes, *JUMPS, *NUMBERS, "node", "align", "data"},
    }
    return next((kind for kind, fit in fits.items() if fit), "error")


def of_source(lines, opcodes, is_larger=False):
    """For each line the tokens with what they are."""
    before = None
    for line in lines:
        included = INCLUDING.match(line) if is_larger else None
        found = [(token, "include") for token in included[0].split()] if included else []
        for token in re.findall(r"[^ \t\r]+", line[included.end() if included else 0 :]):
            if token == "\\" or found and found[-1][1] == "comment":
                found.append((token, "comment"))
                continue
            added = kind_in_larger(token, before) if is_larger else None
            found.append((token, added or kind_of_token(token, before, opcodes)))
            before = token
        yield found


def of_command(line):
    name, *words = line.split()
    found = [(name, "command")]
    for at, word in enumerate(words):
        if at == 0 and name not in OF_CHIP and re.fullmatch(r"[0-7](0\d|1[0-7])", word):
            found.append((word, "at node"))
        elif word == "=":
            found.append((word, "="))
        else:
            found.append((word, "value" if re.fullmatch(r"x?\d[0-9A-Fa-f]*|[A-F][0-9A-F]+", word) else "word"))
    return found


def of_session(lines, opcodes, is_transcript):
    every = lambda line, kind: [(word, kind) for word in line.split()]
    go = lines.index("go")
    yield every(lines[0], "head")
    yield [(word, "path" if at else "place") for at, word in enumerate(lines[1].split())]
    if lines[2].startswith("source ") and go == 3:
        yield [(word, "path" if at else "source") for at, word in enumerate(lines[2].split())]
    else:
        yield from of_source(lines[2:go], opcodes)
    yield [("go", "head")]
    for line in lines[go + 1:]:
        if not is_transcript:
            yield of_command(line) if line else []
        elif line.startswith("> "):
            yield [(">", "prompt"), *of_command(line[2:])]
        elif line.startswith("\\ "):
            yield every(line, "comment")
        else:
            yield every(line, "refused" if line.startswith("refused ") else "reply")


def kinds(path, opcodes):
    """For each line of an example its tokens with what they are."""
    lines = read(path).split("\n")
    if path.endswith((".source", ".larger")):
        return [*of_source(lines, opcodes, path.endswith(".larger"))]
    return [*of_session(lines, opcodes, path.endswith(".transcript"))]


def expected(lines, column):
    """For each token of the lines its place, itself, and what an editor shows it as."""
    return [(number, token, SHOWN[kind][column]) for number, line in enumerate(lines, 1) for token, kind in line]


def tokens_shown(text, shown):
    """The same for what an editor shows at each sign; `shown` has it for each line and sign, counted from 0."""
    found = []
    for number, line in enumerate(text.split("\n")):
        for it in re.finditer(r"[^ \t\r]+", line):
            groups = {shown(number, at) for at in range(it.start(), it.end())}
            found.append((number + 1, it[0], groups.pop() if len(groups) == 1 else groups))
    return found


def first_difference(actual, wanted):
    return next(((a, w) for a, w in zip(actual, wanted) if a != w), None if len(actual) == len(wanted) else "lengths")


def texts(room, opcodes):
    """All examples, and the texts of MORE, in files: each path with the tokens of its lines."""
    for path in sorted(glob.glob(f"{ROOT}/examples/*/*")):
        if path.endswith((".source", ".larger", ".transcript", ".replay")):
            yield path, kinds(path, opcodes)
    for name, lines in MORE.items():
        with open(f"{room}/{name}", "w", encoding="utf-8") as file:
            file.write("".join(line + "\n" for line, _ in lines))
        yield f"{room}/{name}", [[*zip(line.split(), kinds.split(","), strict=True)] for line, kinds in lines]


# The words.


def words(counts, program, room, opcodes):
    for path, text in for_editors.made(program).items():
        is_there = os.path.exists(f"{ROOT}/{path}")
        counts.same(f"{path} is made by scripts/for_editors.py", is_there and read(f"{ROOT}/{path}") == text, True)
    found = for_editors.read_words(program)
    counts.same("the opcodes", sorted(found.opcodes + found.jumps), sorted(opcodes))
    counts.same("the opcodes with a destination", {*found.jumps}, JUMPS)
    counts.same("the names of numbers", {*found.numbers}, NUMBERS)
    counts.same("the words of the larger language", ({*found.larger}, {*found.directions}), (LARGER, DIRECTIONS))
    counts.same("the commands without a node", {*found.commands}, OF_CHIP)


# VS Code.


class Grammars:
    """As much of TextMate's grammars as these use: match, begin and end, captures, and include."""

    def __init__(self, package):
        self.by_scope = {it["scopeName"]: json.loads(read(f"{VSCODE}/{it['path']}")) for it in package["contributes"]["grammars"]}

    def expanded(self, patterns, grammar):
        for it in patterns:
            name = it.get("include")
            if name is None:
                yield it, grammar
            elif name.startswith("#"):
                rule = grammar["repository"][name[1:]]
                yield from self.expanded([rule] if "begin" in rule else rule["patterns"], grammar)
            else:
                other = self.by_scope[name]
                yield from self.expanded(other["patterns"], other)

    def shown(self, scope, text):
        """For each line and sign the innermost scope."""
        stack, lines = [(self.by_scope[scope], None)], []
        for line in text.split("\n"):
            signs = [None] * len(line)
            self.line(line, 0, signs, stack)
            lines.append(signs)
        return lines

    def line(self, line, at, signs, stack):
        while at <= len(line):
            rule, end = stack[-1]
            found = [(re.compile(end).search(line, at), None, None)] if end else []
            patterns = self.expanded(rule["patterns"], rule.get("grammar", rule))
            found += [(re.compile(it.get("match") or it["begin"]).search(line, at), it, grammar) for it, grammar in patterns]
            found = [it for it in found if it[0]]
            if not found:
                return
            hit, it, grammar = min(found, key=lambda it: it[0].start())
            if it is None:
                self.capture(hit, rule.get("endCaptures", {}), line, signs)
                stack.pop()
            elif "begin" in it:
                self.capture(hit, it.get("beginCaptures", {}), line, signs)
                stack.append(({**it, "grammar": grammar}, it["end"]))
            else:
                self.mark(signs, hit.span(), it)
                self.capture(hit, it.get("captures", {}), line, signs)
            at = hit.end() + (hit.end() == hit.start())

    def mark(self, signs, span, it):
        for at in range(*span):
            signs[at] = it.get("name", signs[at])

    def capture(self, hit, captures, line, signs):
        for group, it in captures.items():
            if hit[int(group)] is not None:
                self.mark(signs, hit.span(int(group)), it)
                if "patterns" in it:
                    self.line(line[:hit.end(int(group))], hit.start(int(group)), signs, [(it, None)])


def vscode(counts, program, room, opcodes):
    package = json.loads(read(f"{VSCODE}/package.json"))
    parts = package["contributes"]
    paths = [it["configuration"] for it in parts["languages"]] + [it["path"] for it in parts["grammars"]]
    counts.same("the files that package.json names", [it for it in paths if not os.path.exists(f"{VSCODE}/{it}")], [])
    made = sorted(f"./syntaxes/{it}" for it in os.listdir(f"{VSCODE}/syntaxes"))
    counts.same("the grammars that package.json names", sorted(it["path"] for it in parts["grammars"]), made)
    json.loads(read(f"{VSCODE}/language-configuration.json"))
    grammars = Grammars(package)
    for it in parts["grammars"]:
        counts.same(f"the scope of {it['path']}", grammars.by_scope[it["scopeName"]]["scopeName"], it["scopeName"])
    languages = {it["extensions"][0]: it["id"] for it in parts["languages"]}
    scopes = {it["language"]: it["scopeName"] for it in parts["grammars"]}
    for path, lines in texts(room, opcodes):
        text = read(path)
        signs = grammars.shown(scopes[languages[os.path.splitext(path)[1]]], text)
        actual = tokens_shown(text, lambda line, at: (signs[line][at] or "nothing").removesuffix(".ga-bench"))
        counts.same(f"the scopes of {os.path.relpath(path, ROOT)}", first_difference(actual, expected(lines, 1)), None)


# Vim.

VIMRC = """set nocompatible encoding=utf-8 shell=/bin/sh
filetype plugin on
syntax on
"""
# Writes the filetype, the last error, and for each sign of each line its group.
LOOK = """let s:shown = []
for s:line in range(1, line('$'))
  let s:at = range(1, strchars(getline(s:line)))
  call add(s:shown, map(s:at, 'synIDattr(synID(s:line, byteidx(getline(s:line), v:val - 1) + 1, 1), "name")'))
endfor
call writefile([json_encode([&filetype, v:errmsg, s:shown])], $SHOWN)
qall!
"""
# Writes the filetype, the last error, the list of errors, and the file, line and column of the first one.
MAKE = """silent make!
let s:errors = map(getqflist(), '[bufname(v:val.bufnr), v:val.lnum, v:val.col, v:val.valid, v:val.text, v:val.type]')
let s:told = v:errmsg
silent! cfirst
call writefile([json_encode([&filetype, s:told, s:errors, [bufname('%'), line('.'), col('.')]])], $SHOWN)
qall!
"""


def by_vim(path, script, room, folder):
    """What a script writes that Vim runs in this file, and what Vim prints."""
    with tempfile.TemporaryDirectory(dir=room) as own:
        for name, text in (("vimrc", VIMRC), ("script", script)):
            with open(f"{own}/{name}", "w", encoding="utf-8") as file:
                file.write(text)
        os.makedirs(f"{own}/.vim/pack/ga-bench/start")
        os.symlink(VIM, f"{own}/.vim/pack/ga-bench/start/ga-bench")
        environment = {**os.environ, "SHOWN": f"{own}/shown", "HOME": own, "PATH": f"{room}/bin:{os.environ['PATH']}"}
        command = ["vim", "-es", "-n", "-i", "NONE", "-u", f"{own}/vimrc", path, "-S", f"{own}/script"]
        streams = {"stdin": subprocess.DEVNULL, "capture_output": True, "text": True}
        told = subprocess.run(command, **streams, env=environment, cwd=folder, timeout=SECONDS, check=False)
        return json.loads(read(f"{own}/shown")) if os.path.exists(f"{own}/shown") else None, told.stdout + told.stderr


def has_vim():
    if shutil.which("vim") is None:
        return False
    told = subprocess.run(["vim", "--version"], stdin=subprocess.DEVNULL, capture_output=True, text=True, check=False).stdout
    return "+syntax" in told and "+quickfix" in told


FILETYPES = {".source": "gasource", ".larger": "galarger", ".transcript": "gatranscript", ".replay": "gasession"}


def vim(counts, program, room, opcodes):
    if not has_vim():
        print("skipped: needs vim with +syntax: what Vim shows")
        return
    every = [*texts(room, opcodes)]
    with ThreadPoolExecutor(os.cpu_count()) as pool:
        found = pool.map(lambda it: by_vim(it[0], LOOK, room, room), every)
        for (path, lines), (shown, told) in zip(every, found):
            name = os.path.relpath(path, ROOT)
            counts.same(f"Vim opens {name}", (shown and shown[:2], told), ([FILETYPES[os.path.splitext(path)[1]], ""], ""))
            if shown:
                text = read(path)
                actual = tokens_shown(text, lambda line, at: shown[2][line][at] or "nothing")
                counts.same(f"the groups of {name}", first_difference(actual, expected(lines, 0)), None)
    others = {"other.source": "deb http://localhost bookworm main\n", "other.transcript": "Hello.\n", "new.source": None}
    for name, text in others.items():
        if text:
            with open(f"{room}/{name}", "w", encoding="utf-8") as file:
                file.write(text)
        shown, told = by_vim(name, LOOK, room, room)
        counts.same(f"the filetype of {name}", (shown and shown[0], told), ("" if text else "gasource", ""))


# Errors.


def reported(path, room, tasks, matchers):
    """What a task of VS Code reports for this file: file, line, column, message and severity of each match."""
    task = tasks[TASKS[os.path.splitext(path)[1]]]
    environment = {**os.environ, "FILE": path, "PATH": f"{room}/bin:{os.environ['PATH']}"}
    told = subprocess.run(["/bin/sh", "-c", task["command"]], stdout=subprocess.PIPE, stderr=subprocess.STDOUT, env=environment,
                          stdin=subprocess.DEVNULL, text=True, timeout=SECONDS, check=False)
    lines = told.stdout.splitlines()
    for name in task["problemMatcher"]:
        patterns = matchers[name.removeprefix("$")]["pattern"]
        patterns = patterns if isinstance(patterns, list) else [patterns]
        for at in range(len(lines) - len(patterns) + 1):
            hits = [re.search(it["regexp"], line) for it, line in zip(patterns, lines[at:])]
            if all(hits):
                groups = {key: hit[it[key]] for it, hit in zip(patterns, hits) for key in it if key != "regexp"}
                place = groups["file"], int(groups["line"]), int(groups["column"] or 0)
                yield *place, groups["message"], groups.get("severity", "error")


def several():
    """The texts with several errors or with warnings: the name of each, the level, and what is reported, with the file of each."""
    for level, texts_with in (("error", SEVERAL), ("warning", WARNED)):
        for name, (_, found) in texts_with.items():
            yield name, level, [(*it, name) if len(it) == 3 else it for it in found]


def errors(counts, program, room, opcodes):
    folder = f"{room}/faults"
    os.makedirs(f"{folder}/inner")
    for name, text in {**{name: it[0] for name, it in (FAULTS | SEVERAL | WARNED).items()}, **INNER, **GOOD}.items():
        with open(f"{folder}/{name}", "w", encoding="utf-8") as file:
            file.write(text)
    tasks = json.loads(read(f"{VSCODE}/tasks.json"))["tasks"]
    matchers = {it["name"]: it for it in json.loads(read(f"{VSCODE}/package.json"))["contributes"]["problemMatchers"]}
    for name, (_, fault, line, column, *other) in FAULTS.items():
        file = other[0] if other else name
        found = [*reported(f"{folder}/{name}", room, tasks, matchers)]
        counts.same(f"VS Code's report of {name}", [it[:3] for it in found], [(f"{folder}/{file}", line, column)])
        counts.same(f"VS Code's message of {name}", [(fault in it[3], it[4]) for it in found], [(True, "error")])
    for name, level, kinds_at in several():
        found = [(*it[:3], it[3].split(":")[0], it[4]) for it in reported(f"{folder}/{name}", room, tasks, matchers)]
        wanted = [(f"{folder}/{file}", line, column, kind, level) for kind, line, column, file in kinds_at]
        counts.same(f"VS Code's report of {name}", found, wanted)
    for name in GOOD:
        counts.same(f"VS Code's reports of {name}", [*reported(f"{folder}/{name}", room, tasks, matchers)], [])
    if not has_vim():
        print("skipped: needs vim with +syntax: `:make`")
        return
    for name, (_, fault, line, column, *other) in FAULTS.items():
        file = other[0] if other else name
        (filetype, told, found, place), _ = by_vim(name, MAKE, room, folder)
        counts.same(f":make of {name}, its error", ([it[:4] for it in found], told), ([[file, line, column, 1]], ""))
        counts.same(f":make of {name}, its text", [(it[4].startswith(fault), it[5]) for it in found], [(True, "E")])
        counts.same(f":make of {name}, where it goes", place, [file, line, max(column, 1)])
    for name, level, kinds_at in several():
        (filetype, told, found, place), _ = by_vim(name, MAKE, room, folder)
        shown = [[*it[:4], it[4].split(":")[0], it[5]] for it in found]
        wanted = [[file, line, column, 1, kind, level[0].upper()] for kind, line, column, file in kinds_at]
        counts.same(f":make of {name}", (shown, told), (wanted, ""))
        counts.same(f":make of {name}, where it goes", place, wanted[0][:3])
    for name in GOOD:
        (filetype, told, found, place), _ = by_vim(name, MAKE, room, folder)
        counts.same(f":make of {name}", ([it for it in found if it[3]], told), ([], ""))


def main(program, *chosen):
    counts, opcodes = Counts(), opcodes_of_page()
    program = os.path.abspath(program)
    for part in [words, vscode, vim, errors]:
        if not chosen or part.__name__ in chosen:
            with tempfile.TemporaryDirectory() as room:
                os.makedirs(f"{room}/bin")
                os.symlink(program, f"{room}/bin/ga-bench")
                try:
                    part(counts, program, room, opcodes)
                except (OSError, ValueError, LookupError, AttributeError, TypeError, subprocess.TimeoutExpired) as error:
                    counts.same(part.__name__, repr(error), "no exception")
    print(f"editors: {counts.passed} passed, {counts.failed} failed")
    return 1 if counts.failed or not counts.passed else 0


if __name__ == "__main__":
    if len(sys.argv) < 2:
        sys.exit(__doc__)
    sys.exit(main(*sys.argv[1:]))
