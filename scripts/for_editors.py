#!/usr/bin/env python3
"""Makes the syntax files for Vim and VS Code from the program's words: scripts/for_editors.py PROGRAM [FOLDER]

It writes editors/vim/syntax/ and editors/vscode/syntaxes/ into the repository or into FOLDER. The words are the
program's: opcodes as `dis` shows them, reserved words those in `explain ReservedLabel` that `asm` refuses as labels,
words of the larger language those of LARGER that `expand` refuses as names of constants, and commands the lines of
`help` at the prompt. Run it when they have changed; tests/editors.py compares.

`tokens` has one entry for each kind of token, for both editors: a new kind is a new entry.
"""
import json
import os
import re
import subprocess
import sys
import tempfile
from collections import namedtuple

ROOT = os.path.dirname(os.path.dirname(os.path.abspath(__file__)))
MADE = "Made by scripts/for_editors.py from the program's words; change that, and not this file."

# Lists of words: opcodes without a destination, and those with one; reserved words that are numbers, and the others;
# words of the larger language that are numbers, and the others; commands with a node behind them and without, in
# transcripts, and which of them sessions and replay texts have.
Words = namedtuple("Words", "opcodes jumps numbers keywords directions larger node_commands commands session")
# A kind of token: its name, what Vim and VS Code show it as, and its pattern, in what Python and Oniguruma share.
Token = namedtuple("Token", "name vim scope pattern")

NAME = "[A-Za-z_][A-Za-z0-9_]{0,15}"
NODE = "[0-7](?:0[0-9]|1[0-7])"
LARGER = "const body end use to north east south west".split()
SIDE = "(?:right|down|left|up)"
# A number behind a command. Registers and labels may look like hex digits, too.
VALUE = "(?:x?[0-9][0-9A-Fa-f]{0,6}|[A-F][0-9A-F]{1,6})"
HEAD = "profile 2\nplace\nnode 000 .\ngo\n"


def ran(program, text, *arguments):
    """What the program prints for this input, its errors too."""
    streams = {"stdout": subprocess.PIPE, "stderr": subprocess.STDOUT}
    return subprocess.run([program, *arguments], input=text, **streams, text=True, check=False).stdout


def opcodes(program):
    """The 32 opcodes, each with whether a destination is behind it, as `dis` shows them in slot 0."""
    for code in range(32):
        word = (code ^ 0x0A) << 13 | 0x009B2
        name, behind = re.search(r"\[ (\S+) (\S+)", ran(program, f"{word:05X}\n", "dis")).groups()
        yield name, behind.startswith("$")


def reserved(program, known):
    """The reserved words that aren't these opcodes, each with whether it is a number."""
    text = ran(program, "", "explain", "ReservedLabel").split("\n\n")[0]
    for word in dict.fromkeys(re.findall(r"[a-z]+", text)):
        if word not in known and "ReservedLabel" in ran(program, f"node 000 {word}: .", "asm"):
            yield word, ran(program, f"node 000 jump {word}", "asm").startswith("node ")


def larger(program):
    """The words of the larger language, each with whether it is a number."""
    for word in LARGER:
        if "ReservedName" in ran(program, f"const {word} 1\n", "expand"):
            yield word, "$" in ran(program, f"node 308 {word}\n", "expand")


def refuses(program, mark, command, *arguments):
    """Whether this command isn't known behind `go`, with the mark in front of it."""
    return ran(program, f"{HEAD}{mark}{command}\n", *arguments).endswith("refused BadCommand\n")


def helped(program):
    """The commands in the help of the prompt, each with the words behind it there."""
    with tempfile.NamedTemporaryFile("w", encoding="utf-8") as file:
        file.write(HEAD)
        file.flush()
        lines = ran(program, "help\n", "debug", file.name).splitlines()
    return [re.match(r"(\S+)((?: \S+)*)", line).groups() for line in lines if "  " in line]


def read_words(program):
    every = dict(opcodes(program))
    named, added = dict(reserved(program, every)), dict(larger(program))
    forms = {name: words for name, words in helped(program) if not refuses(program, "> ", name, "record")}
    at_nodes = [name for name, words in forms.items() if words.startswith(" NNN")]
    return Words(
        [name for name, jumps in every.items() if not jumps],
        [name for name, jumps in every.items() if jumps],
        [name for name, is_number in named.items() if is_number],
        [name for name, is_number in named.items() if not is_number],
        [name for name, is_number in added.items() if is_number],
        [name for name, is_number in added.items() if not is_number],
        at_nodes,
        [name for name in forms if name not in at_nodes],
        [name for name in forms if not refuses(program, "", name, "debug")],
    )


def any_of(words):
    return "(?:" + "|".join(re.sub(r"(\W)", r"\\\1", word) for word in words) + ")"


def added_tokens(words):
    """The kinds of tokens that only the larger language has."""
    return [
        Token("Include", "Include", "keyword.control.import", r'include[ \t]+"[^"]+"'),
        Token("Keyword", "PreProc", "keyword.other", any_of(words.larger)),
        Token("NumberName", "Constant", "constant.language", any_of(words.directions)),
        Token("NumberName", "Constant", "constant.language", rf"{SIDE}(?:\|{SIDE})+"),
        Token("Number", "Number", "constant.numeric", "(?:-[0-9]{1,8}|%[01]{1,18}|'[!-~]')"),
        Token("Name", "Identifier", "variable.other", "&" + NAME),
    ]


def expression():
    """The tokens that may be expressions, and those that are one name or number."""
    number = rf"(?:[0-9]{{1,8}}|\$[0-9A-Fa-f]{{1,8}}|%[01]{{1,18}}|'[!-~]'|{NAME})"
    part = rf"(?:-?[(])*-?{number}"
    operator = "(?:[<]{2}|[>]{2}|[-+*/|]|%|&)"
    return rf"{part}(?:[)]*{operator}{part})*[)]*"


def tokens(words, is_larger):
    """The kinds of tokens of source text. The first that fits is shown."""
    every = words.opcodes + words.jumps + words.numbers + words.keywords
    sections = [word for word in words.keywords if word != "node"]
    return [
        Token("Comment", "Comment", "comment.line.backslash", r"\\(?!\S).*"),
        Token("Error", "Error", "invalid.illegal", any_of(every) + ":"),
        Token("Label", "Label", "entity.name.function.label", NAME + ":"),
        Token("Jump", "Conditional", "keyword.control", any_of(words.jumps)),
        Token("Opcode", "Statement", "support.function", any_of(words.opcodes)),
        Token("NumberName", "Constant", "constant.language", any_of(words.numbers)),
        Token("Node", "PreProc", "keyword.other", "node"),
        Token("Keyword", "PreProc", "keyword.other", any_of(sections)),
        *(added_tokens(words) if is_larger else []),
        Token("Mark", "Delimiter", "punctuation.definition", any_of(["[", "]", ",", "/"])),
        Token("Number", "Number", "constant.numeric", r"(?:[0-9]{1,8}|\$[0-9A-Fa-f]{1,8})"),
        Token("Name", "Identifier", "variable.other", NAME),
        *([Token("Number", "Number", "constant.numeric", expression())] if is_larger else []),
        Token("Error", "Error", "invalid.illegal", r"\S+"),
    ]


def node_names(is_larger):
    """What may stand behind `node`."""
    return rf"{NODE}(?:,{NODE})*" if is_larger else NODE


# What else is shown, and as what. In Vim each name is used in one file only, or a file that includes another changes it.
SHOWN = {
    "NodeName": ("Type", "entity.name.type"),
    "BadNode": ("Error", "invalid.illegal"),
    "Head": ("PreProc", "keyword.other"),
    "Path": ("String", "string.unquoted"),
    "Prompt": ("Delimiter", "punctuation.definition"),
    "Command": ("Statement", "keyword.control"),
    "AtNode": ("Type", "entity.name.type"),
    "Value": ("Number", "constant.numeric"),
    "Word": ("Identifier", "variable.other"),
    "Outcome": ("Operator", "keyword.operator"),
    "Reply": ("String", "string.unquoted"),
    "Refused": ("WarningMsg", "markup.deleted"),
    "BadCommand": ("Error", "invalid.illegal"),
}


# Vim.


def vim(pattern):
    """A pattern as Vim has it."""
    very_magic = re.sub(r"[%&](?!\()", r"\\\g<0>", pattern.replace("(?:", "%("))
    very_magic = very_magic.replace(r"(?!\S)", r"\S@!").replace('"', r"\"")
    return f'"\\v{very_magic}"'


def whole(pattern):
    """The pattern of a whole token."""
    return rf"(?<!\S){pattern}(?!\S)"


def vim_match(name, pattern, *more):
    return " ".join([f"syntax match ga{name}", *more, vim(pattern).replace(r"(?<!\S)", r"\S@1<!")])


def vim_file(what, name, lines, links):
    links = [f"highlight default link ga{kind} {group}" for kind, group in dict(links).items()]
    head = [f'" Vim syntax file: {what} of ga-bench.', f'" {MADE}', 'if exists("b:current_syntax")', "  finish", "endif", ""]
    return "\n".join([*head, *(it.rstrip("\n") for it in lines), "", *links, "", f'let b:current_syntax = "{name}"', ""])


def vim_source(words, is_larger=False):
    lines = ['" Of two that begin at one place, Vim takes the later one.', vim_match("BadNode", r"\S+", "contained")]
    for it in reversed(tokens(words, is_larger)):
        pattern = it.pattern if it.name == "Comment" else it.pattern + r"(?!\S)"
        more = ["nextgroup=gaNodeName,gaBadNode,gaComment skipwhite skipempty"] if it.name == "Node" else []
        lines += [vim_match(it.name, r"(?<!\S)" + pattern, *more)]
    lines += [vim_match("NodeName", whole(node_names(is_larger)), "contained")]
    links = [(it.name, it.vim) for it in tokens(words, is_larger)]
    links += [(name, SHOWN[name][0]) for name in ("NodeName", "BadNode")]
    if is_larger:
        return vim_file("larger source text", "galarger", lines, links)
    return vim_file("source text", "gasource", lines, links)


def vim_commands(words, of_sessions):
    """The lines of commands, behind the mark or from the line's start on."""
    known = lambda names: any_of([it for it in names if not of_sessions or it in words.session])
    contained = "contained nextgroup={} skipwhite".format
    return [
        vim_match("BadCommand", r"\S.*$", "contained"),
        vim_match("Command", known(words.commands) + r"(?!\S)", contained("gaArguments")),
        vim_match("Command", known(words.node_commands) + r"(?!\S)", contained("gaAtNode,gaArguments")),
        vim_match("Arguments", r"\S.*$", "contained contains=gaWord,gaValue,gaOutcome"),
        vim_match("Word", r"\S+", "contained"),
        vim_match("Value", whole(VALUE), "contained"),
        vim_match("Outcome", whole(r"\="), "contained"),
        vim_match("AtNode", whole(NODE), "contained nextgroup=gaArguments skipwhite"),
    ]


VIM_FIRST = ["syntax sync fromstart", "syntax include @gaSource syntax/gasource.vim", "unlet b:current_syntax", ""]
# The head: the profile, how the chip is loaded, and the source text or the name of its file.
VIM_HEAD = r"""
syntax region gaSession matchgroup=gaHead start="\v%^profile [12]$" end="\v^go$" keepend
  \ contains=@gaSource,gaPlace,gaFile
syntax match gaPlace contained "\v%2l^place$"
syntax match gaPlace contained "\v%2l^route " nextgroup=gaPath
syntax match gaFile contained "\v%3l^source .+\n%(go$)@=" contains=gaFileWord
syntax match gaFileWord contained "\v^source " nextgroup=gaPath
syntax match gaPath contained "\v\S.*$"
"""


def vim_session(words):
    lines = [*VIM_FIRST, vim_match("Line", r"^\S@=", "nextgroup=gaCommand,gaBadCommand"), *vim_commands(words, True), VIM_HEAD]
    return vim_file("sessions and replay texts", "gasession", lines, session_links())


def vim_transcript(words):
    lines = [*VIM_FIRST, vim_match("Reply", "^.+$"), vim_match("Refused", r"^refused .*$"), vim_match("Comment", r"^\\ .*$")]
    lines += [vim_match("Prompt", r"^\> ", "nextgroup=gaCommand,gaBadCommand"), *vim_commands(words, False), VIM_HEAD]
    return vim_file("transcripts", "gatranscript", lines, session_links())


def session_links():
    shown = [(name, group) for name, (group, _) in SHOWN.items() if name not in ("NodeName", "BadNode")]
    return shown + [("Place", "PreProc"), ("FileWord", "PreProc")]


# VS Code: grammars of TextMate, whose patterns are Oniguruma's.


def scoped(scope):
    return {"name": f"{scope}.ga-bench"}


def captured(*names):
    """The scopes of the groups of a pattern."""
    return {str(at): scoped(SHOWN[name][1]) for at, name in enumerate(names, 1)}


def grammar(name, title, repository, patterns):
    found = {"information_for_contributors": [MADE], "name": title, "scopeName": f"source.ga-bench.{name}"}
    found |= {"patterns": patterns, "repository": repository}
    return json.dumps(found, indent=2) + "\n"


def vscode_source(words, is_larger=False):
    node = rf"(?<!\S)(node)(?:[ \t]+({node_names(is_larger)})(?!\S)|[ \t]+(?!\\(?!\S))(\S+)|(?!\S))"
    patterns = []
    for it in tokens(words, is_larger):
        end = "" if it.name == "Comment" else r"(?!\S)"
        patterns += [scoped(it.scope) | {"match": rf"(?<!\S){it.pattern}{end}"}]
        if it.name == "Node":
            patterns[-1] = {"match": node, "captures": captured("Head", "NodeName", "BadNode")}
    name, title = ("larger", "ga-bench larger source") if is_larger else ("source", "ga-bench source")
    return grammar(name, title, {"token": {"patterns": patterns}}, [{"include": "#token"}])


HEAD_PATTERNS = [
    {"match": r"^(place)$", "captures": captured("Head")},
    {"match": r"^(route) (\S.*)$", "captures": captured("Head", "Path")},
    {"match": r"^(source) (\S.*)$", "captures": captured("Head", "Path")},
    {"include": "source.ga-bench.source"},
]
HEAD_OF_SESSION = {
    "begin": r"^(profile [12])$",
    "beginCaptures": captured("Head"),
    "end": r"^(go)$",
    "endCaptures": captured("Head"),
    "patterns": HEAD_PATTERNS,
}
ARGUMENTS = [
    scoped(SHOWN["Outcome"][1]) | {"match": whole(r"\=")},
    scoped(SHOWN["Value"][1]) | {"match": whole(VALUE)},
    scoped(SHOWN["Word"][1]) | {"match": r"\S+"},
]


def vscode_commands(words, mark, of_sessions):
    """The patterns of commands behind this mark."""
    known = lambda names: any_of([it for it in names if not of_sessions or it in words.session])
    start, names = (f"^({mark})", ["Prompt"]) if mark else ("^", [])
    group = len(names) + 3
    node = {"match": rf"{start}({known(words.node_commands)})(?: +({NODE})(?!\S)|(?!\S))(.*)$"}
    other = {"match": rf"{start}({known(words.commands)})(?!\S)(.*)$"}
    arguments = {"patterns": ARGUMENTS}
    return [
        node | {"captures": captured(*names, "Command", "AtNode") | {str(group): arguments}},
        other | {"captures": captured(*names, "Command") | {str(group - 1): arguments}},
        {"match": rf"{start}(\S.*)$", "captures": captured(*names, "BadCommand")},
    ]


def vscode_session(words):
    repository = {"head": HEAD_OF_SESSION, "command": {"patterns": vscode_commands(words, "", True)}}
    return grammar("session", "ga-bench session", repository, [{"include": "#head"}, {"include": "#command"}])


def vscode_transcript(words):
    lines = [
        scoped("comment.line.backslash") | {"match": r"^\\ .*$"},
        scoped(SHOWN["Refused"][1]) | {"match": "^refused .*$"},
        scoped(SHOWN["Reply"][1]) | {"match": "^(?!> ).+$"},
    ]
    repository = {"head": HEAD_OF_SESSION, "command": {"patterns": vscode_commands(words, "> ", False)}}
    repository |= {"line": {"patterns": lines}}
    included = [{"include": f"#{name}"} for name in repository]
    return grammar("transcript", "ga-bench transcript", repository, included)


def made(program):
    """The text of each file, by its path."""
    words = read_words(program)
    return {
        "editors/vim/syntax/gasource.vim": vim_source(words),
        "editors/vim/syntax/galarger.vim": vim_source(words, is_larger=True),
        "editors/vim/syntax/gasession.vim": vim_session(words),
        "editors/vim/syntax/gatranscript.vim": vim_transcript(words),
        "editors/vscode/syntaxes/source.tmLanguage.json": vscode_source(words),
        "editors/vscode/syntaxes/larger.tmLanguage.json": vscode_source(words, is_larger=True),
        "editors/vscode/syntaxes/session.tmLanguage.json": vscode_session(words),
        "editors/vscode/syntaxes/transcript.tmLanguage.json": vscode_transcript(words),
    }


def main(program, folder=ROOT):
    for path, text in made(program).items():
        os.makedirs(os.path.dirname(f"{folder}/{path}"), exist_ok=True)
        with open(f"{folder}/{path}", "w", encoding="utf-8") as file:
            file.write(text)


if __name__ == "__main__":
    if len(sys.argv) not in (2, 3):
        sys.exit(__doc__)
    main(os.path.abspath(sys.argv[1]), *sys.argv[2:])
