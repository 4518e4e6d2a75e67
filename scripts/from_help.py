#!/usr/bin/env python3
"""Makes the manual page and the completions from the help of ga-bench: scripts/from_help.py PROGRAM [FOLDER]

It writes man/ga-bench.1, and completions/ with ga-bench.bash, _ga-bench for zsh, and ga-bench.fish, into the
repository or into FOLDER. All they have is read from `PROGRAM --help`, the help of each command, and the names that
`PROGRAM explain` writes. Run it when help has changed; tests/manual.py compares.

An operand or a value is completed by its name in the help: FILE, ROUTE, NAME or COMMAND. Others aren't completed.
"""
import os
import re
import subprocess
import sys
import textwrap
from collections import namedtuple

ROOT = os.path.dirname(os.path.dirname(os.path.abspath(__file__)))
MADE = "Made by scripts/from_help.py from the program's help; change that, and not this file."

# A command's help: what it does in a line, its usage, its arguments, options and commands, and the paragraphs behind.
Help = namedtuple("Help", "name summary usage arguments options commands text")
# An entry: the names of an option, or the name of an argument or command; the value of an option; what it is.
Entry = namedtuple("Entry", "names value about")


def output(program, *arguments):
    """What the program prints for these arguments."""
    streams = {"stdin": subprocess.DEVNULL, "stdout": subprocess.PIPE}
    return subprocess.run([program, *arguments], **streams, text=True, check=True).stdout


def entries(lines):
    """The entries of a section of help."""
    found = []
    for line in lines:
        if re.match(r" {2,6}[-<\[\w]", line):
            left, _, about = line.strip().partition("  ")
            words = left.replace(",", " ").split()
            value = words.pop() if left.startswith("-") and words[-1].startswith("<") else None
            found.append(Entry(words, value and value.strip("<>"), about.strip()))
        else:
            last = found.pop()
            found.append(last._replace(about=f"{last.about} {line.strip()}".strip()))
    return found


def read_help(program, name=""):
    """Reads the help of a command, or that of the program."""
    summary, usage, *rest = output(program, *name.split(), "--help").strip().split("\n\n")
    sections = {"Arguments:": [], "Options:": [], "Commands:": []}
    while rest and rest[0].split("\n")[0] in sections:
        heading, *lines = rest.pop(0).split("\n")
        sections[heading] = entries(lines)
    return Help(name, summary, usage.removeprefix("Usage: "), *sections.values(), rest)


def kind(argument):
    """The kind of an operand, by the name in its brackets."""
    return re.sub(r"[^A-Z]", "", argument.names[0])


def is_list(argument):
    return argument.names[0].endswith("...")


# The manual page.

SEE = "The pages docs/.. that are named above, and worked programs, are in the folder share/doc/ga-bench."

ESCAPES = {
    "\\": "\\e", "-": "\\-", "'": "\\(aq", "`": "\\(ga", "^": "\\(ha", "~": "\\(ti",
}  # fmt: skip


def roff(text):
    """A text as roff has it."""
    escaped = "".join(ESCAPES.get(sign, sign) for sign in text)
    return re.sub(r"^\.", r"\\&.", escaped, flags=re.M)


def filled_roff(text):
    return roff(textwrap.fill(text, 78, break_on_hyphens=False, break_long_words=False))


def listing(text):
    """Lines as they are. Those of 70 columns and more begin further left, to end within 80."""
    widest = max(map(len, text.splitlines()))
    return [".PP", f".in {min(9, 79 - widest)}n", ".EX", roff(text), ".EE", ".in"]


def table(text):
    """Rows of two columns: a row begins two columns in, and what is further in goes on with the one above."""
    rows = re.sub(r"\n {4,}", " ", text).splitlines()
    for row in rows:
        left, about = re.split(" {2,}", row.strip(), maxsplit=1)
        yield from [".TP", roff(left), filled_roff(about)]


def paragraph(text):
    """A paragraph of help: an example, a table, or running text."""
    example, *rest = re.split(r"^More: ", text.removeprefix("Example: "), flags=re.M)
    more = [".PP", filled_roff(f"More: {rest[0]}")] if rest else []
    if text.startswith("Example: "):
        return [".PP", "Example:", *listing(example.rstrip("\n")), *more]
    if text.startswith("  "):
        return [*table(text)]
    return [".PP", filled_roff(text)]


def described(found):
    """A list of options, arguments or commands."""
    for it in found:
        value = f" \\fI{roff(it.value)}\\fR" if it.value else ""
        names = ", ".join(f"\\fB{roff(name)}\\fR" for name in it.names)
        yield from [".TP", names + value, filled_roff(it.about)]


def section(command):
    """The section of a command."""
    page = [f'.SS "ga\\-bench {command.name}"', f"{roff(command.summary)}.", ".PP"]
    page += [f"Usage: \\fB{roff(command.usage)}\\fR"]
    page += [*described(command.arguments), *described(command.options)]
    return page + [line for text in command.text for line in paragraph(text)]


def manual(version, top, commands):
    *about, status = top.text
    page = [f'.\\" {MADE}', f'.TH GA\\-BENCH 1 "" "{version}" "User Commands"', ".SH NAME"]
    page += [f"ga\\-bench \\- {roff(top.summary[0].lower() + top.summary[1:])}", ".SH SYNOPSIS", ".nf"]
    page += [roff(it.usage) for it in commands] + [".fi", ".SH DESCRIPTION"]
    page += [line for text in about for line in paragraph(text)][1:]
    page += [".PP", "The commands are:", *described(top.commands)]
    page += [".SH OPTIONS", *described(top.options), ".SH COMMANDS"]
    page += [line for it in commands for line in section(it)]
    page += [".SH EXIT STATUS", filled_roff(status.removeprefix("Exit status: ")), ".SH SEE ALSO", filled_roff(SEE)]
    return "\n".join(page) + "\n"


# Completions. In each shell a function has the nodes with which a route may go on: at first those at the chip's edge,
# and for a further route of a tree the first node; then the neighbours of the last node that aren't named yet.


def flags(options):
    return [name for it in options for name in it.names]


def kinds_of_values(commands):
    """The options with a value, and the kind of it."""
    return {name: it.value for command in commands for it in command.options if it.value for name in it.names}


BASH = r"""
_ga_bench_route() {
    local head=${1%"${1##*[,/]}"} route=${1##*/} last nodes=() row column node is_node='^[0-7](0[0-9]|1[0-7])$'
    last=${head##*/}
    last=${last%,}
    last=${last##*,}
    if [[ $route == *,* ]]; then
        [[ $last =~ $is_node ]] || return
        row=${last:0:1} column=$((10#${last:1}))
        ((column == 17)) || nodes+=("$row$(printf %02d $((column + 1)))")
        ((column == 0)) || nodes+=("$row$(printf %02d $((column - 1)))")
        ((row == 7)) || nodes+=("$((row + 1))${last:1}")
        ((row == 0)) || nodes+=("$((row - 1))${last:1}")
    elif [[ $head ]]; then
        nodes=("${head%%[,/]*}") last=
        [[ ${nodes[0]} =~ $is_node ]] || return
    else
        nodes=({0,7}{00..17} {1..6}{00,17})
    fi
    for node in "${nodes[@]}"; do
        [[ $last && ,${head//\//,} == *,$node,* ]] || printf '%s%s\n' "$head" "$node"
    done
}

_ga_bench() {
    local word=${COMP_WORDS[COMP_CWORD]} before=${COMP_WORDS[COMP_CWORD - 1]} options operands kind at
    local candidates candidate
    COMPREPLY=()
    # Of --route=708 bash makes three words.
    if [[ $before == = ]]; then
        before=${COMP_WORDS[COMP_CWORD - 2]}
    elif [[ $word == = ]]; then
        word=
    fi
    case $((COMP_CWORD > 1))${COMP_WORDS[1]} in
    0*) options=(@TOP@) operands=(COMMAND) ;;
@COMMANDS@
    *) return ;;
    esac
    # The operands before this word, without options and their values, show which one it is.
    for ((at = 2; at < COMP_CWORD; at++)); do
        case ${COMP_WORDS[at]} in
        @VALUED@) [[ ${COMP_WORDS[at + 1]} != = ]] && ((at++)) || ((at += 2)) ;;
        *[\<\>]*) ((at++)) ;;
        -?*) ;;
        *) [[ ${operands[0]-} == *... ]] || operands=("${operands[@]:1}") ;;
        esac
    done
    kind=${operands[0]-}
    [[ $word != -* ]] || kind=options
    if [[ $word == *[\<\>] ]]; then
        kind=FILE word=
    elif [[ $before == *[\<\>]* ]]; then
        kind=FILE
    fi
    case $before in
@VALUES@
    esac
    case $kind in
    FILE*)
        mapfile -t COMPREPLY < <(compgen -f -- "$word")
        compopt -o filenames -o default 2>/dev/null
        return
        ;;
    ROUTE)
        mapfile -t candidates < <(_ga_bench_route "$word")
        compopt -o nospace 2>/dev/null
        ;;
    COMMAND) candidates=(@NAMES@) ;;
    NAME)
        candidates=(@EXPLAINED@)
        ;;
    options) candidates=("${options[@]}") ;;
    *) return ;;
    esac
    # `compgen -W` would expand what is typed, and run its commands.
    for candidate in "${candidates[@]}"; do
        [[ $candidate != "$word"* ]] || COMPREPLY+=("$candidate")
    done
} && complete -o bashdefault -F _ga_bench ga-bench
"""


def wrapped(words):
    """Words with spaces or line ends between them."""
    return textwrap.fill(" ".join(words), 90, subsequent_indent=" " * 12)


def operands(command):
    return [kind(it) + ("..." if is_list(it) else "") for it in command.arguments]


def filled(template, **parts):
    for name, text in parts.items():
        template = template.replace(f"@{name.upper()}@", text)
    return f"# {MADE}\n{template}"


def bash(top, commands, names):
    row = "    1{}) options=({}) operands=({}) ;;".format
    rows = [row(it.name, " ".join(flags(it.options)), " ".join(operands(it))) for it in commands]
    rows += [row("help", "", "COMMAND")]
    values = kinds_of_values(commands)
    return filled(
        BASH,
        top=" ".join(flags(top.options)),
        commands="\n".join(rows),
        valued=" | ".join(values),
        values="\n".join(f"    {name}) kind={value} ;;" for name, value in values.items()),
        names=" ".join(it.names[0] for it in top.commands),
        explained=wrapped(names),
    )


ZSH = r"""
_ga_bench_route() {
    local route=${PREFIX##*/} head=${PREFIX%${PREFIX##*[,/]}} last row column
    local -a nodes taken
    last=${${${head##*/}%,}##*,}
    if [[ $route == *,* ]]; then
        [[ $last == [0-7](0[0-9]|1[0-7]) ]] || return 1
        row=$last[1] column=${last[2,3]#0}
        ((column == 17)) || nodes+=($row${(l:2::0:)$((column + 1))})
        ((column == 0)) || nodes+=($row${(l:2::0:)$((column - 1))})
        ((row == 7)) || nodes+=($((row + 1))$last[2,3])
        ((row == 0)) || nodes+=($((row - 1))$last[2,3])
        taken=(${(s:,:)${head//\//,}})
        nodes=(${nodes:|taken})
    elif [[ -n $head ]]; then
        nodes=(${head%%[,/]*})
    else
        nodes=({0,7}{00..17} {1..6}{00,17})
    fi
    compset -P '*[,/]'
    compadd -S '' -a nodes
}

# `_files` runs the commands in a word.
_ga_bench_file() {
    [[ $PREFIX == *(\$\(|\`)* ]] || _files
}

_ga-bench() {
    local curcontext=$curcontext state line
    local -a commands=(
@COMMANDS@
    )
    _arguments -C @TOP@ '1:command:->command' '*::operand:->operand'
    case $state in
    command) _describe command commands ;;
    operand)
        case $words[1] in
@OPERANDS@
        help) _arguments '1:command:->command' && return ;;
        esac
        [[ $state == command ]] && _describe command commands
        ;;
    esac
}

_ga-bench "$@"
"""
ZSH_KINDS = {"FILE": "_ga_bench_file", "ROUTE": "_ga_bench_route", "NAME": "(@EXPLAINED@)"}


def in_quotes(text):
    return text.replace("'", "'\\''")


def zsh_option(it):
    about = re.sub(r"([\[\]:])", r"\\\1", in_quotes(it.about))
    value = f":{it.value}:{ZSH_KINDS.get(it.value, '')}" if it.value else ""
    others = f"'({' '.join(it.names)})'" if len(it.names) > 1 else ""
    names = [name + "=" * (it.value is not None and name.startswith("--")) for name in it.names]
    names = f"{{{','.join(names)}}}" if len(names) > 1 else names[0]
    return f"{others}{names}'[{about}]{value}'"


def zsh_operands(command):
    found = [zsh_option(it) for it in command.options]
    for number, it in enumerate(command.arguments, 1):
        place = "*" if is_list(it) else number
        found.append(f"'{place}:{kind(it)}:{ZSH_KINDS.get(kind(it), '')}'")
    return " ".join(found)


def zsh(top, commands, names):
    abouts = [(it.names[0], in_quotes(it.about).replace(":", "\\:")) for it in top.commands]
    text = filled(
        ZSH,
        top=" ".join(map(zsh_option, top.options)),
        commands="\n".join(f"        '{name}:{about}'" for name, about in abouts),
        operands="\n".join(f"        {it.name}) _arguments {zsh_operands(it)} ;;" for it in commands),
        explained=wrapped(names),
    )
    return f"#compdef ga-bench\n{text}"


FISH = r"""
function __ga_bench_route
    set -l word (string replace -r -- '^-[^=]*=' '' (commandline -ct))
    set -l head (string match -r '^.*[,/]' -- $word)
    set -l taken (string split -n -- , (string replace -a -- / , "$head"))
    set -l nodes
    if string match -q '*,' -- "$head"
        set -l last $taken[-1]
        string match -qr '^[0-7](0[0-9]|1[0-7])$' -- $last; or return
        set -l row (string sub -l 1 $last)
        set -l column (string sub -s 2 $last)
        test $column = 17; or set -a nodes $row(printf %02d (math $column + 1))
        test $column = 00; or set -a nodes $row(printf %02d (math $column - 1))
        test $row = 7; or set -a nodes (math $row + 1)$column
        test $row = 0; or set -a nodes (math $row - 1)$column
    else if test -n "$head"
        set nodes $taken[1]
        set taken
    else
        set -l columns (printf '%02d\n' (seq 0 17))
        set nodes {0,7}$columns {1,2,3,4,5,6}{00,17}
    end
    for node in $nodes
        contains $node $taken; or echo "$head"$node
    end
end

complete -c ga-bench -f
@ENTRIES@
"""


def fish_option(condition, it):
    names = " ".join(f"-s {name[1:]}" if len(name) == 2 else f"-l {name[2:]}" for name in it.names)
    value = ""
    if it.value:
        value = " -x -a '(__ga_bench_route)'" if it.value == "ROUTE" else " -x"
    return f"complete -c ga-bench -n '{condition}' {names}{value} -d '{fish_text(it.about)}'"


def fish_text(text):
    return text.replace("\\", "\\\\").replace("'", "\\'")


def fish(top, commands, names):
    first = "__fish_use_subcommand"
    lines = [fish_option(first, it) for it in top.options]
    for it in top.commands:
        lines += [f"complete -c ga-bench -n {first} -a {it.names[0]} -d '{fish_text(it.about)}'"]
    kinds = {"ROUTE": "-a '(__ga_bench_route)'", "FILE": "-F", "NAME": f"-a '{' '.join(names)}'"}
    for command in commands:
        seen = f"__fish_seen_subcommand_from {command.name}"
        lines += [fish_option(seen, it) for it in command.options]
        for number, it in enumerate(command.arguments):
            place = seen
            if kind(it) == "ROUTE":
                place += f"; and test (count (commandline -opc)) = {number + 2}"
            elif number:
                place += f"; and test (count (commandline -opc)) -ge {number + 2}"
            if kind(it) in kinds:
                lines += [f"complete -c ga-bench -n '{place}' {kinds[kind(it)]}"]
    every = " ".join(it.names[0] for it in top.commands)
    lines += [f"complete -c ga-bench -n '__fish_seen_subcommand_from help' -a '{every}'"]
    return filled(FISH, entries="\n".join(lines))


def made(program):
    """The text of each file, by its path."""
    top = read_help(program)
    commands = [read_help(program, it.names[0]) for it in top.commands if it.names[0] != "help"]
    names = output(program, "explain").split()
    return {
        "man/ga-bench.1": manual(output(program, "--version").strip(), top, commands),
        "completions/ga-bench.bash": bash(top, commands, names),
        "completions/_ga-bench": zsh(top, commands, names),
        "completions/ga-bench.fish": fish(top, commands, names),
    }


def main(program, folder=ROOT):
    for path, text in made(program).items():
        os.makedirs(os.path.dirname(f"{folder}/{path}"), exist_ok=True)
        with open(f"{folder}/{path}", "w", encoding="utf-8") as file:
            file.write(text)


if __name__ == "__main__":
    if len(sys.argv) not in (2, 3):
        sys.exit(__doc__)
    main(os.path.abspath(sys.argv[1]), *sys.argv[2:])
