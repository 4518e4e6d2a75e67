#!/usr/bin/env python3
"""Compares the manual page and the completions with the program's help, and tries them: tests/manual.py PROGRAM

- Each file that scripts/from_help.py makes is the one in the repository, to the byte.
- The page formats without a warning.
- bash, zsh and fish complete the lines of COMPLETED as it has them. A shell or tool that isn't there is named, and
  skipped.

The last line that is printed is 'N passed, M failed'.
"""
import os
import pty
import re
import shutil
import subprocess
import sys
import tempfile

ROOT = os.path.dirname(os.path.dirname(os.path.abspath(__file__)))
sys.dont_write_bytecode = True
sys.path.insert(0, f"{ROOT}/scripts")
import from_help  # noqa: E402

EDGE = {f"{row}{column:02}" for row in range(8) for column in range(18) if row in (0, 7) or column in (0, 17)}
COMMANDS = "one asm dis boot run debug replay expand list lint race map profile report trace check record explain help".split()
# What is completed for a line: all of it, and for a file the names in a folder with these.
FILES = ["first.source", "two words.source", "other.text"]
COMPLETED = {
    "ga-bench ": set(COMMANDS),
    "ga-bench re": {"replay", "record", "report"},
    "ga-bench li": {"list", "lint"},
    "ga-bench help di": {"dis"},
    "ga-bench race --p": {"--place"},
    "ga-bench trace --no": {"--nodes"},
    "ga-bench trace --nodes ": set(),
    "ga-bench record --": {"--any-source", "--write", "--help"},
    "ga-bench list --c": {"--counts"},
    "ga-bench report --t": {"--turns"},
    "ga-bench lint --d": {"--deny"},
    "ga-bench list fi": {"first.source"},
    "ga-bench lint --deny o": {"other.text"},
    "ga-bench check first.source o": {"other.text"},
    "ga-bench debug --place t": {"two words.source"},
    "ga-bench explain NotN": {"NotNeighbour"},
    "ga-bench explain sl": {"slot"},
    "ga-bench explain Un": {"UndefinedLabel", "UnextAlone", "UnknownBody", "UnextRepeats", "UnusedLabel", "Unreachable", "Unreached", "Unmapped"},
    "ga-bench boot ": EDGE,
    "ga-bench boot 70": {name for name in EDGE if name.startswith("70")},
    "ga-bench boot 717,": {"717,716", "717,617"},
    "ga-bench run 708,": {"708,707", "708,709", "708,608"},
    "ga-bench run 708,709,": {"708,709,710", "708,709,609"},
    "ga-bench run 708,709,609,6": {"708,709,609,608", "708,709,609,610"},
    "ga-bench run 708,709/": {"708,709/708"},
    "ga-bench run 708,709/708,": {"708,709/708,707", "708,709/708,608"},
    "ga-bench run 000,100,": {"000,100,101", "000,100,200"},
    "ga-bench run 708,199,": set(),
    "ga-bench run 708 ": set(),
    "ga-bench race --route 708,608,": {"708,608,607", "708,608,609", "708,608,508"},
    "ga-bench race --route=708,608,": {"708,608,607", "708,608,609", "708,608,508"},
    "ga-bench race --route=708,608 fi": {"first.source"},
    "ga-bench race --route=": EDGE,
    "ga-bench race --turns ": set(),
    "ga-bench asm < fi": {"first.source"},
    "ga-bench asm <fi": {"first.source"},
    "ga-bench asm <": {*FILES},
    "ga-bench check first.source > o": {"other.text"},
    "ga-bench asm ": {*FILES},
    "ga-bench one ": set(),
    "ga-bench one 5 t": {"two words.source"},
    "ga-bench run 708 1 200 fi": {"first.source"},
}  # fmt: skip

# Lines of which no shell may run or expand anything when it completes them.
HOSTILE = [
    f"ga-bench {line}" for line in (
        "boot $(touch P)/", "boot `touch P`/", "boot 708,$(touch P),", "boot ${P[$(touch P)]}/", "boot *,", "boot 708,709/$(touch P),",
        "race --route=$(touch P)/", "race --route $(touch P)/", "trace --nodes $(touch P)/", "trace --save $(touch P)/",
        "profile --from $(touch P)/", "explain $(touch P)", "asm $(touch P)/", "asm < $(touch P)/", "$(touch P)", "help $(touch P)",
    )
]  # fmt: skip

# What bash runs for a line with a Tab, at its end if it has none: its arguments, and the name of its input.
TYPED = {
    "ga-bench list $HOM": "list /somewhere",
    "ga-bench list $HOME/": "list /somewhere/",
    "ga-bench asm < fir": "asm first.source",
    "ga-bench race --route=717,6": "race --route=717,617",
    "ga-bench boot < first.source 717,6": "boot 717,617 first.source",
    "ga-bench boot '$(touch P)/\t'": "boot $(touch P)/",
    "ga-bench trace --nodes '`touch P`/\t'": "trace --nodes `touch P`/",
}

BASH = """source "$1"
shift
COMP_WORDS=("$@") COMP_CWORD=$(($# - 1)) COMPREPLY=()
_ga_bench
((${#COMPREPLY[@]} == 0)) || printf '%s\\n' "${COMPREPLY[@]}"
"""
# Runs a shell at a terminal of its own, in which what `compadd` would show is printed, each behind its part before. The
# terminal also shows what is typed, so READY and ENDED are typed in two parts.
ZSH = r"""
zmodload zsh/zpty
zpty inner zsh -f -i
zpty -w inner "PS1= PS2=; stty -echo 2>/dev/null; fpath=($1 \$fpath); autoload -Uz compinit; compinit -u -D"
zpty -w inner '
    compadd() {
        local -a hits
        if [[ ${@[1,(i)(-|--)]} == *-(O|A|D)\ * ]]; then builtin compadd "$@"; return; fi
        builtin compadd -A hits "$@"
        print -l -- "" "HIT "$^IPREFIX$^hits
        builtin compadd "$@"
    }
    ended() { print EN""DED; exit }
    comppostfuncs=(ended)
    bindkey "^I" complete-word
    setopt rcexpandparam
    zstyle ":completion:*" insert-tab false
    print REA""DY
'
zpty -r -m inner line '*READY*'
zpty -w -n inner "$2"$'\t'
zpty -r -m inner line '*ENDED*'
print -r -- "$line"
"""


def run(*command, folder):
    streams = {"stdin": subprocess.DEVNULL, "capture_output": True, "text": True}
    return subprocess.run(command, **streams, cwd=folder, env={**os.environ, "MANWIDTH": "80"}, timeout=60)


def by_bash(line, folder):
    words = re.findall(r"[<>=]+|[^ <>=]+|(?<= )$", line)
    script = run("bash", "-c", BASH, "bash", f"{ROOT}/completions/ga-bench.bash", *words, folder=folder)
    return script.stdout.splitlines() if not script.stderr else [script.stderr]


def by_fish(line, folder):
    script = f"source {ROOT}/completions/ga-bench.fish; complete -C '{line}'"
    found = run("fish", "-N", "-c", script, folder=folder)
    shown = [it.split("\t")[0].removeprefix("--route=") for it in found.stdout.splitlines()]
    return [it.replace("\\ ", " ") for it in shown] if not found.stderr else [found.stderr]


def by_zsh(line, folder):
    found = run("zsh", "-f", "-c", ZSH, "zsh", f"{ROOT}/completions", line, folder=folder)
    hits = [it.strip()[4:] for it in found.stdout.splitlines() if it.strip().startswith("HIT ")]
    hits = [it.removeprefix("--route=") for it in hits]
    # It shows options where nothing else is to be completed.
    return hits if line.split(" ")[-1].startswith("-") else [it for it in hits if not it.startswith("-")]


def typed_in_bash(line, folder):
    """What a line and a Tab run, in bash at a terminal."""
    typist, terminal = pty.openpty()
    shows = 'ga-bench() { input=$(readlink /proc/self/fd/0); echo "$*" ${input##/dev/*}; }'
    tab = "" if "\t" in line else "\t"
    text = f"source {ROOT}/completions/ga-bench.bash; {shows}\n{line}{tab}\nexit\n"
    os.write(typist, text.encode())
    streams = {"stdin": terminal, "stdout": subprocess.PIPE, "stderr": subprocess.DEVNULL}
    command = ["bash", "--norc", "--noprofile", "-i"]
    environment = {**os.environ, "HOME": "/somewhere", "TERM": "dumb"}
    shown = subprocess.run(command, **streams, cwd=folder, env=environment, text=True, timeout=60).stdout
    os.close(typist)
    os.close(terminal)
    return shown.replace(f"{os.path.realpath(folder)}/", "").strip()


SHELLS = {"bash": by_bash, "zsh": by_zsh, "fish": by_fish}


def is_man():
    """Whether man is what its name says. Small systems have a stub in its place."""
    return run("man", "--version", folder=ROOT).stdout.startswith("man ")


def pages():
    """Yields the check of the page by each tool that is there."""
    page = f"{ROOT}/man/ga-bench.1"
    tools = {
        "groff": ["groff", "-man", "-Tutf8", "-ww", "-z", page],
        "mandoc": ["mandoc", "-Tlint", "-Wwarning", page],
        "man": ["man", "--warnings", "-P", "cat", "-l", page],
    }
    for name, command in tools.items():
        if not shutil.which(name) or name == "man" and not is_man():
            print(f"skipped: needs {name}: the page")
            continue
        shown = run(*command, folder=ROOT)
        faults = shown.stderr if name != "mandoc" else shown.stdout
        # The page has no date: nothing that it is made of has one.
        faults = [line for line in faults.splitlines() if "missing date" not in line]
        yield f"the page by {name}: {faults}", not faults and (name != "man" or "GA-BENCH(1)" in shown.stdout)
        if name == "man":
            plain = re.sub(r".\x08|\x1b\[[0-9;]*m", "", shown.stdout)
            wide = [line for line in plain.splitlines() if len(line) > 80]
            yield f"over 80 columns: {wide}", not wide


def was_made(folder):
    """Whether the command of a hostile line has made its file, which is removed then."""
    made = f"{folder}/P"
    return os.path.exists(made) and os.remove(made) is None


def completions():
    """Yields the check of each line in each shell that is there."""
    with tempfile.TemporaryDirectory() as folder:
        for name in FILES:
            with open(f"{folder}/{name}", "w"):
                pass
        for shell, complete in SHELLS.items():
            if not shutil.which(shell):
                print(f"skipped: needs {shell}: its completion")
                continue
            for line, wanted in COMPLETED.items():
                found = complete(line, folder)
                yield f"{shell}: {line!r}: {found}", set(found) == wanted
            for line in HOSTILE:
                # zsh itself completes what is behind `<`, and runs its commands, for each program
                if shell == "zsh" and "<" in line:
                    continue
                complete(line, folder)
                yield f"{shell}: {line!r} runs a command", not was_made(folder)
        for line, wanted in TYPED.items():
            found = typed_in_bash(line, folder)
            yield f"bash at a terminal: {line!r}: {found!r}", found == wanted
            yield f"bash at a terminal: {line!r} runs a command", not was_made(folder)


def wrong(program):
    """Yields each check and whether it passes."""
    for path, text in from_help.made(program).items():
        with open(f"{ROOT}/{path}", encoding="utf-8") as file:
            yield f"{path} isn't of this help: run scripts/from_help.py {program}", file.read() == text
    yield from pages()
    yield from completions()


def main(program):
    results = list(wrong(program))
    failed = [name for name, passes in results if not passes]
    print("".join(f"FAILED {name}\n" for name in failed), end="")
    print(f"manual: {len(results) - len(failed)} passed, {len(failed)} failed")
    return 1 if failed else 0


if __name__ == "__main__":
    if len(sys.argv) != 2:
        sys.exit(__doc__)
    sys.exit(main(os.path.abspath(sys.argv[1])))
