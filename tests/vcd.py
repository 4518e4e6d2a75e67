#!/usr/bin/env python3
"""Reads waveforms, and compares them with other runs: python3 tests/vcd.py PROGRAM [--turns N]

A reader of VCD (IEEE 1364), which shares nothing with the program, reads what `trace` writes: the declarations, and then the
value changes with their times. It refuses an identifier that isn't declared or is declared twice, a time that doesn't grow, a
value that doesn't fit its signal, and a change to the value that is there already.

Then each turn is made by tries, one after the other, in a session of `record`. At each time the last values have to be those that
the session shows: what each node did, by `where` and by the outcome of its try; its opcode; the address of its word, with the
label that the source has there; its registers; and the words at its ports, also those that are read in the turn in which they are
posted.

The sessions are those of worked programs, of recorded cases, with their breakpoints, and of some programs for races. Then come
save files, and a waveform that is longer than the memory of its run. The last line is 'vcd: N passed, M failed', a session, a
save file or this waveform each; the exit status is 0 if M is 0. tests/answers.py uses the same reader.
"""
import argparse
import json
import os
import re
import resource
import shutil
import subprocess
import sys
import tempfile
from collections import namedtuple
from concurrent.futures import ProcessPoolExecutor

from sessions import Transcript

ROOT = os.path.dirname(os.path.dirname(os.path.abspath(__file__)))
NODES = [f"{row}{column:02}" for row in range(8) for column in range(18)]
SIDES = {"r": "right", "d": "down", "l": "left", "u": "up"}
WIDTHS = {"busy": 1, "p": 10, "t": 18, "s": 18, "r": 18, "a": 18, "b": 9, "io": 18}
STRINGS = ["did", "at", "op"]
REGISTERS = ["P", "T", "S", "R", "A", "B", "io"]
# What a node did by a step, and why it made none, by its need.
STEP = {"own": "works", "take": "takes_{}", "post": "posts_{}", "check": "sees_{}_read", "input": "takes_input"}
REST = {
    "own": "held", "take": "awaits_word", "post": "awaits_reader", "check": "awaits_reader", "input": "awaits_input", "stopped": "stopped",
}  # fmt: skip
# Worked programs, and how many turns are made before.
EXAMPLES = {"ring/ring": 0, "queue/queue": 600, "fir/fir_pipelined": 1400, "token_ring/token_ring": 1500, "two_nodes/two_nodes": 90}
SECONDS = 60
# In how many seconds of processor time a waveform is refused for its length: some three times what it takes.
MOST_SECONDS = 30
UNMET = r"ga-bench: \d+ expectations? failed, (?:the first )?in line \d+\n"
# Pairs of nodes that go on for ever. In FOR_EVER_TURNS turns their waveform has more bytes than the run has memory.
FOR_EVER = "".join(
    f"node 7{column:02} right b! again: $15555 !b jump again\nnode 7{column + 1:02} right b! again: @b drop jump again\n"
    for column in range(0, 18, 2)
)
FOR_EVER_TURNS, KIB = 150000, 65536


class Wrong(Exception):
    """What is wrong with an answer."""


def demand(holds, what):
    if not holds:
        raise Wrong(what)


class Waveform:
    """The signals by their paths, and for each time the changes in order."""

    def __init__(self, text):
        self.signals, self.paths, self.times, self.end = {}, {}, [], None
        demand(text.endswith("\n"), "the last line isn't ended")
        lines = text.split("\n")[:-1]
        demand("$enddefinitions $end" in lines, "the declarations don't end")
        head = lines.index("$enddefinitions $end")
        self.declare(lines[:head])
        self.change(lines[head + 1 :])

    def declare(self, lines):
        scope, unit = [], 0
        for line in lines:
            words = line.split(" ")
            demand(words[-1] == "$end", f"{line!r} isn't ended")
            if words[0] == "$timescale":
                demand(words[1:-1] == ["1", "ns"], "another unit")
                unit += 1
            elif words[0] == "$scope":
                demand(len(words) == 4 and words[1] == "module", f"{line!r} is no scope")
                scope.append(words[2])
            elif words[0] == "$upscope":
                demand(len(words) == 2 and scope, f"{line!r} ends no scope")
                scope.pop()
            elif words[0] == "$var":
                self.signal(scope, words[1:-1])
            else:
                demand(words[0] == "$comment", f"{line!r} declares nothing")
        demand(not scope and unit == 1, "a scope is open, or there isn't one unit")

    def signal(self, scope, words):
        demand(len(words) in (4, 5) and words[1].isdecimal(), f"{words} declare no signal")
        kind, width, identifier, name = words[:4]
        demand(kind in ("wire", "reg", "string"), f"{kind} is no type")
        demand(re.fullmatch("[!-~]+", identifier), f"{identifier!r} is no identifier")
        demand(words[4:] in ([], [f"[{int(width) - 1}:0]"]), f"the bits of {name} aren't {width}")
        path = ".".join([*scope, name])
        demand(path not in self.paths, f"{path} is declared twice")
        demand(identifier not in self.signals, f"{identifier} is declared twice")
        self.paths[path] = identifier
        self.signals[identifier] = (kind, int(width))

    def change(self, lines):
        # another address may have the same label and distance, as 003 and 043, so `at` may be written again
        values, again = {}, {it for path, it in self.paths.items() if path.endswith(".at")}
        for line in lines:
            if line.startswith("#"):
                demand(re.fullmatch("#(0|[1-9][0-9]*)", line), f"{line!r} is no time")
                time = int(line[1:])
                demand(not self.times or self.times[-1][0] < time, f"time {time} doesn't grow")
                demand(not self.times or self.times[-1][1], f"nothing changes before time {time}")
                self.times.append((time, {}))
                continue
            demand(self.times, f"{line!r} comes before all times")
            identifier, value = self.value(line)
            demand(values.get(identifier, "") != value or identifier in again, f"{line!r} at {self.times[-1][0]} changes nothing")
            demand(identifier not in self.times[-1][1], f"{identifier} changes twice at {self.times[-1][0]}")
            self.times[-1][1][identifier] = values[identifier] = value
        demand(self.times and not self.times[-1][1], "the last time has changes")
        demand(set(values) == (set(self.signals) if len(self.times) > 1 else set()), "a signal has no value")
        self.end = self.times[-1][0]

    def value(self, line):
        """The identifier and the value that a line gives it: a text, a number, or None for z."""
        if line[:1] in ("0", "1"):
            identifier, value, kinds = line[1:], int(line[0]), [("wire", 1)]
        elif line[:1] == "s":
            demand(line.count(" ") == 1, f"{line!r} has blanks")
            value, identifier = line[1:].split(" ")
            kinds = [("string", 1)]
        else:
            found = re.fullmatch("b(z|0|1[01]*) ([!-~]+)", line)
            demand(found, f"{line!r} is no value")
            identifier, value = found[2], None if found[1] == "z" else int(found[1], 2)
            kinds = [(kind, width) for kind in ("wire", "reg") for width in range(max(2, len(found[1])), 19)]
        demand(identifier in self.signals, f"{identifier!r} isn't declared")
        demand(self.signals[identifier] in kinds, f"{line!r} doesn't fit its signal")
        return identifier, value

    def nodes(self):
        """The nodes that it shows, in order, each with all its signals but ports."""
        nodes = [path.split(".")[1][1:] for path in self.paths if path.endswith(".did")]
        for name in [*STRINGS, *WIDTHS]:
            for node in nodes:
                identifier = self.paths.get(f"chip.n{node}.{name}")
                width = identifier and self.signals[identifier][1]
                demand(width == WIDTHS.get(name, 1), f"{name} of {node} has {width} bits")
        return nodes

    def turns(self):
        """For each turn the last value of each signal, by its path."""
        names = {identifier: path for path, identifier in self.paths.items()}
        values, at = {}, 0
        for turn in range(self.end):
            if self.times[at][0] == turn:
                values = {**values, **{names[it]: value for it, value in self.times[at][1].items()}}
                at += 1
            yield values


# ---- What a session shows of the same turns.


def commands_of(nodes, turns):
    """Commands that make turns by tries, and show what these nodes do in them."""
    commands = []
    for turn in range(turns):
        commands += ["where", *(f"{shown} {node}{more}" for node in nodes for shown, more in (("regs", ""), ("expect", " at 000")))]
        for node in NODES:
            commands += [f"try {node} {'rdlu'[turn % 4]}", *[f"sides {node}"] * (node in nodes)]
        commands += [f"{shown} {node}" for node in nodes for shown in ("regs", "sides")]
    return commands


# What is shown of a node before a turn: its need with the sides, its opcode or its place, the address of its word, all of its
# registers, and the address of the word that it fetched last.
Stand = namedtuple("Stand", "need sides op at registers word")
# The most steps of a loop of a node that spins; and opcodes that change what `regs` doesn't show, or an unknown word.
LONGEST_SPIN = 4
DEEP = {None, "!p", "!+", "!b", "!", "@p", "@+", "@b", "@", "dup", "pop", "push", "over", "a", "+", "and", "or", "drop", "b!", "a!", "call", ";"}


class Session:
    """The turns of a session, by the replies to these commands, and the images of its nodes."""

    def __init__(self, replies, images, nodes):
        self.replies, self.images, self.nodes = iter(replies), images, nodes
        # For each turn, where each node stands before it, and whether it makes an own step in it.
        self.stands, self.words = [], {}

    def turns(self, count):
        """What each turn shows, by path, as far as the turns behind it show which nodes spin; and the nodes of which they don't."""
        shown = [self.turn(turn) for turn in range(count + LONGEST_SPIN)][:count]
        for turn, signals in enumerate(shown):
            loops = {node: self.loop(turn, node) for node in self.nodes}
            for node, opcodes in loops.items():
                if opcodes:
                    signals |= {f"chip.n{node}.did": "spins", f"chip.n{node}.busy": 0}
            yield signals, [node for node, opcodes in loops.items() if DEEP & opcodes]

    def loop(self, turn, node):
        """The opcodes of at most four own steps, one in each turn, that lead a node back to where it stands before a turn, as far
        as `regs` shows it; or none."""
        (here, works), opcodes = self.stands[turn][node], set()
        there = here
        if here.word is None:
            opcodes.add(None)
        for stands in self.stands[turn + 1 : turn + 1 + LONGEST_SPIN]:
            if not works:
                break
            opcodes.add(there.op)
            there, works = stands[node]
            if there._replace(word=here.word and there.word) == here:
                return opcodes
        return set()

    def turn(self, turn):
        """What a turn shows, by path."""
        where = {line[:3]: line for line in next(self.replies)}
        stands = {node: self.stand(node, where.get(node, "")) for node in self.nodes}
        outcomes, posted = {}, {}
        for node in NODES:
            outcomes[node] = next(self.replies)[0]
            posted[node] = words_posted(next(self.replies)) if node in self.nodes else {}
        works = {node: outcomes[node] == "moved" and stand.need == "own" for node, stand in stands.items()}
        self.stands.append({node: (stand, works[node]) for node, stand in stands.items()})
        shown = {}
        for node in self.nodes:
            path, stand = f"chip.n{node}", stands[node]
            moved = outcomes[node] == "moved"
            side = stand.sides[0] if len(stand.sides) == 1 else SIDES["rdlu"[turn % 4]]
            rest = "held" if outcomes[node] == "held" else REST[stand.need]
            shown[f"{path}.did"] = STEP[stand.need].format(side) if moved else rest
            shown[f"{path}.at"] = label_or(self.images.get(int(node)), stand.at)
            shown[f"{path}.op"], shown[f"{path}.busy"] = stand.op, int(moved)
            registers = registers_in(next(self.replies)[0])
            shown.update((f"{path}.{name.lower()}", int(registers[name], 16)) for name in REGISTERS)
            ports = words_posted(next(self.replies))
            if moved and stand.need == "post":
                port = next(name for name in ports if name.startswith(side))
                ports[port] = posted[node][port]
            shown.update((f"{path}.{name}", word) for name, word in ports.items())
        return shown

    def stand(self, node, line):
        """What a node is about to do: by its line of `where`, if it has one, and the replies to `regs` and `expect`."""
        registers, at = registers_in(next(self.replies)[0]), next(self.replies)[0]
        address = int(at.partition(", is ")[2] or "000", 16) | int(registers["P"], 16) & 0x200
        opcode = re.search(f" {registers['at']} ([^ ]+) {registers['need']}", line)
        asked = re.search(f" {registers['need']} ((?:right|down|left|up) of .*)", line)
        sides = [it.split()[0] for it in asked[1].split(" and ")] if asked else []
        state = {name: value for name, value in registers.items() if name != "steps"}
        if registers["at"].startswith("slot"):
            self.words[node] = address
        return Stand(registers["need"], sides, opcode[1] if opcode else registers["at"], address, state, self.words.get(node))


def registers_in(line):
    """What a line of `regs` shows, by name."""
    words = line.split(" ")[2:]
    return dict(zip(words[::2], words[1::2]))


def words_posted(lines):
    """The word that a node posted at each side and that isn't read, by the name of the port: from a reply to `sides`."""
    fields = [line.split() for line in lines]
    return {f"{it[0]}_to_{it[1]}": None if it[5] == "none" else int(it[5], 16) for it in fields}


def label_or(image, address):
    """The last label at an address or before it, and the distance, or the address."""
    index = address % 0x200 % 0x40
    before = [at for at in image.labels.values() if at <= index] if image and address % 0x200 < 0x80 else []
    if not before:
        return f"{address:03X}"
    name = next(name for name, at in image.labels.items() if at == max(before))
    return name + (f"+{index - max(before)}" if index > max(before) else "")


def compare(wave, session, turns):
    """Compares the first turns of a waveform with those of a session."""
    for turn, (shown, (expected, unsure)) in enumerate(zip(wave.turns(), session.turns(turns))):
        for node in unsure:
            demand((shown[f"chip.n{node}.did"], shown[f"chip.n{node}.busy"]) in {("works", 1), ("spins", 0)}, f"{node} does other things")
            expected |= {path: shown[path] for path in (f"chip.n{node}.did", f"chip.n{node}.busy")}
        demand(set(shown) == set(expected), f"there are other signals: {sorted(set(shown) ^ set(expected))[:4]}")
        wrong = [path for path in expected if shown[path] != expected[path]]
        demand(not wrong, f"at {turn}: {', '.join(f'{it} is {shown[it]}, not {expected[it]}' for it in wrong[:4])}")


def compare_end(wave, nodes, replies):
    """Compares the last values of a waveform with what `regs` and `sides` show of its nodes behind the turns."""
    shown = {}
    for shown in wave.turns():
        pass
    for node, line, ports in zip(nodes, replies[::2], replies[1::2]):
        expected = {name.lower(): int(registers_in(line[0])[name], 16) for name in REGISTERS} | words_posted(ports)
        for name, value in expected.items() if shown else []:
            # a word that was posted in the last turn is there, even if it was read in it
            if shown[f"chip.n{node}.did"] != f"posts_{name.partition('_')[0]}":
                demand(shown.get(f"chip.n{node}.{name}", "") == value, f"{name} of {node} isn't {value} in the end")


# ---- Sessions.


def of_examples():
    """Worked programs, from a turn on in which their nodes are busy."""
    for name, turns in EXAMPLES.items():
        with open(f"{ROOT}/examples/{name}.transcript", encoding="utf-8") as file:
            text = file.read()
        yield text[: text.index("\ngo\n") + 4] + f"> turn {turns}\n"


def of_cases(file):
    """The recorded sessions of a file that load a chip, with their commands."""
    with open(f"{ROOT}/tests/{file}", encoding="utf-8") as lines:
        cases = [json.loads(line) for line in lines]
    texts = (case.get("text") or case.get("stdin", "") for case in cases if case.get("status", 0) == 0)
    for text in texts:
        head, go, commands = text.partition("\ngo\n")
        if head.startswith("profile 2\n") and go:
            yield head + go + "".join(f"> {line}\n" for line in commands.split("\n") if line)


def sessions():
    cases = {text: 0 for file in ("cases/debug.jsonl", "cases/trees_debug.jsonl") for text in of_cases(file)}
    races = {text: 0 for text in of_cases("races.jsonl")}
    return [*of_examples(), *cases, *[*races][::10]]


def output_of(program, arguments, text):
    done = subprocess.run([program, *arguments], input=text, capture_output=True, timeout=SECONDS, text=True)
    held = done.returncode == 0 or re.fullmatch(UNMET, done.stderr)
    demand(held, f"{arguments}: {done.stderr}")
    return done.stdout


def fault_of(program, text, turns):
    """What is wrong with the waveform of the turns behind a session, or None."""
    try:
        wave = Waveform(output_of(program, ["trace", "--turns", str(turns)], text))
        nodes = wave.nodes()
        run = Transcript(output_of(program, ["record"], text + f"> run {turns}\n")).exchanges[-1].reply[0]
        demand(run.startswith(f"turns {wave.end} "), f"it has {wave.end} turns, and there are other: {run}")
        commands = commands_of(nodes, wave.end + LONGEST_SPIN)
        session = Transcript(output_of(program, ["record"], text + "".join(f"> {it}\n" for it in commands)))
        demand(nodes == [f"{node:03}" for node in sorted(session.head.images)], "it shows other nodes")
        replies = [it.reply for it in session.exchanges[len(session.exchanges) - len(commands) :]]
        compare(wave, Session(replies, session.head.images, nodes), wave.end)
    except Wrong as fault:
        return str(fault)
    return None


# ---- Save files.


def run(program, folder, *arguments):
    """The status, the output and the errors of `trace` in a folder."""
    command = [program, "trace", *arguments]
    done = subprocess.run(command, capture_output=True, timeout=SECONDS, text=True, cwd=folder, stdin=subprocess.DEVNULL)
    return done.returncode, done.stdout, done.stderr


def save_faults(program):
    """What is wrong with save files: each names signals of its waveform alone, in order, and replaces the file before; one that
    can't be written is reported by its name, without a waveform; and FILE stays. A fault or None for each check."""
    with tempfile.TemporaryDirectory() as folder:
        for name in ("ring", "send"):
            shutil.copy(f"{ROOT}/examples/{name}/{name}.source", f"{folder}/it.source")
            for nodes in ([], ["--nodes", "708"]):
                status, output, errors = run(program, folder, *nodes, "--turns", "60", "--save", "it.gtkw", "it.source")
                with open(f"{folder}/it.gtkw", encoding="utf-8") as file:
                    saved = re.findall(r"^chip\.(n\d{3}\.\w+)", file.read(), re.M)
                shown = [key.removeprefix("chip.") for key in signals_of(output)]
                is_right = (status, errors) == (0, "") and saved and {*saved} <= {*shown} and len({*saved}) == len(saved)
                is_right = is_right and [it[:4] for it in saved] == sorted(it[:4] for it in saved)
                yield None if is_right else f"{name} {nodes}: {saved} of {shown}"
        for name, fault in ((".", ".: input NotAFile"), ("none/it.gtkw", "none/it.gtkw: write, No such file or directory (os error 2)")):
            answer = run(program, folder, "--save", name, "it.source")
            yield None if answer == (1, "", f"ga-bench: {fault}\n") else f"{name}: {answer}"
        # Standard input is no file, so its save file may have any name.
        words = [program, "trace", "--turns", "5", "--save", "-"]
        status = subprocess.run(words, input=b"node 000 .", cwd=folder, capture_output=True, timeout=60).returncode
        yield None if status == 0 and os.path.getsize(f"{folder}/-") else f"a save file with the name -: {status}"
        os.symlink("it.source", f"{folder}/link")
        os.link(f"{folder}/it.source", f"{folder}/twin")
        for name in ("it.source", "./it.source", "link", "twin"):
            status, output, errors = run(program, folder, "--save", name, "it.source")
            with open(f"{folder}/it.source", encoding="utf-8") as file:
                is_left = "node 708" in file.read()
            is_right = (status, output) == (2, "") and is_left and "would replace FILE" in errors
            yield None if is_right else f"FILE as a save file, by the name {name}: {status} {errors}"


def is_sanitized(program):
    """Whether a program has an address sanitizer. It needs more memory, and is slow."""
    with open(program, "rb") as file:
        return b"__asan_init" in file.read()


def fault_of_memory(program):
    """What is wrong with a waveform that is longer than the memory of its run, or None. A program with an address sanitizer has no
    limit, and makes few turns."""
    has_limit = not is_sanitized(program)
    limit, turns = (f"ulimit -S -v {KIB} && ", FOR_EVER_TURNS) if has_limit else ("", 300)
    command = ["bash", "-c", limit + 'exec "$0" "$@"', program, "trace", "--turns", str(turns)]
    with tempfile.TemporaryFile() as output:
        done = subprocess.run(command, input=FOR_EVER.encode(), stdout=output, stderr=subprocess.PIPE, timeout=SECONDS)
        size, end = os.fstat(output.fileno()).st_size, f"\n#{turns}\n".encode()
        output.seek(max(0, size - len(end)))
        is_whole = output.read() == end
    is_right = done.returncode == 0 and is_whole and (size > 1024 * KIB or not has_limit)
    return None if is_right else f"a long waveform: status {done.returncode}, {done.stderr}, {size} bytes"


def fault_of_length(program):
    """What is wrong with the refusal of a waveform of more than 256 MiB, or None: all nodes work for ever, and it comes in seconds."""
    if is_sanitized(program):
        return None
    text = "".join(f"node {name} top: dup drop . . dup drop . . jump top\n" for name in NODES)
    before = resource.getrusage(resource.RUSAGE_CHILDREN).ru_utime
    done = subprocess.run([program, "trace"], input=text, capture_output=True, text=True)
    took = resource.getrusage(resource.RUSAGE_CHILDREN).ru_utime - before
    is_right = (done.returncode, done.stdout, done.stderr) == (1, "", "ga-bench: output TooLong\n") and took < MOST_SECONDS
    return None if is_right else f"too long a waveform: status {done.returncode}, {done.stderr}, {took:.1f} s"


def signals_of(output):
    """The names of the signals that a waveform declares, in their scopes."""
    scopes, names = [], []
    for words in map(str.split, output.splitlines()):
        if words[:1] == ["$scope"]:
            scopes.append(words[2])
        elif words[:1] == ["$upscope"]:
            scopes.pop()
        elif words[:1] == ["$var"]:
            names.append(".".join([*scopes, words[4]]))
    return names


def main():
    parser = argparse.ArgumentParser()
    parser.add_argument("program")
    parser.add_argument("--turns", type=int, default=60)
    options = parser.parse_args()
    program, texts = os.path.abspath(options.program), sessions()
    with ProcessPoolExecutor() as pool:
        faults = list(pool.map(fault_of, [program] * len(texts), texts, [options.turns] * len(texts)))
    for text, fault in zip(texts, faults):
        if fault is not None:
            print(f"FAILED {fault}\n{text}")
    saves = [*save_faults(program), fault_of_memory(program), fault_of_length(program)]
    for fault in saves:
        if fault is not None:
            print(f"FAILED {fault}")
    faults += saves
    failed = sum(fault is not None for fault in faults)
    print(f"vcd: {len(faults) - failed} passed, {failed} failed")
    sys.exit(failed != 0 or not faults)


if __name__ == "__main__":
    main()
