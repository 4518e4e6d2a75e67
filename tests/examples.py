#!/usr/bin/env python3
"""Runs the worked programs of examples/, and compares their data: tests/examples.py PROGRAM [NAME..]

A worked program is three files in a folder of examples/:
  NAME.source      the source text
  NAME.transcript  a session with its replies, with this source in its head
  NAME.replay      a text of `replay`, with this source in its head
If its nodes share code, there is a fourth one:
  NAME.larger      a text that expands to the words of the source
Of each, or of those that are named, `check` accepts the transcript, and `record` writes it as it is; the replay text
holds; both have the source; and the row of docs/EXAMPLES.md has the program's nodes, words, steps and verdict. Each other
transcript of the folder whose name begins with NAME is checked and recorded too.

Then the program is run with other data, at the limits of its range too, and its results are compared with
numbers that this file computes itself, without the bench: a product is Python's product.

The last line that is printed is 'N passed, M failed', and the exit status is 0 if M is 0 and N isn't.
"""
import binascii
import glob
import os
import random
import re
import subprocess
import sys
from concurrent.futures import ThreadPoolExecutor

SECONDS = 60
ROOT = os.path.dirname(os.path.dirname(os.path.abspath(__file__)))
ROW = [f"{node}" for node in range(708, 715)]
RING = ["708", "709", "710", "711", "611", "610", "609", "608"]
TAPS = [f"{node}" for node in range(709, 717)]
TREE = [["708", "709", "710"], ["708", "709", "609"], ["708", "608"], ["708", "707"]]
WORDS = 1 << 18
NODES = [f"{row}{column:02}" for row in range(8) for column in range(18)]
# Programs whose session has one node more than the source, behind it, which sends it something.
MORE = {"echo"}
EDGES = [0, 1, 2, 3, 0xFFFF, 0x10000, 0x10001, 0x1FFFE, 0x1FFFF]
EDGES += [0x20000, 0x20001, 0x2FFFF, 0x30000, 0x30001, 0x3FFFE, 0x3FFFF]


class Bench:
    """The program under test, and the counts of the checks."""

    def __init__(self, program):
        self.program, self.passed, self.failures = os.path.abspath(program), 0, []

    def run(self, arguments, text):
        """Returns the lines that the program writes, and fails if its status isn't 0."""
        ran = subprocess.run([self.program, *arguments.split()], input=text, capture_output=True, text=True, timeout=SECONDS)
        if ran.returncode:
            raise ValueError(f"{arguments}: status {ran.returncode}, {ran.stderr.strip()}")
        return ran.stdout.splitlines()

    def same(self, what, came, wanted):
        if came == wanted:
            self.passed += 1
        else:
            self.failures.append(f"{what}: expected {shown(wanted)}, got {shown(came)}")

    def images(self, source):
        """Returns for each node the number of its words of code, and its words."""
        found = {}
        for line in self.run("asm", source):
            if head := re.match(r"node (\d+) entry \w+ code (\d+) words \d+$", line):
                found[head[1]] = words = (int(head[2]), [])
            else:
                words[1].extend(int(word, 16) for word in line.split())
        return found

    def session(self, head, source, commands):
        """Returns the replies to the commands, on a chip with this source."""
        return self.run("debug", "\n".join(["profile 2", head, source + "go", *commands, ""]))

    def memories(self, head, source, commands, nodes):
        """Returns the memory of each of these nodes behind the commands, which have one line of reply each."""
        lines = self.session(head, source, [*commands, *(f"mem {node}" for node in nodes)])[len(commands):]
        words = [int(word, 16) for line in lines for word in line.split()[1:]]
        return {node: words[64 * at:64 * at + 64] for at, node in enumerate(nodes)}


def shown(value):
    if isinstance(value, (list, tuple)):
        text = "[" + " ".join(f"{it:05X}" if isinstance(it, int) else str(it) for it in value) + "]"
    else:
        text = str(value)
    return text if len(text) <= 300 else text[:297] + ".."


def read(name, kind):
    with open(f"{folder_of(name)}/{name}.{kind}", encoding="utf-8") as text:
        return text.read()


def folder_of(name):
    """The folder of a worked program."""
    return os.path.dirname(glob.glob(f"{ROOT}/examples/*/{name}.source")[0])


def field(line, name):
    """Returns the hex number behind this name in the line of a node."""
    return int(re.search(rf" {name} (\w+)", line)[1], 16)


def with_words(source, label, words, node=None):
    """Returns the source with these words behind a label of its data, in one node or in its only one."""
    start = source.index(f"node {node}") if node else 0
    lines = "".join(f"  , {word}\n" for word in words)
    found = re.compile(rf"^{label}:\n(  ,.*\n)+", re.M).search(source, start)
    return source[:found.start()] + f"{label}:\n{lines}" + source[found.end():]


def on_all_nodes(bench, source, cases, turns, place):
    """Runs a program of one node with many data, 144 at once; `place` puts the data of a case into the source.

    Yields each case with the words of data that its node holds in the end.
    """
    code = [*bench.images(source).values()][0][0]
    for at in range(0, len(cases), len(NODES)):
        some = cases[at:at + len(NODES)]
        text = "".join(place(re.sub(r"^node \d+", f"node {node}", source, flags=re.M), case) for node, case in zip(NODES, some))
        memories = bench.memories("place", text, [f"turn {turns}", "turn 4"], NODES[:len(some)])
        for node, case in zip(NODES, some):
            yield case, memories[node][code:]


def pulse(bench, source, chance):
    """The pin is high for as many consecutive steps as the source states, and it is high once."""
    for rounds in [0, 1, 2, 3, 96, 200]:
        text = re.sub(r"(rounds:\n  , )\d+", rf"\g<1>{rounds}", source)
        lines = bench.session("place", text, ["try 600 r", "regs 600"] * (rounds + 30))
        pins = [field(line, "io") for line in lines[1::2]]
        high = [at for at, pin in enumerate(pins) if pin == 0x30000]
        bench.same(f"pulse of {rounds} rounds, its width", len(high), rounds + 4)
        bench.same(f"pulse of {rounds} rounds, in one piece", high, list(range(high[0], high[0] + len(high))))
        bench.same(f"pulse of {rounds} rounds, low before and after", {*pins[:high[0]]} | {*pins[high[-1] + 1:]}, {0, 0x20000})
    text = re.sub(r"(rounds:\n  , )\d+", r"\g<1>$3FFFF", source)
    widest = 0x40003
    lines = bench.session("place", text, ["turn 9", "regs 600", f"turn {widest - 1}", "regs 600", "turn 1", "regs 600"])
    bench.same("the widest pulse", [field(line, "io") for line in lines[1::2]], [0x30000, 0x30000, 0x20000])


def crc(bench, source, chance):
    """CRC-16 as Python's binascii has it, over lists of 1 to 42 words."""
    lists = [[0], [0xFFFF], [0x3FFFF], [0] * 42, [0xFFFF] * 42, [0x3FFFF] * 42, [0x3132, 0x3334, 0x3536, 0x3738]]
    lists += [[chance.randrange(WORDS) for _ in range(length)] for length in range(1, 43) for _ in range(4)]
    place = lambda text, words: with_words(text, "list", [len(words) - 1, *words])
    for words, data in on_all_nodes(bench, source, lists, 10000, place):
        given = b"".join((word & 0xFFFF).to_bytes(2, "big") for word in words)
        bench.same(f"CRC-16 of {shown(words)}", data[0], binascii.crc_hqx(given, 0xFFFF))
    bench.same("CRC-16 of 12345678, as it is known", binascii.crc_hqx(b"12345678", 0xFFFF), 0xA12B)


def product(bench, source, chance):
    """Products of any two words without sign: all pairs at the edges, and others."""
    pairs = [(first, second) for first in EDGES for second in EDGES]
    pairs += [(0x2F00D, 0x1ABCD)] + [(chance.randrange(WORDS), chance.randrange(WORDS)) for _ in range(463)]
    place = lambda text, pair: with_words(with_words(text, "first", [pair[0]]), "second", [pair[1]])
    for (first, second), data in on_all_nodes(bench, source, pairs, 1000, place):
        wanted = first * second
        bench.same(f"{first:05X} times {second:05X}", data[:4], [first, second, wanted >> 18, wanted % WORDS])


def division(bench, source, chance):
    """Quotients and remainders in the whole range of divisors, and a dividend beyond it that goes wrong."""
    cases = [
        (high, low, divisor)
        for divisor in [1, 2, 3, 0xFFFF, 0x10000, 0x10001, 0x1FFFE, 0x1FFFF, 0x20000]
        for high in sorted({0, 1, divisor // 2, divisor - 2, divisor - 1})
        if 0 <= high < divisor
        for low in [0, 1, 0x1FFFF, 0x20000, 0x3FFFE, 0x3FFFF]
    ]
    cases.append((0x12, 0x34567, 0x1ABC))
    for _ in range(300):
        divisor = chance.choice([chance.randrange(1, 0x20001), chance.randrange(1, 1 << chance.randrange(1, 18))])
        cases.append((chance.randrange(divisor), chance.randrange(WORDS), divisor))
    place = lambda text, case: with_words(with_words(with_words(text, "high", case[:1]), "low", case[1:2]), "divisor", case[2:])
    for (high, low, divisor), data in on_all_nodes(bench, source, cases, 2000, place):
        wanted = [high, low, divisor, *divmod(high << 18 | low, divisor)]
        bench.same(f"{high:05X} {low:05X} by {divisor:05X}", data[:5], wanted)
    for (high, low, divisor), data in on_all_nodes(bench, source, [(0, 0, 0x20001)], 2000, place):
        bench.same("the divisor 20001 is out of range", data[3:5] == [0, 0], False)


def long_sum(bench, source, chance):
    """Sums of 36 bits, all pairs at the edges and others, also of a program that goes round with the carry of the last sum."""
    edges = [0, 1, 0x1FFFF, 0x20000, 0x3FFFE, 0x3FFFF, 0x40000, 0x40001, 0x7FFFFFFFF, 0x800000000, 0xFFFFC0000, 0xFFFFFFFFE, 0xFFFFFFFFF]
    pairs = [(first, second) for first in edges for second in edges]
    pairs += [(chance.randrange(WORDS ** 2), chance.randrange(WORDS ** 2)) for _ in range(263)]
    split = lambda pair: [[number % WORDS for number in pair], [number >> 18 for number in pair]]
    place = lambda text, pair: with_words(with_words(text, "low", split(pair)[0]), "high", split(pair)[1])
    for text, what in ((source, ""), (source.replace("jump warm", "jump main"), ", again and again")):
        for pair, data in on_all_nodes(bench, text, pairs, 1000, place):
            low, high = split(pair)
            wanted = sum(pair) % WORDS ** 2
            bench.same(f"{pair[0]:09X} and {pair[1]:09X}{what}", data[:6], [*low, *high, wanted >> 18, wanted % WORDS])
    for pair in pairs[:len(edges) ** 2:5]:
        line = registers(bench, "place", place(source, pair), 1000, ["000"])[0]
        bench.same(f"{pair[0]:09X} and {pair[1]:09X}, the carry", field(line, "C"), int(sum(pair) >= WORDS ** 2))


def port_worker(bench, source, chance):
    """The neighbour adds, stores and reads: the sums, and the word in its memory."""
    code = bench.images(source)["708"][0]
    cases = [(5, 7, 0x10, 0x2BCDE), (0x3FFFF, 1, 0, 0), (0x3FFFF, 0x3FFFF, 0x3F, 0x3FFFF), (0x20000, 0x20000, 0x3F, 1)]
    cases += [tuple(chance.randrange(it) for it in (WORDS, WORDS, 64, WORDS)) for _ in range(20)]
    for first, second, address, word in cases:
        text = source.replace(", 5 , 7 , 0", f", {first} , {second} , 0")
        text = text.replace("$010", f"{address}").replace("$2BCDE", f"{word}")
        memories = bench.memories("place", text, ["turn 1000", "turn 4"], ["708", "709"])
        sent = memories["708"][code - 11:code]
        what = f"sent {first:05X} {second:05X} {address:02X} {word:05X}"
        bench.same(f"{what}, the sum", sent[4], (first + second) % WORDS)
        bench.same(f"{what}, the word that came back", sent[10], word)
        bench.same(f"{what}, the memory of 709", memories["709"], [word if at == address else 0 for at in range(64)])


def moving_sum(bench, source, chance):
    """Each sum is that of a number and the four before it."""
    code = bench.images(source)["714"][0]
    lists = [[7], [0x3FFFF] * 12, [1, 2, 3, 4, 5, 0x3FFFF, 0, 100]]
    lists += [[chance.randrange(WORDS) for _ in range(length)] for length in (2, 4, 5, 6, 20, 50)]
    for numbers in lists:
        text = with_words(source, "numbers", [len(numbers) - 1, *numbers])
        memory = bench.memories(f"route {','.join(ROW)}", text, ["turn 20000", "turn 4"], ["714"])["714"]
        wanted = [sum(numbers[max(0, at - 4):at + 1]) % WORDS for at in range(len(numbers))]
        bench.same(f"moving sums of {shown(numbers)}", memory[code:], wanted + [0] * (64 - code - len(wanted)))


def signed(word):
    return word - WORDS if word >= WORDS // 2 else word


def filtered(coefficients, samples):
    """Returns the sums of a filter: of each sample and those before it, times their coefficients in units of 2^-17."""
    pairs = [zip(coefficients, samples[at::-1]) for at in range(len(samples))]
    return [sum(signed(coefficient) * signed(sample) // 2 ** 17 for coefficient, sample in it) % WORDS for it in pairs]


def fir(bench, source, chance, turns, turns_below_0):
    """The sums of a filter, and the turns from one to the next: with a sample below 0 in each tap, and without."""
    kept = [int(it) for it in re.findall(r"^  (\d+) 0 16 push", source, re.M)]
    head, code = f"route 708,{','.join(TAPS)},717", bench.images(source)["717"][0]
    lists = [(kept, [1000, *[0] * 7, 20000, 229376, 131071, 131072, 5, 7, 9, 11]), (kept, [7]), (kept, EDGES * 3)]
    lists += [(kept, [sample] * 20) for sample in (1, 0x1FFFF, 0x20000, 0x3FFFF)]
    lists += [([edge] * 8, EDGES * 2) for edge in (0, 1, 0xFFFF, 0x10000, 0x30000, 0x30001, 0x3FFFF)]
    lists += [([0x10000, 0x30000] * 4, [0x1FFFF, 0x20000] * 10), ([0x30000, 0x10000] * 4, [0x1FFFF, 0x20000] * 10)]
    some = lambda count, most: [chance.randint(-most, most - 1) % WORDS for _ in range(count)]
    lists += [(some(8, 0x10000), some(length, 0x20000)) for length in (2, 8, 9, 30, 54)]
    for coefficients, samples in lists:
        text = with_words(source, "samples", [len(samples) - 1, *samples])
        for node, coefficient in zip(TAPS, coefficients):
            text = re.sub(rf"(node {node}\b[^/]*?\n  )\d+( 0 16 push)", rf"\g<1>{coefficient}\2", text)
        memory = bench.memories(head, text, ["turn 60000", "turn 4"], ["717"])["717"]
        wanted = filtered(coefficients, samples)
        bench.same(f"{shown(samples)} filtered by {shown(coefficients)}", memory[code:], wanted + [0] * (64 - code - len(wanted)))
    for sample, wanted in ((1, turns), (0x3FFFF, turns_below_0)):
        text = with_words(source, "samples", [19, *[sample] * 20])
        lines = bench.run("record", "\n".join(["profile 2", head, text + "go", "> until 717 keep x10", *["> until 717 keep x1"] * 5, ""]))
        came = [int(line.split()[1]) for line in lines[lines.index("go"):] if line.startswith("turns ")]
        bench.same(f"turns from one sum of {sample:05X} to the next", came[1:], [wanted] * 5)


def fir_serial(bench, source, chance):
    """One tap after the other."""
    fir(bench, source, chance, 693, 773)


def fir_pipelined(bench, source, chance):
    """All taps at once."""
    fir(bench, source, chance, 101, 111)


def sort(bench, source, chance):
    """The nodes hold the words in order."""
    lists = [[0x20000, 5, 0x3FFFF, 0, 0x1FFFF, 5, 0x10000], [*range(7)], [*range(7)][::-1], [5] * 7]
    lists += [[0x1FFFF, 0x20000, 0, 0x3FFFF, 1, 0x20001, 0x1FFFE]]
    lists += [([0] * small + [0x3FFFF] * (7 - small))[::order] for small in range(1, 7) for order in (1, -1)]
    lists += [[chance.choice(EDGES) for _ in range(7)] for _ in range(20)]
    lists += [[chance.randrange(WORDS) for _ in range(7)] for _ in range(20)]
    for words in lists:
        text = with_words(source, "words", words)
        lines = bench.run(f"run {','.join(ROW)} 1 5000", text)
        held = [field(line, "T") for line in lines if line.startswith("node")]
        bench.same(f"sorted: {shown(words)}", held, sorted(words))


def sent_at_boot(images, *routes):
    """Returns how many words each node of these routes but the first is sent by the boot, as docs/GUIDE.md counts them."""
    parents = {}
    for route in routes:
        for parent, node in zip(route, route[1:]):
            parents.setdefault(node, parent)
    counts = {node: 3 + (5 + len(images[node][1]) if node in images else 0) for node in parents}
    for node in reversed(parents):
        if parents[node] in counts:
            counts[parents[node]] += 10 + counts[node]
    return counts


def queue(bench, source, chance):
    """The words come out in order, and while nobody takes them the queue holds five and 708 waits with one."""
    images = bench.images(source)
    code = images["714"][0]
    for text in (source, "node 710 . . . . .\nnode 714 7\n"):
        commands = ["break 708 000", "turn 5000", *(f"ports {node}" for node in ROW[:-1])]
        lines = bench.session(f"route {','.join(ROW)}", text, commands)
        written = [int(it) for it in re.findall(r"written (\d+)", "\n".join(lines))]
        bench.same("the words of the boot", [it for it in written if it], [*sent_at_boot(bench.images(text), ROW).values()])
    lists = [[0x11111, 0x22222, 0x33333, 0x04444, 0x15555, 0x26666, 0x37777, 0x08888, 0x19999, 0x2AAAA]]
    lists += [[chance.randrange(WORDS) for _ in range(length)] for length in (1, 3, 5, 6, 7, 20, 50)]
    for words in lists:
        length = len(words)
        text = with_words(source, "words", [length - 1, *words])
        takes = min(length, 2)
        commands = ["break 714 004", "turn 5000"] + ["pass 714", "turn 1000"] * takes
        memory = bench.memories(f"route {','.join(ROW)}", text, commands, ["714"])["714"]
        bench.same(f"{takes} of {length} words taken", memory[code:], words[:takes] + [0] * (64 - code - takes))
        lines = bench.session(f"route {','.join(ROW)}", text, [*commands, *(f"regs {node}" for node in ROW[:6])])
        wait = [line.split("need ")[1] for line in lines[len(commands):]]
        left = length - takes
        held = ["check" if at >= 5 - left else "take" for at in range(5)]
        bench.same(f"{left} words are held, the last ones foremost", wait[1:], held)
        bench.same(f"708 with {left} words in the queue", wait[0], "check" if left > 5 else "take")
        memory = bench.memories(f"route {','.join(ROW)}", text, ["turn 20000", "turn 4"], ["714"])["714"]
        bench.same(f"{length} words through the queue", memory[code:], words + [0] * (64 - code - length))


def side(node, neighbour):
    """Returns the port to this neighbour, by the table of directions of docs/CHIP.md."""
    (row, column), (to_row, to_column) = ((int(name[0]), int(name[1:])) for name in (node, neighbour))
    if to_row == row and abs(to_column - column) == 1:
        return "right" if (to_column > column) == (column % 2 == 0) else "left"
    if to_column == column and abs(to_row - row) == 1:
        return "down" if (to_row > row) == (row % 2 == 0) else "up"
    raise ValueError(f"{node} and {neighbour} are no neighbours")


def token(bench, source, chance):
    """All 144 nodes are on the ring, each at its place, and each counts itself; so from three other first nodes."""
    ring = re.search(r"^route (.*)$", read("token", "transcript"), re.M)[1].split(",")
    bench.same("the nodes of the ring", sorted(ring), NODES)
    head = source[:source.index("\nnode ") + 1]
    for start in (0, 17, 52, 143):
        way = ring[start:] + ring[:start]
        text = head
        for at, node in enumerate(way):
            before, behind = way[at - 1], way[(at + 1) % len(way)]
            work = "@ 1 + dup !b" if at else "1 !b @"
            text += f"node {node}  {side(node, before)} a! {side(node, behind)} b!  {work}  jump warm\n"
        if start == 0:
            bench.same("the source of the token", source, text)
        lines = bench.run(f"run {','.join(way)} 1 20000", text)
        counts = [field(line, "T") for line in lines if line.startswith("node")]
        bench.same(f"counts from {way[0]} on", counts, [144, *range(2, 145)])


def delivered(ring, own):
    """Returns what each node of the ring gets, in order, if each has one word to send, or 0."""
    waiting, got = dict(zip(ring, own)), {node: [] for node in ring}
    frame, still = 0, 0
    at = 0                                  # the first node lets in an empty frame, and the second takes it
    while still < len(ring):
        at = (at + 1) % len(ring)
        still = 0 if frame or waiting[ring[at]] else still + 1
        if not frame:
            frame, waiting[ring[at]] = waiting[ring[at]], 0
        elif frame >> 12 == at + 1:
            got[ring[at]].append(frame & 0xFFF)
            frame = 0
    return got


def token_ring(bench, source, chance):
    """Each word comes to the node that it is for, whoever sends it, and the nodes keep them in order."""
    cases = [[0x30AB, 0x8111, 0, 0x1222, 0x4333, 0x1444, 0x2555, 0], [0] * 8, [0, 0, 0, 0x1123, 0, 0, 0, 0]]
    cases += [[at << 12 | 0x700 | at for at in range(1, 9)], [0x5000 | at for at in range(8)]]
    cases += [[(at + 1) % 8 + 1 << 12 for at in range(8)], [0x8FFF] * 8]
    word = lambda: chance.choice([0, chance.randrange(1, 9) << 12 | chance.randrange(4096)])
    cases += [[word() for _ in range(8)] for _ in range(20)]
    codes = {node: code for node, (code, _) in bench.images(source).items()}
    for own in cases:
        text = source
        for node, word in zip(RING, own):
            text = with_words(text, "own", [word], node)
        memories = bench.memories(f"route {','.join(RING)}", text, ["turn 30000"], RING)
        for node, wanted in delivered(RING, own).items():
            code = codes[node]
            held = memories[node][code:]
            bench.same(f"{node} of {shown(own)}", held, [0, code + 2 + len(wanted), *wanted] + [0] * (62 - code - len(wanted)))


def tree_sum(bench, source, chance):
    """708 has the sum of all lists, whatever their lengths, and each node is sent as many words as the guide counts."""
    head = f"route {'/'.join(','.join(route) for route in TREE)}"
    codes = {node: code for node, (code, _) in bench.images(source).items()}
    # a list has its count before it, and that of 708 has the sum behind it
    room = {node: 63 - code - (node == "708") for node, code in codes.items()}
    cases = [{node: [fill] * length for node in room} for fill in (0, 1, 0x3FFFF) for length in (1, 40)]
    cases += [{node: [0x3FFFF] * most for node, most in room.items()}]
    cases += [{node: [chance.choice(EDGES)] for node in room} for _ in range(10)]
    cases += [{node: [chance.randrange(WORDS) for _ in range(chance.randint(1, most))] for node, most in room.items()} for _ in range(20)]
    for lists in cases:
        text = source
        for node, words in lists.items():
            text = with_words(text, "list", [len(words) - 1, *words], node)
        total = sum(sum(words) for words in lists.values())
        what = f"{total:X} in {sum(map(len, lists.values()))} words"
        memory = bench.memories(head, text, ["turn 20000", "turn 4"], ["708"])["708"]
        wanted = [len(lists["708"]) - 1, *lists["708"], total % WORDS]
        bench.same(f"{what}, the sum", memory[codes["708"]:], wanted + [0] * (64 - codes["708"] - len(wanted)))
        held = [f"break {node} 000" for node in room]
        lines = bench.session(head, text, [*held, "turn 20000", *(f"ports {node}" for node in room)])
        written = {(line.split()[0], line.split()[1]): int(line.split()[3]) for line in lines[len(held) + 1:]}
        sent = sent_at_boot(bench.images(text), *TREE)
        parents = {node: parent for route in TREE for parent, node in zip(route, route[1:])}
        wanted = {(parent, side(parent, node)): sent[node] for node, parent in parents.items()}
        bench.same(f"{what}, the words of the boot", {at: count for at, count in written.items() if count}, wanted)


def registers(bench, head, source, turns, nodes):
    """Returns the lines of these nodes after this many turns."""
    return bench.session(head, source, [f"turn {turns}", *(f"regs {node}" for node in nodes)])[1:]


def blinker(bench, source, chance):
    """The pin is high and low by turns."""
    lines = bench.session("place", source, ["break 600 009", "turn 20", "regs 600"] + ["pass 600", "turn 50000", "regs 600"] * 5)
    bench.same("the pin at each wait", [field(line, "io") for line in lines[2::3]], [0x30000, 0x20000] * 3)


def multiply(bench, source, chance):
    """The lower word of a product is right for any two words."""
    pairs = [(first, second) for first in EDGES for second in EDGES]
    for at in range(0, len(pairs), len(NODES)):
        some = [*zip(NODES, pairs[at:at + len(NODES)])]
        place = lambda node, pair: source.replace("node 000", f"node {node}").replace("3 5 call", "{} {} call".format(*pair))
        text = "".join(place(*it) for it in some)
        lines = registers(bench, "place", text, 200, [node for node, _ in some])
        for line, (_, (first, second)) in zip(lines, some):
            bench.same(f"{first:05X} times {second:05X}, lower word", field(line, "T"), first * second % WORDS)


    multiply_range(bench, pairs + [(chance.randrange(WORDS), chance.randrange(WORDS)) for _ in range(608)])


def multiply_range(bench, pairs):
    """Eighteen multiply steps give the whole product exactly for the operands that docs/CHIP.md gives."""
    for at in range(0, len(pairs), len(NODES)):
        some = [*zip(NODES, pairs[at:at + len(NODES)])]
        steps = "0 17 push align . +* unext jump warm\n"
        text = "".join(f"node {node} {second} a! {first} {steps}" for node, (first, second) in some)
        lines = registers(bench, "place", text, 200, [node for node, _ in some])
        for line, (_, (first, second)) in zip(lines, some):
            factor = signed(first)
            sums = [factor * (second % (2 << bit)) >> bit for bit in range(18) if second >> bit & 1]
            wanted = all(-WORDS // 2 <= it < WORDS // 2 for it in sums)
            came = [field(line, "T"), field(line, "A")]
            what = f"eighteen steps of {first:05X} and {second:05X}"
            bench.same(f"{what} are right", came == [(factor * second >> 18) % WORDS, factor * second % WORDS], wanted)
            bench.same(f"{what}, the lower word", came[1], factor * second % WORDS)
            if abs(factor) <= 0x10000:
                bench.same(f"{what}, in the range", wanted, True)


def echo(bench, source, chance):
    """A neighbour that sends a word gets it back, and then the next one."""
    for first, second in [(7, 8), (0, 0x3FFFF), (0x2ABCD, 0x15432)]:
        other = f"node 709 right a! {first} ! @ {second} ! @ jump warm\n"
        line = registers(bench, "place", source + other, 100, ["709"])[0]
        bench.same(f"the echo of {first:05X} and {second:05X}", [field(line, "S"), field(line, "T")], [first, second])


def fill(bench, source, chance):
    """The follower stands over its word, and nothing else changes."""
    memory = bench.memories("place", source, ["turn 20"], ["000"])["000"]
    bench.same("the memory", memory, [0x2C9B2, 0x2C9B2, 1] + [0] * 61)


def two_nodes(bench, source, chance):
    """709 has 5 for each word that it has taken since the boot, which takes 12 words to load it and 1 to start it."""
    for turns in (150, 200, 400, 1000):
        lines = bench.session("route 708,709", source, [f"turn {turns}", "regs 709", "ports 708"])
        taken = int(re.search(r"read (\d+)", lines[2])[1]) - 13
        line = lines[1]
        total = field(line, "T") + (field(line, "S") if "at slot1" in line else 0)
        bench.same(f"after {turns} turns, some words were taken", taken > 0, True)
        bench.same(f"after {turns} turns", total, 5 * taken % WORDS)


def send(bench, source, chance):
    """709 has the sum of what 708 sent."""
    for number, times in [(7, 4), (0, 1), (0x3FFFF, 5), (0x20000, 2), (0x12345, 30)]:
        text = source.replace("  7 !", f"  {number} !").replace("3 push", f"{times - 1} push")
        line = registers(bench, "place", text, 1000, ["709"])[0]
        bench.same(f"{times} times {number:05X}", field(line, "T"), number * times % WORDS)


def sum_(bench, source, chance):
    """The sum of two words."""
    for first in EDGES[::3]:
        for second in EDGES[::3]:
            lines = bench.run("run 708,709 1 300", source.replace("$5 $7", f"{first} {second}"))
            bench.same(f"{first:05X} and {second:05X}", field(lines[6], "T"), (first + second) % WORDS)


def ring(bench, source, chance):
    """Three nodes add 1 each; all are stuck at the end, and none before."""
    for number in [1, 0, 0x3FFFF, 0x3FFFE, 0x12345]:
        lines = bench.run("run 708,709,609,608 1 1000", source.replace("$1 !", f"{number} !"))
        bench.same(f"{number:05X} round the ring", field(lines[0], "T"), (number + 3) % WORDS)
    for turns, are_stuck in ((200, False), (1000, True)):
        text = f"profile 2\nroute 708,709,609,608\n{source}go\n> turn {turns}\n> where\n"
        told = bench.run("record", text)
        told = told[told.index("> where") + 1:]
        stuck = [line.endswith(", stuck") for line in told]
        bench.same(f"the nodes of the ring that are stuck behind {turns} turns", (len(told) >= 4, {*stuck}), (True, {are_stuck}))


DATA = [blinker, multiply, echo, fill, two_nodes, send, sum_, ring]
DATA += [pulse, crc, product, division, long_sum, port_worker, moving_sum, fir_serial, fir_pipelined, sort, queue]
DATA += [token, token_ring, tree_sum]


def transcripts(bench, name):
    """Checks and records each transcript of a program."""
    for path in sorted(glob.glob(f"{folder_of(name)}/{name}*.transcript")):
        with open(path, encoding="utf-8") as file:
            text = file.read()
        commands = len(re.findall(r"^> ", text.split("\ngo\n")[1], re.M))
        bench.same(f"check {path}", bench.run("check", text), [f"same {commands}"])
        bench.same(f"record {path}", bench.run("record", text), text.splitlines())


def kept(bench, name):
    """Compares the transcript, the replay text and the row of the page with the source."""
    source, transcript, replay = (read(name, kind) for kind in ("source", "transcript", "replay"))
    transcripts(bench, name)
    states = len(re.findall(r" = ", replay.split("\ngo\n")[1]))
    bench.same(f"{name}, replay", bench.run("replay", replay), [f"same {states}"])
    for kind, text in (("transcript", transcript), ("replay", replay)):
        first, _, head = text.split("\ngo\n")[0].split("\n", 2)
        kept_source = head[:len(source)] if name in MORE else head + "\n"
        bench.same(f"{name}, the source in {name}.{kind}", first == "profile 2" and kept_source, source)
    images = bench.images(source)
    steps = sum(map(int, re.findall(r"^turn \d+ = (\d+)$", replay, re.M))) + len(re.findall(r"^try .* = moved$", replay, re.M))
    with open(f"{ROOT}/docs/EXAMPLES.md", encoding="utf-8") as page:
        row = re.search(rf"^\| `{name}` \| (\d+) \| (\d+) \| (\d+) \| ([a-z ]+) \|", page.read(), re.M)
    words = sum(len(words) for _, words in images.values())
    what = f"{name}, its nodes, words, steps and verdict in docs/EXAMPLES.md"
    verdict = verdict_of("\n".join(bench.run("race", transcript)))
    bench.same(what, row and " ".join(row.groups()), f"{len(images)} {words} {steps} {verdict}")
    if glob.glob(f"{ROOT}/examples/*/{name}.larger"):
        expanded = "\n".join([*bench.run("expand", read(name, "larger")), ""])
        bench.same(f"{name}, the words of {name}.larger", bench.images(expanded), images)


def verdict_of(text):
    """The verdict of a text of `race`, in the words of the page."""
    if text.startswith("no race: "):
        return "spins" if "; spinning: " in text else "at rest"
    for front, verdict in [("no race in ", "goes round"), ("no race so far: ", "moves on"), ("race: ", "race")]:
        if text.startswith(front):
            return verdict
    raise ValueError("no verdict")


def check(program, name):
    """Returns the checks of one program, done."""
    bench = Bench(program)
    checks = [lambda _, source, chance: kept(bench, name), *(it for it in DATA if it.__name__.strip("_") == name)]
    for it in checks:
        try:
            it(bench, read(name, "source"), random.Random(144))
        except (OSError, ValueError, LookupError, AttributeError, TypeError, subprocess.TimeoutExpired) as error:
            bench.failures.append(f"{name}: {error!r}")
    return bench


def main(program, *names):
    # The launcher unpacks or builds its program at the first call, and says so.
    if subprocess.run([program, "--version"], stdin=subprocess.DEVNULL, capture_output=True).returncode:
        print(f"{program} --version failed")
        print("0 passed, 1 failed")
        return 1
    names = names or sorted(os.path.basename(it).removesuffix(".source") for it in glob.glob(f"{ROOT}/examples/*/*.source"))
    passed = failed = 0
    with ThreadPoolExecutor(os.cpu_count()) as pool:
        for name, bench in zip(names, pool.map(lambda name: check(program, name), names)):
            for failure in bench.failures:
                print(f"FAILED {failure}")
            print(f"{name}: {bench.passed} passed, {len(bench.failures)} failed", flush=True)
            passed, failed = passed + bench.passed, failed + len(bench.failures)
    missing = {it.__name__.strip("_") for it in DATA} - {*names} if len(sys.argv) == 2 else set()
    for name in sorted(missing):
        failed += 1
        print(f"FAILED {name}: its source isn't there")
    print(f"{passed} passed, {failed} failed")
    return 1 if failed or not passed else 0


if __name__ == "__main__":
    if len(sys.argv) < 2:
        sys.exit(__doc__)
    sys.exit(main(*sys.argv[1:]))
