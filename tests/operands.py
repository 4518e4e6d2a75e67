"""The commands of sessions, and the words behind them, as docs/FORMATS.md has them."""
import re
from collections import namedtuple

from assembler import NODE
from schedules import PORTS

MOST_TURNS = 1000000
OUTCOMES = "moved|waits|held|stopped"
STOPS = "Counted|IoRead|Rom|Unmapped|MultiWrite"
# The words behind the first word of a command: of all sessions, of transcripts, and of replay texts, which state more.
COMMANDS = {
    "break": ["node", "address"], "clear": ["node", "address"], "pass": ["node"], "try": ["node", "side"],
    "turn": ["count"], "regs": ["node"], "mem": ["node"], "ports": ["node"],
}  # fmt: skip
IN_TRANSCRIPTS = {
    **COMMANDS, "mem": ["node", "range?"], "node": ["node"], "breaks": [], "where": [], "nodes": [], "map": [], "sides": ["node"],
    "depth": ["node"], "until": ["node", "address", "passes?", "count?"], "run": ["count?"], "code": ["node", "address?"],
    "step": ["node", "one?"], "trace": ["node", "count"], "watch": ["node", "what", "goal?"], "expect": ["node", "what", "values"],
}  # fmt: skip
IN_REPLAYS = {
    "break": ["node", "address"], "clear": ["node", "address"], "pass": ["node"],
    "try": ["node", "side", "=", "outcome"], "turn": ["count", "=", "number"],
}  # fmt: skip
# The first word of a line, and the values of the others. `refusal` is its fault, if it has one for every chip.
Command = namedtuple("Command", "verb operands refusal")
# What a node shows: a kind (`register`, `memory`, `pending`, `written`, `read`, `at` or `stopped`), and its name, index or side.
What = namedtuple("What", "kind of")
REGISTERS = "P A B R S T C io steps".split()


class Refused(Exception):
    """A command is refused: the name of its fault."""


def command_of(line, commands, images=None):
    """The command of a line. If there are images, an address may be a label of its node."""
    verb, *words = line.split(" ")
    if verb not in commands:
        return Command(verb, [], "BadCommand")
    operands = []
    try:
        for kind in commands[verb]:
            labels = images[operands[0]].labels if images and operands and operands[0] in images else {}
            operands.append(READERS[kind](words, labels, operands))
    except Refused as fault:
        return Command(verb, operands, str(fault))
    return Command(verb, operands, "BadCommand" if words else None)


def a_word(form, value, fault):
    """Reads a word of a form; a word that is missing is a bad one."""

    def read(words, labels, operands):
        word = words.pop(0) if words else ""
        if not re.fullmatch(form, word):
            raise Refused(fault)
        return value(word)

    return read


read_count = a_word(f"[0-9]{{1,6}}|0[0-9]{{6}}|{MOST_TURNS}", int, "BadCount")


def count_or(count):
    """Reads a count; without a word it is this one."""
    return lambda words, labels, operands: read_count(words, labels, operands) if words else count


def address_in(word, labels):
    """The address that a word is: three hex digits, a label, or a label, `+` and up to three digits. Else None."""
    if re.fullmatch("[01][0-9A-Fa-f]{2}", word):
        return int(word, 16)
    label, plus, distance = word.partition("+")
    if label not in labels or plus and not re.fullmatch("[0-9]{1,3}", distance):
        return None
    address = labels[label] + int(distance or 0)
    return address if address < 0x200 else None


def memory_in(word, labels):
    """The index of a word of memory, by its address, or None."""
    address = address_in(word, labels)
    return address % 64 if address is not None and address < 0x80 else None


def read_address(words, labels, operands):
    address = address_in(words.pop(0) if words else "", labels)
    if address is None:
        raise Refused("BadAddress")
    return address


def read_passes(words, labels, operands):
    if not words or not words[0].startswith("x"):
        return 0
    words[0] = words[0][1:]
    return read_count(words, labels, operands)


def read_from(words, labels, operands):
    """The index of a word of memory, or None without a word."""
    if not words:
        return None
    index = memory_in(words.pop(0), labels)
    if index is None:
        raise Refused("BadAddress")
    return index


def read_range(words, labels, operands):
    """The index of the first word, and how many are shown; (0, 0) are all."""
    index = read_from(words, labels, operands)
    if index is None:
        return 0, 0
    count = count_or(1)(words, labels, operands)
    if count == 0:
        raise Refused("BadCount")
    return index, count


def what_in(word, labels):
    """What a node shows that a word names, or None."""
    if word in PORTS:
        return What("pending", word)
    if word in REGISTERS:
        return What("register", word)
    if word in ("at", "stopped"):
        return What(word, None)
    index = memory_in(word, labels)
    return None if index is None else What("memory", index)


def read_what(words, labels, operands):
    what = what_in(words.pop(0) if words else "", labels)
    if what is None:
        raise Refused("BadValue")
    if what.kind == "pending" and words[:1] in (["written"], ["read"]):
        return What(words.pop(0), what.of)
    return what


def value_in(what, word, labels):
    """The text of a value that a word is, as replies have it, or None."""
    kind = what.of if what.kind == "register" else what.kind
    if kind in ("C", "steps", "written", "read"):
        return str(int(word)) if re.fullmatch("[0-9]{1,9}", word) else None
    if kind == "at":
        address = address_in(word, labels)
        return None if address is None else f"{address:03X}"
    if kind in ("pending", "stopped") and word == "none":
        return word
    if kind == "stopped":
        return word if word in STOPS.split("|") else None
    limit, digits = {"P": (0x400, 3), "B": (0x200, 3)}.get(kind, (0x40000, 5))
    is_value = re.fullmatch("[0-9A-Fa-f]{1,5}", word) and int(word, 16) < limit
    return f"{int(word, 16):0{digits}X}" if is_value else None


def values_read(most, words, labels, operands):
    """One value or more, of as many words as there are, and at most `most`."""
    texts = [value_in(operands[-1], word, labels) for word in words[:most]]
    if not texts or None in texts:
        raise Refused("BadValue")
    del words[:most]
    return texts


def read_values(words, labels, operands):
    what = operands[-1]
    return values_read(min(8, 64 - what.of) if what.kind == "memory" else 1, words, labels, operands)


def read_goal(words, labels, operands):
    """The value behind `=`, in a list; without words the list is empty."""
    if not words:
        return []
    if words.pop(0) != "=":
        raise Refused("BadValue")
    return values_read(1, words, labels, operands)


READERS = {
    "node": a_word(NODE.pattern, int, "BadNode"),
    "address": read_address,
    "side": a_word("[rdlu]", str, "BadSide"),
    "count": read_count,
    "count?": count_or(MOST_TURNS),
    "one?": count_or(1),
    "passes?": read_passes,
    "address?": read_from,
    "range?": read_range,
    "what": read_what,
    "values": read_values,
    "goal?": read_goal,
    "=": a_word("=", str, "BadCommand"),
    "outcome": a_word(OUTCOMES, str, "BadCommand"),
    "number": a_word("[0-9]{1,9}", int, "BadCommand"),
}
