"""An assembler, written after docs/FORMATS.md and docs/CHIP.md.

It shares nothing with the program, and tests/answers.py compares the two. A text that it refuses raises `Fault`.
"""
import re
from collections import namedtuple

from schedules import PORTS

OPCODES = (
    "; ex jump call unext next if -if @p @+ @b @ !p !+ !b ! +* 2* 2/ - + and or drop dup pop over a . push b! a!"
).split()
CODES = {name: code for code, name in enumerate(OPCODES)}
LEAPS = {"jump", "call", "next", "if", "-if"}  # opcodes with a destination
LITERALS = {"@p", "!p"}  # opcodes that use a follower
ENDS = {";", "ex", *LEAPS}  # opcodes that end their word: no slot behind them is run
SLOTS = [(13, 0x0A, 10), (8, 0x15, 8), (3, 0x0A, 3)]  # shift, flipped bits, and bits of a destination behind it
NUMBERS = {name: int(address, 16) for name, address in PORTS.items()} | {"io": 0x15D, "rdlu": 0x1A5, "warm": 0x0A9}
WORDS = {"node", "align", "data"}
RESERVED = {*OPCODES, *NUMBERS, *WORDS}
NAME = re.compile("[A-Za-z_][A-Za-z0-9_]{0,15}")
NUMBER = re.compile(r"[0-9]{1,8}|\$[0-9A-Fa-f]{1,8}")
NODE = re.compile("[0-7](0[0-9]|1[0-7])")
RAM = 64

Token = namedtuple("Token", "text line column kind value")
# Its number is `value`, or `name` is the token that has to be a label; `spare` are the spare bits of a destination.
Item = namedtuple("Item", "kind token ops value name spare", defaults=[(), None, None, 0])
# `code` is how many words are code, and `labels` are the addresses by name, in the text's order.
Image = namedtuple("Image", "words code labels items")


class Word(namedtuple("Word", "value kind first")):
    """A word. Its kind is code, follower or data, and `first` is the item that it begins with."""

    @property
    def line(self):
        return self.first.token.line


class Fault(Exception):
    """The first fault of an input. It may have a place, which is a line and a column, lines behind its own, another text whose
    line is shown, and a node that it is about."""

    def __init__(self, text, place=None, behind="", shows=None, node=None):
        super().__init__(text)
        self.text, self.place, self.behind, self.shows, self.node = text, place, behind, shows, node


def fault_at(kind, token, name):
    return Fault(f"{kind} {token.line}:{token.column} {name}", (token.line, token.column))


def token_of(text, line, column):
    """The token with this text. One that the language doesn't have raises its fault."""
    kind, value = "bad", None
    if text in NUMBERS:
        kind, value = "number", NUMBERS[text]
    elif text in CODES:
        kind = "opcode"
    elif text in WORDS or text in ("[", "]", ",", "/"):
        kind = text
    elif NAME.fullmatch(text):
        kind = "name"
    elif text[-1] == ":" and NAME.fullmatch(text[:-1]):
        kind, value = "label", text[:-1]
    elif NUMBER.fullmatch(text):
        kind, value = "number", int(text[1:], 16) if text[0] == "$" else int(text)
    token = Token(text, line, column, kind, value)
    if kind == "bad" or kind == "number" and value > 0x3FFFF:
        raise fault_at("source", token, "BadToken" if kind == "bad" else "NumberRange")
    return token


def tokens_of(text, line):
    """The tokens of a text whose first line has this number, and at last its end."""
    rows = text.split("\n")
    for number, row in enumerate(rows, line):
        for found in re.finditer(r"[^ \t\r]+", row):
            if found[0] == "\\":
                break
            yield token_of(found[0], number, found.start() + 1)
    yield Token("", line + len(rows) - 1, len(rows[-1]) + 1, "end", None)


class Parser:
    """Reads source text. A token is judged only when all before it are, so the first fault is found."""

    def __init__(self, text, line):
        self.tokens = tokens_of(text, line)
        self.token = next(self.tokens)

    def take(self):
        token = self.token
        self.token = next(self.tokens, token)
        return token

    def refuse(self, name):
        raise fault_at("source", self.token, name)

    def sections(self):
        """The items of each node, in the text's order."""
        sections = {}
        while self.token.kind != "end" or not sections:
            if self.take_if("node") is None:
                self.refuse("NoNode")
            if not NODE.fullmatch(self.token.text):
                self.refuse("BadNode")
            if int(self.token.text) in sections:
                self.refuse("DuplicateNode")
            node = int(self.take().text)
            sections[node] = list(self.items())
            if not any(it.kind in ("op", "number", "word", ",") for it in sections[node]):
                self.refuse("Empty")
        return sections

    def take_if(self, kind):
        return self.take() if self.token.kind == kind else None

    def items(self):
        owed, is_code, labels = 0, True, set()
        while (kind := self.token.kind) not in ("node", "end"):
            if kind == "label":
                yield self.label(labels)
            elif kind == "," and (owed > 0 or not is_code):
                yield self.with_operand(Item(",", self.take()), 0x3FFFF)
                owed -= 1
            elif kind == "data" and is_code:
                yield Item("data", self.take())
                is_code = False
            elif not is_code or kind not in ("opcode", "number", "align", "[") or self.token.text in LITERALS:
                self.refuse("BadToken")
            elif owed > 0:
                self.refuse("BadWord")
            else:
                item = self.instruction()
                yield item
                owed = followers(item.ops) if item.kind == "word" else 0

    def label(self, labels):
        if self.token.value in RESERVED:
            self.refuse("ReservedLabel")
        if self.token.value in labels:
            self.refuse("DuplicateLabel")
        labels.add(self.token.value)
        return Item("label", self.take())

    def with_operand(self, item, most):
        """The item with the number or the name behind it."""
        if self.token.kind not in ("number", "name"):
            self.refuse("BadToken")
        if self.token.kind == "number" and self.token.value > most:
            self.refuse("NumberRange")
        return named(item, self.take())

    def instruction(self):
        token = self.take()
        if token.kind == "[":
            return self.bracketed(Item("word", token))
        if token.kind == "opcode":
            item = Item("op", token, [token.text])
            return self.with_operand(item, 0x3FF) if token.text in LEAPS else item
        return Item(token.kind, token, value=token.value)

    def bracketed(self, item):
        ops = []
        while not (ops and self.take_if("]")):
            token = self.take_inside(lambda it: it.kind == "opcode" and fits(it.text, len(ops), 0, 0))
            ops.append(token.text)
            if token.text in LEAPS:
                most = (1 << SLOTS[len(ops) - 1][2]) - 1
                item = named(item, self.take_inside(lambda it: it.kind == "name" or is_number(it, most)))
                if len(ops) == 1 and self.take_if("/"):
                    item = item._replace(spare=self.take_inside(lambda it: is_number(it, 7)).value)
                self.take_inside(lambda it: it.kind == "]")
                break
        return item._replace(ops=ops)

    def take_inside(self, is_right):
        """The next token, if it is allowed in these brackets."""
        if self.token.kind in ("[", "end"):
            self.refuse("OpenBracket")
        if not is_right(self.token):
            self.refuse("BadWord")
        return self.take()


def is_number(token, most):
    return token.kind == "number" and token.value <= most


def named(item, token):
    return item._replace(value=token.value, name=token if token.kind == "name" else None)


def fits(op, slot, destination, p):
    """Whether an opcode fits a slot. A destination that isn't known yet is None."""
    if op not in LEAPS:
        return slot < 3 or slot == 3 and CODES[op] % 4 == 0
    if slot == 2:
        return destination is not None and destination >> 3 == p >> 3
    return slot == 0 or slot == 1 and (destination or 0) < 0x100


def followers(ops):
    """How many followers a word uses, by its opcodes up to the first one that ends it."""
    count = 0
    for op in ops:
        count += op in LITERALS
        if op in ENDS:
            break
    return count


def p_behind(address, ops):
    """P behind these opcodes of the word at an address, whether or not one of them ends the word."""
    return address + 1 + sum(op in LITERALS for op in ops)


def encoded(ops, destination, spare):
    """The word of some opcodes, filled with `.`. A destination keeps as many low bits as its slot has room for."""
    word = spare << 10
    for slot, op in enumerate([*ops, ".", ".", ".", "."][:4]):
        if slot == 3:
            return word | CODES[op] >> 2 ^ 5
        shift, flip, width = SLOTS[slot]
        word |= (CODES[op] ^ flip) << shift
        if op in LEAPS:
            return word | destination & (1 << width) - 1


def decoded(word):
    """The opcodes of a word, and of one with a destination the field and the spare bits."""
    ops = []
    for shift, flip, width in SLOTS:
        ops.append(OPCODES[word >> shift & 31 ^ flip])
        if ops[-1] in LEAPS:
            return ops, word & (1 << width) - 1, word >> 10 & 7 if width == 10 else 0
    return [*ops, OPCODES[(word & 7 ^ 5) * 4]], None, 0


class Layout:
    """Lays the items of a node as words."""

    def __init__(self, node):
        self.node = node
        # Of each word its opcodes, if it is code, and the item of its destination or its number; its kind; its first item.
        self.words = []
        self.labels = {}
        self.open = None  # the address of the word whose next slot is free
        self.data = None  # where data begin

    def image(self, items):
        names = {it.token.value for it in items if it.kind == "label"}
        for item in items:
            if item.name and item.name.text not in names:
                self.refuse(item, "UndefinedLabel")
            self.add(item)
            if len(self.words) > RAM:
                self.refuse(item, "TooLong")
        for address, (ops, item, _, _) in enumerate(self.words):
            if item.kind == "word":
                self.judge_reach(ops, item, address)
        words = [Word(self.value(ops, item), kind, first) for ops, item, kind, first in self.words]
        return Image(words, len(words) if self.data is None else self.data, self.labels, items)

    def refuse(self, item, name):
        raise fault_at(f"asm {self.node:03}", item.name or item.token, name)

    def destination(self, item):
        """The value of a number or a name, or None if the label isn't defined yet."""
        return self.labels.get(item.name.text) if item.name else item.value

    def value(self, ops, item):
        return encoded(ops, self.destination(item), item.spare) if ops else self.destination(item)

    def judge_reach(self, ops, item, address):
        destination, p = self.destination(item), p_behind(address, ops)
        if item.name and destination is not None and not fits(ops[-1], len(ops) - 1, destination, p):
            self.refuse(item, "OutOfReach")

    def add(self, item):
        if item.kind == "op":
            self.pack(item, item.ops[0])
        elif item.kind == "number":
            self.pack(item, "@p")
            self.words.append(([], item, "follower", item))
        elif item.kind == ",":
            self.words.append(([], item, "follower" if self.data is None else "data", item))
        else:
            self.open = None
        if item.kind == "word":
            self.judge_reach(item.ops, item, len(self.words))
            self.words.append((item.ops, item, "code", item))
        elif item.kind == "label":
            self.labels[item.token.value] = len(self.words)
        elif item.kind == "data":
            self.data = len(self.words)

    def pack(self, item, op):
        """Puts an opcode outside brackets into the next slot, if it fits there, or else into a new word."""
        if self.open is not None:
            ops, _, kind, first = self.words[self.open]
            if fits(op, len(ops), self.destination(item), p_behind(self.open, ops)):
                self.words[self.open] = ([*ops, op], item, kind, first)
                self.open = None if op in ENDS else self.open
                return
        if op == "unext":
            self.refuse(item, "UnextAlone")
        self.open = None if op in ENDS else len(self.words)
        self.words.append(([op], item, "code", item))


def images_of(text, line=1):
    """The image of each node of a source text whose first line has this number, in the text's order."""
    return {node: Layout(node).image(items) for node, items in Parser(text, line).sections().items()}
