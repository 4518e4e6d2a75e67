"""What may help with a fault of source text in FILE, after docs/FORMATS.md. It shares nothing with the program.

`hint_of` gives the text behind a message: what the word at the fault is, or the known name that is nearest to it; the body that
has no end; or how many words a node needs that are more than its memory has.
"""
import functools
import re
import string

from assembler import NAME, NUMBER, NUMBERS, OPCODES, RAM, Fault, Layout, Parser
from expander import expanded_text, expansion, expression_of, literal_of, pieces_of
from nearest import nearest
from text_faults import part_at, part_with

# The words that may stand where an opcode may, besides opcodes, constants and bodies; in the order in which they are offered.
OTHER_WORDS = "node align data use to north east south west right down left up io rdlu warm".split()
# Words of the larger language that no word is near to, and opcodes that stand only in brackets, in any case.
ENDING, BRACKETED = {"end", "use", "include"}, {"@p", "!p"}
# The words with which a text may begin, in the order in which they are offered.
BEGINNING = ["const", "body", "include", "node"]
LOWER = str.maketrans(string.ascii_uppercase, string.ascii_lowercase)


class Endless(Layout):
    """Lays the items of a node as if memory had no end, and judges none."""

    def refuse(self, item, name):
        pass

    def size(self, items):
        """How many words are code, and how many data."""
        for item in items:
            self.add(item)
        code = len(self.words) if self.data is None else self.data
        return code, len(self.words) - code


@functools.lru_cache(maxsize=64)
def items_by_node(text):
    """The items of each node of a text's expansion, if it has a program; or else none."""
    try:
        return Parser(expanded_text([*expansion(text)]), 1).sections()
    except Fault:
        return {}


def behind(pieces, keyword):
    """What is directly behind each token that is a keyword."""
    return [name.text for word, name in zip(pieces, pieces[1:]) if word.text == keyword]


def nearest_hint(word, names):
    """The name that may be meant by a word: one that differs in upper and lower case alone, or else the nearest longer one."""
    if word in names:
        return None
    alike = (it for it in names if it.translate(LOWER) == word.translate(LOWER))
    found = next(alike, None) or nearest(word, [it for it in names if len(it.encode()) > 2])
    return None if found is None else f"the nearest name is {found}"


def is_label(word, pieces):
    """Whether a word is the name of a label that one of these tokens defines. A word of the language is none."""
    return bool(NAME.fullmatch(word)) and word not in [*OPCODES, *OTHER_WORDS] and any(it.text == f"{word}:" for it in pieces)


def is_expression(piece, names):
    """Whether a token is an expression of numbers, in range or not, and of names. A number with a sign is none."""
    expression = expression_of(piece.text)
    has_parts = not isinstance(expression, str) and not re.fullmatch("-[0-9]{1,8}", piece.text)
    return has_parts and is_operand(piece, names, expression)


def is_operand(piece, names, expression):
    """Whether all that an expression is made of are numbers and names."""
    if not isinstance(expression, str):
        return all(is_operand(piece, names, it) for it in expression[1:])
    text = piece._replace(text=expression)
    return expression in names or expression in NUMBERS or bool(NUMBER.fullmatch(expression)) or is_literal(text)


def is_literal(piece):
    """Whether a token has a form of a number that the plain language lacks."""
    try:
        return literal_of(piece) is not None
    except Fault:
        return True


def token_hint(piece, pieces, text, at):
    """What may help with a token that may not stand there: that of a text with this number, in a part with these tokens."""
    word, bodies, constants = piece.text, behind(pieces, "body"), behind(pieces, "const")
    if word in bodies:
        return None if at and text[at - 1].text == "use" else f"{word} is a body: use {word}"
    if is_label(word, pieces):
        return f"{word} is a label: call {word}, or &{word} for its address; in data , {word}"
    if is_expression(piece, constants):
        return "an expression stands only behind const"
    if word in ("const", "body"):
        return "definitions come first"
    if word in ENDING or word.translate(LOWER) in BRACKETED or word in behind(text, "const") + behind(text, "body"):
        return None
    return nearest_hint(word, [*OPCODES, *OTHER_WORDS, *constants, *bodies])


def first_open(pieces):
    """How many bodies are in front of the first one that has no `end` before the next `body`; or None if there is no such one."""
    starts = [at for at, it in enumerate(pieces) if it.text == "body"]
    bodies = [pieces[start:end] for start, end in zip(starts, [*starts[1:], len(pieces)])]
    return next((number for number, body in enumerate(bodies) if all(it.text != "end" for it in body)), None)


def expansion_hint(name, word, pieces, at):
    """What may help with a fault of the larger language at a word, the token of a text with this number."""
    before = pieces[:at]
    if name == "BadToken" and not (before and before[-1].text in ("const", "body")):
        return nearest_hint(word, behind(before[:-1], "const"))
    if name == "UnknownBody":
        bodies = behind(before, "body")
        near = None if word in bodies else nearest_hint(word, bodies[: first_open(before)])
        return near or open_body_hint(bodies, pieces)
    return open_body_hint(behind(pieces, "body"), pieces) if name == "OpenDefinition" else None


def open_body_hint(bodies, pieces):
    """The first body of a text that has no `end`, if it is one of these, with which the text begins."""
    number = first_open(pieces)
    return None if number is None or number >= len(bodies) else f"the body {bodies[number]} has no end"


def label_hint(word, items, constants):
    labels = [it.token.value for it in items if it.kind == "label"]
    return nearest_hint(word.removeprefix("&"), labels if word[0] == "&" else labels + constants)


def size_hint(items, node):
    code, data = Endless(int(node)).size(items)
    return f"it needs {code + data} words: {code} code, {data} data; {code + data - RAM} over"


def layout_hint(name, node, word, part):
    """What may help with a fault of a node's layout, if this part has a program with the node."""
    items = items_by_node(part).get(int(node), [])
    if not items:
        return None
    return size_hint(items, node) if name == "TooLong" else label_hint(word, items, behind([*pieces_of(part)], "const"))


def hint_of(text, fault):
    """What may help with a fault that this text has, or None."""
    kind, *nodes, _, name = fault.text.split()
    pieces = [*pieces_of(text)]
    at = next((at for at, it in enumerate(pieces) if (it.line, it.column) == fault.place), None)
    if at is None:
        return None
    word, line = pieces[at].text, fault.place[0]
    if kind == "expand":
        return expansion_hint(name, word, pieces, at)
    if name == "NoNode":
        return nearest_hint(word, BEGINNING)
    if name == "BadToken":
        return token_hint(pieces[at], [*pieces_of(part_at(text, line))], pieces, at)
    if name in ("UndefinedLabel", "TooLong"):
        return layout_hint(name, nodes[0], word, part_with(text, line, nodes[0]))
    return None
