"""All faults of a source text, as FILE has them. It shares nothing with the program.

`faults_of` gives them in the order of their places: the first fault of each part of the text, and that of the whole text. A part is
the text up to the end of a section; the lines between the first section and this one are as if empty.
"""
from assembler import Fault, images_of
from expander import expanded_text, expansion, pieces_of, written_fault

MOST_FAULTS, MOST_SECTIONS = 20, 144


def behind_definitions(pieces):
    """How many of the tokens are those of the constants and bodies that a text begins with."""
    at = 0
    while at < len(pieces) and pieces[at].text in ("const", "body"):
        if pieces[at].text == "const":
            at += 3
        else:
            at = next((end for end in range(at + 1, len(pieces)) if pieces[end].text == "end"), len(pieces)) + 1
    return at


def starts_of(text):
    """The lines at which a section begins: behind the definitions, those whose first token is `node`."""
    pieces, firsts = [*pieces_of(text)], {}
    for piece in pieces:
        firsts.setdefault(piece.line, piece)
    return [it.line for it in pieces[behind_definitions(pieces) :] if it.text == "node" and firsts[it.line] is it]


def sections_of(text):
    """The lines with which the sections of a text begin, and those behind them."""
    starts = starts_of(text)
    return [*zip(starts, [*starts[1:], text.count("\n") + 2])]


def part_of(text, head, first, end):
    """The part of a section that reaches from one line up to another, behind the lines of the head."""
    rows = text.split("\n")[: end - 1]
    return "\n".join(row if line < head or first <= line else "" for line, row in enumerate(rows, 1))


def parts_of(text):
    sections = sections_of(text)
    for first, end in sections[:MOST_SECTIONS]:
        yield part_of(text, sections[0][0], first, end)


def part_at(text, line):
    """The part of the section that has a line, or the text."""
    sections = sections_of(text)
    return next((part_of(text, sections[0][0], first, end) for first, end in sections if first <= line < end), text)


def is_of_node(text, first, end, node):
    """Whether a section names a node, alone or in a list."""
    pieces = [it for it in pieces_of(text) if first <= it.line < end]
    return len(pieces) > 1 and node in pieces[1].text.split(",")


def part_with(text, line, node):
    """The part of the section that has a line, or else of the first one that names a node, or the text."""
    sections = sections_of(text)
    found = [it for it in sections if it[0] <= line < it[1]] or [it for it in sections if is_of_node(text, *it, node)]
    return part_of(text, sections[0][0], *found[0]) if found else text


def first_fault(text):
    """The first fault of a text, or None."""
    try:
        pieces = [*expansion(text)]
    except Fault as fault:
        return fault
    plain = expanded_text(pieces)
    try:
        images_of(plain)
    except Fault as fault:
        return written_fault(fault, text, plain, pieces)
    return None


def faults_of(text):
    first, found = first_fault(text), {}
    if first is None:
        return []
    for part in parts_of(text):
        fault = first_fault(part)
        if fault:
            found.setdefault(fault.text, fault)
        if len(found) == MOST_FAULTS:
            break
    faults = [*found.values()]
    faults = faults if first.text in found else [first, *faults][:MOST_FAULTS]
    return sorted(faults, key=lambda it: it.place)
