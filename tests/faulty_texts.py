"""Random source texts with errors, for tests/faults_of_texts.py and tests/includes.py.

A text has definitions, sections and lines between them. Most of it is right. Some sections have an error of any kind,
and some definitions.
"""
import re

from assembler import OPCODES
from hints import OTHER_WORDS

GOOD = [
    ".", "dup", "drop", "over +", "5", "$1D5 a!", "@b !b", "@p a! , 5", "push pop", "2* 2/ -", "[ dup drop . . ]",
    "[ @p a! . . ] , $3F", "align", "right b! @b", "-1", "%101", "'A'", "right|left", "\\ a note: dup #", "\t",
    ". . .\t\\ more", "again: . jump again", "data , 5 , again",
]  # fmt: skip
USES = ["ONE", "LAST a!", "use PAIR", "use TAKE 5", "use TAKE dup"]
BAD = [
    "frob", "#", "é", "dup\u00a0drop", "5x", "jump gone", "&gone", "twin: . twin:", "dup:", "262144", "-131073",
    "$40000", "[ jump ]", "[ ; ; ; ; ; ]", "[ dup", "]", "to 000", "to nowhere", "north", "south", "use GONE", "use",
    "use TAKE", "use FAULTY", "use NODES", "const B 5", "body", "end", ". include", "node", "node 999", "node 7",
    "node 708,999", "align unext", "data dup", "@p", ", 5", "[ @p a! . . ] dup", "jump", "x" * 70, "5 " * 70,
    "[ dup drop if 3F ]", "[ jump 5 / 8 ]", "call", "again:", "jump $400",
]  # fmt: skip
DEFINITIONS = [
    "const ONE 1", "const LAST 2*(31+ONE)-1", "body PAIR", "  dup drop", "end", "body TAKE PORT", "\tPORT \\ end",
    "end", "const FAR 7", "body FAULTY", "  . frob jump gone", "end", "body NODES", "  . node 017 .", "end",
]  # fmt: skip
BAD_DEFINITIONS = [
    "const", "const dup 5", "const ONE 2", "const 5 5", "const TWO", "const TWO 262144", "const TWO 1<<18",
    "body PAIR end", "body dup", "body LONG X X", " ".join(["body MANY", *(f"P{n}" for n in range(65))]), "frob",
    "use PAIR", "node 000 .", "const NEXT 5 node 001 frob", "body OPEN", "é", "end", "body MORE use GONE end",
]  # fmt: skip
NODES = [f"{row}{column:02}" for row in range(8) for column in range(18)]
# Words that random texts have, and words that are wrong or in a wrong place in most of them.
KNOWN = [*OPCODES, *OTHER_WORDS, "ONE", "LAST", "PAIR", "TAKE", "again"]
MISPLACED = [
    "PAIR", "TAKE", "again", "Again", "one", "DUP", "ONE+1", "LAST<<2", "a-b", "const", "body", "end", "node", "[", "0",
]  # fmt: skip
# Items, of which some begin a new word, and some share one.
ITEMS = [
    ".", "dup", "drop", "over +", "5", "0 1 2", "$1D5 a!", "@b !b", "push pop", "2* 2/ -", "[ dup drop . . ]",
    "[ @p a! . . ] , $3F", "align", "right b! @b", "dup dup dup dup", "-1", "'A'", ";",
]  # fmt: skip


def section(dice, name, usual, may_be_bad):
    """The lines of a section with usual items."""
    lines = [" ".join(dice.choices(usual, k=dice.randrange(1, 4))) for _ in range(dice.randrange(1, 4))]
    if may_be_bad and dice.random() < 0.5:
        for _ in range(dice.choice([1, 1, 1, 2])):
            at = dice.randrange(len(lines))
            words = lines[at].split(" ")
            words.insert(dice.randint(0, len(words)), dice.choice(BAD))
            lines[at] = " ".join(words)
    elif may_be_bad and dice.random() < 0.1:
        lines = [dice.choice(["", "\\ nothing", "here:", "jump", "["])]
    head = f"{dice.choice(['', '', '', '  ', chr(9)])}node {name}"
    return [f"{head} {lines[0]}", *lines[1:]] if dice.random() < 0.6 else [head, *lines]


def definitions(dice):
    """The lines of the definitions, and the usual items behind them."""
    lines, usual = ([*DEFINITIONS], GOOD + USES) if dice.random() < 0.7 else ([], GOOD)
    if dice.random() < 0.12:
        lines.insert(dice.randint(0, len(lines)), dice.choice(BAD_DEFINITIONS))
    return lines, usual


def names_of(dice, count):
    """The names of nodes of the sections: perhaps one comes twice, and one is a list."""
    names = dice.sample(NODES, count)
    if count > 1 and dice.random() < 0.15:
        names[dice.randrange(count)] = dice.choice(names)
    if count and dice.random() < 0.15:
        names[dice.randrange(count)] = ",".join(dice.sample(NODES, 2))
    return names


def faulty_lines(dice, most_sections):
    """The lines of a text. Perhaps a section begins on the last line of the one before."""
    lines, usual = definitions(dice)
    count, may_be_bad = dice.choice([0, 1, 2, 3, 5, 8, most_sections]), dice.random() < 0.85
    sections = [section(dice, name, usual, may_be_bad) for name in names_of(dice, count)]
    if count > 1 and dice.random() < 0.2:
        at = dice.randrange(1, count)
        sections[at - 1][-1] += f" {sections[at].pop(0)}"
    for part in sections:
        lines += [dice.choice(["", "\\ node 000 frob", " "])] * (dice.random() < 0.2) + part
    return lines


def faulty_text(dice, most_sections=30):
    """A text, with LF or CR and LF between its lines, and most times at its end."""
    end = "\r\n" if dice.random() < 0.1 else "\n"
    return end.join(faulty_lines(dice, most_sections)) + end * (dice.random() < 0.8)


def misspelt(dice, word):
    """A word with an edit, or two."""
    for _ in range(dice.choice([1, 1, 2])):
        at, letter = dice.randrange(len(word) + 1), dice.choice("aeopstuADLNO1!@")
        kind = dice.choice(["more", "less", "other", "swapped"])
        if kind == "more":
            word = word[:at] + letter + word[at:]
        elif kind == "swapped":
            word = word[:at] + word[at : at + 2][::-1] + word[at + 2 :]
        elif len(word) > 1:
            word = word[:at] + letter * (kind == "other") + word[at + 1 :]
    return word


def misspelt_text(dice):
    """A random text, of which some words are misspelt."""
    parts = re.split(r"(\s+)", faulty_text(dice, 8))
    words = [at for at in range(0, len(parts), 2) if re.search("[A-Za-z!@]", parts[at])]
    for at in dice.sample(words, min(len(words), dice.choice([1, 1, 2, 3, 5]))):
        word = parts[at] if dice.random() < 0.8 else dice.choice(KNOWN)
        parts[at] = dice.choice(MISPLACED) if dice.random() < 0.3 else misspelt(dice, word)
    return "".join(parts)


def long_text(dice):
    """A random program, with jumps and data. Many have more words than there is room for."""
    rows = ["node 709"]
    for line in range(dice.randrange(1, 24)):
        items = dice.choices(ITEMS, k=dice.randrange(3))
        if dice.random() < 0.4:
            items.append(f"{dice.choice(['jump', 'call', 'next', 'if', '-if'])} at{dice.randint(0, line)}")
        rows.append(" ".join([f"at{line}:", *items]))
    rows += ["[ . ]"] * dice.choice([0, 20, 40, 50, 60, 65, 100])
    count = dice.choice([0, 0, 1, 5, 20])
    rows += ["data"] * (count > 0) + [dice.choice([", 5", ", at0", f"t{at}: , t{at}"]) for at in range(count)]
    return "\n".join(rows)
