"""Decides by all schedules which of 960 random programs have a race, if a stream comes whole, and if it comes in pieces: python3
tests/race_pieces.py [--write]

The programs are those of crates/ga_call_tests/src/pieces.rt, made here once more, and the model of the chip is that of race_model.py.
The list VERDICTS of that file must have what is decided here, a letter for each program; --write writes it. A test of the crate
compares what the library finds. A piece comes when no step is left but of nodes that spin, and every schedule of the pieces before
it must lead to that one state; if one doesn't, the verdict in pieces isn't decided. The last line is 'N passed, M failed'.
"""
import os
import re
import sys

from assembler import images_of
from race_model import Missing, Node, explored, nodes_of

FILE = os.path.join(os.path.dirname(os.path.dirname(os.path.abspath(__file__))), "crates/ga_call_tests/src/pieces.rt")
PROGRAMS, IN_A_ROW = 960, 80
LIST = re.compile(r"(const VERDICTS: \[&str; \d+\] = \[\n)(.*?)(\];\n)", re.S)
DEEDS = [
    "$1F5 a! @ drop ", "$1F5 a! @ drop ", "right a! @ drop ", "left a! @ drop ", "right b! 5 !b ", "right b! 15 !b ", "left b! 6 !b ",
    "left b! 16 !b ", ". . . . ", "dup drop ",
]  # fmt: skip


class Numbers:
    """Numbers that look random."""

    def __init__(self, state):
        self.state = state

    def below(self, bound):
        self.state = (self.state * 6364136223846793005 + 1442695040888963407) % 2**64
        return (self.state >> 33) % max(bound, 1)


def deeds(numbers):
    """One to four deeds, and an end or a way back."""
    some = [DEEDS[numbers.below(10)] for _ in range(numbers.below(4) + 1)]
    return "top: " + "".join(some) + ("done: jump done " if numbers.below(3) > 1 else "jump top ")


def frame(numbers):
    """A frame that stores a word or posts some, behind which another frame comes."""
    if numbers.below(4) == 0:
        return [0xAE, 0x20, 1, 0]
    count = numbers.below(4) + 1
    return [0xAE, 0x1D5, count, *(numbers.below(4) for _ in range(count))]


def programs():
    """The images of three nodes, the stream of 708, and the size of the pieces."""
    numbers = Numbers(708)
    for _ in range(PROGRAMS):
        text = f"node 709 right a! {'@ drop ' * numbers.below(6)}$1F5 a! @ drop "
        text += "".join(begin + deeds(numbers) for begin in ("", "node 710 left b! 9 !b ", "node 711 "))
        stream = [word for _ in range(numbers.below(4) + 1) for word in frame(numbers)]
        (image,) = images_of("node 708 " + deeds(numbers)).values()
        stream += [0, 0, len(image.words), *(it.value for it in image.words)]
        yield images_of(text), stream, numbers.below(min(len(stream) - 1, 12)) + 1


def next_piece(nodes, state, stream):
    """The nodes and the state when the stream of 708 has become longer."""
    at = next(at for at, node in enumerate(nodes) if node.name == 708)
    longer = Node(708, None, stream)
    longer.beside = nodes[at].beside
    return [*nodes[:at], longer, *nodes[at + 1 :]], (*state[:at], longer.settled(state[at].state), *state[at + 1 :])


def piece_with_race(names, images, stream, size):
    """The piece with which there is a race, from 1, or 0 if there is none; or None if that isn't decided."""
    nodes = nodes_of(names, images, {708: stream[:size]})
    state = tuple(node.first for node in nodes)
    for number, end in enumerate(range(size, len(stream) + size, size)):
        if number:
            nodes, state = next_piece(nodes, state, stream[:end])
        races, ends, _ = explored(nodes, state)
        if races:
            return number + 1
        if len(ends) != 1:
            return 0 if end >= len(stream) else None
        (state,) = ends
    return 0


def verdict(images, stream, size):
    """A letter: n, no race; f, a race in the first piece; l, in a later one; w, only with the whole stream; u, with the whole one,
    and undecided in pieces."""
    names = {708, *images}
    while True:
        try:
            whole, piece = (piece_with_race(names, images, stream, part) for part in (len(stream), size))
        except Missing as it:
            names.add(it.args[0])
            continue
        assert whole or not piece, "a race in pieces alone"
        return "n" if not whole else {None: "u", 0: "w", 1: "f"}.get(piece, "l")


def main():
    letters = "".join(verdict(*it) for it in programs())
    rows = "".join(f'    "{letters[at : at + IN_A_ROW]}",\n' for at in range(0, PROGRAMS, IN_A_ROW))
    with open(FILE, encoding="utf-8") as file:
        text = file.read()
    if "--write" in sys.argv[1:]:
        with open(FILE, "w", encoding="utf-8") as file:
            file.write(LIST.sub(lambda it: it[1] + rows + it[3], text))
        return 0
    found = re.sub(r'[\s",]', "", LIST.search(text)[2])
    wrong = [f"{number}: {one} and not {other}" for number, (one, other) in enumerate(zip(found.ljust(PROGRAMS), letters)) if one != other]
    print(*wrong, *(f"{letter} {letters.count(letter)}" for letter in "nflwu"), sep="\n")
    print(f"{PROGRAMS - len(wrong)} passed, {len(wrong)} failed")
    return 1 if wrong else 0


if __name__ == "__main__":
    sys.exit(main())
