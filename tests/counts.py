"""The text of `list --counts`, worked out from the tries of a run, as tests/profiles.py works out a profile, and from the
model of listings in tests/outputs.py. Nothing here is taken from the program's counts, and no chip is run.
"""
import re
from collections import Counter

from assembler import decoded
from outputs import asm_line, listing
from profiles import SLOTS, cells, is_memory

HEAD = "  fetches  slot0  slot1  slot2  slot3  at   word    line  kind      reading\n"
PLACES = ["fetch", *SLOTS]
# The columns of counts of a line.
COUNTS = re.compile(r"[* ] *(?:\.|[1-9]\d*)(?: +(?:\.|\d+)){0,4} *")


def counts_of(steps):
    """How often each word of a node was fetched, and how often the opcode in each of its slots ran, by its steps."""
    counts, word = Counter(), None
    for step in steps:
        state = step.state
        if state.place == "fetch":
            word = state.p % 64 if is_memory(state.p) else None
        # the check of a post counts nowhere: its opcode ran by the step that posted
        if word is not None and state.need != "check":
            counts[word, state.place] += 1
    return counts


def opcodes(word):
    return decoded(word.value)[0] if word.kind == "code" else []


def jump_target(at, word):
    """The address to which a word goes that has nothing but a jump, and `.` before it, else None. The destination has ten,
    eight or three bits, and the bits above are those of P behind the fetch of the word."""
    ops, dest = decoded(word.value)[:2]
    if word.kind != "code" or ops[-1] != "jump" or any(op != "." for op in ops[:-1]):
        return None
    bound = 1 << [10, 8, 3][len(ops) - 1]
    return (at + 1) // bound * bound + dest


def heat(at, word, counts):
    """The highest count of a word, but none of one that only jumps to itself."""
    return 0 if jump_target(at, word) == at else max(counts[at, place] for place in PLACES)


def shown(count):
    return count or "."


def slots_shown(at, word, counts):
    """How often each opcode ran, if that isn't the number of fetches."""
    ran = [counts[at, place] for place in SLOTS]
    return [shown(it) if slot < len(opcodes(word)) and it != counts[at, "fetch"] else "" for slot, it in enumerate(ran)]


def rows_of(image, counts):
    """The lines of a node's words and labels."""
    most = max(heat(at, word, counts) for at, word in enumerate(image.words))

    def row(at, word, reads):
        is_hot = 0 < heat(at, word, counts) and most <= 2 * heat(at, word, counts)
        numbers = cells((8, shown(counts[at, "fetch"])), *((7, it) for it in slots_shown(at, word, counts)))
        place = f"  {at:03X}  {word.value:05X}{cells((7, word.line))}"
        return f"{'*' if is_hot else ' '}{numbers}{place}  {word.kind:8}  {reads}\n"

    return "".join(listing(image, row))


def counted_list(images, steps):
    """The listing of images with counts, by the steps of each node."""
    nodes = ((node, image, counts_of(steps[node])) for node, image in images.items())
    return "".join(asm_line(node, image) + HEAD + rows_of(image, counts) for node, image, counts in nodes)


def is_listing_of(text, images):
    """Whether a text is a listing of images with any counts."""
    wanted = counted_list(images, {node: [] for node in images}).splitlines()
    lines = text.splitlines()
    return len(lines) == len(wanted) and text.endswith("\n") and all(map(agrees, wanted, lines))


def agrees(wanted, line):
    """Whether a line is as expected, but for its counts."""
    if not COUNTS.match(wanted):
        return line == wanted
    # a count that is too wide moves what is behind it
    behind = wanted[37:]
    return line.endswith(behind) and COUNTS.fullmatch(line.removesuffix(behind)) is not None
