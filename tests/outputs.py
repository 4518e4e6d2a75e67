"""The expected output for words, images and routes, after docs/FORMATS.md and docs/CHIP.md."""
import re

from assembler import NODE, NUMBERS, SLOTS, Fault, decoded, followers, p_behind
from schedules import neighbours

ROUTES = re.compile(f"{NODE.pattern}([,/]{NODE.pattern})*")


def rows_of(words):
    """Words in hex, eight on a line."""
    texts = [f"{word:05X}" for word in words]
    return "".join(" ".join(texts[at : at + 8]) + "\n" for at in range(0, len(texts), 8))


def entry(image):
    return image.labels.get("main", 0)


def asm_line(node, image):
    return f"node {node:03} entry {entry(image):03X} code {image.code} words {len(image.words)}\n"


def asm_output(images):
    return "".join(asm_line(node, image) + rows_of(it.value for it in image.words) for node, image in images.items())


def reading(word, name_of=lambda ops, field: None):
    """What a word of code reads as. Its destination may have a name."""
    ops, field, spare = decoded(word)
    destination = [] if field is None else [name_of(ops, field) or f"${field:05X}"]
    return " ".join(["[", *ops, *destination, *(["/", str(spare)] if spare else []), "]"])


def dis_output(words, code):
    lines, owed = ["node 000"], 0
    for at, word in enumerate(words):
        lines += ["data"] if at == code else []
        if at >= code or owed > 0:
            lines.append(f", ${word:05X}")
            owed -= 1
        else:
            lines.append(reading(word))
            owed = followers(decoded(word)[0])
    return "".join(f"{line}\n" for line in lines)


def list_output(images, line_name=lambda token: token.line):
    """The listing of images, with what is shown of the line of each word's first token."""

    def row(at, word, reads):
        return f"{at:03X}  {word.value:05X}  {word.kind:8} {line_name(word.first.token)!s:>5}  {reads}\n"

    return "".join(asm_line(node, image) + "".join(listing(image, row)) for node, image in images.items())


def reading_at(image, at):
    """What the word at an address of an image reads as."""

    def name_of(ops, field):
        width = SLOTS[len(ops) - 1][2]
        target = p_behind(at, ops) >> width << width | field
        return next((name for name, address in image.labels.items() if address == target), None)

    word = image.words[at]
    return reading(word.value, name_of) if word.kind == "code" else f", ${word.value:05X}"


def listing(image, row):
    """The lines of an image: those of its labels, and `row` of each word, by its address and what it reads as."""
    for at, word in enumerate([*image.words, None]):
        yield from (f"{name}:\n" for name, address in image.labels.items() if address == at)
        if word:
            yield row(at, word, reading_at(image, at))


def labels_output(images):
    return "".join(f"{node:03} {name} {at:03X}\n" for node, it in images.items() for name, at in it.labels.items())


def routes_of(text):
    if not ROUTES.fullmatch(text):
        raise Fault("route BadRoute")
    return [[int(name) for name in route.split(",")] for route in text.split("/")]


def tree_of(routes):
    """The parent of each node of some routes, in the order in which the routes first name them."""
    for route in routes:
        if route[0] // 100 not in (0, 7) and route[0] % 100 not in (0, 17):
            raise Fault("route NotEdge")
        for at in range(1, len(route)):
            if route[at] not in neighbours(route[at - 1]).values():
                raise Fault(f"route NotNeighbour {at}")
            if route[at] in route[:at]:
                raise Fault(f"route Repeated {at}")
    parents = {routes[0][0]: None}
    for number, route in enumerate(routes):
        if route[0] != routes[0][0]:
            raise Fault(f"tree OtherRoot {number}")
        has_left = False
        for before, node in zip(route, route[1:]):
            has_left = has_left or parents.get(node) != before
            if has_left and node in parents:
                raise Fault(f"tree Repeated {number}")
            parents[node] = before
    return parents


def judge_reached(parents, images):
    for node in images:
        if node not in parents:
            raise Fault(f"boot Unreached {node:03}")


class Boot:
    """What the nodes of a tree are sent to load and to start."""

    def __init__(self, parents, images):
        self.parents, self.images = parents, images
        self.behind = {node: [it for it, parent in parents.items() if parent == node] for node in parents}

    def words(self, node):
        return [it.value for it in self.images[node].words] if node in self.images else []

    def start_address(self, node):
        return entry(self.images[node]) if node in self.images else idle_address(node)

    def load(self, node):
        sent = [0x10000 + port(node, self.parents[node]), *self.pumps(node, self.load)]
        if node in self.images:
            sent += [0x04A12, 0, len(self.words(node)) - 1, 0x2E9B2, 0x05872, *self.words(node)]
        return [*sent, 0x2C9B2]

    def start(self, node):
        return [*self.pumps(node, self.start), 0x10000 + self.start_address(node)]

    def pumps(self, node, sent):
        for child in self.behind[node]:
            words = sent(child)
            yield from [0x04A12, port(node, child), len(words) - 1, 0x2E9B2, 0x05A72, *words]

    def frames(self, root, sent):
        for child in self.behind[root]:
            words = sent(child)
            yield from [0x000AE, port(root, child), len(words), *words]


def boot_output(parents, images):
    boot, root = Boot(parents, images), next(iter(parents))
    load = [*boot.frames(root, boot.load), 0x000AE, 0, len(boot.words(root)), *boot.words(root)]
    start = [*boot.frames(root, boot.start), boot.start_address(root), 0, 0]
    return f"load {len(load)}\n{rows_of(load)}start {len(start)}\n{rows_of(start)}"


def port(node, neighbour):
    return next(NUMBERS[side] for side, there in neighbours(node).items() if there == neighbour)


def idle_address(node):
    """The address of all ports that a node has."""
    is_end, is_side = node // 100 in (0, 7), node % 100 in (0, 17)
    return {(False, False): 0x1A5, (True, False): 0x1B5, (False, True): 0x185, (True, True): 0x195}[is_end, is_side]
