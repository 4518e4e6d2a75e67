"""Finds the warnings about a source text, after the rules in crates/ga_lint/README.md. It shares nothing with the program.

`warnings_of` gives them in order, each with its node and the token at its place.
"""
from collections import namedtuple

from assembler import ENDS, LITERALS, RAM, SLOTS, decoded, images_of, p_behind

Warned = namedtuple("Warned", "kind token")
# What opcodes do with the data stack: they push a new word, a copy, or take a word that they need.
BRINGS = {"@p", "@+", "@b", "@", "pop", "a"}
PUSHES = {*BRINGS, "dup", "over"}
NEEDS = {"!p", "!+", "!b", "!", "+", "and", "or", "push", "b!", "a!"}
TAKES = {*NEEDS, "drop"}
ROOM = 10
# The opcodes that write by the address that one sets.
WRITERS = {"b!": {"!b"}, "a!": {"!", "!+"}}
RIGHT, DOWN, LEFT, UP = PORTS = 0x80, 0x40, 0x20, 0x10
FILLER = "."
WARM = 0x29
EXTENDED = 0x200


def reached(address):
    """What an address reaches: a word of RAM or of ROM, or one or several ports; else None."""
    address %= 0x200
    bits = address ^ 0x155
    if address < 0x80:
        return "ram", address % RAM
    if address < 0x100:
        return "rom", address % RAM
    if bits and bits % 16 == 0:
        return ("port" if bits in PORTS else "ports"), bits
    return None, None


def is_loose(item):
    """Whether an item stands outside brackets, and may share a word."""
    return item.kind in ("op", "number")


def up_to(ends, ops):
    """The opcodes up to the first one of these, with it."""
    for at, op in enumerate(ops):
        if op in ends:
            return ops[: at + 1]
    return ops


class Node:
    """What is known of a node: its image, and of each word its opcodes and the address that its destination means."""

    def __init__(self, name, image):
        self.name = name
        self.image, self.words, self.items = image, image.words, image.items
        self.entry = image.labels.get("main", 0)
        read = [decoded(it.value) if it.kind == "code" else ([], None, 0) for it in self.words]
        self.ops = [ops for ops, _, _ in read]
        self.fields = [field for _, field, _ in read]
        self.targets = [self.target(at) for at in range(len(self.words))]
        self.starts = self.found_starts()
        self.comes = self.found_comes()
        self.extended = self.found_extended()

    def target(self, at):
        """The address that the destination of a word means, or None."""
        if self.fields[at] is None:
            return None
        width = SLOTS[len(self.ops[at]) - 1][2]
        return p_behind(at, self.ops[at]) >> width << width | self.fields[at]

    def found_starts(self):
        """The addresses to which execution may go: the entry, destinations, and labels that an item names."""
        names = {it.name.text for it in self.items if it.name}
        places = [reached(it) for it in self.targets if it is not None]
        aims = {at for kind, at in places if kind == "ram"}
        return {self.entry} | aims | {at for name, at in self.image.labels.items() if name in names}

    def found_comes(self):
        """For each address, and that behind the last word, whether execution comes there from the word before it."""
        last = {";", "ex", "jump"} | (set() if any("b!" in it for it in self.ops) else {"@b"})
        comes = [False]
        for at, word in enumerate(self.words):
            goes_on = comes[-1]
            if word.kind == "code":
                run = up_to(last | ENDS, self.ops[at])
                goes_on = (goes_on or at in self.starts) and run[-1] not in last
            comes.append(goes_on and word.kind != "data")
        return comes

    def slot0_field(self, at):
        """The destination of a word in slot 0, or None."""
        return self.fields[at] if len(self.ops[at]) == 1 else None

    def found_extended(self):
        """The addresses of the words that run in extended mode, found from the first to the last one."""
        fields = [self.slot0_field(at) for at in range(len(self.words))]
        led = {it - EXTENDED for it in fields if it is not None and it >= EXTENDED}
        found, goes_on = set(), False
        for at, word in enumerate(self.words):
            if word.kind == "follower":
                continue
            goes_on = word.kind == "code" and (goes_on or at in led)
            if goes_on:
                found.add(at)
                goes_on = up_to(ENDS, self.ops[at])[-1] not in (";", "jump")
                if fields[at] is None and self.targets[at] is not None and reached(self.targets[at])[0] == "ram":
                    led.add(reached(self.targets[at])[1])
        return found

    def live(self):
        """The addresses of the code to which execution comes, as far as it goes by the code alone."""
        return [at for at in range(len(self.words)) if self.is_code(at) and (at in self.starts or self.comes[at])]

    def may_write_code(self, ops):
        """Whether the node may write over its code, if these opcodes run."""
        run = up_to({"a!"} | WRITERS["a!"] | ENDS | {","}, [*self.ops_from(self.entry), ","])
        by_a = WRITERS["a!"] & ops and (run[-1] != "a!" or self.may_set_ram("a!"))
        return bool(by_a or WRITERS["b!"] & ops and self.may_set_ram("b!"))

    def may_set_ram(self, setter):
        """Whether an opcode sets its register to an address in RAM, or to a word that isn't a number of the text."""
        top = None
        for at, word in enumerate(self.words[: self.image.code]):
            run, p = up_to(ENDS, self.ops[at]), at + 1
            if word.kind == "follower":
                continue
            if at in self.starts or "unext" in run:
                top = None
            for op in run:
                if op == setter and (top is None or reached(top)[0] == "ram") or (op, setter) == ("+*", "a!"):
                    return True
                number = self.words[p].value if op == "@p" and p < len(self.words) else None
                top = top if op == FILLER else number
                p += op in LITERALS
            if run[-1] in ENDS:
                top = None
        return False

    def is_head(self, at):
        """Whether execution comes to an address by a `call` alone."""
        led = {op[-1] == "call" for op, target in zip(self.ops, self.targets) if target is not None and reached(target) == ("ram", at)}
        return led == {True} and at != self.entry and not self.comes[at]

    def strays(self):
        """Whether a `;` that runs may go elsewhere than behind the `call` of its routine: unless the routine is straight, calls
        nothing, and has popped what it pushed."""
        live, depth = {*self.live()}, None
        for at, word in enumerate(self.words[: self.image.code]):
            if word.kind == "follower":
                continue
            if "unext" in up_to(ENDS, self.ops[at]) and {"push", "pop"} & {*self.ops[at]}:
                depth = None
            elif self.is_head(at) or at in self.starts:
                depth = 0 if self.is_head(at) else None
            for op in up_to(ENDS, self.ops[at]):
                if op == ";" and depth != 0 and at in live:
                    return True
                if depth is not None:
                    depth += {"push": 1, "pop": -1, "unext": -1}.get(op, 0)
                depth = depth if depth in range(9) and op not in ENDS else None
        return False

    def takes_words(self):
        """Whether the node may run words that aren't in its text."""
        live = self.live()
        ops = {op for at in live for op in self.ops[at]}
        kinds = [reached(self.targets[at]) for at in live if self.targets[at] is not None]
        at_ports = any(kind in ("port", "ports") or (kind, at) == ("rom", WARM) for kind, at in kinds)
        returns = self.strays() and (ops & {"push", "next"} or 0 not in self.starts)
        return bool(ops & {"ex", "!p"} or at_ports or returns or self.may_write_code(ops))

    def is_open(self):
        """Whether execution may come to any word."""
        targets = [self.targets[at] for at in self.live() if self.targets[at] is not None]
        leaves = any(kind == "ram" and not self.is_code(at) for kind, at in map(reached, targets))
        takes_code = any(repeats({"push"} | LITERALS, self.ops[at]) for at in self.live())
        runs_off = not self.is_code(self.entry) or self.comes[self.image.code]
        return leaves or takes_code or runs_off or self.takes_words()

    def is_code(self, at):
        return at < len(self.words) and self.words[at].kind == "code"

    def is_dead(self, at):
        return self.is_code(at) and at not in self.starts and not self.comes[at] and not self.is_open()

    def ops_from(self, at):
        """The opcodes of the words from an address on, up to data."""
        for word, ops in zip(self.words[at:], self.ops[at:]):
            if word.kind == "data":
                return
            yield from ops

    def wrong_at(self, kind):
        """The address of the first word of the straight run that is wrong in this way, or None."""
        count, at = 0, self.entry
        while at < len(self.words) and self.words[at].kind != "data":
            for op in self.ops[at]:
                if is_wrong(kind, count, op):
                    return at
                if op == "unext" or op in ENDS:
                    return None
                count = count_behind(kind, count, op)
            at += 1
        return None


# What each rule of the straight run counts: the opcodes by which that rises and falls, and those that are wrong at 0.
COUNTED = {
    "PushesTooMany": (PUSHES, TAKES, set()),
    "PopsTooMany": (PUSHES, TAKES, NEEDS),
    "ReturnsNowhere": ({"push"}, {"pop"}, {";"}),
    "ReadsIo": ({"b!"}, set(), {"@b"}),
}


def is_wrong(kind, count, op):
    return kind == "PushesTooMany" and count == ROOM and op in BRINGS or count == 0 and op in COUNTED[kind][2]


def count_behind(kind, count, op):
    more, fewer, _ = COUNTED[kind]
    least = int(op == "or" and more is PUSHES)
    return min(ROOM, count + 1) if op in more else max(least, count - 1) if op in fewer else count


# The rules of words, in their order: whether the word at an address has the warning of this name.
RULES = {}


def rule(function):
    name = "".join(it.capitalize() for it in function.__name__.split("_"))
    RULES[name] = function
    return function


def has_unext(ops):
    return "unext" in up_to(ENDS, ops)


def repeats(repeated, ops):
    """Whether the rounds of an `unext` run one of these opcodes again."""
    run = up_to(ENDS | {"unext"}, ops)
    return run[-1:] == ["unext"] and bool(repeated & {*run})


@rule
def unext_repeats(node, at):
    return repeats({"push"} | (LITERALS if is_loose(node.words[at].first) else set()), node.ops[at])


@rule
def split_loop(node, at):
    first = node.items.index(node.words[at].first)
    if not has_unext(node.ops[at]) or first == 0 or not is_loose(node.items[first]):
        return False
    before = node.items[first - 1]
    return is_loose(before) and not ENDS & {*before.ops}


@rule
def runs_off(node, at):
    is_last = node.is_code(at) and not any(it.kind == "code" for it in node.words[at + 1 :])
    return is_last and node.image.code < RAM and node.comes[node.image.code]


@rule
def pushes_too_many(node, at):
    return node.wrong_at("PushesTooMany") == at


@rule
def pops_too_many(node, at):
    return node.wrong_at("PopsTooMany") == at


@rule
def unreachable(node, at):
    code_before = [it for it in range(at) if node.is_code(it)]
    is_first = not code_before or not node.is_dead(code_before[-1])
    return node.is_dead(at) and is_first and at not in node.image.labels.values()


def writes_at(node, at, is_refused):
    """Whether the word sets A or B to the address of ports of this kind, by a number, and the node writes there."""
    run, p = up_to(ENDS, node.ops[at]), at + 1
    for slot, op in enumerate(run):
        if op == "@p" and p < len(node.words) and is_refused(*reached(node.words[p].value)):
            left = [*node.ops[at][slot + 1 :], *node.ops_from(at + 1)]
            setter, *behind = [it for it in left if it != FILLER] or [None]
            ends = ENDS | WRITERS.get(setter, set()) | {setter}
            if setter in WRITERS and up_to(ends, behind)[-1:] in [[it] for it in WRITERS[setter]]:
                return True
        p += op in LITERALS
    return False


@rule
def several_ports(node, at):
    return writes_at(node, at, lambda kind, bits: kind == "ports")


@rule
def returns_nowhere(node, at):
    return node.wrong_at("ReturnsNowhere") == at


@rule
def leaves_extended(node, at):
    field = node.slot0_field(at)
    goes_back = field is not None and node.ops[at] != ["call"] and field < at
    return goes_back and {at, field} <= node.extended


@rule
def over_memory(node, at):
    kind, address = reached(node.targets[at]) if node.targets[at] is not None else (None, None)
    return kind == "ram" and address >= len(node.words) or kind == "rom" and address != WARM


@rule
def into_data(node, at):
    kind, address = reached(node.targets[at]) if node.targets[at] is not None else (None, None)
    return kind == "ram" and address < len(node.words) and not node.is_code(address) and not node.takes_words()


@rule
def begins_in_data(node, at):
    return at == node.entry and not node.is_code(at)


@rule
def reads_io(node, at):
    behind = node.ops[at][node.ops[at].index("@b") + 1 :] if "@b" in node.ops[at] else []
    goes_on = {*behind} - {FILLER} or any(it.kind == "code" for it in node.words[at + 1 :])
    return node.wrong_at("ReadsIo") == at and bool(goes_on)


@rule
def edge_port(node, at):
    row, column = divmod(node.name, 100)
    missing = {bit for bit, is_edge in ((UP, row in (0, 7)), (LEFT, column in (0, 17))) if is_edge}
    return writes_at(node, at, lambda kind, bits: kind == "port" and bits in missing)


def warnings_of_node(name, image):
    node = Node(name, image)
    for at, word in enumerate(node.words):
        if node.is_dead(at):
            for item in node.items:
                if item.kind == "label" and image.labels[item.token.value] == at:
                    yield Warned("UnusedLabel", item.token)
        yield from (Warned(name, word.first.token) for name, applies in RULES.items() if applies(node, at))
    if node.entry == len(node.words) < RAM:
        yield from (Warned("OverMemory", it.token) for it in node.items if it.kind == "label" and it.token.value == "main")


def warnings_of(text):
    """The warnings about a plain source text, or its Fault."""
    return [(node, *it) for node, image in images_of(text).items() for it in warnings_of_node(node, image)]
