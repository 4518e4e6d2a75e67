"""The text of `profile`, and its JSON, worked out from the tries of a run.

`record` makes the run again, one try after the other. In front of each turn `where` shows P, the place, the opcode and the
need of each node, `expect NNN at` the address of its word in execution, and `expect NNN R` its R; the outcome of a try shows
who moved. Nothing here is taken from `profile` or `depth` themselves, and no chip is run. Labels are those of assembler.py,
and what words read as is that of outputs.py.
"""
import json
import re
from collections import Counter, namedtuple
from dataclasses import dataclass, field
from functools import partial
from itertools import accumulate

from assembler import NAME
from outputs import reading_at
from replies import LABEL, LOADER, STOPPED
from schedules import neighbours
from sessions import head_of

NODES = [100 * row + column for row in range(8) for column in range(18)]
# The bytes of the tries of one session. Their lines have 53 bytes for each node and turn.
MOST_BYTES = 900000
WAITS = re.compile(
    rf"(\d{{3}}) P (\w{{3}})(?: {NAME.pattern}(?:[+]\d+)?)? (?P<place>fetch|slot[0-3]|{LOADER})(?: (?P<op>\S+))? "
    rf"(?P<need>own|input|{STOPPED}|take|post|check)(?P<rest>$| .*|,.*)"
)
# A side at which a node takes, posts or checks, with the neighbour there.
SIDE = re.compile(r" ?(?P<side>right|down|left|up) of (?P<node>\d{3})\b.*")
SLOTS = ["slot0", "slot1", "slot2", "slot3"]
# The sides in the order in which turns try them.
ORDER = ["right", "down", "left", "up"]
# What a node does in a turn, in the order in which a bar has it, and the sign.
SIGNS = {"boots": "b", "works": "#", "takes": "?", "reads": "!", "spins": "~", "stops": "x"}
# The same in JSON, by its names.
COUNTS = {
    "boots": "boots", "reader_waits": "reads", "spins": "spins", "stops": "stops", "word_waits": "takes", "works": "works",
}  # fmt: skip
# How many words the stacks have room for, and what an opcode does to them. The end of a loop pops its counter, if R is 0.
DATA_ROOM, RETURN_ROOM = 10, 9
DATA_CHANGES = {
    **dict.fromkeys(["@p", "@+", "@b", "@", "dup", "pop", "over", "a"], 1),
    **dict.fromkeys(["!p", "!+", "!b", "!", "+", "and", "or", "drop", "push", "b!", "a!"], -1),
}
RETURN_CHANGES = {"call": 1, "push": 1, ";": -1, "pop": -1}
LOOPS = {"unext", "next"}
HEAD = """\
    share of the turns, % 0                    100         words       a pass
node work take read rest |-----+-----+-----+------| path   in   out  turns works
"""
LEGEND = """\
# works  ? waits for a word  ! waits for its word to be read
rest: b boots  ~ spins  x stopped  blank idle
path: the run waits for this node
"""
STUCK = r"Stuck, since no node reads its word:(?: \d{3})+\.\n"
LINES_HEAD = "path  node     word  where the path goes\n"
STACKS_HEAD = "node data/10 return/9  the fullest stacks\n"
# What the profile of a run that isn't worked out has to look like.
SHARE = r"(?:\.|<1|\d{1,3})"
READING = r"(?:\[[^\n]+\]|, \$[0-3][0-9A-F]{4})"
# A row of the table of the path, and what stands behind the address of a word that was loaded.
ROW_OF_PATH = re.compile(
    rf" +(?P<share>{SHARE})   (?P<node>\d{{3}})(?:   | \+(?P<others>[1-9]))   (?P<word>  \.|0[0-3][0-9A-F])(?P<code>.*)"
)
CODE_OF_ROW = re.compile(rf" *{LABEL}  {READING}")
PASSED = rf"(?:  {{}}, passed at [0-3][0-9A-F]{{{{2}}}}{LABEL.replace('{', '{{').replace('}', '}}')})?"
PROFILE = [
    rf"\d+ turns from turn \d+ on\n{re.escape(HEAD)}",
    rf"(?:\d{{3}}(?: +{SHARE}){{4}} \|b*#*\?*!*~*x* *\| +{SHARE}(?: +\d+){{2}}(?: +\d+){{2}}\n|"
    rf"\d{{3}}(?: +{SHARE}){{4}} \|b*#*\?*!*~*x* *\| +{SHARE}(?: +\d+){{2}}      \.     \.\n)*",
    re.escape(LEGEND),
    rf"(?:{STUCK})?Bottleneck: [^\n]*\n(?:If it worked [^\n]*\n|(?:ring(?: \d{{3}})+\n)*)",
    rf"{LINES_HEAD}(?: +{SHARE}   \d{{3}}[ +][^\n]*\n){{0,10}}",
    rf"(?:{STACKS_HEAD}(?:\d{{3}}(?: +\d+){{2}}{PASSED.format('data')}{PASSED.format('return')}\n){{1,10}})?",
    r"At the end:\n(?:\d{3} P [^\n]*\n)*(?:idle:(?: \d{3})+\n)?(?:ring(?: \d{3})+\n)*",
]

# What a node is about to do: P, its place, the opcode there, its need, the neighbours at the sides that the need names, the
# address of the word in execution, and R.
State = namedtuple("State", "p place op need sides at r")
IDLE = State(0x1A5, "fetch", None, "take", {}, 0x1A5, 0)


def idle(node):
    """The state of a node that hasn't started: it takes from all its neighbours."""
    return IDLE._replace(sides=neighbours(node))


# A step: the turn, how many steps the node made before it in the run, and its state in front of it.
Step = namedtuple("Step", "turn number state")
# A step on a path: its turn, its place among all steps, the word of memory in execution, or None, and what it waited for: the
# node, the need and the side of the step that ends the wait.
Move = namedtuple("Move", "turn order word awaited")


def states_of(lines):
    """The states of the started nodes, but for `at` and R, by the lines of `where`."""
    found = [WAITS.fullmatch(line) for line in lines if not line.startswith("ring ")]
    return {
        int(it[1]): State(int(it[2], 16), it["place"], it["op"], it["need"].split()[0], sides_in(it["rest"]), None, None)
        for it in found
    }


def distance_of(node, next_of):
    """How many nodes a node is behind, by the node for which each one waits: the way goes on to a node that waits for none, or
    to the first node of a ring."""
    way = [node]
    while next_of.get(way[-1], way[-1]) not in way:
        way.append(next_of[way[-1]])
    return way.index(next_of.get(way[-1], way[-1]))


def found_in(reply):
    """What is there, by the reply to a command that expects 0."""
    return 0 if reply == "ok" else int(reply.split()[-1], 16)


def sides_in(text):
    """The neighbours that a line of `where` names behind a need, by side. A neighbour's own sides have no ` and ` between
    them."""
    found = [SIDE.fullmatch(it) for it in text.split(" and ")]
    return {it["side"]: int(it["node"]) for it in found if it}


class TooLong(Exception):
    """The sessions that show a run would be too long."""


class MayChange(Exception):
    """A profile isn't worked out. A multiport read may take another word if a node is faster. Or a node spins, and changes stacks
    or memory there, of which the replies don't show all."""


class Run:
    """A run of at most some turns behind the commands of a session: how many turns it has, and which nodes move. `session`
    gives the replies to commands behind a head, or None if their text would be too long."""

    def __init__(self, session, head, commands, turns):
        views = [f"regs {node:03}" for node in NODES]
        replies = session(head, [*commands, *views, f"run {turns}", *views])
        if replies is None:
            raise TooLong
        replies = replies[len(commands) :]
        counts = [[int(re.search(r" steps (\d+) ", it[0])[1]) for it in part] for part in (replies[:144], replies[145:])]
        self.turns = int(replies[144][0].split()[1])
        self.nodes = [node for node, *pair in zip(NODES, *counts) if pair[0] != pair[1]]
        self.session, self.head, self.commands = session, head, commands
        self.images, self.steps = head_of(head).images, None

    def look(self):
        """The steps of each node. The first call makes the tries."""
        if self.steps is None:
            self.steps = self.steps_by(self.outcomes())
        return self.steps

    def outcomes(self):
        """Makes the tries, a session for a part of the turns, which begins with a turn that tries the right side."""
        self.where, outcomes = [], []
        part = max(4, MOST_BYTES // (53 * len(self.nodes) + 8) // 4 * 4)
        for first in range(0, self.turns + 1, part):
            some = range(first, min(first + part, self.turns + 1))
            lines = [line for turn in some for line in self.lines_of(turn)]
            replies = self.session(self.head, [*self.commands, f"turn {first}", *lines])
            if replies is None:
                raise TooLong
            replies = replies[len(self.commands) + 1 :]
            width = 1 + 3 * len(self.nodes)
            for begin in range(0, len(replies), width):
                self.where.append(replies[begin])
                outcomes.append(replies[begin + 1 : begin + width])
        return outcomes

    def replies_behind(self, turns, commands):
        """The replies to commands behind some turns."""
        replies = self.session(self.head, [*self.commands, f"turn {turns}", *commands])
        if replies is None:
            raise TooLong
        return replies[len(self.commands) + 1 :]

    def nodes_behind(self, turns):
        """Who waits for whom behind some turns, each node behind the one that it waits for."""
        lines = self.replies_behind(turns, ["nodes"])[0]
        nodes = [line for line in lines if line[:3].isdigit()]
        next_of = {int(line[:3]): node for line in nodes for node in self.nexts(turns, line)}
        nodes.sort(key=lambda line: distance_of(int(line[:3]), next_of))
        return "".join(f"{line}\n" for line in nodes + [line for line in lines if not line[:3].isdigit()])

    def nexts(self, turns, line):
        """The node for which a node waits behind some turns, if it is one alone, by its line."""
        ((node, state),) = states_of([line]).items()
        is_free = state.need in ("take", "check") and " and " not in line and ", held" not in line
        waits = is_free and (line.endswith(", stuck") or self.waits(turns, node))
        return list(state.sides.values()) if waits else []

    def unread_behind(self, turns):
        """The nodes that wait for good for their words to be read behind some turns. Each node that could read one of these
        words is stuck or spins."""
        lines = [line for line in self.where[turns] if not line.startswith("ring ")]
        states = states_of(line for line in lines if ", held" not in line)
        stuck = {int(line[:3]) for line in lines if line.endswith(", stuck")}
        waiting = [node for node, state in states.items() if state.need in ("post", "check") and self.waits(turns, node)]
        return [node for node in waiting if all(it in stuck or self.spins(turns, it) for it in states[node].sides.values())]

    def waits(self, turns, node):
        """Whether a node waits behind some turns."""
        return self.replies_behind(turns, [f"try {node:03} r"]) == [["waits"]]

    def spins(self, turns, node):
        """Whether a node behind some turns comes back to its registers, word and place by at most four own steps."""
        replies = self.replies_behind(turns, [f"regs {node:03}", f"expect {node:03} at 000", f"try {node:03} r"] * 5)
        states = [(re.sub(r" steps \d+ ", " ", line), at) for (line,), at in zip(replies[::3], replies[1::3])]
        own = [line.endswith(" need own") and tried == ["moved"] for (line, _), tried in zip(states, replies[2::3])]
        return any(states[0] == states[period] and all(own[:period]) for period in range(1, 5))

    def lines_of(self, turn):
        side = "rdlu"[turn % 4]
        tries = ((f"expect {it:03} at 000", f"expect {it:03} R 00000", f"try {it:03} {side}") for it in self.nodes)
        return ["where", *(line for one in tries for line in one)]

    def steps_by(self, outcomes):
        steps = {node: [] for node in NODES}
        states = [states_of(it) for it in self.where]
        for turn in range(self.turns):
            for index, node in enumerate(self.nodes):
                (at,), (r,), (outcome,) = outcomes[turn][3 * index : 3 * index + 3]
                if outcome == "moved":
                    state = states[turn].get(node, idle(node))._replace(at=found_in(at), r=found_in(r))
                    steps[node].append(Step(turn, len(steps[node]), state))
        return steps

    def spinning_from(self, node):
        """The turn from which on a node spins, or how many turns there are. One that spins does so in the end, too."""
        steps = self.look()[node]
        if not steps or steps[-1].turn < self.turns - 1 or not self.spins(self.turns, node):
            return self.turns
        # A node that is about to fetch still has the word that it fetched last.
        fetched = ((step.state.place != "fetch" or None) and step.state.at for step in steps)
        words = accumulate(fetched, lambda last, word: last if word is None else word)
        states = [(step.state, word) for step, word in zip(steps, words)]
        begins = (at for at in range(len(states)) for by in range(1, 5) if states[at:-by] == states[at + by :])
        loop = steps[next(begins) :]
        if any(step.state.op in {*DATA_CHANGES, *RETURN_CHANGES, *LOOPS} for step in loop):
            raise MayChange
        return next((step.turn for step in loop if self.spins(step.turn, node)), self.turns)


def is_memory(address):
    return address % 0x200 < 0x80


def address_of(state):
    """The address of the word in execution, with the bit that only P has."""
    return state.p & 0x200 | state.at


@dataclass
class Doing:
    """What a node did in a window, up to a step."""

    began: int | None = None
    last: int | None = None
    counts: Counter = field(default_factory=Counter)
    taken: int = 0
    posted: int = 0

    def wait(self, kind, turns):
        if self.began is not None and kind:
            self.counts[kind] += max(turns, 0)

    def turns_between(self, first, turn):
        """How many turns of the window are behind the last step and in front of a turn."""
        return turn - first if self.last is None else min(turn - first, turn - self.last - 1)


def awaited(state):
    """What a node in this state waits for, if it can't move."""
    if state.need == "take":
        return None if state.place == "fetch" else "takes"
    return {"post": "reads", "check": "reads", "stopped": "stops"}.get(state.need)


def doing_of(steps, first, spinning_from):
    """What a node did in a window, by its steps up to the window's end, and by the turn from which on it spins."""
    it = Doing()
    for step in steps:
        state = step.state
        if state.need in ("take", "check"):
            it.wait(awaited(state), it.turns_between(first, step.turn))
        if it.began is None and state.place == "fetch" and is_memory(state.p):
            it.began = step.turn
        is_spinning = step.turn >= spinning_from
        if step.turn >= first:
            it.counts["spins" if is_spinning else "boots" if it.began is None else "works"] += 1
            it.taken += it.began is not None and state.need == "take"
            it.posted += it.began is not None and state.need == "post"
        if not is_spinning:
            it.last = step.turn
    return it


def pass_of(steps, first):
    """The turns and the steps of a pass in the mean, by the place that a node passes most, the first of these."""
    passed = {}
    for step in steps:
        state = step.state
        if step.turn >= first and state.need in ("take", "post") and state.place in SLOTS and is_memory(state.at):
            passed.setdefault((state.at % 64, state.place), []).append(step)
    most = max((passed[place] for place in sorted(passed)), key=len, default=[])
    if len(most) < 4:
        return None
    passes = len(most) - 1
    return (most[-1].turn - most[0].turn) // passes, (most[-1].number - most[0].number) // passes


def moves_of(steps):
    """The steps of each node, for paths, and those that post, take and pass a check, by node and side."""
    moves, ports = {node: [] for node in steps}, {}
    order = sorted((step.turn, index, step) for index, some in enumerate(steps.values()) for step in some)
    for place, (turn, index, step) in enumerate(order):
        node, awaited = NODES[index], None
        if step.state.need in ("take", "post", "check") and step.state.sides:
            side = [*step.state.sides][0]
            if len(step.state.sides) > 1:
                side = ORDER[turn % 4]
            ports.setdefault((node, step.state.need, side), []).append(Move(turn, place, None, None))
            ends = {"take": "post", "check": "take"}.get(step.state.need)
            awaited = ends and (step.state.sides[side], ends, side)
        word = step.state.at % 64 if is_memory(step.state.at) else None
        moves[node].append(Move(turn, place, word, awaited))
    return moves, ports


def before_on_path(moves, ports, node, move):
    """The node and the step in front of a step on the path: the one that it waited for, or its node's own step before."""
    own = max((it for it in moves[node] if it.order < move.order), key=lambda it: it.order, default=None)
    others = [it for it in ports.get(move.awaited, []) if it.order < move.order]
    if others and move.turn - (own.turn if own else -1) > 1 and (own is None or others[-1].turn > own.turn):
        there = move.awaited[0]
        return there, next(it for it in moves[there] if it.order == others[-1].order)
    return node, own


def path_of(steps, first, node):
    """How many turns of a window from a turn on each word of a node has on the path to the last step of a node."""
    moves, ports = moves_of(steps)
    turns = Counter()
    move = max(moves[node], key=lambda it: it.order, default=None)
    while move is not None:
        there, before = before_on_path(moves, ports, node, move)
        own = move.turn + 1 - first
        turns[node, move.word] += max(0, own if before is None else min(own, move.turn - before.turn))
        node, move = there, before
    return turns


class Clocks:
    """A clock for each node, which has the turn of its last step if one node makes its own steps two a turn. A word is taken
    behind its post, and the take is seen behind it, in the same turn if the other node's name is lower."""

    def __init__(self, first, fast):
        self.at = dict.fromkeys(NODES, first - 1)
        self.first, self.fast = first, fast
        self.own, self.posts, self.takes = Counter(), {}, {}
        # The last turns in which multiport reads tried a side in vain, and whether a word might have been there by then.
        self.tried, self.may_change = {}, False

    def pass_own(self, node):
        steps = self.own.pop(node, 0)
        self.at[node] += -(-steps // 2) if node == self.fast else steps

    def behind(self, times, cell, other, node):
        return times.get(cell, self.first - 1) + (0 if other < node else 1)

    def take(self, node, sides, side):
        ready, there = self.at[node], sides[side]
        came = self.behind(self.posts, (there, node), there, node)
        now = max(ready + 1, came)
        if len(sides) > 1:
            now += (ORDER.index(side) - now) % 4
            for other in sides.keys() - {side}:
                last = now - 1 - (now - 1 - ORDER.index(other)) % 4
                before = self.tried.get((sides[other], node), -1)
                self.tried[sides[other], node] = max(before, last if last > ready else -1)
        self.may_change |= came <= self.tried.pop((there, node), -1)
        self.at[node] = self.takes[there, node] = now

    def may_be_there(self, cell):
        """Whether a word of a cell that isn't taken might have been there when a multiport read tried its side in vain."""
        is_left = cell in self.posts and self.takes.get(cell, -1) < self.posts[cell]
        return is_left and self.behind(self.posts, cell, *cell) <= self.tried[cell]

    def step(self, node, state, turn):
        if state.need == "own":
            self.own[node] += 1
            return
        self.pass_own(node)
        side = [*state.sides][0] if len(state.sides) == 1 else ORDER[turn % 4]
        other = state.sides.get(side)
        if other is not None and state.need == "take":
            self.take(node, state.sides, side)
        elif other is not None and state.need == "check":
            self.at[node] = max(self.at[node] + 1, self.behind(self.takes, (node, other), other, node))
        else:
            self.at[node] += 1
            self.posts[node, other] = self.at[node]


def length_if_faster(steps, first, fast):
    """How many turns a window has if a node makes its own steps two a turn. No chip is run for it. The steps are those of no
    spin."""
    made = sorted((step.turn, node, step.state) for node, some in steps.items() for step in some if step.turn >= first)
    clocks = Clocks(first, fast)
    for turn, node, state in made:
        clocks.step(node, state, turn)
    for node in NODES:
        clocks.pass_own(node)
    if clocks.may_change or any(map(clocks.may_be_there, clocks.tried)):
        raise MayChange
    return max(clocks.at.values()) - first + 1


@dataclass
class Stack:
    """How many words a stack holds, the most of them, and the address of the first push that it had no room for."""

    room: int
    words: int = 0
    most: int = 0
    passed: int | None = None

    def change(self, by, address):
        self.words = max(self.words + by, 0)
        self.most = max(self.most, self.words)
        if self.passed is None and self.words > self.room:
            self.passed = address


def stacks_of(steps):
    """Both stacks of a node, by its steps."""
    data, back = Stack(DATA_ROOM), Stack(RETURN_ROOM)
    for state in (step.state for step in steps):
        if state.place in SLOTS and state.need != "check":
            data.change(DATA_CHANGES.get(state.op, 0), address_of(state))
            by = -(state.r == 0) if state.op in LOOPS else RETURN_CHANGES.get(state.op, 0)
            back.change(by, address_of(state))
    return data, back


def label_of(image, index):
    """The first of the last labels at or before an index of memory, and how far the index is behind it."""
    before = {name: at for name, at in (image.labels if image else {}).items() if at <= index}
    if not before:
        return ""
    near = max(before.values())
    name = next(name for name, at in before.items() if at == near)
    return f" {name}+{index - near}" if index > near else f" {name}"


def passed_text(name, stack, image):
    if stack.passed is None:
        return ""
    label = label_of(image, stack.passed % 64) if is_memory(stack.passed) else ""
    return f"  {name}, passed at {stack.passed:03X}{label}"


def stacks_text(stacks, images):
    """The ten nodes with the fullest stacks, by the stacks of the nodes that began."""
    full = {node: max(data.most * RETURN_ROOM, back.most * DATA_ROOM) for node, (data, back) in stacks.items()}
    shown = sorted((-much, node) for node, much in full.items() if much)[:10]
    rows = []
    for _, node in shown:
        data, back = stacks[node]
        passed = passed_text("data", data, images.get(node)) + passed_text("return", back, images.get(node))
        rows.append(f"{node:03}{cells((9, data.most), (9, back.most))}{passed}\n")
    return STACKS_HEAD + "".join(rows) if rows else ""


def share(turns, length):
    if not turns or not length:
        return "."
    return "<1" if turns * 100 < length else str((turns * 200 + length) // (length * 2))


def bar(counts, length):
    """24 columns, each of which shows the turn in its middle."""
    ends = [*zip(SIGNS.values(), accumulate(counts[kind] for kind in SIGNS))]
    middles = [(2 * column + 1) * length for column in range(24)]
    return "".join(next((sign for sign, end in ends if middle < 48 * end), " ") for middle in middles)


def cells(*columns):
    """Texts at the right of columns, each behind at least one blank."""
    return "".join(" " + str(text).rjust(width - 1) for width, text in columns)


def row(node, it, mean, on_path, length):
    works, takes, reads = it.counts["works"], it.counts["takes"], it.counts["reads"]
    did = (works, takes, reads, max(length - works - takes - reads, 0))
    shares = cells(*zip((6, 5, 5, 5), (share(turns, length) for turns in did)))
    turns, steps = mean or (".", ".")
    numbers = cells((5, share(on_path, length)), (5, it.taken), (6, it.posted), (7, turns), (6, steps))
    return f"{node:03}{shares} |{bar(it.counts, length)}|{numbers}\n"


def lines_of(turns, on_path):
    """The ten words with the most turns on the path, of the ten nodes with the most: node, word and turns. Code that isn't in
    memory has the word None."""
    ranks = sorted(NODES, key=lambda node: (-on_path[node], node))[:10]
    found = [(-turns[node, word], rank, word) for rank, node in enumerate(ranks) for word in range(64)]
    found += [(-turns[node, None], rank, 64) for rank, node in enumerate(ranks)]
    return [(ranks[rank], None if word == 64 else word, -less) for less, rank, word in sorted(found)[:10] if less]


def alike_of(turns, on_path, images):
    """The ten with the most turns on the path, of the ten nodes with the most, where words at one address that read alike in
    several nodes count together: the first node, the word, the turns of all, and how many other nodes there are."""
    ranks = sorted(NODES, key=lambda node: (-on_path[node], node))[:10]
    groups = {}
    for rank, node in enumerate(ranks):
        for word in (word for word in [*range(64), None] if turns[node, word]):
            code = code_of(images.get(node), word) if is_loaded(images.get(node), word) else node
            groups.setdefault((word, code), []).append((rank, turns[node, word]))
    found = sorted((-sum(it for _, it in group), group[0][0], 64 if word is None else word, len(group) - 1)
                   for (word, _), group in groups.items())  # fmt: skip
    return [(ranks[rank], None if word == 64 else word, -less, others) for less, rank, word, others in found[:10]]


def lines_text(lines, length, images):
    """Words of memory with their turns on the path, as text."""
    rows = []
    for node, word, turns, others in lines:
        shown = "." if word is None else f"{word:03X}"
        like = f" +{others}" if others else "   "
        code = "" if word is None else code_of(images.get(node), word)
        rows.append(f"{cells((4, share(turns, length)), (6, f'{node:03}'))}{like}{cells((6, shown))}{code}\n")
    return LINES_HEAD + "".join(rows)


def is_loaded(image, word):
    """Whether a word of memory was loaded with the image."""
    return image is not None and word is not None and word < len(image.words)


def code_of(image, word):
    """The label of a word of memory, and what it reads as, if it was loaded with the image."""
    label = label_of(image, word)
    return f"{cells((15, label))}  {reading_at(image, word)}" if is_loaded(image, word) else label


def row_of_path(text):
    """A row of the table of the path, or None: only words that were loaded may be those of several nodes, and code beyond memory
    has nothing behind its dot."""
    found = ROW_OF_PATH.fullmatch(text)
    bare = "" if found and found["word"] == "  ." else LABEL
    is_alone = found and not found["others"] and re.fullmatch(bare, found["code"])
    return found if is_alone or found and CODE_OF_ROW.fullmatch(found["code"]) else None


def has_code_of(text, images):
    """Whether a row of the table of the path ends with what the program of its node has at its address, and as many other
    programs have there, too."""
    row = row_of_path(text)
    if row is None or row["word"] == "  .":
        return row is not None
    node, word = int(row["node"]), int(row["word"], 16)
    same = [it for it in {*images, node} if code_of(images.get(it), word) == row["code"]]
    return node in same and len(same) > int(row["others"] or 0)


def bottleneck(works, on_path, length, rings, faster):
    """The sentence, by the turns in which each node works, by its turns on the path, and by the length of the window if a node
    is twice as fast."""
    if rings:
        return "Bottleneck: the deadlock. The nodes of a ring wait for one another for good.\n"
    node, waited = max(sorted(on_path.items()), key=lambda it: it[1])
    if not waited:
        return "Bottleneck: none. No node works in these turns.\n"
    shares = f"in {waited * 100 // length} % of the turns, and it works in {works[node] * 100 // length} %."
    turns = faster(node)
    gain = f"take {-(-turns * 100 // length)} % of them" if turns < length else "be no shorter"
    return f"Bottleneck: {node:03}. The run waits for it {shares}\nIf it worked twice as fast, the run would {gain}.\n"


def stuck_text(nodes):
    """The line of the nodes that wait for good for their words to be read."""
    names = "".join(f" {node:03}" for node in nodes)
    return f"Stuck, since no node reads its word:{names}.\n" if names else ""


@dataclass
class Profile:
    """The profile of a run: a window, what each node did in it, and what its end shows. `path` has turns by node and word."""

    first: int
    end: int
    nodes: dict
    passes: dict
    path: Counter
    stacks: dict
    stuck: list
    bottleneck: str
    at_end: str
    images: dict

    def began(self):
        return [node for node, it in self.nodes.items() if it.began is not None]

    def length(self):
        return max(self.end - self.first, 0)

    def on_path(self):
        return {node: sum(turns for (other, _), turns in self.path.items() if other == node) for node in NODES}


def profile_of(run, where="last"):
    """The profile of a run, from the turn in which the last or the first node began, or from the one with a number."""
    steps = run.look()
    spinning = {node: run.spinning_from(node) for node in NODES}
    whole = [doing_of(some, 0, spinning[node]) for node, some in steps.items()]
    began = [it.began for it in whole if it.began is not None] or [0]
    first = {"last": max(began), "first": min(began)}.get(where)
    first = int(where) if first is None else first
    end = max((it.last for it in whole if it.last is not None), default=-1) + 1
    steps = {node: [step for step in some if step.turn < end] for node, some in steps.items()}
    nodes = {node: doing_of(some, first, spinning[node]) for node, some in steps.items()}
    ended = states_of(run.where[end])
    for node, it in nodes.items():
        it.wait(awaited(ended.get(node, IDLE)), it.turns_between(first, end))
    latest = max(NODES, key=lambda node: (-1 if nodes[node].last is None else nodes[node].last, node))
    stacks = {node: stacks_of(some) for node, some in steps.items() if nodes[node].began is not None}
    passes = {node: pass_of(some, first) for node, some in steps.items()}
    path, stuck = path_of(steps, first, latest), run.unread_behind(end)
    found = Profile(first, end, nodes, passes, path, stacks, stuck, "", run.nodes_behind(end), run.images)
    worked = {node: [step for step in some if step.turn < spinning[node]] for node, some in steps.items()}
    found.bottleneck = bottleneck_of(found, worked, [line for line in run.where[end] if line.startswith("ring ")])
    return found


def bottleneck_of(profile, steps, rings):
    """What a profile says of the bottleneck, with the lines of rings, and of words that are never read."""
    works = {node: it.counts["works"] for node, it in profile.nodes.items()}
    text = bottleneck(works, profile.on_path(), profile.length(), rings, partial(length_if_faster, steps, profile.first))
    return text + "".join(f"{line}\n" for line in rings) if rings else stuck_text(profile.stuck) + text


def profile_text(it):
    """The text of a profile."""
    length, on_path = it.length(), it.on_path()
    rows = "".join(row(node, it.nodes[node], it.passes[node], on_path[node], length) for node in it.began())
    lines = lines_text(alike_of(it.path, on_path, it.images), length, it.images)
    stacks = stacks_text(it.stacks, it.images)
    return f"{length} turns from turn {it.first} on\n{HEAD}{rows}{LEGEND}{it.bottleneck}{lines}{stacks}At the end:\n{it.at_end}"


def profile_json(it):
    """A profile as JSON, on a line."""
    on_path = it.on_path()
    value = {
        "bottleneck": it.bottleneck,
        "lines": [line_numbers(*line) for line in lines_of(it.path, on_path)],
        "nodes": [node_numbers(node, it.nodes[node], it.passes[node], on_path[node], it.stacks[node]) for node in it.began()],
        "stuck": [f"{node:03}" for node in it.stuck],
        "window": {"end": it.end, "first": it.first},
    }
    return json.dumps(value, separators=(",", ":")) + "\n"


def stack_numbers(data, back):
    """How deep the stacks of a node were, as an object of JSON, and where they first had no room."""
    passed = [None if stack.passed is None else f"{stack.passed % 0x400:03X}" for stack in (data, back)]
    return {"data": data.most, "data_passed": passed[0], "return": back.most, "return_passed": passed[1]}


def line_numbers(node, word, turns):
    """A word of memory on the path, as an object of JSON."""
    return {"name": f"{node:03}", "path": turns, "word": None if word is None else f"{word:03X}"}


def node_numbers(node, it, mean, on_path, stacks):
    """What a node did, as an object of JSON."""
    return {
        "name": f"{node:03}",
        "pass": mean and dict(zip(("turns", "works"), mean)),
        "path": on_path,
        "stacks": stack_numbers(*stacks),
        "turns": {name: it.counts[kind] for name, kind in COUNTS.items()},
        "words": {"in": it.taken, "out": it.posted},
    }
